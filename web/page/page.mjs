/*
 * What a person does with files on this page, and what is shown of them. What the module answers is
 * shown as it is. Each text of a file, its name too, gets on the page as text, and never as HTML.
 */
import {made} from "../elements.mjs";
import {nameOfFile, nameWith, shownName} from "../names.mjs";
import {modelOf} from "../pictured.mjs";
import {load} from "../pslink.mjs";
import {VolumeError, isVolume, openVolume, otherForm} from "../volume.mjs";
import {
  NOT_YET,
  baseOf,
  byId,
  count,
  hasCode,
  hostOf,
  listed,
  nameOf,
  saveFile,
  say,
  state
} from "./common.mjs";
import {formsOf} from "./forms.mjs";
import {patternOf} from "./lines.mjs";
import {PictureBox} from "./picture_box.mjs";
import {drawPutting, listenToPutting, onPut} from "./putting.mjs";
import {boxesOfTexts, drawText} from "./texts.mjs";
import {guarded, progress, setTerms, tellNothing, tellOutcome} from "./verdict.mjs";
import {volumeBox} from "./volume_box.mjs";

const FILE_MAX = 67108864; // what the program reads of a file
const CONVERTED_MAX = 8388608; // of which it is tried what would come of them
const SAMPLE = "sample.po"; // the name of the sample disk
const MEGABYTE = 1048576, DRAWN_MAX = 4194304; // what a file may have where the link is drawn
const MISSING_UNIT = 13; // the number of the fault that no library has a unit

const pictureBox = new PictureBox();
let pslink;

const roleOf = (k) => k === 0 ? "the host" : `library ${k}`;

// ---- The list of files

/** Draws the list of files anew; the focus stays in its row, or in the last one. */
function drawFiles() {
  const hasFiles = state.files.length > 0;
  byId("chosen").hidden = !hasFiles;
  byId("first-steps").hidden = byId("first-sample").hidden = hasFiles || state.volumes.length > 0;
  const {activeElement} = document, k = rowOf(activeElement);
  byId("files").replaceChildren(...state.files.map(row));
  if (k >= 0) focusRow(Math.min(k, state.files.length - 1), activeElement.className);
  for (const entry of state.volumes.flatMap(({entries}) => entries)) {
    entry.box.checked = state.files.some((file) => file.entry === entry);
  }
}

/** Which row an element is in, or -1. */
const rowOf = (element) => [...byId("files").children].indexOf(element.closest("li"));

function row(file, k) {
  const part = (className, textContent) => made("span", {className, textContent});
  return made("li", {}, part("role", k === 0 ? "Host" : `Library ${k}`),
    made("span", {className: "about"}, made("span", {className: "name"}, nameOf(file.name)),
      part("what", file.what), part("units", unitsOf(file, k)), part("warning", noteOf(file))),
    made("span", {className: "acts"}, ...rowButtons(file, k)));
}

function rowButtons(file, k) {
  const name = shownName(file.name), last = state.files.length - 1;
  const button = (className, textContent, label, more) =>
    made("button", {type: "button", className, textContent, label, ...more});
  const up = {disabled: k === 0, onclick: () => move(k, k - 1, "up")};
  const down = {disabled: k === last, onclick: () => move(k, k + 1, "down")};
  const first = {disabled: k === 0, onclick: () => move(k, 0, "host")};
  return [
    button("up", "Up", `Move ${name} up`, up), button("down", "Down", `Move ${name} down`, down),
    button("host", "Use as host", `Use ${name} as host`, first),
    ...(file.form ? [button("convert", file.form.words, `${file.form.words}: ${name}`,
                      {onclick: () => convert(file)})] :
                    []),
    button("remove", "Remove", `Remove ${name}`, {onclick: () => remove(k)})
  ];
}

function unitsOf(file, k) {
  const wanted = k === 0 && state.wanted.length ? [`wants ${listed(state.wanted)}`] : [];
  return [...wanted, ...(file.had.length ? [`has ${listed(file.had)}`] : [])].join("; ");
}

/** What a file is that is no code file, where the page knows it. */
function noteOf({form = null, note = null}) {
  return form ? `It ${form.told}.` : note ?? "";
}

function focusRow(k, kind) {
  const there = byId("files").children[k];
  const control =
    there?.querySelector(`.${kind}:enabled`) ?? there?.querySelector("button:enabled");
  (control ?? byId("choose")).focus();
}

function move(from, to, kind) {
  if (to < 0 || to >= state.files.length) return;
  const [file] = state.files.splice(from, 1);
  state.files.splice(to, 0, file);
  changed(`${shownName(file.name)} is now ${roleOf(to)}.`);
  focusRow(to, kind);
}

function remove(k) {
  const [file] = state.files.splice(k, 1);
  if (!file.entry) state.removed.push(file);
  changed(`${shownName(file.name)} is removed.`);
}

function removeAll() {
  state.removed.push(...state.files.filter(({entry}) => !entry));
  state.files = [];
  changed("All files are removed.");
  byId("choose").focus();
}

function onKey(event) {
  const k = rowOf(event.target);
  const step = {ArrowUp: -1, ArrowDown: 1}[event.key];
  if (event.altKey && step)
    move(k, k + step, step < 0 ? "up" : "down");
  else if (event.key === "Delete")
    remove(k);
  else
    return;
  event.preventDefault();
}

// ---- Giving files

// A file's line of `list` ends with what it is, as in "f: little-endian, 1536 bytes, host".
async function known(file) {
  const it = [{name: "f", bytes: file.bytes}], {text = ""} = await pslink.text("list", it);
  const had = await pslink.units("had", it), wanted = await pslink.units("wanted", it);
  const line = text.split("\n", 1)[0].replace(/^f: /, "");
  const what = line.replace(/(^|[ ,])1 bytes\b/, "$11 byte");
  return {...file, what, had: had.names ?? [], wants: wanted.names ?? []};
}

/**
 * A file that was given, or one of a volume; if it is no code file, with what would come of it, or
 * with what else it is.
 */
async function given(name, bytes) {
  const file = await known({name, bytes, entry: null});
  if (hasCode(file)) return file;
  const form = bytes.length > CONVERTED_MAX ? null : await formOf(bytes);
  return {...file, form, note: otherForm(bytes)};
}

/** The first form of which a code file or a volume comes; null if there is none. */
async function formOf(bytes) {
  for (const form of await formsOf(bytes)) {
    if (isVolume(form.bytes) || hasCode(await known({bytes: form.bytes}))) return form;
  }
  return null;
}

/**
 * Puts what comes of a file in its place, as a row of its own, or opens the volume that comes of
 * it.
 */
async function useForm(file) {
  const name = `${file.name}, ${file.form.named}`, {bytes} = file.form,
        k = state.files.indexOf(file);
  const action = `${shownName(name)} is in place of ${shownName(file.name)}.`;
  if (k < 0) return;
  if (isVolume(bytes)) {
    state.files.splice(k, 1);
    await open(name, bytes);
  } else {
    state.files.splice(k, 1, {...await known({name, bytes, entry: null}), base: baseOf(file)});
    putHostFirst();
  }
  changed(action);
  focusRow(Math.min(k, state.files.length - 1), "remove");
}

const convert = guarded(useForm);

const isHost = (file) => file.what.endsWith(" bytes, host");

/** A host that is not first is what was meant, if it is the only one. */
function putHostFirst() {
  if (state.files.filter(isHost).length !== 1) return;
  state.files.unshift(...state.files.splice(state.files.findIndex(isHost), 1));
}

/** Puts files behind the others. */
function insert(added, lost = []) {
  const hadHost = state.files.length > 0 && isHost(state.files[0]);
  state.files.push(...added);
  if (!hadHost) putHostFirst();
  const names = added.map(({name}) => shownName(name)).join(", ");
  changed(...lost, added.length ? `Added: ${names}.` : "");
}

// ---- A unit that no file has

/**
 * What a person can take that has the unit which is missing: entries of open volumes, and files
 * that were removed.
 */
function havingUnit({fault: number, about}) {
  if (number !== MISSING_UNIT) return [];
  const isChosen = (entry) => state.files.some((file) => file.entry === entry);
  const entries = state.volumes.flatMap(
    ({volume, entries: all}) =>
      all.filter((entry) => entry.bytes && !isChosen(entry)).map((entry) => fileOf(volume, entry)));
  return [...entries, ...state.removed].filter(({had}) => had.includes(about));
}

/**
 * What the page says of the file at fault in place of the program, where it knows what the file is.
 */
function instead(file) {
  const {form, note, name} = file;
  if (!form) return [{isInstead: true, sentence: `${shownName(name)}: ${note}`}];
  const act = () => convert(file);
  return [{isInstead: true, sentence: `${shownName(name)} ${form.told}.`, words: form.words, act}];
}

/**
 * Offers what can be done with the file at fault, or each file that has the unit which is missing.
 */
function offersFor({answer}) {
  const file = state.files[answer?.file ?? -1];
  if (file?.form || file?.note) return instead(file);
  const unit = listed([answer?.about ?? ""]);
  return havingUnit(answer ?? {}).map((file) => ({
    sentence: `${shownName(file.name)} has ${unit}.`,
    words: `Take ${shownName(file.name)}`,
    act: () => takeAgain(file)
  }));
}

function takeAgain(file) {
  state.removed = state.removed.filter((it) => it !== file);
  insert([file]);
}

// ---- Reading files

/** Why a file is not read, as a sentence. */
class UnreadError extends Error {}

async function read(file) {
  if (file.size > FILE_MAX) throw new UnreadError(`The file is longer than ${FILE_MAX} bytes.`);
  try {
    return new Uint8Array(await file.arrayBuffer());
  } catch {
    throw new UnreadError("The file cannot be read. It may be a folder, or gone.");
  }
}

async function add(all) {
  const added = [], lost = [];
  const size = all.reduce((sum, file) => sum + Math.min(file.size, FILE_MAX), 0);
  for (const [k, file] of all.entries()) {
    try {
      await progress(size, `Reading file ${k + 1} of ${all.length}: ${shownName(file.name)}`);
      const bytes = await read(file);
      if (isVolume(bytes))
        await open(file.name, bytes);
      else
        added.push(await given(file.name, bytes));
    } catch (error) {
      if (!(error instanceof UnreadError)) throw error;
      lost.push(`${shownName(file.name)}: ${error.message}`);
    }
  }
  byId("lost").textContent = lost.join("\n");
  byId("lost").hidden = lost.length === 0;
  insert(added, lost);
}

/**
 * The sample disk: its bytes that are not zero are in the page, each run of them with its place.
 */
function sampleDisk() {
  const [size, runs] = JSON.parse(byId("sample-disk").textContent), image = new Uint8Array(size);
  for (const [place, text] of runs) image.set(bytesOf(text), place);
  return image;
}

/** Opens the sample disk, and takes its program and what that wants into the link. */
async function onSample() {
  await open(SAMPLE, sampleDisk());
  const {volume, entries} = state.volumes.at(-1);
  insert(entries.map((entry) => fileOf(volume, entry)));
}

let adding = Promise.resolve();

/** Adds files after those that are being read. */
function give(all) {
  const files = [...all];
  if (files.length) adding = adding.then(() => guarded(add)(files));
}

// ---- What comes of the files

/**
 * Looks at the files anew. An answer that comes after the files were changed again is not shown.
 */
async function look() {
  const round = ++state.round, files = [...state.files];
  state.linked = null;
  pictureBox.wait();
  drawFiles();
  if (files.length === 0) return drawNothing();
  const size = files.reduce((sum, {bytes}) => sum + bytes.length, 0);
  await progress(
    size, `Linking ${count(files.length, "file")} of ${Math.ceil(size / MEGABYTE)} MiB`);
  if (round !== state.round) return undefined;
  const result = await pslink.link(files);
  await progress(size, "Writing the report");
  const report = await pslink.text("check", files);
  const wanted = await pslink.units("wanted", files);
  if (round !== state.round) return undefined;
  state.linked = result.done ? result.bytes : null;
  state.wanted = wanted.names ?? [];
  files.forEach((file, k) => {
    byId("files").children[k].querySelector(".units").textContent = unitsOf(file, k);
  });
  drawKeeping();
  tellOutcome({result, report}, result.done ? [] : offersFor(result));
  byId("texts").hidden = false;
  await drawPicture(files, {result, report});
  return Promise.all(boxesOfTexts().map((details) => drawText(pslink, details)));
}

function changed(...actions) {
  state.action = actions.filter(Boolean).join(" ");
  state.wanted = [];
  guarded(look)();
}

// ---- The picture

/**
 * Has the picture drawn once it comes into view. One of files that were changed in the meantime is
 * not.
 */
function drawPicture(files, {result, report}) {
  const large =
    files.filter(({bytes}) => bytes.length > DRAWN_MAX).map(({name}) => shownName(name));
  if (!result.done && !result.fault) return pictureBox.hide();
  if (large.length)
    return pictureBox.hide(`There is no picture of files of more than 4 MiB: ${large.join(", ")}.`);
  return pictureBox.show(() => modelOf(pslink, files, result, report));
}

function onSavePicture() {
  const host = baseOf(hostOf() ?? {name: ""}).replace(/^.*:/, ""),
        name = nameOfFile(host).replace(/(\.[^.]*)?$/, ".picture.svg");
  const svg = pictureBox.file(`The link of ${shownName(host)}`);
  if (svg === null) return say(NOT_YET);
  saveFile(name, svg, "image/svg+xml");
  return say(`Saved: ${name}.`);
}

function drawNothing() {
  for (const id of ["saving", "keeping", "texts"]) byId(id).hidden = true;
  for (const parts of document.querySelectorAll("#texts .parts")) parts.replaceChildren();
  pictureBox.hide();
  tellNothing();
}

// ---- Saving

/** What can be done with the linked file. A name that a person writes is for this host alone. */
function drawKeeping() {
  byId("saving").hidden = byId("keeping").hidden = !state.linked;
  if (!state.linked) return;
  const name = nameWith(nameOfFile(baseOf(hostOf()).replace(/^.*:/, "")), "linked");
  if (state.namedFor !== (hostOf().entry ?? hostOf())) byId("save-name").value = name;
  drawPutting();
}

function onSave(event) {
  event.preventDefault();
  if (!state.linked) return say(NOT_YET);
  const name = byId("save-name").value;
  saveFile(name, state.linked);
  return say(`Saved: ${shownName(name)}.`);
}

// ---- Volumes

async function open(name, bytes) {
  const volume = openVolume(bytes), opened = {image: name, volume, entries: []};
  for (const file of volume.files) opened.entries.push({file, ...await entryOf(volume, file)});
  const acts = {
    choose: (entry) => choose(opened, entry),
    close: () => closeVolume(opened),
    save: (entry) => saveEntry(opened, entry)
  };
  opened.box = volumeBox(opened, acts);
  byId("volume-list").append(opened.box);
  state.volumes.push(opened);
  byId("volumes").hidden = false;
  drawFiles();
  if (state.linked) drawPutting();
}

/** What a file of a volume is; where the image does not have all of it, why it cannot be taken. */
async function entryOf(volume, file) {
  try {
    return await given("", volume.take(file));
  } catch (error) {
    if (!(error instanceof VolumeError)) throw error;
    return {bytes: null, what: error.message};
  }
}

/** An entry of a volume as a file of the link. */
function fileOf(volume, entry) {
  return {...entry, name: `${volume.name}:${entry.file.name}`, entry};
}

function choose({volume}, entry) {
  const file = fileOf(volume, entry);
  if (entry.box.checked) return insert([file]);
  state.files = state.files.filter((other) => other.entry !== entry);
  return changed(`${shownName(file.name)} is removed.`);
}

/** Saves a file of a volume as it is there. */
function saveEntry({volume}, {file, bytes}) {
  const name = nameOfFile(file.name);
  saveFile(name, bytes);
  say(`Saved: ${name} of ${shownName(volume.name)}.`);
}

/** Closes a volume; its files are of the link no more. */
function closeVolume(opened) {
  const isOfIt = ({entry}) => opened.entries.includes(entry), gone = state.files.filter(isOfIt);
  const names = gone.map(({name}) => shownName(name)).join(", ");
  state.volumes = state.volumes.filter((it) => it !== opened);
  state.files = state.files.filter((file) => !isOfIt(file));
  opened.box.remove();
  byId("volumes").hidden = state.volumes.length === 0;
  changed(`${shownName(opened.volume.name)} is closed.`, gone.length ? `Removed: ${names}.` : "");
  byId("choose").focus();
}

// ---- The page

/** Opens the part of the manual to which a link leads, as "#manual-warnings". */
function openPlace(hash) {
  const place = hash && document.getElementById(hash.slice(1));
  if (!place) return;
  for (let around = place; around; around = around.parentElement) {
    if (around.localName === "details") around.open = true;
  }
  const told = place.querySelector(":scope > summary") ?? place;
  if (told === place) place.tabIndex = -1;
  place.scrollIntoView();
  told.focus({preventScroll: true});
}

function onLink(event) {
  const link = event.target.closest("a[href^='#']");
  if (!link) return;
  event.preventDefault();
  location.hash = link.hash; // first, so that the way back leads to the place before it
  openPlace(link.hash);
}

function onDrag(event) {
  event.preventDefault();
  const isWithin = event.type === "dragleave" && event.relatedTarget !== null;
  const isOver = event.type === "dragenter" || event.type === "dragover" || isWithin;
  byId("drop").classList.toggle("over", isOver);
  if (event.type === "drop") give(event.dataTransfer.files);
}

function listen() {
  for (const type of ["dragenter", "dragover", "dragleave", "drop"]) {
    document.documentElement.addEventListener(type, onDrag);
  }
  byId("choose").addEventListener("change", ({target}) => {
    give(target.files);
    target.value = "";
  });
  byId("sample").addEventListener("click", guarded(onSample));
  byId("files").addEventListener("keydown", onKey);
  byId("remove-all").addEventListener("click", removeAll);
  byId("saving").addEventListener("submit", guarded(onSave));
  byId("save-name").addEventListener("input", () => {
    state.namedFor = hostOf().entry ?? hostOf();
  });
  byId("putting").addEventListener("submit", guarded(onPut));
  listenToPutting();
  pictureBox.watch(guarded);
  byId("save-picture").addEventListener("click", guarded(onSavePicture));
  for (const details of boxesOfTexts()) {
    details.addEventListener("toggle", guarded(() => drawText(pslink, details)));
  }
  document.addEventListener("click", onLink);
  window.addEventListener("hashchange", () => openPlace(location.hash));
}

function bytesOf(base64) {
  const text = atob(base64), bytes = new Uint8Array(text.length);
  for (let k = 0; k < bytes.length; k++) bytes[k] = text.charCodeAt(k);
  return bytes;
}

async function start() {
  setTerms([...document.querySelectorAll("#manual-warnings dt")].map(
    ({id, textContent}) => ({id, pattern: patternOf(textContent)})));
  pslink = await load(bytesOf(byId("module").textContent));
  const release = await pslink.release(),
        parts = [10000, 100, 1].map((of) => Math.floor(release / of) % 100);
  byId("release").textContent = `pslink ${parts.join(".")}`;
  listen();
  openPlace(location.hash);
  byId("starting").hidden = true;
  document.documentElement.dataset.ready = "yes";
}

guarded(start)();
