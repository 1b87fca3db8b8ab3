/*
 * The linked file onto a volume: into a copy of its image, which is saved. The next one goes onto
 * the copy that was made last.
 */
import {made} from "../elements.mjs";
import {nameOfFile, nameWith, shownName} from "../names.mjs";
import {VolumeError, openVolume} from "../volume.mjs";
import {NOT_YET, baseOf, byId, count, hostOf, saveFile, say, state} from "./common.mjs";
import {whenOf} from "./volume_box.mjs";

const CODE_FILE = 2, ENDING = ".L.CODE", BASE_MAX = 8; // a name has 15 characters at most

/** The volume that a person chose, or else that of the host, or else the first. */
function targetVolume() {
  return state.volumes.find((opened) => opened === state.target) ??
    state.volumes.find(({entries}) => entries.includes(hostOf().entry)) ?? state.volumes[0];
}

/**
 * What the next file is put onto: the copy that was made last, or else the image that was given.
 */
const lastOf = (opened) => opened.copy ?? opened;

/** A name that a new file of the volume can have, and no file of it has. */
function nameOnVolume(host, {files}) {
  const letters =
    host.replace(/^.*:/, "").toUpperCase().replace(/\.CODE$/, "").replace(/[^A-Z0-9]/g, "");
  const taken = new Set(files.map(({name}) => name.toUpperCase())), base = letters || "LINKED";
  for (let number = 1;; number++) {
    const end = number === 1 ? "" : String(number);
    const name = `${base.slice(0, BASE_MAX - end.length)}${end}${ENDING}`;
    if (!taken.has(name)) return name;
  }
}

/** The volumes as a choice: where two have the same words, the later ones have a number. */
function optionsOf(volumes) {
  const words =
    volumes.map(({image, volume}) => `${shownName(volume.name)}: of ${shownName(image)}`);
  return words.map((one, k) => {
    const before = words.slice(0, k).filter((other) => other === one).length;
    return made("option", {textContent: before ? `${one} (${before + 1})` : one});
  });
}

/**
 * Draws what is offered for the linked file and the volumes. A name stays as long as the host does.
 */
export function drawPutting() {
  byId("keeping").hidden = state.volumes.length === 0 || !state.linked;
  if (byId("keeping").hidden) return;
  const host = hostOf().entry ?? hostOf(), opened = targetVolume(), {offered} = state;
  byId("put-volume").replaceChildren(...optionsOf(state.volumes));
  byId("put-volume").selectedIndex = state.volumes.indexOf(opened);
  if (offered?.host !== host || (offered.opened !== opened && !offered.isWritten)) {
    state.offered = {host, opened, isWritten: false};
    byId("put-name").value = nameOnVolume(baseOf(hostOf()), lastOf(opened).volume);
  }
  drawPlace();
}

/** Where the linked file would get on the volume, or why it cannot be put there. */
function drawPlace() {
  const opened = targetVolume(), {volume} = lastOf(opened), name = byId("put-name").value;
  const {old, refusal} = placeOf(volume, name);
  const where = old ?
    `In place of ${shownName(old.name)}, ${count(old.size, "byte")}, ${whenOf(old)}.` :
    `As a new file of ${shownName(volume.name)}.`;
  byId("put-what").textContent = refusal ?? where;
  byId("put-what").className = refusal ? "bad" : "quiet";
  byId("put").disabled = Boolean(refusal);
  drawWarnings(refusal ? [] : warningsOf(volume, name, old));
  drawLast(opened);
  const codes = volume.files.filter(({kind}) => kind === CODE_FILE);
  byId("put-names").replaceChildren(...codes.map((file) => made("option", {value: file.name})));
  if (!state.isImageNamed) byId("put-image").value = nameWith(nameOfFile(opened.image), "linked");
  tellPut("");
}

/** The file that would be replaced, if there is one; or why nothing can be put. */
function placeOf(volume, name) {
  try {
    return volume.place(name, state.linked.length);
  } catch (error) {
    if (!(error instanceof VolumeError)) throw error;
    return {old: null, refusal: error.message};
  }
}

/**
 * What a person may not want: the host is lost in the copy, or the p-System does not run the file.
 */
function warningsOf(volume, name, old) {
  const isSame = (one, other) =>
    one.length === other.length && one.every((byte, k) => byte === other[k]);
  const isHost = old && isSame(volume.take(old), hostOf().bytes);
  return [
    ...(isHost ? ["It is the host: the unlinked host is then in the old image alone."] : []),
    ...(/\.CODE$/i.test(name) ? [] :
                                ["A file that the p-System runs has a name that ends with .CODE."]),
  ];
}

function drawWarnings(sentences) {
  byId("put-warnings")
    .replaceChildren(
      ...sentences.map((textContent) => made("p", {className: "warning", textContent})));
}

/** Which image the next put goes on with. */
function drawLast(opened) {
  const {copy} = opened, box = byId("put-last");
  box.hidden = !copy;
  if (!copy) return box.replaceChildren();
  const again = () => {
    delete opened.copy;
    drawPlace();
    byId("put-name").focus();
  };
  return box.replaceChildren(
    `It goes on with ${shownName(copy.image)}, which has ${copy.names.map(shownName).join(", ")}. `,
    made("button",
      {type: "button", textContent: `Go back to ${shownName(opened.image)}`, onclick: again}));
}

function tellPut(sentence) {
  byId("put-told").textContent = sentence;
  byId("put-told").hidden = !sentence;
  if (sentence) say(sentence);
}

/** Puts the linked file onto a copy of the image, and saves that. */
export function onPut(event) {
  event.preventDefault();
  if (!state.linked) return say(NOT_YET);
  const opened = targetVolume(), {volume} = lastOf(opened), {names = []} = lastOf(opened);
  const name = byId("put-name").value.toUpperCase(), as = byId("put-image").value;
  const {image, first, blocks, replaced} = volume.put(name, state.linked);
  saveFile(as, image);
  const onIt = [...names.filter((other) => other !== name), name];
  opened.copy = {image: as, volume: openVolume(image), names: onIt};
  drawPlace();
  const place = blocks === 1 ? `block ${first}` : `blocks ${first} to ${first + blocks - 1}`;
  const how = replaced ? "in place of the old one" : "as a new file";
  return tellPut(`Saved: ${shownName(as)}. On ${shownName(volume.name)}, ${shownName(name)} is in ${
    place}, ${how}. ${shownName(opened.image)} is as it was.`);
}

/** What a person chooses and writes in the fields. */
export function listenToPutting() {
  byId("put-volume").addEventListener("change", ({target}) => {
    state.target = state.volumes[target.selectedIndex];
    drawPutting();
  });
  byId("put-name").addEventListener("input", () => {
    state.offered.isWritten = true;
    drawPlace();
  });
  byId("put-image").addEventListener("input", () => {
    state.isImageNamed = true;
  });
}
