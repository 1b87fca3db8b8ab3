/*
 * What the page shows of one segment of the linked file, or of its dictionary: where it is from,
 * its bytes with each place that the link stores, and what each place had and has.
 */
import {colourOf, counted, grouped, made, twoDigits} from "../elements.mjs";
import {shownName} from "../names.mjs";
import {DICTIONARY} from "../pictured.mjs";

const BLOCK = 512, FIRST_LINES = 48; // lines that are shown at once
const WIDE = 16, NARROW = 8, WIDE_ROOM = 600; // bytes of a line, and the pixels for the longer one
const NOTE = 34; // letters of what stands beside a line
const TO = {
  UNITREF: "to units",
  PUBLREF: "to variables of the program",
  PRIVREF: "to variables of its own"
};

const hex = (byte) => byte.toString(16).toUpperCase().padStart(2, "0");
const hexes = (bytes) => Array.from(bytes, hex).join(" ");
const letter = (byte) => byte > 32 && byte < 127 ? String.fromCharCode(byte) : "·";
const range = (first, end) => Array.from({length: Math.max(0, end - first)}, (_, k) => first + k);

/** What an operand or a field names, as "ATTRIBS+2". */
const operandOf = ({what, name, displacement}) =>
  name ? `${name}${displacement ? `+${displacement}` : ""}` : what;

/** What is stored at a place, in sentences. */
function toldOfStore(store, {block}, {slots}) {
  const {what, name, record, at, was, is, isChanged, displacement, base} = store;
  const change =
    isChanged ? `${hexes(was)} becomes ${hexes(is)}` : `${hexes(is)} is stored, as it was`;
  const place = `Byte ${at} (${BLOCK * block + at} of the linked file): ${change}.`,
        of = `${what} ${name}, record ${record}`;
  if (what === "number") return `${place} It is the number of the segment.`;
  if (what === "data size") return `${place} It is the data size of the outer block.`;
  if (what === "dictionary") return `${place} It is the ${name}.`;
  if (what === "UNITREF") return `${place} ${of}: slot ${is[0]} has ${slots[is[0]]?.name ?? name}.`;
  return `${place} ${of}: displacement ${displacement} + base offset ${base} = ${
    displacement + base}.`;
}

/** How many references of each kind a segment has, in words. */
function referencesOf(stores) {
  const kinds = Object.entries(TO).map(
    ([kind, words]) =>
      ({count: stores.filter(({what}) => what === kind).length, words: `${words} (${kind})`}));
  return kinds.filter(({count}) => count)
    .map(({count, words}, k) => `${k ? grouped(count) : counted(count, "reference")} ${words}`);
}

/** What a segment is, in sentences. */
function toldOfSegment({entry, block, length, stores, changes, privates, code, isLinked}) {
  const last = block + Math.ceil(length / BLOCK) - 1,
        blocks = last === block ? `block ${block}` : `blocks ${block} to ${last}`;
  const references = referencesOf(stores),
        differ = `${counted(changes.length, "byte differs", "bytes differ")}.`;
  const places = `The link stores ${counted(stores.length, "place")}${
    references.length ? `, with ${references.join(", ")}` : ""}.`;
  const own = privates.map(
    ({name, offset, words}) => `${name.trimEnd()} at word ${offset}, ${counted(words, "word")}`);
  const size =
    `${counted(length, "byte")}${isLinked ? `, ${counted(code[length - 1], "procedure")}` : ""}`;
  return [
    `, entry ${entry}. ${size}, in ${blocks} of the linked file.`,
    ...(stores.length ? [`${places} ${differ}`] : []),
    ...(own.length ? [`Its variables: ${own.join("; ")}.`] : [])
  ].join(" ");
}

function toldOfDictionary({stores, changes}) {
  return `, block 0. The link changes ${counted(stores.length, "field")}: ${
    counted(changes.length, "byte differs", "bytes differ")}.`;
}

// ---- Bytes

/** The lines of a code: all, or those that have a place, and those beside them. */
function linesOf({length, stores}, width, isWhole) {
  const near = new Set(stores.flatMap(
    ({at, size}) => range(Math.floor(at / width) - 1, Math.floor((at + size - 1) / width) + 2)));
  return range(0, Math.ceil(length / width))
    .filter((line) => isWhole || stores.length === 0 || near.has(line));
}

/** What there is on a line, by name: the places that begin there, and the tables that end there. */
function noteOf({stores, tables}, from, end, places) {
  const begun = [...new Set(range(from, end).flatMap((at) => places.get(at) ?? []))].map(
    (place) => stores[place]);
  const names = begun.filter(({at}) => at >= from).map(operandOf);
  const ended = tables.filter(([, last]) => last > from && last <= end).map(([, ,
    number]) => number ? `table of procedure ${number}` : "procedure dictionary");
  const words = [...names, ...ended].join(", ");
  return words.length > NOTE ? `${words.slice(0, NOTE - 1)}…` : words;
}

/** The bytes of a line as they are, and as they were at its places. */
function bytesOf({code, before, stores}, from, end, {places, reserved}) {
  const now = [], old = [];
  for (let at = from; at < end;) {
    const place = places.get(at), store = stores[place],
          to = store ? Math.min(end, store.at + store.size) : at + 1;
    const textContent = hexes(code.subarray(at, to));
    if (store) {
      const part = made("b",
        {className: store.isChanged ? "changed" : "same", textContent, title: operandOf(store)});
      part.dataset.place = place;
      now.push(part, " ");
    } else {
      now.push(reserved.has(at) ? made("i", {textContent}) : textContent, " ");
    }
    old.push(store ? `${hexes(before.subarray(at, to))} ` : "   ");
    at = to;
  }
  return {now, old: old.join("").trimEnd()};
}

/**
 * The parts of a line, and below it what its places had. In a narrow line the names stand below it
 * too.
 */
function lineOf(segment, line, width, of) {
  const from = line * width, end = Math.min(from + width, segment.code.length),
        blanks = width - (end - from);
  const {now, old} = bytesOf(segment, from, end, of),
              part = (className, textContent) => made("span", {className, textContent});
  const letters = Array.from(segment.code.subarray(from, end), letter).join("");
  const names = noteOf(segment, from, end, of.places), isWide = width === WIDE,
        left = " ".repeat(7);
  return [
    part("at", `${String(from).padStart(5)}  `), ...now,
    part("letters", `${"   ".repeat(blanks)} ${letters}`),
    ...(isWide ? [part("names", `${" ".repeat(blanks)}  ${names}`)] : []), "\n",
    ...(old ? [part("old", `${left}${old}\n`)] : []),
    ...(!isWide && names ? [part("names", `${left}${names}\n`)] : [])
  ];
}

/** Lines, and how many were left out between two of them. */
function drawLines(box, segment, width, lines) {
  const places = new Map(
    segment.stores.flatMap(({at, size}, k) => range(at, at + size).map((byte) => [byte, k])));
  const reserved = new Set(segment.tables.flatMap(([first, end]) => range(first, end)));
  box.replaceChildren(...lines.flatMap((line, k) => {
    const left = line - (k ? lines[k - 1] + 1 : 0),
          told = `       ${counted(left, "line")} without a place\n`;
    const gap = left > 0 ? [made("span", {className: "gap", textContent: told})] : [];
    return [...gap, ...lineOf(segment, line, width, {places, reserved})];
  }));
}

// ---- The box

/** The bytes of a segment, of which a person goes from place to place. */
class Bytes {
  #segment;
  #model;
  #width;
  #show;
  #place = -1;
  #isWhole = false;
  #most = FIRST_LINES;
  #told = made("p", {className: "place"});
  #box;
  #whole =
    made("button", {type: "button", onclick: () => this.#redraw(!this.#isWhole, FIRST_LINES)});
  #more = made("button", {type: "button", onclick: () => this.#redraw(this.#isWhole, Infinity)});

  constructor(segment, model, room, show) {
    [this.#segment, this.#model, this.#show] = [segment, model, show];
    this.#width = room >= WIDE_ROOM ? WIDE : NARROW;
    this.#box = made(
      "pre", {className: "hex", tabIndex: 0, label: `Bytes of ${segment.name} in the linked file`});
    this.#box.setAttribute("role", "region");
    this.#told.setAttribute("aria-live", "polite");
    this.#told.textContent = segment.stores.length ?
      "Point at a marked byte, or go through them with the arrow keys." :
      "The link stores nothing in it: it is copied as it is.";
    for (const type of ["pointerover", "click"])
      this.#box.addEventListener(type, (event) => this.#onPoint(event));
    this.#box.addEventListener("keydown", (event) => this.#onKey(event));
    this.#redraw(false, FIRST_LINES);
  }

  /** The elements for the page. */
  get parts() {
    const step = (textContent, by) =>
      made("button", {type: "button", textContent, onclick: () => this.#go(this.#place + by)});
    const steps = this.#segment.stores.length ?
      [step("‹ Place before", -1), step("Next place ›", 1), this.#whole] :
      [];
    return [this.#told, this.#box, made("p", {className: "acts"}, ...steps, this.#more)];
  }

  #redraw(isWhole, most) {
    [this.#isWhole, this.#most] = [isWhole, most];
    const lines = linesOf(this.#segment, this.#width, isWhole);
    drawLines(this.#box, this.#segment, this.#width, lines.slice(0, most));
    this.#more.hidden = lines.length <= most;
    this.#more.textContent = `Show the other ${counted(lines.length - most, "line")}`;
    this.#whole.textContent = isWhole ? "Lines with a place alone" : "All lines";
    this.#mark();
  }

  #partsOf(place) {
    return this.#box.querySelectorAll(`[data-place="${place}"]`);
  }

  #mark() {
    for (const part of this.#box.querySelectorAll(".here")) part.classList.remove("here");
    for (const part of this.#partsOf(this.#place)) part.classList.add("here");
  }

  #choose(place) {
    const {stores, block} = this.#segment, store = stores[place];
    this.#place = place;
    if (this.#partsOf(place).length === 0) this.#redraw(this.#isWhole, Infinity);
    this.#mark();
    const told = toldOfStore(store, this.#segment, this.#model);
    this.#told.textContent = `${grouped(place + 1)} of ${grouped(stores.length)}. ${told}`;
    this.#show(BLOCK * block + store.at);
  }

  /** Chooses a place, or the first or the last of all, and brings it into sight. */
  #go(place) {
    this.#choose(Math.min(Math.max(place, 0), this.#segment.stores.length - 1));
    const there = this.#partsOf(this.#place)[0].getBoundingClientRect(),
          box = this.#box.getBoundingClientRect();
    this.#box.scrollTop += there.top - box.top - box.height / 2;
  }

  #onPoint({target}) {
    const place = Number(target.dataset?.place ?? -1);
    if (place >= 0 && place !== this.#place) this.#choose(place);
  }

  #onKey(event) {
    const place = {ArrowRight: this.#place + 1,
      ArrowLeft: this.#place - 1,
      Home: 0,
      End: Infinity}[event.key];
    const isOther = event.altKey || event.ctrlKey || event.metaKey;
    if (place === undefined || this.#segment.stores.length === 0 || isOther) return;
    event.preventDefault();
    this.#go(place);
  }
}

/**
 * The parts of the page about a segment.
 * @param {object} segment
 * @param {object} model
 * @param {number} room in pixels
 * @param {(byte: number) => void} show marks a byte of the linked file in the picture
 * @returns {Node[]}
 */
export function segmentBox(segment, model, room, show) {
  const {slot, name, role, file} = segment, isDictionary = slot === DICTIONARY;
  const title =
    isDictionary ? "Block 0, the segment dictionary" : `${twoDigits(slot)} ${name}, ${role}`;
  const told = isDictionary ? toldOfDictionary(segment) : toldOfSegment(segment);
  return [
    made("h3", {}, made("span", {className: `chip ${colourOf(file)}`}), title),
    made("p", {className: "quiet"}, "From ",
      made("bdi", {textContent: shownName(model.inputs[file].name)}), told),
    ...new Bytes(segment, model, room, show).parts
  ];
}
