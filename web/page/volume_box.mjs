/*
 * A volume as the page shows it: what it is, and its files, each with a box that takes it into the
 * link.
 */
import {made} from "../elements.mjs";
import {shownName} from "../names.mjs";
import {count, hasCode, listed, nameOf} from "./common.mjs";

const CODE_FILE = 2; // the kind of a code file in a directory
const FIRST = 3; // so many warnings of a volume are shown at once

const partsOfVolume = ({format, bigEndian, blocks, freeBlocks, duplicate}) => [format,
  bigEndian ? "big-endian" : "little-endian", count(blocks, "block"), `${freeBlocks} free`,
  ...(duplicate ? ["a duplicate directory"] : [])].join(", ");

const dateParts = ({year, month, day}) => [year, month, day];

/** A day of a directory in words. */
const dayOf = (date) =>
  date ? dateParts(date).map((part) => String(part).padStart(2, "0")).join("-") : "no date";

/** The day of a file, or that it was never closed. */
export const whenOf = ({date, isUnclosed}) => isUnclosed ? "never closed" : dayOf(date);

/** Whether an entry is a code file, by its kind or by what it has. */
export const isCode = (entry) => entry.file.kind === CODE_FILE || hasCode(entry);

const part = (className, textContent) => made("span", {className, textContent});

/** The units that an entry wants and has. */
function unitsOf({had = [], wants = []}) {
  const wanted = wants.length ? [`wants ${listed(wants)}`] : [];
  return [...wanted, ...(had.length ? [`has ${listed(had)}`] : [])].join("; ");
}

function entryLine(entry, of, {choose, save}) {
  const {file, what} = entry, disabled = entry.bytes === null;
  entry.box = made("input", {type: "checkbox", disabled, onchange: () => choose(entry)});
  const kind = `${file.kindName}: ${what.replace(/(^|, )\d+ bytes, /, "$1")}`;
  const label = made("label", {}, entry.box, made("span", {className: "name"}, nameOf(file.name)),
    part("size", count(file.size, "byte")), part("date", whenOf(file)), part("what", kind),
    part("units", unitsOf(entry)));
  return made("li", {}, label, made("button", {
    type: "button",
    disabled,
    textContent: "Save",
    label: `Save ${shownName(`${of}:${file.name}`)}`,
    onclick: () => save(entry)
  }));
}

/** What there is to say of a volume: the first sentences, and how many more there are. */
function warningsOf(sentences) {
  const warning = (textContent) => made("p", {className: "warning", textContent});
  const first = sentences.slice(0, FIRST).map(warning), more = sentences.slice(FIRST).map(warning);
  if (more.length < 2) return [...first, ...more];
  const words = made("summary", {className: "warning", textContent: `and ${more.length} more`});
  return [...first, made("details", {className: "flaws"}, words, ...more)];
}

/** The other files of a volume, which are shown when a person asks for them. */
function othersOf(others, list) {
  if (others.length === 0) return [];
  return [made(
    "details", {}, made("summary", {textContent: count(others.length, "other file")}), list)];
}

/**
 * The part of the page about a volume.
 * @param {object} opened
 * @param {{choose: (entry: object) => void, save: (entry: object) => void, close: () => void}} acts
 */
export function volumeBox({image, volume, entries}, acts) {
  const code = entries.filter(isCode), others = entries.filter((entry) => !isCode(entry));
  const list = (some, label) => made("ul", {className: "entries", label},
    ...some.map((entry) => entryLine(entry, volume.name, acts)));
  const codeList = list(code, `Code files of ${volume.name}`);
  const otherList = list(others, `Other files of ${volume.name}`);
  const button = made("button", {
    type: "button",
    textContent: "Close",
    label: `Close ${shownName(image)}`,
    onclick: acts.close
  });
  return made("div", {className: "volume"},
    made("div", {className: "title"}, made("h3", {}, nameOf(`${volume.name}:`)), button),
    made("p", {className: "quiet"}, nameOf(image), `: ${partsOfVolume(volume)}`),
    ...warningsOf([...volume.flaws, ...volume.notes]),
    code.length ? codeList : made("p", {textContent: "The volume has no code file."}),
    ...othersOf(others, otherList));
}
