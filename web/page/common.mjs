/*
 * What the parts of the page share: what it knows of files and volumes, and small things of which
 * all of them make use.
 */
import {made} from "../elements.mjs";
import {shownName} from "../names.mjs";

const KEPT_MILLISECONDS = 60000; // how long a browser may take to begin to save

export const NOT_YET = "The files are still being looked at.";

/**
 * Each file: {name, bytes, what, had, wants, entry}: what `list` says of it, the units that it has
 * and those that it wants, and the entry of a volume that it is of. `removed` has files of no
 * volume that were removed, so that one of them can be taken again. A file that is no code file may
 * have a `form`, as forms.mjs has them, or a `note` of what else it is. Each volume: {image,
 * volume, entries, box, copy}: the name of the image, what volume.mjs made of it, its part of the
 * page, and the copy that was made last. Each entry: {file, bytes, what, had, wants, box}, with its
 * box to check, and without bytes where the image does not have them all.
 */
export const state = {
  files: [],
  wanted: [],
  volumes: [],
  removed: [],
  linked: null,
  round: 0, // how often the files were changed
  underWay: 0, // how much work is under way
  action: "", // what was done last, until it is told
  // what a person chose and wrote: a volume; the host for which a name was written, and the host
  // and the volume for which one was offered; and whether the image has a name
  target: null,
  namedFor: null,
  offered: null,
  isImageNamed: false,
};

export const byId = (id) => document.getElementById(id);

export const count = (number, one, more = `${one}s`) => `${number} ${number === 1 ? one : more}`;

export const nameOf = (name) => made("bdi", {textContent: shownName(name)});

export const hostOf = () => state.files[0];

/** Whether what `list` says of a file is that it has code. */
export const hasCode = ({what}) => /, (host|library|linked|mixed)$/.test(what);

/** The name of a file without what says how it was packed, for names that are made of it. */
export const baseOf = ({name, base}) => base ?? name.replace(/\.(gz|bin|b64|hex|txt)$/i, "");

/** Names of units, without the blanks at their ends. */
export const listed = (names) => names.map((name) => shownName(name.trimEnd())).join(", ");

/** Tells a reader of screens what was done, and what comes of it. */
export function say(...sentences) {
  byId("told").textContent = [state.action, ...sentences].filter(Boolean).join(" ");
  state.action = "";
}

export function saveFile(name, bytes, type = "application/octet-stream") {
  const href = URL.createObjectURL(new Blob([bytes], {type}));
  made("a", {href, download: name}).click();
  setTimeout(() => URL.revokeObjectURL(href), KEPT_MILLISECONDS);
}
