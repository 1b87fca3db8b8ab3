/*
 * Files and streams for `pslink volume` and `pslink picture` over node, and what the host of the
 * program shares with them. Each is done at once and in order, so that one file alone is open at a
 * time.
 */

import {closeSync, fstatSync, openSync, readSync, realpathSync, statSync, writeSync} from "node:fs";
import {devNull} from "node:os";
import {isatty} from "node:tty";

/** The longest file that is read, in bytes. */
const LONGEST = 67108864;

const CHUNK = 65536, MILLISECONDS_TO_WAIT = 5, ERROR = 2;

// control characters, and those that end a line, take no room on it or turn its direction
const HIDDEN = /[\p{Cc}\p{Zl}\p{Zp}\p{Default_Ignorable_Code_Point}\uFFF9-\uFFFB]/u;
const LETTERS = {
  "\0": "0",
  "\t": "t",
  "\n": "n",
  "\r": "r",
  '"': '"',
  "\\": "\\"
};

/** A file that cannot be read, or that is too long. */
export class Unread extends Error {
  constructor(path, isTooLong = false) {
    super(isTooLong ? `${shownPath(path)} is longer than ${LONGEST} bytes` :
                      `cannot read ${shownPath(path)}`);
  }
}

/** A file that cannot be written, by its path, or standard output, which has none. */
export class Unwritten extends Error {
  constructor(path = null) {
    super(path === null ? "cannot write standard output" : `cannot write ${shownPath(path)}`);
  }
}

/** Whether there was no memory. */
export function isOutOfMemory(error) {
  return error instanceof RangeError && !/call stack/.test(error.message);
}

/**
 * The bytes of a file.
 * @param {string} path
 * @returns {Uint8Array}
 * @throws {Unread}
 */
export function readFile(path) {
  try {
    return withFile(path, "r", (file) => joined(partsOf(path, file)));
  } catch (error) {
    throw error instanceof Unread || isOutOfMemory(error) ? error : new Unread(path);
  }
}

function partsOf(path, file) {
  const stat = fstatSync(file), parts = [];
  let room = stat.isFile() ? Math.min(stat.size, LONGEST) + 1 : CHUNK, total = 0;
  for (;;) {
    const part = new Uint8Array(room), count = readSync(file, part);
    if (count === 0) return parts;
    total += count;
    if (total > LONGEST) throw new Unread(path, true);
    parts.push(part.subarray(0, count));
    room = CHUNK;
  }
}

function joined(parts) {
  if (parts.length === 1) return parts[0];
  const whole = new Uint8Array(parts.reduce((sum, part) => sum + part.length, 0));
  parts.reduce((at, part) => {
    whole.set(part, at);
    return at + part.length;
  }, 0);
  return whole;
}

/**
 * Writes a file whole. One that is there is emptied first, unless the file `isNew`.
 * @param {string} path
 * @param {Uint8Array} bytes
 * @param {{isNew?: boolean}} [options]
 * @throws {Unwritten}
 */
export function writeFile(path, bytes, {isNew = false} = {}) {
  try {
    withFile(path, isNew ? "wx" : "w", (file) => writeWhole(file, bytes));
  } catch {
    throw new Unwritten(path);
  }
}

function withFile(path, flags, work) {
  const file = openSync(systemPath(path), flags);
  try {
    return work(file);
  } finally {
    closeSync(file);
  }
}

function writeWhole(file, bytes) {
  for (let done = 0; done < bytes.length;) done += writeSome(file, bytes.subarray(done));
}

/**
 * Writes some of the bytes, and gives how many. A stream that takes none at the moment is waited
 * for.
 */
export function writeSome(file, bytes) {
  for (;;) {
    try {
      if (bytes.length === 0) return 0;
      // (a console of Windows shows UTF-8 by node's stream alone, which may come back to the bytes)
      if (process.platform !== "win32" || !isatty(file)) return writeSync(file, bytes);
      (file === ERROR ? process.stderr : process.stdout).write(bytes.slice());
      return bytes.length;
    } catch (error) {
      if (error.code !== "EAGAIN") throw error;
      Atomics.wait(new Int32Array(new SharedArrayBuffer(4)), 0, 0, MILLISECONDS_TO_WAIT);
    }
  }
}

/** The standard streams of a command, by the numbers of their files. */
export class Streams {
  #output;
  #error;

  constructor(output, error) {
    this.#output = output;
    this.#error = error;
  }

  /**
   * Prints a text or bytes on standard output.
   * @param {string | Uint8Array} what
   * @throws {Unwritten}
   */
  print(what) {
    try {
      writeStream(this.#output, what);
    } catch {
      throw new Unwritten();
    }
  }

  /** Prints a text on standard error. Where that takes none, there is nowhere to say so. */
  tell(text) {
    try {
      writeStream(this.#error, text);
    } catch {
      return;
    }
  }

  /** Whether a path leads to what standard output is. */
  isOutput(path) {
    return areOne(statOf(path), statOf(this.#output));
  }
}

function writeStream(file, what) {
  writeWhole(file, typeof what === "string" ? new TextEncoder().encode(what) : what);
}

/** Whether two paths lead to one plain file. Where no file is, they do not. */
export function leadToOneFile(path, other) {
  const one = statOf(path), two = statOf(other);
  if (!one?.isFile() || !two) return false;
  return areOne(one, two) || (one.ino === 0n && two.ino === 0n && isSameName(path, other));
}

/** Whether there is a file or a folder at a path. */
export function isThere(path) {
  return statOf(path) !== null;
}

/** Whether two files are one, by their number and device. The number is 0 where none is known. */
export function areOne(one, other) {
  return one !== null && other !== null && one.ino !== 0n && one.ino === other.ino &&
    one.dev === other.dev;
}

function isSameName(path, other) {
  return realpathSync.native(systemPath(path)) === realpathSync.native(systemPath(other));
}

/** What the system says of a file, by its path or its number; null where there is none. */
export function statOf(file) {
  try {
    return typeof file === "number" ? fstatSync(file, {bigint: true}) :
                                      statSync(systemPath(file), {bigint: true});
  } catch {
    return null;
  }
}

/**
 * The path by which node finds the file. Of the device NUL node would make a file in the folder.
 */
export function systemPath(path, platform = process.platform) {
  return platform === "win32" && /^nul:?$/i.test(path) ? devNull : path;
}

/**
 * A path in a line for a person: as it is, or, where it has a hidden character, in quotes with
 * each of these escaped.
 */
export function shownPath(path) {
  return HIDDEN.test(path) ? `"${Array.from(path, escaped).join("")}"` : path;
}

function escaped(character) {
  if (LETTERS[character]) return `\\${LETTERS[character]}`;
  return HIDDEN.test(character) ? `\\u{${character.codePointAt(0).toString(16)}}` : character;
}
