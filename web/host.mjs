/*
 * The host of the command line over node: memory, arguments, files and streams for the module
 * pslink_command.wasm, which is the program. What each function answers is said in
 * everywhere/crates/host_files/host.rt.txt. Paths are node's strings.
 */

import {closeSync, openSync, readSync} from "node:fs";
import {areOne, statOf, systemPath, writeSome} from "./files.mjs";

const MISSING = -1, FOLDER = -2, FORBIDDEN = -3, NO_PATH = -4, OTHER = -5;
const CAUSES = {
  ENOENT: MISSING,
  ENOTDIR: MISSING,
  EISDIR: FOLDER,
  EACCES: FORBIDDEN,
  EPERM: FORBIDDEN,
  EBUSY: FORBIDDEN,
  ERR_INVALID_ARG_VALUE: NO_PATH,
};

// what host_arg answers in place of a length
const NO_ARGUMENT = -1n, TOO_LONG = -2n;

const OUTPUT = 1, ERROR = 2;
const PAGE_SIZE = 65536, ALIGNMENT = 16, MEMORY_MAX = 2 ** 31;

/** The functions that one run of the module asks for, and the memory that they work in. */
export class Host {
  #arguments;
  #streams;
  #memory;
  #free;

  /**
   * @param {string[]} words the name of the program and what follows it
   * @param {{output: number, error: number}} streams the files that are standard output and
   *   standard error, by their numbers
   */
  constructor(words, {output, error}) {
    this.#arguments = words.map(bytesOf);
    this.#streams = {[OUTPUT]: output, [ERROR]: error};
  }

  /** Takes the memory of the module, of which what is from this place on is free. */
  begin(memory, free) {
    this.#memory = memory;
    this.#free = free;
  }

  /** What the module imports. */
  get imports() {
    return {env: {...this.#heap(), ...this.#files(), ...this.#paths()}};
  }

  // Nothing is given back: the memory is that of one command.
  #heap() {
    return {
      rattle_alloc: (answer, size) => this.#answer(answer, this.#place(size)),
      rattle_realloc: (answer, block, kept, size) => {
        const place = this.#place(size);
        if (place !== null) this.#bytes(place, kept).set(this.#bytes(block, kept));
        this.#answer(answer, place);
      },
      rattle_dealloc: () => {},
    };
  }

  #files() {
    return {
      host_arg: (number, room, size) => this.#argument(this.#arguments[Number(number)], room, size),
      host_open: (path, length) => opened(this.#text(path, length), "r"),
      host_create: (path, length) => opened(this.#text(path, length), "w"),
      host_length: (file) => {
        const stat = statOf(Number(file));
        return stat?.isFile() ? stat.size : 0n;
      },
      host_read: (file, room, size) =>
        attempt(() => readSync(Number(file), this.#bytes(room, size))),
      host_write: (file, bytes, size) =>
        attempt(() => writeSome(this.#file(file), this.#bytes(bytes, size))),
      host_close: (file) => attempt(() => (closeSync(Number(file)), 0)),
    };
  }

  #paths() {
    return {
      host_are_one: (path, length, other, otherLength) => {
        const one = statOf(this.#text(path, length));
        return one?.isFile() && areOne(one, statOf(this.#text(other, otherLength))) ? 1 : 0;
      },
      host_leads_to_output: (path, length) => {
        return areOne(statOf(this.#text(path, length)), statOf(this.#streams[OUTPUT])) ? 1 : 0;
      },
    };
  }

  #argument(text, room, size) {
    if (text === undefined) return NO_ARGUMENT;
    if (BigInt(text.length) > size) return TOO_LONG;
    this.#bytes(room, text.length).set(text);
    return BigInt(text.length);
  }

  #file(number) {
    return this.#streams[number] ?? Number(number);
  }

  #bytes(place, length) {
    return new Uint8Array(this.#memory.buffer, Number(place), Number(length));
  }

  #text(place, length) {
    return new TextDecoder("utf-8", {ignoreBOM: true}).decode(this.#bytes(place, length));
  }

  /** The place of so many bytes that nothing else has; null where there is no memory. */
  #place(size) {
    const place = Math.ceil(this.#free / ALIGNMENT) * ALIGNMENT,
          end = place + Math.max(Number(size), 1);
    const lacking = end - this.#memory.buffer.byteLength;
    if (end > MEMORY_MAX) return null;
    try {
      // (a quarter more, so that it is seldom made to grow)
      if (lacking > 0)
        this.#memory.grow(Math.ceil(lacking / PAGE_SIZE) +
          Math.floor(this.#memory.buffer.byteLength / PAGE_SIZE / 4));
    } catch {
      return null;
    }
    this.#free = end;
    return place;
  }

  #answer(answer, place) {
    const view = new DataView(this.#memory.buffer);
    view.setBigUint64(Number(answer), place === null ? 0n : 1n, true);
    view.setBigUint64(Number(answer) + 8, BigInt(place ?? ALIGNMENT), true);
  }
}

/**
 * An argument as bytes. Node has U+FFFD for what is no UTF-8: a byte that is none stands for it,
 * so that the module says so.
 */
function bytesOf(text) {
  const parts = text.split("\uFFFD").map(
    (part) => Buffer.from(part.isWellFormed() ? part : `${part.toWellFormed()}`));
  return Buffer.concat(parts.flatMap((part, k) => (k === 0 ? [part] : [Buffer.of(0xff), part])));
}

function opened(path, flags) {
  return attempt(() => openSync(systemPath(path), flags), path);
}

/** What work answers; or why there is nothing, by what node throws. */
function attempt(work, path = null) {
  try {
    return BigInt(work());
  } catch (error) {
    const cause = CAUSES[error.code] ?? OTHER;
    // (Windows forbids to open a folder)
    return BigInt(
      cause === FORBIDDEN && path !== null && statOf(path)?.isDirectory() ? FOLDER : cause);
  }
}
