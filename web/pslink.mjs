/*
 * The Linker of UCSD Pascal II.0 for Pascal units, over pslink.wasm: it links code files, and makes
 * the texts that the program pslink prints of them, from memory to memory. It reads no file, writes
 * none and keeps nothing between calls.
 *
 *     const pslink = await load(bytesOfTheModule);
 *     const files = [{name: "host.code", bytes}, {name: "library.code", bytes: more}];
 *     const linked = await pslink.link(files);
 *     if (linked.done) save(linked.bytes); else console.error(linked.fault ?? linked.status);
 *     console.log((await pslink.text("check", files)).text);
 *
 * What the module answers is proved, as pslink.h says of the library for C. This file lays files
 * out for it and reads what it answers: it is tested. Each call has an instance of its own, with
 * its memory, so no call meets what another left.
 *
 * Any bytes may be given as a file: one that is no code file is refused. An argument of a wrong
 * type is a TypeError. What pslink.h calls misuse is the status "misuse": no file, no such text, a
 * document of names. Where a call takes more memory than it may have, or than the engine gives, the
 * status is "no memory". Where the module traps or the engine's stack is used up, it is "trapped".
 * After each of them the next call is as any other.
 */

/**
 * A whole code file. Its bytes are not to change before the call has ended. Its name is what texts
 * call it, "file 0" and so on where it has none; half of a pair of UTF-16 in it is shown as U+FFFD.
 * @typedef {{name?: string, bytes: Uint8Array | ArrayBuffer}} CodeFile
 */

/**
 * What the module answers, as `pslink_answer` of pslink.h; null is a part that there is not.
 * @typedef {object} Answer
 * @property {number} status the number of the status
 * @property {number} fault the number of the fault, or 0: the first of all where files are refused,
 * and the verdict of a report or of its findings
 * @property {number | null} file the file at fault, by its place among those that were given
 * @property {number | null} record the record in the link information of its segment, from 0
 * @property {number | null} reference the reference in its record, from 0
 * @property {number | null} slot the slot of the host's segment dictionary, 0 to 15
 * @property {number | null} kind of fault 14 NotAUnit: the kind word of the library's entry
 * @property {string | null} about the unit, segment or symbol that the fault is about: eight
 * characters, one a byte
 * @property {number} segments how many segments the linked file has
 * @property {number} privateWords the words of all private variables
 * @property {number} blocks how many blocks of 512 bytes the linked file has
 * @property {number} warnings how many warnings a report has, after its findings too
 * @property {number} size how many bytes the result has
 */

/**
 * What a call gives that has done what was asked for. A report and its findings are done also where
 * the files are refused: `fault` is then the verdict.
 * @typedef {object} Done
 * @property {true} done
 * @property {"done"} status
 * @property {Answer} answer
 * @property {Uint8Array} bytes the linked file, or the bytes of the text
 * @property {string} [fault] the line of the fault, as "refused 13 MissingUnit file 0 slot 7"
 */

/**
 * What a call gives that has not: `status` says why, and where files are refused `fault`.
 * @typedef {object} NotDone
 * @property {false} done
 * @property {"refused" | "misuse" | "no memory" | "too small" | "wrong names" | "trapped"} status
 * @property {Answer | null} answer null where the module trapped
 * @property {string} [fault] the line of the fault
 * @property {string} [reason] where the module trapped: what the engine says of it
 */

/**
 * What a call gives: `done` says which of the two it is. Where it is done there is also what this
 * call makes.
 * @template [Made={}]
 * @typedef {(Done & Made) | NotDone} Result
 */

/**
 * What a code file is for, and its byte order; both are null of what is no code file.
 * @typedef {object} FileType
 * @property {"host" | "library" | "linked" | "mixed" | null} contents
 * @property {"little" | "big" | null} order
 */

/** @typedef {ArrayBuffer | ArrayBufferView} Bytes */

/** @typedef {{number: number, name: string, meaning: string, remedy: string}} Fault */

/** The texts, by the names of the commands that print them, and their numbers in pslink.h. */
// clang-format off
export const TEXTS = Object.freeze({
  map: 0, references: 1, show: 2, check: 3, list: 4, units: 5, findings: 6, wanted: 7, had: 8,
  type: 9,
});
// clang-format on

// those that are names of units
const OF_NAMES = ["wanted", "had"];

/** The statuses by their numbers in pslink.h, and "trapped", which has none there. */
export const STATUSES = Object.freeze({
  0: "done",
  1: "refused",
  2: "misuse",
  4: "no memory",
  5: "too small",
  6: "wrong names",
  trapped: "trapped",
});

/** How many bytes a linked file has at most. */
export const LINKED_MAX = 524800;

/** How many bytes of memory a call has at most, where `load` is told nothing else. */
export const MEMORY_MAX = 2 ** 30;

// (the numbers of statuses, the form of a document, and the sizes are those of pslink.h)
const DONE = 0, MISUSE = 2, NO_MEMORY = 4, TOO_SMALL = 5;
const JSON_FORM = 256, ANSWER_SIZE = 112, NAME_SIZE = 8, FAULT_TEXT_MAX = 160;
// room for a text; where it has more bytes, a second call has as many
const FIRST_ROOM = 65536;
const PAGE_SIZE = 65536, ALIGNMENT = 16;
const FUNCTIONS = [
  "pslink_link_nonnull", "pslink_text_nonnull", "pslink_fault_text_nonnull", "pslink_release_number"
];

// the name, the meaning and the remedy of each fault, from fault 1 on
const FAULTS = [
  // clang-format off
  // made by man/make_constants.py from crates/ps_words/src/fault.rt
  ["ShortFile",
   "The file has less than the 512 bytes of a segment dictionary.",
   "The file is truncated, or no code file. Copy it again, as binary, or give the code file."],
  ["NoOrder",
   "The segment kinds are neither little-endian nor big-endian.",
   "The file is damaged, or no code file: see DAMAGED FILES in pslink(1). Give the code file, or compile it again."],
  ["OrderMismatch",
   "The library's byte order is not the host's.",
   "Compile the file for the machine of the host. If it was, the bytes of one of the two files are swapped: see DAMAGED FILES in pslink(1)."],
  ["NoHost",
   "No segment of the file is a host program.",
   "The file may be a library, or linked already. Give the compiled program as the host. If it is one, see DAMAGED FILES in pslink(1)."],
  ["TwoHosts",
   "A second segment is a host program.",
   "Keep one of them in the file."],
  ["DoubledSegment",
   "A second slot has or wants a unit of this name.",
   "Keep one of them in the file."],
  ["SegmentProcedure",
   "The slot has a segment procedure that is still to be linked. Such hosts are not supported.",
   "Make it a procedure of the program or of a unit, and compile the file again."],
  ["NativeSegment",
   "The slot has a separate segment, of kind 4. Such segments are not supported.",
   "Put what it does into a Pascal unit, and compile the file again."],
  ["Intrinsic",
   "The slot has an intrinsic unit or its data, of another release.",
   "Compile it as a unit of II.0, and then the file again."],
  ["UnknownKind",
   "The slot's kind is none of II.0.",
   "The dictionary of the file is damaged, or of another release. Copy the file again, or compile the program again."],
  ["BadLength",
   "The code is longer than 32767 bytes, or that of the host program or of a unit has an odd length or one under 4.",
   "Split a unit that is too long. Otherwise the dictionary of the file is damaged: copy the file again, or compile it again."],
  ["BadAddress",
   "The code would be in block 0, where the segment dictionary is.",
   "The dictionary of the file is damaged. Copy the file again, or compile it again."],
  ["MissingUnit",
   "No library has the unit that the slot wants or, if a record is reported, that the UNITREF in this record requests.",
   "Give the library that has it. If you gave it, see DAMAGED FILES in pslink(1)."],
  ["NotAUnit",
   "The first library that has a segment of the name has no unit there: the segment is of the kind that is reported.",
   "Give the unit's library before the file, or remove that segment from the file. Kind 0 is a linked file: leave it out."],
  ["DoubledUnit",
   "The library has two segments of the name.",
   "Remove one of the two from the file."],
  ["Truncated",
   "The file ends before the code does.",
   "Copy the file again, as binary."],
  ["BadProcDict",
   "The procedure dictionary or a procedure's table is outside the code, or the host program has no outer block.",
   "The code is damaged, as by a conversion of line ends or a lost block: see DAMAGED FILES in pslink(1). Copy the file again, or compile it again. If it is whole, its compiler's format may differ."],
  ["NativeProcedure",
   "A procedure of the segment is native code, which is not supported.",
   "Use the procedure as the compiler left it, in P-code. If it is P-code, the bytes of the file are swapped: see DAMAGED FILES in pslink(1)."],
  ["RecordsTruncated",
   "The file ends before the link information does.",
   "Copy the file again, as binary. If it is whole, it was made without link information: compile it again."],
  ["UnknownRecord",
   "The link record's type is none of II.0.",
   "The link information is damaged, as by a lost, repeated or exchanged block: see DAMAGED FILES in pslink(1). Copy the file again, or compile it again. If it is whole, its compiler's format may differ."],
  ["NativeRecord",
   "The link record belongs to native code, which is not supported.",
   "Write the external procedure in Pascal, in a unit, and compile the file again."],
  ["SeparateRecord",
   "The link record belongs to a separate procedure, which is not supported.",
   "Put the procedure into a unit, and compile the file again."],
  ["BadFormat",
   "The operands of the reference record have a format that its type cannot have.",
   "The link information is damaged. Copy the file again, or compile it again. If it is whole, its compiler's format may differ."],
  ["DoubledDefinition",
   "The host program defines the name twice.",
   "Rename one of the two, and compile the file again. A name has eight characters."],
  ["DoubledPrivate",
   "The segment has the private variable twice.",
   "Rename one of the two, and compile the file again. A name has eight characters."],
  ["NoRoom",
   "The private variables end past word 32767 of the host program's data.",
   "Make one of them smaller, and compile the file again."],
  ["DataTooLarge",
   "The host program's data would exceed 65535 bytes.",
   "Make the variables of the file or of its units smaller, and compile it again."],
  ["MissingDefinition",
   "The host program defines no such name.",
   "Compile the unit in the file and the host program against the same declarations. An older library may come before the one that you meant: see DAMAGED FILES in pslink(1)."],
  ["IllKind",
   "The segment uses the name as a variable, and the host program defines a constant.",
   "Compile the unit in the file and the host program against the same declarations."],
  ["MissingUnitRef",
   "No longer used.",
   "A unit for which the host has no slot is looked for in the libraries: see 13 and 35."],
  ["OutsideCode",
   "The reference is past the end of the segment's code.",
   "The link information does not belong to this code. Copy the file again, or compile it again. If it is whole, its compiler's format may differ."],
  ["ReservedPlace",
   "The reference is in a procedure's table or in the procedure dictionary.",
   "The link information does not belong to this code. Copy the file again, or compile it again. If it is whole, its compiler's format may differ."],
  ["Overlap",
   "The reference shares a byte with an earlier one.",
   "The link information does not belong to this code. Copy the file again, or compile it again. If it is whole, its compiler's format may differ."],
  ["OperandTooLarge",
   "The operand's displacement plus the value exceeds 32767.",
   "Make the host program's data before this variable smaller, and compile the program and the file again."],
  ["NoSlot",
   "The host has no empty slot from 7 to 15 left for the unit that the UNITREF in this record requests.",
   "Join two units into one, or take linked segments out of the host."],
  // end
  // clang-format on
];

/**
 * What there is to say of the fault of this number: its name, what it means, and what to do about
 * it.
 * @param {number} number
 * @returns {Fault | null} null where there is no such fault
 */
export function fault(number) {
  const [name, meaning, remedy] = FAULTS[number - 1] ?? [];
  return name === undefined ? null : {number, name, meaning, remedy};
}

/**
 * Compiles the module.
 * @param {Bytes | Promise<Bytes>} bytes those of pslink.wasm
 * @param {{memoryMax?: number}} [options] how many bytes of memory a call has at most
 * @returns {Promise<Linker>}
 */
export async function load(bytes, {memoryMax = MEMORY_MAX} = {}) {
  const module = await WebAssembly.compile(await bytes),
        names = WebAssembly.Module.exports(module).map(({name}) => name);
  if (!FUNCTIONS.every((name) => names.includes(name)))
    throw new TypeError("the module is not that of pslink.wasm");
  return new Linker(module, memoryMax);
}

/** The functions of the module, as `load` gives them. Any number of calls may be under way. */
export class Linker {
  #module;
  #memoryMax;

  /** @private */
  constructor(module, memoryMax) {
    this.#module = module;
    this.#memoryMax = memoryMax;
  }

  /**
   * The release as a number: 10000 times its first part, 100 times its second, and its third.
   * @returns {Promise<number>}
   */
  async release() {
    return (await this.#begin()).enter("pslink_release_number");
  }

  /**
   * Links a host with the units that it uses. Of the libraries that have a unit, the first is used.
   * @param {CodeFile[]} files the host, and then the libraries
   * @returns {Promise<Result>} with `bytes`, the linked file
   */
  async link(files) {
    return answered(
      () => this.#run(given(files), LINKED_MAX,
        (call, laid, ...rest) => call.enter("pslink_link_nonnull", ...laid.contents, ...rest)));
  }

  /**
   * A text of files, as the program prints it.
   * @param {keyof typeof TEXTS} kind
   * @param {CodeFile[]} files the host, and then the libraries
   * @param {{json?: boolean}} [options] whether it is a JSON document in place of lines
   * @returns {Promise<Result<{text: string}>>} with `bytes` and `text`
   */
  async text(kind, files, {json = false} = {}) {
    return answered(async () => {
      const result = await this.#text(kind, files, json);
      return result.done ?
        {...result, text: isOfNames(kind) ? characters(result.bytes) : decoded(result.bytes)} :
        result;
    });
  }

  /**
   * The names of the units that a host wants, or that the first file has.
   * @param {"wanted" | "had"} kind
   * @param {CodeFile[]} files the host, and then the libraries
   * @returns {Promise<Result<{names: string[]}>>} with `bytes`, and `names` of 8 characters
   */
  async units(kind, files) {
    return answered(async () => {
      const result = await this.#text(isOfNames(kind) ? kind : null, files, false);
      return result.done ? {...result, names: characters(result.bytes).match(/.{8}/gs) ?? []} :
                           result;
    });
  }

  /**
   * What a file of any contents is for, and its byte order; both are null of a file that is no code
   * file.
   * @param {CodeFile} file
   * @returns {Promise<Result<FileType>>} with `bytes`, `contents` and `order`
   */
  async fileType(file) {
    return answered(async () => {
      const result = await this.#text("type", [file], false);
      return result.done ? {...result, ...typeIn(characters(result.bytes))} : result;
    });
  }

  async #text(kind, files, json) {
    const all = given(files);
    if (!Object.hasOwn(TEXTS, kind)) return bare(MISUSE);
    const what = TEXTS[kind] + (json ? JSON_FORM : 0);
    const enter = (call, laid, ...rest) =>
      call.enter("pslink_text_nonnull", what, ...laid.contents, ...laid.names, ...rest);
    const result = await this.#run(all, FIRST_ROOM, enter);
    return result.answer.status === TOO_SMALL ? this.#run(all, result.answer.size, enter) : result;
  }

  /**
   * What a function of the module answers of files, which has so many bytes of room for what it
   * makes.
   */
  async #run(files, room, enter) {
    if (files.length === 0) return bare(MISUSE);
    const call = await this.#begin(), laid = call.lay(files), answer = call.take(ANSWER_SIZE),
          out = call.take(room);
    enter(call, laid, BigInt(out), BigInt(room), BigInt(answer));
    return call.result(answer, out);
  }

  async #begin() {
    const call = new Call(this.#memoryMax);
    call.begin(await WebAssembly.instantiate(
      this.#module, {heap: {page_alloc: call.allocate, page_dealloc: call.free}}));
    return call;
  }
}

/*
 * One call, and the memory of its instance: the stack of the module and its constants are below
 * `__heap_base`, and what is above is given out from there on. What the module gives back is not
 * given out again: all of it goes with the call.
 */
class Call {
  #exports;
  #memory;
  #next;
  #limit;

  constructor(limit) {
    this.#limit = limit;
  }

  begin({exports}) {
    this.#exports = exports;
    this.#memory = exports.memory;
    this.#next = Number(exports.__heap_base.value);
  }

  /** Calls a function of the module. */
  enter(name, ...words) {
    try {
      return this.#exports[name](...words);
    } catch (error) {
      throw isTrap(error) ? new Trap(error.message) : error;
    }
  }

  /**
   * The place of so many bytes that nothing else has, aligned to 16; null where there is no
   * memory.
   */
  #placeOf(size) {
    const place = Math.ceil(this.#next / ALIGNMENT) * ALIGNMENT, end = place + size;
    if (!(end <= this.#limit) || !this.#reaches(end)) return null;
    this.#next = end;
    return place;
  }

  /** Whether the memory has so many bytes, or can be made to have them. */
  #reaches(end) {
    const lacking = end - this.#memory.buffer.byteLength;
    try {
      if (lacking > 0) this.#memory.grow(Math.ceil(lacking / PAGE_SIZE));
      return true;
    } catch (error) {
      if (isOutOfMemory(error)) return false;
      throw error;
    }
  }

  /** The place of so many bytes. */
  take(size) {
    const place = this.#placeOf(size);
    if (place === null) throw new RangeError("a call may have no more memory");
    return place;
  }

  // What the module calls for memory: where the answer is put, a size, and an alignment of at
  // most 16. The answer is whether there is memory, and 8 bytes on the place of it.
  allocate = (answer, size) => {
    const place = this.#placeOf(Math.max(Number(size), 1)),
          view = new DataView(this.#memory.buffer), at = Number(answer);
    view.setUint8(at, place === null ? 0 : 1);
    view.setBigUint64(at + 8, BigInt(place ?? ALIGNMENT), true);
  };

  free = () => {};

  #bytes(place, size) {
    return new Uint8Array(this.#memory.buffer, place, size);
  }

  /** Files as the functions of the module take them: their contents, and their names. */
  lay(files) {
    const contents = files.map(({bytes}) => bytes),
          [host, hostLength] = this.#layAll(contents.slice(0, 1));
    return {
      contents: [host, hostLength, ...this.#layAll(contents.slice(1))],
      names: this.#layAll(files.map(({name}) => name))
    };
  }

  /**
   * Lays parts one after another, and then their lengths: the place and the bytes of all, the
   * place of the lengths and how many.
   */
  #layAll(parts) {
    const total = parts.reduce((sum, part) => sum + part.length, 0), place = this.take(total),
          table = this.take(8 * parts.length);
    const lengths = new DataView(this.#memory.buffer, table, 8 * parts.length);
    let at = place;
    parts.forEach((part, k) => {
      this.#bytes(at, part.length).set(part);
      lengths.setBigUint64(8 * k, BigInt(part.length), true);
      at += part.length;
    });
    return [BigInt(place), BigInt(total), BigInt(table), BigInt(parts.length)];
  }

  /** What a caller is given, of the answer and of what was made. */
  result(place, out) {
    const answer = this.#read(place),
          result = {done: answer.status === DONE, status: STATUSES[answer.status], answer};
    if (result.done) result.bytes = this.#bytes(out, answer.size).slice();
    if (answer.fault !== 0) result.fault = this.#faultLine(place);
    return result;
  }

  #read(place) {
    const view = new DataView(this.#memory.buffer, place, ANSWER_SIZE),
          about = characters(this.#bytes(place + 40, NAME_SIZE));
    const index = (at) => partOf(Number(view.getBigInt64(at, true))),
          number = (at) => partOf(view.getInt32(at, true));
    return {
      status: view.getUint32(0, true),
      fault: view.getUint32(4, true),
      file: index(8),
      record: index(16),
      reference: index(24),
      slot: number(32),
      kind: number(36),
      about: about === "\0".repeat(NAME_SIZE) ? null : about,
      segments: view.getUint32(52, true),
      privateWords: view.getUint32(56, true),
      blocks: view.getUint32(60, true),
      warnings: view.getUint32(64, true),
      size: Number(view.getBigUint64(72, true)),
    };
  }

  #faultLine(answer) {
    const place = this.take(FAULT_TEXT_MAX);
    const size = this.enter(
      "pslink_fault_text_nonnull", BigInt(answer), BigInt(place), BigInt(FAULT_TEXT_MAX));
    // (the last byte is the closing 0)
    return characters(this.#bytes(place, Number(size) - 1));
  }
}

/** The module trapped, or the stack of the engine was used up. */
class Trap extends Error {}

const isTrap = (error) => error instanceof WebAssembly.RuntimeError ||
  error instanceof RangeError || error?.name === "InternalError";

const isOutOfMemory = (error) => error instanceof RangeError || error === "out of memory";

/** What this gives, or that there is no memory for it or that the module trapped. */
async function answered(work) {
  try {
    return await work();
  } catch (error) {
    if (error instanceof Trap)
      return {done: false, status: STATUSES.trapped, answer: null, reason: error.message};
    if (isOutOfMemory(error)) return bare(NO_MEMORY);
    throw error;
  }
}

/** What is answered where there is nothing but a status. */
function bare(status) {
  const none = {file: null, record: null, reference: null, slot: null, kind: null, about: null};
  const nothing = {segments: 0, privateWords: 0, blocks: 0, warnings: 0, size: 0};
  return {done: false, status: STATUSES[status], answer: {status, fault: 0, ...none, ...nothing}};
}

/** The bytes of each file and of its name. */
function given(files) {
  if (!Array.isArray(files)) throw new TypeError("the files are no array");
  return Array.from(files,
    (file, k) => ({bytes: bytesOf(file?.bytes, k), name: nameOf(file.name ?? `file ${k}`, k)}));
}

// (of any window: a class of another one is not the same)
function bytesOf(bytes, k) {
  const type = Object.prototype.toString.call(bytes);
  if (type === "[object Uint8Array]") return bytes;
  if (type === "[object ArrayBuffer]") return new Uint8Array(bytes);
  throw new TypeError(`the bytes of file ${k} are no Uint8Array and no ArrayBuffer`);
}

function nameOf(name, k) {
  if (typeof name !== "string") throw new TypeError(`the name of file ${k} is no string`);
  return new TextEncoder().encode(name);
}

const partOf = (number) => number < 0 ? null : number;

const isOfNames = (kind) => OF_NAMES.includes(kind);

/** What a line of a type has, as "library little\n". */
function typeIn(line) {
  const [, contents = null, order = null] = /^(\w+) (\w+)\n$/.exec(line) ?? [];
  return {contents, order};
}

/** Bytes as characters, one for each. */
const characters = (bytes) => String.fromCharCode(...bytes);

/**
 * Bytes of UTF-8 as characters; no text begins with a name as it is, which could have a mark of
 * the order of bytes.
 */
const decoded = (bytes) => new TextDecoder().decode(bytes);

// What follows is for node, which may run this file as a program: the words after its name are then
// a command. (The names of modules are made here, so that neither a page nor a bundler looks for
// them.)
async function isProgram(process) {
  if (!process?.argv?.[1]) return false;
  const [{realpathSync}, {pathToFileURL}] = await Promise.all(["fs", "url"].map(
    (name) => import(/* webpackIgnore: true */ /* @vite-ignore */ `node:${name}`)));
  try {
    return pathToFileURL(realpathSync(process.argv[1])).href === import.meta.url;
  } catch {
    return false;
  }
}

async function runAsProgram(process) {
  if (!await isProgram(process)) return;
  const command = "command";
  const {main} = await import(/* webpackIgnore: true */ /* @vite-ignore */ `./${command}.mjs`)
                   .catch(() => ({main: isAlone}));
  process.exitCode = await main(process.argv.slice(2));
}

function isAlone() {
  globalThis.process.stderr.write(
    "pslink: the files of the command, command.mjs and others, are not beside pslink.mjs\n");
  return 70;
}

runAsProgram(globalThis.process);
