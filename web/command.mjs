/*
 * The command line over node: `node pslink.mjs link -o OUT HOST [LIB]...` and so on. The module
 * pslink_command.wasm is the program pslink itself, and host.mjs is what it asks of a system.
 * `volume` and `picture` stand beside it.
 */

import {readFile} from "node:fs/promises";
import {fileURLToPath} from "node:url";
import {isOutOfMemory, Streams, Unread, Unwritten} from "./files.mjs";
import {Host} from "./host.mjs";
import {runPicture} from "./picture_command.mjs";
import {load} from "./pslink.mjs";
import {WrongUsage} from "./usage.mjs";
import {runVolume} from "./volume_command.mjs";

/** The statuses of the program that stand here too, and that of an error in what runs it. */
const WRONG_USAGE = 2, UNREAD = 3, NO_MEMORY = 4, BROKEN = 70;

const OLDEST_NODE = 20;
const OWN_ERROR = "an error in pslink itself, and not in the files";

// of a module: beside this file, as in the archive; and where the build leaves it
const PLACES = ["./", "./out/"], COMMAND = "pslink_command.wasm", LINKER = "pslink.wasm";

/** Why no command is done: its status, and the line that says so. */
class Failure extends Error {
  constructor(status, line) {
    super(line);
    this.status = status;
  }
}

/**
 * Does the command that the words name, and gives the exit status.
 * @param {string[]} words what follows the name of the program
 * @param {{output?: number, error?: number}} [files] the files that are standard output and
 *   standard error, by their numbers
 * @returns {Promise<number>}
 */
export async function main(words, {output = 1, error = 2} = {}) {
  const streams = new Streams(output, error);
  try {
    if (parseInt(process.versions.node, 10) < OLDEST_NODE)
      throw new Failure(
        BROKEN, `node ${OLDEST_NODE} or later is needed, and this is ${process.version}`);
    return await own(words, streams) ?? run(await program(), words, {output, error});
  } catch (failure) {
    const {status, text} = reported(failure);
    streams.tell(text);
    return status;
  }
}

/** The status of a command that the program has not; null of any other. */
async function own([first, ...rest], streams) {
  if (first === "volume") return runVolume(rest, streams);
  if (first === "picture") return runPicture(rest, streams, linker);
  if (first !== "help") return null;
  if (rest[0] === "volume") return runVolume(["help", ...rest.slice(1)], streams);
  return rest[0] === "picture" ? runPicture(["--help"], streams, linker) : null;
}

/** The status and the text of whatever ends a command before it is done. */
function reported(failure) {
  if (failure instanceof WrongUsage) return {status: WRONG_USAGE, text: failure.message};
  if (failure instanceof Unread || failure instanceof Unwritten)
    return {status: UNREAD, text: told(failure.message)};
  if (failure instanceof Failure) return {status: failure.status, text: told(failure.message)};
  if (isOutOfMemory(failure)) return {status: NO_MEMORY, text: told("out of memory")};
  return {status: BROKEN, text: told(`${OWN_ERROR}: ${failure?.message ?? failure}`)};
}

function told(line) {
  return `pslink: ${line}\n`;
}

/** Runs the program once, in a memory of its own. */
function run({path, module}, words, files) {
  const host = new Host(["pslink", ...words], files);
  const {exports} = instance(path, module, host.imports);
  host.begin(exports.memory, Number(exports.__heap_base.value));
  try {
    return exports.pslink_command();
  } catch (error) {
    if (error instanceof WebAssembly.RuntimeError || error instanceof RangeError)
      throw new Failure(BROKEN, `${OWN_ERROR}: the module trapped: ${error.message}`);
    throw error;
  }
}

function instance(path, module, imports) {
  try {
    const made = new WebAssembly.Instance(module, imports),
          {memory, __heap_base: base, pslink_command: command} = made.exports;
    if (!memory || base === undefined || typeof command !== "function")
      throw new TypeError("it has no pslink_command");
    return made;
  } catch (error) {
    throw new Failure(BROKEN, `${path} is not the module of the command: ${error.message}`);
  }
}

const loading = new Map();

/** A module, which is read once, as work makes it of its bytes. */
function once(name, work) {
  if (!loading.has(name)) loading.set(name, loaded(name, work));
  return loading.get(name);
}

/** The program, compiled, with its path. */
const program = () =>
  once(COMMAND, async (bytes, path) => ({path, module: await WebAssembly.compile(bytes)}));

/** The functions of the library. */
const linker = () => once(LINKER, load);

async function loaded(name, work) {
  const paths = PLACES.map((place) => fileURLToPath(new URL(place + name, import.meta.url)));
  const read = await Promise.allSettled(paths.map((path) => readFile(path)));
  const at = read.findIndex(({status}) => status === "fulfilled");
  if (at < 0)
    throw new Failure(UNREAD, `cannot read ${paths[0]}, which has to be beside command.mjs`);
  try {
    return await work(read[at].value, paths[at]);
  } catch (error) {
    throw new Failure(BROKEN,
      `${paths[at]} is not the module of ${name === COMMAND ? "the command" : "pslink"}: ${
        error.message}`);
  }
}
