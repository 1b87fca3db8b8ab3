/*
 * Calls the functions of web/host.mjs as the module does, and as no command makes it: what
 * host_test.c does of the hosts in C. Works in a folder that is empty. Prints each answer that is
 * otherwise, and then ends with 1. Usage: host_test.mjs HOST.MJS
 */

import {execFileSync, spawn} from "node:child_process";
import {constants, mkdirSync, openSync, readFileSync, writeFileSync, writeSync} from "node:fs";
import {pathToFileURL} from "node:url";

const MISSING = -1n, FOLDER = -2n, NO_PATH = -4n, NO_ARGUMENT = -1n, TOO_LONG = -2n;
const ROOM = 1024, PATH = 2048, OTHER_PATH = 4096, ANSWER = 8192, FREE = 16384;

const {Host} = await import(pathToFileURL(process.argv[2]));
const memory = new WebAssembly.Memory({initial: 1});
let differences = 0;

function is(what, found, wanted) {
  if (found === wanted) return;
  console.error(`host_test: ${what}: ${found}, and not ${wanted}`);
  differences++;
}

/** The functions of a host with these streams, which works in the memory here. */
function begun(streams) {
  const host = new Host(["pslink", "one", "two ä", "a\uFFFDb"], streams);
  host.begin(memory, FREE);
  return host.imports.env;
}

/** Puts a text into the memory, and gives its place and length. */
function put(text, place = PATH) {
  const bytes = Buffer.from(text);
  new Uint8Array(memory.buffer, place).set(bytes);
  return [BigInt(place), BigInt(bytes.length)];
}

const streams = {
  output: openSync("output", "w"),
  error: openSync("error", "w")
};
const env = begun(streams);
const text = (length) => Buffer.from(memory.buffer, ROOM, Number(length)).toString("latin1");
const arg = (number, size) => env.host_arg(BigInt(number), BigInt(ROOM), BigInt(size));
const open = (path) => env.host_open(...put(path));
const create = (path) => env.host_create(...put(path));
const read = (file, size) => env.host_read(file, BigInt(ROOM), BigInt(size));
const areOne = (path, other) => env.host_are_one(...put(path), ...put(other, OTHER_PATH));
const leadsToOutput = (path) => env.host_leads_to_output(...put(path));

function testArguments() {
  is("an argument", arg(1, 3), 3n);
  is("its bytes", text(3), "one");
  is("an argument of two bytes for a letter", arg(2, 6), 6n);
  is("an argument that does not fit", arg(2, 5), TOO_LONG);
  is("an argument that is no UTF-8", arg(3, 3), 3n);
  is("a byte for what is none", text(3), "a\xFFb");
  is("an argument past the last", arg(4, 3), NO_ARGUMENT);
}

/** What a heap answers to a request: its place; 0 where there is none. */
function given(request) {
  request();
  const view = new DataView(memory.buffer);
  return view.getBigUint64(ANSWER, true) === 1n ? Number(view.getBigUint64(ANSWER + 8, true)) : 0;
}

function testHeap() {
  const first = given(() => env.rattle_alloc(BigInt(ANSWER), 10n, 1n));
  new Uint8Array(memory.buffer, first, 10).fill(7);
  const second = given(() => env.rattle_alloc(BigInt(ANSWER), 100000n, 16n));
  is("a place behind the first, aligned",
    second >= first + 10 && first % 16 === 0 && second % 16 === 0, true);
  const moved = given(() => env.rattle_realloc(BigInt(ANSWER), BigInt(first), 10n, 20n, 1n));
  is("a place behind the second", moved >= second + 100000, true);
  is("what was there", `${new Uint8Array(memory.buffer, moved, 10)}`, `${Array(10).fill(7)}`);
  is("more than there is", given(() => env.rattle_alloc(BigInt(ANSWER), 2n ** 33n, 1n)), 0);
}

function testFile() {
  const made = create("made");
  is("what is written", env.host_write(made, ...put("12345")), 5n);
  is("its closing", env.host_close(made), 0n);
  is("a second closing is an error", env.host_close(made) < 0n, true);
  const file = open("made");
  is("its length", env.host_length(file), 5n);
  is("a read of less than there is", read(file, 3), 3n);
  is("a read of more than there is", read(file, 8), 2n);
  is("its bytes", text(2), "45");
  is("a read at the end", read(file, 8), 0n);
  env.host_close(file);
  const anew = create("made");
  is("the length of a file that is written anew", env.host_length(anew), 0n);
  is("a read of it is an error", read(anew, 8) < 0n, true);
  env.host_close(anew);
}

function testPaths() {
  mkdirSync("folder");
  writeFileSync("plain", "text");
  is("a path of no file", open("nowhere"), MISSING);
  is("a path below a file", open("plain/below"), MISSING);
  const folder = open("folder");
  is("a folder that is read", folder < 0n ? folder : read(folder, 8), FOLDER);
  is("a folder that is created", create("folder"), FOLDER);
  is("a path with a 0", open("plain\0"), NO_PATH);
  is("two paths of a file", areOne("plain", "./plain"), 1);
  is("two files", areOne("plain", "made"), 0);
  is("a folder, which is no regular file", areOne("folder", "folder"), 0);
  is("the file of the output", leadsToOutput("./output"), 1);
  is("the file of the errors", leadsToOutput("error"), 0);
}

function testStreams() {
  is("what the output takes", env.host_write(1n, ...put("out\n")), 4n);
  is("what the errors take", env.host_write(2n, ...put("errors\n")), 7n);
  is("the output", `${readFileSync("output")}`, "out\n");
  is("the errors", `${readFileSync("error")}`, "errors\n");
}

/** A pipe that is full, and takes none at the moment: what reads it comes later. */
function testFullPipe() {
  execFileSync("mkfifo", ["pipe"]);
  const pipe = openSync("pipe", constants.O_RDWR | constants.O_NONBLOCK);
  try {
    for (;;) writeSync(pipe, Buffer.alloc(4096));
  } catch (error) {
    is("a pipe that is full", error.code, "EAGAIN");
  }
  spawn("sh", ["-c", "sleep 0.3; head -c 65536 pipe >rest"]);
  is("a write that waits", begun({output: pipe, error: pipe}).host_write(1n, ...put("x")), 1n);
}

testArguments();
testHeap();
testFile();
testPaths();
testStreams();
if (process.platform !== "win32") testFullPipe();
process.exit(differences > 0 ? 1 : 0);
