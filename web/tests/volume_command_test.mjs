/*
 * Files off a volume by their names alone: which names a file of this folder can have, and that
 * none is lost that is there. Usage: volume_command_test.mjs [WEB], with a folder of the sources
 */
import assert from "node:assert/strict";
import {existsSync, mkdtempSync, readFileSync, readdirSync, rmSync, writeFileSync} from "node:fs";
import {tmpdir} from "node:os";
import {join, resolve} from "node:path";
import {pathToFileURL} from "node:url";

const web = resolve(process.argv[2] ?? join(import.meta.dirname ?? "web/tests", ".."));
const {runVolume} = await import(pathToFileURL(join(web, "volume_command.mjs")));

const BLOCK = 512, FIRST = 6, DONE = 0, REFUSED = 1;
// what a folder of each system can have; what it cannot: nothing, a dot or a blank at its end, and
// characters of paths
const POSSIBLE =
  ["HOST.CODE", "A", ".B", "a-b_c", "X.Y.Z", "A B", "HOST.CODE.1", "'quoted'", "$HOME", "-o"];
const IMPOSSIBLE =
  ["HOST.", "HOST ", "..", ".", "A/B", "A\\B", "A:B", "A*", "A?", "<A", "A>", "A|B", 'A"B'];

/** A volume with files of these names, each of one block: that of its number. */
function imageOf(names) {
  const image = new Uint8Array(BLOCK * (FIRST + names.length + 4)),
        view = new DataView(image.buffer, 2 * BLOCK);
  const entry = (number, words, name) => {
    words.forEach(([place, value]) => view.setUint16(26 * number + place, value, true));
    image[2 * BLOCK + 26 * number + 6] = name.length;
    image.set(Array.from(name, (one) => one.charCodeAt(0)), 2 * BLOCK + 26 * number + 7);
  };
  entry(0, [[2, FIRST], [14, FIRST + names.length + 4], [16, names.length]], "DISK");
  names.forEach((name, k) => {
    entry(k + 1, [[0, FIRST + k], [2, FIRST + k + 1], [4, 2], [22, 3]], name);
    image.set([k, k, k], BLOCK * (FIRST + k));
  });
  return image;
}

let count = 0;

function same(got, wanted, what) {
  assert.deepEqual(got, wanted, what);
  count++;
}

/** Takes a file: the status, and what is told. */
function taken(...words) {
  let told = "";
  const streams = {
    print() {},
    tell(text) {
      told += text;
    },
    isOutput: () => false
  };
  return {status: runVolume(["take", "disk.po", ...words], streams), told};
}

function main() {
  writeFileSync("disk.po", imageOf([...POSSIBLE, ...IMPOSSIBLE]));
  POSSIBLE.forEach((name, k) => {
    same(taken("--", name), {status: DONE, told: ""}, name);
    same([...readFileSync(name)], [k, k, k], name);
    same(taken("--", name), {
      status: REFUSED,
      told: `pslink: disk.po: There is ${name} in this folder already. Give OUT after it.\n`
    },
      name);
  });
  IMPOSSIBLE.forEach((name, k) => {
    const before = readdirSync(".").sort(),
          told = `pslink: disk.po: The file ${
            name} can have no such name in a folder. Give OUT after it.\n`;
    same(taken("--", name), {status: REFUSED, told}, name);
    same(readdirSync(".").sort(), before, name);
    same(taken("--", name, "given"), {status: DONE, told: ""}, name);
    same([...readFileSync("given")], Array(3).fill(POSSIBLE.length + k), name);
  });
  same(existsSync("HOST."), false, "HOST.");
}

const room = mkdtempSync(join(tmpdir(), "pslink-volume-"));
process.chdir(room);
try {
  main();
} finally {
  process.chdir(tmpdir());
  rmSync(room, {recursive: true});
}
console.log(`volume: files by their names: ${count} checks`);
