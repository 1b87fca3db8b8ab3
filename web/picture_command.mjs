/*
 * The command `pslink picture` over node: the picture of a link, or of files that are refused, as
 * an SVG file. It is the picture of the page, in the width of a wide window. The program pslink has
 * no such command.
 */

import {basename} from "node:path";
import {commandOf, parse} from "./arguments.mjs";
import {leadToOneFile, readFile, writeFile} from "./files.mjs";
import {shownName} from "./names.mjs";
import {pictureFile} from "./picture.mjs";
import {modelOf} from "./pictured.mjs";
import {sameFile} from "./usage.mjs";

const DONE = 0, REFUSED = 1, NO_MEMORY = 4;
const WIDTH = 912; // that of the picture on the page, in pixels

const PROGRAM = {
  name: "pslink",
  about: "The picture of a link",
  ending: "",
  commands: [
    {
      name: "picture",
      about:
        "Draws a link as an SVG file: where each part comes from, who refers to whom, and the data",
      ending: `Example:
  pslink picture -o demo.svg host.code library.code

If the files are refused, the picture shows what the fault is about, and the status is 1.

Exit status:
  0  the link was drawn
  1  the files are refused, and what the fault is about was drawn
  2  wrong usage
  3  a file could not be read or written
  4  out of memory`,
      arguments: [
        {
          id: "HOST",
          positional: true,
          required: true,
          help: "The code file that holds the host program"
        },
        {
          id: "LIB",
          positional: true,
          many: true,
          help: "A library to search for units, in the order given"
        },
        {id: "FILE", long: "output", short: "o", required: true, help: "The SVG file to write"},
      ],
    },
  ],
};

/**
 * Draws what the words after `picture` name, and gives the exit status.
 * @param {string[]} words
 * @param {import("./files.mjs").Streams} streams
 * @param {() => Promise<import("./pslink.mjs").Pslink>} linker gives the functions of the module
 * @returns {Promise<number>}
 */
export async function runPicture(words, streams, linker) {
  const request = parse(PROGRAM, ["picture", ...words]);
  if (request.help) {
    streams.print(request.help);
    return DONE;
  }
  const {found} = request, paths = [...found.get("HOST"), ...(found.get("LIB") ?? [])],
        [out] = found.get("FILE");
  refuseInput(out, paths);
  const files = paths.map((path) => ({name: path, bytes: readFile(path)})), pslink = await linker();
  const result = await pslink.link(files), report = await pslink.text("check", files);
  if (!result.done && !result.fault) return failed(result, streams);
  const model = await modelOf(pslink, files, result, report);
  writeFile(out, new TextEncoder().encode(pictureFile(model, WIDTH, titleOf(paths[0]))));
  if (result.done) return DONE;
  streams.tell(`pslink: ${result.fault}\n`);
  return REFUSED;
}

const titleOf = (host) => `The link of ${shownName(basename(host))}`;

/** What else the module answers. */
function failed({status, reason}, streams) {
  if (status !== "no memory") throw new Error(`the module answers: ${reason ?? status}`);
  streams.tell("pslink: out of memory\n");
  return NO_MEMORY;
}

/** Refuses to write to a file that is read. */
function refuseInput(out, paths) {
  const path = paths.find((other) => other === out || leadToOneFile(out, other));
  const same = {path, asNamed: "another file", asFile: "the file"};
  if (path !== undefined)
    throw sameFile(commandOf(PROGRAM, "picture"), "--output <FILE>", out, same);
}
