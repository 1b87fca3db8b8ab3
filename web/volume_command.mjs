/*
 * The commands of `pslink volume` over node: what is on the volume in an image of a disk, a file
 * off it, and a code file onto a copy of it. The program pslink has none of them. An image is never
 * changed in place.
 */

import {basename} from "node:path";
import {commandOf, parse} from "./arguments.mjs";
import {isThere, leadToOneFile, readFile, shownPath, writeFile} from "./files.mjs";
import {sameFile} from "./usage.mjs";
import {openVolume, VolumeError} from "./volume.mjs";

const DONE = 0, REFUSED = 1;

const STATUSES = `Exit status:
  0  the command was done
  1  there is no volume in IMAGE, or it has no such file or no room, or is not sound
  2  wrong usage
  3  a file could not be read or written, or standard output failed
  4  out of memory`;

const IMAGE = {
  id: "IMAGE",
  positional: true,
  required: true,
  help: "The image of a disk"
};

const VOLUME = {
  name: "pslink volume",
  about:
    "Volumes of the p-System in images of disks: what is on them, a file off one, and one onto a copy",
  ending: `Example:
  pslink volume take disk.po HOST.CODE host.code
  pslink link -o linked.code host.code library.code
  pslink volume put -o new.po disk.po linked.code HOST.CODE

An image has its blocks in order, or its sectors in the order of DOS 3.3, or a header of
2IMG or DiskCopy 4.2. It is never changed: what is put is put onto a copy of it.

${STATUSES}`,
  commands: [
    {
      name: "list",
      about: "Prints a line of the volume and of each of its files",
      ending:
        `Each line begins with the name of the image. A line with 'not sound: ' says why nothing
can be put onto the volume. The status is then 1. A file that is 'never closed' is one
that a program made and did not end with a close: it may lack its end.

${STATUSES}`,
      arguments: [IMAGE],
    },
    {
      name: "take",
      about: "Writes a file of the volume to OUT, as it is on the volume",
      ending: `NAME is a name of the list, in capitals or small letters. Without OUT the file is
written to NAME in this folder, and only if there is none. OUT is another file than
IMAGE.

${STATUSES}`,
      arguments: [
        IMAGE,
        {id: "NAME", positional: true, required: true, help: "The file, by its name on the volume"},
        {id: "OUT", positional: true, help: "The file to write"},
      ],
    },
    {
      name: "put",
      about: "Puts a code file onto a copy of the image",
      ending:
        `The copy is the image with FILE as its file NAME, in place of one that has the name, or
as a new one. Without NAME it has the name of FILE in capitals. All else in the copy is
as it was. NEWIMAGE is another file than IMAGE and FILE.

${STATUSES}`,
      arguments: [
        IMAGE,
        {id: "FILE", positional: true, required: true, help: "The code file"},
        {id: "NAME", positional: true, help: "Its name on the volume, as HOST.CODE"},
        {id: "NEWIMAGE", long: "output", short: "o", required: true, help: "The image to write"},
      ],
    },
  ],
};

const COMMANDS = {
  list,
  take,
  put
};

// what no name of a file of each system may have, and names that Windows keeps for devices
const NO_PART_OF_A_NAME = /[\u0000-\u001f"*/:<>?\\|]/,
      DEVICE = /^(con|prn|aux|nul|com\d|lpt\d)(\.|$)/i;

/**
 * Does the command that the words after `volume` name, and gives the exit status.
 * @param {string[]} words
 * @param {import("./files.mjs").Streams} streams
 * @returns {number}
 */
export function runVolume(words, streams) {
  const request = parse(VOLUME, words);
  if (request.help) {
    streams.print(request.help);
    return DONE;
  }
  const value = (id) => request.found.get(id)?.[0], image = value("IMAGE");
  try {
    return COMMANDS[request.command.name](image, value, streams);
  } catch (error) {
    if (!(error instanceof VolumeError)) throw error;
    streams.tell(`pslink: ${shownPath(image)}: ${error.message}\n`);
    return REFUSED;
  }
}

function list(image, value, streams) {
  const volume = openVolume(readFile(image)),
        order = volume.bigEndian ? "big-endian" : "little-endian";
  const lines = [
    `volume ${volume.name}: ${volume.format}, ${order}, ${volume.blocks} blocks, ${
      volume.freeBlocks} free`,
    ...volume.flaws.map((flaw) => `not sound: ${flaw}`),
    ...volume.notes.map((note) => `note: ${note}`),
    ...volume.files.map(fileLine),
  ];
  streams.print(lines.map((line) => `${shownPath(image)}: ${line}\n`).join(""));
  return volume.flaws.length ? REFUSED : DONE;
}

function fileLine({name, kindName, first, next, size, date, isUnclosed}) {
  const day = date ? `, ${date.year}-${twoDigits(date.month)}-${twoDigits(date.day)}` : "";
  return `${name} ${kindName}, ${size} bytes, blocks ${first} to ${next - 1}${day}${
    isUnclosed ? ", never closed" : ""}`;
}

function twoDigits(number) {
  return String(number).padStart(2, "0");
}

function take(image, value) {
  const out = value("OUT"), name = value("NAME");
  if (out !== undefined) refuseInput("take", "[OUT]", out, {image});
  const bytes = openVolume(readFile(image)).take(name);
  if (out === undefined)
    writeHere(name, bytes);
  else
    writeFile(out, bytes);
  return DONE;
}

/**
 * Writes a file by its name on the volume, where that can be the name of a file in this folder,
 * and none is there that would be lost.
 */
function writeHere(name, bytes) {
  if (NO_PART_OF_A_NAME.test(name) || /[. ]$/.test(name) ||
    (process.platform === "win32" && DEVICE.test(name))) {
    throw new VolumeError(`The file ${name} can have no such name in a folder. Give OUT after it.`);
  }
  if (isThere(name))
    throw new VolumeError(`There is ${name} in this folder already. Give OUT after it.`);
  writeFile(name, bytes, {isNew: true});
}

function put(image, value, streams) {
  const file = value("FILE"), newImage = value("NEWIMAGE"),
        name = value("NAME") ?? basename(file).toUpperCase();
  refuseInput("put", "<NEWIMAGE>", newImage, {image, file});
  const volume = openVolume(readFile(image)), made = volume.put(name, readFile(file)),
        isTold = streams.isOutput(newImage);
  const place = made.replaced ? "in place of the file of that name" : "a new file";
  const line =
    `${name.toUpperCase()}: ${made.blocks} blocks from block ${made.first} on, ${place}\n`;
  writeFile(newImage, made.image);
  if (isTold)
    streams.tell(line);
  else
    streams.print(line);
  return DONE;
}

/** Refuses to write to a file that is read. */
function refuseInput(name, argument, path, files) {
  const [what, other] =
    Object.entries(files).find(([, file]) => path === file || leadToOneFile(path, file)) ?? [];
  if (what)
    throw sameFile(commandOf(VOLUME, name), argument, path,
      {path: other, asNamed: `the ${what}`, asFile: `the ${what}`});
}
