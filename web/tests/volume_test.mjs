// Compares what volume.mjs reads and makes with what volume_cases.py wrote of the same images, and
// tries how it is called. Usage: volume_test.mjs CASES [VOLUME_MJS [first]]; prints each
// difference, and last a line with counts; with the word `first` it ends with the first difference.
import {createHash} from "node:crypto";
import {readFileSync} from "node:fs";
import {resolve} from "node:path";
import {pathToFileURL} from "node:url";
import {inflateSync} from "node:zlib";

const [casesFile, module = new URL("../volume.mjs", import.meta.url), first] =
  process.argv.slice(2);
const {VolumeError, isVolume, openVolume} =
  await import(module instanceof URL ? module : pathToFileURL(resolve(module)));
const MOST_PRINTED = 40;
const FEWEST = 140; // volumes, of those that are not random
let checks = 0, differences = 0, cases = 0, puts = 0;

function differs(what) {
  differences++;
  if (differences <= MOST_PRINTED) console.log(`volume: ${what}`);
  if (first) process.exit(1);
}

/** The value is the one that is wanted, compared as JSON. */
function same(what, found, wanted) {
  checks++;
  const [one, other] = [JSON.stringify(found), JSON.stringify(wanted)];
  if (one !== other) differs(`${what}: ${one?.slice(0, 600)}, and not ${other?.slice(0, 600)}`);
}

/** The bytes are those that are wanted, or the first place where they are not is told. */
function sameBytes(what, found, wanted) {
  checks++;
  if (Buffer.compare(found, wanted) === 0) return;
  const place = wanted.findIndex((byte, index) => byte !== found[index]);
  differs(`${what}: ${found.length} bytes, and not ${wanted.length}; byte ${place} is ${
    found[place]}, and not ${wanted[place]}`);
}

/** The call throws a VolumeError with this message; any other end is told. */
function refuses(what, message, call) {
  checks++;
  try {
    call();
    differs(`${what}: no refusal, which is to be: ${message}`);
  } catch (error) {
    if (!(error instanceof VolumeError) || error.message !== message)
      differs(`${what}: ${error}, and not: ${message}`);
  }
}

/** What a call gives; where it throws, a difference is told, and null. */
function tried(what, call) {
  try {
    return call();
  } catch (error) {
    differs(`${what}: ${error}`);
    return null;
  }
}

const unpacked = (text) => new Uint8Array(inflateSync(Buffer.from(text, "base64")));
const digest = (bytes) => createHash("sha256").update(bytes).digest("hex");

/** The volume says of itself what is wanted, and gives the bytes of each file. */
function reads(what, volume, wanted) {
  const {files, ...fields} = wanted;
  for (const [name, value] of Object.entries(fields)) same(`${what}: ${name}`, volume[name], value);
  same(`${what}: files`, volume.files, files.map(({contents, ...file}) => file));
  for (const {name, contents} of files) {
    const taken = tried(`${what}: take ${name}`, () => volume.take(name));
    if (taken) same(`${what}: the bytes of ${name}`, digest(taken), contents);
  }
}

/** One put: the image of the volume after it, or null if it is to be refused. */
function putOnce(what, volume, step) {
  const contents = unpacked(step.contents), given = contents.slice(), {date} = step;
  puts++;
  if (step.refused) {
    refuses(what, step.refused, () => volume.put(step.name, contents, {date}));
    refuses(`${what}: its place`, step.refused, () => volume.place(step.name, contents.length));
    return null;
  }
  const made = tried(what, () => volume.put(step.name, contents, {date}));
  if (!made) return null;
  const {image, ...answer} = made;
  same(`${what}: the answer`, answer, step.answer);
  const {old, ...place} = volume.place(step.name, contents.length);
  same(`${what}: its place`, {...place, replaced: old !== null}, step.answer);
  if (old) same(`${what}: what it replaces`, old.name.toUpperCase(), step.name.toUpperCase());
  sameBytes(`${what}: the image`, image, unpacked(step.image));
  sameBytes(`${what}: the bytes that were put`, contents, given);
  const after = tried(`${what}: opened again`, () => openVolume(image));
  if (!after) return null;
  reads(`${what}: afterwards`, after, step.after);
  sameBytes(`${what}: taken again`,
    tried(`${what}: taken again`, () => after.take(step.name)) ?? new Uint8Array(), contents);
  return image;
}

/**
 * Puts one after the other, each onto what the last one gave; the image that a put gets is never
 * changed.
 */
function putsAll(what, image, steps) {
  let current = image;
  for (const [number, step] of steps.entries()) {
    const before = current.slice(),
          next = putOnce(`${what}: put ${number} of ${step.name}`, openVolume(current), step);
    sameBytes(`${what}: put ${number}: the image that was given`, current, before);
    if (!next && !step.refused) return;
    current = next ?? current;
  }
}

/**
 * A volume that is not sound: what is said of it, what is taken off it, and that nothing is put.
 */
function isDamaged(what, image, {name, flaws, sizes, puts: steps}) {
  const volume = tried(what, () => openVolume(image));
  if (!volume) return;
  same(`${what}: the name`, volume.name, name);
  same(`${what}: the flaws`, volume.flaws, flaws);
  same(`${what}: the files`, volume.files.map((file) => file.name), Object.keys(sizes));
  for (const [title, wanted] of Object.entries(sizes))
    takesDamaged(`${what}: take ${title}`, volume, title, wanted);
  putsAll(what, image, steps);
}

/** A file of a damaged volume: so many bytes, or what is said of one that cannot be taken. */
function takesDamaged(what, volume, title, wanted) {
  if (typeof wanted === "string")
    refuses(what, wanted, () => volume.take(title));
  else
    same(what, tried(what, () => volume.take(title))?.length, wanted);
}

function runCase(made) {
  const image = unpacked(made.image);
  cases++;
  if (made.flaws) {
    isDamaged(made.what, image, made);
  } else if (made.volume) {
    const volume = tried(made.what, () => openVolume(image));
    if (volume) reads(made.what, volume, made.volume);
    if (volume) putsAll(made.what, image, made.puts);
  } else {
    if (made.error) refuses(made.what, made.error, () => openVolume(image));
    same(`${made.what}: isVolume`, isVolume(image), false);
  }
}

// How it is called: what follows is compared with values that are typed here.

/** A volume of 20 blocks with the file A.CODE, of 700 bytes of the value 7 in blocks 6 and 7. */
function small() {
  const image = new Uint8Array(20 * 512).fill(0xee);
  image.fill(0, 1024, 3072);
  image.set([0, 0, 6, 0, 0, 0, 3, 0x56, 0x4f, 0x4c], 1024);
  image.set([20, 0, 1, 0], 1024 + 14);
  image.set([6, 0, 8, 0, 2, 0, 6, 0x41, 0x2e, 0x43, 0x4f, 0x44, 0x45], 1050);
  image.set([188, 0, 0xcb, 0x37], 1050 + 22);
  image.fill(7, 6 * 512, 6 * 512 + 700);
  return image;
}

const A_CODE = new Uint8Array(700).fill(7);
const NAME_RULE = "a name has 1 to 15 letters, digits and - . / \\ _.";

/** Bytes in each form in which JavaScript has them. */
function ofForms() {
  const image = small(),
        inside = Buffer.concat([Buffer.alloc(77, 1), image, Buffer.alloc(5, 2)])
                   .subarray(77, 77 + image.length);
  const views = {DataView: new DataView(image.buffer), Uint16Array: new Uint16Array(image.buffer)};
  const forms =
    {Uint8Array: image, ArrayBuffer: image.buffer, ...views, "a part of a Buffer": inside};
  const wanted = openVolume(image).put("B.CODE", A_CODE, {date: null}).image;
  for (const [what, bytes] of Object.entries(forms)) {
    const volume = openVolume(bytes), taken = volume.take("A.CODE");
    sameBytes(`${what}: taken`, taken, A_CODE);
    taken.fill(9);
    volume.put("A.CODE", A_CODE).image.fill(9);
    sameBytes(`${what}: given`, new Uint8Array(image.buffer), small());
    sameBytes(
      `${what}: put`, volume.put("B.CODE", Buffer.from(A_CODE), {date: null}).image, wanted);
    same(`${what}: isVolume`, isVolume(bytes), true);
  }
  for (const other of [null, undefined, "text", 5, {}, [0, 1]]) {
    refuses(`given ${other}`, "The image is not given as bytes.", () => openVolume(other));
    refuses(`put ${other}`, "The file is not given as bytes.",
      () => openVolume(image).put("B.CODE", other));
    same(`isVolume of ${other}`, isVolume(other), false);
  }
}

/** What an entry has after a put, byte for byte, and the date of today where none is given. */
function ofEntries() {
  const volume = openVolume(small());
  const entry = (date) =>
    Buffer.from(volume.put("b.code", A_CODE, {date}).image.subarray(1076, 1102)).toString("hex");
  const front = "08000a00020006422e434f4445000000000000000000bc00";
  same("the entry of 29 November 2026", entry({year: 2026, month: 11, day: 29}), `${front}db35`);
  same("the entry of 31 December 1999", entry({year: 1999, month: 12, day: 31}), `${front}fcc7`);
  same("the entry of 1 January 1970", entry({year: 1970, month: 1, day: 1}), `${front}118c`);
  same("the entry of 1 January 2000", entry({year: 2000, month: 1, day: 1}), `${front}1100`);
  same("the entry of 2 February 2069", entry({year: 2069, month: 2, day: 2}), `${front}228a`);
  same("the entry without a date", entry(null), `${front}0000`);
  same("the date of A.CODE", volume.files[0].date, {year: 2027, month: 11, day: 28});
  const now = new Date(), made = openVolume(volume.put("B.CODE", A_CODE).image).files[1].date;
  const days = [now, new Date()].map(
    (day) =>
      JSON.stringify({year: day.getFullYear(), month: day.getMonth() + 1, day: day.getDate()}));
  same("the date of today", days.includes(JSON.stringify(made)), true);
  const dates = [
    {year: 1969, month: 1, day: 1}, {year: 2070, month: 1, day: 1}, {year: 2000, month: 0, day: 1},
    {year: 2000, month: 13, day: 1}, {year: 2000, month: 1, day: 0},
    {year: 2000, month: 1, day: 32}, {year: 2000.5, month: 1, day: 1},
    {year: "2000", month: 1, day: 1}, {}, 5, "today"
  ];
  for (const date of dates) {
    refuses(`the date ${JSON.stringify(date)}`,
      "The date is none that a directory can have: years are 1970 to 2069, months 1 to 12, days 1 to 31.",
      () => volume.put("B.CODE", A_CODE, {date}));
  }
}

/** Names that no new file can have, names that are not there, and files that cannot be put. */
function ofNames() {
  const volume = openVolume(small());
  const names = [
    "", "A B", "A:B", "A,B", "A=B", "A?B", "A$", "#4", "*", "A[4]", "A%", "A\n", "A\0", "\u00c4",
    "\u0131", "ABCDEFGHIJKLMNOP", " A", "A.CODE ", "\ud83d\ude00"
  ];
  for (const name of names) {
    refuses(`put ${JSON.stringify(name)}`,
      `A file cannot have the name ${JSON.stringify(name)}: ${NAME_RULE}`,
      () => volume.put(name, A_CODE));
    refuses(`take ${JSON.stringify(name)}`, `The volume VOL has no file ${JSON.stringify(name)}.`,
      () => volume.take(name));
  }
  refuses("put undefined", `A file cannot have the name undefined: ${NAME_RULE}`,
    () => volume.put(undefined, A_CODE));
  refuses("put 5", `A file cannot have the name 5: ${NAME_RULE}`, () => volume.put(5, A_CODE));
  refuses("take undefined", "The volume VOL has no file undefined.", () => volume.take());
  refuses("take of another volume's file", 'The volume VOL has no file [object Object].',
    () => volume.take({first: 0, next: 9, size: 1}));
  refuses("put of nothing", "The file has no bytes, and a file of a volume has one block at least.",
    () => volume.put("B.CODE", new Uint8Array()));
  sameBytes("take by the file", volume.take(volume.files[0]), A_CODE);
  const parts = [volume, volume.files, volume.files[0], volume.flaws, volume.notes];
  same("what a volume says of itself is not to be changed", parts.map(Object.isFrozen),
    parts.map(() => true));
}

/** Two files of one name, and a file that marks bad blocks. */
function ofOddEntries() {
  const two = small();
  two.set([2, 0], 1024 + 16);
  two.set([9, 0, 10, 0, 2, 0, 6, 0x61, 0x2e, 0x43, 0x4f, 0x44, 0x45], 1076);
  two.set([4, 0], 1076 + 22);
  const volume = openVolume(two);
  same("two files of one name",
    volume.files.map(({name, size}) => [name, size, volume.take(name).length]),
    [["A.CODE", 700, 700], ["a.CODE", 4, 4]]);
  same("the first of two files", volume.take("A.code").length, 700);
  refuses("put of one of two", 'The volume VOL has 2 files "A.CODE". Remove all but one of them.',
    () => volume.put("A.CODE", A_CODE));
  same("put beside two of one name", volume.put("B.CODE", A_CODE).first, 10);
  const bad = small();
  bad[1050 + 4] = 1;
  refuses("put in place of bad blocks", "A.CODE marks bad blocks, and no file is put in its place.",
    () => openVolume(bad).put("A.CODE", A_CODE));
  same("put beside bad blocks", openVolume(bad).put("B.CODE", A_CODE).first, 8);
}

const lines = readFileSync(casesFile, "latin1").split("\n").filter((line) => line);
for (const part of [ofForms, ofEntries, ofNames, ofOddEntries]) tried(part.name, part);
for (const line of lines) runCase(JSON.parse(line));
if (differences > MOST_PRINTED) console.log(`volume: ${differences - MOST_PRINTED} more`);
console.log(`volume: ${cases} volumes, ${puts} puts, ${checks} checks, ${differences} differences`);
if (cases < FEWEST)
  console.log(`volume: ${cases} volumes were tried, and ${FEWEST} at least are to be`);
process.exitCode = differences || cases < FEWEST || !puts ? 1 : 0;
