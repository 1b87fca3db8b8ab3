// Gives volume.mjs images that came to harm, and bytes that are no image: whatever it is given, it
// answers with a volume or a VolumeError, takes no more memory than the image has, and what it puts
// can be taken again, beside the files that were there. Usage: volume_hostile.mjs CASES [SEED
// [COUNT [VOLUME_MJS]]]; prints each difference, and last a line with counts.
import {readFileSync} from "node:fs";
import {resolve} from "node:path";
import {pathToFileURL} from "node:url";
import {inflateSync} from "node:zlib";

const [casesFile, seed = "1", count = "6000", module] = process.argv.slice(2);
const {VolumeError, isVolume, openVolume} =
  await import(module ? pathToFileURL(resolve(module)) : new URL("../volume.mjs", import.meta.url));
const LARGEST = 163840, SLOWEST = 1000, MOST_PRINTED = 20, SPARE = 4096;
const VALUES = [0, 1, 2, 5, 6, 7, 8, 9, 10, 11, 15, 16, 76, 77, 78, 127, 128, 255];
const counts = {
  opened: 0,
  sound: 0,
  refused: 0,
  puts: 0,
  "refused puts": 0
};
let differences = 0, state = 2654435769 ^ Number(seed);

/** A number from 0 to below a limit, the same in each run of one seed. */
function random(limit) {
  state = (state + 0x6d2b79f5) | 0;
  let mixed = Math.imul(state ^ (state >>> 15), 1 | state);
  mixed = (mixed + Math.imul(mixed ^ (mixed >>> 7), 61 | mixed)) ^ mixed;
  return ((mixed ^ (mixed >>> 14)) >>> 0) % limit;
}

const oneOf = (list) => list[random(list.length)];

function differs(what) {
  if (differences++ < MOST_PRINTED) console.log(`volume: ${what}`);
}

/**
 * What a call gives, or null where it throws a VolumeError; any other exception, and a slow call,
 * is told.
 */
function answered(what, call) {
  const began = performance.now();
  try {
    return call();
  } catch (error) {
    if (!(error instanceof VolumeError) || !/^[A-Z].*\.$/s.test(error.message))
      differs(`${what}: ${error?.stack}`);
    return null;
  } finally {
    if (performance.now() - began > SLOWEST) differs(`${what}: more than ${SLOWEST} ms`);
  }
}

// Uint8Array as volume.mjs finds it: one that is larger than the image and a directory is told.
const Bytes = globalThis.Uint8Array;
let most = Infinity;
globalThis.Uint8Array = class extends Bytes {
  constructor(...given) {
    if (typeof given[0] === "number" && given[0] > most)
      differs(`an array of ${given[0]} bytes for an image of ${most - SPARE}`);
    super(...given);
  }
};

// Harm

/** Where the header and the directory of an image are likely to be. */
function place(image) {
  return random(Math.min(image.length, oneOf([100, 1200, 3200, 5200, image.length])));
}

function withBytes(image) {
  for (let number = 1 + random(6); number > 0 && image.length; number--)
    image[place(image)] = oneOf([random(256), oneOf(VALUES)]);
  return image;
}

function withWord(image) {
  const value = oneOf([0, 1, 6, 10, 77, 78, 0x7fff, 0x8000, 0xffff, random(65536), random(64)]),
        at = place(image) & ~1;
  if (at + 2 <= image.length) new DataView(image.buffer).setUint16(at, value, random(2) === 0);
  return image;
}

function withField(image) {
  const fixed = [0, 1, 512, 0x7fffffff, 0x80000000, 0xffffffff], at = 4 * random(21);
  const value = oneOf([...fixed, image.length, random(image.length + 1), random(0xffffffff)]);
  if (at + 4 <= image.length) new DataView(image.buffer).setUint32(at, value, random(2) === 0);
  return image;
}

function withEntry(image) {
  const start = oneOf([0, 64, 84]) + 1024, from = start + 26 * random(6),
        to = start + 26 * random(6);
  if (Math.max(from, to) + 26 <= image.length) image.copyWithin(to, from, from + 26);
  return image;
}

const cut = (image) => image.slice(0, random(image.length + 1));
const joined = (image, other) =>
  Bytes.from([...image.subarray(0, random(6000)), ...other.subarray(0, random(6000))]);
const noise = () => Bytes.from({length: oneOf([0, 10, 84, 3072, 4096, 9000])}, () => random(256));

function noiseWithHeader() {
  const made = noise(),
        header = oneOf([[0x32, 0x49, 0x4d, 0x47], [0x1f, 0x8b], [0x50, 0x4b, 3, 4]]);
  if (random(2) && made.length > 84)
    made.set([1, 0], 82);
  else
    made.set(header.slice(0, made.length));
  return made;
}

/** An image that came to harm, once or several times. */
function harmed(images) {
  if (random(20) === 0) return oneOf([noise, noiseWithHeader])();
  let made = oneOf(images).slice();
  for (let times = 1 + random(3); times > 0; times--) {
    made = oneOf([withBytes, withBytes, withWord, withWord, withField, withEntry, cut, joined])(
      made, oneOf(images));
    if (made.length > 512 && random(4) > 0) break;
  }
  return made;
}

// What has to hold

/** What a volume says of itself, and each file, is within the image. */
function isBounded(what, volume, image) {
  const {files, freeBlocks, blocks, name, flaws, notes} = volume, texts = [
    name, ...flaws, ...notes, ...files.map((file) => file.name)
  ];
  if (files.length > 77 || flaws.length > 82 || !texts.every((text) => /^[ -~]+$/.test(text)))
    differs(`${what}: ${texts}`);
  if (!(freeBlocks >= 0 && freeBlocks <= Math.min(blocks, image.length / 512)))
    differs(`${what}: ${freeBlocks} free blocks`);
  return files.map((file) => takenOf(`${what}: take ${file.name}`, volume, file, image));
}

function takenOf(what, volume, file, image) {
  const taken = answered(what, () => volume.take(file));
  if (taken && (taken.length !== file.size || taken.length > image.length))
    differs(`${what}: ${taken.length} bytes, and not ${file.size}`);
  return taken;
}

/** A put is refused, or the file can be taken again, and the others as before. */
function putOnto(what, volume, image, taken, name) {
  const contents = new Bytes(1 + random(2000)).fill(random(256)), before = image.slice();
  const made = answered(what, () => volume.put(name, contents));
  if (Buffer.compare(image, before) !== 0) differs(`${what}: the image is changed`);
  if (!made) return counts["refused puts"]++;
  counts.puts++;
  if (volume.flaws.length || made.image.length !== image.length)
    differs(`${what}: a put onto ${volume.flaws}, ${made.image.length} bytes`);
  const after = answered(`${what}: opened again`, () => openVolume(made.image));
  if (!after || after.flaws.length || after.format !== volume.format)
    return differs(`${what}: afterwards ${after?.format}, ${after?.flaws}`);
  if (Buffer.compare(after.take(name), contents) !== 0) differs(`${what}: other bytes`);
  keepsOthers(what, volume, after, taken, name);
}

function keepsOthers(what, volume, after, taken, name) {
  for (const [index, file] of volume.files.entries()) {
    const now = after.files.find((other) => other.name === file.name && other.first === file.first);
    const isSame = now && Buffer.compare(after.take(now), taken[index]) === 0 &&
      JSON.stringify(now) === JSON.stringify(file);
    if (file.name.toUpperCase() !== name.toUpperCase() && !isSame)
      differs(`${what}: ${file.name} is another`);
  }
}

function tryOne(number, images) {
  const image = harmed(images), what = `seed ${seed}, image ${number}`;
  most = image.length + SPARE;
  const volume = answered(what, () => openVolume(image));
  if (isVolume(image) !== (volume !== null)) differs(`${what}: isVolume`);
  if (!volume) return counts.refused++;
  counts.opened++;
  if (!volume.flaws.length) counts.sound++;
  const taken = isBounded(what, volume, image);
  putOnto(`${what}: a new file`, volume, image, taken, "NEW.CODE");
  if (volume.files.length)
    putOnto(`${what}: in place`, volume, image, taken, oneOf(volume.files).name);
}

const lines = readFileSync(casesFile, "latin1").split("\n").filter((line) => line);
const all =
  lines.map((line) => Bytes.from(inflateSync(Buffer.from(JSON.parse(line).image, "base64"))));
const images = all.filter((image) => image.length <= LARGEST && image.length > 0);
for (let number = 0; number < Number(count); number++) tryOne(number, images);
console.log(`volume: hostile images: ${
  Object.entries(counts).map(([what, times]) => `${times} ${what}`).join(", ")}; ${
  differences} differences`);
process.exitCode = differences || !Object.values(counts).every((times) => times > 0) ? 1 : 0;
