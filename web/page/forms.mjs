/*
 * What a file may be that is no code file and no image as it is given, and would be one without its
 * header, with the bytes of each pair exchanged, unpacked, or turned back from a text. Nothing here
 * says whether it is one: the page looks at what comes of it.
 */

/**
 * @typedef {object} Form
 * @property {string} told what the file is, as a sentence without a name: "is behind a header of
 * MacBinary"
 * @property {string} words what a person does: "Use it without its header"
 * @property {string} named what stands behind the name of what comes of it: "without its header"
 * @property {Uint8Array} bytes what comes of it
 */

const BLOCK = 512, MACBINARY = 128, DISK_COPY = 84, TWO_IMG = 64;
const APPLE_SINGLE = 0x00051600, DATA_FORK = 1, ENTRIES = 26, ENTRY = 12;
// what is read of a text, and what is unpacked at most
const TEXT_MAX = 1 << 24, UNPACKED_MAX = 1 << 26;
const HEADER = {
  words: "Use it without its header",
  named: "without its header"
};

const viewOf = (bytes) => new DataView(bytes.buffer, bytes.byteOffset, bytes.byteLength);

const begins = (bytes, text) => Array.from(text).every((one, k) => bytes[k] === one.charCodeAt(0));

const behind = (bytes, start, length) =>
  bytes.slice(start, Math.min(bytes.length, start + (length || bytes.length)));

// ---- Headers

function ofMacBinary(bytes) {
  const isOne = bytes.length > MACBINARY && bytes[0] === 0 && bytes[1] >= 1 && bytes[1] <= 63 &&
    bytes[74] === 0 && bytes[82] === 0;
  if (!isOne) return [];
  const content = behind(bytes, MACBINARY, viewOf(bytes).getUint32(83));
  return [{...HEADER, told: "is behind a header of MacBinary", bytes: content}];
}

function ofAppleSingle(bytes) {
  if (bytes.length < ENTRIES || viewOf(bytes).getUint32(0) !== APPLE_SINGLE) return [];
  const view = viewOf(bytes), count = view.getUint16(ENTRIES - 2);
  for (let at = ENTRIES; at < ENTRIES + ENTRY * count && at + ENTRY <= bytes.length; at += ENTRY) {
    if (view.getUint32(at) !== DATA_FORK) continue;
    const content = behind(bytes, view.getUint32(at + 4), view.getUint32(at + 8));
    return [{...HEADER, told: "is a file of AppleSingle", bytes: content}];
  }
  return [];
}

function ofDiskCopy(bytes) {
  if (bytes.length <= DISK_COPY || bytes[0] > 63 || bytes[82] !== 1 || bytes[83] !== 0) return [];
  const content = behind(bytes, DISK_COPY, viewOf(bytes).getUint32(64));
  return [{...HEADER, told: "is behind a header of DiskCopy 4.2", bytes: content}];
}

function ofTwoImg(bytes) {
  if (bytes.length <= TWO_IMG || !begins(bytes, "2IMG")) return [];
  const field = (at) => viewOf(bytes).getUint32(at, true);
  const content = behind(bytes, field(24) || TWO_IMG, field(28));
  return [{...HEADER, told: "is behind a header of 2IMG", bytes: content}];
}

/** Headers of which nothing is known but how long they are. */
function ofOtherHeaders(bytes) {
  return [MACBINARY, BLOCK]
    .filter((length) => bytes.length > length)
    .map((length) => (
           {...HEADER, told: `is behind a header of ${length} bytes`, bytes: bytes.slice(length)}));
}

// ---- Pairs and gzip

function ofPairs(bytes) {
  const pairs = bytes.slice();
  for (let k = 0; k + 1 < pairs.length; k += 2) [pairs[k], pairs[k + 1]] = [pairs[k + 1], pairs[k]];
  return [{
    told: "has the two bytes of each pair exchanged",
    words: "Use it with its bytes exchanged",
    named: "with its bytes exchanged",
    bytes: pairs
  }];
}

/** All that a stream gives, but no more than a file may have; null if it gives more. */
async function allOf(stream) {
  const parts = [], reader = stream.getReader();
  let size = 0;
  for (;;) {
    const {done, value} = await reader.read();
    if (done) break;
    size += value.length;
    if (size > UNPACKED_MAX) return reader.cancel().then(() => null);
    parts.push(value);
  }
  return new Uint8Array(await new Blob(parts).arrayBuffer());
}

async function ofGzip(bytes) {
  const isOne = bytes[0] === 0x1f && bytes[1] === 0x8b;
  if (!isOne || !globalThis.DecompressionStream) return [];
  try {
    const content =
      await allOf(new Blob([bytes]).stream().pipeThrough(new DecompressionStream("gzip")));
    const form = {told: "is a gzip file", words: "Use it unpacked", named: "unpacked"};
    return content ? [{...form, bytes: content}] : [];
  } catch {
    return []; // it is cut, or none
  }
}

// ---- Texts

const TEXT = {
  words: "Use it turned back",
  named: "turned back"
};

function fromBase64(text) {
  const digits =
    text.replace(/^begin-base64 .*\n/, "").replace(/\n====\s*$/, "").replace(/\s/g, "");
  if (!/^[A-Za-z0-9+/]+={0,2}$/.test(digits) || digits.length % 4 === 1) return null;
  try {
    return Uint8Array.from(atob(digits), (one) => one.charCodeAt(0));
  } catch {
    return null;
  }
}

function fromDigits(text) {
  const digits = text.replace(/\s/g, "");
  if (digits.length % 2 || !/^[0-9A-Fa-f]+$/.test(digits)) return null;
  return Uint8Array.from(digits.match(/../g), (pair) => parseInt(pair, 16));
}

/**
 * The bytes of one word of a dump: two digits are a byte; of a longer word without a colon before
 * it the low byte is first.
 */
function bytesOfWord(word, isInOrder) {
  if (word.length === 2) return [parseInt(word, 16)];
  if (word.length === 3) return [parseInt(word, 8)];
  const value = parseInt(word, word.length === 6 ? 8 : 16);
  return isInOrder ? [value >> 8, value & 255] : [value & 255, value >> 8];
}

/** A line of a dump: its place, and its bytes; null where it is none. */
function lineOfDump(line) {
  const found = /^ *([0-9A-Fa-f]{6,8})(:?)(?:\s+(.*))?$/.exec(line);
  if (!found) return null;
  const [, place, colon, rest = ""] = found, isInOrder = colon === ":";
  const digits = (isInOrder ? rest.split(/ {2}/)[0] : rest.replace(/\s*\|.*\|?$/, "")).trim();
  const words = digits === "" ? [] : digits.split(/\s+/);
  const length = words[0]?.length ?? 2, isWord = /^[0-9A-Fa-f]+$/;
  const are = (word) =>
    isWord.test(word) && (word.length === length || (isInOrder && word.length === 2));
  if (![2, 3, 4, 6].includes(length) || !words.every(are)) return null;
  return {place, bytes: words.flatMap((word) => bytesOfWord(word, isInOrder))};
}

/**
 * The bytes of a dump whose places are numbers to this base; null if they do not fit its lines. A
 * star is for lines like the one before.
 */
function fromLines(lines, base) {
  const all = [];
  let before = [], isRepeated = false;
  for (const line of lines) {
    if (line === "*") {
      isRepeated = true;
      continue;
    }
    const place = parseInt(line.place, base);
    if (place > TEXT_MAX) return null;
    while (isRepeated && before.length && all.length < place) all.push(...before);
    if (place < all.length && line.bytes.length === 0) all.length = place;
    if (place !== all.length) return null;
    all.push(...line.bytes);
    [before, isRepeated] = [line.bytes, false];
  }
  return Uint8Array.from(all);
}

function fromDump(text) {
  const lines = text.split(/\r?\n/).filter((line) => line.trim());
  const read = lines.map((line) => line.trim() === "*" ? "*" : lineOfDump(line));
  if (read.length === 0 || read.includes(null)) return null;
  return fromLines(read, 16) ?? fromLines(read, 8);
}

function ofTexts(bytes) {
  if (bytes.length > TEXT_MAX || bytes.length === 0) return [];
  const isText =
    bytes.every((byte) => byte === 9 || byte === 10 || byte === 13 || (byte >= 32 && byte < 127));
  if (!isText) return [];
  const text = new TextDecoder().decode(bytes).replace(/\r\n?/g, "\n");
  const made = [
    ["is a dump", fromDump(text)], ["is a text of hexadecimal digits", fromDigits(text)],
    ["is a text in base64", fromBase64(text)]
  ];
  return made.filter(([, content]) => content).map(([told,
    content]) => ({...TEXT, told, bytes: content}));
}

/**
 * What may come of a file, the likely first.
 * @param {Uint8Array} bytes
 * @returns {Promise<Form[]>}
 */
export async function formsOf(bytes) {
  return [
    ...ofMacBinary(bytes), ...ofAppleSingle(bytes), ...ofDiskCopy(bytes), ...ofTwoImg(bytes),
    ...await ofGzip(bytes), ...ofTexts(bytes), ...ofOtherHeaders(bytes), ...ofPairs(bytes)
  ];
}
