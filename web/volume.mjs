/*
 * Volumes of the p-System: reads the directory of an image of a disk, takes files off it, and puts
 * a code file onto a copy of it. It reads and writes no file of its own, and needs nothing but the
 * language, so it works in a page too.
 *
 *     const volume = openVolume(bytesOfTheImage);
 *     const host = volume.take("HOST.CODE");
 *     const {image} = volume.put("DEMO.CODE", linked);
 *
 * The bytes of the image are kept and never changed: whoever gives them leaves them as they are
 * while the volume is used. docs/VOLUMES.md has the formats and the rules.
 */

const BLOCK = 512, SECTOR = 256, TRACK = 4096, TRACK_SECTORS = 16;
const ENTRY = 26, DIRECTORY_BLOCKS = 4, FIRST_DIRECTORY = 2, DUPLICATE_DIRECTORY = 6,
      DUPLICATE_END = 10;
const FILES_MAX = 77, VOLUME_NAME_MAX = 7, FILE_NAME_MAX = 15, BAD_BLOCKS_KIND = 1, CODE_KIND = 2;
const UNCLOSED_YEAR = 100; // in the date of a file that a program made and never closed
const TWO_IMG_HEADER = 64, DISK_COPY_HEADER = 84, DISK_COPY_CHECKSUM = 72;
const DISK_TRACKS = [35, 40], NIBBLE_SIZES = [232960, 223440];

const IN_BLOCKS = "Make an image of it that has its blocks in order.";
const KINDS =
  ["untyped", "bad blocks", "code", "text", "info", "data", "graf", "foto", "securedir"];

// which sector of a track of the image each half block of the track is
const IN_ORDER = [0, 1, 2, 3, 4, 5, 6, 7, 8, 9, 10, 11, 12, 13, 14, 15];
const DOS_ORDER = [0, 14, 13, 12, 11, 10, 9, 8, 7, 6, 5, 4, 3, 2, 1, 15];
const CPM_ORDER = [0, 6, 12, 2, 8, 14, 4, 10, 11, 1, 7, 13, 3, 9, 15, 5];

/** What is wrong with an image, a name or a file: the message is a sentence for a person. */
export class VolumeError extends Error {
  name = "VolumeError";
}

/**
 * @typedef {{year: number, month: number, day: number}} DiskDate
 * @typedef {object} VolumeFile a file of the directory
 * @property {string} name
 * @property {number} kind the number of its kind, 2 for a code file
 * @property {string} kindName the name of its kind
 * @property {number} first its first block
 * @property {number} next the block after its last
 * @property {number} size its bytes
 * @property {DiskDate | null} date
 * @property {boolean} isUnclosed whether a program made it and never closed it
 */

/**
 * Whether openVolume finds a directory.
 * @param {Uint8Array | ArrayBuffer} bytes
 */
export function isVolume(bytes) {
  try {
    openVolume(bytes);
    return true;
  } catch (error) {
    if (error instanceof VolumeError) return false;
    throw error;
  }
}

/**
 * Finds the format of an image and the directory of the volume in it. A volume whose directory is
 * not sound is opened to take files off it, and `flaws` says what is not sound: nothing is put onto
 * it.
 * @param {Uint8Array | ArrayBuffer} bytes
 * @returns {Volume}
 * @throws {VolumeError} if there is no directory
 */
export function openVolume(bytes) {
  const given = plain(bytes, "The image");
  const images = imagesOf(given);
  const reading = bestReading(images);
  if (!reading) throw new VolumeError(whyNoVolume(given, images));
  return new Volume(reading);
}

/** A volume in an image, which `openVolume` gives. */
export class Volume {
  #image;
  #directory;
  #end;

  /** @private */
  constructor({image, directory, flaws, notes}) {
    this.#image = image;
    this.#directory = directory;
    this.#end = Math.min(directory.blocks, image.blocks);
    /** @type {string} */
    this.name = directory.entry(0).name;
    /**
     * The format of the image, as a part of a sentence.
     * @type {string}
     */
    this.format = image.format;
    /** @type {boolean} */
    this.bigEndian = directory.bigEndian;
    /**
     * The blocks of the volume, by its directory.
     * @type {number}
     */
    this.blocks = directory.blocks;
    /**
     * Whether there is a duplicate directory.
     * @type {boolean}
     */
    this.duplicate = directory.hasDuplicate;
    /**
     * What is not sound: sentences. Where there is one, nothing is put onto the volume.
     * @type {readonly string[]}
     */
    this.flaws = Object.freeze(flaws);
    /**
     * What else a person may want to know of the image: sentences.
     * @type {readonly string[]}
     */
    this.notes = Object.freeze(notes);
    /**
     * The files, in the order of the directory.
     * @type {readonly VolumeFile[]}
     */
    this.files = Object.freeze(directory.files().filter(isListed).map(asFile));
    /**
     * The free blocks in the image, however they lie.
     * @type {number}
     */
    this.freeBlocks = this.#gaps().reduce((sum, gap) => sum + gap.blocks, 0);
    Object.freeze(this);
  }

  /**
   * The bytes of a file: of its blocks, as far as its last block is used.
   * @param {string | VolumeFile} wanted its name, in capitals or small letters, or one of `files`
   * @returns {Uint8Array}
   * @throws {VolumeError} if there is no such file, or the image does not have all of it
   */
  take(wanted) {
    const file = this.files.includes(wanted) ? wanted : this.#named(wanted);
    if (!file) throw new VolumeError(`The volume ${this.name} has no file ${shown(wanted)}.`);
    if (file.next > this.#image.blocks) {
      throw new VolumeError(`The file ${file.name} ends before block ${
        file.next}, and the image has ${this.#image.blocks} blocks.`);
    }
    return this.#image.read(file.first, file.next - file.first).slice(0, file.size);
  }

  /**
   * Puts a code file onto a copy of the image: in place of the file of that name, or as a new one.
   * Only free blocks and the blocks of the file that it replaces are written, and the directory.
   * @param {string} name
   * @param {Uint8Array | ArrayBuffer} bytes
   * @param {{date?: DiskDate | null}} [options] the date of the entry: today, if none is given;
   *   null for no date
   * @returns {{image: Uint8Array, first: number, blocks: number, replaced: boolean}}
   * @throws {VolumeError} if there is no room, or the name or the directory allows no file: nothing
   *   is made then
   */
  put(name, bytes, {date = today()} = {}) {
    const contents = plain(bytes, "The file"),
          {first, blocks, old} = this.place(name, contents.length);
    const entry = this.#directory.newEntry(
      capitals(name), first, blocks, contents.length - BLOCK * (blocks - 1), dateWord(date));
    const directory = this.#directory.with(entry, old);
    const copy = this.#image.copy();
    copy.write(first, contents, blocks);
    copy.write(FIRST_DIRECTORY, directory, DIRECTORY_BLOCKS);
    if (this.duplicate) copy.write(DUPLICATE_DIRECTORY, directory, DIRECTORY_BLOCKS);
    copy.mendChecksum();
    return {image: copy.bytes, first, blocks, replaced: old !== null};
  }

  /**
   * Where a put would put a file of so many bytes, and the file that it would replace, or null.
   * @param {string} name
   * @param {number} length
   * @returns {{first: number, blocks: number, old: VolumeFile | null}}
   * @throws {VolumeError} as the put would
   */
  place(name, length) {
    if (this.flaws.length)
      throw new VolumeError(
        `Nothing is put onto the volume ${this.name}, as it is not sound. ${this.flaws[0]}`);
    if (!length)
      throw new VolumeError(
        "The file has no bytes, and a file of a volume has one block at least.");
    const old = this.#replaced(name), blocks = Math.ceil(length / BLOCK);
    return {first: this.#placeFor(blocks, old), blocks, old};
  }

  /**
   * The first file of this name, exactly or else without regard to capitals; null if there is
   * none.
   */
  #named(name) {
    return this.files.find((file) => file.name === name) ?? this.#allNamed(name)[0] ?? null;
  }

  #allNamed(name) {
    return typeof name === "string" ?
      this.files.filter((file) => capitals(file.name) === capitals(name)) :
      [];
  }

  /**
   * The file that one of this name is put in place of; null for a new file, whose name must be one
   * that a new file can have.
   */
  #replaced(name) {
    const had = this.#allNamed(name);
    if (had.length > 1)
      throw new VolumeError(`The volume ${this.name} has ${had.length} files ${
        shown(name)}. Remove all but one of them.`);
    if (had[0]?.kind === BAD_BLOCKS_KIND)
      throw new VolumeError(`${had[0].name} marks bad blocks, and no file is put in its place.`);
    if (had.length === 1) return had[0];
    if (typeof name !== "string" || !/^[A-Za-z0-9._/\\-]{1,15}$/.test(name)) {
      throw new VolumeError(`A file cannot have the name ${shown(name)}: a name has 1 to ${
        FILE_NAME_MAX} letters, digits and - . / \\ _.`);
    }
    if (this.files.length >= FILES_MAX) {
      throw new VolumeError(`The directory of ${this.name} is full: it has ${
        FILES_MAX} files, and no room for another.`);
    }
    return null;
  }

  /**
   * The block from which on a file of so many blocks is put: where the old one is, or else in the
   * smallest gap that has room.
   */
  #placeFor(blocks, old) {
    const gaps = this.#gaps();
    const inPlace =
      old ? old.next - old.first + (gaps.find((gap) => gap.first === old.next)?.blocks ?? 0) : 0;
    if (blocks <= inPlace) return old.first;
    const large = gaps.filter((gap) => gap.blocks >= blocks);
    if (large.length)
      return large.reduce((best, gap) => (gap.blocks < best.blocks ? gap : best)).first;
    const most = gaps.reduce((best, gap) => Math.max(best, gap.blocks), 0),
          free = `${most} free together, ${this.freeBlocks} in all`;
    const there = old ? ` In place of ${old.name} there is room for ${inPlace}.` : "";
    throw new VolumeError(
      `The file has ${counted(blocks, "block")}, and the volume ${this.name} has ${free}.${there}`);
  }

  /** The runs of free blocks, in ascending order. */
  #gaps() {
    const gaps = [], end = this.#end;
    let from = this.#directory.end;
    for (const {first, next} of [...this.files, {first: end, next: end}]) {
      const to = Math.min(first, end);
      if (to > from) gaps.push({first: from, blocks: to - from});
      from = Math.max(from, next);
    }
    return gaps;
  }
}

/** The four blocks of a directory. */
class Directory {
  #bytes;
  #view;

  constructor(bytes, bigEndian) {
    this.#bytes = bytes;
    this.#view = new DataView(bytes.buffer, bytes.byteOffset, bytes.byteLength);
    this.bigEndian = bigEndian;
  }

  /** The block after those of the directory, and of its duplicate. */
  get end() {
    return this.#word(this.#view, 2);
  }

  get hasDuplicate() {
    return this.end === DUPLICATE_END;
  }

  get blocks() {
    return this.#word(this.#view, 14);
  }

  get count() {
    return this.#word(this.#view, 16);
  }

  /** What an entry says: 0 is the entry of the volume. A name that is too long is null. */
  entry(number) {
    const at = ENTRY * number, word = (place) => this.#word(this.#view, at + place);
    const length = this.#bytes[at + 6], most = number === 0 ? VOLUME_NAME_MAX : FILE_NAME_MAX;
    const name =
      length <= most ? String.fromCharCode(...this.#bytes.subarray(at + 7, at + 7 + length)) : null;
    return {
      number,
      first: word(0),
      next: word(2),
      kind: word(4) & 15,
      length,
      name,
      lastBytes: word(22),
      date: word(24)
    };
  }

  /** The entries of the files, as many as there are, or as a directory can have. */
  files() {
    return Array.from(
      {length: Math.min(this.count, FILES_MAX)}, (_, index) => this.entry(index + 1));
  }

  newEntry(name, first, blocks, lastBytes, date) {
    const entry = new Uint8Array(ENTRY), view = new DataView(entry.buffer);
    const words = [[0, first], [2, first + blocks], [4, CODE_KIND], [22, lastBytes], [24, date]];
    for (const [place, value] of words) view.setUint16(place, value, !this.bigEndian);
    entry[6] = name.length;
    entry.set(Array.from(name, (character) => character.charCodeAt(0)), 7);
    return entry;
  }

  /** The bytes of the directory with a new entry, and without that of the file it replaces. */
  with(added, old) {
    const kept = this.files().filter((entry) => entry.first !== old?.first);
    const entries =
      [added, ...kept.map(({number}) => this.#bytes.slice(ENTRY * number, ENTRY * (number + 1)))];
    const first = (entry) => this.#word(new DataView(entry.buffer), 0);
    entries.sort((one, other) => first(one) - first(other));
    const bytes = this.#bytes.slice();
    new DataView(bytes.buffer).setUint16(16, entries.length, !this.bigEndian);
    entries.forEach((entry, index) => bytes.set(entry, ENTRY * (index + 1)));
    return bytes;
  }

  #word(view, place) {
    return view.getUint16(place, !this.bigEndian);
  }
}

/** The blocks of an image: where they are in its bytes. */
class DiskImage {
  constructor(
    bytes, format, {order = IN_ORDER, start = 0, length = bytes.length, checksum = null} = {}) {
    this.bytes = bytes;
    this.format = format;
    this.order = order;
    this.start = start;
    this.stated = length;
    this.length = Math.max(0, Math.min(length, bytes.length - start));
    this.checksum = checksum;
  }

  get blocks() {
    return Math.floor(this.length / BLOCK);
  }

  /** A copy of so many blocks. */
  read(first, blocks) {
    const read = new Uint8Array(BLOCK * blocks);
    for (let half = 0; half < 2 * blocks; half++)
      read.set(this.#half(2 * first + half), SECTOR * half);
    return read;
  }

  /** Writes so many blocks: the bytes, and zeros after them. */
  write(first, bytes, blocks) {
    const whole = new Uint8Array(BLOCK * blocks);
    whole.set(bytes);
    for (let half = 0; half < 2 * blocks; half++) {
      this.#half(2 * first + half).set(whole.subarray(SECTOR * half, SECTOR * (half + 1)));
    }
  }

  copy() {
    const {order, start, stated, checksum} = this;
    return new DiskImage(this.bytes.slice(), this.format, {order, start, length: stated, checksum});
  }

  /** Whether the checksum of the header, if it has one, is that of the data. */
  get isChecked() {
    return this.checksum === null || this.#header().getUint32(this.checksum) === this.#sum();
  }

  mendChecksum() {
    if (this.checksum !== null) this.#header().setUint32(this.checksum, this.#sum());
  }

  #half(number) {
    const sector =
      TRACK_SECTORS * Math.floor(number / TRACK_SECTORS) + this.order[number % TRACK_SECTORS];
    return this.bytes.subarray(this.start + SECTOR * sector, this.start + SECTOR * (sector + 1));
  }

  #header() {
    return new DataView(this.bytes.buffer, this.bytes.byteOffset, DISK_COPY_HEADER);
  }

  /**
   * The checksum of DiskCopy 4.2: the sum of the big-endian words, turned right by a bit after
   * each.
   */
  #sum() {
    let sum = 0;
    for (let place = this.start; place < this.start + this.length; place += 2) {
      sum = (sum + 256 * this.bytes[place] + this.bytes[place + 1]) >>> 0;
      sum = ((sum >>> 1) | (sum << 31)) >>> 0;
    }
    return sum;
  }
}

/** What the bytes may be an image of, the likely first. */
function imagesOf(bytes) {
  return [...twoImg(bytes), ...diskCopy(bytes), ...withoutHeader(bytes)];
}

function withoutHeader(bytes) {
  const images = [new DiskImage(bytes, "blocks in order")];
  if (isDisk(bytes.length))
    images.push(new DiskImage(bytes, "sectors in the order of DOS 3.3", {order: DOS_ORDER}));
  return images;
}

/** 2IMG: the order that the header says first, and then the other. */
function twoImg(bytes) {
  if (!begins(bytes, "2IMG") || bytes.length < TWO_IMG_HEADER) return [];
  const header = new DataView(bytes.buffer, bytes.byteOffset, TWO_IMG_HEADER),
        field = (place) => header.getUint32(place, true);
  const start = field(24) || TWO_IMG_HEADER,
        length = field(28) || BLOCK * field(20) || bytes.length - start;
  const inBlocks = new DiskImage(bytes, "2IMG, blocks in order", {start, length});
  const inSectors = new DiskImage(
    bytes, "2IMG, sectors in the order of DOS 3.3", {start, length, order: DOS_ORDER});
  if (!isDisk(inBlocks.length)) return [inBlocks];
  return field(12) === 0 ? [inSectors, inBlocks] : [inBlocks, inSectors];
}

function diskCopy(bytes) {
  if (bytes.length < DISK_COPY_HEADER || bytes[0] > 63 || bytes[82] !== 1 || bytes[83] !== 0)
    return [];
  const header = new DataView(bytes.buffer, bytes.byteOffset, DISK_COPY_HEADER),
        length = header.getUint32(64);
  if (length === 0 || length % BLOCK !== 0) return [];
  return [new DiskImage(
    bytes, "DiskCopy 4.2", {start: DISK_COPY_HEADER, length, checksum: DISK_COPY_CHECKSUM})];
}

/**
 * The reading whose directory is sound, or else one in which there is a directory, or the
 * duplicate of it if that alone is sound.
 */
function bestReading(images) {
  const found = images.flatMap((image) => readingsOf(image, FIRST_DIRECTORY));
  const first = found.find(isSound) ?? found[0] ?? null;
  if (first && (isSound(first) || !first.directory.hasDuplicate)) return first;
  const duplicates =
    (first ? [first.image] : images).flatMap((image) => readingsOf(image, DUPLICATE_DIRECTORY));
  const duplicate = duplicates.find(isSound) ?? (first ? null : duplicates[0]);
  return duplicate ? readFromDuplicate(duplicate) : first;
}

function isSound(reading) {
  return reading.flaws.length === 0;
}

function readFromDuplicate(reading) {
  const flaw =
    "The directory in blocks 2 to 5 is not sound: the files are those of the duplicate in blocks 6 to 9.";
  return {...reading, flaws: [flaw, ...reading.flaws]};
}

/** What an image is with a directory at this block: one reading, or none. */
function readingsOf(image, block) {
  const directories =
    directoriesAt(image, block).filter((directory) => volumeFlaw(directory).text === null);
  return directories.filter((directory) => block === FIRST_DIRECTORY || directory.hasDuplicate)
    .map((directory) => (
           {image, directory, flaws: flawsOf(image, directory), notes: notesOf(image, directory)}));
}

/**
 * The blocks from this one on as a directory, in both byte orders; none where the image ends
 * before.
 */
function directoriesAt(image, block) {
  if (image.blocks < block + DIRECTORY_BLOCKS) return [];
  const bytes = image.read(block, DIRECTORY_BLOCKS);
  return [false, true].map((bigEndian) => new Directory(bytes, bigEndian));
}

/** Why the first entry is not that of a volume, null if it is; and how many of its fields are. */
function volumeFlaw(directory) {
  const entry = directory.entry(0), {first, next, kind, length} = entry;
  const checks = [
    [first === 0, `begins with the word ${first}, and not with 0`],
    [
      next === DUPLICATE_DIRECTORY || next === DUPLICATE_END,
      `says that the first file begins at block ${next}, and 6 or 10 is possible`
    ],
    [kind === 0, `has the kind ${kind}, and not 0`],
    [
      length >= 1 && length <= VOLUME_NAME_MAX,
      `has a name of ${counted(length, "character")}, and 1 to ${VOLUME_NAME_MAX} are possible`
    ],
    [isPrintable(entry), "has a name with a byte that is no character of a name"],
  ];
  const right = checks.findIndex(([isRight]) => !isRight);
  return right < 0 ? {text: null, right: checks.length} :
                     {text: `The volume entry ${checks[right][1]}.`, right};
}

/** What is not sound in an image with this directory. */
function flawsOf(image, directory) {
  const {blocks, count, end} = directory, flaws = [];
  if (image.stated > image.length) {
    flaws.push(`The header says that the data have ${
      counted(image.stated, "byte")}, and there are ${image.length}: the image is cut.`);
  }
  if (blocks < end)
    flaws.push(`The volume entry says that the volume has ${
      counted(blocks, "block")}, and the directory ends before block ${end}.`);
  if (count > FILES_MAX)
    flaws.push(`The volume entry says that there are ${count} files, and a directory has ${
      FILES_MAX} at most.`);
  let before = {end, owner: "the directory"};
  for (const entry of directory.files()) {
    const flaw = entryFlaw(entry, before, directory, image);
    if (flaw) flaws.push(flaw);
    if (entry.next > before.end) before = {end: entry.next, owner: `entry ${titled(entry)}`};
  }
  return flaws;
}

/**
 * The first thing that is not sound in the entry of a file, null if all is; `before` says what has
 * the blocks before some block.
 */
function entryFlaw(entry, before, directory, image) {
  const {first, next, length, lastBytes} = entry;
  const checks = [
    [
      length >= 1 && length <= FILE_NAME_MAX,
      `has a name of ${counted(length, "character")}, and 1 to ${FILE_NAME_MAX} are possible`
    ],
    [isPrintable(entry), "has a name with a byte that is no character of a name"],
    [first < next, `has no blocks: it begins at block ${first} and ends before block ${next}`],
    [
      first >= before.end,
      `begins at block ${first}, and the blocks before ${before.end} are those of ${before.owner}`
    ],
    [
      next <= directory.blocks,
      `ends before block ${next}, and the volume has ${counted(directory.blocks, "block")}`
    ],
    [
      next <= image.blocks,
      `ends before block ${next}, and the image has ${counted(image.blocks, "block")}`
    ],
    [
      lastBytes >= 1 && lastBytes <= BLOCK,
      `has ${counted(lastBytes, "byte")} in its last block, and 1 to ${BLOCK} are possible`
    ],
  ];
  const wrong = checks.find(([isRight]) => !isRight);
  return wrong ? `Entry ${titled(entry)}${isPrintable(entry) ? "," : ""} ${wrong[1]}.` : null;
}

/** What a person may want to know of an image that can be used. */
function notesOf(image, directory) {
  const notes = [];
  if (directory.blocks > image.blocks)
    notes.push(
      `The volume has ${directory.blocks} blocks by its directory, and the image ${image.blocks}.`);
  if (!image.isChecked)
    notes.push("The checksum in the header is not that of the data: the image may be damaged.");
  const [one, other] =
    [FIRST_DIRECTORY, DUPLICATE_DIRECTORY].map((block) => image.read(block, DIRECTORY_BLOCKS));
  if (directory.hasDuplicate && !isSame(one, other)) {
    notes.push(
      "The duplicate directory in blocks 6 to 9 differs from the directory in blocks 2 to 5.");
  }
  return notes;
}

/** Why no directory is found, as a sentence. */
function whyNoVolume(bytes, images) {
  const other = otherForm(bytes);
  if (other) return other;
  const flaws = images.flatMap((image) => directoriesAt(image, FIRST_DIRECTORY)).map(volumeFlaw);
  if (!flaws.length)
    return `There is no volume: an image has 6 blocks at least, and there are ${
      counted(bytes.length, "byte")}.`;
  const nearest = flaws.reduce((best, flaw) => (flaw.right > best.right ? flaw : best));
  return `There is no directory of a p-System volume in block 2. ${nearest.text}`;
}

/**
 * What the bytes are if they are a known form that is not opened, as a sentence; null if they are
 * not.
 * @param {Uint8Array} bytes
 * @returns {string | null}
 */
export function otherForm(bytes) {
  if (bytes[0] === 0x1f && bytes[1] === 0x8b) return "This is a gzip file. Unpack it first.";
  if (begins(bytes, "PK\x03\x04")) return "This is a zip file. Unpack it first.";
  if (begins(bytes, "2IMG") && bytes[12] === 2)
    return `This is a 2IMG image of nibbles. ${IN_BLOCKS}`;
  // (in both orders the directory begins in the same sector)
  if (hasVolume(bytes, CPM_ORDER))
    return `This image has its sectors in the order of CP/M, or as they lie on the disk. ${
      IN_BLOCKS}`;
  if (NIBBLE_SIZES.includes(bytes.length))
    return `This may be a disk image of nibbles. ${IN_BLOCKS}`;
  return null;
}

function hasVolume(bytes, order) {
  return isDisk(bytes.length) &&
    readingsOf(new DiskImage(bytes, "", {order}), FIRST_DIRECTORY).length > 0;
}

/** Whether so many bytes are a disk of sectors of 256 bytes. */
function isDisk(length) {
  return DISK_TRACKS.some((tracks) => length === TRACK * tracks);
}

/** Whether an entry has a name and blocks, so that a person can be offered the file. */
function isListed(entry) {
  return isPrintable(entry) && entry.first < entry.next;
}

function asFile({name, kind, first, next, lastBytes, date}) {
  const used = lastBytes >= 1 && lastBytes <= BLOCK ? lastBytes : BLOCK;
  const size = BLOCK * (next - first - 1) + used;
  const kindName = KINDS[kind] ?? `kind ${kind}`, isUnclosed = yearOf(date) === UNCLOSED_YEAR;
  return Object.freeze({name, kind, kindName, first, next, size, date: dateOf(date), isUnclosed});
}

function yearOf(word) {
  return word >> 9;
}

/** The day of a date word, null for none. A year below 70 is of this century; 100 is no year. */
function dateOf(word) {
  const month = word & 15, day = (word >> 4) & 31, year = yearOf(word);
  if (month < 1 || month > 12 || day < 1) return null;
  if (year === UNCLOSED_YEAR) return null;
  return {year: year < 70 ? 2000 + year : 1900 + year, month, day};
}

function dateWord(date) {
  if (date === null) return 0;
  const {year, month, day} = Object(date);
  const isWithin = (value, least, most) =>
    Number.isInteger(value) && value >= least && value <= most;
  if (!isWithin(year, 1970, 2069) || !isWithin(month, 1, 12) || !isWithin(day, 1, 31)) {
    throw new VolumeError(
      "The date is none that a directory can have: years are 1970 to 2069, months 1 to 12, days 1 to 31.");
  }
  return ((year % 100) << 9) | (day << 4) | month;
}

function today() {
  const now = new Date();
  return {year: now.getFullYear(), month: now.getMonth() + 1, day: now.getDate()};
}

/** The bytes without what a subclass such as node's Buffer changes of them. */
function plain(bytes, what) {
  if (ArrayBuffer.isView(bytes))
    return new Uint8Array(bytes.buffer, bytes.byteOffset, bytes.byteLength);
  if (Object.prototype.toString.call(bytes) === "[object ArrayBuffer]")
    return new Uint8Array(bytes);
  throw new VolumeError(`${what} is not given as bytes.`);
}

/** Whether an entry has a name, and each byte of it is a character that can be printed. */
function isPrintable({name}) {
  return name !== null && /^[ -~]+$/.test(name);
}

/** An entry by its number, and by its name if that can be printed. */
function titled(entry) {
  return isPrintable(entry) ? `${entry.number}, ${entry.name}` : String(entry.number);
}

function capitals(name) {
  return name.replace(/[a-z]/g, (letter) => letter.toUpperCase());
}

function shown(name) {
  return typeof name === "string" ? JSON.stringify(name) : String(name);
}

function counted(number, what) {
  return `${number} ${what}${number === 1 ? "" : "s"}`;
}

function begins(bytes, text) {
  return Array.from(text).every((character, index) => bytes[index] === character.charCodeAt(0));
}

function isSame(one, other) {
  return one.length === other.length && one.every((byte, index) => byte === other[index]);
}
