/*
 * What the picture of a link shows, as values: from the documents of the module, and from the bytes
 * of the files and of the linked file. Nothing here is drawn, and nothing is linked. What no
 * document says is worked out here and is tested only: where link information and text end in a
 * file, the sums of references, the tables of procedures, which bytes of a code and of the
 * dictionary differ, and where in a file a fault is.
 */

/**
 * A part of a file: the bytes from `first` on that are of a slot, or of none. `taken` is the slot
 * in the linked file of a code that is there, or null; it is undefined where nothing is linked.
 * @typedef {object} Part
 * @property {"dictionary" | "code" | "links" | "text" | "unknown"} kind
 * @property {number | null} slot
 * @property {string} name
 * @property {number} first
 * @property {number} size
 * @property {number | null | undefined} taken
 */

const BLOCK = 512, SLOTS = 16, RECORD = 16, IN_A_PIECE = 8, TABLE_BEFORE = 8, TABLE = 10,
      BEFORE_SIZES = 2;
const HOSTSEG = 1, UNITSEG = 3;
const DRAWN_FILES = 6; // so many files that are refused are drawn, and the one at fault

/** The number of the segment dictionary, where segments have those of their slots. */
export const DICTIONARY = 16;

// the fields of a slot in block 0: where they begin, how long they are, and how far it is to those
// of the next slot
const FIELDS = [
  {what: "address", from: 0, size: 2, step: 4},
  {what: "length", from: 2, size: 2, step: 4},
  {what: "name", from: 64, size: 8, step: 8},
  {what: "kind", from: 192, size: 2, step: 2},
  {what: "text address", from: 224, size: 2, step: 2},
];

const bytesIn = (hex) => (hex.match(/../g) ?? []).map((pair) => parseInt(pair, 16));

const sum = (numbers) => numbers.reduce((all, number) => all + number, 0);

const range = (first, end) => Array.from({length: Math.max(0, end - first)}, (_, k) => first + k);

/** The first byte behind the blocks of so many bytes from a block on. */
const behind = (block, size) => BLOCK * (block + Math.ceil(size / BLOCK));

// ---- Files

const sizeOfRecord = ({references = []}) =>
  RECORD * (1 + Math.ceil(references.length / IN_A_PIECE));

/** How many bytes the records of a segment take, each with the pieces of its list. */
const sizeOfRecords = (records) => sum(records.map(sizeOfRecord));

/** The parts of a slot of a file, where a text has no size yet. */
function partsOfSlot({slot, name, address, length, text, records}, taken) {
  const part = (kind, first, size) => ({kind, slot, name: name.trimEnd(), first, size, taken});
  const hasCode = length > 0 && address > 0;
  return [
    ...(hasCode ? [part("code", BLOCK * address, length)] : []),
    ...(hasCode && records?.length ?
        [part("links", behind(address, length), sizeOfRecords(records))] :
        []),
    ...(text > 0 ? [part("text", BLOCK * text, 0)] : []),
  ];
}

/**
 * The parts of a file, in their order in it. A text ends where the next part begins.
 * @param {object} show the document of `show`
 * @param {number} size of the file in bytes
 * @param {(slot: number) => number | null | undefined} takenTo by slot of the file the slot in the
 * linked file
 * @returns {Part[]}
 */
export function partsOf(show, size, takenTo) {
  const dictionary = {kind: "dictionary", slot: null, name: "", first: 0, size: BLOCK, taken: null};
  const parts =
    [dictionary, ...show.slots.flatMap((line) => partsOfSlot(line, takenTo(line.slot)))];
  parts.sort((one, other) => one.first - other.first);
  parts.forEach((part, k) => {
    const next = parts.slice(k + 1).find(({first}) => first > part.first)?.first ?? size;
    if (part.kind === "text") part.size = next - part.first;
    part.size = Math.min(part.size, size - part.first);
  });
  return parts.filter((part) => part.size > 0);
}

// ---- Segments

function roleOf({file, entry, added}, shows) {
  if (file > 0) return added ? "added unit" : "wanted unit";
  return {[HOSTSEG]: "host program", [UNITSEG]: "unit of the host"}[shows[0].slots[entry].kind] ??
    "plain segment";
}

/**
 * What is stored at a place: the bytes before and after, and of an operand its displacement and
 * what is added to it.
 */
function storeOf({stores, at, was, is, record}) {
  const before = bytesIn(was), after = bytesIn(is);
  const of = {
    what: record?.kind ?? stores,
    name: record?.name.trimEnd() ?? "",
    record: record?.index ?? null
  };
  const bytes = {at, size: after.length, was: before, is: after, isChanged: was !== is};
  const store = {...of, ...bytes, displacement: null, base: null};
  if (record && after.length === 2) {
    const [displacement, value] = [before, after].map(([high, low]) => (high % 128) * 256 + low);
    Object.assign(store, {displacement, base: value - displacement});
  }
  return store;
}

/**
 * The bytes of a code that no instruction has: its tables and its procedure dictionary, as ranges
 * [first, end, number of the procedure].
 * @param {Uint8Array} code
 * @param {(at: number) => number} wordAt
 */
export function tablesOf(code, wordAt) {
  const procedures = code[code.length - 1], start = code.length - BEFORE_SIZES - 2 * procedures;
  if (!(start >= 0)) return [];
  const tables = [];
  for (let procedure = 1; procedure <= procedures; procedure++) {
    const at = code.length - BEFORE_SIZES - 2 * procedure, table = at - wordAt(at),
          first = table - TABLE_BEFORE;
    if (wordAt(at) && first >= 0 && table + 1 < start)
      tables.push([first, first + TABLE, procedure]);
  }
  return [...tables.sort(([one], [other]) => one - other), [start, code.length, 0]];
}

/** The places at which two codes differ. */
function changesOf(before, after) {
  const places = [];
  for (let at = 0; at < after.length; at++)
    if (before[at] !== after[at]) places.push(at);
  return places;
}

/** How many of these places no store has. */
function unlistedOf(changes, stores) {
  const stored = new Set(stores.flatMap(({at, size}) => range(at, at + size)));
  return changes.filter((at) => !stored.has(at)).length;
}

function segmentOf(line, {shows, files, linked, references, privates, isBig}) {
  const {slot, file, entry, block, length, added} = line,
                                           from = BLOCK * shows[file].slots[entry].address;
  const before = files[file].bytes.subarray(from, from + length);
  const code = linked.subarray(BLOCK * block, BLOCK * block + length);
  const role = roleOf(line, shows), stores = (references.get(slot) ?? []).map(storeOf);
  const changes = changesOf(before, code);
  const wordAt = (at) => isBig ? 256 * code[at] + code[at + 1] : code[at] + 256 * code[at + 1];
  return {
    slot,
    name: line.name.trimEnd(),
    file,
    entry,
    block,
    length,
    isAdded: added,
    role,
    before,
    code,
    stores,
    changes,
    isLinked: role !== "plain segment",
    unlisted: unlistedOf(changes, stores),
    privates: privates.filter((one) => one.slot === slot),
    tables: tablesOf(code, wordAt)
  };
}

/** The fields of a slot in block 0, as places of it. */
const fieldsOf = (slot) =>
  FIELDS.map(({what, from, size, step}) => ({what, slot, at: from + step * slot, size}));

/**
 * Block 0 of the host and of the linked file, as if it were a segment: each field that the link
 * changes is a place.
 */
function dictionaryOf({files, linked}) {
  const [before, code] = [files[0].bytes, linked].map((bytes) => bytes.subarray(0, BLOCK));
  const changes = changesOf(before, code), changed = new Set(changes);
  const all = range(0, SLOTS).flatMap(fieldsOf).filter(
    ({at, size}) => range(at, at + size).some((k) => changed.has(k)));
  const stores = all.sort((one, other) => one.at - other.at).map(({what, slot, at, size}) => ({
    what: "dictionary",
    name: `${what} of slot ${slot}`,
    record: null,
    at,
    size,
    isChanged: true,
    displacement: null,
    base: null,
    was: [...before.subarray(at, at + size)],
    is: [...code.subarray(at, at + size)]
  }));
  return {
    slot: DICTIONARY,
    name: "dictionary",
    file: 0,
    entry: null,
    block: 0,
    length: BLOCK,
    isAdded: false,
    before,
    code,
    stores,
    changes,
    role: "segment dictionary",
    isLinked: false,
    unlisted: unlistedOf(changes, stores),
    privates: [],
    tables: []
  };
}

/**
 * Who refers to whom: a UNITREF to the unit whose slot it stores, a PUBLREF to the program, and a
 * PRIVREF to the segment itself.
 */
function edgesOf(segments, host) {
  const edges = new Map();
  for (const {slot, stores} of segments) {
    for (const {what, is} of stores) {
      const to = {UNITREF: is[0], PUBLREF: host, PRIVREF: slot}[what];
      if (to === undefined) continue;
      const key = `${what} ${slot} ${to}`,
            edge = edges.get(key) ?? {kind: what, from: slot, to, count: 0};
      edge.count++;
      edges.set(key, edge);
    }
  }
  return [...edges.values()].sort((one, other) => one.from - other.from || one.to - other.to);
}

// ---- The link

function groupedBySlot(lines) {
  const groups = new Map();
  for (const line of lines)
    groups.set(line.slot, groups.get(line.slot) ?? []).get(line.slot).push(line);
  return groups;
}

/** The data of the program: its size before and after, and its variables, in words. */
function dataOf(map, host, isBig) {
  const size = host.stores.find(({what}) => what === "data size");
  const word = ([one, two]) => isBig ? 256 * one + two : one + 256 * two;
  const publics = map.definitions.filter(({kind}) => kind === "public");
  return {
    was: word(size.was),
    is: word(size.is),
    next: map.next,
    words: sum(map.privates.map(({words}) => words)),
    own: map.privates.length ? Math.min(...map.privates.map(({offset}) => offset)) : map.next,
    privates: map.privates.map((one) => ({...one, name: one.name.trimEnd()})),
    publics: publics.map(({name, value}) => ({name: name.trimEnd(), value}))
  };
}

function inputOf({name, bytes}, file, {segments, shows}) {
  const of = segments.filter((segment) => segment.file === file), isUsed = of.length > 0;
  const taken = new Map(of.map(({entry, slot}) => [entry, slot])),
        takenTo = (slot) => taken.get(slot) ?? null;
  return {
    file,
    name,
    blocks: Math.ceil(bytes.length / BLOCK),
    size: bytes.length,
    isUsed,
    parts: isUsed ? partsOf(shows[file], bytes.length, takenTo) : []
  };
}

/**
 * A link as values.
 * @param {object} given
 * @param {object} given.map the document of `references`
 * @param {(object | null)[]} given.shows the document of `show` of each file from which something
 * is taken
 * @param {{name: string, bytes: Uint8Array}[]} given.files
 * @param {Uint8Array} given.linked
 */
export function pictured({map, shows, files, linked}) {
  const isBig = shows[0].order === "big", references = groupedBySlot(map.references);
  const given = {shows, files, linked, references, privates: map.privates, isBig};
  const segments = map.segments.map((line) => segmentOf(line, given)),
        dictionary = dictionaryOf(given);
  const host = segments.find(({role}) => role === "host program");
  const slots =
    range(0, SLOTS).map((slot) => segments.find((segment) => segment.slot === slot) ?? null);
  return {
    inputs: files.map((file, k) => inputOf(file, k, {segments, shows})),
    segments,
    dictionary,
    slots,
    edges: edgesOf(segments, host.slot),
    blocks: map.blocks,
    host: host.slot,
    data: dataOf(map, host, isBig),
    fault: null,
    changes: sum(segments.map(({changes}) => changes.length)),
    unlisted: sum([...segments, dictionary].map(({unlisted}) => unlisted)),
  };
}

// ---- Files that are refused

/** The entry of the file that a slot of the host is from, by what the report says of it. */
function entryIn(report, {file, slot}) {
  if (file === 0 || slot === null) return slot;
  const line = new RegExp(`^slot ${String(slot).padStart(2, "0")} .* entry (\\d+), \\d+ bytes$`,
    "m").exec(report);
  return line ? Number(line[1]) : null;
}

/**
 * The bytes of a record, and of the operand of one of its references, if the fault is of that; all
 * to the end of a file that is cut.
 */
function placesOfRecord({address, length, records}, {number, record, reference}, size) {
  const before = sizeOfRecords(records.slice(0, record)), first = behind(address, length) + before;
  const bytes = number === CUT ? size - first :
    records[record]            ? sizeOfRecord(records[record]) :
                                 RECORD;
  const operand = reference === null ? undefined : records[record]?.references?.[reference];
  const code = operand === undefined ? [] : [{first: BLOCK * address + operand, size: 2}];
  const end = {first: Math.max(0, size - 1), size: 1}; // where the file ends before the record
  return [...code, {first, size: bytes}].map((place) => place.first < size ? place : end);
}

/**
 * The bytes of a file that a fault is about: of a record, of a code, of an entry of the dictionary,
 * or all.
 */
function placesOf(show, fault, entry, size) {
  const line = show?.slots[entry ?? -1], whole = [{first: 0, size}];
  if (!line) return whole;
  if (fault.record !== null && line.records?.length) return placesOfRecord(line, fault, size);
  const isOfCode =
    OF_A_CODE.includes(fault.number) && line.address > 0 && BLOCK * line.address < size;
  if (isOfCode) return [{first: BLOCK * line.address, size: line.length}];
  return fieldsOf(entry).map(({at, size: bytes}) => ({first: at, size: bytes}));
}

// faults of a code and not of what the dictionary says
const CUT = 19, OF_A_CODE = [16, 17, 18, 26, 27];

/** What the fault is about, in words. */
function toldOfFault({record, reference}, entry, show) {
  const name = show?.slots[entry ?? -1]?.name.trimEnd() ?? "";
  const parts = [
    entry === null ? "" : `entry ${entry}${name ? ` ${name}` : ""}`,
    record === null ? "" : `record ${record}`, reference === null ? "" : `reference ${reference}`
  ];
  return parts.filter(Boolean).join(", ") || "the file";
}

/**
 * Files that are refused as values.
 * @param {object} given
 * @param {(object | null)[]} given.shows the document of `show` of each file, or null where it is
 * no code file
 * @param {{name: string, bytes: Uint8Array}[]} given.files
 * @param {object} given.answer the answer of the link
 * @param {string} given.line the line of the fault
 * @param {string} given.report the text of `check`
 */
export function refusedPicture({shows, files, answer, line, report}) {
  const {fault: number, file = null, slot, record, reference} = answer, at = file ?? 0,
                                                   of = {number, file: at, slot, record, reference};
  const entry = entryIn(report, of), {bytes} = files[at];
  const inputs = files.map(({name, bytes: content}, k) => {
    const size = content.length,
          unknown = {kind: "unknown", slot: null, name: "", first: 0, size, taken: undefined};
    const parts = shows[k] ? partsOf(shows[k], size, () => undefined) : size > 0 ? [unknown] : [];
    return {
      file: k,
      name,
      blocks: Math.max(1, Math.ceil(size / BLOCK)),
      size,
      isUsed: k in shows,
      parts
    };
  });
  const places = placesOf(shows[at], of, entry, bytes.length).map(({first,
    size}) => ({first, size: Math.max(1, Math.min(size, bytes.length - first))}));
  return {inputs, fault: {file: at, line, places, told: toldOfFault(of, entry, shows[at])}};
}

// ---- What the module answers

const documentOf = async (pslink, kind, files) =>
  JSON.parse((await pslink.text(kind, files, {json: true})).text);

/**
 * The documents of the map and of each file from which something is taken, as what the picture
 * shows.
 */
async function linkedModel(pslink, files, linked) {
  const map = await documentOf(pslink, "references", files), shows = [];
  for (const file of new Set([0, ...map.segments.map((segment) => segment.file)])) {
    shows[file] = await documentOf(pslink, "show", [files[file]]);
  }
  return pictured({map, shows, files, linked});
}

/** The first of the files that are refused, and the one at fault, as what the picture shows. */
async function refusedModel(pslink, files, {answer, fault: line}, report) {
  const shows = [],
        numbers = files.map((_, k) => k).filter((k) => k < DRAWN_FILES || k === answer.file);
  for (const k of numbers) {
    const {done, text} = await pslink.text("show", [files[k]], {json: true});
    shows[k] = done ? JSON.parse(text) : null;
  }
  return refusedPicture({shows, files, answer, line, report});
}

/**
 * What the picture of a link shows, or that of files that are refused.
 * @param {import("./pslink.mjs").Pslink} pslink
 * @param {{name: string, bytes: Uint8Array}[]} files
 * @param {object} result what `link` answers: it is done, or has a fault
 * @param {object} report the text of `check`
 */
export function modelOf(pslink, files, result, report) {
  if (result.done) return linkedModel(pslink, files, result.bytes);
  return refusedModel(pslink, files, result, report.text ?? "");
}
