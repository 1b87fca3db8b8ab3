/*
 * The values of the picture beside the bytes of the files and of the linked file, and beside what
 * the test vectors say of each link: every case that links, and for each fault where in a file it
 * is. Nothing is taken from a document of the module. Usage: pictured_test.mjs MODULE CASES
 * [PICTURED [EACH]], with the folder that make_vectors.py wrote, another pictured.mjs, and 4 for
 * each fourth case
 */
import {readFileSync} from "node:fs";
import {resolve} from "node:path";
import {load} from "../pslink.mjs";

const [module, top, other = null, each = "1"] = process.argv.slice(2);
const {modelOf, pictured} = await import(other ? resolve(other) : "../pictured.mjs");
const pslink = await load(readFileSync(module));
const BLOCK = 512, LARGE = 4194304, SHOWN = 20;
const ROLES = {
  1: "host program",
  3: "unit of the host"
}; // by the kind in the host

const wrong = [];
let checks = 0, places = 0, current = "";

function check(what, isRight) {
  checks++;
  if (!isRight) wrong.push(`${current}: ${what}`);
}

const same = (one, two) =>
  one.length === two.length && Array.from(one).every((byte, k) => byte === two[k]);

/** How words are read in a file: its sixteen kinds have one byte of each pair that is 0. */
function readerOf(bytes) {
  const kinds = Array.from(bytes.subarray(192, 224)),
        isBig = kinds.every((byte, k) => k % 2 || byte === 0) && kinds.some(Boolean);
  return (at) => isBig ? 256 * bytes[at] + bytes[at + 1] : bytes[at] + 256 * bytes[at + 1];
}

const nameAt = (bytes, at) =>
  Array.from(bytes.subarray(at, at + 8), (byte) => byte.toString(16).padStart(2, "0")).join("");

/**
 * The raw record behind a code: each begins at `at`, and has its type, its name and its references.
 */
function recordsOf(bytes, word, address, length) {
  const records = [];
  for (let at = BLOCK * (address + Math.ceil(length / BLOCK)); at + 16 <= bytes.length;) {
    const type = word(at + 8), count = [1, 3, 4].includes(type) ? word(at + 12) : 0,
          size = 16 + 16 * Math.ceil(count / 8);
    records.push({at, type, count, size, name: nameAt(bytes, at), format: word(at + 10)});
    at += size;
    if (type === 0) break;
  }
  return records;
}

function filesOf({host, libraries, folder}) {
  return [host, ...libraries].map(
    (name) => ({name, bytes: new Uint8Array(readFileSync(`${top}/${folder}/${name}`))}));
}

// ---- A link

/** What is stored at the places of a segment, in both files, and the value that is added there. */
function ofStores(segment, {files, linked, link}) {
  const {bytes} = files[segment.file], word = readerOf(bytes),
        from = BLOCK * word(4 * segment.entry);
  for (const {what, at, size, was, is, base, displacement, name} of segment.stores) {
    check("what was there", same(was, bytes.subarray(from + at, from + at + size)));
    check("what is there",
      same(is, linked.subarray(BLOCK * segment.block + at, BLOCK * segment.block + at + size)));
    const padded = Buffer.from(name.padEnd(8), "latin1").toString("hex");
    const known = what === "PUBLREF" ?
      link.definitions.find((one) => one.kind === "public" && one.name === padded)?.value :
      what === "PRIVREF" ?
      link.privates.find((one) => one.slot === segment.slot && one.name === padded)?.offset :
      undefined;
    // (a name with bytes that a line cannot show is not found here)
    if (known !== undefined) check(`base offset of ${name}`, base === known);
    if (base !== null)
      check("the sum", (is[0] % 128) * 256 + is[1] === base + displacement && is[0] >= 128);
  }
}

/**
 * The tables of a code, from its bytes: each ends with the number and the lex level of a procedure.
 */
function ofTables(segment, isBig) {
  const {code, length, tables} = segment,
                       word = (at) =>
                         isBig ? 256 * code[at] + code[at + 1] : code[at] + 256 * code[at + 1];
  const dictionary = tables.at(-1), procedures = code[length - 1];
  check("the procedure dictionary", same(dictionary, [length - 2 - 2 * procedures, length, 0]));
  for (const [first, end, number] of tables.slice(0, -1)) {
    const at = length - 2 - 2 * number;
    check("a table", end - first === 10 && at - word(at) === first + 8);
  }
  for (let number = 1; number <= procedures; number++) {
    const at = length - 2 - 2 * number, table = at - word(at),
          isTable = word(at) > 0 && table >= 8 && table + 1 < dictionary[0];
    check("each table", tables.slice(0, -1).some((one) => one[2] === number) === isTable);
  }
  const reserved = segment.stores.filter(({what}) => what.endsWith("REF"));
  check("no operand in a table",
    reserved.every(({at, size}) => !tables.some(([first, end]) => at < end && at + size > first)));
}

/**
 * The parts of a file: its link information ends where the bytes end it, and each code is where the
 * dictionary says.
 */
function ofParts({file, parts, isUsed}, {files, link}) {
  if (!isUsed)
    return check("no part of what is not used", !link.segments.some((one) => one.file === file));
  const {bytes} = files[file], word = readerOf(bytes);
  const taken = (slot) =>
    link.segments.find((one) => one.file === file && one.entry === slot)?.slot ?? null;
  for (const {kind, slot, first, size, taken: to} of parts) {
    if (slot === null) continue;
    const [address, length] = [word(4 * slot), word(4 * slot + 2)];
    check("the slot that it is taken to", to === taken(slot));
    if (kind === "code")
      check(
        "the code", first === BLOCK * address && size === Math.min(length, bytes.length - first));
    if (kind === "text") check("the text", first === BLOCK * word(224 + 2 * slot));
    if (kind !== "links" || to === null) continue;
    const records = recordsOf(bytes, word, address, length), last = records.at(-1);
    check("link information begins", first === records[0].at);
    check("link information ends", first + size === Math.min(bytes.length, last.at + last.size));
  }
  ofTexts(parts, bytes.length);
  return undefined;
}

/** A text ends where the next part begins, or with the file. */
function ofTexts(parts, end) {
  parts.forEach(({kind, first, size}, k) => {
    const next = parts.slice(k + 1).find((part) => part.first > first)?.first ?? end;
    if (kind === "text") check("where a text ends", first + size === next);
  });
}

/** Block 0: the fields that differ, each with what it had and has. */
function ofDictionary({dictionary}, {files, linked, link}) {
  const before = files[0].bytes, word = readerOf(before),
        fields = dictionary.stores.map(({name}) => name);
  for (const {at, size, was, is} of dictionary.stores) {
    check("a field",
      same(was, before.subarray(at, at + size)) && same(is, linked.subarray(at, at + size)) &&
        !same(was, is));
  }
  const at = (name) => dictionary.stores.find((one) => one.name === name)?.at;
  for (const {slot, block, length} of link.segments) {
    check("the field of an address",
      fields.includes(`address of slot ${slot}`) === (word(4 * slot) !== block));
    check("the field of a length",
      fields.includes(`length of slot ${slot}`) === (word(4 * slot + 2) !== length));
    check("the place of an address", (at(`address of slot ${slot}`) ?? 4 * slot) === 4 * slot);
    check("the place of a name", (at(`name of slot ${slot}`) ?? 64 + 8 * slot) === 64 + 8 * slot);
  }
  check("each byte that differs",
    dictionary.changes.every(
      (one) => dictionary.stores.some((store) => one >= store.at && one < store.at + store.size)));
}

/** Who refers to whom. */
function ofEdges({edges, slots, host, segments}, {link}) {
  const stores = segments.flatMap((one) => one.stores.filter(({what}) => what.endsWith("REF"))
                                             .map((store) => ({...store, from: one.slot})));
  check(
    "each reference is in a bow", edges.reduce((sum, {count}) => sum + count, 0) === stores.length);
  for (const {kind, from, to, count} of edges) {
    const of = stores.filter((store) => store.what === kind && store.from === from);
    const ends = {
      UNITREF: of.filter(({is}) => is[0] === to),
      PUBLREF: to === host ? of : [],
      PRIVREF: to === from ? of : []
    }[kind];
    check("the ends of a bow", slots[from] && slots[to] && ends.length === count);
    if (kind === "UNITREF")
      check("the unit of a bow", ends.every(({name}) => name === slots[to].name));
  }
  check("the host", link.segments.some(({slot, file}) => slot === host && file === 0));
}

/** A byte that changes at no place of the map is told. */
function ofOthers(model, given) {
  const {linked} = given,
        stored = ({stores}, at) => stores.some((one) => at >= one.at && at < one.at + one.size);
  const changes = [BLOCK - 1], segment = model.segments.find(({isLinked}) => isLinked);
  const free = Array.from(segment.code.keys()).find((at) => !stored(segment, at));
  if (free !== undefined) changes.push(BLOCK * segment.block + free);
  for (const at of changes) {
    const another = linked.slice();
    another[at] ^= 1;
    check(
      "a change elsewhere is told", pictured({...given.documents, linked: another}).unlisted >= 1);
  }
}

function ofData({data}, {link}) {
  check("the data",
    data.is === link.data && data.is - data.was === 2 * link.private_words &&
      data.next === link.next);
  check("the private variables",
    data.privates.length === link.privates.length &&
      data.privates.every(
        ({slot, offset, words}) => link.privates.some(
          (one) => one.slot === slot && one.offset === offset && one.words === words)));
  check("the program's own words",
    data.own === Math.min(link.next, ...link.privates.map(({offset}) => offset)));
}

function ofSegments({segments, changes}, {link, files}) {
  const word = readerOf(files[0].bytes);
  check("the segments", segments.length === link.segments.length);
  segments.forEach((segment, k) => {
    const {slot, file, entry, block, length, added} = link.segments[k];
    check("a segment",
      segment.slot === slot && segment.file === file && segment.entry === entry &&
        segment.block === block && segment.length === length);
    const role = file > 0 ? added ? "added unit" : "wanted unit" :
                            ROLES[word(192 + 2 * entry)] ?? "plain segment";
    check("a role", segment.isAdded === added && segment.role === role);
    const differ =
      Array.from(segment.code.keys()).filter((at) => segment.code[at] !== segment.before[at]);
    check("the bytes that differ", same(differ, segment.changes));
  });
  check("their sum", changes === segments.reduce((sum, one) => sum + one.changes.length, 0));
}

async function ofLink(one, files) {
  const result = await pslink.link(files), report = await pslink.text("check", files);
  const model = await modelOf(pslink, files, result, report), linked = result.bytes, {link} = one;
  const shows = [];
  for (const {file} of [{file: 0}, ...link.segments])
    shows[file] ??= JSON.parse((await pslink.text("show", [files[file]], {json: true})).text);
  const map = JSON.parse((await pslink.text("references", files, {json: true})).text);
  const given = {files, linked, link, documents: {map, shows, files}},
        isBig = shows[0].order === "big";
  places += model.segments.reduce((sum, {stores}) => sum + stores.length, 0);
  check("no byte differs elsewhere", model.unlisted === 0 && model.fault === null);
  ofSegments(model, given);
  for (const segment of model.segments) {
    ofStores(segment, given);
    if (segment.isLinked) ofTables(segment, isBig);
  }
  for (const input of model.inputs) ofParts(input, given);
  ofDictionary(model, given);
  ofEdges(model, given);
  ofData(model, given);
  ofOthers(model, given);
}

// ---- Files that are refused

// what a record has whose fault has this number
const OF_RECORDS = {
  20: ({type}) => type > 14,
  21: ({type, format}) => [2, 5, 6, 9, 10].includes(type) || format === 0,
  22: ({type}) => type >= 11 && type <= 14,
  23: ({type}) => [1, 3, 4].includes(type),
  24: ({type}) => type === 7 || type === 8,
  25: ({type}) => type === 4,
  26: ({type}) => type === 4,
  28: ({type}) => type === 3,
  29: ({type}) => type === 3,
  31: ({type}) => [1, 3, 4].includes(type),
  32: ({type}) => [1, 3, 4].includes(type),
  33: ({type}) => [1, 3, 4].includes(type),
  34: ({type}) => type === 3 || type === 4,
};

/** The frame of a fault lies in the file at fault, and is around the record that has it. */
function ofFault({fault, inputs}, {number, file, slot, record, reference}, files) {
  const at = file ?? 0, {bytes} = files[at];
  check("the file of a fault", fault.file === at && inputs[at].isUsed);
  check("a frame in the file", fault.places.length > 0 && fault.places.every(({first,
    size}) => first >= 0 && size > 0 && first + size <= Math.max(1, bytes.length)));
  if (number === 19)
    check("the frame ends with the file",
      fault.places.at(-1).first + fault.places.at(-1).size === bytes.length);
  if (slot === null || !(number in OF_RECORDS) || record === null) return;
  const entry = Number(/^entry (\d+)/.exec(fault.told)?.[1]),
        word =
          readerOf(bytes.some((_, k) => k >= 192 && k < 224 && bytes[k]) ? bytes : files[0].bytes);
  check("the entry of a fault", Number.isInteger(entry) && (at > 0 || entry === slot));
  const raw = recordsOf(bytes, word, word(4 * entry), word(4 * entry + 2))[record],
        frame = fault.places.at(-1);
  check("the frame is around the record", raw !== undefined && frame.first === raw.at);
  check("the record has the fault", raw !== undefined && OF_RECORDS[number](raw));
  const operand = word(raw.at + 16 + 2 * (reference ?? 0)),
        code = BLOCK * word(4 * entry) + operand;
  if (reference !== null && code < bytes.length)
    check("the operand has a frame", fault.places[0].first === code && fault.places.length === 2);
}

async function ofRefusal(one, files) {
  const result = await pslink.link(files), report = await pslink.text("check", files);
  const model = await modelOf(pslink, files, result, report);
  ofFault(model, one.fault, files);
  for (const {size, parts} of model.inputs.filter(({isUsed}) => isUsed)) {
    check("parts in the file",
      parts.every((part) => part.first >= 0 && part.size > 0 && part.first + part.size <= size));
  }
}

const {cases} = JSON.parse(readFileSync(`${top}/index.json`)), step = Number(each);
let count = 0;
for (const one of cases.filter((_, k) => k % step === 0)) {
  const files = filesOf(one);
  if (files.some(({bytes}) => bytes.length > LARGE)) continue;
  [current, count] = [one.name, count + 1];
  try {
    await (one.status === 0 ? ofLink(one, files) : ofRefusal(one, files));
  } catch (error) {
    wrong.push(`${current}: ${error.stack.split("\n").slice(0, 2).join(" ")}`);
  }
}
for (const line of wrong.slice(0, SHOWN)) console.log(`page: picture: ${line}`);
console.log(`page: the values of the picture: ${count} cases, ${places} places, ${checks} checks, ${
  wrong.length} differences`);
process.exitCode = wrong.length || count === 0 ? 1 : 0;
