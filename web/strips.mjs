/*
 * The files of a link as strips: those that are linked at the left, the linked file at the right. A
 * row of a strip is a block of 512 bytes, from left to right, so a code ends in its last block
 * where it does in the file. Files that are refused are at the left alone, with the bytes at fault
 * in a frame.
 */
import {colourOf, counted, drawn, grouped, twoDigits, written} from "./elements.mjs";
import {shownName} from "./names.mjs";

/**
 * @typedef {{x: number, y: number, width: number, unit: number}} Strip where block 0 begins, and
 * how wide and how high a block is
 */

const BLOCK = 512;
const HEIGHT = 560, ROW_MAX = 17; // of all blocks of a strip together, and of one
// above a strip and below it, and between two labels at the right and at the left
const HEAD = 24, GAP = 12, LINE = 17, LABEL = 13;
const UNUSED_MAX = 6; // of the files of which nothing is taken, how many are named
// the part of a row that marks have, and how many beside one another are told apart
const MARK = 0.6, MARKS = 230;
// the room for labels at the right, without facts and with them
const LABELS = 95, LABELS_WIDE = 270;
const LETTER = 6.7, BOLD = 7.6; // the widths of a letter of a title, and of words at a fault

const path = (className, d, more = {}) => drawn("path", {className, d, ...more});

function rectangle(x, y, width, height) {
  const [across, down] = [width.toFixed(2), height.toFixed(2)];
  return `M${x.toFixed(2)} ${y.toFixed(2)}h${across}v${down}h${(-width).toFixed(2)}z`;
}

/** The start of words that have more letters than this, with dots. */
function cut(words, letters) {
  return words.length > letters ? `${words.slice(0, Math.max(1, letters - 1))}…` : words;
}

/**
 * Places that are at least a step apart, between two ends if there is room, and else as near to
 * these places as they can be.
 */
export function spread(places, step, first, last) {
  const least = step * (places.length - 1), middle = (places[0] + places.at(-1)) / 2, apart = [];
  if (places.at(-1) - places[0] < least) {
    const start = Math.max(first, Math.min(middle - least / 2, last - least));
    return places.map((_, k) => start + step * k);
  }
  for (const place of places) apart.push(Math.max(place, (apart.at(-1) ?? -Infinity) + step));
  for (let k = apart.length - 1, limit = last; k >= 0; limit = apart[k--] - step) {
    apart[k] = Math.min(apart[k], limit);
  }
  return apart;
}

// ---- A strip

/** The path of some bytes of a strip, row by row; whole rows together. */
function areaOf({x, y, width, unit, height = unit}, first, size, least = 0) {
  const parts = [], end = first + size;
  for (let from = first; from < end;) {
    const row = Math.floor(from / BLOCK), column = from % BLOCK;
    const rows = column ? 0 : Math.floor((end - from) / BLOCK);
    const to = rows ? from + rows * BLOCK : Math.min(end, (row + 1) * BLOCK);
    const part = rows ? width : Math.max(least, width * (to - from) / BLOCK);
    const high = height + unit * Math.max(rows - 1, 0);
    parts.push(rectangle(x + width * column / BLOCK, y + unit * row, part, high));
    from = to;
  }
  return parts.join("");
}

/**
 * The path of a place: in the lower part of its row, so that the colour of the file is seen above
 * it.
 */
function markOf(strip, first, size) {
  const {y, width, unit} = strip;
  return areaOf(
    {...strip, y: y + unit * (1 - MARK), height: unit * MARK}, first, size, width / MARKS);
}

/** The top and the bottom of the rows of some bytes. */
const rowsOf = ({y, unit}, first,
  size) => [y + unit * first / BLOCK, y + unit * Math.ceil((first + size) / BLOCK)];

/** The paper of a strip, with a line between two blocks where they are high enough. */
function paperOf({x, y, width, unit}, blocks) {
  const between = unit < 4 ? [] : Array.from({length: blocks - 1}, (_, k) => y + unit * (k + 1));
  const lines = between.map((at) => `M${x} ${at.toFixed(2)}h${width}`).join("");
  return [
    drawn("rect", {x, y, width, height: unit * blocks, className: "paper"}), path("rows", lines)
  ];
}

// ---- A file that is linked

function toldOfCode({name, size, taken}) {
  const code = `${name}: ${counted(size, "byte")} of code`;
  return taken === undefined ? code :
                               `${code}, ${taken === null ? "not taken" : `to slot ${taken}`}`;
}

const toldOfPart = (part) => ({
  dictionary: "the segment dictionary",
  text: `${part.name}: interface text`,
  code: toldOfCode(part),
  links: `${part.name}: link information, ${counted(part.size, "byte")}`,
  unknown: "no code file",
}[part.kind]);

const isLeft = ({kind, taken}) => kind === "code" && taken === null;

function inputStrip(strip, {file, parts, blocks}) {
  const areas = parts.map((part) => drawn("path", {
    className: `${part.kind}${isLeft(part) ? " left" : ""}`,
    d: areaOf(strip, part.first, part.size, 2)
  },
                            drawn("title", {}, toldOfPart(part))));
  return drawn("g", {className: `strip ${colourOf(file)}`}, ...paperOf(strip, blocks), ...areas);
}

function inputTitle({x, y}, {file, name}, room) {
  const words = cut(`${file} ${shownName(name)}`, Math.floor(room / LETTER) - 2);
  return drawn("g", {className: colourOf(file)},
    drawn("rect", {className: "chip", x, y: y - 18, width: 9, height: 11, rx: 2}),
    written(x + 15, y - 8, "title", words));
}

function inputLabels(strip, {parts}) {
  const codes = parts.filter(({kind}) => kind === "code");
  if (codes.length === 0) return [];
  const middles =
    codes.map(({first, size}) => rowsOf(strip, first, size)).map(([top, end]) => (top + end) / 2);
  const last = parts.at(-1), end = rowsOf(strip, last.first, last.size)[1] + 6;
  const lowest = Math.max(end, strip.y + LABEL * codes.length);
  const places = spread(middles.map((middle) => middle + 4), LABEL, strip.y + 9, lowest);
  return codes.map(
    (part, k) => drawn("g", {className: isLeft(part) ? "leftover" : ""},
      path("leader", `M${strip.x - 3} ${middles[k]}L${strip.x - 12} ${places[k] - 4}`),
      written(strip.x - 15, places[k], "small",
        `${isLeft(part) ? "not taken: " : ""}${twoDigits(part.slot)} ${part.name}`,
        {"text-anchor": "end"})));
}

// ---- The linked file

/** What a segment is, in words, for a reader of screens. */
function toldOf({slot, name, role, file, length, stores}, {inputs, dictionary}) {
  const size = counted(length, "byte");
  if (slot === dictionary.slot)
    return `Block 0, the segment dictionary, ${size}, ${counted(stores.length, "field")} changed`;
  return `Slot ${slot}, ${name}, ${role}, from ${shownName(inputs[file].name)}, ${size}, ${
    counted(stores.length, "place")} stored`;
}

/**
 * What can be chosen, with its label at the height `place`: `parts` is what is drawn of it in the
 * strip.
 */
function choiceOf(strip, segment, place, {model, width}, parts, label) {
  const {slot, file, block, length} = segment, right = strip.x + strip.width;
  const [top, bottom] = rowsOf(strip, BLOCK * block, length),
              middle = (top + Math.min(bottom, top + strip.unit * 3)) / 2;
  const above = `M${strip.x} ${top}H${right}L${right + 14} ${place - 12}H${width}V${place + 5}`;
  const frame =
    {x: strip.x - 1, y: top - 1, width: strip.width + 2, height: bottom - top + 2, rx: 2};
  return drawn("g", {
    className: `segment of-slot choice ${colourOf(file)}`,
    "data-slot": slot,
    role: "radio",
    "aria-checked": "false",
    tabindex: -1,
    "aria-label": toldOf(segment, model)
  },
    path("hit", `${above}H${right + 14}L${right} ${bottom}H${strip.x}z`), ...parts,
    drawn("rect", {className: "frame", ...frame}),
    path("leader", `M${right + 3} ${middle}L${right + 13} ${place - 4}`), ...label(right));
}

/** A segment that can be chosen: its code, its tables, and the places that the link stores. */
function linkedSegment(strip, segment, place, size) {
  const {slot, name, block, length, stores, tables} = segment, first = BLOCK * block;
  const facts =
    `${counted(length, "byte")}${stores.length ? `, ${grouped(stores.length)} stored` : ""}`;
  const parts = [
    path("code", areaOf(strip, first, length, 2)),
    path("tables", tables.map(([from, end]) => areaOf(strip, first + from, end - from)).join("")),
    path("marks", stores.map(({at, size: bytes}) => markOf(strip, first + at, bytes)).join(""))
  ];
  return choiceOf(strip, segment, place, size, parts,
    (right) => [written(right + 17, place, "name", `${twoDigits(slot)} ${name}`),
      ...(size.isWide ? [written(right + 102, place, "quiet", facts)] : [])]);
}

/** Block 0, which can be chosen too. */
function linkedDictionary(strip, {dictionary}, place, size) {
  const parts = [
    path("dictionary", areaOf(strip, 0, BLOCK)),
    path("marks", dictionary.stores.map(({at, size: bytes}) => markOf(strip, at, bytes)).join(""))
  ];
  const facts = `${counted(dictionary.stores.length, "field")} changed`;
  return choiceOf(strip, dictionary, place, size, parts,
    (right) => [written(right + 17, place, "name plain", "dictionary"),
      ...(size.isWide ? [written(right + 102, place, "quiet", facts)] : [])]);
}

/** A band from the rows at the left to those at the right. */
function band(x0, [top0, bottom0], x1, [top1, bottom1], {slot, file}) {
  const x = (x0 + x1) / 2, there = `C${x} ${top0} ${x} ${top1} ${x1} ${top1}`;
  const back = `C${x} ${bottom1} ${x} ${bottom0} ${x0} ${bottom0}`,
        d = `M${x0} ${top0}${there}L${x1} ${bottom1}${back}Z`;
  return path(`band of-slot ${colourOf(file)}`, d, {"data-slot": slot});
}

// ---- The panels

const LEGEND = [
  ["code", "code"], ["tables", "its tables"], ["marks", "stored by the link"],
  ["links", "link information"], ["text", "interface text"], ["left", "code not taken"]
];
const REFUSED_LEGEND = [
  ["code", "code"], ["links", "link information"], ["text", "interface text"],
  ["unknown", "no code file"], ["fault", "what the fault is about"]
];

function sign(kind, box) {
  const tick = {x: box.x + 8, y: box.y + 4, width: 1.6, height: 8},
        isOver = kind === "tables" || kind === "marks";
  const under =
    ["paper", ...(isOver ? ["code"] : [])].map((className) => drawn("rect", {...box, className}));
  const className = kind === "left" ? "code left" : kind;
  return drawn("g", {className: "strip f0"}, ...under,
    drawn("rect", {...(kind === "marks" ? tick : box), className}));
}

/** What each pattern is, from a height on. */
export function legend(width, y, isRefused = false) {
  const nodes = [];
  let x = 0, line = y;
  for (const [kind, words] of isRefused ? REFUSED_LEGEND : LEGEND) {
    const size = 36 + words.length * 6.3;
    if (x + size > width + 12) [x, line] = [0, line + LINE];
    nodes.push(
      sign(kind, {x, y: line - 10, width: 18, height: 12}), written(x + 23, line, "quiet", words));
    x += size;
  }
  return {nodes, bottom: line};
}

/**
 * The files at the left, those first that are drawn: what is drawn of them, their strips by number,
 * and where they end.
 */
function inputs({inputs: all, fault}, {left, width, unit, room, isWide}, y) {
  const used = all.filter(({isUsed}) => isUsed), unused = all.filter(({isUsed}) => !isUsed),
        rest = unused.length - UNUSED_MAX;
  const strips = new Map(), nodes = [];
  let next = y;
  for (const input of used) {
    const strip = {x: left, y: next + HEAD, width, unit};
    strips.set(input.file, strip);
    nodes.push(inputTitle(strip, input, room), inputStrip(strip, input),
      ...(isWide ? inputLabels(strip, input) : []));
    next = strip.y + unit * input.blocks + GAP;
  }
  const why = fault ? "" : ": nothing is taken";
  const told =
    unused.slice(0, UNUSED_MAX).map(({file, name}) => `${file} ${shownName(name)}${why}`);
  if (rest > 0) told.push(`and ${counted(rest, "more file")}`);
  const lines = told.map((words, k) => written(left, next + LINE * (k + 1) - 4, "quiet",
                           cut(words, Math.floor(room / LETTER))));
  return {strips, nodes: [...nodes, ...lines], bottom: next + LINE * lines.length};
}

/** Where the strip of the linked file is, and how wide those at the left are. */
function roomOf({width, isWide}, unit) {
  const left = isWide ? 150 : 0;
  const out = isWide ?
    {x: width * 0.75 - LABELS_WIDE, y: 0, width: width * 0.25, unit} :
    {x: width * 0.43, y: 0, width: Math.min(width * 0.27, width * 0.57 - LABELS), unit};
  return {
    out,
    ins: {left, width: width * (isWide ? 0.2 : 0.28), unit, room: out.x - left - 14, isWide}
  };
}

/** The bands of all segments. */
function bandsOf(model, strips, ins, out) {
  return model.segments.map((segment) => {
    const {file, entry, block, length} = segment, strip = strips.get(file);
    const {first} =
      model.inputs[file].parts.find(({kind, slot}) => kind === "code" && slot === entry);
    return band(ins.left + ins.width, rowsOf(strip, first, length), out.x,
      rowsOf(out, BLOCK * block, length), segment);
  });
}

/**
 * The files, the linked file, and bands from what is taken to where it is.
 * @param {object} model
 * @param {{width: number, isWide: boolean}} size
 * @param {number} y
 */
export function stripsOf(model, size, y) {
  const {segments, blocks} = model,
                   rows = model.inputs.reduce(
                     (all, input) => all + (input.isUsed ? input.blocks : 0), 0);
  const unit = Math.min(ROW_MAX, HEIGHT / Math.max(rows, blocks, segments.length + 1)),
        {out, ins} = roomOf(size, unit);
  const before = inputs(model, ins, y), high = unit * blocks,
        tall = Math.max(high, LINE * (segments.length + 1));
  const bottom = Math.max(before.bottom, y + HEAD + tall);
  out.y = y + HEAD + (bottom - y - HEAD - high) / 2; // in the middle of the height
  const middles =
    segments.map(({block, length}) => rowsOf(out, BLOCK * block, Math.min(length, BLOCK * 3)))
      .map(([top, end]) => (top + end) / 2 + 4);
  const [place, ...places] =
    spread([out.y + unit / 2 + 4, ...middles], LINE, y + HEAD + 10, bottom);
  const title = `${size.isWide ? "The linked file" : "Linked"}, ${counted(blocks, "block")}`,
        given = {model, ...size};
  const choices = [
    linkedDictionary(out, model, place, given),
    ...segments.map((segment, k) => linkedSegment(out, segment, places[k], given))
  ];
  return {
    bottom,
    strip: out,
    nodes: [
      ...bandsOf(model, before.strips, ins, out), ...before.nodes,
      written(out.x, Math.min(out.y, place - 6) - 8, "title", title),
      drawn("g", {className: "strip"}, ...paperOf(out, blocks)),
      drawn("g", {role: "radiogroup", "aria-label": "Segments of the linked file"}, ...choices),
      path("here", "")
    ]
  };
}

/** The words beside a fault, in lines. */
function faultWords({line, told}, x, y, letters) {
  return [cut(told, letters), cut(`${line}.`, letters)].map(
    (words, k) => written(x, y + LINE * k, k ? "quiet" : "wrong", words));
}

/**
 * Files that are refused, with what the fault is about in a frame.
 * @param {object} model
 * @param {{width: number, isWide: boolean}} size
 * @param {number} y
 */
export function refusedStrips(model, size, y) {
  const rows = model.inputs.reduce((all, input) => all + (input.isUsed ? input.blocks : 0), 0);
  const unit = Math.min(ROW_MAX, HEIGHT / Math.max(rows, 1)), {ins} = roomOf(size, unit),
        {fault} = model;
  const width = size.width * (size.isWide ? 0.4 : 0.5),
        before = inputs(model, {...ins, width, room: size.width - ins.left}, y);
  const strip = before.strips.get(fault.file), places = fault.places,
        {first, size: bytes} = places[0];
  const [top, end] = rowsOf(strip, first, bytes), right = strip.x + strip.width,
              middle = (top + end) / 2;
  const letters = Math.floor((size.width - right - 24) / BOLD),
        lit = places.map((one) => areaOf(strip, one.first, one.size, 4)).join("");
  const words = faultWords(fault, right + 20, Math.max(middle, strip.y + 8), letters);
  return {
    bottom: Math.max(before.bottom, middle + 2 * LINE),
    nodes: [
      ...before.nodes, path("fault", lit),
      path("leader wrong", `M${right + 2} ${middle}H${right + 16}`), ...words
    ]
  };
}

/** The path of two points at a byte of a strip, one above its row and one below it. */
export function pointsAt({x, y, width, unit}, byte) {
  const at = x + width * (byte % BLOCK) / BLOCK, top = y + unit * Math.floor(byte / BLOCK);
  return `M${at} ${top - 1}l-5 -8h10zM${at} ${top + unit + 1}l-5 8h10z`;
}
