/*
 * The picture of a link in three panels, drawn to a width in pixels: the files, the slots with who
 * refers to whom, and the data. Of files that are refused there is one panel. And the picture as
 * one file of its own.
 */
import {
  centred,
  colourOf,
  counted,
  drawn,
  grouped,
  textOf,
  twoDigits,
  written
} from "./elements.mjs";
import {shownName} from "./names.mjs";
import {STYLE} from "./picture_style.mjs";
import {legend, refusedStrips, stripsOf} from "./strips.mjs";

/**
 * @typedef {{panels: object[], strip: object | null}} Drawing the panels, and where the strip of
 * the linked file is in the first
 */

const WIDE = 850; // from this width on there is room for facts beside names
// between two lines of words; between labels of the data, and how many lines they have
const LINE = 17, LABEL = 14, LABEL_LINES = 3;
const QUIET = 6.6, SMALL = 6.1; // the widths of a letter of words and of a name
const FEW = 8; // so many bows have their numbers at once
const RUNS_MIN = 300; // more private variables than this are drawn together
const SLOTS = 16, FARTHEST = 15;
const MARGIN = 24; // around each panel of a picture by itself
const SHORT = {
  __proto__: null,
  "host program": "host",
  "unit of the host": "unit",
  "wanted unit": "wanted",
  "added unit": "added",
  "plain segment": "plain"
};

const sum = (numbers) => numbers.reduce((all, number) => all + number, 0);

/** Words in lines of at most so many letters. */
function wrapped(words, letters) {
  const lines = [""];
  for (const word of words.split(" ")) {
    if (lines.at(-1) && lines.at(-1).length + word.length >= letters) lines.push("");
    lines[lines.length - 1] += (lines.at(-1) ? " " : "") + word;
  }
  return lines;
}

// ---- Slots

/**
 * A bow from one slot to another, above the row or below it, with its point at the slot that is
 * referred to.
 */
function bow({from, to, count, kind}, {centre, y, reach, isAbove}, file) {
  const way = Math.sign(to - from), up = isAbove ? -1 : 1, tip = y + up * 7;
  const [x0, x1] = [centre(from) + way * 5, centre(to) - way * 5], across = Math.abs(x1 - x0) / 2;
  const high = 16 + reach * Math.abs(to - from) / FARTHEST, width = 1 + Math.log2(count) / 2.2,
        half = 3.5 + width / 2;
  const d = `M${x0} ${y}A${across} ${high} 0 0 ${Number((way > 0) === isAbove)} ${x1} ${tip}`;
  return drawn("g", {className: `edge ${colourOf(file)}`, "data-from": from, "data-to": to},
    drawn("title", {}, `${counted(count, kind)} of slot ${from} to slot ${to}`),
    drawn("path", {className: "bow", "stroke-width": width.toFixed(2), d}),
    drawn(
      "path", {className: "tip", d: `M${x1 - half} ${tip}L${x1} ${y + up}L${x1 + half} ${tip}z`}),
    centred((x0 + x1) / 2, y + up * high + (isAbove ? -4 : 11), "number", grouped(count)));
}

function slotBox(segment, slot, box, isWide) {
  const middle = box.x + box.width / 2, frame = drawn("rect", {...box, rx: 4});
  const number = centred(middle, box.y + 14, "small", twoDigits(slot));
  if (!segment) return drawn("g", {className: "slot empty"}, frame, number);
  const {name, file, role} = segment,
                     turned = `translate(${middle + 3.5} ${box.y + box.height - 5}) rotate(-90)`;
  const wide = () => [centred(middle, box.y + 29, "small strong", name),
    centred(middle, box.y + 43, "small", SHORT[role])];
  const words = isWide ? wide() : [written(0, 0, "small strong", name, {transform: turned})];
  return drawn("g", {className: `slot of-slot ${SHORT[role]} ${colourOf(file)}`, "data-slot": slot},
    frame, number, ...words);
}

function slotsOf({edges, slots}, {width, isWide}, y) {
  const each = width / SLOTS, gap = isWide ? 4 : 1.5, height = isWide ? 50 : 78,
        reach = isWide ? 110 : 80;
  const above = edges.filter(({kind}) => kind === "UNITREF"),
        below = edges.filter(({kind}) => kind === "PUBLREF");
  const farthest = (some) => Math.max(...some.map(({from, to}) => Math.abs(from - to)));
  const roomOf = (some) => some.length ? 34 + reach * farthest(some) / FARTHEST : 4;
  const top = y + roomOf(above), centre = (slot) => each * (slot + 0.5);
  const bows = (some, at, isAbove) =>
    some.map((edge) => bow(edge, {centre, y: at, reach, isAbove}, slots[edge.from].file));
  const box = (slot) => ({x: each * slot + gap / 2, y: top, width: each - gap, height});
  const boxes = slots.map((segment, slot) => slotBox(segment, slot, box(slot), isWide));
  return {
    bottom: top + height + roomOf(below),
    nodes: [...bows(above, top - 1, true), ...bows(below, top + height + 1, false), ...boxes]
  };
}

// ---- Data

/**
 * Marks with the first of some lines where there is room for their words; where there is none they
 * are left out.
 */
function laid(marks, width) {
  const ends = Array(LABEL_LINES).fill(-Infinity);
  return marks.flatMap((mark) => {
    const size = mark.words.length * SMALL + 8, from = Math.min(mark.x, width - size);
    const line = ends.findIndex((end) => from >= end);
    if (line >= 0) ends[line] = from + size;
    return line < 0 ? [] : [{...mark, line, at: from + (from < mark.x ? 0 : 2)}];
  });
}

const linesOf = (marks) => Math.max(0, ...marks.map(({line}) => line + 1));

/** The words at a bar, over it or under it, each with a line to its place. */
function labels(marks, bar, isOver) {
  const baseOf = (line) => isOver ? bar - 8 - LABEL * line : bar + 13 + LABEL * line;
  const leader = ({x, line}) => `M${x + 0.5} ${bar}V${baseOf(line) + (isOver ? 2 : -8)}`;
  const leaders = marks.map((mark) => drawn("path", {className: "leader", d: leader(mark)}));
  const of = (slot) => ({className: `halo${slot === null ? "" : " of-slot"}`, "data-slot": slot});
  return [
    ...leaders,
    ...marks.map(({at, line, words, slot = null}) =>
                   drawn("g", of(slot), written(at, baseOf(line), "small", words)))
  ];
}

/**
 * The private variables; where there are very many, those of a segment that follow one another are
 * one.
 */
function runsOf(privates) {
  if (privates.length <= RUNS_MIN) return privates;
  const runs = [];
  for (const one of privates) {
    const last = runs.at(-1),
          isNext = last?.slot === one.slot && last.offset + last.words === one.offset;
    if (isNext)
      Object.assign(last, {words: last.words + one.words, name: "variables"});
    else
      runs.push({...one});
  }
  return runs;
}

function privateBox({slot, name, offset, words}, slots, {x, y, height}) {
  const box = {x: x(offset), y, width: Math.max(1.5, x(words)), height};
  const told = `${name} of slot ${slot}: ${counted(words, "word")} from word ${offset} on`;
  return drawn("rect",
    {className: `private of-slot ${colourOf(slots[slot].file)}`, "data-slot": slot, ...box},
    drawn("title", {}, told));
}

/** The numbers of the slots in their private variables, where there is room. */
function numbersOf(privates, slots, x, y) {
  return slots.flatMap((segment, slot) => {
    const own = privates.filter((one) => one.slot === slot),
          size = x(sum(own.map(({words}) => words)));
    if (own.length === 0 || size <= 17) return [];
    return [centred(x(own[0].offset) + size / 2, y, "small strong inside", twoDigits(slot))];
  });
}

function dataOf({data, slots}, {width}, y) {
  const x = (word) => width * word / Math.max(data.next, 1), height = 26;
  const privates = runsOf(data.privates.filter(({words}) => words > 0));
  const publics =
    data.publics.map(({name, value}) => ({x: x(Math.min(value, data.next)), words: name}));
  const over = laid(publics.sort((one, other) => one.x - other.x), width);
  const under =
    laid(privates.map(({slot, name, offset}) => ({x: x(offset), words: name, slot})), width);
  const bar = y + LABEL * linesOf(over) + 6, foot = bar + height, room = x(data.own);
  const own = room > 150 ? "the program's own words" : room > 60 ? "its own" : "";
  return {
    bottom: foot + LABEL * linesOf(under) + 8,
    nodes: [
      drawn("rect", {className: "own", x: 0, y: bar, width: room, height}),
      written(7, bar + 17, "small", own), ...labels(over, bar, true),
      ...privates.map((one) => privateBox(one, slots, {x, y: bar, height})),
      ...numbersOf(privates, slots, x, bar + 17), ...labels(under, foot, false)
    ]
  };
}

function toldOfData({was, is, words, own, next}) {
  if (words === 0)
    return `No unit has private variables: the data size stays ${counted(was, "byte")}.`;
  const grows = `The data size grows from ${grouped(was)} to ${counted(is, "byte")}, and word ${
    next} is free next.`;
  return `${counted(words, "word")} of private variables, from word ${own} on. ${grows}`;
}

// ---- The picture

function pattern(id, width, height, rectangle, more = {}) {
  return drawn("pattern", {id, width, height, patternUnits: "userSpaceOnUse", ...more},
    drawn("rect", {className: "ink", ...rectangle}));
}

/** The patterns for link information, for text, and for what is no code file. */
const patterns = () => drawn("defs", {},
  pattern("picture-links", 5, 5, {width: 1.4, height: 5}, {patternTransform: "rotate(45)"}),
  pattern("picture-text", 5, 4, {width: 3, height: 1, y: 1}),
  pattern("picture-unknown", 6, 6, {width: 1.4, height: 1.4, x: 2, y: 2}));

/** A panel: its heading, what there is to say of it, and what `fill` draws below. */
function panel(width, heading, told, fill, className = "pic") {
  const nodes = [written(0, 15, "heading", heading)];
  let y = 15;
  for (const line of wrapped(told, Math.floor(width / QUIET)))
    nodes.push(written(0, y += LINE, "quiet", line));
  const {nodes: more, bottom} = fill(y + 8), height = Math.ceil(bottom + 4);
  const box = {viewBox: `0 0 ${width} ${height}`, width, height};
  return drawn("svg", {className, ...box, role: "group", "aria-label": heading}, ...nodes, ...more);
}

/** Files that are refused, in one panel. */
function refusedPanel(model, size) {
  const told = "To scale: a row is a block of 512 bytes. What the fault is about has a frame.";
  return panel(size.width, "Where the fault is", told, (y) => {
    const signs = legend(size.width, y + 10, true),
          strips = refusedStrips(model, size, signs.bottom + 6);
    return {bottom: strips.bottom, nodes: [patterns(), ...signs.nodes, ...strips.nodes]};
  });
}

/**
 * Draws the picture.
 * @param {object} model what `pictured` or `refusedPicture` makes
 * @param {number} width in pixels
 * @returns {Drawing}
 */
export function picture(model, width) {
  const size = {width, isWide: width >= WIDE};
  if (model.fault) return {panels: [refusedPanel(model, size)], strip: null};
  let strip = null;
  const files = panel(width, "Where each part comes from",
    "To scale: a row is a block of 512 bytes. Bands lead from what is taken to its place in the linked file.",
    (y) => {
      const signs = legend(width, y + 10), strips = stripsOf(model, size, signs.bottom + 6);
      strip = strips.strip;
      return {bottom: strips.bottom, nodes: [patterns(), ...signs.nodes, ...strips.nodes]};
    });
  const frames =
    " A thick frame is the program's, a dashed one that of an added unit, and a plain segment has none.";
  const bows =
    "Above the slots references to units, below them to variables of the program, in the colour of the file of the " +
    `segment. A thicker bow is of more references.${size.isWide ? "" : frames}`;
  const few = model.edges.length <= FEW ? "pic few" : "pic";
  const slots = panel(width, "Who refers to whom", bows, (y) => slotsOf(model, size, y), few);
  const data = panel(
    width, "The program's data, in words", toldOfData(model.data), (y) => dataOf(model, size, y));
  return {panels: [files, slots, data], strip};
}

/** What the picture shows, in sentences. */
export function toldOfPicture({segments, inputs, blocks, changes, unlisted, fault}) {
  if (fault)
    return `The files are refused. The frame is around ${fault.told} of ${
      shownName(inputs[fault.file].name)}.`;
  const used = inputs.filter(({isUsed}) => isUsed);
  const left = used.flatMap(
    ({name, parts}) => parts.filter(({kind, taken}) => kind === "code" && taken === null)
                         .map((part) => `${part.name} of ${shownName(name)}`));
  const own = `${
    counted(unlisted, "byte differs",
      "bytes differ")} at no place of the map: that is a fault of this page or of pslink.`;
  return [
    `${counted(segments.length, "segment")} of ${counted(used.length, "file")} are in ${
      counted(blocks, "block")}.`,
    unlisted ?
      own :
      `${
        counted(changes,
          "byte")} of the codes differ from the input, each at a place that the map lists.`,
    ...(left.length ? [`Not taken: ${left.join(", ")}.`] : [])
  ].join(" ");
}

/**
 * The picture as the text of a file: its panels one below the other, with their styles for light
 * and dark, and what is told of them.
 * @param {object} model
 * @param {number} width of the panels
 * @param {string} title
 * @returns {string}
 */
export function pictureFile(model, width, title) {
  const {panels} = picture(model, width), whole = width + 2 * MARGIN;
  let y = MARGIN;
  const placed = panels.map((one) => {
    const at = {...one, attributes: {...one.attributes, x: MARGIN, y}};
    y += one.attributes.height + MARGIN;
    return at;
  });
  const style = `${STYLE}:root { background: var(--paper); font-family: system-ui, sans-serif; }\n`;
  const about =
    [drawn("title", {}, title), drawn("desc", {}, toldOfPicture(model)), drawn("style", {}, style)];
  const attributes =
    {xmlns: "http://www.w3.org/2000/svg", viewBox: `0 0 ${whole} ${y}`, width: whole, height: y};
  return `${textOf(drawn("svg", attributes, ...about, ...placed))}\n`;
}
