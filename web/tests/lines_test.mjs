/*
 * How lines of the module are shown: the kind of each, what of it leads to the manual, and names.
 * Expected values are typed by hand, but for the terms of the manual, which are those in the page.
 * Usage: node lines_test.mjs PAGE
 */
import assert from "node:assert/strict";
import {readFileSync} from "node:fs";
import {nameOfFile, nameWith, shownName} from "../names.mjs";
import {linesOf, patternOf, piecesOf, sentencesOf} from "../page/lines.mjs";

const REPORT = `file 0 host: 1536 bytes, little-endian
pslink: refused 13 MissingUnit file 0 slot 7
  file host
  DISK:HOST has no unit
  No library has the unit that the slot wants.
  Give a library that has it, after host. If you gave it, see DAMAGED FILES in pslink(1).
warning: a, segment B, record 1: the operand at byte 4 is word 2 of a variable that has 2
note: a: it may be a file of the byte 00 alone
  more of it
harmless: a: its last 2 bytes are 1A: it was padded, as by CP/M
 warning: not a warning
links: segments 2 private words 4 blocks 3
copy or compile again: a; see WARNINGS in pslink(1)
`;
const KINDS = [
  "", "refused", "why", "why", "why", "why", "warning", "note", "note", "harmless", "", "links", ""
];

// a line that each term of WARNINGS is about, and the number of the term
const FOUND = [
  [
    "warning: h.code, slot 07: slot 07 has the name UTIL, kind 0 and no code: no segment is linked there",
    1
  ],
  ["warning: a, segment B: its bytes in the file overlap those of slot 03", 2],
  ["warning: a, segment B, record 1: the operand at byte 4 is word 2 of a variable that has 2", 3],
  [
    "warning: a, segment B, record 0: the operand at byte 1 is word 5 of COUNT at base offset 3, and the end mark says that 8 is free",
    4
  ],
  ["note: a: it may be a gzip file", 10],
  ["harmless: a: its last 2 bytes are 1A: it was padded, as by CP/M", 11],
  [
    "note: a: bytes 512 to 1023 are there twice, one after the other: they may have been read twice",
    12
  ],
  [
    "harmless: a: bytes 288 to 291 of its dictionary are not 0: Apple Pascal keeps there which intrinsic units a program uses",
    17
  ],
  [
    "note: a, segment B: the linked file has 0 for it at byte 270, and its own file has 4202: a system of II.1 may not start it; set it by printf '\\007\\102' | dd of=LINKED bs=1 seek=270 conv=notrunc",
    18
  ],
  [
    "harmless: a, segment B, record 0: the unit defines NAME, which has no effect: only the host program defines variables",
    34
  ],
];

let count = 0;
function same(got, wanted) {
  assert.deepEqual(got, wanted);
  count++;
}

const page = readFileSync(process.argv[2], "utf8");
const plain = (html) => html.replace(/<[^>]*>/g, "").replace(/&#x27;/g, "'").replace(/&amp;/g, "&");
const terms = [...page.matchAll(/<dt id="(manual-warnings-\d+)">(.*?)<\/dt>/gs)].map(
  ([, id, term]) => ({id, term: plain(term), pattern: patternOf(plain(term))}));
const anchors = (line) =>
  piecesOf(line, terms).filter(({anchor}) => anchor).map(({text, anchor}) => [text, anchor]);

same(linesOf(REPORT).map(({kind}) => kind), KINDS);
same(linesOf(REPORT).map(({line}) => `${line}\n`).join(""), REPORT);
const ownWords = (line) => line.replace(/ (in|of) pslink\(1\)/, " below");
for (const {line} of linesOf(REPORT))
  same(piecesOf(line, terms).map(({text}) => text).join(""), ownWords(line));
same(sentencesOf(REPORT), [
  "No library has the unit that the slot wants.",
  "Give a library that has it, after host. If you gave it, see DAMAGED FILES in pslink(1)."
]);
same(sentencesOf("links: segments 2 private words 4 blocks 3\n"), []);
same(anchors("pslink: refused 13 MissingUnit file 0 slot 7"),
  [["refused 13 MissingUnit", "manual-diagnostics-13"]]);
same(anchors("If you gave it, see DAMAGED FILES in pslink(1)."),
  [["DAMAGED FILES", "manual-damaged-files"]]);
same(
  anchors("Damage is in DAMAGED FILES of pslink(1)."), [["DAMAGED FILES", "manual-damaged-files"]]);
same(anchors("copy or compile again: a; see WARNINGS in pslink(1)"),
  [["WARNINGS", "manual-warnings"]]);
same(anchors("file 0 WARNINGS: 1536 bytes, little-endian"), []);
for (const [line, number] of FOUND)
  same(anchors(line), [[/^\w+/.exec(line)[0], `manual-warnings-${number}`]]);
// each term is met by its own words and by no other term before it
for (const {id, term} of terms) {
  const [, words, weight] = /^(.*) \((\w+)\)$/s.exec(term.replace(/\s+/g, " "));
  same(anchors(`${weight}: a file: ${words}`), [[weight, id]]);
}
same(terms.length, 34);

same(shownName("a\nb\u202ec\u200bd\"\\"), '"a\\nb\\u{202e}c\\u{200b}d\\"\\\\"');
for (const hidden of ["2028", "2029", "34f", "115f", "180f", "206f", "3164", "fe0f", "fff9",
       "1d173", "e0001", "e0fff"]) {
  same(shownName(`a${String.fromCodePoint(parseInt(hidden, 16))}b`), `"a\\u{${hidden}}b"`);
}
for (const shown
       of ["301", "a0", "2027", "202f", "205f", "2070", "fe10", "fffc", "1f4be", "e1000"]) {
  const name = `a${String.fromCodePoint(parseInt(shown, 16))}b`;
  same(shownName(name), name);
}
same(shownName("a\"b\\c"), "a\"b\\c");
same(shownName("déjà <b>"), "déjà <b>");
same(nameOfFile("a/b\\c:d*e?f\"g<h>i|j\u0000k"), "a_b_c_d_e_f_g_h_i_j_k");
same(nameWith("host.code", "linked"), "host.linked.code");
same(nameWith("a.b.code", "linked"), "a.b.linked.code");
same(nameWith("host", "linked"), "host.linked");
same(nameWith("HOST.CODE", "linked"), "HOST.LINKED.CODE");
same(nameWith("Host.CODE", "linked"), "Host.linked.CODE");
console.log(`page: lines and links: ${count} passed`);
