/*
 * The texts of the module as a page shows them: the kind of each line, and which words of it lead
 * to the manual. Its lines are shown as they are, but for where the manual is: below, on the page.
 */

/**
 * @typedef {{text: string, anchor: string | null}} Piece a part of a line, and the place in the
 * manual that it leads to
 */

// a fault, and a section of the manual; and what the page says in place of the name of the manual
const LINKED = /\brefused (\d+) \w+|\b(WARNINGS|DAMAGED FILES) (?:in|of) pslink\(1\)/g,
      BELOW = " below";

function kindOf(line, before) {
  if (line.startsWith("pslink: ")) return "refused";
  const begun = /^(warning|note|harmless|links)(?=: )/.exec(line);
  if (begun) return begun[1];
  if (!line.startsWith("  ")) return "";
  return before === "refused" ? "why" : before;
}

/**
 * The lines of a text, each with what it is: refused, why, warning, note, harmless, links, or
 * nothing of these. A line that is indented is of the kind of the one before.
 * @param {string} text
 * @returns {{line: string, kind: string}[]}
 */
export function linesOf(text) {
  let kind = "";
  return text.replace(/\n$/, "").split("\n").map((line) => {
    kind = kindOf(line, kind);
    return {line, kind};
  });
}

/**
 * What a line matches that the manual has as this term, where a word in capitals stands for what is
 * printed there.
 * @param {string} term as "NAME has base offset VALUE (warning)"
 * @returns {RegExp}
 */
export function patternOf(term) {
  const [, words, weight] = /^(.*) \((\w+)\)$/s.exec(term.replace(/\s+/g, " "));
  const literal = words.replace(/[.*+?^${}()|[\]\\]/g, "\\$&");
  return new RegExp(`^${weight}: .*: ${literal.replace(/\b[A-Z_]{2,}\b/g, ".+")}$`, "u");
}

/**
 * A line in pieces, of which those that speak of the manual lead there.
 * @param {string} line
 * @param {{id: string, pattern: RegExp}[]} terms what a report finds, and where the manual has it
 * @returns {Piece[]}
 */
export function piecesOf(line, terms) {
  const term = terms.find(({pattern}) => pattern.test(line));
  const begun = term ? /^\w+/.exec(line)[0] : "";
  const pieces = begun ? [{text: begun, anchor: term.id}] : [];
  let from = begun.length;
  for (const {0: whole, 1: number, 2: section, index} of line.matchAll(LINKED)) {
    const anchor = number ? `diagnostics-${number}` : section.toLowerCase().replace(" ", "-");
    pieces.push({text: line.slice(from, index), anchor: null},
      {text: section ?? whole, anchor: `manual-${anchor}`},
      {text: section ? BELOW : "", anchor: null});
    from = index + whole.length;
  }
  pieces.push({text: line.slice(from), anchor: null});
  return pieces.filter(({text}) => text !== "");
}

/**
 * The sentences of a report that say what a fault is and what to do. The lines before them name
 * files and segments, and are none.
 * @param {string} report
 * @returns {string[]}
 */
export function sentencesOf(report) {
  return linesOf(report)
    .filter(({line, kind}) => kind === "why" && /^ {2}[A-Z].*\.$/.test(line))
    .map(({line}) => line.trim());
}
