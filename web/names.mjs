/*
 * Names of files: as a report shows them, as a file can have them on each system, and with words
 * before their ending.
 */

// Control characters, and those of Unicode that end a line, take no room on it or turn its
// direction, as a report knows them.
const HIDDEN = /[\p{Cc}\p{Zl}\p{Zp}\p{Default_Ignorable_Code_Point}\uFFF9-\uFFFB]/gu;
const LETTERS = {
  __proto__: null,
  "\0": "\\0",
  "\t": "\\t",
  "\n": "\\n",
  "\r": "\\r",
  '"': '\\"',
  "\\": "\\\\"
};

/**
 * The name as a report has it: where a character of it is hidden, in quotes with each of these
 * escaped.
 * @param {string} name
 * @returns {string}
 */
export function shownName(name) {
  if (name.search(HIDDEN) < 0) return name;
  const escape = (hidden) => `\\u{${hidden.codePointAt(0).toString(16)}}`;
  const escaped = (character) => LETTERS[character] ?? character.replace(HIDDEN, escape);
  return `"${Array.from(name, escaped).join("")}"`;
}

/**
 * A name that a file can have on each system.
 * @param {string} name
 * @returns {string}
 */
export function nameOfFile(name) {
  return name.replace(HIDDEN, "_").replace(/[/\\:*?"<>|]/g, "_");
}

/**
 * The name with these words before its ending, as "demo.linked.code"; in capitals where the name
 * is.
 * @param {string} name
 * @param {string} words
 * @returns {string}
 */
export function nameWith(name, words) {
  const added = name === name.toUpperCase() ? words.toUpperCase() : words;
  return name.replace(/(\.[^.]*)?$/, (ending) => `.${added}${ending}`);
}
