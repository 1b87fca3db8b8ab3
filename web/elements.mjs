/*
 * Elements of the page, and of drawings. Each text in them is text, and never HTML. A drawing is a
 * tree of plain objects, of which elements are made for a page and a text for a file: so both have
 * the same drawing, and a file of it needs no page.
 */

/**
 * @typedef {{name: string, attributes: object, inside: (string | Tree)[]}} Tree an element of a
 * drawing
 */

const COLOURS = 8; // how many files have colours of their own
const SPACE = "http://www.w3.org/2000/svg";
const ESCAPES = {
  "&": "&amp;",
  "<": "&lt;",
  ">": "&gt;",
  '"': "&quot;"
};
// what a picture by itself has no use for: it cannot be chosen from
const OF_A_PAGE =
  ["tabindex", "role", "aria-checked", "aria-label", "data-slot", "data-from", "data-to"];

/**
 * An element of the page with these properties, where `label` is its name for a reader of screens,
 * and with these texts and elements in it.
 * @param {string} name
 * @param {object} [properties]
 * @param {...(string | Node)} inside
 */
export function made(name, {label, ...properties} = {}, ...inside) {
  const element = Object.assign(document.createElement(name), properties);
  if (label) element.setAttribute("aria-label", label);
  element.append(...inside);
  return element;
}

/**
 * An element of a drawing with these attributes, but for those that are null; `className` is the
 * attribute class.
 * @param {string} name
 * @param {object} [attributes]
 * @param {...(string | Tree)} inside
 * @returns {Tree}
 */
export function drawn(name, attributes = {}, ...inside) {
  const given = Object.entries(attributes).filter(([, value]) => value !== null);
  const named = given.map(([key, value]) => [key === "className" ? "class" : key, value]);
  return {name, attributes: Object.fromEntries(named), inside};
}

/**
 * The elements of a drawing.
 * @param {string | Tree} tree
 * @returns {string | SVGElement}
 */
export function elementOf(tree) {
  if (typeof tree === "string") return tree;
  const element = document.createElementNS(SPACE, tree.name);
  for (const [key, value] of Object.entries(tree.attributes)) element.setAttribute(key, value);
  element.append(...tree.inside.map(elementOf));
  return element;
}

const escaped = (text) => String(text).replace(/[&<>"]/g, (one) => ESCAPES[one]);

/**
 * The drawing as the text of a file, without what only a page has a use for.
 * @param {string | Tree} tree
 * @returns {string}
 */
export function textOf(tree) {
  if (typeof tree === "string") return escaped(tree);
  const {name, attributes, inside} = tree;
  const kept = Object.entries(attributes).filter(([key]) => !OF_A_PAGE.includes(key));
  const words = kept.map(([key, value]) => ` ${key}="${escaped(value)}"`).join("");
  return `<${name}${words}>${inside.map(textOf).join("")}</${name}>`;
}

/** Words of a drawing, from this place on. */
export const written = (x, y, className, words, more = {}) =>
  drawn("text", {x, y, className, ...more}, words);

/** Words of a drawing with their middle at this place. */
export const centred = (x, y, className, words) =>
  written(x, y, className, words, {"text-anchor": "middle"});

/** The class that has the colour of a file. */
export const colourOf = (file) => `f${file % COLOURS}`;

export const twoDigits = (number) => String(number).padStart(2, "0");

export const grouped = (number) => String(number).replace(/\B(?=(\d{3})+$)/g, ",");

/** A number of things, as "1,024 bytes". */
export const counted = (number, one, more = `${one}s`) =>
  `${grouped(number)} ${number === 1 ? one : more}`;
