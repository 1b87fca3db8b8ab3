/*
 * The texts of the module about the files: each is made when a person opens it, and can be saved.
 */
import {made} from "../elements.mjs";
import {nameOfFile, shownName} from "../names.mjs";
import {byId, nameOf, saveFile, say, state} from "./common.mjs";
import {linesOf} from "./lines.mjs";
import {guarded, pieces} from "./verdict.mjs";

const PER_FILE = ["show"]; // texts of one file alone

/** The texts of a kind: one of all files, or one of each. */
function textsOf(kind) {
  const {files} = state;
  if (PER_FILE.includes(kind)) return files.map((file) => ({title: file.name, files: [file]}));
  return [{title: null, files: [...files]}];
}

/** The parts of the page in which a text is shown. */
export const boxesOfTexts = () => [...document.querySelectorAll("#texts details")];

/** Draws a text, if it is open. One that comes after the files were changed again is not shown. */
export async function drawText(pslink, details) {
  const kind = details.dataset.text, parts = details.querySelector(".parts"), {round} = state;
  if (!details.open) return parts.replaceChildren();
  const drawn = [];
  for (const {title, files} of textsOf(kind)) {
    const result = await pslink.text(kind, files);
    drawn.push(...partOf(pslink, {kind, title, files}, result));
  }
  const isShown = round === state.round && details.open;
  return isShown ? parts.replaceChildren(...drawn) : undefined;
}

/** A text with its title, if it has one, and with the buttons that save it. */
function partOf(pslink, {kind, title, files}, result) {
  const name = byId("texts").querySelector(`[data-text=${kind}] summary`).textContent;
  const label = title === null ? name : `${name}: ${shownName(title)}`;
  const button = (textContent, isJson) => made("button", {
    type: "button",
    textContent,
    label: `${textContent}: ${label}`,
    onclick: guarded(() => saveText(pslink, kind, files, isJson))
  });
  const buttons = () => [button("Save as text", false), button("Save as JSON", true)];
  return [
    ...(title === null ? [] : [made("h3", {}, nameOf(title))]),
    textBox(label, result.done ? result.text : `pslink: ${result.fault ?? result.status}\n`),
    ...(result.done ? [made("p", {className: "acts"}, ...buttons())] : []),
  ];
}

/**
 * The lines of a text. The end of a line is between two of them, so that what is copied is the
 * text.
 */
function textBox(label, text) {
  const lines = linesOf(text).map(
    ({line, kind}, k) => made("span", {className: kind}, ...(k ? ["\n"] : []), ...pieces(line)));
  const box = made("pre", {tabIndex: 0, label}, ...lines);
  box.setAttribute("role", "region");
  return box;
}

async function saveText(pslink, kind, files, isJson) {
  const {done, bytes, status} = await pslink.text(kind, files, {json: isJson});
  const base = nameOfFile(files[0].name).replace(/\.[^.]*$/, "");
  const name = `${base}.${kind}.${isJson ? "json" : "txt"}`;
  if (!done) throw new Error(`There is no such text: ${status}.`);
  saveFile(name, bytes, isJson ? "application/json" : "text/plain");
  say(`Saved: ${name}.`);
}
