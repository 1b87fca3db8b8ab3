/*
 * The verdict on the files: it has its place under the drop zone, or at the upper edge of the
 * window, from when there is a file or a volume. Its place is as high whatever it says, so that
 * nothing below it moves.
 */
import {made} from "../elements.mjs";
import {fault} from "../pslink.mjs";
import {byId, count, say, state} from "./common.mjs";
import {linesOf, piecesOf, sentencesOf} from "./lines.mjs";

const OTHERWISE = {
  __proto__: null,
  "no memory":
    ["There is not enough memory for these files.", "Close other pages, or give fewer files."],
  trapped: [
    "The module stopped.",
    "That is a fault of pslink or of the browser, and not of the files. Nothing was linked."
  ],
};

const LONG = 4194304, SOON = 100; // bytes that take a while, and milliseconds

let terms = [];

/** The terms of the manual to which lines lead. */
export function setTerms(known) {
  terms = known;
}

/** A line as the page shows it, with links to the manual. */
export function pieces(line) {
  return piecesOf(line, terms).map(({text,
    anchor}) => anchor ? made("a", {href: `#${anchor}`, textContent: text}) : text);
}

/** Tells what came of the files, and offers what a person may do: each offer is a button. */
export function tell(kind, headline, sentences, offers = []) {
  const outcome = byId("outcome"), lines = sentences.map((line) => made("p", {}, ...pieces(line)));
  const wasOffered = byId("offers").contains(document.activeElement);
  outcome.className = kind;
  const buttons = offers.filter(({words}) => words);
  byId("offers").replaceChildren(
    ...buttons.map(({words, act}) => made("button",
                     {type: "button", className: "main", textContent: words, onclick: act})));
  outcome.replaceChildren(made("strong", {textContent: headline}), ...lines);
  byId("verdict").hidden = false;
  outcome.scrollTop = 0;
  outcome.tabIndex = outcome.scrollHeight > outcome.clientHeight ? 0 : -1;
  if (wasOffered) outcome.focus({preventScroll: true});
  say(headline, ...sentences);
}

/** Once the browser has drawn what was changed before. */
function drawn() {
  return new Promise((end) => {
    requestAnimationFrame(() => setTimeout(end));
    setTimeout(end, SOON); // where the page is not seen, nothing is drawn
  });
}

/** Says what is under way where it is of so many bytes that it takes a while. */
export async function progress(size, words) {
  if (size < LONG) return;
  byId("outcome").className = "busy";
  byId("outcome").replaceChildren(made("strong", {textContent: `${words} ..`}));
  byId("offers").replaceChildren();
  byId("verdict").hidden = false;
  byId("told").textContent = words;
  await drawn();
}

export function failed(error) {
  const why = String(error?.message ?? error);
  tell("bad", "This page failed.", [why, "Load the page again. The files are as they were."]);
}

/** The same work, where a failure is told; while any is under way the page says that it is busy. */
export function guarded(work) {
  return async (...given) => {
    state.underWay++;
    document.body.setAttribute("aria-busy", "true");
    try {
      await work(...given);
    } catch (error) {
      failed(error);
    }
    if (--state.underWay === 0) document.body.setAttribute("aria-busy", "false");
  };
}

function tellRefusal({result, report}, offers) {
  const known = fault(result.answer.fault);
  const found = report.done ? sentencesOf(report.text) : [];
  const [meaning, ...remedy] = found.length ? found : [known.meaning, known.remedy];
  const offered = offers.map(({sentence}) => sentence), todo = offered.length ? offered : remedy;
  const first = offers.some(({isInstead}) => isInstead) ? [] : [meaning];
  tell("bad", "The files are refused.", [...first, ...todo, `${result.fault}.`], offers);
}

/** The first warning of a report in its words, and how many warnings and notes it has. */
function findingsOf(report) {
  const lines = linesOf(report.text ?? "").map(({line}) => line);
  const warnings = report.answer?.warnings ?? 0;
  const notes = lines.filter((line) => line.startsWith("note: ")).length;
  const found =
    [warnings && count(warnings, "warning"), notes && count(notes, "note")].filter(Boolean);
  const first = lines.find((line) => line.startsWith("warning: "));
  return {
    warnings,
    sentences: [
      ...(warnings && first ? [first] : []),
      ...(found.length ? [`The report has ${found.join(" and ")}.`] : []),
      ...(report.done ? [] : [`There is no report: ${report.status}.`]),
    ]
  };
}

function tellLink({result, report}) {
  const {segments, privateWords, blocks, size} = result.answer,
                                         {warnings, sentences} = findingsOf(report);
  const parts =
    [count(segments, "segment"), count(privateWords, "private word"), count(blocks, "block")];
  const made = `${parts.join(", ")}: ${count(size, "byte")}.`;
  if (warnings)
    tell("warned", "The files link, with warnings.", [...sentences, made]);
  else
    tell("good", "The files link.", [made, ...sentences]);
}

/** Tells what came of a link. */
export function tellOutcome(seen, offers) {
  const {result} = seen;
  if (result.done) return tellLink(seen);
  if (result.fault) return tellRefusal(seen, offers);
  const unknown = [`The files were not linked: ${result.status}.`];
  const [headline, ...sentences] = OTHERWISE[result.status] ?? unknown;
  const reason = result.reason ? [`The browser says: ${result.reason}`] : [];
  return tell("bad", headline, [...sentences, ...reason]);
}

/**
 * What the verdict is as long as no file is chosen; there is none where there is no volume either.
 */
export function tellNothing() {
  byId("verdict").hidden = state.volumes.length === 0;
  byId("outcome").className = "";
  byId("offers").replaceChildren();
  byId("outcome").replaceChildren(made("strong", {textContent: "Choose the files to link."}),
    made("p", {textContent: "Tick a program, and the code files that have its units."}));
  say(state.volumes.length ? "" : "There are no files.");
}
