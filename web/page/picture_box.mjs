/*
 * The section of the page with the picture of a link: it is drawn when it comes into view, one
 * segment of it can be chosen, and it can be saved.
 */
import {elementOf, grouped, made, twoDigits} from "../elements.mjs";
import {shownName} from "../names.mjs";
import {picture, pictureFile, toldOfPicture} from "../picture.mjs";
import {DICTIONARY} from "../pictured.mjs";
import {pointsAt} from "../strips.mjs";
import {byId} from "./common.mjs";
import {segmentBox} from "./segment.mjs";

const STEPS = {
  __proto__: null,
  ArrowDown: 1,
  ArrowRight: 1,
  ArrowUp: -1,
  ArrowLeft: -1,
  " ": 0,
  Enter: 0
};
const NEAR = "200px"; // so far below the window the picture is drawn

/** The same as a table. */
function tableOf({segments, inputs, edges, slots}) {
  const cells = (kind, ...words) =>
    made("tr", {}, ...words.map((word) => made(kind, {textContent: word})));
  const edgeOf = ({kind, to, count}) => `${slots[to].name} ${count} (${kind})`;
  const referred = (from) => edges.filter((edge) => edge.from === from).map(edgeOf).join(", ");
  const rowOf = ({slot, name, role, file, entry, block, length, stores, changes}) =>
    cells("td", twoDigits(slot), name, role, `${shownName(inputs[file].name)}, entry ${entry}`,
      block, grouped(length), stores.length, changes.length, referred(slot));
  const heads =
    cells("th", "Slot", "Name", "What", "From", "Block", "Bytes", "Stored", "Differ", "Refers to");
  return made("table", {}, heads, ...segments.map(rowOf));
}

/** Marks a byte of the linked file in its strip, or none. */
function showHere({panels, strip}, byte) {
  panels[0].querySelector(".here")?.setAttribute("d", byte === null ? "" : pointsAt(strip, byte));
}

/** Lights what belongs to a segment, and all else steps back. */
function showLit({panels}, slot) {
  for (const svg of panels) {
    svg.classList.toggle("chosen", slot !== null);
    for (const it of svg.querySelectorAll(".of-slot"))
      it.classList.toggle("lit", Number(it.dataset.slot) === slot);
    for (const it of svg.querySelectorAll(".edge")) {
      it.classList.toggle("lit", [it.dataset.from, it.dataset.to].includes(String(slot)));
    }
  }
}

/** Says which segment is chosen. Of the segments one alone is reached by the key Tab. */
function showChoice(drawing, slot) {
  showLit(drawing, slot);
  drawing.panels[0].querySelectorAll(".choice").forEach((it, k) => {
    const isChosen = Number(it.dataset.slot) === slot;
    it.setAttribute("aria-checked", String(isChosen));
    it.setAttribute("tabindex", isChosen || (slot === null && k === 0) ? 0 : -1);
  });
}

/** The section. It is shown from when there are files until there are none. */
export class PictureBox {
  #make = null; // makes the model of what is to be drawn, until it is drawn
  #model = null;
  #drawing = null;
  #chosen = null;
  #box = byId("picture");
  #isNear = false;

  constructor() {
    this.#box.addEventListener("click", (event) => this.#onClick(event));
    this.#box.addEventListener("keydown", (event) => this.#onKey(event));
    this.#box.addEventListener("pointerover",
      (event) => this.#light(event.pointerType === "mouse" ? this.#slotAt(event) : null));
    this.#box.addEventListener("pointerleave", () => this.#light(null));
    new ResizeObserver(() => this.#box.clientWidth !== this.#drawing?.room && this.#draw())
      .observe(this.#box);
  }

  /** Draws each link once the section is near the window: `guard` tells what fails. */
  watch(guard) {
    const near = guard(async (entries) => {
      this.#isNear = entries.at(-1).isIntersecting;
      await this.#drawNew();
    });
    new IntersectionObserver(near, {rootMargin: `0px 0px ${NEAR}`}).observe(byId("pictured"));
  }

  /** Takes the picture away, until it is known what is to be shown. */
  wait() {
    [this.#make, this.#model, this.#drawing, this.#chosen] = [null, null, null, null];
    byId("pictured").classList.add("waits");
    byId("picture-told").textContent = "";
    this.#drawNone();
  }

  /** Shows another link, of which `make` gives the model. */
  async show(make) {
    this.wait();
    this.#make = make;
    byId("pictured").hidden = false;
    await this.#drawNew();
  }

  /** Says why there is no picture; without a reason the section is not shown at all. */
  hide(reason = "") {
    this.wait();
    byId("pictured").classList.remove("waits");
    byId("pictured").hidden = !reason;
    byId("picture-told").textContent = reason;
  }

  /** The picture as a file, with the title that it is to have; null if there is none. */
  file(title) {
    return this.#drawing && pictureFile(this.#model, this.#drawing.room, title);
  }

  #drawNone() {
    this.#box.replaceChildren();
    byId("picture-table").replaceChildren();
    for (const it of document.querySelectorAll("#pictured .drawn")) it.hidden = true;
  }

  async #drawNew() {
    const make = this.#make;
    if (!make || !this.#isNear) return;
    const model = await make();
    if (this.#make !== make) return; // the files were changed in the meantime
    [this.#make, this.#model] = [null, model];
    this.#draw();
  }

  #draw() {
    const room = this.#box.clientWidth, model = this.#model;
    if (!model || room === 0) return;
    const {panels: trees, strip} = picture(model, room), panels = trees.map(elementOf);
    const focused = document.activeElement.closest(".choice")?.dataset.slot;
    this.#drawing = {panels, strip, room};
    this.#box.replaceChildren(
      panels[0], made("div", {id: "picture-segment", hidden: true}), ...panels.slice(1));
    byId("pictured").classList.remove("waits");
    byId("picture-told").textContent = toldOfPicture(model);
    byId("picture-table").replaceChildren(...(model.fault ? [] : [tableOf(model)]));
    for (const it of document.querySelectorAll("#pictured .drawn"))
      it.hidden = Boolean(model.fault) && !it.matches(".acts");
    if (!model.fault) this.#choose(this.#chosen);
    if (focused !== undefined)
      this.#box.querySelector(`.choice[data-slot="${focused}"]`)?.focus({preventScroll: true});
  }

  #choose(slot) {
    const model = this.#model,
          segment = slot === DICTIONARY ? model.dictionary : model.slots[slot] ?? null;
    const box = byId("picture-segment"), drawing = this.#drawing;
    this.#chosen = segment && slot;
    showChoice(drawing, this.#chosen);
    showHere(drawing, null);
    box.hidden = !segment;
    const show = (byte) => showHere(drawing, byte);
    box.replaceChildren(...(segment ? segmentBox(segment, model, drawing.room, show) : []));
  }

  /** Lights a segment to which a person points. */
  #light(slot) {
    if (this.#drawing) showLit(this.#drawing, slot ?? this.#chosen);
  }

  /** The slot to which a part of the picture belongs, or null. */
  #slotAt({target}) {
    const it = this.#drawing && target.closest(".pic [data-slot]");
    return it && Number(it.dataset.slot);
  }

  #onClick(event) {
    const slot = this.#slotAt(event);
    if (slot !== null) this.#choose(slot === this.#chosen ? null : slot);
  }

  #onKey(event) {
    const choices = [...this.#box.querySelectorAll(".choice")],
          k = choices.indexOf(event.target.closest(".choice"));
    if (k < 0 || !this.#drawing || event.altKey || event.ctrlKey || event.metaKey) return;
    if (event.key === "Escape") this.#choose(null);
    const step = event.key in STEPS ? k + STEPS[event.key] + choices.length : null;
    const to = {Home: 0, End: choices.length - 1}[event.key] ?? step;
    if (to === null) return;
    event.preventDefault();
    const next = choices[to % choices.length];
    this.#choose(Number(next.dataset.slot));
    next.focus({preventScroll: true});
  }
}
