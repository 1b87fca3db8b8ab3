// Holds what pslink.mjs hands to the module to what is assumed of it, call by call: a block that
// the module asks for is in the memory, above the stack and the constants, aligned to 16, and apart
// from all that is in use; it is given back once; and so are the parts that a call is handed.
// Usage: heap.mjs MODULE ANSWERS STEP: of the sets that native.py wrote, each STEP-th
import {createReadStream, readFileSync} from "node:fs";
import {createInterface} from "node:readline";
import {TEXTS, load} from "../pslink.mjs";
import {Checks, filesOf} from "./checks.mjs";

const checks = new Checks(), ANSWER_SIZE = 112;
const instantiate = WebAssembly.instantiate;

/** What is in use in the memory of an instance. */
class Use {
  #parts = [];
  #blocks = new Map();

  begin({memory, __heap_base: base}) {
    this.memory = memory;
    this.base = Number(base.value);
  }

  /** A part is in the memory, aligned, and meets no other. */
  add(what, at, size, alignment) {
    checks.is(what,
      at % alignment === 0 && at >= this.base && at + size <= this.memory.buffer.byteLength,
      `is at ${at} and has ${size} bytes`);
    const met = size === 0 ? undefined : [...this.#parts,
      ...this.#blocks].find(([other, length]) => at < other + length && other < at + size);
    checks.is(what, met === undefined, `at ${at}, of ${size} bytes, meets that at ${met}`);
  }

  addPart(what, at, size, alignment = 1) {
    this.add(what, at, size, alignment);
    this.#parts.push([at, size]);
  }

  addBlock(at, size) {
    this.add("a block", at, Math.max(size, 1), 16);
    this.#blocks.set(at, Math.max(size, 1));
  }

  giveBack(at) {
    checks.is("what is given back", this.#blocks.delete(at), `${at} is no block`);
  }

  hasEnded(what) {
    checks.is(what, this.#blocks.size === 0, "kept a block");
  }
}

/** The imports, each held to its contract. */
function watched({page_alloc, page_dealloc}, use) {
  return {
    page_alloc(answer, size, alignment) {
      page_alloc(answer, size, alignment);
      const view = new DataView(use.memory.buffer, Number(answer));
      checks.is("memory", view.getUint8(0) === 1, "is refused");
      use.addBlock(Number(view.getBigUint64(8, true)), Number(size));
    },
    page_dealloc(place) {
      page_dealloc(place);
      use.giveBack(Number(place));
    },
  };
}

/**
 * A function that is handed parts, each as its place and how much it has: bytes, or lengths of
 * eight bytes; and last an answer.
 */
function handed(name, call, first, tables, use) {
  return (...words) => {
    const numbers = words.slice(first).map(Number);
    for (let k = 0; 2 * k + 1 < numbers.length; k++) {
      const width = tables.includes(k) ? 8 : 1;
      use.addPart(`part ${k} of ${name}`, numbers[2 * k], width * numbers[2 * k + 1], width);
    }
    use.addPart(`the answer of ${name}`, numbers.at(-1), ANSWER_SIZE, 8);
    const result = call(...words);
    use.hasEnded(name);
    return result;
  };
}

WebAssembly.instantiate = async (module, {heap}) => {
  const use = new Use(), {exports} = await instantiate(module, {heap: watched(heap, use)});
  use.begin(exports);
  const pslink_link_nonnull = handed("a link", exports.pslink_link_nonnull, 0, [2], use);
  const pslink_text_nonnull = handed("a text", exports.pslink_text_nonnull, 1, [2, 4], use);
  return {exports: {...exports, pslink_link_nonnull, pslink_text_nonnull}};
};

async function call(pslink, files) {
  await pslink.link(files);
  for (const kind of Object.keys(TEXTS)) await pslink.text(kind, files);
  await pslink.text("check", files, {json: true});
}

const [module, answers, step] = process.argv.slice(2), pslink = await load(readFileSync(module));
let at = 0;
for await (const line of createInterface({input: createReadStream(answers), crlfDelay: Infinity})) {
  if (at++ % Number(step) === 0) await call(pslink, filesOf(JSON.parse(line)));
}
checks.enough(at);
checks.end();
