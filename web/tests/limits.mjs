// What pslink.mjs gives where memory is short, where the module traps or the engine's stack is used
// up, and of each wrong argument; and that the next call is then right. Usage: limits.mjs MODULE
// SAMPLES
import {readFileSync} from "node:fs";
import {load} from "../pslink.mjs";
import {Checks} from "./checks.mjs";

const checks = new Checks(), [moduleFile, samples] = process.argv.slice(2),
      module = readFileSync(moduleFile);
const host = {
  name: "host.code",
  bytes: new Uint8Array(readFileSync(`${samples}/host.code`))
};
const library = {
  name: "library.code",
  bytes: new Uint8Array(readFileSync(`${samples}/library.code`))
};
const files = [host, library], pslink = await load(module);
const same = (one, other) => Buffer.compare(one, other) === 0;
const linked = await pslink.link(files), report = await pslink.text("check", files);
checks.is("the samples", linked.done && report.done);

/** A call on the samples is right. */
async function checkRight(what, linker = pslink) {
  const [link, text] = [await linker.link(files), await linker.text("check", files)];
  checks.is(
    `${what}: the next link`, link.done && same(link.bytes, linked.bytes), JSON.stringify(link));
  checks.is(`${what}: the next text`, text.done && text.text === report.text, JSON.stringify(text));
}

/** What is given of a call that has no result is a status and nothing else. */
function checkBare(what, result, status, number) {
  const {done, status: found, answer, ...more} = result;
  checks.is(
    what, !done && found === status && Object.keys(more).length === 0, JSON.stringify(result));
  const {status: numbered, fault, size, ...parts} = answer ?? {};
  checks.is(what,
    numbered === number && fault === 0 && size === 0 &&
      Object.values(parts).every((it) => it === null || it === 0),
    JSON.stringify(answer));
}

async function checkWith(memoryMax, seen) {
  const short = await load(module, {memoryMax}),
        results = {link: await short.link(files), check: await short.text("check", files)};
  for (const [name, wanted] of [["link", linked], ["check", report]]) {
    const result = results[name];
    seen.add(`${name} ${result.status}`);
    if (result.done)
      checks.is(`${name} with ${memoryMax} bytes`, same(result.bytes, wanted.bytes));
    else
      checkBare(`${name} with ${memoryMax} bytes`, result, "no memory", 4);
  }
}

/** With each size of memory a call is right, or says that there is none. */
async function checkMemory() {
  const imports = {heap: {page_alloc() {}, page_dealloc() {}}}, seen = new Set();
  const base =
    Number((await WebAssembly.instantiate(module, imports)).instance.exports.__heap_base.value);
  for (let more = -64; more < 700_000; more += more < 20_000 ? 97 : 4099)
    await checkWith(base + more, seen);
  checks.is("memory that is short, and enough", seen.size === 4, JSON.stringify([...seen]));
  for (const odd of [0, -1, NaN, "little"])
    checkBare(`a memory of ${odd}`, await (await load(module, {memoryMax: odd})).link(files),
      "no memory", 4);
  const large = {bytes: new Uint8Array(64 << 20)};
  checkBare(
    "more files than memory", await pslink.link([host, ...Array(20).fill(large)]), "no memory", 4);
  await checkRight("after that");
}

/**
 * The module with a stack of so few bytes: its first place is a constant of the global section, of
 * four bytes.
 */
function withStack(size) {
  const constant = (value) => Buffer.from([
    0x42, (value & 127) | 128, ((value >> 7) & 127) | 128, ((value >> 14) & 127) | 128, value >> 21,
    0x0b
  ]);
  const bytes = Buffer.from(module), at = bytes.indexOf(constant(1 << 20));
  checks.is("the place of the stack", at > 0 && bytes.indexOf(constant(1 << 20), at + 1) < 0);
  constant(size).copy(bytes, at);
  return bytes;
}

function checkTrapped(what, {done, status, answer, reason, ...more}) {
  checks.is(what,
    !done && status === "trapped" && answer === null && typeof reason === "string" && reason !== "",
    JSON.stringify({status, reason}));
  checks.is(`${what}: nothing else is given`, Object.keys(more).length === 0, JSON.stringify(more));
}

async function checkStack() {
  const small = await load(withStack(8192));
  for (let times = 0; times < 3; times++) {
    checkTrapped("a link with a small stack", await small.link(files));
    checkTrapped("a report with a small stack", await small.text("check", files));
    checks.same(
      "what takes less stack is right", (await small.units("had", [library])).names, ["UTIL    "]);
  }
  await checkRight("after that");
  await checkRight("with the stack that a check takes", await load(withStack(65536)));
}

/** A call with other exports of the module, or other ways of the engine, in place of its own. */
async function changed(change, call) {
  const {instantiate} = WebAssembly;
  WebAssembly.instantiate = async (...words) => {
    const {exports} = await instantiate(...words);
    return {exports: {...exports, ...change(exports)}};
  };
  try {
    return await call();
  } finally {
    WebAssembly.instantiate = instantiate;
  }
}

async function checkEngine() {
  const endless = () => endless() + 1, named = () => {
    throw Object.assign(new Error("too much recursion"), {name: "InternalError"});
  };
  const wrong = (exports) => (...words) =>
    exports.pslink_link_nonnull(...words.slice(0, -1), BigInt(2 ** 31));
  checkTrapped("the engine's stack",
    await changed(() => ({pslink_link_nonnull: endless}), () => pslink.link(files)));
  checkTrapped("the engine's stack, of another engine",
    await changed(() => ({pslink_text_nonnull: named}), () => pslink.text("map", files)));
  checkTrapped("a place that is no memory",
    await changed((it) => ({pslink_link_nonnull: wrong(it)}), () => pslink.link(files)));
  checkTrapped("a line of a fault",
    await changed(() => ({pslink_fault_text_nonnull: endless}), () => pslink.link([host])));
  const none = () => {
    throw new RangeError("could not allocate memory");
  };
  checkBare(
    "an engine without memory", await changed(none, () => pslink.link(files)), "no memory", 4);
  checkBare("a memory that does not grow",
    await changed(
      ({memory}) => ({memory: {buffer: memory.buffer, grow: none}}), () => pslink.link(files)),
    "no memory", 4);
  const broken = () => {
    throw new Error("another fault");
  };
  const told = await changed(() => ({pslink_link_nonnull: broken}),
    () => pslink.link(
      files)).catch((error) => error.message);
  checks.same("a fault of another kind is not hidden", told, "another fault");
  await checkRight("after that");
}

/**
 * A memory that grows while files are laid, and not while the module runs; the heap begins so many
 * bytes later.
 */
function full(more) {
  return ({memory, __heap_base: base, pslink_text_nonnull: text}) => {
    let runs = false;
    const grow = (pages) => {
      if (runs) throw new RangeError("could not allocate memory");
      return memory.grow(pages);
    };
    const run = (...words) => {
      runs = true;
      return text(...words);
    };
    return {
      memory: {
        get buffer() {
          return memory.buffer;
        },
        grow
      },
      __heap_base: {value: Number(base.value) + more},
      pslink_text_nonnull: run
    };
  };
}

async function checkGrowth() {
  let refused = 0;
  for (let more = 0; more < 65536; more += 1024) {
    const result = await changed(full(more), () => pslink.text("check", files));
    if (result.done)
      checks.is("a text in the memory that there is", result.text === report.text);
    else
      checkBare("a module whose memory does not grow", result, "no memory", 4);
    refused += result.done ? 0 : 1;
  }
  checks.is("a memory that does not grow is met", refused > 0);
}

async function checkMisuse() {
  checkBare("no file", await pslink.link([]), "misuse", 2);
  checkBare("a text of no file", await pslink.text("check", []), "misuse", 2);
  for (const kind of ["nothing", "toString", "__proto__", "", undefined, null, 3, Symbol("map")]) {
    checkBare(`the text ${String(kind)}`, await pslink.text(kind, files), "misuse", 2);
  }
  for (const kind of ["wanted", "had", "type"])
    checkBare(`${kind} as a document`, await pslink.text(kind, files, {json: true}), "misuse", 2);
  for (const kind of ["check", "type", "", undefined])
    checkBare(`units of ${kind}`, await pslink.units(kind, files), "misuse", 2);
}

async function checkTypes() {
  const odd = [
    undefined, null, 5, "host.code", {0: host, length: 1}, [undefined], [null], [5], [{}],
    [{name: "host.code"}], [{bytes: "DEMO"}], [{bytes: [1, 2]}], [{bytes: null}],
    [{bytes: new Uint16Array(4)}], [{bytes: new DataView(new ArrayBuffer(4))}], [host, , library],
    [{name: 5, bytes: host.bytes}], [{name: {}, bytes: host.bytes}], [host, library.bytes]
  ];
  const calls =
    [(it) => pslink.link(it), (it) => pslink.text("check", it), (it) => pslink.units("had", it)];
  for (const [k, it] of odd.entries()) {
    for (const call of calls) {
      const error = await call(it).then(() => null, (thrown) => thrown);
      checks.is(`wrong files ${k}`,
        error instanceof TypeError &&
          /^the (files|bytes of file \d|name of file \d) (is|are) no /.test(error.message),
        String(error));
    }
  }
  for (const bytes of [undefined, "module", {}])
    checks.is(
      "no module", await load(bytes).then(() => false, (error) => error instanceof TypeError));
  const empty = Uint8Array.of(0, 97, 115, 109, 1, 0, 0, 0);
  checks.is(
    "another module", await load(empty).then(() => false, (error) => error instanceof TypeError));
  checks.is("bytes of no module",
    await load(host.bytes).then(() => false, (error) => error instanceof WebAssembly.CompileError));
  checks.is(
    "a promise of the module", (await (await load(Promise.resolve(module))).link(files)).done);
}

async function checkNames() {
  const {text} = await pslink.text("list", [
    {name: "a\ud800b", bytes: host.bytes}, {bytes: library.bytes},
    {name: null, bytes: library.bytes}
  ]);
  checks.is("half of a pair in a name", text.includes("a\ufffdb"), text);
  checks.is("files without a name", text.includes("file 1") && text.includes("file 2"), text);
  const marked = await pslink.text("list", [{name: "\ufeffmark", bytes: host.bytes}], {json: true});
  checks.is("the mark of the order of bytes", marked.text.includes("\ufeffmark"), marked.text);
}

/**
 * What is given stays as it was; what a call gives is the caller's own; calls may be under way at
 * once.
 */
async function checkApart() {
  const before = files.map(({bytes}) => bytes.slice()), given = await pslink.link(files);
  checks.is("the files stay", before.every((bytes, k) => same(bytes, files[k].bytes)));
  checks.is("the result has no other bytes", given.bytes.buffer.byteLength === given.bytes.length);
  given.bytes.fill(0);
  await checkRight("after a change to a result");
  const larger = new Uint8Array(library.bytes.length + 14);
  larger.set(library.bytes, 7);
  const cut = await pslink.link([host, {bytes: larger.subarray(7, 7 + library.bytes.length)}]);
  checks.is("a part of an array", cut.done && same(cut.bytes, linked.bytes));
  const kinds = Array.from({length: 60}, (_, k) => ["map", "check", "list"][k % 3]), alone = {};
  for (const kind of ["map", "check", "list"]) alone[kind] = (await pslink.text(kind, files)).text;
  const found = await Promise.all(kinds.map((kind) => pslink.text(kind, files)));
  checks.is("calls at once", found.every(({text}, k) => text === alone[kinds[k]]));
}

for (const check of [checkMemory, checkStack, checkEngine, checkGrowth, checkMisuse, checkTypes,
       checkNames, checkApart])
  await check();
checks.end();
