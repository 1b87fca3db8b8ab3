// The module asks for nothing but memory, exports what pslink.mjs calls, and names no folder of the
// machine that it was built on. The numbers of pslink.mjs are those of pslink.h, and what it says
// of each fault is what the shared library says, which native.py wrote. Usage: module.mjs MODULE
// HEADER FAULTS
import {readFileSync} from "node:fs";
import {tmpdir} from "node:os";
import {LINKED_MAX, STATUSES, TEXTS, fault, load} from "../pslink.mjs";
import {Checks} from "./checks.mjs";

const checks = new Checks(),
      [module, header, faults] = process.argv.slice(2).map((file) => readFileSync(file));
const defined =
  Object.fromEntries([...header.toString().matchAll(/^#define PSLINK_(\w+) +(\d+)u?\b/gm)].map(
    ([, name, number]) => [name, Number(number)]));
const asInHeader = (name) => name.toUpperCase().replaceAll(" ", "_");

async function checkModule() {
  const compiled = await WebAssembly.compile(module),
        told = (all) =>
          all.map(({module: from, name, kind}) => [from, name, kind].filter(Boolean).join(" "))
            .sort();
  checks.same("what the module asks for", told(WebAssembly.Module.imports(compiled)),
    ["heap page_alloc function", "heap page_dealloc function"]);
  checks.same("what the module exports", told(WebAssembly.Module.exports(compiled)), [
    "__heap_base global", "memory memory", "pslink_fault_text_nonnull function",
    "pslink_link_nonnull function", "pslink_release_number function", "pslink_text_nonnull function"
  ]);
  checks.same("the release", await (await load(module)).release(), defined.RELEASE_NUMBER);
  for (const path of [process.cwd(), tmpdir(), "/tmp/", "/opt/", "/home/", "/root/"])
    checks.is(`the module names ${path}`, !module.includes(path));
}

function checkNumbers() {
  for (const [text, number] of Object.entries(TEXTS))
    checks.same(`the text ${text}`, number, defined[asInHeader(text)]);
  const statuses = ["DONE", "REFUSED", "MISUSE", "NO_MEMORY", "TOO_SMALL", "WRONG_NAMES"].map(
    (status) => [status, String(defined[status])]);
  checks.same("the statuses",
    Object.entries(STATUSES).map(([number, status]) => [asInHeader(status), number]),
    [...statuses, ["TRAPPED", "trapped"]]);
  checks.same("LINKED_MAX", LINKED_MAX, defined.LINKED_MAX);
}

function checkFaults() {
  const all = JSON.parse(faults),
        numbers = Object.keys(defined).filter(
          (name) => name.startsWith("FAULT_") && name !== "FAULT_TEXT_MAX");
  checks.same("how many faults there are", all.filter((it) => it !== null).length, numbers.length);
  all.forEach((wanted, number) => checks.same(`fault ${number}`, fault(number), wanted));
  for (const odd of [-1, 1.5, NaN, Infinity, "x", undefined, null, "length", 2 ** 32])
    checks.same(`fault ${odd}`, fault(odd), null);
}

await checkModule();
checkNumbers();
checkFaults();
checks.end();
