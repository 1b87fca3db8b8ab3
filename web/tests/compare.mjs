// Compares what the module answers with what native.py wrote of the same files: each field, the
// line of the fault and each byte of what is made; and what pslink.mjs gives beside the answer.
// Usage: compare.mjs MODULE ANSWERS [PART PARTS], of all sets of files or of one of so many parts
// of them, counted from 0
import {createHash} from "node:crypto";
import {createReadStream, readFileSync} from "node:fs";
import {createInterface} from "node:readline";
import {STATUSES, load} from "../pslink.mjs";
import {Checks, filesOf} from "./checks.mjs";

const MISUSE = 2;
const checks = new Checks();

/** What native.py tells of an answer; of none, why there is none. */
function told({answer, reason, fault = null, bytes = new Uint8Array()}) {
  if (answer === null) return [reason];
  const {
    status,
    fault: number,
    file,
    record,
    reference,
    slot,
    kind,
    about,
    segments,
    privateWords,
    blocks,
    warnings,
    size
  } = answer;
  const fields = [
    status, number, file, record, reference, slot, kind, about, segments, privateWords, blocks,
    warnings, size
  ];
  return [...fields, fault, createHash("sha256").update(bytes).digest("hex")];
}

/** What stands beside the answer is what the answer says. */
function checkBeside(what, result, encoding) {
  const {done, status, answer, bytes, fault} = result;
  checks.is(`${what}: the status`,
    status === STATUSES[answer?.status] && done === (answer.status === 0), status);
  checks.is(`${what}: the bytes`, done ? bytes.length === answer.size : bytes === undefined);
  checks.is(
    `${what}: the line of the fault`, (answer?.fault !== 0) === (fault !== undefined), fault);
  const text = encoding && done ? Buffer.from(bytes).toString(encoding) : undefined;
  checks.is(`${what}: the text`, result.text === text);
}

async function checkUnits(pslink, what, kind, files, text) {
  const {done, names} = await pslink.units(kind, files);
  checks.is(`${what}: the names`,
    done ? names.join("") === text && names.every((name) => name.length === 8) :
           text === undefined && names === undefined);
}

async function checkType(pslink, what, file, text) {
  const {done, contents, order} = await pslink.fileType(file);
  checks.is(`${what}: the type`,
    done && text === (contents === null && order === null ? "other\n" : `${contents} ${order}\n`));
}

async function checkAnswer(pslink, set, name, files) {
  const what = `${set.name}: ${name}`, [kind, form] = name.split(" ");
  // (names of units and the type of a file have no document)
  const isLink = kind === "link", isPlain = set.answers[`${kind} json`]?.[0] === MISUSE;
  const result =
    isLink ? await pslink.link(files) : await pslink.text(kind, files, {json: form === "json"});
  checks.same(what, told(result), set.answers[name]);
  checkBeside(what, result, isLink ? null : isPlain ? "latin1" : "utf8");
  if (!isPlain || form) return;
  if (kind === "type")
    await checkType(pslink, what, files[0], result.text);
  else
    await checkUnits(pslink, what, kind, files, result.text);
}

async function checkSet(pslink, set) {
  const files = filesOf(set);
  for (const name of Object.keys(set.answers)) await checkAnswer(pslink, set, name, files);
}

const [module, answers, part = 0, parts = 1] = process.argv.slice(2),
                                          pslink = await load(readFileSync(module));
let sets = 0, found = 0;
for await (const line of createInterface({input: createReadStream(answers), crlfDelay: Infinity})) {
  if (sets++ % parts !== Number(part)) continue;
  const set = JSON.parse(line);
  await checkSet(pslink, set);
  found += Object.keys(set.answers).length;
}
console.log(`${sets} sets of files, ${found} answers`);
checks.enough(sets);
checks.end();
