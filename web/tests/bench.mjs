// The times of a link and of a report on the samples: of the module's function by itself, and with
// all that pslink.mjs does around it. Usage: bench.mjs MODULE SAMPLES
import {readFileSync} from "node:fs";
import {load} from "../pslink.mjs";

const [module, samples] = process.argv.slice(2), FIRST = 3000, TIMES = 5000;
const files =
  ["host.code", "library.code"].map((name) => ({name, bytes: readFileSync(`${samples}/${name}`)}));
const pslink = await load(readFileSync(module));
const calls = {
  link: () => pslink.link(files),
  check: () => pslink.text("check", files)
};

/** How many microseconds each call takes, of so many. */
const each = (begun, times) =>
  `${(1000 * (performance.now() - begun) / times).toFixed(1)} microseconds`;

/** Has a function of the module called many times, where it is called once. */
function many(call) {
  return (...words) => {
    for (let k = 0; k < FIRST; k++) call(...words);
    const begun = performance.now();
    for (let k = 0; k < TIMES; k++) call(...words);
    console.log(`  the function of the module: ${each(begun, TIMES)}`);
    return call(...words);
  };
}

async function inOneInstance(call) {
  const {instantiate} = WebAssembly;
  WebAssembly.instantiate = async (...words) => {
    const {exports} = await instantiate(...words),
          {pslink_link_nonnull: link, pslink_text_nonnull: text} = exports;
    return {
      exports: {...exports, pslink_link_nonnull: many(link), pslink_text_nonnull: many(text)}
    };
  };
  await call();
  WebAssembly.instantiate = instantiate;
}

for (const [name, call] of Object.entries(calls)) {
  console.log(name);
  await inOneInstance(call);
  for (let k = 0; k < 300; k++) await call();
  const begun = performance.now();
  for (let k = 0; k < 1000; k++) await call();
  console.log(`  a call of pslink.mjs: ${each(begun, 1000)}`);
}
