/*
 * Serves the command line over node in one process, for scripts that run many commands: `node
 * serve.mjs serve STDOUT STDERR` reads commands, one a line and with tabs between the words, of
 * which the first is the folder that it goes to; it writes what each prints to these two files, and
 * prints its status.
 */

import {closeSync, openSync} from "node:fs";
import {resolve} from "node:path";
import {createInterface} from "node:readline";
import {main} from "../command.mjs";

const [outputPath, errorPath] = process.argv.slice(3).map((path) => resolve(path));

for await (const line of createInterface({input: process.stdin})) {
  const [folder, ...words] = line.split("\t"), output = openSync(outputPath, "w"),
                 error = openSync(errorPath, "w");
  process.chdir(folder);
  const status = await main(words, {output, error});
  closeSync(output);
  closeSync(error);
  console.log(status);
}
