/*
 * Reads the words of the commands that the program has not, `pslink volume` and `pslink picture`,
 * by node's reader of arguments.
 */

import {parseArgs} from "node:util";
import {helpOf, shownArgument, whole, wrongUsage} from "./usage.mjs";

/** @typedef {import("./usage.mjs").Command} Command */

/**
 * What words ask for: a text of the help, or a command with the values of the arguments that were
 * given.
 * @typedef {{help: string} | {command: Command, found: Map<string, string[]>}} Request
 */

/**
 * What the words after the name of a program ask for.
 * @param {object} program its name, its texts and its commands
 * @param {string[]} words
 * @returns {Request}
 * @throws {import("./usage.mjs").WrongUsage}
 */
export function parse(program, words) {
  const all = whole(program), [first, ...rest] = words;
  if (first === "help") return {help: helpOf(rest.length === 0 ? all : commandIn(all, rest[0]))};
  if (isHelp(first)) return {help: helpOf(all)};
  const command = commandIn(all, first);
  return rest.slice(0, endOf(rest)).some(isHelp) ? {help: helpOf(command)} :
                                                   {command, found: valuesOf(command, rest)};
}

/** The command of this name, as messages are made of it. */
export function commandOf(program, name) {
  return commandIn(whole(program), name);
}

function commandIn(all, name) {
  const command = all.commands.find((one) => one.name === name),
        names = all.commands.map((one) => one.name).join(", ");
  if (name === undefined)
    throw wrongUsage(all,
      `'${all.title}' requires a subcommand but one was not provided\n  [subcommands: ${names}]`);
  if (!command)
    throw wrongUsage(all, `unrecognized subcommand '${name}'\n  [subcommands: ${names}]`);
  return command;
}

const isHelp = (word) => word === "-h" || word === "--help";

// behind '--' no word is an option
const endOf = (words) => (words.includes("--") ? words.indexOf("--") : words.length);

/** The values of the arguments of a command, by their names. */
function valuesOf(command, words) {
  const files = command.arguments.filter(({positional}) => positional),
        options = command.arguments.filter(({positional}) => !positional);
  const {values, positionals} = read(command, options, words), found = new Map();
  files.forEach(({id, many}, at) => {
    const given = positionals.slice(at, many ? undefined : at + 1);
    if (given.length) found.set(id, given);
  });
  if (!files.at(-1)?.many && positionals.length > files.length)
    throw wrongUsage(command, `unexpected argument '${positionals[files.length]}' found`);
  for (const {id, long} of options)
    if (values[long] !== undefined) found.set(id, [values[long]]);
  const missing = command.arguments.filter(({id, required}) => required && !found.has(id));
  if (missing.length)
    throw wrongUsage(command,
      `the following required arguments were not provided:${
        missing.map((one) => `\n  ${shownArgument(one)}`).join("")}`);
  return found;
}

function read(command, options, words) {
  const known = Object.fromEntries(options.map(({long, short}) => [long, {type: "string", short}]));
  try {
    return parseArgs({args: words, options: known, allowPositionals: true});
  } catch (error) {
    if (!error.code?.startsWith("ERR_PARSE_ARGS_")) throw error;
    throw wrongUsage(command, error.message.split("\n")[0]);
  }
}
