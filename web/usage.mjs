/*
 * What `pslink volume` and `pslink picture` say of themselves: the help, and wrong usage, as the
 * program says it of its commands.
 */

/**
 * An argument of a command: a file, which is positional, or an option with a value.
 * @typedef {object} Argument
 * @property {string} id
 * @property {string} help
 * @property {boolean} [positional]
 * @property {boolean} [required]
 * @property {boolean} [many] whether a file may be given more than once
 * @property {string} [long] the name of an option
 * @property {string} [short] the letter of an option
 */

/**
 * A command, or a program, which has commands of its own.
 * @typedef {object} Command
 * @property {string} name
 * @property {string} about
 * @property {string} [ending] what the help ends with
 * @property {string} title its name after that of the program
 * @property {Argument[]} arguments
 * @property {Command[]} commands
 */

/** Why words ask for nothing: the message is all that standard error is told. */
export class WrongUsage extends Error {}

const INDENT = "  ";
const HELP_ROW = ["-h, --help", "Print help"];

/** A program and its commands, each with its whole name. */
export function whole({name, about, ending, commands}) {
  const own =
    commands.map((command) => ({...command, title: `${name} ${command.name}`, commands: []}));
  return {name, about, ending, title: name, commands: own, arguments: []};
}

/** How a message names an argument, as "--output <OUT>", "<HOST>" or "[NAME]". */
export function shownArgument({id, long, positional, required, many}) {
  if (!positional) return `--${long} <${id}>`;
  return `${required ? `<${id}>` : `[${id}]`}${many ? "..." : ""}`;
}

/** The usage of a command: its options, and then its files. */
function usageOf({title, arguments: all, commands}) {
  const options = all.filter(({positional}) => !positional),
        positionals = all.filter(({positional}) => positional);
  const parts = [
    title, ...options.map(({short, id}) => `-${short} <${id}>`), ...positionals.map(shownArgument)
  ];
  return [...parts, ...(commands.length ? ["<COMMAND>"] : [])].join(" ");
}

/** Wrong usage of a command: what is wrong, and its usage. */
export function wrongUsage(command, message) {
  return new WrongUsage(
    `error: ${message}\n\nUsage: ${usageOf(command)}\n\nFor more information, try '--help'.\n`);
}

/**
 * Wrong usage of a command that would write to a file that it reads.
 * @param {Command} command
 * @param {string} argument the argument whose value is wrong
 * @param {string} path its value
 * @param {{path: string, asNamed: string, asFile: string}} other the other file: what it is, where
 *   both have one path, and where they have two
 */
export function sameFile(command, argument, path, other) {
  const reason =
    path === other.path ? `named as ${other.asNamed} too` : `${other.asFile} '${other.path}'`;
  return wrongUsage(command, `invalid value '${path}' for '${argument}': it is ${reason}`);
}

/** The help of a command. */
export function helpOf(command) {
  const options = command.arguments.filter(({positional}) => !positional),
        positionals = command.arguments.filter(({positional}) => positional);
  const tables = [
    ["Commands", command.commands.map(({name, about}) => [name, about])],
    ["Arguments", positionals.map((argument) => [shownArgument(argument), argument.help])],
    [
      "Options",
      [
        ...options.map(
          (argument) => [`-${argument.short}, ${shownArgument(argument)}`, argument.help]),
        HELP_ROW
      ]
    ],
  ];
  const sections =
    tables.filter(([, rows]) => rows.length).map(([title, rows]) => `${title}:\n${table(rows)}`);
  const parts = [
    command.about, `Usage: ${usageOf(command)}`, ...sections,
    ...(command.ending ? [command.ending] : [])
  ];
  return `${parts.join("\n\n")}\n`;
}

/** Rows of two cells, of which the second ones are below each other. */
function table(rows) {
  const width = Math.max(...rows.map(([first]) => first.length));
  return rows.map(([first, second]) => `${INDENT}${first.padEnd(width)}${INDENT}${second}`)
    .join("\n");
}
