/** The words of the command line, as the program takes them: what each command is given, and its help. */

/** Words that are not understood, or that ask for help: what is told on the error stream, with status 2. */
export class NotUnderstood extends Error {}

const text = name => ({ name });
const number = (name, least, most) => ({ name, least, most });
const flag = about => ({ about });
const FOLDER = text("FOLDER"), BOARD = text("BOARD"), LEVEL = { ...number("LEVEL", 0, 24), isOptional: true };
const JSON_LINES = flag("Print JSON, an object a line");
const PROGRESS = flag("Print on the error stream how far it is");
const UNUSED = "It is taken, and changes nothing: one thread builds";

/** What each command is given, and what it prints. */
export const COMMANDS = {
  check: { about: "Checks tables from standard input", words: [], options: {},
    prints: "`yes levels M limit K`, or `no level L rank R rule Vx` of the first\nwrong board" },
  move: { about: "Plays a move, and prints the board after it", words: [BOARD, number("PIT", 0, 255)], options: {},
    prints: "`BOARD C`: the board as the other player sees it, and the stones\ncaptured" },
  judge: { about: "Plays moves, and prints how the play stands", options: {},
    words: [BOARD, number("LIMIT", 0, 4294967295), { ...text("MOVES"), isOptional: true, isMany: true }],
    prints: "`board BOARD`, `running R`, `quiet Q` and `outcome X`, each in a line" },
  build: { about: "Builds levels, and prints a line for each", words: [number("TOP", 0, 24)],
    options: {
      folder: { ...FOLDER, short: "f", about: "Begin above this folder's levels, and save each there" },
      progress: PROGRESS,
      threads: { ...number("N", 1, 64), short: "j", about: UNUSED },
      owners: { ...number("W", 0, 16), about: UNUSED },
      room: { ...number("R", 1, 256), about: UNUSED },
      sweeps: { ...number("S", 1, 1000), about: UNUSED },
    },
    prints: "`level L boards S won A even B lost C limit K` of each level.\nNo file is replaced. "
      + "node has no locks, so let one build work\nin a folder at a time" },
  verify: { about: "Verifies the levels in a folder", words: [FOLDER],
    options: {
      levels: { ...number("TOP", 0, 24), about: "Want just levels 0 to TOP" },
      digest: { ...text("HEX"), about: "Want this digest of the last file, of 64 digits" },
      progress: PROGRESS,
    },
    prints: "`level L ok limit K` of each level, and `levels M digest H`" },
  text: { about: "Prints the levels of a folder as the text that check reads", words: [FOLDER, LEVEL],
    options: { boards: flag("Put each board before its line; leave out the headers") },
    prints: "`level L limit K` of each level, and `V P D` of each board by rank" },
  ask: { about: "Looks a board up in the levels of a folder", words: [FOLDER, BOARD], options: { json: JSON_LINES },
    prints: "`V P D`: the value, the plan or -, and the distance" },
  moves: { about: "Says what each legal move of a board is worth", words: [FOLDER, BOARD],
    options: { replies: flag("Add the replies that each move leaves"), json: JSON_LINES },
    prints: "`pit P captures C value V distance D` of each legal pit, or `ended G`" },
  line: { about: "Plays the plans of both sides, from a board to the outcome", words: [FOLDER, BOARD],
    options: {
      longest: flag("Let the losing side hold out as long as it can"),
      plies: flag("Print a line for each ply"),
      json: JSON_LINES,
    },
    prints: "`value V`, `moves P P ..` and `outcome X`, each in a line" },
  rank: { about: "Prints the rank of a board in its level", words: [BOARD], options: {}, prints: "`L R`" },
  board: { about: "Prints the board of this rank in a level", options: {}, prints: "the board",
    words: [number("LEVEL", 0, 255), number("RANK", 0, 4294967295)] },
  counts: { about: "Counts the won, even and lost boards of each level", words: [FOLDER, LEVEL],
    options: { csv: flag("Print CSV, below the names of its columns"), json: JSON_LINES },
    prints: "the line of each level, as build does; with LEVEL also\n`value V boards N` and `distance D boards N`" },
};

const MORE = "\n\nFor more information, try '--help'.";
const wrong = about => new NotUnderstood(`error: ${about}${MORE}`);

// ---- help

const shown = ({ name, isOptional, isMany }) => (isOptional ? `[${name}]` : `<${name}>`) + (isMany ? "..." : "");

function usage(command) {
  const { words, options } = COMMANDS[command];
  const some = Object.keys(options).length ? ["[OPTIONS]"] : [];
  return ["Usage: awari", command, ...some, ...words.map(shown)].join(" ");
}

function optionLine([name, { short, about, name: value }]) {
  const letters = `${short ? `-${short}, ` : "    "}--${name}${value ? ` <${value}>` : ""}`;
  return `  ${letters.padEnd(23)} ${about}\n`;
}

function helpOf(command) {
  const { about, options, prints } = COMMANDS[command];
  const lines = Object.entries(options).map(optionLine).join("");
  return `${about}\n\n${usage(command)}\n\n${lines ? `Options:\n${lines}\n` : ""}It prints ${prints}.\n`
    + "docs/MANUAL.md shows it by an example, and docs/FORMATS.md lists the refusals.";
}

function helpOfAll() {
  const lines = Object.entries(COMMANDS).map(([name, { about }]) => `  ${name.padEnd(8)} ${about}\n`).join("");
  return `Awari endgame tables, by the proved code of awari.wasm\n\nUsage: awari <COMMAND>\n\nCommands:\n${lines}`
    + "  help     Print this message or the help of a command\n\n"
    + "Options:\n  -h, --help     Print help\n  -V, --version  Print version\n\n"
    + "The status is 0 if it is done, 1 if something was refused, and 2 if no command\nwas understood.";
}

// ---- words

/** The number that a word is, with a + or zeros in front. */
function numberOf({ least, most }, what, word) {
  const found = /^\+?\d+$/.test(word) ? BigInt(word.replace("+", "")) : null;
  if (word === "") throw wrong(`a value is required for '${what}' but none was supplied`);
  if (found === null) throw wrong(`invalid value '${word}' for '${what}': invalid digit found in string`);
  if (found < least || found > most)
    throw wrong(`invalid value '${word}' for '${what}': ${word.replace(/^\+/, "")} is not in ${least}..=${most}`);
  return Number(found);
}

/** What a word says: a number, or itself. A folder has a name. */
function valueOf(due, what, word) {
  if (due.least !== undefined) return numberOf(due, what, word);
  if (due.name === "FOLDER" && word === "") throw wrong(`a value is required for '${what}' but none was supplied`);
  if (due.name === "HEX" && !/^[0-9a-fA-F]{64}$/.test(word))
    throw wrong(`the value of '${what}' is not 64 hexadecimal digits`);
  return word;
}

const isOption = word => word.startsWith("-") && word !== "-";

/** The name of an option in these words, and the value that is joined to it. */
function optionIn(options, word) {
  const [, long, short, joined] = /^(?:--([^=]+)|-(.))(?:=?([^]*))$/.exec(word) ?? [];
  const name = long ?? Object.keys(options).find(it => options[it].short === short);
  const isJoined = long === undefined ? word.length > 2 : word.includes("=");
  return { name: name !== undefined && Object.hasOwn(options, name) ? name : undefined, joined: isJoined ? joined : undefined };
}

/** Reads an option, and its value from the words behind it. */
function readOption(options, word, rest, found) {
  const { name, joined } = optionIn(options, word), due = options[name];
  if (!due) throw wrong(`unexpected argument '${word}' found`);
  const what = `--${name}${due.name ? ` <${due.name}>` : ""}`;
  if (name in found) throw wrong(`the argument '${what}' cannot be used multiple times`);
  if (due.name === undefined) {
    if (joined !== undefined) throw wrong(`unexpected value '${joined}' for '${what}' found; no more were expected`);
    found[name] = true;
    return;
  }
  if (joined === undefined && (rest.length === 0 || isOption(rest[0])))
    throw wrong(`a value is required for '${what}' but none was supplied`);
  found[name] = valueOf(due, what, joined ?? rest.shift());
}

/** The words that are no options, as the command takes them. */
function given(words, plain) {
  const many = words.at(-1)?.isMany, lacks = words.slice(plain.length).filter(it => !it.isOptional);
  if (lacks.length) throw wrong(`the following required arguments were not provided:\n  ${lacks.map(shown).join("\n  ")}`);
  if (!many && plain.length > words.length) throw wrong(`unexpected argument '${plain[words.length]}' found`);
  const single = many ? words.slice(0, -1) : words;
  const values = single.map((due, at) => (at < plain.length ? valueOf(due, shown(due), plain[at]) : undefined));
  return many ? [...values, plain.slice(single.length)] : values;
}

/** Whether a word asks for this, as `-h` or `--help`. */
const asks = (words, ...names) => words.slice(0, (words.indexOf("--") + words.length + 1) % (words.length + 1)).some(it => names.includes(it));

/**
 * The command of these words, with what it is given and its options. It throws NotUnderstood.
 * @param {string[]} words
 * @param {string} version what is told of the version
 */
export function understood(words, version) {
  const lost = words.findIndex(it => it.includes("\ufffd"));
  if (lost >= 0) throw new NotUnderstood(`error: word ${lost + 1} is not UTF-8`);
  const [command, ...rest] = words;
  if (["-V", "--version"].includes(command)) throw new NotUnderstood(version);
  if (command === undefined || ["-h", "--help"].includes(command)) throw new NotUnderstood(helpOfAll());
  const asked = command === "help" ? rest[0] : command;
  if (asked === undefined) throw new NotUnderstood(helpOfAll());
  if (!Object.hasOwn(COMMANDS, asked)) throw wrong(`unrecognized subcommand '${asked}'`);
  if (command === "help" || asks(rest, "-h", "--help")) throw new NotUnderstood(helpOf(asked));
  const { words: due, options } = COMMANDS[command], found = {}, plain = [];
  while (rest.length) {
    const word = rest.shift();
    if (word === "--") plain.push(...rest.splice(0));
    else if (isOption(word)) readOption(options, word, rest, found);
    else plain.push(word);
  }
  return { command, given: given(due, plain), options: found };
}
