/**
 * The program in brief, for whoever has node 18 or later: `node bindings/awari.mjs COMMAND ..`. Its words, what it
 * prints and its statuses are the program's. What it says of boards and levels comes of the proved code of awari.wasm;
 * how that is read, printed and saved, tests alone show: tests/node/run.
 */
import { readFileSync, realpathSync, writeSync } from "node:fs";
import { fileURLToPath } from "node:url";
import { Levels, Refused } from "../awari.mjs";
import { DO } from "./commands.mjs";
import { Folder, said } from "./folder.mjs";
import { Refusal, refusalOf } from "./refusals.mjs";
import { NotUnderstood, understood } from "./words.mjs";

const OUTPUT = 1, ERRORS = 2;
/** Lines are written once they are so many bytes. */
const ENOUGH = 65536;

/** The output could not be written. */
class OutputLost extends Error {}

/** Writes all of a text, also where the other end is slow. */
function write(stream, text) {
  for (let bytes = Buffer.from(text); bytes.length; )
    try {
      bytes = bytes.subarray(writeSync(stream, bytes));
    } catch (error) {
      if (error.code !== "EAGAIN") throw error;
    }
}

/** One run of a command: its levels, and its streams. */
class Run {
  #lines = "";
  #remarks = [];

  constructor(levels) {
    this.levels = levels;
  }

  folder(name) {
    return new Folder(name, it => this.remark(it));
  }

  /** Prints a line. That of a build is written at once. */
  print(line, isUrgent = false) {
    this.#lines += `${line}\n`;
    if (isUrgent || this.#lines.length >= ENOUGH) this.flush();
  }

  flush() {
    const text = this.#lines;
    this.#lines = "";
    try {
      write(OUTPUT, text);
    } catch (error) {
      throw Object.assign(new OutputLost(), { beside: `standard output: ${said(error)}` });
    }
  }

  /** Keeps what stands beside the answers, which is told at the end. */
  remark(line) {
    this.#remarks.push(line);
  }

  /** Tells something on the error stream at once. */
  tell(line) {
    write(ERRORS, `${line}\n`);
  }

  tellRemarks() {
    for (const it of this.#remarks.splice(0)) this.tell(it);
  }

  input() {
    try {
      return readFileSync(0);
    } catch {
      throw new Refusal(14);
    }
  }
}

/** A refusal as an answer, in the form that is asked for, with its sentences. */
function refuse(run, refusal, { command, given, options }) {
  const request = [command, ...(["text", "counts"].includes(command) ? given.slice(1) : given.slice(1, 2))].filter(it => it !== undefined);
  run.print(options.json ? refusal.json(request.join(" ")) : options.csv ? refusal.csv : refusal.text);
  for (const it of [...refusal.sentences(run.levels), ...(refusal.beside ?? [])]) run.remark(it);
  return 1;
}

/** Does what the words say, and gives the status. */
function answer(run, asked) {
  try {
    return DO[asked.command](run, asked.given, asked.options) ?? 0;
  } catch (fault) {
    if (fault instanceof OutputLost) throw fault;
    if (fault instanceof Refused) return refuse(run, refusalOf(fault), asked);
    if (fault instanceof Refusal) return refuse(run, fault, asked);
    if (fault instanceof RangeError || fault.code === "ERR_FS_FILE_TOO_LARGE") return refuse(run, new Refusal(84), asked);
    throw fault;
  }
}

/**
 * Runs the program with these words, and gives the status.
 * @param {string[]} words
 */
export async function main(words) {
  const levels = await Levels.start(), run = new Run(levels);
  try {
    const version = `awari ${levels.version}, levels 0 to 24\nsources ${levels.sourceId}`;
    const status = answer(run, understood(words, version));
    run.flush();
    run.tellRemarks();
    return status;
  } catch (fault) {
    if (fault instanceof NotUnderstood) run.tell(fault.message);
    else if (fault instanceof OutputLost) run.tellRemarks(), run.tell(fault.beside);
    else throw fault;
    return fault instanceof NotUnderstood ? 2 : 1;
  }
}

/** Runs the program if node was started with the script of this address, and not with one that imports it. */
export async function start(address) {
  const [, script, ...words] = process.argv;
  if (realpathSync(script) === fileURLToPath(address)) process.exitCode = await main(words);
}
