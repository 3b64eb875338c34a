/** Refusals of the command line: in words, as JSON or CSV, and in sentences for a person. */
import { Refused } from "../awari.mjs";

export const HIGHEST_LEVEL = 24;

/** The names of numbers that the module does not answer. */
const NAMES = {
  10: "Line", 11: "Order", 12: "High", 13: "Short", 14: "Read", 56: "NotYet", 68: "Read", 82: "Open", 85: "Occupied",
};

/** What each rule of docs/FORMATS.md asks, as the end of a sentence. */
const ASKED = {
  V1: "a value is from -N to N for N stones, and a plan none or 0 to 5",
  V2: "if play has ended, the value is the mover's gain, the plan none, the distance 0",
  V3: "if play has not ended, the plan is a legal pit",
  V4: "no legal move gains more than the value",
  V5: "the plan gains the value",
  V6: "the distance is the least, and a won board's plan captures or leads to a smaller one",
  V7: "the limit is the greatest distance of the level",
};

/** Why something is refused: a number with its fields, and another refusal inside it. */
export class Refusal extends Error {
  constructor(number, fields = {}, inside) {
    super(`refused ${number}`);
    this.number = number;
    this.fields = fields;
    this.inside = inside;
  }

  get name() {
    return NAMES[this.number] ?? new Refused(this.number).kind;
  }

  /** The numbers, names and fields, the outer one first. */
  get parts() {
    const own = [this.number, this.name, ...Object.entries(this.fields).flat()];
    return this.inside ? [own, ...this.inside.parts] : [own];
  }

  get text() {
    return `refused ${this.parts.map(part => part.join(" ")).join(": ")}`;
  }

  get csv() {
    return ["refused", ...this.parts.flat()].join(",");
  }

  get members() {
    const inside = this.inside ? { inside: this.inside.members } : {};
    return { refused: this.number, name: this.name, ...this.fields, ...inside };
  }

  json(request) {
    return JSON.stringify({ request: "", ...this.members }).replace('""', `"${shown(request)}"`);
  }

  /** Its sentences, by the module's. */
  sentences(levels) {
    const own = this.fields.rule === "V7" ? "The limit of the level is not its greatest distance" : levels.sentence(this.number);
    const more = "levels" in this.fields ? `: ${whichLevels(this.fields.levels)}` : "";
    return [own + more, ...(this.inside?.sentences(levels) ?? [])];
  }
}

/** The first 200 bytes of a request. A byte that is no printable ASCII, a quote or a backslash is escaped. */
function shown(request) {
  const escaped = byte => `\\u00${byte.toString(16).padStart(2, "0")}`;
  return Array.from(Buffer.from(request).subarray(0, 200), byte =>
    byte >= 32 && byte < 127 && byte !== 34 && byte !== 92 ? String.fromCharCode(byte) : escaped(byte)).join("");
}

function whichLevels(count) {
  if (count === 0) return "there is no level";
  if (count > HIGHEST_LEVEL) return `no level is above ${HIGHEST_LEVEL}`;
  return `there are levels 0 to ${count - 1}, and none is above ${HIGHEST_LEVEL}`;
}

/** What the error stream says of a board that breaks a rule, or of a limit; `at` says where it stands. */
export function broken(levels, level, { rank, rule }, at) {
  const what = rule === "V7" ? "its limit" : word(levels.board(level, rank));
  return [`level ${level}: ${what}, ${at}`, `${rule} asks that ${ASKED[rule]}`];
}

/** The refusal of a level's file or of a board, as the module has it. */
export function refusalOf({ number, level, inner, rule, rank }) {
  const inside = inner ? new Refusal(inner, rule ? { rank, rule } : {}) : undefined;
  return new Refusal(number, level === undefined ? {} : { level }, inside);
}

/** The text of a board. */
export const word = board => `${board.slice(0, 6)}/${board.slice(6)}`;
