/** Tables as text, as docs/FORMATS.md has them: made of files, and made files again to be judged. */
import { createHash } from "node:crypto";
import { HIGHEST_LEVEL, Refusal } from "./refusals.mjs";

const HEADER_BYTES = 52, ENTRY_BYTES = 6, DIGEST_BYTES = 32, NO_PLAN = 255;
const HEADER = /^level (0|[1-9]\d{0,2}) limit (0|[1-9]\d{0,9})$/;
const ENTRY = /^(-?[1-9]\d{0,2}|0) ([0-5]|-) (0|[1-9]\d{0,9})$/;
const MOST_NUMBER = 4294967295;

// ---- files

/** What an entry of a file says. */
export function entryOf(file, rank) {
  const at = HEADER_BYTES + ENTRY_BYTES * rank, plan = file[at + 1];
  return { value: file.readInt8(at), plan: plan === NO_PLAN ? null : plan, distance: file.readUInt32BE(at + 2) };
}

export const limitOf = file => file.readUInt32BE(16);
export const countOf = file => (file.length - HEADER_BYTES - DIGEST_BYTES) / ENTRY_BYTES;
export const digestOf = file => file.subarray(file.length - DIGEST_BYTES);
export const placeOf = rank => HEADER_BYTES + ENTRY_BYTES * rank;

/** A file without its digest, whose entries are to come. */
function begun(level, limit, size, below) {
  const file = Buffer.alloc(HEADER_BYTES + ENTRY_BYTES * size + DIGEST_BYTES);
  file.write("AWDB", "latin1");
  file[5] = 2;
  file[6] = level;
  file.writeUInt32BE(size, 12);
  file.writeUInt32BE(limit, 16);
  below.copy(file, 20);
  return file;
}

function put(file, rank, [, value, plan, distance]) {
  const at = placeOf(rank);
  file.writeInt8(Number(value), at);
  file[at + 1] = plan === "-" ? NO_PLAN : Number(plan);
  file.writeUInt32BE(Number(distance), at + 2);
}

function seal(file) {
  createHash("sha256").update(file.subarray(0, -DIGEST_BYTES)).digest().copy(file, file.length - DIGEST_BYTES);
}

// ---- texts

/** The lines of a text, one by one. The last has to end with a line feed. */
class Lines {
  #text;
  #at = 0;
  number = 0;

  constructor(text) {
    this.#text = text;
  }

  get isAtEnd() {
    return this.#at === this.#text.length;
  }

  /** The next line, which has to match this. It is refused as 13 or 10. */
  next(form) {
    const end = this.#text.indexOf(10, this.#at);
    if (end < 0) throw new Refusal(13);
    const line = this.#text.toString("latin1", this.#at, end);
    this.#at = end + 1;
    this.number += 1;
    const found = form.exec(line);
    if (!found || !isInRange(found)) throw this.refused(10);
    return found;
  }

  refused(number) {
    return new Refusal(number, { line: this.number });
  }
}

/** Whether the numbers of a line are those that it may have. */
function isInRange(found) {
  if (found.length === 3) return Number(found[1]) <= 255 && Number(found[2]) <= MOST_NUMBER;
  const value = Number(found[1]);
  return value >= -128 && value <= 127 && Number(found[3]) <= MOST_NUMBER;
}

/** The limit of the next level's header. It is refused as 13, 10, 12 or 11. */
function header(lines, level) {
  const [, told, limit] = lines.next(HEADER);
  if (Number(told) > HIGHEST_LEVEL) throw lines.refused(12);
  if (Number(told) !== level) throw lines.refused(11);
  return Number(limit);
}

/**
 * The files of the levels of a text, one by one: each is judged before the next is read. It is refused as 10 to 13.
 * @param {Buffer} text
 * @param {(level: number) => number} size
 */
export function* filesOf(text, size) {
  const lines = new Lines(text);
  let below = Buffer.alloc(DIGEST_BYTES);
  for (let level = 0; !lines.isAtEnd; level++) {
    const count = size(Math.min(level, HIGHEST_LEVEL)), limit = header(lines, level), line = lines.number;
    const file = begun(level, limit, count, below);
    for (let rank = 0; rank < count; rank++) put(file, rank, lines.next(ENTRY));
    seal(file);
    below = digestOf(file);
    yield { level, limit, line, file };
  }
}
