// @ts-check
// The levels that are there, each of them built or verified by the proved code, or only read.

import {
  belowFaultOf, bytesOf, ENTRY_BYTES, entryAt, HIGHEST, LAST_PIT, namedLevels, nameOf, openLevel, placeOf,
} from "./level_file.mjs";
import { Fault, print, sizeOf, stonesOf } from "./rules.mjs";
import { plural } from "./words.mjs";

/**
 * @typedef {import("./rules.mjs").Board} Board
 * @typedef {import("./level_file.mjs").Entry} Entry
 * @typedef {import("./level_file.mjs").Level} Level
 * @typedef {import("./proved.mjs").Proved} Proved
 *
 * @typedef {"built" | "verified" | "unverified"} Standing how it is known what a level says
 * @typedef {import("./level_file.mjs").Source} Source
 * @typedef {{ number: number, bytes: number, limit: number, digest: string, below: string }} Listed what an index says
 * of a level
 *
 * @typedef {{ level?: Level, standing?: Standing, fault?: Error, again?: Source, isListed?: boolean,
 *   looking?: Promise<void> | null }} Slot a level, or why it is refused; what could not be read is tried again once a
 * board asks for it. Of a listed one nothing was read yet
 */

const notListed = number => new Fault(80, "Below", `${nameOf(number)} is another file than the index of its folder names`);

/** How many entries are kept that were read. */
const KEPT_ENTRIES = 20000;

export class Shelf {
  /** The entries that were read or are being read, by the words of their boards. */
  #kept = new Map();
  /** The levels that are being tried again, by their numbers. */
  #trying = new Map();
  /** Hears that a level has come that could not be read before. */
  came = () => {};

  /**
   * @param {Proved | null} proved the proved code, which knows the levels that were built or verified
   * @param {Slot[]} slots from level 0 up
   */
  constructor(proved, slots = []) {
    this.proved = proved;
    /** @type {(Slot | null)[]} */
    this.slots = Array.from({ length: HIGHEST + 1 }, (_, number) => slots[number] ?? null);
  }

  /**
   * The levels of these files. Those that are not among them are taken from `known`.
   * @param {import("./level_file.mjs").Source[]} files
   * @param {Proved | null} proved
   * @param {Slot[]} known
   */
  static async of(files, proved = null, known = []) {
    const shelf = new Shelf(proved, known);
    const named = namedLevels(files);
    await Promise.all([...named].map(async ([number, file]) => {
      shelf.slots[number] = await openLevel(file).then(
        level => ({ level, standing: "unverified" }), fault => ({ fault }));
    }));
    for (const number of [...named.keys()].sort((one, other) => one - other)) {
      const level = shelf.level(number);
      const fault = level && belowFaultOf(level, number, shelf.level(number - 1));
      if (fault) shelf.slots[number] = { fault };
    }
    return shelf;
  }

  /**
   * Takes the file of a level. If it could not be read, or can't be now, it is tried again once a board asks for it.
   * @param {number} number
   * @param {Source} source
   * @param {Error | null} fault why it could not be read
   */
  async take(number, source, fault = null) {
    this.slots[number] = fault ? { fault, again: source } : await this.#opened(number, source);
  }

  /**
   * Takes a level by what an index says of it. Its file is looked at once an entry is asked for.
   * @param {Source} file
   * @param {Listed} listed
   */
  list(file, { number, limit, digest, below }) {
    const level = { number, file, boards: sizeOf(number), limit, below, digest };
    this.slots[number] = { level, standing: "unverified", isListed: true };
  }

  /** Looks once whether the file of a listed level is the one that the index names. */
  async #look(number) {
    const slot = this.slots[number];
    if (!slot?.isListed) return;
    slot.looking ??= this.#compare(number, slot);
    await slot.looking;
  }

  async #compare(number, slot) {
    try {
      const found = await openLevel(slot.level.file), fault = belowFaultOf(found, number, this.level(number - 1));
      if (fault) throw fault;
      if (found.digest !== slot.level.digest || found.limit !== slot.level.limit) throw notListed(number);
      slot.isListed = false;
    } catch (fault) {
      slot.looking = null;
      if (!fault.isPassing) this.slots[number] = { fault };
      if (!fault.isPassing) this.came();
      throw fault;
    }
  }

  /** @returns {Promise<Slot>} */
  async #opened(number, source) {
    try {
      const level = await openLevel(source), fault = belowFaultOf(level, number, this.level(number - 1));
      return fault ? { fault } : { level, standing: "unverified" };
    } catch (fault) {
      return fault.isPassing ? { fault, again: source } : { fault };
    }
  }

  async #tryAgain(number, source) {
    const slot = await this.#opened(number, source);
    this.#trying.delete(number);
    this.slots[number] = slot;
    if (slot.level) this.came();
  }

  /** Whether a level is here. One of a server gives way to one that was built. */
  has(number) {
    const slot = this.slots[number];
    return Boolean(slot) && !slot.again && !slot.level?.file.isHosted;
  }

  level(number) { return this.slots[number]?.level ?? null; }
  fault(number) { return this.slots[number]?.fault ?? null; }
  standing(number) { return this.slots[number]?.standing ?? null; }
  get isEmpty() { return this.slots.every(slot => !slot); }
  get levels() { return this.slots.flatMap(slot => slot?.level ?? []); }
  /** The files that are refused, and those that could not be read. */
  get faults() { return this.slots.flatMap((slot, number) => slot?.fault ? [{ number, fault: slot.fault }] : []); }

  /** The levels that are not there and have one above them that is. */
  get gaps() {
    const top = this.slots.reduce((top, slot, number) => slot ? number : top, -1);
    return this.slots.flatMap((slot, number) => number < top && !slot ? [number] : []);
  }

  /** The greatest limit of the levels with at most so many stones. */
  limitTo(stones) {
    return Math.max(0, ...this.levels.filter(({ number }) => number <= stones).map(({ limit }) => limit));
  }

  /**
   * Whether the proved code knows what a board is worth.
   * @param {Board} board
   */
  knows(board) {
    const stones = stonesOf(board), standing = this.standing(stones);
    return (standing === "built" || standing === "verified") && stones < (this.proved?.length ?? 0);
  }

  /** Whether a server would have to be asked for the entry of a board, and was not yet. */
  isFar(board) {
    const level = this.level(stonesOf(board));
    return Boolean(level?.file.isHosted) && !this.knows(board) && !this.#kept.has(print(board));
  }

  /**
   * The entry of a board. Of a level that is not verified its six bytes are read.
   * @returns {Promise<Entry>}
   */
  async entry(board) {
    if (this.knows(board)) return this.proved.ask("entry", board);
    const stones = stonesOf(board), again = this.slots[stones]?.again;
    if (again && !this.#trying.has(stones)) this.#trying.set(stones, this.#tryAgain(stones, again));
    await this.#trying.get(stones);
    const level = this.#levelOf(stones), word = print(board);
    if (!this.#kept.has(word)) {
      const reading = Promise.all([this.#read(level, board), this.#look(stones)]).then(([entry]) => entry);
      if (this.#kept.size >= KEPT_ENTRIES) this.#kept.clear();
      this.#kept.set(word, reading);
      reading.catch(() => this.#kept.delete(word));
    }
    return this.#kept.get(word);
  }

  async #read(level, board) {
    const { rank } = await this.proved.ask("rank", board);
    const bytes = await bytesOf(level.file, placeOf(rank), placeOf(rank + 1));
    if (bytes.length < ENTRY_BYTES)
      throw new Fault(60, "Truncated", `${level.file.name} ends before the entry of ${print(board)}`);
    const entry = entryAt(new DataView(bytes.buffer), 0);
    if (entry.plan !== null && entry.plan > LAST_PIT)
      throw new Fault(65, "EntryForm", `${level.file.name} has a plan ${entry.plan} at rank ${rank}`);
    return entry;
  }

  /** The level of the boards with so many stones, or why it is not there. */
  #levelOf(stones) {
    if (stones > HIGHEST)
      throw new Fault(59, "NotYet", `There are levels up to ${HIGHEST} stones, and this board has ${stones}`);
    const fault = this.fault(stones), level = this.level(stones);
    if (fault) throw fault;
    if (level) return level;
    throw new Fault(59, "NotYet",
      `${nameOf(stones)}, the level of the boards with ${plural(stones, "stone")}, is not there`);
  }
}
