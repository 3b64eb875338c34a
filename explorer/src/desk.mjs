// @ts-check
// What is asked of the proved code, in its thread. Nothing here knows of threads or of the page.

import { Levels } from "../../bindings/awari.mjs";
import { isFar, isTrap } from "./puzzle.mjs";

/** @typedef {import("../../bindings/awari.mjs").Board} Board */

/** The thread works so long before it gives way. */
const MILLISECONDS_OF_WORK = 40;
/** So many boards are gone over before it gives way. */
const BOARDS_OF_A_SLICE = 8192;

const bytesOfText = text => Uint8Array.from(atob(text), character => character.charCodeAt(0));

export class Desk {
  /** @type {Levels} */
  #levels;
  #isStopped = false;

  /** Starts the module, given in base64, and builds so many levels at once: their files. */
  async start(text, count) {
    this.#levels = await Levels.start(bytesOfText(text));
    return Array.from({ length: count }, () => this.#levels.build());
  }

  /** How many levels there are. */
  get length() { return this.#levels?.length ?? 0; }

  /**
   * Builds the next level in slices, and gives way now and then, so that boards are answered meanwhile.
   * @param {(boards: number) => void} told hears how many boards are done
   * @returns {Promise<Uint8Array | null>} its file, or null if it was stopped
   */
  async build(told) {
    this.#isStopped = false;
    this.#levels.begin();
    for (let isSettled = false; !isSettled; ) {
      const { boards, settled } = this.#spreadForAWhile();
      isSettled = settled;
      told(boards);
      await new Promise(next => setTimeout(next));
      if (this.#isStopped) return null;
    }
    return this.#levels.finish();
  }

  /** A slice ends with its distance, and many distances have few boards: there are slices until one would wait. */
  #spreadForAWhile() {
    const begun = performance.now();
    let told;
    do told = this.#levels.spread();
    while (!told.settled && performance.now() - begun < MILLISECONDS_OF_WORK);
    return told;
  }

  stop() { this.#isStopped = true; }

  /**
   * Goes over a level, and gives way now and then: the ranks of its boards that are puzzles of this hardness.
   * @param {number} level
   * @param {number} hardness
   * @param {(boards: number) => void} told hears how many boards are done
   */
  async puzzles(level, hardness, told) {
    const ranks = [], boards = this.#levels.size(level);
    for (let rank = 0; rank < boards; rank += BOARDS_OF_A_SLICE) {
      ranks.push(...this.#puzzlesIn(level, rank, Math.min(boards, rank + BOARDS_OF_A_SLICE), hardness));
      told(rank);
      await new Promise(next => setTimeout(next));
    }
    return ranks;
  }

  #puzzlesIn(level, from, to, hardness) {
    const ranks = [];
    for (let rank = from; rank < to; rank++) if (this.#isPuzzle(this.#levels.board(level, rank), hardness)) ranks.push(rank);
    return ranks;
  }

  #isPuzzle(board, hardness) {
    const entry = this.#levels.entry(board);
    if (!isFar(entry, hardness)) return false;
    const moves = this.#levels.moves(board).map(({ pit, captures, value }) => ({ pit, captured: captures, value }));
    return isTrap(entry.value, moves, hardness);
  }

  /**
   * Verifies a file, and puts its level on.
   * @param {Blob} file
   */
  async add(file) { this.#levels.add(new Uint8Array(await file.arrayBuffer())); }

  /** @param {Board} board */
  weigh(board) { return { entry: this.#levels.entry(board), moves: this.#levels.moves(board) }; }

  /** @param {Board} board */
  entry(board) { return this.#levels.entry(board); }

  /** @param {Board} board */
  line(board) { return this.#levels.line(board); }

  /** @param {Board} board */
  rank(board) { return this.#levels.rank(board); }

  /**
   * @param {number} level
   * @param {number} rank
   */
  board(level, rank) { return this.#levels.board(level, rank); }
}
