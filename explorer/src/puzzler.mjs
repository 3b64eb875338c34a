// @ts-check
// Draws puzzles from the levels that are there. Nothing here knows of elements.

import {
  BOARDS_OF_A_SHEET, drawn, HIGHEST_GONE_OVER, isFar, isTrap, marginOf, mayBePuzzle, pliesOf, ranksOf,
} from "./puzzle.mjs";
import { sizeOf } from "./rules.mjs";
import { bestLine, weigh } from "./worths.mjs";
import { plies, plural } from "./words.mjs";

/**
 * @typedef {import("./puzzle.mjs").Asked} Asked
 * @typedef {import("./rules.mjs").Board} Board
 * @typedef {import("./worths.mjs").Weighed} Weighed
 */

/** So many boards are tried at once, and so many in all, of a level that is not gone over. */
const TRIED_AT_ONCE = 24, MOST_TRIED = 6000;

export class Puzzler {
  /** The puzzles of a level, by its number and the hardness. */
  #found = new Map();

  /** @param {import("./library.mjs").Library} library */
  constructor(library) { this.library = library; }

  /**
   * So many puzzles, or fewer if there are no more. A link gives the same everywhere.
   * @param {Asked} asked
   * @param {(text: string) => void} told hears what it waits for
   * @returns {Promise<Board[]>}
   */
  async draw(asked, count, told) {
    await this.library.begun;
    const isGoneOver = asked.level <= HIGHEST_GONE_OVER;
    const boards = isGoneOver ? await this.#drawn(asked, count, told) : await this.#tried(asked, count, told);
    if (boards.length === 0) throw new Error(whyNone(asked, isGoneOver));
    return boards;
  }

  // ---- levels that are gone over ----

  async #drawn({ seed, level, hardness }, count, told) {
    const { library } = this;
    if (library.length <= level) {
      told(`Building levels to ${level}…`);
      await library.settled;
      await library.build(level);
    }
    if (library.length <= level) throw new Error(library.notice ?? `Level ${level} is not built yet`);
    const ranks = await this.#ranks(level, hardness, told);
    return Promise.all(drawn(ranks, count, seed).map(rank => library.proved.ask("board", level, rank)));
  }

  /** All puzzles of a level. They are found once. */
  async #ranks(level, hardness, told) {
    const name = `${level} ${hardness}`, all = sizeOf(level);
    if (!this.#found.has(name)) {
      const tell = done => told(`Looking at level ${level}: ${Math.round(100 * done / all)}%…`);
      this.#found.set(name, await this.library.proved.askTelling(tell, "puzzles", level, hardness));
    }
    return this.#found.get(name);
  }

  // ---- larger levels ----

  async #tried({ seed, level, hardness }, count, told) {
    await this.library.hosting;
    const { shelf, proved } = this.library, ranks = ranksOf(seed, sizeOf(level)), boards = [];
    if (!shelf.level(level)) throw new Error(shelf.fault(level)?.message ?? `Level ${level} is not here. Build it, or open it`);
    for (let tried = 0; tried < MOST_TRIED && boards.length < count; tried += TRIED_AT_ONCE) {
      if (tried > 0) told(`Tried ${tried} boards…`);
      const some = Array.from({ length: TRIED_AT_ONCE }, () => ranks.next().value);
      const all = await Promise.all(some.map(rank => proved.ask("board", level, rank)));
      const fit = await Promise.all(all.map(board => this.#fits(shelf, board, hardness)));
      boards.push(...all.filter((_, at) => fit[at]));
    }
    return boards.slice(0, count);
  }

  /** Little is asked for: the entry of a board, and those of its moves only if that is far enough. */
  async #fits(shelf, board, hardness) {
    if (!mayBePuzzle(board) || !isFar(await shelf.entry(board), hardness)) return false;
    const { entry, moves, fault } = await weigh(shelf, board), unknown = fault ?? moves.find(move => move.fault)?.fault;
    if (unknown) throw unknown;
    return isTrap(entry.value, moves, hardness);
  }

  // ---- a sheet ----

  /**
   * A sheet of puzzles, each with what its moves are worth, and its line.
   * @param {Asked} asked
   * @param {(text: string) => void} told
   */
  async sheet(asked, told) {
    const boards = await this.draw(asked, BOARDS_OF_A_SHEET, told), { shelf } = this.library;
    return Promise.all(boards.map(async board =>
      ({ board, weighed: await weigh(shelf, board), line: await bestLine(shelf, board) })));
  }
}

function whyNone({ level, hardness }, isGoneOver) {
  const [least, most] = pliesOf(hardness), far = most === Infinity ? `${plies(least)} or more` : `${least} to ${plies(most)}`;
  const which = `with a gain within ${far} that all moves but one throw away by ${plural(marginOf(hardness), "stone")} or more`;
  const none = isGoneOver ? `Level ${level} has no board` : `Of ${MOST_TRIED} boards of level ${level} there is none`;
  return `${none} ${which}. Choose more stones, or other plies`;
}
