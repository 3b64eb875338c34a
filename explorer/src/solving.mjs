// @ts-check
// A puzzle that is being solved: what was played right, and what was thrown away. Nothing here knows of the page.

import { costsOf, gainOf } from "./puzzle.mjs";
import { isEnded } from "./rules.mjs";

/**
 * @typedef {import("./game.mjs").State} State
 * @typedef {import("./worths.mjs").Weighed} Weighed
 *
 * @typedef {"open" | "home" | "lost" | "round" | "shown"} Standing still open; the gain is home; a move threw it away;
 * play went round; or the solution was asked for
 */

export class Solving {
  /** @type {Standing} */
  standing = "open";
  /**
   * The last right board, and what its moves cost: what the solution is of.
   * @type {{ state: State, weighed: Weighed, costs: ReturnType<typeof costsOf>, pit: number | null } | null}
   */
  decided = null;
  /**
   * Where the solution begins, once it is over, and the line from there.
   * @type {State | null}
   */
  from = null;
  /** @type {import("./worths.mjs").Line | null} */
  line = null;

  /**
   * @param {import("./puzzle.mjs").Asked} asked
   * @param {State} start
   * @param {boolean} counts whether it counts for the streak: it is tried for the first time
   */
  constructor(asked, start, counts) {
    this.asked = asked;
    this.start = start;
    this.counts = counts;
    /** How many stones there are to gain, null until that is known. */
    this.value = null;
    /** How many moves were right. */
    this.rightMoves = 0;
  }

  get isOpen() { return this.standing === "open"; }
  /** How much of the gain is there already. */
  gained = 0;
  /** How many stones the wrong move threw away. */
  get thrown() { return this.decided?.costs.thrown.get(this.decided.pit) ?? 0; }

  /**
   * Hears what the board is worth that is shown, and its moves.
   * @param {State} state
   * @param {Weighed} weighed
   */
  weigh(state, weighed) {
    if (!this.isOpen || state.mover !== 0 || !weighed.entry || weighed.moves.some(({ fault }) => fault)) return;
    this.value ??= weighed.entry.value;
    if (weighed.moves.length) this.decided = { state, weighed, costs: costsOf(weighed.entry.value, weighed.moves), pit: null };
  }

  /** Whether a pit of this board may be judged: what its moves are worth is known. */
  canJudge(state) { return this.decided?.state === state; }

  /**
   * Judges what South plays. A move that throws something away ends it.
   * @param {number} pit
   */
  judge(pit) {
    this.decided.pit = pit;
    if (this.thrown > 0) this.standing = "lost";
    else this.rightMoves += 1;
  }

  /**
   * Looks whether the gain is home, after a move of either side.
   * @param {State} state
   * @param {boolean} isRepeated
   */
  settle(state, isRepeated) {
    if (!this.isOpen) return;
    this.gained = gainOf(state);
    if (this.gained >= this.value) this.standing = "home";
    else if (isRepeated || isEnded(state.board)) this.standing = "round";
  }

  show() { this.standing = "shown"; }
}
