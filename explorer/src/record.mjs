// @ts-check
// What was set up and played: a list of states, one of which is shown. Nothing here knows of the page.

import { stateAfter, stateOf, statesOf } from "./game.mjs";
import { areSame } from "./rules.mjs";

export class Record {
  /** @param {import("./rules.mjs").Board} board */
  constructor(board) { this.startAt(board); }

  startAt(board) {
    this.states = [stateOf(board, 0)];
    this.at = 0;
  }

  get now() { return this.states[this.at]; }
  get isFirst() { return this.at === 0; }
  get isLast() { return this.at === this.states.length - 1; }

  go(index) { this.at = Math.max(0, Math.min(index, this.states.length - 1)); }

  /** Puts a state behind the one that is shown. What was behind that is gone. */
  add(state) {
    this.states = [...this.states.slice(0, this.at + 1), state];
    this.at += 1;
  }

  play(pit) { this.add(stateAfter(this.now, pit)); }

  setUp(board, mover) {
    const isShown = areSame(board, this.now.board) && mover === this.now.mover && !this.now.move;
    if (!isShown) this.add(stateOf(board, mover));
  }

  /** The state from which the play that is shown began. */
  get start() {
    let index = this.at;
    while (this.states[index].move) index--;
    return index;
  }

  /** The last state of that play, which may lie behind the one that is shown. */
  get end() {
    let index = this.at;
    while (this.states[index + 1]?.move) index++;
    return index;
  }

  /**
   * The play that is shown, and how many of its moves led to what is shown.
   * @returns {import("./game.mjs").Game & { at: number }}
   */
  get game() {
    const { start, at } = this, { board, mover } = this.states[start];
    const pits = this.states.slice(start + 1, this.end + 1).map(({ move }) => move.pit);
    return { board, mover, pits, at: at - start };
  }

  /**
   * Shows a place of a game: where the record has it, and else in place of all that was there.
   * @param {import("./game.mjs").Game & { at: number }} game
   */
  open(game) {
    const starts = [this.start, ...this.states.keys()], start = starts.find(index => this.#holds(game, index));
    if (start === undefined) this.states = statesOf(game);
    this.at = (start ?? 0) + game.at;
  }

  /** Whether a game begins at a state, with more moves behind its own or not. */
  #holds({ board, mover, pits }, index) {
    const state = this.states[index];
    return !state.move && state.mover === mover && areSame(state.board, board)
      && pits.every((pit, ply) => this.states[index + 1 + ply]?.move?.pit === pit);
  }

  /** Whether the board was there before, with the same side to move and no capture since. */
  get isRepeated() {
    const { board, mover } = this.now;
    for (let index = this.at; this.states[index].move?.captured === 0; index--) {
      const before = this.states[index - 1];
      if (before.mover === mover && areSame(before.board, board)) return true;
    }
    return false;
  }
}
