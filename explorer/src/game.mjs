// @ts-check
// A game: what was played from a board, what each move threw away, and its text, as `awari judge` takes it.
// Nothing here knows of files or of the page.

import { parse, play, print, refusalOf } from "./rules.mjs";

/**
 * @typedef {import("./rules.mjs").Board} Board
 *
 * @typedef {object} State
 * @property {Board} board as its mover sees it
 * @property {number} mover whose move it is: 0 South, 1 North
 * @property {number[]} captured what each side has captured
 * @property {import("./rules.mjs").Move | null} move the move that led here, null if the board was set up
 *
 * @typedef {object} Game
 * @property {Board} board the first, as its mover sees it
 * @property {number} mover who moves first
 * @property {number[]} pits what was played in turn
 *
 * @typedef {object} Toll what a move cost its mover
 * @property {number} before what the board was worth
 * @property {number} after what it is worth by this move
 * @property {number} thrown how much less that is
 */

/** The greatest that `awari judge` takes: by it only the end of play is an outcome. */
const GREATEST_LIMIT = 4294967295;

/** A move of a game that is refused, and which one that is, from 1 on. */
export class MoveFault extends Error {
  constructor(refused, at) {
    super(`Move ${at}: ${refused.message}`);
    this.number = refused.number;
    this.fault = refused.fault;
    this.at = at;
  }
}

/**
 * @param {Board} board
 * @param {number} mover
 * @returns {State}
 */
export const stateOf = (board, mover) => ({ board, mover, captured: [0, 0], move: null });

/**
 * @param {State} state
 * @param {number} pit
 * @returns {State}
 */
export function stateAfter(state, pit) {
  const move = play(state.board, pit), captured = [...state.captured];
  captured[state.mover] += move.captured;
  return { board: move.next, mover: 1 - state.mover, captured, move };
}

/**
 * The states of a game, from its first board on. It is refused for the first move that can't be played.
 * @param {Game} game
 */
export function statesOf({ board, mover, pits }) {
  const states = [stateOf(board, mover)];
  for (const [index, pit] of pits.entries()) {
    const refused = refusalOf(states[index].board, pit);
    if (refused) throw new MoveFault(refused, index + 1);
    states.push(stateAfter(states[index], pit));
  }
  return states;
}

// ---- what was thrown away ----

/**
 * What each move of these states cost. Where a worth is not known, it is null.
 * @param {State[]} states
 * @param {(board: Board) => Promise<number | null>} valueOf
 * @returns {Promise<(Toll | null)[]>}
 */
export async function tollsOf(states, valueOf) {
  const values = await Promise.all(states.map(({ board }) => valueOf(board)));
  return states.slice(1).map(({ move }, index) => {
    const before = values[index], next = values[index + 1];
    if (before === null || next === null) return null;
    const after = move.captured - next;
    return { before, after, thrown: before - after };
  });
}

/**
 * How many stones each side threw away in all.
 * @param {State[]} states
 * @param {(Toll | null)[]} tolls
 */
export function thrownBySides(states, tolls) {
  const thrown = [0, 0];
  for (const [index, toll] of tolls.entries()) thrown[states[index].mover] += toll?.thrown ?? 0;
  return thrown;
}

// ---- text ----

/**
 * A game as the words of `awari judge`: its first board, a limit, and the moves. They don't say who is South.
 * @param {Game} game
 */
export const printGame = ({ board, pits }, limit = GREATEST_LIMIT) => [print(board), limit, ...pits].join(" ");

/**
 * Reads such words, with the name of the command or without it. A board alone is a game of no moves. South
 * moves first.
 * @returns {Game}
 */
export function parseGame(text) {
  const [board, limit, ...moves] = text.trim().replace(/^(\$\s+)?\S*awari\s+judge\s+/, "").split(/\s+/);
  const game = { board: parse(board), mover: 0, pits: pitsOf(moves.join("")) };
  if (limit !== undefined && !(/^\d+$/.test(limit) && Number(limit) <= GREATEST_LIMIT))
    throw new Error(`“${limit}” is no limit. That comes after the board, 0 to ${GREATEST_LIMIT}, and then the moves`);
  statesOf(game);
  return game;
}

/** The pits of moves, a digit each. What is none stays as it is, and is refused in its turn. */
export const pitsOf = moves => [...moves].map(move => /[0-9]/.test(move) ? Number(move) : move);
