// @ts-check
// Puzzles: boards with one move that keeps the gain, and it is not the greedy one. Nothing here knows of the page.
//
// A link names a puzzle by `puzzle=SEED,LEVEL,HARDNESS`, and a sheet of ten by `sheet=..`. The first digit of the
// hardness is how far the gain is, and the second how much the second best move throws away at least.

import { endGain, isEnded, legalPits, play } from "./rules.mjs";

/**
 * @typedef {import("./rules.mjs").Board} Board
 * @typedef {import("./level_file.mjs").Entry} Entry
 *
 * @typedef {object} Asked what a link names
 * @property {number} seed
 * @property {number} level the stones
 * @property {number} hardness two digits
 *
 * @typedef {{ pit: number, captured: number, value: number }} Choice a legal move and what it gains
 */

/** From which to which distance a digit leads. */
export const PLIES = { 1: [1, 5], 2: [6, 15], 3: [16, 30], 4: [31, Infinity] };
/** Up to this level each board that is a puzzle is found, and then some are drawn, as `awari boards` does. */
export const HIGHEST_GONE_OVER = 10;
export const LEAST_LEVEL = 3;
export const BOARDS_OF_A_SHEET = 10;
const HIGHEST_SEED = 4294967295;
const HIGHEST_LEVEL = 24;

// ---- links ----

/** @param {Asked} asked */
export const printAsked = ({ seed, level, hardness }, kind = "puzzle") => `${kind}=${seed},${level},${hardness}`;

/**
 * What a link names, and whether that is a `puzzle` or a `sheet`; null if it names none of them.
 * @returns {{ kind: string, asked: Asked } | null}
 */
export function parseAsked(text) {
  const [, kind, words] = /^(puzzle|sheet)=(.*)$/.exec(text.replaceAll(/%2c/gi, ",")) ?? [];
  if (!kind) return null;
  const numbers = words.split(",");
  if (numbers.length !== 3 || !numbers.every(word => /^(0|[1-9]\d{0,9})$/.test(word)))
    throw new Error(`A ${kind} is named by three numbers: ${kind}=SEED,LEVEL,HARDNESS`);
  const [seed, level, hardness] = numbers.map(Number);
  if (seed > HIGHEST_SEED) throw new Error(`A seed is at most ${HIGHEST_SEED}`);
  if (level < LEAST_LEVEL || level > HIGHEST_LEVEL)
    throw new Error(`A puzzle has ${LEAST_LEVEL} to ${HIGHEST_LEVEL} stones, and not ${level}`);
  if (!/^[1-4][1-9]$/.test(numbers[2])) throw new Error(`The hardness is 11 to 49, and not ${numbers[2]}`);
  return { kind, asked: { seed, level, hardness } };
}

/** @param {number} hardness */
export const pliesOf = hardness => PLIES[Math.floor(hardness / 10)];
/** @param {number} hardness */
export const marginOf = hardness => hardness % 10;

/** The words by which `awari boards` draws them, or null if it has none. */
export function wordsOf({ seed, level, hardness }, count) {
  if (level > HIGHEST_GONE_OVER || marginOf(hardness) > 1) return null;
  const [least, most] = pliesOf(hardness), distance = `${least}..${most === Infinity ? "" : most}`;
  const which = `--value 1.. --distance ${distance} --keep 1 --trap 1..`;
  return `awari boards FOLDER ${level} ${which} --random ${count} --seed ${seed}`;
}

// ---- which boards are puzzles ----

/**
 * Whether a board has a gain that is so far.
 * @param {Entry} entry
 */
export function isFar({ value, distance }, hardness) {
  const [least, most] = pliesOf(hardness);
  return value > 0 && distance >= least && distance <= most;
}

/** The move that captures most, and among equals the one that gains most. */
const greedyOf = moves => moves.reduce((best, move) =>
  move.captured > best.captured || (move.captured === best.captured && move.value > best.value) ? move : best);

/**
 * Whether one move keeps the value, the others throw away enough, and the greedy one is among those.
 * @param {number} value
 * @param {Choice[]} moves
 */
export function isTrap(value, moves, hardness) {
  if (moves.filter(move => move.value > value - marginOf(hardness)).length !== 1) return false;
  const greedy = greedyOf(moves);
  return greedy.captured > 0 && greedy.value < value;
}

/** Whether a board may be a puzzle, as far as the rules tell. */
export function mayBePuzzle(board) {
  const pits = legalPits(board);
  return pits.length > 1 && pits.some(pit => play(board, pit).captured > 0);
}

// ---- drawing ----

/** The number after this one, as in `awari boards --random`. */
const nextNumber = number => BigInt.asUintN(64, number * 6364136223846793005n + 1442695040888963407n);

/**
 * So many of these, in their order, as `awari boards --random` draws them.
 * @template T
 * @param {ArrayLike<T>} all
 * @returns {T[]}
 */
export function drawn(all, wanted, seed) {
  let number = BigInt(seed), left = all.length;
  return Array.from(all).filter(() => {
    number = nextNumber(number);
    const isDrawn = (number >> 32n) % BigInt(left) < BigInt(wanted);
    left -= 1;
    wanted -= Number(isDrawn);
    return isDrawn;
  });
}

/** The ranks that a seed leads to, one after the other: for levels that are too large to be gone over. */
export function* ranksOf(seed, boards) {
  for (let number = nextNumber(BigInt(seed)); ; number = nextNumber(number)) yield Number((number >> 32n) % BigInt(boards));
}

// ---- what came of one ----

/**
 * What South, who began, has gained.
 * @param {import("./game.mjs").State} state
 */
export function gainOf({ board, mover, captured }) {
  const left = isEnded(board) ? endGain(board) : 0;
  return captured[0] - captured[1] + (mover === 0 ? left : -left);
}

/**
 * What the moves of a board throw away: how much each, which keep the value, and the least beside those.
 * @param {number} value
 * @param {Choice[]} moves
 */
export function costsOf(value, moves) {
  const thrown = new Map(moves.map(move => [move.pit, value - move.value]));
  const right = moves.filter(move => move.value === value).map(({ pit }) => pit);
  const second = Math.min(...[...thrown.values()].filter(cost => cost > 0));
  return { thrown, right, second, greedy: greedyOf(moves).pit };
}
