// @ts-check
// What boards are worth, and how play goes on: by the proved code where it knows a level, and else by its file.

import { endGain, Fault, isEnded, legalPits, play, print, stonesOf } from "./rules.mjs";
import { LAST_PIT } from "./level_file.mjs";

/**
 * @typedef {import("./rules.mjs").Board} Board
 * @typedef {import("./level_file.mjs").Entry} Entry
 * @typedef {import("./shelf.mjs").Shelf} Shelf
 *
 * @typedef {object} Worth what a move gains
 * @property {number} value
 * @property {number} distance
 * @property {boolean} isPlan
 * @property {Error} [fault] why that is not known
 *
 * @typedef {object} Weighed
 * @property {Board} board
 * @property {Entry | null} entry
 * @property {Error | null} fault why there is no entry
 * @property {(import("./rules.mjs").Move & Worth)[]} moves
 * @property {string | null} broken the first rule that the entry breaks beside its moves
 * @property {boolean} isProved whether the proved code says all this
 *
 * @typedef {object} Line the play by the plans of both sides
 * @property {number} value of the board from which it starts
 * @property {{ pit: number, captured: number }[]} plies
 * @property {boolean} ended whether play ends with it
 * @property {number | null} repeats the ply after which the same pits come for ever
 * @property {number} outcome what the mover gains by it
 * @property {boolean} [isGrowing] whether more plies are to come
 */

/**
 * Whether something of a board is not known.
 * @param {Weighed | null} weighed
 */
export const hasFault = weighed => Boolean(weighed && (weighed.fault || weighed.moves.some(({ fault }) => fault)));

/**
 * The entry of a board, and its moves with their worths. A fault stands in the place of what can't be read.
 * @param {Shelf} shelf
 * @param {Board} board
 * @returns {Promise<Weighed>}
 */
export const weigh = (shelf, board) => shelf.knows(board) ? told(shelf, board) : read(shelf, board);

async function told({ proved }, board) {
  const { entry, moves } = await proved.ask("weigh", board);
  const withWorths = moves.map(({ pit, value, distance }) =>
    ({ ...play(board, pit), value, distance, isPlan: entry.plan === pit }));
  return { board, entry, fault: null, moves: withWorths, broken: null, isProved: true };
}

// ---- levels that are not verified ----

async function read(shelf, board) {
  const [{ entry = null, fault = null }, ...moves] = await Promise.all([
    shelf.entry(board).then(entry => ({ entry }), fault => ({ fault })),
    ...legalPits(board).map(pit => withWorth(shelf, play(board, pit))),
  ]);
  for (const move of moves) move.isPlan = entry?.plan === move.pit;
  const canJudge = entry && !moves.some(move => move.fault);
  return { board, entry, fault, moves, broken: canJudge ? brokenRule(board, entry, moves) : null, isProved: false };
}

const withWorth = (shelf, move) =>
  shelf.entry(move.next).then(entry => worthOf(move, entry), fault => ({ ...move, fault }));

/** A move with what it gains, by the entry of the board that it leaves. */
export function worthOf(move, entry) {
  const value = move.captured - entry.value;
  const plies = move.captured > 0 ? 1 : 1 + entry.distance;
  return { ...move, value, plies, distance: value === 0 ? 0 : plies };
}

/** The first of the rules V1 to V6 of docs/FORMATS.md that an entry breaks beside its board's moves, or null. */
export function brokenRule(board, { value, plan, distance }, moves) {
  if (Math.abs(value) > stonesOf(board) || (plan !== null && plan > LAST_PIT)) return "V1";
  if (moves.length === 0) return value === endGain(board) && plan === null && distance === 0 ? null : "V2";
  const planned = moves.find(move => move.pit === plan);
  if (!planned) return "V3";
  if (moves.some(move => move.value > value)) return "V4";
  if (planned.value !== value) return "V5";
  return isDistance(distance, value, planned, moves) ? null : "V6";
}

function isDistance(distance, value, planned, moves) {
  if (value === 0) return distance === 0;
  if (value < 0) return distance === Math.max(...moves.map(move => move.plies));
  const gaining = moves.filter(move => move.value === value);
  const planComesNearer = planned.captured > 0 || planned.plies - 1 < distance;
  return distance === Math.min(...gaining.map(move => move.plies)) && planComesNearer;
}

// ---- lines ----

/**
 * The play from a board in which both sides follow the plans, as `awari line` prints it. It ends at the first
 * board that its mover has seen before, since from there on the same pits come for ever. `repeats` is the ply
 * after which that stood, as `awari line --plies` tells it.
 * @param {Shelf} shelf
 * @param {Board} board
 * @param {(plies: Line["plies"]) => boolean} goOn hears each ply of a level that is read, and says whether more are wanted
 * @returns {Promise<Line>}
 */
export async function bestLine(shelf, board, goOn = () => true) {
  if (shelf.knows(board)) {
    const { moves, outcome } = await shelf.proved.ask("line", board);
    return { ...await walk(board, async (_, ply) => moves[ply] ?? null, () => true), value: outcome, outcome };
  }
  const { value } = await shelf.entry(board), limit = shelf.limitTo(stonesOf(board));
  return { ...await walk(board, (at, _, quiet) => quiet > limit ? null : planOf(shelf, at), goOn), value };
}

/** A server is asked for the entries of a board's moves together with its own, so that two plies come at once. */
async function planOf(shelf, board) {
  const isFar = shelf.isFar(board), asked = shelf.entry(board);
  if (isFar) for (const pit of legalPits(board)) shelf.entry(play(board, pit).next).catch(() => {});
  const { plan } = await asked;
  if (plan === null)
    throw new Fault(83, "Verify", `The entry of ${print(board)} names no plan, and play has not ended`);
  return plan;
}

/** Plays what `pitAt` gives for a board, a ply and how many plies captured nothing, up to null or as long as wanted. */
async function walk(board, pitAt, goOn) {
  const plies = [], met = new Map();
  let running = 0, side = 1, quiet = 0, repeats = null;
  while (!isEnded(board) && repeats === null) {
    const pit = await pitAt(board, plies.length, quiet);
    if (pit === null || !goOn(plies)) break;
    met.set(print(board), plies.length);
    const { captured, next } = play(board, pit);
    plies.push({ pit, captured });
    running += side * captured;
    quiet = captured > 0 ? 0 : quiet + 1;
    board = next;
    side = -side;
    repeats = met.get(print(board)) ?? null;
  }
  const outcome = running + (isEnded(board) ? side * endGain(board) : 0);
  return { plies, ended: isEnded(board), repeats, outcome };
}
