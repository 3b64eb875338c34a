// @ts-check
// Small pictures of boards, as the rules and a sheet of puzzles have them.

import { drawing } from "./elements.mjs";
import { drawStones } from "./stones.mjs";

/**
 * @typedef {import("./rules.mjs").Board} Board
 *
 * @typedef {object} Marks what is marked at a pit
 * @property {(pit: number) => string} ring the class of a ring around it, or nothing
 * @property {(pit: number) => string} chip the text of a chip on it, or nothing
 */

/** In the units of a picture: the width of a pit, the margin, a bowl, and what stands where in the upper row. */
const PIT = 96, EDGE = 20, BOWL = 42;
const UPPER = { number: 28, bowl: 86, count: 150 };
const WIDTH = 2 * EDGE + 6 * PIT, HEIGHT = 346;

/**
 * @param {Board} board
 * @param {number} pit
 * @param {Marks} marks
 */
function drawPit(board, pit, { ring, chip }) {
  const isUpper = pit > 5, x = EDGE + PIT * ((isUpper ? 11 - pit : pit) + 0.5);
  const placeOf = part => isUpper ? UPPER[part] : HEIGHT - UPPER[part], y = placeOf("bowl");
  const write = (name, part, text) =>
    drawing("text", { class: name, x, y: placeOf(part), dy: ".35em" }, String(text));
  const stones = drawStones(board[pit], pit);
  for (const [name, value] of Object.entries({ x: x - BOWL, y: y - BOWL, width: 2 * BOWL, height: 2 * BOWL }))
    stones.setAttribute(name, String(value));
  return drawing("g", {},
    drawing("circle", { class: `hollow ${ring(pit)}`, cx: x, cy: y, r: BOWL }),
    stones,
    write("pit-number", "number", pit),
    write(board[pit] ? "pit-count" : "pit-count none", "count", board[pit]),
    chip(pit) !== "" && drawChip(x + BOWL - 8, y - BOWL + 12, chip(pit)));
}

const drawChip = (x, y, text) => drawing("g", { class: "chip" },
  drawing("rect", { x: x - 21, y: y - 15, width: 42, height: 30, rx: 11 }),
  drawing("text", { x, y, dy: ".35em" }, text));

/** What a voice reads of a picture. */
const wordsOfBoard = board =>
  `pits 0 to 5 hold ${board.slice(0, 6).join(", ")}, and pits 6 to 11 ${board.slice(6).join(", ")}`;

/**
 * @param {Board} board
 * @param {string} when
 * @param {Marks} marks
 */
export const drawSmallBoard = (board, when, marks) =>
  drawing("svg", {
    class: "small-board", viewBox: `0 0 ${WIDTH} ${HEIGHT}`,
    role: "img", "aria-label": `${when}: ${wordsOfBoard(board)}`,
  },
  drawing("rect", { class: "wood", x: 3, y: 3, width: WIDTH - 6, height: HEIGHT - 6, rx: 30 }),
  drawing("line", { class: "ridge", x1: EDGE, x2: WIDTH - EDGE, y1: HEIGHT / 2, y2: HEIGHT / 2 }),
  ...board.map((_, pit) => drawPit(board, pit, marks)));
