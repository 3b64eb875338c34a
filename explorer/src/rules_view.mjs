// @ts-check
// The pictures of the rules: a board before a move and after its sowing, for each figure that names the two.

import { button, element } from "./elements.mjs";
import { parse, play, refusalOf } from "./rules.mjs";
import { drawSmallBoard } from "./small_board.mjs";

/** @typedef {import("./rules.mjs").Board} Board */

/** A board with its stones sown, and nothing captured yet. */
function sownBoard(board, { pit, falls }) {
  const sown = [...board];
  sown[pit] = 0;
  for (const fall of falls) sown[fall] += 1;
  return sown;
}

function drawBefore(board, { pit: origin }) {
  const isRefused = pit => pit < 6 && board[pit] > 0 && refusalOf(board, pit) !== null;
  return drawSmallBoard(board, "Before", {
    ring: pit => pit === origin ? "origin-ring" : isRefused(pit) ? "refused-ring" : "",
    chip: pit => isRefused(pit) ? "✕" : "",
  });
}

function drawSown(board, move) {
  const timesOf = pit => move.falls.filter(fall => fall === pit).length;
  return drawSmallBoard(sownBoard(board, move), "Sown", {
    ring: pit => move.taken.includes(pit) ? "taken-ring" : "",
    chip: pit => timesOf(pit) ? `+${timesOf(pit)}` : "",
  });
}

/**
 * Fills each figure that names a board and a pit. The button of a figure shows its board.
 * @param {NodeListOf<HTMLElement>} figures
 * @param {{ showBoard: (board: Board) => void }} hands
 */
export function drawExamples(figures, hands) {
  for (const figure of figures) {
    const board = parse(figure.dataset.board), move = play(board, Number(figure.dataset.pit));
    const arrow = element("span", { class: "arrow", "aria-hidden": "true" }, "→");
    const caption = figure.querySelector("figcaption");
    const named = { class: "button small-button", "aria-label": `Show on the board: ${caption.textContent}` };
    figure.prepend(element("div", { class: "steps" }, drawBefore(board, move), arrow, drawSown(board, move)));
    caption.append(" ", button(named, () => hands.showBoard(board), "Show on the board"));
  }
}
