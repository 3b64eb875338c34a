// @ts-check
// A sheet of puzzles to be printed: ten boards, and on the next page their solutions.

import { byId, element } from "./elements.mjs";
import { costsOf, marginOf, pliesOf, printAsked, wordsOf } from "./puzzle.mjs";
import { print } from "./rules.mjs";
import { drawSmallBoard } from "./small_board.mjs";
import { plies, plural } from "./words.mjs";

/**
 * @typedef {{ board: import("./rules.mjs").Board, weighed: import("./worths.mjs").Weighed,
 *   line: import("./worths.mjs").Line }} Printed a puzzle, with what its moves are worth, and its line
 */

const NO_MARKS = { ring: () => "", chip: () => "" };

function makeBoard({ board, weighed: { entry } }, index) {
  const goal = `${index + 1}. South gains ${entry.value}, within ${plies(entry.distance)}`;
  return element("li", {}, element("figure", { class: "example" },
    drawSmallBoard(board, `Puzzle ${index + 1}`, NO_MARKS),
    element("figcaption", {}, element("b", {}, goal), element("span", {}, "Pit: ____"))));
}

function makeSolution({ board, weighed: { entry, moves }, line }) {
  const { right, second, greedy, thrown } = costsOf(entry.value, moves);
  const pits = line.plies.map(({ pit }) => pit).join(" ");
  return element("li", {},
    element("b", {}, `Pit ${right[0]}`), ` gains ${entry.value}. `,
    `Pit ${greedy}, which captures most, throws away ${thrown.get(greedy)}; the second best ${second}. `,
    element("span", { class: "soft" }, `The line: ${pits}${line.ended ? "." : " …"} `),
    element("code", {}, print(board)));
}

function wordsOfHardness(hardness) {
  const [least, most] = pliesOf(hardness), far = most === Infinity ? `${plies(least)} or more` : `${least} to ${plies(most)}`;
  return `a capture or the end within ${far}; the second best move throws away ${plural(marginOf(hardness), "stone")} or more`;
}

/**
 * @param {{ asked: import("./puzzle.mjs").Asked, puzzles: Printed[] }} sheet
 */
export function drawSheet({ asked, puzzles }) {
  const words = wordsOf(asked, puzzles.length);
  byId("sheet-title").textContent = `${plural(puzzles.length, "puzzle")} of ${plural(asked.level, "stone")}, sheet ${asked.seed}`;
  byId("sheet-which").textContent = `In each, one pit alone keeps what South gains, and another captures more: ${wordsOfHardness(asked.hardness)}.`;
  byId("sheet-boards").replaceChildren(...puzzles.map(makeBoard));
  byId("sheet-solutions").replaceChildren(...puzzles.map(makeSolution));
  byId("sheet-source").replaceChildren(
    "This sheet is ", element("code", {}, `#${printAsked(asked, "sheet")}`),
    ...(words ? [" of the explorer, and ", element("code", {}, words), " prints its boards."] : [" of the explorer."]));
}

/** Shows the sheet in the place of the page, or the page again. */
export function showSheet(isShown) {
  if (byId("sheet").hidden !== isShown) return;
  byId("sheet").hidden = !isShown;
  byId("page-grid").hidden = isShown;
  byId(isShown ? "print-sheet" : "sheet-button").focus();
}
