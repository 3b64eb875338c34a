// @ts-check
// The card of puzzles: which one is wanted, what there is to do, what came of it, and the streak.

import { byId, element, refill } from "./elements.mjs";
import { makeLinePlies } from "./plies_view.mjs";
import { LEAST_LEVEL, marginOf } from "./puzzle.mjs";
import { wordsOfPuzzle } from "./verdict.mjs";

/** @typedef {import("./session.mjs").Shown} Shown */

const HIGHEST_SEED_DRAWN = 1_000_000;
const KINDS = { home: "right", lost: "wrong", round: "wrong", shown: "wrong" };

/** The puzzle that the fields ask for, by another seed each time. */
export function askedOfFields() {
  const level = Math.max(LEAST_LEVEL, Math.min(24, Math.floor(Number(byId("puzzle-level").value)) || LEAST_LEVEL));
  const hardness = Number(byId("puzzle-plies").value + byId("puzzle-margin").value);
  return { seed: Math.floor(Math.random() * HIGHEST_SEED_DRAWN), level, hardness };
}

/** Shows in the fields what a link asked for. */
function fillFields({ level, hardness }) {
  byId("puzzle-level").value = String(level);
  byId("puzzle-plies").value = String(Math.floor(hardness / 10));
  const margins = [...byId("puzzle-margin").options].map(({ value }) => value);
  if (margins.includes(String(marginOf(hardness)))) byId("puzzle-margin").value = String(marginOf(hardness));
}

export class PuzzleView {
  #drawn = null;

  /** @param {{ follow: (plies: object[]) => void }} hands */
  constructor(hands) { this.hands = hands; }

  /**
   * @param {Shown} shown
   * @param {import("./streak.mjs").Streak} streak
   */
  draw(shown, streak) {
    const { puzzle, puzzleTold } = shown;
    if (puzzle && puzzle !== this.#drawn) fillFields(puzzle.asked);
    this.#drawn = puzzle;
    const told = puzzleTold || (puzzle ? wordsOfPuzzle(shown) : "");
    byId("puzzle-told").textContent = told;
    byId("puzzle-hint").hidden = Boolean(told);
    byId("puzzle-told").hidden = !told;
    byId("puzzle-told").className = puzzleTold ? "status" : `status ${KINDS[puzzle?.standing] ?? ""}`;
    byId("puzzle-card").setAttribute("aria-busy", String(puzzleTold.endsWith("…")));
    this.#drawButtons(puzzle);
    byId("streak").textContent = streak.text;
    this.#drawLine(shown);
  }

  /** One of two is there. If the other had the keyboard, it gets that. */
  #drawButtons(puzzle) {
    const held = document.activeElement?.id, buttons = ["solution", "again"];
    byId("solution").hidden = !puzzle?.isOpen;
    byId("again").hidden = !puzzle || puzzle.isOpen;
    if (buttons.includes(held) && byId(held).hidden) byId(buttons.find(id => !byId(id).hidden) ?? "puzzle").focus();
  }

  #drawLine({ puzzle, hasLetters }) {
    const plies = puzzle?.line?.plies ?? [];
    byId("puzzle-line").hidden = plies.length === 0;
    if (plies.length === 0) return byId("puzzle-line").replaceChildren();
    refill(byId("puzzle-line"), [
      element("p", { class: "small soft" }, "The line of both sides’ best moves:"),
      element("ol", { class: "plies" }, ...makeLinePlies(plies, { mover: 0, hasLetters, follow: this.hands.follow })),
    ]);
  }
}
