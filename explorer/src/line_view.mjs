// @ts-check
// The best line from the board that is shown. It grows as it comes, and a ply that has the keyboard keeps it.

import { element, refill } from "./elements.mjs";
import { makeLinePlies } from "./plies_view.mjs";
import { plies, SIDES, signed } from "./words.mjs";

/** @typedef {import("./session.mjs").Shown} Shown */

/** More plies of a line than this are counted, and not shown. */
const MOST_PLIES_SHOWN = 400;

export class LineView {
  /** What the list is of, and the list. */
  #state = null;
  #hasLetters = false;
  #list = null;

  /**
   * @param {HTMLElement} box
   * @param {{ follow: (plies: object[]) => void }} hands
   */
  constructor(box, hands) {
    this.box = box;
    this.hands = hands;
  }

  /**
   * While nothing has come, the line before stays, but faint; what was wrong with it goes.
   * @param {Shown} shown
   */
  draw(shown) {
    const line = /** @type {any} */ (shown.line), isWaiting = !line && shown.hasHints;
    this.box.setAttribute("aria-busy", String(isWaiting || Boolean(line?.isGrowing)));
    this.box.classList.toggle("waiting", isWaiting);
    if (isWaiting && this.#list) return;
    if (line && !line.fault) return this.#drawPlies(shown);
    this.#list = this.#state = null;
    const text = isWaiting ? "The line is being asked." : whyNoLine(shown);
    this.box.replaceChildren(element("p", { class: "small soft" }, text));
  }

  #drawPlies(shown) {
    const { line, state, hasLetters } = shown, list = line.plies.slice(0, MOST_PLIES_SHOWN);
    const isSame = state === this.#state && hasLetters === this.#hasLetters && this.#list.childElementCount <= list.length;
    if (!isSame) this.#list = element("ol", { class: "plies" });
    const how = { mover: state.mover, hasLetters, follow: this.hands.follow };
    this.#list.append(...makeLinePlies(list, how, this.#list.childElementCount));
    this.#list.hidden = list.length === 0;
    const told = [element("p", { class: "outcome" }, outcomeText(line, list.length, state.mover)), ...makeLineRemarks(line)];
    if (isSame) this.#list.nextElementSibling.replaceChildren(...told);
    else refill(this.box, [this.#list, element("div", {}, ...told)]);
    this.#state = state;
    this.#hasLetters = hasLetters;
  }
}

function whyNoLine({ line, weighed, hasHints }) {
  if (!hasHints) return "Hints are off.";
  return weighed?.fault ? "There is no line without the entry of this board." : `${line.fault.message}.`;
}

function outcomeText(line, shownPlies, mover) {
  if (line.isGrowing) return `${plies(line.plies.length)} so far.`;
  const gains = line.outcome === 0 ? "neither side gains"
    : `${SIDES[line.outcome > 0 ? mover : 1 - mover]} gains ${Math.abs(line.outcome)}`;
  const hidden = line.plies.length - shownPlies, more = hidden > 0 ? ` (${plies(hidden)} more)` : "";
  if (line.ended && line.plies.length === 0) return `Play has ended: ${gains}.`;
  if (line.ended) return `Play ends after ${plies(line.plies.length)}${more}: ${gains}.`;
  if (line.repeats !== null) return `From ply ${line.repeats + 1} on the play repeats for ever${more}: ${gains}.`;
  return `No capture comes any more${more}: ${gains}.`;
}

function makeLineRemarks({ outcome, value, isGrowing }) {
  if (isGrowing || outcome === value) return [];
  const text = `The plans come to ${signed(outcome)}, and the value is ${signed(value)}: the files are wrong.`;
  return [element("p", { class: "bad small", role: "alert" }, text)];
}
