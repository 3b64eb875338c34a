// @ts-check
// The card by which more levels come: how many are to be built, how far the work is, and what is kept and saved.

import { byId, element, turnOff } from "./elements.mjs";
import { fileSizeOf } from "./level_file.mjs";
import { HIGHEST_BUILT } from "./library.mjs";
import { sizeOf } from "./rules.mjs";
import { plural, sizeText } from "./words.mjs";

/** @typedef {import("./library.mjs").Library} Library */

/** Building a level takes about so many bytes of memory for each of its boards, its file among them. */
const BYTES_A_BOARD = 26;
/** Up to these a click builds, in turn. */
const STEPS = [8, 10, 12];

const sum = (from, to, of) => {
  let all = 0;
  for (let number = from; number <= to; number++) all += of(number);
  return all;
};

/** What building these levels costs, in words. */
function costOf(first, top) {
  if (first > HIGHEST_BUILT) return "This page builds no more levels: the program does.";
  if (top < first) return `Levels to ${first - 1} are here.`;
  const files = sum(first, top, fileSizeOf), memory = BYTES_A_BOARD * sizeOf(top);
  const boards = plural(sum(first, top, sizeOf), "board");
  return `${boards}, ${sizeText(files)} of files, some ${sizeText(memory)} of memory.`;
}

function timeText(seconds) {
  if (seconds === null) return "";
  if (seconds < 90) return `, some ${Math.max(1, Math.round(seconds))} s left`;
  return `, some ${Math.round(seconds / 60)} minutes left`;
}

export class MoreView {
  #suggested = 0;

  /** How many stones the field asks for. */
  get top() {
    const asked = Math.floor(Number(byId("build-top").value)) || 0;
    return Math.max(0, Math.min(HIGHEST_BUILT, asked));
  }

  /**
   * Draws what there is.
   * @param {Library} library
   */
  draw(library) {
    const { length, isKept } = library;
    if (!library.work) this.#suggest(STEPS.find(step => step >= length) ?? Math.min(length, HIGHEST_BUILT));
    this.drawClose(library);
    byId("save").hidden = byId("kept-told").hidden = byId("clear-kept").hidden = !library.hasBuilt;
    turnOff(byId("clear-kept"), !isKept);
    byId("kept-told").textContent = isKept
      ? `This browser keeps levels to ${length - 1}, ${sizeText(library.keptBytes)}, until you clear it.`
      : "This browser keeps nothing: save the levels as files.";
    this.drawCost(library);
    this.drawWork(library);
  }

  /**
   * Without a folder there is nothing to close. A button that has the keyboard stays until that goes on.
   * @param {Library} library
   */
  drawClose({ opened }) {
    const hasKeyboard = document.activeElement === byId("close");
    turnOff(byId("close"), opened === null);
    byId("close").hidden = opened === null && !hasKeyboard;
  }

  /** The field has the next step, unless a hand wrote something else. */
  #suggest(step) {
    if (this.#suggested === step) return;
    this.#suggested = step;
    byId("build-top").value = String(step);
  }

  /** @param {Library} library */
  drawCost({ length }) { byId("build-cost").textContent = costOf(length, this.top); }

  /** @param {Library} library */
  drawWork({ work, length }) {
    byId("build").textContent = work ? "Stop" : "Build";
    turnOff(byId("build"), !work && this.top < length);
    byId("build-top").readOnly = Boolean(work);
    byId("work").hidden = !work;
    if (!work) return byId("work").replaceChildren();
    const text = `${work.text}${timeText(work.secondsLeft)}`, bar = byId("work").querySelector("progress");
    if (!bar) byId("work").append(element("span", {}), element("progress", { max: "1", "aria-label": "Levels" }));
    byId("work").firstChild.textContent = text;
    byId("work").querySelector("progress").value = work.share;
  }
}
