// @ts-check
// The levels that are there, a button each, and a summary of one of them: its numbers, and two pictures.

import { button, byId, element } from "./elements.mjs";
import { isKnown } from "./known.mjs";
import { fileSizeOf, HIGHEST, nameOf } from "./level_file.mjs";
import { Picture } from "./pictures.mjs";
import { sizeOf } from "./rules.mjs";
import { countBoards } from "./scans.mjs";
import { Shelf } from "./shelf.mjs";
import { grouped, percent, plies, plural, sizeText } from "./words.mjs";

/** Levels up to this size are counted unasked, which takes less than half a second. */
const COUNTED_UNASKED_BYTES = 32e6;

/** What is said of a level by its standing. */
const STANDINGS = {
  built: ["Built here", " by the proved code: it is right for every board."],
  verified: ["Verified here", " by the proved code: it is right for every board."],
  unverified: ["Not verified.", " This page shows what the file says, right or wrong."],
};

export class LevelsView {
  /** `hands` has showRank(level, rank) and say(text). */
  constructor({ card, buttons, summary }, hands) {
    this.card = card;
    this.buttons = buttons;
    this.summary = summary;
    this.hands = hands;
    this.open(new Shelf(null));
  }

  /** Draws the levels anew, since some came or were verified. */
  update(shelf) {
    if (shelf !== this.shelf) this.open(shelf);
    this.redraw();
  }

  /** Takes another folder. What was begun on the one before is stopped. */
  open(shelf) {
    for (const job of this.jobs ?? []) job.control.abort();
    this.shelf = shelf;
    this.jobs = new Set();
    this.counts = new Map();
    this.pictures = new Map();
    /** Levels whose count was stopped. They are counted again only if a hand asks for it. */
    this.stopped = new Set();
    this.chosen = null;
    this.drawn = null;
  }

  // ---- which level ----

  /** Shows the level of a board, unless one was chosen by hand. */
  draw(stones) {
    this.stones = stones;
    if (this.number !== this.drawn) this.redraw();
  }

  /** A new board leads back to its own level. */
  forget() { this.chosen = null; }

  get number() { return this.chosen ?? Math.min(this.stones ?? 0, HIGHEST); }

  redraw() {
    const held = this.card.contains(document.activeElement) ? document.activeElement : null;
    this.drawn = this.number;
    this.buttons.replaceChildren(...this.shelf.slots.map((slot, number) => this.makeLevelButton(slot, number)));
    this.summary.replaceChildren(...this.makeSummary(this.number));
    this.giveFocusBack(held);
    this.countUnasked(this.number);
  }

  /** To what had it before: to itself if it is still there, or to what was made anew in its place. */
  giveFocusBack(held) {
    if (held?.isConnected) held.focus();
    else if (held?.id) byId(held.id)?.focus();
  }

  redrawIfShown(number) { if (number === this.drawn) this.redraw(); }

  makeLevelButton(slot, number) {
    const kind = slot?.level ? `here ${slot.standing}` : slot ? "wrong" : "missing";
    const standing = slot?.level && STANDINGS[slot.standing][0].replace(".", "").toLowerCase();
    const text = standing ?? slot?.fault?.message ?? "missing";
    const attributes = {
      id: `level-${number}`, class: kind, title: text,
      "aria-pressed": String(number === this.number), "aria-label": `Level ${number}: ${text}`,
    };
    const choose = () => {
      this.chosen = number;
      this.redraw();
    };
    return button(attributes, choose, String(number));
  }

  // ---- the summary ----

  makeSummary(number) {
    const level = this.shelf.level(number), fault = this.shelf.fault(number);
    if (fault) return [element("p", { class: "status wrong" }, `${fault.message}.`)];
    if (!level) return [this.makeMissing(number)];
    const counts = this.counts.get(number);
    return [
      element("div", { class: "head" },
        element("b", {}, `Level ${number}`),
        element("span", { class: "soft small" }, `${level.file.name}, ${sizeText(level.file.size)}`)),
      this.makeStanding(this.shelf.standing(number)),
      ...(counts?.level ? [this.makeBar(counts)] : []),
      this.makeNumbers(level, counts),
      ...this.makePictures(number, counts),
      this.makeActions(level, counts),
      ...this.makeRemarks(level, counts),
    ];
  }

  makeStanding(standing) {
    const [title, text] = STANDINGS[standing];
    return element("p", { id: "standing", class: `status ${standing}` }, element("b", {}, title), text);
  }

  makeMissing(number) {
    const boards = grouped(sizeOf(number));
    return element("p", { class: "status" },
      element("b", {}, nameOf(number)), " is not here. ",
      element("code", {}, `awari build ${number} --folder FOLDER`),
      ` makes it: ${boards} ${number === 0 ? "board" : "boards"}, ${sizeText(fileSizeOf(number))}.`);
  }

  makeBar(counts) {
    const parts = ["won", "even", "lost"];
    const text = parts.map(part => `${percent(counts[part], counts.level.boards)} ${part}`).join(", ");
    return element("div", { class: "bar", role: "img", "aria-label": text },
      ...parts.filter(part => counts[part] > 0).map(part => {
        const piece = element("span", { class: part });
        piece.style.flexGrow = counts[part];
        return piece;
      }));
  }

  makeNumbers(level, counts) {
    const row = (id, name, ...value) => [element("dt", {}, ...name), element("dd", { id: `level-${id}` }, ...value)];
    const part = (kind, name) => row(kind, [element("span", { class: `key ${kind}` }), `${name} for the mover`],
      grouped(counts[kind]), " ", element("span", { class: "soft" }, `(${percent(counts[kind], level.boards)})`));
    const parts = counts?.level ? [...part("won", "Won"), ...part("even", "Even"), ...part("lost", "Lost")] : [];
    return element("dl", {},
      ...row("boards", [`Boards with ${plural(level.number, "stone")}`], grouped(level.boards)),
      ...parts,
      ...row("limit", ["Greatest distance"], plies(level.limit)),
      ...row("digest", ["Digest"], element("code", {}, level.digest)),
      ...row("known", ["Which is"], isKnown(level) ? "that of docs/levels.csv" : element("b", { class: "bad" }, "not that of docs/levels.csv: the file is wrong")));
  }

  /** They are made once, so that the column that was chosen stays so. */
  makePictures(number, counts) {
    if (!counts?.level) return [];
    if (!this.pictures.has(number)) {
      const show = rank => this.hands.showRank(number, rank);
      this.pictures.set(number, [Picture.ofValues(counts, show), Picture.ofDistances(counts, show)]);
    }
    const figures = this.pictures.get(number).map(picture => picture.figure);
    return [element("div", { class: "pictures" }, ...figures)];
  }

  makeActions(level, counts) {
    const { number } = level;
    const isBusy = [...this.jobs].some(job => job.number === number);
    const show = () => this.hands.showRank(number, counts.firstOfGreatest);
    const action = (id, act, text) => button({ id, class: "button" }, act, text);
    const countText = `Count the boards (${sizeText(level.file.size)})`;
    return element("div", { class: "row actions" },
      !counts && !isBusy && action("count", () => this.count(number), countText),
      counts?.level && action("farthest", show, `Show a board of ${plies(counts.greatest)}`));
  }

  makeRemarks(level, counts) {
    const remarks = [];
    if (counts?.fault) remarks.push(element("p", { class: "status wrong" }, `${counts.fault.message}.`));
    if (counts?.level && counts.greatest !== level.limit)
      remarks.push(element("p", { class: "status wrong" },
        `The file gives ${level.limit} as its greatest distance, and an entry has ${counts.greatest} (rule V7).`));
    for (const job of this.jobs) if (job.number === level.number) remarks.push(this.makeProgress(job));
    return remarks;
  }

  // ---- work on whole files ----

  makeProgress(job) {
    const text = `${job.what} ${nameOf(job.number)}`;
    job.bar = element("progress", { max: "1", value: job.part, "aria-label": text });
    const stop = () => {
      job.control.abort();
      this.hands.say(`${text}: stopped`);
    };
    return element("div", { class: "status job" },
      element("span", {}, text), job.bar,
      button({ id: `stop-${job.what.toLowerCase()}`, class: "button small-button" }, stop, "Stop"));
  }

  /** Does work that can be stopped. Null comes of it if it was, and a fault of what can't be read. */
  async run(what, number, control, work) {
    const job = { what, number, control, part: 0 };
    const told = part => {
      job.part = part;
      if (job.bar) job.bar.value = part;
    };
    this.jobs.add(job);
    this.redrawIfShown(number);
    const found = await work(this.shelf.level(number), told, control.signal).catch(fault => ({ fault }));
    this.jobs.delete(job);
    return control.signal.aborted ? null : found;
  }

  countUnasked(number) {
    const level = this.shelf.level(number), isBusy = [...this.jobs].some(job => job.number === number);
    const isWanted = level && !this.counts.has(number) && !this.stopped.has(number);
    if (isWanted && !isBusy && !level.file.isHosted && level.file.size <= COUNTED_UNASKED_BYTES) this.count(number);
  }

  async count(number) {
    const { shelf } = this;
    const counts = await this.run("Counting", number, new AbortController(), countBoards);
    if (shelf !== this.shelf) return;
    if (counts) this.counts.set(number, counts);
    else this.stopped.add(number);
    this.redrawIfShown(number);
  }
}
