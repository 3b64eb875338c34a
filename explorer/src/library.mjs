// @ts-check
// The levels that are there: built, kept, opened or hosted; and the work that builds and verifies them.

import { HIGHEST_WHOLE, hostedLevels } from "./hosted.mjs";
import { clearKept, keepFile, keptFile, keptNumbers } from "./kept.mjs";
import { namedLevels, nameOf, openLevel } from "./level_file.mjs";
import { sizeOf } from "./rules.mjs";
import { Shelf } from "./shelf.mjs";
import { plural } from "./words.mjs";

/**
 * @typedef {import("./level_file.mjs").Source} Source
 * @typedef {import("./proved.mjs").Proved} Proved
 * @typedef {import("./shelf.mjs").Slot} Slot
 *
 * @typedef {object} Work what is being built or verified
 * @property {"build" | "verify"} kind
 * @property {string} text
 * @property {number} share from 0 to 1
 * @property {number | null} secondsLeft how long it still takes, null while that is not known
 */

/** So many levels are built while the page opens. */
const FIRST_LEVELS = 7;
/** Above this a module's memory does not suffice. */
export const HIGHEST_BUILT = 18;
/** Above this a level is not verified: the module would need all of its file, and seconds. */
export const HIGHEST_VERIFIED = 16;
/** Refusals that are no fault of a file: there is no memory. */
const NO_MEMORY = [53, 84];
/** With less done than this nobody can say how long the work will take. */
const MILLISECONDS_TO_GUESS = 300;
const SHARE_TO_GUESS = 0.02;

/** The boards of some levels, of each of which one is about as much work. */
function boardsIn(from, to) {
  let boards = 0;
  for (let number = from; number <= to; number++) boards += sizeOf(number);
  return boards;
}

export class Library {
  /**
   * Levels 0 up that are right: built here, or verified here.
   * @type {Slot[]}
   */
  #right = [];
  /**
   * The proved code that verifies what was opened, until that is done.
   * @type {Proved | null}
   */
  #trial = null;
  /** Comes once the first levels are there. */
  #first = Promise.resolve();
  /** Comes once those are there, too, that the browser has kept. */
  begun = Promise.resolve();
  /**
   * Comes once the levels of the page's server are there.
   * @type {Promise<void>}
   */
  hosting = Promise.resolve();
  /** Whether a hand has stopped the build, which may be between two levels. */
  #isStopped = false;
  /** Files are kept one after the other, and nobody waits for it. */
  #keeping = Promise.resolve();
  /** @type {Work | null} */
  work = null;
  /**
   * Why files were not taken, or levels not built.
   * @type {string | null}
   */
  notice = null;
  /**
   * What was opened, null if nothing was.
   * @type {string | null}
   */
  opened = null;
  /**
   * Comes once what was opened is verified as far as it can be.
   * @type {Promise<void>}
   */
  settled = Promise.resolve();
  /** Until the first levels are there. */
  isStarting = true;
  /** Until the levels of the page's server are there. */
  isHosting = false;
  /** Whether more was built, now or earlier, than the page builds by itself. */
  hasBuilt = false;
  /** Whether the browser keeps it. */
  isKept = true;

  /**
   * @param {(count: number) => Proved} startProved starts the proved code with so many levels
   * @param {() => void} changed hears that other levels are there
   * @param {() => void} worked hears that work has gone on
   */
  constructor(startProved, changed, worked) {
    this.startProved = startProved;
    this.changed = changed;
    this.worked = worked;
    this.proved = startProved(FIRST_LEVELS);
    this.shelf = new Shelf(this.proved);
  }

  /** Takes the first levels, and then those that the browser has kept. */
  async begin() {
    this.#first = this.#takeFirst();
    this.begun = this.#first.then(() => this.#takeKept());
    await this.begun;
  }

  async #takeFirst() {
    try {
      const files = await this.proved.ready;
      for (const file of files) await this.#addRight(new File([file], nameOf(this.#right.length)), "built");
    } catch (fault) {
      this.notice = `${fault.message}.`;
    }
    this.isStarting = false;
    this.#showRight();
  }

  async #takeKept() {
    const numbers = await keptNumbers();
    for (let number = this.#right.length; numbers.includes(number); number++) {
      const file = await keptFile(number);
      const isRight = await this.proved.ask("add", file).then(() => true, () => false);
      if (!isRight || this.#right.length !== number) break;
      await this.#addRight(new File([file], nameOf(number)), "verified");
      this.hasBuilt = true;
    }
    if (this.hasBuilt && !this.opened) this.#showRight();
  }

  /** Takes the next level, unless what was verified meanwhile has it. */
  async #addRight(file, standing) {
    const level = await openLevel(file);
    if (level.number === this.#right.length) this.#right.push({ level, standing });
  }

  #showRight() {
    this.shelf = new Shelf(this.proved, this.#right);
    this.changed();
  }

  // ---- what is told ----

  /** Whether a level may come at once, so that nobody can say that it is not there. */
  isAwaited(number) { return this.isStarting || (this.isHosting && !this.shelf.slots[number]); }

  /** How many levels are right, from level 0 up. */
  get length() { return this.#right.length; }

  get title() {
    if (this.opened) return this.opened;
    return this.length === 0 ? "No levels" : `Levels 0 to ${this.length - 1}, by the proved code`;
  }

  /**
   * The files of the right levels.
   * @returns {File[]}
   */
  get files() { return this.#right.map(({ level }) => /** @type {File} */ (level?.file)); }

  /** How much of that the browser keeps: what the page does not build by itself. */
  get keptBytes() { return this.files.slice(FIRST_LEVELS).reduce((bytes, { size }) => bytes + size, 0); }

  #workOn(work) {
    this.work = work;
    this.worked();
  }

  /** Tells how many boards of which level are done, and guesses by that when the last of them will be. */
  #teller(kind, verb, first, top) {
    const all = boardsIn(first, top), begun = performance.now();
    return (number, done = 0) => {
      const share = (boardsIn(first, number - 1) + done) / all, passed = performance.now() - begun;
      const canGuess = passed > MILLISECONDS_TO_GUESS && share > SHARE_TO_GUESS;
      const secondsLeft = canGuess ? passed * (1 - share) / share / 1000 : null;
      this.#workOn({ kind, text: `${verb} level ${number} of ${top}`, share, secondsLeft });
    };
  }

  // ---- building ----

  /** Builds the levels that are missing up to this one, in slices, and keeps their files. */
  async build(top) {
    await this.begun;
    if (this.work) return;
    const { proved } = this, first = this.length, tell = this.#teller("build", "Building", first, top);
    this.notice = null;
    this.#isStopped = false;
    try {
      for (let number = first; number <= top && !this.#isStopped; number++) {
        tell(number);
        const file = await proved.askTelling(done => tell(number, done), "build");
        if (!file || proved !== this.proved) break;
        await this.#takeBuilt(number, new File([file], nameOf(number)));
      }
    } catch (fault) {
      if (proved !== this.proved) return; // what was verified meanwhile has taken its place
      const hasNoMemory = NO_MEMORY.includes(fault.number);
      this.notice = hasNoMemory ? `There is no memory for level ${this.length} here.` : `${fault.message}.`;
    }
    this.#workOn(null);
    this.changed();
  }

  async #takeBuilt(number, file) {
    await this.#addRight(file, "built");
    this.hasBuilt = true;
    if (!this.shelf.has(number)) this.shelf.slots[number] = this.#right[number];
    this.changed();
    this.#keeping = this.#keeping.then(() => this.#keep());
  }

  /** Keeps what the page does not build by itself, as far as it is not kept yet. */
  async #keep() {
    const numbers = await keptNumbers();
    for (let number = FIRST_LEVELS; number < this.length; number++)
      if (!numbers.includes(number)) this.isKept = await keepFile(number, await wholeOf(this.files[number]));
  }

  stop() {
    this.#isStopped = true;
    if (this.work?.kind === "build") this.proved.ask("stop").catch(() => {}); // it may have ended
    else this.#endTrial();
  }

  /** Clears what the browser has kept. What is there stays, until the page is closed. */
  async clear() {
    await this.#keeping;
    await clearKept();
    this.isKept = false;
    this.changed();
  }

  // ---- files ----

  /** @param {{ files: Source[], name: string }} chosen the files, and the name of their folder if it has one */
  async open({ files, name }) {
    await this.#first;
    const opened = await Shelf.of(files, this.proved, this.#right).catch(fault => fault);
    this.notice = whyNotOpened(opened, files, name);
    if (!this.notice) this.#take(opened, titleOf(opened, files, name));
    this.changed();
    if (!this.notice) this.settled = this.#verify(opened);
  }

  #take(shelf, title) {
    this.stop();
    this.shelf = shelf;
    this.opened = title;
  }

  /** Leaves the folder. What was verified of it stays. */
  close() {
    this.#endTrial();
    this.opened = null;
    this.notice = null;
    this.#showRight();
  }

  /** Has the levels of a shelf verified, from level 0 up, as far as they fit and are right. */
  async #verify(shelf) {
    const all = shelf.levels.filter(canBeVerified);
    if (all.every(({ number }) => shelf.standing(number) !== "unverified")) return;
    const trial = this.#trial = this.startProved(0);
    const tell = this.#teller("verify", "Verifying", 0, all.at(-1)?.number ?? 0);
    try {
      await trial.ready;
      for (const level of all) {
        if (level.number !== trial.length) break;
        tell(level.number);
        await trial.ask("add", level.file);
        if (trial !== this.#trial) return;
        if (shelf.standing(level.number) === "unverified") shelf.slots[level.number] = { level, standing: "verified" };
      }
    } catch (fault) {
      if (trial !== this.#trial) return;
      const refused = faultOf(fault, shelf.level(trial.length));
      if (refused) shelf.slots[trial.length] = { fault: refused };
    }
    this.#settle(shelf, trial);
  }

  /** What was verified is the truth, and answers if it goes higher than what was there. */
  #settle(shelf, trial) {
    this.#trial = null;
    if (trial.length > this.length) {
      this.proved.end();
      this.proved = shelf.proved = trial;
      this.#right = shelf.slots.slice(0, trial.length);
    } else {
      trial.end();
    }
    this.#workOn(null);
    this.changed();
  }

  #endTrial() {
    const trial = this.#trial;
    this.#trial = null;
    trial?.end();
    this.#workOn(null);
  }

  // ---- a folder of a server ----

  /**
   * Takes the levels of a folder of the page's own server, above those that are there, each as it comes.
   * @param {import("./hosted.mjs").Hosted} hosted
   */
  host(hosted) {
    this.isHosting = true;
    this.hosting = this.#host(hosted).finally(() => {
      this.isHosting = false;
      this.changed();
    });
    return this.hosting;
  }

  async #host(hosted) {
    const { folder, isAsked } = hosted, first = this.length;
    if (folder.origin !== location.origin)
      return this.#tell(`Levels are read from this server alone, and not from ${folder.origin}.`);
    let shelf = null, isWhole = false, isListed = false;
    for await (const found of hostedLevels(hosted, first)) {
      if (shelf && !isListed ? this.shelf !== shelf : this.opened) return; // a hand was quicker
      isWhole ||= found.isWhole && found.isLevel;
      if (!found.source) break;
      shelf ??= new Shelf(this.proved, this.#right);
      isListed = Boolean(found.listed);
      if (found.listed) shelf.list(found.source, found.listed);
      else await shelf.take(found.number, found.source, found.fault);
      if (this.opened && this.shelf !== shelf) return;
      if (!isListed) this.#takeHosted(shelf, first);
    }
    if (isListed) this.#takeHosted(shelf, first);
    if (isWhole)
      this.#tell(`This server ignores Range requests: levels to ${HIGHEST_WHOLE} are fetched whole, and none above.`);
    else if (isAsked && !shelf) this.#tell(`${folder.pathname} has no ${nameOf(first)}.`);
    if (isWhole && shelf) this.settled = this.#verify(shelf);
  }

  #takeHosted(shelf, first) {
    const top = shelf.levels.at(-1)?.number ?? -1;
    const title = top < first ? "The levels of this server can’t be read" : `Levels to ${top} of this server`;
    if (this.shelf !== shelf) this.#take(shelf, title);
    shelf.came = () => { if (this.shelf === shelf) this.#takeHosted(shelf, first); };
    this.opened = title;
    this.changed();
  }

  /** @param {string} notice */
  #tell(notice) {
    this.notice ??= notice;
    this.changed();
  }
}

const canBeVerified = ({ number, file }) => number <= HIGHEST_VERIFIED && !file.isHosted;

const wholeOf = async file => new Blob([await file.arrayBuffer()]);

function titleOf(shelf, files, name) {
  const own = shelf.levels.filter(({ file }) => files.includes(file)), top = own.at(-1);
  const upTo = top ? `, up to ${plural(top.number, "stone")}` : "";
  return `${name ? `${name}: ` : ""}${plural(own.length, "level")}${upTo}`;
}

/** What is wrong with a file that the proved code refuses; null if it could not be read, or had no room. */
function faultOf({ number, inner, rule, rank, message }, level) {
  if (number === undefined || NO_MEMORY.includes(number) || !level) return null;
  const { name } = level.file;
  if (inner === 66) return new Error(`${name} is damaged: its SHA-256 is not that of its bytes (66 Digest)`);
  if (rule) return new Error(`${name} is not right: the board of rank ${rank} breaks rule ${rule} (83 Verify)`);
  return new Error(`${name} is refused: ${message}`);
}

function whyNotOpened(opened, files, name) {
  if (opened instanceof Error) return `No levels were opened. ${opened.message}.`;
  if (namedLevels(files).size > 0) return null;
  const all = `Of ${plural(files.length, "file")} in ${name || "the choice"} none`;
  const none = files.length ? all : "The folder is empty: no file";
  return `No levels were opened. ${none} is named level_00.awdb, level_01.awdb and so on.`;
}
