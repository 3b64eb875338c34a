// @ts-check
// What the page shows, and what is done to it: boards, play, set-up and levels. Nothing here knows of elements.

import { parseGame, printGame, tollsOf } from "./game.mjs";
import { pitName } from "./letters.mjs";
import { Library } from "./library.mjs";
import { parseLink, printLink } from "./links.mjs";
import { Opponent, tableMove } from "./opponent.mjs";
import { parseAsked, printAsked } from "./puzzle.mjs";
import { Puzzler } from "./puzzler.mjs";
import { Record } from "./record.mjs";
import { MOST_STONES, print, randomBoard, refusalOf, stonesOf, turned } from "./rules.mjs";
import { Solving } from "./solving.mjs";
import { Streak } from "./streak.mjs";
import { spokenVerdict, wordsOfPuzzle } from "./verdict.mjs";
import { plural, SIDES } from "./words.mjs";
import { bestLine, hasFault, weigh } from "./worths.mjs";

/**
 * @typedef {import("./rules.mjs").Board} Board
 * @typedef {import("./worths.mjs").Weighed} Weighed
 * @typedef {import("./worths.mjs").Line} Line
 *
 * @typedef {object} Shown what the views draw
 * @property {Record} record what was set up and played
 * @property {import("./game.mjs").State} state that of the record which is shown
 * @property {Weighed | null} weighed what its board is worth, null while that is being asked
 * @property {Line | { fault: Error } | null} line the best line so far, null while that is being asked
 * @property {number} below the side whose pits lie in the lower row
 * @property {boolean} keepsMoverBelow whether that is always the mover's
 * @property {import("./shelf.mjs").Shelf} shelf the levels that are there
 * @property {Library} library what builds, verifies and opens them
 * @property {boolean} isEditing whether a click changes a pit
 * @property {boolean} isTaking whether it takes a stone, and does not add one
 * @property {boolean} isPlaying whether the line plays itself
 * @property {Opponent} opponent what plays the sides that are left to the table
 * @property {WeakMap<import("./game.mjs").State, import("./game.mjs").Toll | null>} tolls what the moves to states cost
 * @property {boolean} hasHints whether worths are shown
 * @property {boolean} hasLetters whether pits have letters
 * @property {Solving | null} puzzle the puzzle that is being solved, or was
 * @property {string} puzzleTold what drawing one waits for, or why there is none
 *
 * @typedef {object} Listener draws what has changed, and tells what is said
 * @property {(shown: Shown) => void} drawState another state is shown, without its worth yet
 * @property {(shown: Shown) => void} drawWorth its worth has come
 * @property {(shown: Shown) => void} drawLine its line has come, or more of it
 * @property {(shown: Shown) => void} drawBoard the board lies otherwise, or is being edited
 * @property {(shown: Shown) => void} drawLevels other levels are there
 * @property {(shown: Shown) => void} drawWork levels are being built or verified, or are not any more
 * @property {(shown: Shown) => void} drawPlaying the line plays itself, or has stopped
 * @property {(shown: Shown) => void} drawPlayed what moves cost has come
 * @property {(shown: Shown) => void} drawPuzzle a puzzle is drawn, or something came of it
 * @property {(sheet: { asked: import("./puzzle.mjs").Asked, puzzles: object[] }) => void} showSheet puzzles to be printed
 * @property {(link: string, isStep: boolean) => void} keepLink a step that Back takes back, or the same step otherwise
 * @property {(text: string) => void} say to those who listen
 * @property {(text: string) => void} hint to those who look, for a while
 */

const FIRST_BOARD = "1,0,0,0,0,1/1,0,1,0,0,0";
const MILLISECONDS_A_PLY = 950;
const MILLISECONDS_TO_THE_FIRST = 150;
const MILLISECONDS_BETWEEN_DRAWINGS = 50;

export class Session {
  /** @type {Listener} */
  listener;
  /** Whose pits lie below, if it is not always the mover's. */
  #northIsBelow = false;
  /** What is asked of a board counts only as long as that board is shown. */
  #turn = 0;
  #playTimer;
  /** The puzzle or the sheet that the address names, until there are levels. */
  #awaited;
  /** What is drawn counts only if nothing else was asked for meanwhile. */
  #draws = 0;
  #isDrawing = false;
  /** The sides that the table played before a puzzle. */
  #sidesBefore = [false, false];

  /**
   * @param {(count: number) => import("./proved.mjs").Proved} startProved starts the proved code with so many levels
   * @param {string} address what stands behind the # of the page's address
   * @param {{ setTimeout: Function, clearTimeout: Function }} clock the timers: of the page, or of a test
   * @param {Streak} streak
   */
  constructor(startProved, address = FIRST_BOARD, clock = globalThis, streak = new Streak(() => null)) {
    this.#awaited = parseAsked(address) && address;
    const link = parseLink(this.#awaited ? FIRST_BOARD : address);
    this.record = new Record(link.board);
    this.opponent = new Opponent(pit => this.#play(pit), clock);
    this.library = new Library(startProved, () => this.#takeLevels(), () => this.listener.drawWork(this.shown));
    this.puzzler = new Puzzler(this.library);
    this.streak = streak;
    /** @type {Shown} */
    this.shown = {
      record: this.record, state: this.record.now, weighed: null, line: null, below: 0, keepsMoverBelow: false,
      shelf: this.library.shelf, library: this.library, isEditing: false, isTaking: false, isPlaying: false,
      opponent: this.opponent, tolls: new WeakMap(), hasHints: true, hasLetters: false, puzzle: null, puzzleTold: "",
    };
    this.#takeLink(link);
  }

  // ---- showing ----

  /** Shows the state of the record, at first without its worth, and then with it. Back undoes a step. */
  async show({ isStep = false } = {}) {
    Object.assign(this.shown, { state: this.record.now, weighed: null, line: null });
    if (!this.#isDrawing) this.shown.puzzleTold = "";
    if (isStep) this.#awaited = null;
    this.#leavePuzzle();
    this.#laySides();
    this.listener.drawState(this.seen);
    this.listener.keepLink(this.link, isStep && !this.shown.puzzle);
    await this.#weigh();
  }

  async #weigh() {
    const mine = ++this.#turn, { shown } = this;
    if (this.library.isAwaited(stonesOf(shown.state.board))) return; // it is told once it has come
    const weighed = await weigh(shown.shelf, shown.state.board).catch(() => null);
    if (mine !== this.#turn || !weighed) return;
    shown.weighed = weighed;
    shown.puzzle?.weigh(shown.state, weighed);
    this.listener.drawWorth(this.seen);
    this.listener.drawPuzzle(shown);
    this.#considerReply();
    this.#showLine(mine);
    this.#showTolls();
  }

  /** The line comes later and grows, since it may be long. Nobody waits for it. */
  async #showLine(mine) {
    const { shown } = this;
    let drawn = performance.now();
    const goOn = plies => {
      if (mine !== this.#turn) return false;
      if (performance.now() - drawn < MILLISECONDS_BETWEEN_DRAWINGS) return true;
      drawn = performance.now();
      this.#drawLine({ plies, isGrowing: true });
      return true;
    };
    const line = await bestLine(shown.shelf, shown.state.board, goOn).catch(fault => ({ fault }));
    if (mine === this.#turn) this.#drawLine(line);
  }

  #drawLine(line) {
    this.shown.line = line;
    this.listener.drawLine(this.seen);
  }

  async #showTolls() {
    const { record, shown: { shelf, tolls } } = this, states = record.states.slice(record.start, record.end + 1);
    const found = await tollsOf(states, board => shelf.entry(board).then(({ value }) => value, () => null));
    for (const [index, toll] of found.entries()) tolls.set(states[index + 1], toll);
    this.listener.drawPlayed(this.seen);
  }

  /** What is shown, but for what hints would tell. An open puzzle has none. */
  get seen() {
    const { hasHints, puzzle } = this.shown;
    if (hasHints && !puzzle?.isOpen) return this.shown;
    return { ...this.shown, hasHints: false, weighed: null, line: null, tolls: new WeakMap() };
  }

  #laySides() {
    const { state, keepsMoverBelow } = this.shown;
    this.shown.below = keepsMoverBelow ? state.mover : Number(this.#northIsBelow);
  }

  sayVerdict() { this.listener.say(spokenVerdict(this.seen)); }

  refuse(text) {
    this.listener.say(text);
    this.listener.hint(text);
  }

  // ---- playing ----

  /** The pit of the plan, or null. */
  get plan() { return this.shown.weighed?.entry?.plan ?? null; }

  go(index) {
    this.stopPlaying();
    this.record.go(index);
    if (this.record.isLast) this.opponent.wake();
    else this.opponent.rest();
    return this.show();
  }

  undo() { return this.go(this.#neighbour(-1)); }
  redo() { return this.go(this.#neighbour(1)); }

  /** The next state there. Moves of the table are passed over if a hand plays the other side. */
  #neighbour(step) {
    const { states, start, end, at } = this.record, [south, north] = this.opponent.sides;
    const isPassed = index => south !== north && index > start && index < end && this.opponent.isDue(states[index]);
    const next = at + step;
    return isPassed(next) ? next + step : next;
  }

  /** To the board from which play began, and from there to the first of all. */
  goToStart() {
    const { record } = this;
    return this.go(record.start === record.at ? 0 : record.start);
  }

  async #play(pit) {
    const { mover } = this.record.now, name = this.nameOf(pit), wasOpen = this.#isSolving;
    if (wasOpen && mover === 0) this.shown.puzzle.judge(pit);
    this.record.play(pit);
    const { captured, isSlam } = this.record.now.move;
    if (wasOpen) this.#settlePuzzle();
    await this.show({ isStep: true });
    const captures = captured ? `, captured ${captured}` : isSlam ? ", a grand slam, which captures nothing" : "";
    const told = wasOpen ? wordsOfPuzzle(this.shown) : spokenVerdict(this.seen);
    this.listener.say(`${SIDES[mover]} played pit ${name}${captures}. ${told}`);
  }

  /** What a hand plays, if it may. */
  async play(pit) {
    const { board, mover } = this.record.now, refused = refusalOf(board, pit);
    if (this.#isTablesMove) return this.refuse(`The table plays ${SIDES[mover]}`);
    this.stopPlaying();
    if (refused) return this.refuse(refused.message);
    this.opponent.wake();
    return this.#mayPlay() ? this.#play(pit) : this.refuse("The levels are still being asked");
  }

  /** Plays a part of the best line at once. */
  follow(plies) {
    this.stopPlaying();
    this.opponent.wake();
    for (const { pit } of plies) this.record.play(pit);
    return this.show({ isStep: true });
  }

  /** A line that goes on for ever is played to its first repetition. */
  async #playOn() {
    if (this.plan === null || this.record.isRepeated) return this.togglePlaying();
    await this.#play(this.plan);
    if (this.shown.isPlaying) this.#playTimer = setTimeout(() => this.#playOn(), MILLISECONDS_A_PLY);
  }

  stopPlaying() {
    clearTimeout(this.#playTimer);
    this.opponent.stop();
    this.shown.isPlaying = false;
    this.listener.drawPlaying(this.shown);
  }

  togglePlaying() {
    const isPlaying = !this.shown.isPlaying;
    this.stopPlaying();
    if (!isPlaying) return this.#considerReply();
    this.shown.isPlaying = true;
    this.listener.drawPlaying(this.shown);
    this.#playTimer = setTimeout(() => this.#playOn(), MILLISECONDS_TO_THE_FIRST);
  }

  // ---- the table plays ----

  setTable(south, north) {
    if (this.#isSolving) {
      this.listener.drawBoard(this.seen);
      return this.refuse("The table plays North until the puzzle is over");
    }
    this.stopPlaying();
    this.opponent.setSides(south, north);
    this.listener.say(`The table plays ${nameOfSides(south, north)}`);
    this.listener.keepLink(this.link, false);
    this.#considerReply();
  }

  /** North, South, both and neither in turn. */
  changeTable() {
    const [south, north] = this.opponent.sides;
    return this.setTable(south !== north, !north);
  }

  /** Whether the move is the table's, unless it turns out that the table can't tell. */
  get #isTablesMove() {
    const { opponent, shown: { state, weighed } } = this;
    return opponent.isDue(state) && !opponent.isResting && (!weighed || tableMove(weighed.moves) !== null);
  }

  /** Has the table reply if it is its turn. With itself it plays to the first repetition. */
  #considerReply() {
    const { opponent, record, shown } = this, { state, weighed, isEditing, isPlaying } = shown;
    if (record.isRepeated && opponent.sides.every(Boolean)) opponent.rest();
    else if (weighed && !isEditing && !isPlaying) opponent.consider(state, weighed.moves);
    this.listener.drawBoard(this.seen);
  }

  // ---- links and texts ----

  get link() {
    if (this.#awaited) return this.#awaited;
    if (this.shown.puzzle) return printAsked(this.shown.puzzle.asked);
    return printLink({ ...this.record.game, below: Number(this.#northIsBelow), table: this.opponent.sides });
  }

  #takeLink(link) {
    this.record.open(link);
    this.#northIsBelow = link.below === 1;
    this.opponent.setSides(...link.table);
    if (!this.record.isLast) this.opponent.rest();
  }

  /** Shows what a link says. It throws what is wrong with it. */
  openLink(text) {
    const named = parseAsked(text);
    if (named) return named.kind === "sheet" ? this.openSheet(named.asked) : this.openPuzzle(named.asked);
    const link = parseLink(text);
    this.stopPlaying();
    this.#takeLink(link);
    return this.show().then(() => this.sayVerdict());
  }

  /** Shows the place of a link by Back or Forward: the rest stays, and the table rests. */
  comeTo(text) {
    const named = parseAsked(text);
    if (named) return named.kind === "sheet" ? this.openSheet(named.asked) : this.openPuzzle(named.asked, true);
    const link = parseLink(text);
    this.stopPlaying();
    this.record.open(link);
    this.opponent.rest();
    return this.show().then(() => this.sayVerdict());
  }

  /** Shows the board or the game that a text spells, or what the link in it says. It throws what is wrong with it. */
  showText(text) {
    if (text.includes("#")) return this.openLink(text.trim().slice(text.trim().indexOf("#") + 1));
    const { board, pits } = parseGame(text), stones = plural(stonesOf(board), "stone");
    this.stopPlaying();
    this.opponent.wake();
    this.record.setUp(board, 0);
    for (const pit of pits) this.record.play(pit);
    return this.show({ isStep: true }).then(() => this.listener.say(`${stones}. ${spokenVerdict(this.seen)}`));
  }

  /** The word of the board that is shown. */
  get word() { return print(this.shown.state.board); }

  /** The play that is shown as `awari judge` takes it. */
  get gameText() {
    const { record: { game }, shown: { shelf } } = this, stones = stonesOf(game.board);
    return printGame(game, shelf.level(stones) ? shelf.limitTo(stones) : undefined);
  }

  // ---- puzzles ----

  get #isSolving() { return this.shown.puzzle?.isOpen ?? false; }

  /** Opens the puzzle or the sheet of the address, once there are levels. */
  openAwaited() { if (this.#awaited) return this.openLink(this.#awaited); }

  /**
   * Draws a puzzle and shows it: hints are hidden, and the table plays North until it is over.
   * @param {import("./puzzle.mjs").Asked} asked
   */
  async openPuzzle(asked, isAgain = false) {
    this.stopPlaying();
    const boards = await this.#draw(told => this.puzzler.draw(asked, 1, told));
    if (!boards) return;
    this.#awaited = null;
    this.#closePuzzle();
    this.record.setUp(boards[0], 0);
    this.shown.puzzle = new Solving(asked, this.record.now, !isAgain);
    this.#sidesBefore = this.opponent.sides;
    this.opponent.setSides(false, true);
    this.#northIsBelow = false;
    this.listener.keepLink(this.link, true);
    await this.show();
    this.listener.say(wordsOfPuzzle(this.shown));
  }

  /** Shows a sheet of puzzles, to be printed. What is shown later takes its place. */
  async openSheet(asked, isStep = false) {
    this.stopPlaying();
    const puzzles = await this.#draw(told => this.puzzler.sheet(asked, told));
    if (!puzzles) return;
    this.#awaited = null;
    this.listener.keepLink(printAsked(asked, "sheet"), isStep);
    this.listener.showSheet({ asked, puzzles });
  }

  /** What a draw gives: null if it fails, which is told, or if something else was asked for meanwhile. */
  async #draw(draw) {
    const mine = ++this.#draws;
    const tell = text => {
      if (mine !== this.#draws) return;
      this.shown.puzzleTold = text;
      this.listener.drawPuzzle(this.shown);
    };
    this.#isDrawing = true;
    tell("A puzzle is drawn…");
    const given = await draw(tell).catch(fault => ({ fault }));
    if (mine !== this.#draws) return null;
    this.#isDrawing = false;
    tell(given.fault ? `${given.fault.message}.` : "");
    if (!given.fault) return given;
    this.listener.say(this.shown.puzzleTold);
    return null;
  }

  /** Solves the same puzzle from its start. That does not count. */
  tryAgain() { if (this.shown.puzzle) return this.openPuzzle(this.shown.puzzle.asked, true); }

  /** Whether a hand may play now: an open puzzle waits until it can judge. One that is over goes. */
  #mayPlay() {
    const { puzzle, state } = this.shown;
    if (!puzzle?.isOpen) this.#closePuzzle();
    return !puzzle?.isOpen || puzzle.canJudge(state);
  }

  #settlePuzzle() {
    this.shown.puzzle.settle(this.record.now, this.record.isRepeated);
    if (!this.#isSolving) this.#endPuzzle();
  }

  /** Shows the solution of an open puzzle, which is not solved then. */
  showSolution() {
    if (!this.#isSolving) return;
    this.stopPlaying();
    this.shown.puzzle.show();
    this.#endPuzzle();
    this.#redraw();
    this.listener.say(wordsOfPuzzle(this.shown));
  }

  /** The line comes later. Nobody waits for it. */
  async #endPuzzle() {
    const { puzzle, shelf } = this.shown, { standing, decided, start } = puzzle;
    if (puzzle.counts) this.streak.add(standing === "home");
    puzzle.counts = false;
    this.opponent.setSides(...this.#sidesBefore);
    puzzle.from = standing === "home" || !decided ? start : decided.state;
    puzzle.line = await bestLine(shelf, puzzle.from.board).catch(() => null);
    this.listener.drawPuzzle(this.shown);
  }

  /** Plays a part of the line of a puzzle from where that begins. */
  followSolution(plies) {
    const { from } = this.shown.puzzle, index = this.record.states.indexOf(from);
    if (index < 0) this.record.setUp(from.board, from.mover); // other moves took its place
    else this.record.go(index);
    return this.follow(plies);
  }

  #closePuzzle() {
    if (this.#isSolving) this.opponent.setSides(...this.#sidesBefore);
    this.shown.puzzle = null;
  }

  /** Another board than that of the puzzle leads out of it. */
  #leavePuzzle() {
    const { record, shown: { puzzle } } = this;
    if (puzzle && record.states[record.start] !== puzzle.start) this.#closePuzzle();
  }

  // ---- setting up ----

  /** @param {Board} board */
  setBoard(board, mover = this.shown.state.mover) {
    this.stopPlaying();
    this.opponent.wake();
    this.record.setUp(board, mover);
    return this.show({ isStep: true });
  }

  setStones(pit, stones) {
    const board = [...this.shown.state.board];
    board[pit] = Math.max(0, stones);
    const all = stonesOf(board), told = `Pit ${this.nameOf(pit)}: ${plural(board[pit], "stone")}, ${all} in all`;
    if (all > MOST_STONES) return this.refuse(`A board has at most ${MOST_STONES} stones`);
    return this.setBoard(board).then(() => this.listener.say(told));
  }

  addStones(pit, stones) { return this.setStones(pit, this.shown.state.board[pit] + stones); }

  /** What a click on a pit does. */
  press(pit) {
    const { isEditing, isTaking } = this.shown;
    return isEditing ? this.addStones(pit, isTaking ? -1 : 1) : this.play(pit);
  }

  clear() { return this.setBoard(Array(12).fill(0)); }

  setRandomBoard(stones) {
    const board = randomBoard(Math.max(0, Math.min(MOST_STONES, Math.floor(stones) || 0)));
    return this.setBoard(board).then(() => this.sayVerdict());
  }

  swapMover() {
    const { board, mover } = this.shown.state;
    return this.setBoard(turned(board), 1 - mover).then(() => this.sayVerdict());
  }

  setEditing(isEditing) {
    this.stopPlaying();
    this.shown.isEditing = isEditing;
    this.#considerReply();
  }

  setTaking(isTaking) {
    this.shown.isTaking = isTaking;
    this.listener.drawBoard(this.seen);
  }

  turnBoard() {
    const { keepsMoverBelow, state } = this.shown;
    this.#northIsBelow = keepsMoverBelow ? state.mover === 0 : !this.#northIsBelow;
    this.keepMoverBelow(false);
    this.listener.say(`${SIDES[this.shown.below]} is below`);
  }

  keepMoverBelow(keeps) {
    this.shown.keepsMoverBelow = keeps;
    this.#laySides();
    this.listener.drawBoard(this.seen);
    this.listener.keepLink(this.link, false);
  }

  setHints(hasHints) {
    if (hasHints) this.showSolution();
    this.shown.hasHints = hasHints;
    this.#redraw();
    this.listener.say(`Hints are ${hasHints ? "on" : "off"}. ${spokenVerdict(this.seen)}`);
  }

  setLetters(hasLetters) {
    this.shown.hasLetters = hasLetters;
    this.#redraw();
    this.listener.say(`Pits have ${hasLetters ? "letters" : "numbers"}`);
  }

  #redraw() {
    this.listener.drawBoard(this.seen);
    this.listener.drawWorth(this.seen);
    this.listener.drawPlayed(this.seen);
  }

  nameOf(pit) { return pitName(pit, this.shown.state.mover, this.shown.hasLetters); }

  // ---- levels ----

  /** Other levels are there, so the board that is shown may be worth something else, or be known at last. */
  #takeLevels() {
    this.shown.shelf = this.library.shelf;
    this.listener.drawLevels(this.shown);
    this.#forgetFaults();
    this.#weigh();
  }

  /** What was not known may have come with them. */
  #forgetFaults() {
    const { shown } = this;
    if (shown.line && "fault" in shown.line) this.#drawLine(null);
    if (!hasFault(shown.weighed)) return;
    shown.weighed = null;
    this.listener.drawWorth(this.seen);
  }

  /** @param {{ files: File[], name: string }} chosen the files, and the name of their folder if it has one */
  async open(chosen) {
    this.stopPlaying();
    await this.library.open(chosen);
    await this.show();
    this.listener.say(this.library.notice ?? `${this.library.title}. ${spokenVerdict(this.seen)}`);
  }

  /** Shows the board of a level that has this rank. */
  async showRank(level, rank) {
    await this.setBoard(await this.library.proved.ask("board", level, rank), 0);
    this.sayVerdict();
  }
}

function nameOfSides(south, north) {
  if (south === north) return south ? "both sides" : "neither side";
  return SIDES[Number(north)];
}
