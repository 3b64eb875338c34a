// @ts-check
// All that is seen of a session, and what is told to those who listen.

import { writeAddress } from "./address.mjs";
import { BoardView } from "./board_view.mjs";
import { byId, element, icon, turnOff } from "./elements.mjs";
import { LevelsView } from "./levels_view.mjs";
import { LineView } from "./line_view.mjs";
import { MoreView } from "./more_view.mjs";
import { drawNotice } from "./notice_view.mjs";
import { PuzzleView } from "./puzzle_view.mjs";
import { print, stonesOf } from "./rules.mjs";
import { drawSheet, showSheet } from "./sheet_view.mjs";
import { drawPlayed, drawStanding, drawWorth } from "./worth_view.mjs";

/** @typedef {import("./session.mjs").Shown} Shown */

const MILLISECONDS_OF_A_HINT = 3500;

/** The listener of a session. */
export class Views {
  #hintTimer;
  /** Whether a hand has written in the field of the board since that was shown. */
  isWriting = false;

  /** @param {import("./session.mjs").Session} session what hands in the views act on */
  constructor(session) {
    this.board = new BoardView(byId("board"), [byId("player-upper"), byId("player-lower")], {
      press: pit => session.press(pit),
      add: (pit, stones) => session.addStones(pit, stones),
      set: (pit, stones) => session.setStones(pit, stones),
    });
    this.exampleHands = {
      showBoard: board => {
        session.setBoard(board, 0).then(() => session.sayVerdict());
        byId("board").scrollIntoView({ block: "nearest" });
      },
    };
    this.levels = new LevelsView({ card: byId("levels-card"), buttons: byId("levels"), summary: byId("summary") }, {
      showRank: (level, rank) => {
        session.showRank(level, rank);
        byId("board").scrollIntoView({ block: "nearest" });
      },
      say: text => this.say(text),
    });
    this.more = new MoreView();
    this.puzzle = new PuzzleView({ follow: plies => session.followSolution(plies) });
    this.streak = session.streak;
    this.moveHands = { play: pit => session.play(pit), preview: pit => this.board.preview(pit) };
    this.line = new LineView(byId("line"), { follow: plies => session.follow(plies) });
    this.playedHands = { go: index => session.go(index) };
  }

  // ---- telling ----

  say(text) { byId("say").textContent = text; }

  hint(text) {
    clearTimeout(this.#hintTimer);
    byId("toast").hidden = false;
    byId("toast").textContent = text;
    this.#hintTimer = setTimeout(() => { byId("toast").hidden = true; }, MILLISECONDS_OF_A_HINT);
  }

  /** Says what is wrong with the word in the field. */
  refuseWord(fault) {
    byId("word-fault").textContent = `${fault.message}.`;
    byId("word-fault").hidden = false;
    byId("word").setAttribute("aria-invalid", "true");
  }

  // ---- drawing ----

  /** @param {Shown} shown */
  drawState(shown) {
    showSheet(false);
    this.levels.forget();
    this.board.draw(shown);
    this.#drawWorthAndLine(shown);
    this.drawPlayed(shown);
    this.levels.draw(stonesOf(shown.state.board));
    this.drawPuzzle(shown);
    this.#drawWord(print(shown.state.board));
  }

  keepLink(link, isStep) { writeAddress(link, isStep); }

  /** @param {Shown} shown */
  drawPlayed(shown) {
    const parts = { card: byId("played-card"), list: byId("played"), score: byId("score"), told: byId("thrown") };
    drawPlayed(parts, shown, this.playedHands);
  }

  /** @param {Shown} shown */
  drawWorth(shown) {
    this.board.draw(shown);
    this.#drawWorthAndLine(shown);
  }

  #drawWorthAndLine(shown) {
    this.#drawControls(shown);
    drawWorth(byId("worth"), shown, this.moveHands);
    drawStanding(byId("worth-standing"), shown);
    this.line.draw(shown);
  }

  /** @param {Shown} shown */
  drawBoard(shown) {
    this.board.draw(shown);
    this.#drawControls(shown);
    byId("keep-low").checked = shown.keepsMoverBelow;
    byId("hints").checked = shown.hasHints;
    byId("letters").checked = shown.hasLetters;
    [byId("table-south").checked, byId("table-north").checked] = shown.opponent.sides;
    byId("setup").hidden = !shown.isEditing;
    for (const [id, isPressed] of [["edit", shown.isEditing], ["adds", !shown.isTaking], ["takes", shown.isTaking]])
      byId(id).setAttribute("aria-pressed", String(isPressed));
  }

  #drawControls({ record, weighed, isPlaying }) {
    for (const id of ["undo", "start"]) turnOff(byId(id), record.isFirst);
    turnOff(byId("redo"), record.isLast);
    const hasNoPlan = typeof weighed?.entry?.plan !== "number";
    turnOff(byId("best"), hasNoPlan);
    turnOff(byId("auto"), hasNoPlan && !isPlaying);
  }

  /** What is being written in the field stays. */
  #drawWord(word) {
    if (this.isWriting && document.activeElement === byId("word")) return;
    this.isWriting = false;
    byId("word").value = word;
    byId("word").removeAttribute("aria-invalid");
    byId("word-fault").hidden = true;
  }

  /** @param {Shown} shown */
  drawLine(shown) { this.line.draw(shown); }

  /** @param {Shown} shown */
  drawPuzzle(shown) { this.puzzle.draw(shown, this.streak); }

  showSheet(sheet) {
    drawSheet(sheet);
    showSheet(true);
    this.say(byId("sheet-title").textContent);
  }

  /** @param {Shown} shown */
  drawLevels(shown) {
    this.levels.update(shown.shelf);
    this.more.draw(shown.library);
    drawNotice(byId("notice"), shown.library);
    byId("folder-name").textContent = shown.library.title;
  }

  /** @param {Shown} shown */
  drawWork({ library }) { this.more.drawWork(library); }

  /** @param {Shown} shown */
  drawPlaying({ isPlaying }) {
    byId("auto").setAttribute("aria-pressed", String(isPlaying));
    const [name, text] = isPlaying ? ["pause", "Pause"] : ["play", "Play line"];
    byId("auto").replaceChildren(icon(name), element("span", {}, text));
  }
}
