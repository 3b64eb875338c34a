// @ts-check
// The board: twelve pits in two rows, each of them a button, and a line for each player.

import { element } from "./elements.mjs";
import { letterOf, pitName } from "./letters.mjs";
import { isEnded, isLegal, play, refusalOf } from "./rules.mjs";
import { drawStones } from "./stones.mjs";
import { wordsOfMove } from "./verdict.mjs";
import { kindOf, plural, SIDES, signed } from "./words.mjs";

export class BoardView {
  /** `hands` has what a hand does: press(pit), add(pit, stones) and set(pit, stones). */
  constructor(box, players, hands) {
    this.players = players;
    this.hands = hands;
    this.shown = null;
    /** What the stones were laid for. */
    this.laid = { state: null, below: 0 };
    /** The place to which the tabulator leads: the lower left one at first. */
    this.focused = 6;
    this.places = Array.from({ length: 12 }, (_, place) => this.makePit(place));
    box.append(...this.places.slice(0, 6), element("div", { class: "middle" }), ...this.places.slice(6));
    box.addEventListener("keydown", event => this.onKey(event));
  }

  makePit(place) {
    const pit = element("button", { type: "button", class: `pit ${place < 6 ? "upper" : "lower"}` },
      ...["number", "tag", "bowl", "count"].map(part => element("span", { class: part })));
    pit.addEventListener("click", () => this.hands.press(this.pitAt(place)));
    pit.addEventListener("contextmenu", event => this.onRightClick(event, place));
    pit.addEventListener("focus", () => this.onFocus(place));
    pit.addEventListener("blur", () => this.preview(null));
    pit.addEventListener("pointerenter", event => event.pointerType === "mouse" && this.preview(this.pitAt(place)));
    pit.addEventListener("pointerleave", () => this.preview(null));
    return pit;
  }

  /** The pit in one of the twelve places, the upper row first, as the mover numbers it. */
  pitAt(place) {
    const fromBelow = place < 6 ? 11 - place : place - 6;
    return this.shown.below === this.shown.state.mover ? fromBelow : (fromBelow + 6) % 12;
  }

  // ---- drawing ----

  /**
   * Draws the board. Stones are laid anew, and those that fell are marked, only if the state is another one or
   * the board was turned.
   */
  draw(shown) {
    const isLaid = this.laid.state === shown.state && this.laid.below === shown.below;
    this.shown = shown;
    this.laid = { state: shown.state, below: shown.below };
    this.places.forEach((element, place) => {
      this.drawPit(element, this.pitAt(place));
      if (!isLaid) this.layStones(element, this.pitAt(place));
    });
    this.drawPlayers();
    this.leadTabulator();
  }

  drawPit(element, pit) {
    const { state: { board }, weighed, isEditing } = this.shown;
    const canPlay = !isEditing && isLegal(board, pit);
    const [number, tag, , count] = element.children;
    number.replaceChildren(...this.nameOf(pit));
    count.textContent = board[pit];
    tag.replaceChildren(...this.tagOf(pit));
    element.dataset.pit = pit;
    element.setAttribute("aria-label", this.labelOf(pit));
    element.setAttribute("aria-disabled", String(!canPlay && !isEditing));
    element.classList.toggle("open", canPlay || isEditing);
    element.classList.toggle("plan", canPlay && weighed?.entry?.plan === pit);
    element.classList.toggle("empty", board[pit] === 0);
    element.classList.toggle("bare", tag.childElementCount === 0);
  }

  /** A letter stays with its pit. Beside it stands the number by which the mover plays it. */
  nameOf(pit) {
    const { state: { mover }, hasLetters } = this.shown;
    if (!hasLetters) return [String(pit)];
    return [letterOf(pit, mover), ...(pit < 6 ? [element("small", {}, String(pit))] : [])];
  }

  /** What the move from a pit is worth, as it stands on the board. */
  tagOf(pit) {
    const { weighed, isEditing } = this.shown;
    const move = !isEditing && weighed?.moves.find(each => each.pit === pit);
    if (!move) return [];
    const takes = move.captured ? `takes ${move.captured}` : "";
    if (move.fault) return takes ? [this.makeTag("even", "?", takes)] : [];
    const kind = `${kindOf(move.value)}${move.isPlan ? " plan" : ""}`;
    return [this.makeTag(kind, signed(move.value), takes || this.withinOf(move) || "even")];
  }

  makeTag(kind, value, ...below) {
    return element("span", { class: kind },
      element("b", {}, value),
      element("small", {}, ...below));
  }

  /** The distance. A narrow board has no room for the word behind it. */
  withinOf({ distance }) {
    if (!distance) return "";
    const unit = element("span", { class: "wide" }, distance === 1 ? " ply" : " plies");
    return element("span", {}, `in ${distance}`, unit);
  }

  labelOf(pit) {
    const { state: { board, mover }, weighed, isEditing, isTaking, hasLetters } = this.shown;
    const side = SIDES[pit < 6 ? mover : 1 - mover];
    const held = `${side}, pit ${pitName(pit, mover, hasLetters)}, ${plural(board[pit], "stone")}`;
    if (isEditing) return `${held}. ${isTaking ? "Take" : "Add"} a stone`;
    if (pit > 5) return held;
    const refused = refusalOf(board, pit);
    if (refused) return `${held}. ${refused.message}`;
    const move = weighed?.moves.find(each => each.pit === pit);
    return `${held}. Play${move ? `: ${wordsOfMove(move, true)}` : ""}`;
  }

  layStones(element, pit) {
    const { board, mover, move } = this.shown.state, bowl = element.children[2];
    element.classList.remove("taken", "origin");
    bowl.className = "bowl";
    bowl.style.animationDelay = "";
    // By a number that stays with the pit while the board is turned, so that its stones lie still.
    bowl.replaceChildren(drawStones(board[pit], (pit + 6 * mover) % 12));
    if (move) this.markWhatFell(bowl, move, (pit + 6) % 12);
  }

  /** The pits of a move are numbered by its mover, who is the other side now. */
  markWhatFell(bowl, move, pit) {
    const fall = move.falls.indexOf(pit);
    void bowl.offsetWidth; // else an animation that has run does not run again
    if (move.taken.includes(pit)) {
      bowl.classList.add("lost");
    } else if (fall >= 0) {
      bowl.classList.add("fell");
      bowl.style.animationDelay = `${45 * fall}ms`;
    }
  }

  drawPlayers() {
    const { state: { board, mover, captured }, below } = this.shown, hasEnded = isEnded(board);
    [1 - below, below].forEach((side, row) => {
      const isMover = side === mover, stones = element("b", {}, String(captured[side]));
      this.players[row].classList.toggle("moves", isMover && !hasEnded);
      this.players[row].replaceChildren(
        element("span", { class: "dot" }),
        element("span", { class: "name" }, SIDES[side]),
        element("span", { class: "turn" }, this.turnOf(side)),
        element("span", { class: "captured" }, "captured ", stones));
    });
  }

  /** Whether a side is to move, and whether the table plays it. */
  turnOf(side) {
    const { state: { board, mover }, opponent, weighed } = this.shown, isTable = opponent.sides[side];
    if (side !== mover) return isTable ? "the table" : "";
    if (isEnded(board)) return "has no move";
    if (!isTable) return "to move";
    if (opponent.isResting) return "the table waits";
    if (opponent.isThinking) return "the table moves…";
    return weighed?.moves.some(({ fault }) => fault) ? "the table can’t tell" : "the table";
  }

  /** Shows where the stones of a pit would fall and what they would capture; of null, nothing. */
  preview(pit) {
    const { state: { board }, isEditing } = this.shown;
    const canPlay = pit !== null && !isEditing && isLegal(board, pit);
    const move = canPlay ? play(board, pit) : { pit: null, falls: [], taken: [] };
    this.places.forEach((element, place) => {
      const here = this.pitAt(place), times = move.falls.filter(fall => fall === here).length;
      element.classList.toggle("taken", move.taken.includes(here));
      element.classList.toggle("origin", move.pit === here);
      element.querySelector(".plus")?.remove();
      if (times) element.children[2].append(this.makePlus(times));
    });
  }

  makePlus(times) { return element("span", { class: "plus", "aria-hidden": "true" }, `+${times}`); }

  // ---- hands ----

  /** The board is one stop of the tabulator. The arrow keys go from pit to pit. */
  leadTabulator() {
    this.places.forEach((pit, place) => { pit.tabIndex = place === this.focused ? 0 : -1; });
  }

  onFocus(place) {
    this.focused = place;
    this.leadTabulator();
    this.preview(this.pitAt(place));
  }

  onRightClick(event, place) {
    if (!this.shown.isEditing) return;
    event.preventDefault();
    this.hands.add(this.pitAt(place), -1);
  }

  onKey(event) {
    if (event.ctrlKey || event.metaKey || event.altKey) return;
    if (!this.goByArrow(event.key) && !this.editByKey(event.key)) return;
    event.stopPropagation();
    event.preventDefault();
  }

  goByArrow(key) {
    const step = { ArrowLeft: -1, ArrowRight: 1, ArrowUp: -6, ArrowDown: 6 }[key];
    if (step === undefined) return false;
    const place = this.focused + step;
    const staysInRow = Math.floor(place / 6) === Math.floor(this.focused / 6);
    if (place >= 0 && place < 12 && (staysInRow || Math.abs(step) === 6)) this.places[place].focus();
    return true;
  }

  editByKey(key) {
    if (!this.shown.isEditing) return false;
    const pit = this.pitAt(this.focused);
    if (["+", "="].includes(key)) this.hands.add(pit, 1);
    else if (["-", "Delete", "Backspace"].includes(key)) this.hands.add(pit, -1);
    else if (/^[0-9]$/.test(key)) this.hands.set(pit, Number(key));
    else return false;
    return true;
  }
}
