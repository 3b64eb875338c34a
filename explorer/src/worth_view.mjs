// @ts-check
// What the board that is shown is worth: a verdict and the table of moves; and what was played.

import { element, refill } from "./elements.mjs";
import { thrownBySides } from "./game.mjs";
import { pitName } from "./letters.mjs";
import { compareMoves } from "./opponent.mjs";
import { makePly } from "./plies_view.mjs";
import { endGain, isEnded, legalPits, play } from "./rules.mjs";
import { verdictOf, wordsOfMove, wordsOfToll } from "./verdict.mjs";
import { grouped, kindOf, plies, SIDES, signed } from "./words.mjs";
import { hasFault } from "./worths.mjs";

function makeVerdict(shown) {
  const { state, weighed } = shown, hasEnded = isEnded(state.board);
  const [title, text] = verdictOf(shown);
  const value = hasEnded ? endGain(state.board) : weighed?.entry?.value;
  const kind = value === undefined ? "open" : kindOf(value);
  return element("div", { class: "verdict" },
    element("div", { class: `value-box ${kind}` },
      element("span", { id: "value" }, value === undefined ? "?" : signed(value)),
      element("small", {}, `for ${SIDES[state.mover]}`)),
    element("div", {},
      element("b", {}, title),
      element("p", {}, wordsBeside(shown, text && `${text}.`))));
}

function wordsBeside({ state, weighed, hasHints, puzzle }, text) {
  if (isEnded(state.board) || weighed) return text;
  if (hasHints) return "The levels are being asked.";
  return puzzle?.isOpen ? "Hints are hidden until the puzzle is over." : "Hints are off.";
}

// ---- the table of moves ----

function makeMovesTable(shown, hands) {
  const { state: { board }, weighed, hasHints } = shown;
  const moves = weighed
    ? [...weighed.moves].sort(compareMoves)
    : legalPits(board).map(pit => play(board, pit));
  const names = ["Move", "Captures", ...(hasHints ? ["Value", "Within"] : [])];
  const heads = names.map(text => element("th", { scope: "col" }, text));
  const planHead = element("th", { scope: "col" }, element("span", { class: "unseen" }, "Plan"));
  return element("table", { id: "moves" },
    element("caption", { class: "unseen" }, hasHints ? "The legal moves, the best first" : "The legal moves"),
    element("thead", {}, element("tr", {}, ...heads, hasHints && planHead)),
    element("tbody", {}, ...moves.map(move => makeMoveRow(move, shown, hands))));
}

function makeMoveRow(move, { state: { mover }, hasHints, hasLetters }, hands) {
  const name = pitName(move.pit, mover, hasLetters), label = `Play pit ${name}, ${wordsOfMove(move, hasHints)}`;
  const playButton = element("button", { type: "button", class: "button", "aria-label": label }, `Pit ${name}`);
  const slam = element("span", { title: "A grand slam: it would take all, and takes nothing" }, "0 (slam)");
  const row = element("tr", { "data-pit": move.pit },
    element("td", {}, playButton),
    element("td", { class: "captures" }, move.isSlam ? slam : String(move.captured)),
    ...(hasHints ? makeWorthCells(move) : []));
  row.addEventListener("click", () => hands.play(move.pit));
  for (const event of ["pointerenter", "focusin"]) row.addEventListener(event, () => hands.preview(move.pit));
  for (const event of ["pointerleave", "focusout"]) row.addEventListener(event, () => hands.preview(null));
  return row;
}

function makeWorthCells(move) {
  const isKnown = move.value !== undefined && !move.fault;
  const value = isKnown
    ? element("span", { class: `value ${kindOf(move.value)}` }, signed(move.value))
    : element("span", { class: "soft" }, "?");
  return [
    element("td", {}, value),
    element("td", { class: "within" }, ...(isKnown ? withinOf(move) : [])),
    element("td", { class: "plan-mark" }, move.isPlan && "plan"),
  ];
}

/** The distance. A narrow table has no room for the word behind it. */
const withinOf = ({ distance }) => distance
  ? [grouped(distance), element("span", { class: "wide" }, distance === 1 ? " ply" : " plies")]
  : ["–"];

// ---- what is wrong with it ----

function makeRemarks({ weighed, record }) {
  const remarks = [], unknown = weighed?.moves.find(move => move.fault);
  if (weighed?.broken)
    remarks.push(element("p", { class: "status wrong", role: "alert" },
      element("b", {}, "The files are wrong here. "),
      `The entry of this board breaks rule ${weighed.broken} beside those of its moves. See `,
      element("code", {}, "awari verify FOLDER"), "."));
  if (weighed?.entry && unknown) remarks.push(element("p", { class: "small bad" }, `${unknown.fault.message}.`));
  if (record.isRepeated)
    remarks.push(element("p", { class: "small soft" },
      "This board was there before. Play that goes on for ever without a capture gains neither side anything."));
  return remarks;
}

/** Whether something stands there that tells what is not known. */
const tellsFault = box => box.dataset.fault === "true";

/**
 * While the entries are being read, what was there before stays, but faint: nothing flickers. What was not known then
 * goes at once.
 */
export function drawWorth(box, shown, hands) {
  const isWaiting = !shown.weighed && !isEnded(shown.state.board) && shown.hasHints;
  const stays = isWaiting && box.childElementCount > 0 && !tellsFault(box);
  box.setAttribute("aria-busy", String(!shown.weighed && shown.hasHints));
  box.classList.toggle("waiting", stays);
  if (stays) return;
  box.dataset.fault = String(hasFault(shown.weighed));
  const hasMoves = !isEnded(shown.state.board);
  refill(box, [makeVerdict(shown), ...(hasMoves ? [makeMovesTable(shown, hands)] : []), ...makeRemarks(shown)]);
}

/** Whether the proved code says what is shown. */
export function drawStanding(box, { weighed, hasHints }) {
  if (!weighed && hasHints) return; // what was there before stays, as the worth does
  box.className = `standing ${weighed?.isProved ? "proved" : ""}`;
  box.textContent = weighed?.isProved ? "by the proved code" : weighed?.entry ? "not verified" : "";
}

// ---- what was played ----

/** The moves of the play that is shown, its score, and what was thrown away. */
export function drawPlayed({ card, list, score, told }, { record, state, tolls, hasLetters }, hands) {
  const { start, end, at } = record;
  card.hidden = start === end;
  const items = record.states.slice(start + 1, end + 1).map((to, offset) => {
    const index = start + 1 + offset, toll = tolls.get(to);
    const attributes = { class: index > at ? "later" : "", "aria-current": index === at && "step" };
    const ply = { label: `Go to ply ${offset + 1}`, action: () => hands.go(index), hasLetters, toll };
    return makePly(to.move, 1 - to.mover, ply, attributes);
  });
  refill(list, items, "[aria-current]");
  scrollTo(list, list.querySelector("[aria-current]"));
  score.textContent = `South ${state.captured[0]} : ${state.captured[1]} North`;
  told.textContent = thrownText(record.states.slice(start, at + 1), tolls, hasLetters);
}

/** Scrolls a list, and not the page, so that an element is in its middle. */
function scrollTo(list, element) {
  if (element) list.scrollTop = element.offsetTop - list.offsetTop - list.clientHeight / 2;
}

/** What the last of these moves cost, and what both sides threw away by all of them. */
function thrownText(states, tolls, hasLetters) {
  const { move, mover } = states.at(-1), toll = tolls.get(states.at(-1));
  if (!move || !toll) return "";
  const last = `${SIDES[1 - mover]}’s pit ${pitName(move.pit, 1 - mover, hasLetters)} ${wordsOfToll(toll)}.`;
  const [south, north] = thrownBySides(states, states.slice(1).map(state => tolls.get(state) ?? null));
  return south + north === 0 ? last : `${last} In all South threw away ${south} and North ${north}.`;
}
