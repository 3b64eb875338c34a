// @ts-check
// What boards and moves are worth, in words.

import { endGain, isEnded, stonesOf } from "./rules.mjs";
import { pitName } from "./letters.mjs";
import { plies, plural, SIDES, signed, spoken } from "./words.mjs";

const endsAhead = (lead, side) =>
  lead === 0 ? "the two end level" : `${SIDES[lead > 0 ? side : 1 - side]} ends ${Math.abs(lead)} ahead`;

/** How many stones a move threw away, and of what. */
export function wordsOfToll({ before, after, thrown }) {
  if (thrown === 0) return `keeps the worth, ${signed(before)}`;
  return `threw away ${plural(thrown, "stone")}: worth ${signed(before)} before, ${signed(after)} after`;
}

/** A heading and a sentence on what the board is worth. */
export function verdictOf({ state, weighed }) {
  if (isEnded(state.board)) return verdictOfEnd(state);
  const side = SIDES[state.mover];
  if (!weighed?.entry) return [`${side} to move`, weighed?.fault?.message ?? ""];
  const { value, distance } = weighed.entry, lead = leadOf(state);
  const inAll = lead === 0 ? "" : `. With what was captured, ${endsAhead(lead + value, state.mover)}`;
  if (value === 0) return [`${side} to move: even`, `Neither side can force a gain${inAll}`];
  const winner = SIDES[value > 0 ? state.mover : 1 - state.mover], stones = plural(Math.abs(value), "stone");
  return [
    `${side} to move: ${value > 0 ? "gains" : "loses"} ${Math.abs(value)}`,
    `${winner} can force ${stones} more, and a capture or the end within ${plies(distance)}${inAll}`,
  ];
}

/** How much more the mover has captured so far. */
const leadOf = ({ captured, mover }) => captured[mover] - captured[1 - mover];

function verdictOfEnd(state) {
  const { board, mover, move } = state, stones = stonesOf(board), gain = endGain(board);
  const keeper = SIDES[gain > 0 ? mover : 1 - mover], last = stones === 1 ? "stone" : `${stones} stones`;
  const keeps = stones === 0 ? "No stones are left" : `${keeper} keeps the last ${last}`;
  return ["Play has ended", move ? `${keeps}; ${endsAhead(leadOf(state) + gain, mover)}` : keeps];
}

export const spokenVerdict = shown => verdictOf(shown).filter(Boolean).join(". ");

/** A grand slam and a capture, a value and a distance of a move, in words for a voice. */
export function wordsOfMove(move, hasHints) {
  const worth = move.fault || move.value === undefined ? "its worth is not known" : `worth ${spoken(move.value)}`;
  return [
    move.captured ? `captures ${move.captured}` : move.isSlam ? "a grand slam, captures nothing" : "captures nothing",
    ...(hasHints ? [worth] : []),
    ...(move.distance ? [`within ${plies(move.distance)}`] : []),
    ...(move.isPlan ? ["the plan"] : []),
  ].join(", ");
}

// ---- puzzles ----

/** What there is to do in a puzzle, or what came of it. South solves it. */
export function wordsOfPuzzle({ puzzle, hasLetters }) {
  const { standing, value, gained, rightMoves, decided } = puzzle;
  if (value === null) return "The levels are being asked.";
  if (standing === "home") return `Solved: South has gained ${plural(gained, "stone")}, and threw nothing away.`;
  if (standing === "round") return `This board was there before, so play goes round: ${gained} of ${value} are home.`;
  if (standing === "lost") return wordsOfLoss(decided, hasLetters);
  if (standing === "shown") return `Not solved. ${rightPits(decided, hasLetters)}`;
  if (rightMoves > 0) return `Right so far: ${gained} of ${value} are home. South to move.`;
  const { distance } = decided.weighed.entry;
  return `South gains ${value} by one move alone, and another captures more. A capture or the end comes within ${plies(distance)}.`;
}

function wordsOfLoss({ weighed, costs, pit }, hasLetters) {
  const before = weighed.entry.value, thrown = costs.thrown.get(pit);
  const toll = wordsOfToll({ before, after: before - thrown, thrown });
  return `Pit ${pitName(pit, 0, hasLetters)} ${toll}. ${rightPits({ costs }, hasLetters)}`;
}

function rightPits({ costs: { right } }, hasLetters) {
  const names = right.map(pit => pitName(pit, 0, hasLetters));
  return names.length === 1 ? `Right is pit ${names[0]}.` : `Right are pits ${names.join(", ")}.`;
}
