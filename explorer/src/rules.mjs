// @ts-check
// The game by docs/RULES.md. Nothing here knows of files or of the page.
//
// The proved code answers from a thread of its own, and what a pointer passes over is drawn at once: where the
// stones of a pit fall, and whether it can be played. So the rules are here too, and tested beside the program.

/**
 * @typedef {number[]} Board the stones of twelve pits, as the mover sees them: pits 0 to 5 are the mover's own,
 * and pits 6 to 11 are the opponent's
 *
 * @typedef {object} Move
 * @property {number} pit
 * @property {number[]} falls the pits into which its stones fall, one by one
 * @property {number[]} taken the pits that are captured
 * @property {boolean} isSlam whether it would take all that the opponent has, and so takes nothing
 * @property {number} captured how many stones it captures
 * @property {Board} next the board that it leaves, as the other player sees it
 */

/** What is refused, by the number and the name that the program has for it (docs/FORMATS.md). */
export class Fault extends Error {
  constructor(number, name, text) {
    super(`${text} (${number} ${name})`);
    this.number = number;
    this.fault = name;
    /** Whether the same may succeed later. */
    this.isPassing = false;
  }
}

export const MOST_STONES = 48;
const OWN_PITS = [0, 1, 2, 3, 4, 5];

// ---- boards ----

/** @param {Board} board */
export const stonesOf = board => board.reduce((sum, stones) => sum + stones, 0);

/**
 * The board as the other player sees it.
 * @param {Board} board
 * @returns {Board}
 */
export const turned = board => [...board.slice(6), ...board.slice(0, 6)];

export const print = board => `${board.slice(0, 6)}/${board.slice(6)}`;

export const areSame = (board, other) => print(board) === print(other);

/**
 * The board that a word spells.
 * @param {string} text
 * @returns {Board}
 */
export function parse(text) {
  const sides = text.split("/").map(side => side.split(","));
  if (sides.length !== 2 || sides.some(side => side.length !== 6))
    throw new Fault(1, "Shape", "A board is six numbers, a slash and six numbers, parted by commas");
  const wrong = sides.flat().find(field => !/^(0|[1-9][0-9]?)$/.test(field));
  if (wrong !== undefined)
    throw new Fault(2, "Number", `“${wrong}” is no number from 0 to 99 in its shortest form`);
  const board = sides.flat().map(Number);
  if (stonesOf(board) > MOST_STONES)
    throw new Fault(3, "TooMany", `These are ${stonesOf(board)} stones, and a board has at most ${MOST_STONES}`);
  return board;
}

// ---- moves ----

/** Where the stones of a pit fall, one by one. The origin is left out on each lap. */
const landings = (board, origin) =>
  Array.from({ length: board[origin] }, (_, stone) => (origin + 1 + stone % 11) % 12);

const opponentHasStones = board => board.slice(6).some(stones => stones > 0);

const feeds = (board, pit) => opponentHasStones(board) || landings(board, pit).some(fall => fall >= 6);

export const isLegal = (board, pit) => OWN_PITS.includes(pit) && board[pit] > 0 && feeds(board, pit);

export const legalPits = board => OWN_PITS.filter(pit => isLegal(board, pit));

export const isEnded = board => legalPits(board).length === 0;

/** What the mover gains if play has ended: each player takes the stones on their own side. */
export const endGain = board => stonesOf(board.slice(0, 6)) === 0 ? -stonesOf(board) : stonesOf(board);

/**
 * Why a pit can't be played, or null.
 * @param {Board} board
 * @param {number} pit
 */
export function refusalOf(board, pit) {
  if (!OWN_PITS.includes(pit)) return new Fault(4, "NoPit", `The mover has no pit ${pit}`);
  if (isEnded(board)) return new Fault(7, "Ended", "The play has ended");
  if (board[pit] === 0) return new Fault(5, "EmptyPit", `Pit ${pit} is empty`);
  if (!feeds(board, pit))
    return new Fault(6, "MustFeed", `The opponent has no stones, and pit ${pit} would give none while another does`);
  return null;
}

/** The opponent's pits that a capture would take, from the last stone back. */
function capturedPits(sown, lastFall) {
  const taken = [];
  for (let pit = lastFall; pit >= 6 && (sown[pit] === 2 || sown[pit] === 3); pit--) taken.push(pit);
  return taken;
}

/**
 * The move from a pit. It throws its refusal.
 * @param {Board} board
 * @param {number} pit
 * @returns {Move}
 */
export function play(board, pit) {
  const refused = refusalOf(board, pit);
  if (refused) throw refused;
  const falls = landings(board, pit), sown = [...board];
  sown[pit] = 0;
  for (const fall of falls) sown[fall] += 1;
  const reached = capturedPits(sown, falls.at(-1));
  const stones = reached.reduce((sum, each) => sum + sown[each], 0);
  // A grand slam would take all that the opponent has, and takes nothing.
  const isSlam = stones > 0 && stones === stonesOf(sown.slice(6));
  const taken = isSlam ? [] : reached;
  for (const each of taken) sown[each] = 0;
  return { pit, falls, taken, isSlam, captured: isSlam ? 0 : stones, next: turned(sown) };
}

/** How many boards have so many stones: in how many ways they lie in twelve pits. */
export function sizeOf(stones) {
  let ways = 1;
  for (let bars = 1; bars <= 11; bars++) ways = ways * (stones + bars) / bars;
  return ways;
}

/**
 * Any board of so many stones, each as likely: eleven bars among the stones part the pits.
 * @returns {Board}
 */
export function randomBoard(stones) {
  const bars = new Set();
  while (bars.size < 11) bars.add(Math.floor(Math.random() * (stones + 11)));
  const ends = [-1, ...[...bars].sort((one, other) => one - other), stones + 11];
  return Array.from({ length: 12 }, (_, pit) => ends[pit + 1] - ends[pit] - 1);
}
