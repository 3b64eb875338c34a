// Asks each row of tests/library/cases.rows of bindings/awari.mjs.
//
//     node tests/module/cases.mjs MODULE ROWS ROOM
//
// ROOM has the folders that tests/library/folders.py makes. The module takes the bytes of files, so what a folder
// alone can refuse is left out. It prints each row whose answer is another one, and ends with `N passed, M failed`.
import { createHash } from "node:crypto";
import { existsSync, readFileSync } from "node:fs";
import { join } from "node:path";
import { Levels, Refused } from "../../bindings/awari.mjs";

const [modulePlace, rowsPlace, room] = process.argv.slice(2);
const module = readFileSync(modulePlace), none = await Levels.start(module);
const word = board => `${board.slice(0, 6)}/${board.slice(6)}`;
const list = (found, text) => (found.length ? found.map(text).join("; ") : "none");
const pits = moves => (moves.length ? moves.join(" ") : "none");

/** The levels of a folder's files, up to the first that is not there, or why one is refused. */
async function opened(place) {
  const levels = await Levels.start(module);
  const fileOf = level => join(room, place, `level_${String(level).padStart(2, "0")}.awdb`);
  for (let level = 0; level <= 24 && existsSync(fileOf(level)); level++) levels.add(readFileSync(fileOf(level)));
  return levels;
}

const CALLS = {
  entry: (levels, board) => {
    const { value, plan, distance } = levels.entry(board), [one] = levels.probeMany([board]);
    const isSame = one.value === value && one.plan === plan && one.distance === distance;
    const isAlone = levels.value(board) === value;
    return `${value} ${plan ?? "-"} ${distance}${isSame && isAlone ? "" : ", and otherwise by another call"}`;
  },
  moves: (levels, board) => list(levels.moves(board), it => `${it.pit} ${it.captures} ${it.value} ${it.distance}`),
  line: (levels, board) => {
    const { moves, outcome } = levels.line(board);
    return `${pits(moves)} outcome ${outcome}`;
  },
  longest: (levels, board) => pits(levels.longestLine(board)),
  counts: (levels, level) => Object.values(levels.counts(Number(level))).join(" "),
  build: levels => {
    const own = levels.share(), level = own.length, file = own.build();
    if (own.length !== level + 1 || levels.length !== level) return "another number of levels";
    own.close();
    const digest = createHash("sha256").update(file.subarray(0, -32)).digest("hex");
    return Buffer.from(file.subarray(-32)).toString("hex") === digest ? `${level} ${digest}` : "another digest";
  },
  legal: (_, board) => pits(none.legal(board)),
  sentence: (_, number) => none.sentence(Number(number)),
  play: (_, board, pit) => {
    const { board: after, captures } = none.play(board, Number(pit));
    return `${word(after)} ${captures}`;
  },
  rank: (_, board) => Object.values(none.rank(board)).join(" "),
  board: (_, level, rank) => word(none.board(Number(level), Number(rank))),
  size: (_, level) => String(none.size(Number(level))),
};

/** What a call tells, or why it is refused. */
function told(call) {
  try {
    return call();
  } catch (fault) {
    return fault instanceof Refused ? fault.message : fault.name;
  }
}

/** The words of a row; then the same with its board as pits, if it has one. */
function asked(words, answer) {
  const given = words.map(it => (it === "NULL" ? null : it.replace("''", "")));
  const numbers = given[0]?.split(/[,/]/) ?? [];
  const isBoard = numbers.length === 12 && !/^[12] /.test(answer);
  return isBoard ? [given, [numbers.map(Number), ...given.slice(1)]] : [given];
}

const places = new Map();

/** The levels of a place: none if they are refused. */
async function levelsOf(place) {
  if (!places.has(place)) {
    const isOther = place === "shared" || place === "closed";
    const levels = place === "-" ? none : await opened(isOther ? "levels" : place).catch(() => null);
    places.set(place, place === "shared" ? levels.share() : levels);
    if (isOther) levels.close();
  }
  return places.get(place);
}

/** All that a row is told. None if node has no such call, or no such place. */
async function answers({ place, call, words, answer }) {
  if (call === "open" && words.length === 0 && place !== "NULL" && !answer.startsWith("82"))
    return [await opened(place).then(levels => String(levels.length), fault => fault.message)];
  if (!(call in CALLS)) return [];
  const levels = await levelsOf(place);
  return levels === null ? [] : asked(words, answer).map(given => told(() => CALLS[call](levels, ...given)));
}

function rowOf(line) {
  const [left, answer] = line.split(" = "), [place, call, ...words] = left.split(" ");
  return { line, place, call, words, answer };
}

let passed = 0, failed = 0;
const lines = readFileSync(rowsPlace, "utf8").split("\n").filter(line => line && !line.startsWith("#"));
for (const row of lines.map(rowOf))
  for (const answer of await answers(row)) {
    if (answer === row.answer) passed += 1;
    else {
      failed += 1;
      console.log(`${row.line}: told ${answer}`);
    }
  }
console.log(`${passed} passed, ${failed} failed`);
process.exit(failed || !passed ? 1 : 0);
