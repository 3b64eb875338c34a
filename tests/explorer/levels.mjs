// Tests the levels of the explorer beside the program: by the proved code, and by files that it has not verified.
// checked.mjs says how.
import { execFileSync } from "node:child_process";
import { readFileSync } from "node:fs";
import { join } from "node:path";
import { Levels } from "../../bindings/awari.mjs";
import { isKnown } from "../../explorer/src/known.mjs";
import * as Files from "../../explorer/src/level_file.mjs";
import * as Rules from "../../explorer/src/rules.mjs";
import { countBoards } from "../../explorer/src/scans.mjs";
import { Shelf } from "../../explorer/src/shelf.mjs";
import * as Worths from "../../explorer/src/worths.mjs";
import { awari, below, end, expect, filesIn, folder, module, Proved, run, section } from "./checked.mjs";

const HIGHEST = 12, HIGHEST_READ = 10;
const read = number => readFileSync(join(folder, Files.nameOf(number)));
const viewOf = async level => new DataView(await level.file.arrayBuffer());
const byModule = await Levels.start(module);
for (let number = 0; number <= HIGHEST; number++) byModule.add(read(number));

/** Levels whose files are read entry by entry, since the proved code has none of them. */
const idle = new Proved(0);
await idle.ready;
const shelf = await Shelf.of(filesIn(folder), idle);
/** The same levels, verified. */
const proved = new Proved(0);
await proved.ready;
for (const { file } of shelf.levels) await proved.ask("add", file);
const verified = new Shelf(proved, shelf.levels.map(level => ({ level, standing: "verified" })));

await section("the digests of docs/levels.csv", () => {
  const rows = readFileSync(new URL("../../docs/levels.csv", import.meta.url), "utf8").trim().split("\n").slice(1).map(row => row.split(","));
  for (const [level, , , , , , digest] of rows) expect(`level ${level}`, [isKnown({ number: Number(level), digest }), digest.length], [true, 64]);
  expect("another", [isKnown({ number: 3, digest: rows[4][6] }), isKnown({ number: 25, digest: "" })], [false, false]);
});

await section("levels 0 to 10 that the proved code builds beside the program's files", async () => {
  const built = new Proved(HIGHEST_READ + 1);
  const files = await built.ready;
  for (const [number, bytes] of files.entries())
    expect(`level ${number}`, Buffer.compare(Buffer.from(bytes), read(number)), 0);
  const shares = [];
  const next = await built.askTelling(done => shares.push(done), "build");
  expect("level 11 in slices", Buffer.compare(Buffer.from(next), read(HIGHEST_READ + 1)), 0);
  expect("each slice is told", shares.length > 1 && shares.every((share, at) => share >= (shares[at - 1] ?? 0)), true);
  const stopped = built.askTelling(() => built.ask("stop"), "build");
  expect("a build that is stopped", [await stopped, built.length], [null, HIGHEST_READ + 2]);
});

await section(`every board of levels 0 to ${HIGHEST_READ}: V1 to V6 by the page's moves`, async () => {
  const views = [];
  const entryOf = board => Files.entryAt(views[Rules.stonesOf(board)], Files.placeOf(byModule.rank(board).rank));
  const worthOf = move => Worths.worthOf(move, entryOf(move.next));
  const worths = board => Rules.legalPits(board).map(pit => worthOf(Rules.play(board, pit)));
  const isRight = board => Worths.brokenRule(board, entryOf(board), worths(board)) === null;
  for (const level of shelf.levels.slice(0, HIGHEST_READ + 1)) {
    views.push(await viewOf(level));
    let wrong = 0;
    for (let rank = 0; rank < level.boards; rank++) {
      const board = byModule.board(level.number, rank);
      if (Rules.stonesOf(board) !== level.number || !isRight(board)) wrong += 1;
    }
    expect(`level ${level.number} of ${Rules.sizeOf(level.number)}`, [wrong, level.boards], [0, Rules.sizeOf(level.number)]);
  }
});

await section("the text of levels 0 to 8 beside `awari text`", async () => {
  for (const level of shelf.levels.filter(({ number }) => number <= 8)) {
    const view = await viewOf(level), lines = [`level ${level.number} limit ${level.limit}`];
    for (let rank = 0; rank < level.boards; rank++) {
      const { value, plan, distance } = Files.entryAt(view, Files.placeOf(rank));
      lines.push(`${value} ${plan ?? "-"} ${distance}`);
    }
    expect(`level ${level.number}`, lines.join("\n") === run("text", folder, String(level.number)), true);
  }
});

/** What `awari serve` says of the moves of these boards. */
function movesByProgram(boards) {
  const input = boards.map(board => `moves ${Rules.print(board)}\n`).join("");
  return execFileSync(awari, ["serve", folder, "0", "0"], { input, encoding: "utf8", maxBuffer: 1 << 28 }).split("\n\n");
}

const lineOf = ({ pit, captured, value, distance, isPlan }) =>
  `pit ${pit} captures ${captured} value ${value} distance ${distance}${isPlan ? " plan" : ""}`;

async function compareMoves(shelf, boards, isProved) {
  const answers = movesByProgram(boards);
  for (const [index, board] of boards.entries()) {
    const { entry, moves, broken, ...weighed } = await Worths.weigh(shelf, board);
    const text = moves.length ? moves.map(lineOf).join("\n") : `ended ${entry.value}`;
    expect(Rules.print(board), [text, broken, weighed.isProved], [answers[index], null, isProved]);
  }
}

const randomBoards = count => Array.from({ length: count }, () => Rules.randomBoard(below(HIGHEST + 1)));

await section("moves of 5000 random boards beside `awari serve`, entry by entry", () =>
  compareMoves(shelf, randomBoards(5000), false));

await section("moves of all boards of levels 0 to 7 and 20000 random ones, by the proved code", () => {
  const all = shelf.levels.slice(0, 8).flatMap(({ number, boards }) =>
    Array.from({ length: boards }, (_, rank) => byModule.board(number, rank)));
  return compareMoves(verified, [...all, ...randomBoards(20000)], true);
});

/** A line as the program prints it, which goes on after a repetition for so many plies. */
function textOfLine({ value, plies, repeats, outcome }, length) {
  const pitAt = ply => plies[ply < plies.length ? ply : repeats + (ply - repeats) % (plies.length - repeats)].pit;
  const pits = Array.from({ length: repeats === null ? plies.length : length }, (_, ply) => pitAt(ply));
  return `value ${value}\n${["moves", ...pits].join(" ")}\noutcome ${outcome}`;
}

/** Whether the line that these levels give is the one that the program prints. */
function expectLine(board, line) {
  const said = run("line", folder, board), length = said.split("\n")[1].split(" ").length - 1;
  expect(board, textOfLine(line, length), said);
}


await section("60 best lines beside `awari line`, by the proved code and entry by entry", async () => {
  for (let turn = 0; turn < 60; turn++) {
    const board = Rules.randomBoard(below(HIGHEST));
    expectLine(Rules.print(board), await Worths.bestLine(turn % 2 ? shelf : verified, board));
  }
});

/** How many even boards whose line is endless are taken of each level. */
const ENDLESS = [[2, 13], [3, 30], [4, 30], [6, 30], [7, 30], [8, 30], [9, 37]];

/** The line of a board ply by ply, up to the first board that comes again: its pits, and after which ply that stood. */
function linePlies(board) {
  const rows = run("line", folder, board, "--plies").split("\n").map(row => row.split(" "));
  const plies = rows.filter(([head]) => head === "ply"), repeat = rows.find(([head]) => head === "repeats");
  return {
    pits: plies.map(row => Number(row[3])),
    repeats: repeat ? Number(repeat[1]) : null,
    last: Rules.parse(plies.at(-1)?.[plies.at(-1).indexOf("board") + 1] ?? board),
  };
}

/** So many even boards of a level whose line is endless, from all over the level. */
function endlessBoards(level, count) {
  const even = run("boards", folder, String(level), "--value", "0..0").split("\n").map(row => row.split(" ")[0]);
  const found = [], step = Math.max(1, Math.floor(even.length / (3 * count)));
  for (let at = 0; at < even.length && found.length < count; at += step) {
    const line = linePlies(even[at]);
    if (!Rules.isEnded(line.last)) found.push({ board: even[at], ...line });
  }
  return found;
}


await section("200 endless lines beside `awari line`, below a level of the greatest limit", async () => {
  const high = await Shelf.of(filesIn(folder), idle);
  high.level(HIGHEST).limit = 2 ** 32 - 1;
  const lines = ENDLESS.flatMap(([level, count]) => endlessBoards(level, count));
  expect("so many endless lines", lines.length, 200);
  expect("some of them end by the limit", lines.some(({ repeats }) => repeats === null), true);
  for (const { board, pits, repeats } of lines) {
    for (const shelf of [high, verified]) {
      const line = await Worths.bestLine(shelf, Rules.parse(board));
      expect(`plies of ${board}`, [line.plies.map(({ pit }) => pit), line.repeats], [pits, repeats]);
      expectLine(board, line);
    }
  }
  const { repeats, outcome } = await Worths.bestLine(high, Rules.parse("2,0,1,0,1,1/1,2,1,0,0,1"));
  expect("a line ends whatever the limit", [repeats, outcome], [61, 0]);
});

await section("counts beside `awari build`, and the first boards of each value and distance", async () => {
  const built = run("build", String(HIGHEST)).split("\n");
  for (const level of shelf.levels) {
    const counts = await countBoards(level), { won, even, lost, greatest } = counts, view = await viewOf(level);
    const line = `level ${level.number} boards ${level.boards} won ${won} even ${even} lost ${lost} limit ${greatest}`;
    expect(`level ${level.number}`, line, built[level.number]);
    const sum = columns => columns.reduce((all, { boards }) => all + boards, 0);
    const sums = [sum(counts.values), sum(counts.distances)];
    expect(`columns of level ${level.number}`, sums, [level.boards, level.boards]);
    const entry = rank => Files.entryAt(view, Files.placeOf(rank));
    for (const { value, boards, first } of counts.values)
      if (boards) expect(`first of value ${value}`, entry(first).value, value);
    for (const { distance, boards, first } of counts.distances)
      if (boards) expect(`first of distance ${distance}`, entry(first).distance, distance);
  }
});

await section("a count that is stopped", async () => {
  const control = new AbortController(), parts = [];
  const told = part => {
    parts.push(part);
    control.abort();
  };
  const ended = countBoards(shelf.level(HIGHEST), told, control.signal);
  expect("it ends", await ended.then(() => "done", fault => fault.name), "AbortError");
  expect("it says how far it is", [parts.length, parts[0] > 0 && parts[0] < 1], [1, true]);
});

end("levels of the explorer");
