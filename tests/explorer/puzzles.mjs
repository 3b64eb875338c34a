// Tests puzzles beside the program: which boards are drawn, what is right and what is thrown away, and how one is
// solved. checked.mjs says how.
import { execFileSync } from "node:child_process";
import { Library } from "../../explorer/src/library.mjs";
import { tableMove } from "../../explorer/src/opponent.mjs";
import { costsOf, drawn, marginOf, parseAsked, printAsked, wordsOf } from "../../explorer/src/puzzle.mjs";
import { Puzzler } from "../../explorer/src/puzzler.mjs";
import { print } from "../../explorer/src/rules.mjs";
import { Shelf } from "../../explorer/src/shelf.mjs";
import { Streak } from "../../explorer/src/streak.mjs";
import { weigh } from "../../explorer/src/worths.mjs";
import { awari, below, end, expect, filesIn, folder, Proved, run, section, sessionAt } from "./checked.mjs";

const PUZZLES = 500;
const library = new Library(count => new Proved(count), () => {}, () => {});
await library.begin();
const puzzler = new Puzzler(library);
const draw = (asked, count = 10) => puzzler.draw(asked, count, () => {});

await section("links", () => {
  for (const kind of ["puzzle", "sheet"])
    for (const asked of [{ seed: 0, level: 3, hardness: 11 }, { seed: 4294967295, level: 24, hardness: 49 }]) {
      expect(printAsked(asked, kind), parseAsked(printAsked(asked, kind)), { kind, asked });
      expect("with escaped commas", parseAsked(printAsked(asked, kind).replaceAll(",", "%2C")), { kind, asked });
    }
  const wrong = {
    "puzzle=1,2": "A puzzle is named by three numbers: puzzle=SEED,LEVEL,HARDNESS", "sheet=": "A sheet is named by three numbers: sheet=SEED,LEVEL,HARDNESS",
    "puzzle=01,6,11": "A puzzle is named by three numbers: puzzle=SEED,LEVEL,HARDNESS", "puzzle=4294967296,6,11": "A seed is at most 4294967295",
    "puzzle=1,2,11": "A puzzle has 3 to 24 stones, and not 2", "puzzle=1,25,11": "A puzzle has 3 to 24 stones, and not 25",
    "puzzle=1,6,51": "The hardness is 11 to 49, and not 51", "puzzle=1,6,110": "The hardness is 11 to 49, and not 110",
  };
  for (const [text, told] of Object.entries(wrong)) {
    let message = null;
    try { parseAsked(text); } catch (fault) { message = fault.message; }
    expect(text, message, told);
  }
  expect("a board is none", parseAsked("1,0,0,0,0,1/1,0,1,0,0,0&puzzle=1"), null);
});

await section("drawn by chance", () => {
  expect("all, if there are no more", drawn([5, 6, 7], 10, 1), [5, 6, 7]);
  expect("none of none", drawn([], 10, 1), []);
  for (let seed = 0; seed < 50; seed++) {
    const some = drawn(Array.from({ length: 40 }, (_, at) => at), 10, seed);
    expect(`ten in their order, ${seed}`, [some.length, some.every((it, at) => at === 0 || it > some[at - 1])], [10, true]);
  }
});

await section("puzzles beside `awari boards --random`", async () => {
  for (let level = 3; level <= 10; level++)
    for (const hardness of [11, 21, 31, 41]) {
      const seed = below(1e6), words = wordsOf({ seed, level, hardness }, 10).replace("FOLDER", folder).split(" ").slice(1);
      const printed = run(...words).split("\n").filter(Boolean).map(line => line.split(" ")[0]);
      const boards = await draw({ seed, level, hardness }).catch(({ message }) => message);
      if (printed.length === 0) expect(`none of ${level}, ${hardness}`, boards.startsWith(`Level ${level} has no board`), true);
      else expect(`${level}, ${hardness}, seed ${seed}`, boards.map(print), printed);
    }
  expect("words that the program has not", [wordsOf({ seed: 1, level: 9, hardness: 12 }, 10), wordsOf({ seed: 1, level: 11, hardness: 11 }, 10)], [null, null]);
});

await library.open({ files: filesIn(folder), name: "levels" });
await library.settled;

/** Puzzles of many kinds, with their hardness. */
async function manyPuzzles() {
  const found = [];
  for (let turn = 0; found.length < PUZZLES; turn++) {
    const hardness = 10 * (1 + turn % 4) + 1 + turn % 3, level = 6 + turn % 7;
    const boards = await draw({ seed: turn, level, hardness }).catch(() => []);
    found.push(...boards.map(board => ({ board, hardness })));
  }
  return found.slice(0, PUZZLES);
}

const puzzles = await manyPuzzles();

await section(`${PUZZLES} puzzles beside \`awari moves\``, async () => {
  const input = puzzles.map(({ board }) => `moves ${print(board)}\n`).join("");
  const answers = execFileSync(awari, ["serve", folder, "0", "0"], { input, encoding: "utf8", maxBuffer: 1 << 28 }).split("\n\n");
  for (const [index, { board, hardness }] of puzzles.entries()) {
    const moves = answers[index].split("\n").map(line => line.split(" ")).filter(([head]) => head === "pit")
      .map(words => ({ pit: Number(words[1]), captured: Number(words[3]), value: Number(words[5]) }));
    const best = Math.max(...moves.map(({ value }) => value)), word = print(board);
    const { entry, moves: own } = await weigh(library.shelf, board), { thrown, right, second, greedy } = costsOf(entry.value, own);
    expect(`right in ${word}`, right, moves.filter(({ value }) => value === best).map(({ pit }) => pit));
    expect(`one alone in ${word}`, right.length, 1);
    expect(`thrown away in ${word}`, [...thrown].sort(), moves.map(({ pit, value }) => [pit, best - value]).sort());
    const costs = moves.map(({ value }) => best - value).sort((one, other) => one - other);
    expect(`second best in ${word}`, [second, second >= marginOf(hardness)], [costs[1], true]);
    const most = Math.max(...moves.map(({ captured }) => captured)), greediest = moves.filter(({ captured }) => captured === most);
    expect(`greedy in ${word}`, [greediest.some(({ pit }) => pit === greedy), right.includes(greedy), most > 0], [true, false, true]);
    expect(`a gain in ${word}`, best > 0, true);
  }
});

await section("the same puzzle anywhere", async () => {
  const asked = { seed: 7, level: 12, hardness: 21 };
  const [one, other] = [await draw(asked, 1), await draw(asked, 10)];
  expect("the first of a sheet of a large level", print(one[0]), print(other[0]));
  const idle = new Proved(0);
  await idle.ready;
  const read = { begun: null, hosting: null, proved: idle, shelf: await Shelf.of(filesIn(folder), idle) };
  expect("from files that nobody verified", (await new Puzzler(read).draw(asked, 10, () => {})).map(print), other.map(print));
  expect("no such level", await draw({ seed: 1, level: 13, hardness: 21 }).catch(({ message }) => message), "Level 13 is not here. Build it, or open it");
});

/** A streak that is kept here. */
function streakIn(kept) { return new Streak(() => ({ getItem: name => kept.get(name) ?? null, setItem: (name, value) => kept.set(name, value) })); }

async function opened(address, kept = new Map()) {
  const all = sessionAt(address, streakIn(kept));
  await all.session.show();
  await all.session.library.begin();
  await all.session.openAwaited();
  return { ...all, kept, asked: address };
}

const boardOf = session => print(session.shown.state.board);
const rightPit = session => session.shown.puzzle.decided.costs.right[0];
const wrongPit = session => [...session.shown.puzzle.decided.costs.thrown].find(([, cost]) => cost > 0)[0];

/** Plays the plans until the puzzle is over. */
async function solve({ session, ring }) {
  for (let turn = 0; session.shown.puzzle.isOpen && turn < 300; turn++) {
    if (session.shown.state.mover === 0) await session.play(session.plan);
    else await ring();
  }
}

await section("puzzles that are solved against the table", async () => {
  const kept = new Map();
  for (let seed = 0; seed < 40; seed++) {
    const page = await opened(`puzzle=${seed},${7 + seed % 3},${[11, 31, 21][(seed + seed % 3) % 3]}`, kept), { session, told } = page;
    expect(`seed ${seed}: hints are hidden`, [session.seen.weighed, session.seen.line, session.seen.hasHints], [null, null, false]);
    expect("the address names it", [told.links.at(-1), session.link], [page.asked, page.asked]);
    const value = session.shown.puzzle.value;
    expect("its gain is told", told.said.startsWith(`South gains ${value} by one move alone`), true);
    await solve(page);
    const { puzzle, opponent } = session.shown;
    expect(`seed ${seed}: the gain is home`, [puzzle.standing, puzzle.gained >= value, puzzle.thrown], ["home", true, 0]);
    expect("it is said", told.said.includes("Solved: South has gained"), true);
    await page.settled();
    expect("hints are there again", [session.seen.hasHints, session.seen.weighed !== null || session.shown.weighed === null], [true, true]);
    expect("the table plays no more", opponent.sides, [false, false]);
    expect("the line is shown", puzzle.line.plies[0].pit, session.record.game.pits[0]);
  }
  expect("the streak", kept.get("awari-explorer.streak"), "40 40");
});

await section("the hardest defence", async () => {
  const { session, ring } = await opened("puzzle=3,6,31");
  await session.play(rightPit(session));
  const wanted = tableMove(session.shown.weighed.moves), before = session.record.at;
  if (!session.shown.puzzle.isOpen) return;
  expect("no hand plays for the table", session.setTable(false, false), undefined);
  expect("the table still plays North", session.opponent.sides, [false, true]);
  await ring();
  expect("it holds out", [session.record.at, session.record.now.move.pit], [before + 1, wanted]);
});

await section("puzzles that are lost", async () => {
  const kept = new Map([["awari-explorer.streak", "3 5"]]);
  for (let seed = 0; seed < 20; seed++) {
    const { session, told, settled } = await opened(`puzzle=${seed},6,31`, kept), before = boardOf(session);
    const pit = wrongPit(session), right = rightPit(session), moves = run("moves", folder, before).split("\n").map(line => line.split(" "));
    const valueOf = wanted => Number(moves.find(words => Number(words[1]) === wanted)[5]);
    await session.play(pit);
    await settled();
    const { puzzle } = session.shown;
    expect(`seed ${seed}: thrown away`, [puzzle.standing, puzzle.thrown], ["lost", valueOf(right) - valueOf(pit)]);
    expect("it is said", told.said.includes(`Pit ${pit} threw away`) && told.said.includes(`Right is pit ${right}.`), true);
    expect("the line from before", puzzle.line.plies.map(ply => ply.pit), run("line", folder, before).split("\n")[1].split(" ").slice(1).map(Number));
    if (seed > 0) continue;
    await session.followSolution(puzzle.line.plies.slice(0, 1));
    expect("which can be followed", session.record.game.pits, [right]);
    await session.tryAgain();
    expect("again", [boardOf(session), session.shown.puzzle.isOpen], [before, true]);
    await session.play(rightPit(session));
    expect("which counts no more", kept.get("awari-explorer.streak"), "0 5");
  }
  expect("the best stays", kept.get("awari-explorer.streak"), "0 5");
});

await section("ways out of a puzzle", async () => {
  const kept = new Map([["awari-explorer.streak", "2 2"]]), { session, told, settled } = await opened("puzzle=4,6,31&", new Map()).catch(fault => ({ told: fault }));
  expect("what is behind it is refused", [session, told.message], [undefined, "A puzzle is named by three numbers: puzzle=SEED,LEVEL,HARDNESS"]);
  const page = await opened("puzzle=4,6,31", kept), puzzle = page.session.shown.puzzle;
  page.session.setHints(true);
  await page.settled();
  expect("hints are the solution", [puzzle.standing, kept.get("awari-explorer.streak"), page.told.said.startsWith("Hints are on")], ["shown", "0 2", true]);
  await page.session.openLink("puzzle=5,6,31");
  await page.session.setRandomBoard(6);
  expect("another board", [page.session.shown.puzzle, page.session.opponent.sides], [null, [false, false]]);
  await page.session.openLink("sheet=5,6,31");
  expect("a sheet", [page.told.sheet.puzzles.length, page.told.links.at(-1)], [10, "sheet=5,6,31"]);
  await page.session.openLink("puzzle=1,3,49");
  expect("no such board", page.session.shown.puzzleTold, "Level 3 has no board with a gain within 31 plies or more that all moves but one throw away by 9 stones or more. Choose more stones, or other plies.");
  await page.session.openLink("puzzle=1,20,11");
  expect("no such level", page.session.shown.puzzleTold, "Level 20 is not here. Build it, or open it.");
});

await section("a sheet beside `awari boards`", async () => {
  const { told } = await opened("sheet=11,8,31"), { asked, puzzles: printed } = told.sheet;
  const words = wordsOf(asked, 10).replace("FOLDER", folder).split(" ").slice(1);
  expect("its boards", printed.map(({ board }) => print(board)), run(...words).split("\n").map(line => line.split(" ")[0]));
  for (const { board, line } of printed) {
    const said = run("line", folder, print(board)).split("\n")[1].split(" ").slice(1).map(Number), own = line.plies.map(({ pit }) => pit);
    expect(`line of ${print(board)}, up to a board that comes again`, own, line.ended ? said : said.slice(0, own.length));
  }
});

await section("a streak", () => {
  const denied = new Streak(() => { throw new Error("denied"); });
  denied.add(true);
  expect("a page without storage", [denied.now, denied.best], [1, 1]);
  expect("nothing kept", [streakIn(new Map()).text, streakIn(new Map([["awari-explorer.streak", "x"]])).best], ["", 0]);
});

end("puzzles");
