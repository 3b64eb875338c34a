// Tests what explorer/src has for play: games and their text, the opponent, addresses, letters, choices, and a session
// that has them all. checked.mjs says how.
import { execFileSync } from "node:child_process";
import { readFileSync } from "node:fs";
import { join } from "node:path";
import { Levels } from "../../bindings/awari.mjs";
import { Choices } from "../../explorer/src/choices.mjs";
import { parseGame, printGame, stateAfter, statesOf, thrownBySides, tollsOf } from "../../explorer/src/game.mjs";
import { letterOf, pitName } from "../../explorer/src/letters.mjs";
import { nameOf } from "../../explorer/src/level_file.mjs";
import { parseLink, printLink } from "../../explorer/src/links.mjs";
import { compareMoves, Opponent, tableMove } from "../../explorer/src/opponent.mjs";
import { Record } from "../../explorer/src/record.mjs";
import { endGain, isEnded, legalPits, parse, print, randomBoard } from "../../explorer/src/rules.mjs";
import { awari, below, end, expect, folder, module, run, section, sessionAt } from "./checked.mjs";

const HIGHEST = 10;
const FIRST = "1,0,0,0,0,1/1,0,1,0,0,0";
const oneOf = list => list[below(list.length)];

/** The moves of many boards with their worths, as `awari serve` tells them. */
function movesOfAll(boards) {
  const input = boards.map(board => `moves ${print(board)}\n`).join("");
  const streams = { input, encoding: "utf8", maxBuffer: 1 << 28 };
  const answers = execFileSync(awari, ["serve", folder, "0", "0"], streams).split("\n\n");
  const moveOf = words => {
    const [pit, captured, value, distance] = [1, 3, 5, 7].map(at => Number(words[at]));
    return { pit, captured, value, distance, isPlan: words[8] === "plan" };
  };
  return boards.map((_, index) =>
    answers[index].split("\n").map(line => line.split(" ")).filter(([head]) => head === "pit").map(moveOf));
}

const byModule = await Levels.start(module);
for (let level = 0; level <= HIGHEST; level++) byModule.add(readFileSync(join(folder, nameOf(level))));
const entryOf = board => byModule.entry(board);
const movesOf = board => byModule.moves(board);

/** What a text is refused for: the number of the program, and which move it is. */
function refusalOfText(read, text) {
  try {
    read(text);
    return null;
  } catch ({ number, at, message }) {
    return { number, at, message };
  }
}

function randomGame(stones, plies) {
  const game = { board: randomBoard(stones), mover: below(2), pits: [] };
  while (game.pits.length < plies) {
    const { board } = statesOf(game).at(-1);
    if (isEnded(board)) break;
    game.pits.push(oneOf(legalPits(board)));
  }
  return game;
}

await section("200 games as text beside `awari judge`", () => {
  for (let turn = 0; turn < 200; turn++) {
    const game = randomGame(below(turn % 2 ? 49 : 11), below(40)), text = printGame(game, below(30));
    const { board, captured } = statesOf(game).at(-1), running = captured[game.mover] - captured[1 - game.mover];
    const said = run("judge", ...text.split(" ")).split("\n");
    expect(text, [`board ${print(board)}`, `running ${running}`], said.slice(0, 2));
    expect(`read again: ${text}`, parseGame(text), { ...game, mover: 0 });
  }
});

await section("games as people paste them", () => {
  const wanted = { board: parse(FIRST), mover: 0, pits: [0, 2] };
  for (const text of ["9 0 2", "9 02", "4294967295\n0\n2", "9\t0   2 "]) {
    expect(text, parseGame(`${FIRST} ${text}`), wanted);
    for (const start of ["awari", "./awari", "$ ./awari", "$ /usr/bin/awari"])
      expect(`${start} ${text}`, parseGame(`  ${start} judge ${FIRST} ${text}`), wanted);
  }
  expect("a board alone", parseGame(` ${FIRST}\n`), { ...wanted, pits: [] });
  expect("a board and a limit", parseGame(`${FIRST} 0`), { ...wanted, pits: [] });
  expect("the greatest limit", printGame(wanted), `${FIRST} 4294967295 0 2`);
});

await section("wrong texts beside `awari judge`", () => {
  for (let turn = 0; turn < 300; turn++) {
    const game = randomGame(below(14), 1 + below(12)), pits = [...game.pits];
    pits[below(pits.length + 1)] = oneOf([0, 1, 2, 3, 4, 5, 6, 9, "x", "-", "é"]);
    const text = printGame({ ...game, pits });
    const said = /^refused (\d+) \w+(?: at (\d+))?$/.exec(run("judge", ...text.split(" ")));
    const refused = refusalOfText(parseGame, text);
    expect(text, refused && [refused.number, refused.at], said && [Number(said[1]), Number(said[2])]);
  }
  const message = text => refusalOfText(parseGame, text)?.message ?? null;
  expect("which move", message(`${FIRST} 9 0 2 0`), "Move 3: Pit 0 is empty (5 EmptyPit)");
  expect("no limit", message(`${FIRST} x 0`),
    "“x” is no limit. That comes after the board, 0 to 4294967295, and then the moves");
  expect("a limit too great", message(`${FIRST} 4294967296`)?.startsWith("“4294967296” is no limit"), true);
  expect("no board", refusalOfText(parseGame, "hello").number, 1);
  expect("too many stones", refusalOfText(parseGame, "48,0,0,0,0,1/0,0,0,0,0,0 9 0").number, 3);
  expect("nothing", refusalOfText(parseGame, "  ").number, 1);
});

await section("what moves threw away", async () => {
  for (let turn = 0; turn < 200; turn++) {
    const game = randomGame(below(HIGHEST + 1), 12), states = statesOf(game);
    const values = states.map(({ board }) => entryOf(board).value);
    const tolls = await tollsOf(states, async board => entryOf(board).value), thrown = [0, 0];
    for (const [index, toll] of tolls.entries()) {
      const { mover, board } = states[index], best = Math.max(...movesOf(board).map(({ value }) => value));
      expect("the best before, the move after", [toll.before, toll.before - toll.after], [best, toll.thrown]);
      thrown[mover] += toll.thrown;
    }
    expect("both sides", thrownBySides(states, tolls), thrown);
    // what comes of it is the first worth, less what one threw away, and more by what the other did
    const [one, other] = [game.mover, 1 - game.mover], { captured, mover } = states.at(-1);
    const left = mover === one ? values.at(-1) : -values.at(-1);
    expect("the sum", values[0] - thrown[one] + thrown[other], captured[one] - captured[other] + left);
  }
  const states = statesOf({ board: parse(FIRST), mover: 0, pits: [0, 2] });
  expect("unknown", await tollsOf(states, async board => board === states[2].board ? null : 0),
    [{ before: 0, after: -0, thrown: 0 }, null]);
  expect("unknown costs nothing", thrownBySides(states, [null, null]), [0, 0]);
});

await section("the table's moves of 2000 boards beside `awari serve`", () => {
  const boards = Array.from({ length: 2000 }, () => randomBoard(below(HIGHEST + 1)));
  for (const [index, moves] of movesOfAll(boards).entries()) {
    const played = moves.find(({ pit }) => pit === tableMove(moves)), word = print(boards[index]);
    if (!played) {
      expect(`ended ${word}`, [moves.length, tableMove(moves)], [0, null]);
      continue;
    }
    const { value } = entryOf(boards[index]);
    const distances = moves.filter(move => move.value === value).map(({ distance }) => distance);
    const wanted = value > 0 ? Math.min(...distances) : Math.max(...distances);
    expect(`table ${word}`, [played.value, played.distance], [value, wanted]);
    if (value === 0) expect(`even ${word}`, played.isPlan, true);
  }
  const [lost] = movesOfAll([parse("0,0,0,0,1,1/6,0,0,0,0,0")]);
  expect("not the plan, if another pit holds out longer", tableMove(lost), 5);
});

/** The states of a game that the table plays for both, up to its end or the first board that comes again. */
function gameOfTable(board) {
  const states = statesOf({ board, mover: 0, pits: [] }), met = new Set();
  for (let now = states[0]; !isEnded(now.board) && !met.has(`${now.mover} ${print(now.board)}`); now = states.at(-1)) {
    met.add(`${now.mover} ${print(now.board)}`);
    states.push(stateAfter(now, tableMove(movesOf(now.board))));
  }
  return states;
}

await section("300 games of the table with itself come to what the board is worth, in time", () => {
  for (let turn = 0; turn < 300; turn++) {
    const board = randomBoard(below(HIGHEST + 1)), { value, distance } = entryOf(board), states = gameOfTable(board);
    const { board: last, mover, captured } = states.at(-1), gain = isEnded(last) ? endGain(last) : 0;
    expect(`outcome of ${print(board)}`, captured[0] - captured[1] + (mover === 0 ? gain : -gain), value);
    const capture = states.findIndex(({ move }) => move?.captured), plies = capture < 0 ? states.length - 1 : capture;
    if (value !== 0) expect(`plies of ${print(board)}`, plies <= distance, true);
  }
});

await section("the order of moves", () => {
  const move = (pit, value, distance, more = {}) => ({ pit, value, distance, ...more });
  const order = moves => [...moves].sort(compareMoves).map(({ pit }) => pit);
  expect("by value", order([move(0, -1, 3), move(1, 2, 5), move(2, 0, 0)]), [1, 2, 0]);
  expect("the winner hurries", order([move(0, 2, 5), move(1, 2, 3)]), [1, 0]);
  expect("the loser holds out", order([move(0, -2, 3), move(1, -2, 5)]), [1, 0]);
  const even = [move(0, 0, 0), move(1, 0, 0), move(2, 0, 0, { isPlan: true })];
  expect("the plan, then the lower pit", order(even), [2, 0, 1]);
  const unknown = [move(0, undefined, undefined, { fault: new Error("59") }), move(1, 1, 1)];
  expect("what is not known comes last", order(unknown), [1, 0]);
  expect("the table plays by what is known only", tableMove(unknown), null);
});

await section("the opponent", () => {
  const timers = [], played = [];
  const clock = {
    setTimeout: call => timers.push(call),
    clearTimeout: timer => { if (timer) timers[timer - 1] = null; },
  };
  const ring = () => timers.splice(0).forEach(call => call?.());
  const opponent = new Opponent(pit => played.push(pit), clock);
  const moves = [{ pit: 3, value: 1, distance: 1 }], south = { mover: 0 }, north = { mover: 1 };
  const replies = state => {
    played.length = 0;
    opponent.consider(state, moves);
    ring();
    return played.length;
  };
  expect("neither side at first", [replies(south), replies(north)], [0, 0]);
  opponent.setSides(false, true);
  expect("North alone", [replies(south), replies(north), played], [0, 1, [3]]);
  opponent.rest();
  expect("it rests", [replies(north), opponent.isDue(north), opponent.isDue(south)], [0, true, false]);
  opponent.wake();
  expect("it wakes", replies(north), 1);
  opponent.consider(north, moves);
  expect("it thinks", opponent.isThinking, true);
  opponent.stop();
  ring();
  expect("it is stopped", [opponent.isThinking, played.length], [false, 1]);
  opponent.consider(north, []);
  expect("no move, no reply", opponent.isThinking, false);
  opponent.setSides(true, true);
  expect("both", [replies(south), replies(north)], [1, 1]);
});

await section("addresses", () => {
  for (let turn = 0; turn < 300; turn++) {
    const game = randomGame(below(49), below(30));
    const link = {
      ...game, at: below(game.pits.length + 1), below: below(2),
      table: oneOf([[false, false], [true, false], [false, true], [true, true]]),
    };
    const text = printLink(link);
    expect(text, parseLink(text), link);
    expect(`escaped ${text}`, parseLink(encodeURIComponent(text)), link);
    expect(`in one word: ${text}`, /^[0-9a-z,/&=]+$/.test(text), true);
  }
  const plain = { board: parse(FIRST), mover: 0, pits: [], at: 0, below: 0, table: [false, false] };
  expect("an address with a board alone", parseLink(FIRST), plain);
  expect("is written so still", printLink(plain), FIRST);
  const full = { ...plain, mover: 1, pits: [5], below: 1, table: [true, true] };
  const written = `${FIRST}&mover=north&moves=5&at=0&below=north&table=both`;
  expect("an address to read", printLink({ ...full, at: 0 }), written);
  expect("the end is shown if no place is named", parseLink(`${FIRST}&moves=02`).at, 2);
  expect("a place behind the end is the end", parseLink(`${FIRST}&moves=02&at=9`).at, 2);
});

await section("wrong addresses", () => {
  const message = text => refusalOfText(parseLink, text)?.message ?? null;
  expect("a part of another name", message(`${FIRST}&movr=north`),
    "The address has a part “movr”. Known are mover, moves, at, below, table");
  expect("another side", message(`${FIRST}&mover=west`),
    "The address has “mover=west”, and mover is “south” or “north”");
  expect("no number", message(`${FIRST}&at=-1`), "The address has “at=-1”, and at is a number of moves");
  expect("a table of nobody", message(`${FIRST}&table=toString`),
    "The address has “table=toString”, and table is “south”, “north” or “both”");
  expect("a move that can't be played", message(`${FIRST}&moves=03`), "Move 2: Pit 3 is empty (5 EmptyPit)");
  expect("no pit", refusalOfText(parseLink, `${FIRST}&moves=0x`).number, 4);
  expect("no board", refusalOfText(parseLink, "mover=north").number, 1);
  expect("half a percent", refusalOfText(parseLink, "%").number, 1);
});

await section("a record that opens games", () => {
  const record = new Record(parse(FIRST)), game = { board: parse(FIRST), mover: 0, pits: [0, 2, 1], at: 3 };
  const shown = () => [record.at, record.states.length, record.game.pits.join(""), record.game.at];
  record.open(game);
  expect("a game that is longer", [record.game, shown()], [game, [3, 4, "021", 3]]);
  record.open({ ...game, pits: [0], at: 1 });
  expect("its beginning: what is behind stays", shown(), [1, 4, "021", 1]);
  record.setUp(parse("0,0,0,0,0,1/0,0,0,0,0,1"), 1);
  record.play(5);
  expect("the game behind a board that was set up", shown(), [3, 4, "5", 1]);
  expect("its mover", record.game.mover, 1);
  record.open({ ...game, pits: [0], at: 0 });
  expect("the game before it", shown(), [0, 4, "0", 0]);
  record.open({ ...game, pits: [5], at: 1 });
  expect("another game takes the place of all", shown(), [1, 2, "5", 1]);
  record.open({ ...game, pits: [5], at: 0, mover: 1 });
  expect("so does the other side's", [record.game.mover, shown()], [1, [0, 2, "5", 0]]);
});

const pitsShown = session => session.record.game.pits.join("");

await section("a session with the table, without a browser", async () => {
  const { session, told, ring } = sessionAt(`${FIRST}&table=north`);
  await session.show();
  await session.library.begin();
  await ring();
  expect("the table waits for South", [pitsShown(session), session.link], ["", `${FIRST}&table=north`]);
  await session.play(0);
  await session.play(2);
  expect("no hand plays for the table", [pitsShown(session), told.said], ["0", "The table plays North"]);
  await ring();
  expect("it replies", [session.record.at, told.links.at(-1)], [2, `${FIRST}&moves=${pitsShown(session)}&table=north`]);
  expect("each move is a step", told.steps, 2);
  const tolls = session.record.states.slice(1).map(state => session.shown.tolls.get(state)?.thrown);
  expect("what South threw away", [tolls, session.shown.state.captured], [[8, 0], [0, 0]]);
  await session.undo();
  await ring();
  expect("undo takes back both, and the table rests", [session.record.at, session.link.includes("&at=0")], [0, true]);
  await session.play(5);
  await ring();
  expect("another move wakes it", [pitsShown(session)[0], session.record.at], ["5", 2]);
  expect("the score", session.shown.state.captured[0], 2);
});

await section("a session with links, texts and hints, without a browser", async () => {
  const { session, told, settled } = sessionAt(`${FIRST}&mover=north&moves=0213&at=2&below=north`);
  await session.show();
  await session.library.begin();
  expect("the place of the link", [session.record.at, session.shown.state.mover, session.shown.below], [2, 1, 1]);
  await session.comeTo(`${FIRST}&mover=north&moves=0`);
  expect("Back keeps what is behind", [session.record.at, pitsShown(session)], [1, "0213"]);
  session.turnBoard();
  expect("the board is turned", [session.shown.below, told.links.at(-1)], [0, `${FIRST}&mover=north&moves=0213&at=1`]);
  expect("a game as text", session.gameText.split(" ").filter((_, at) => at !== 1).join(" "), `${FIRST} 0 2 1 3`);
  await session.showText(`awari judge ${FIRST} 9 02`);
  expect("a text is shown", [session.record.at - session.record.start, pitsShown(session)], [2, "02"]);
  for (const text of ["hello", `${FIRST} 9 03`, `#${FIRST}&at=x`]) {
    const before = session.link;
    expect(`refused: ${text}`, refusalOfText(wrong => session.showText(wrong), text) !== null, true);
    expect(`nothing changes: ${text}`, session.link, before);
  }
  await session.showText(`https://example.org/explorer/?levels=there#${FIRST}&moves=5`);
  expect("a link is shown", [pitsShown(session), session.shown.state.captured], ["5", [2, 0]]);
  await settled();
  expect("with hints", [session.seen.weighed !== null, told.said.includes("loses 2")], [true, true]);
  session.setHints(false);
  expect("without hints", [session.seen.weighed, session.seen.line], [null, null]);
  session.setLetters(true);
  await session.go(0);
  await session.play(0);
  expect("letters are said", told.said.startsWith("South played pit A. North to move"), true);
});

await section("letters", () => {
  const pits = Array.from({ length: 12 }, (_, pit) => pit);
  expect("South to move", pits.map(pit => letterOf(pit, 0)).join(""), "ABCDEFabcdef");
  expect("North to move", pits.map(pit => letterOf(pit, 1)).join(""), "abcdefABCDEF");
  expect("by choice", [pitName(5, 0, true), pitName(5, 0, false)], ["F", "5"]);
});

await section("choices", () => {
  const kept = new Map();
  const storage = { getItem: name => kept.get(name) ?? null, setItem: (name, value) => kept.set(name, value) };
  const choices = new Choices(() => storage);
  expect("nothing chosen", [choices.get("letters", false), choices.get("hints", true)], [false, true]);
  choices.set("letters", true);
  choices.set("hints", false);
  const later = new Choices(() => storage);
  expect("kept", [later.get("letters", false), later.get("hints", true)], [true, false]);
  const denied = new Choices(() => { throw new Error("denied"); });
  denied.set("letters", true);
  expect("a page without storage", [denied.get("letters", false), denied.get("hints", true)], [true, true]);
  const full = new Choices(() => ({ getItem: () => null, setItem: () => { throw new Error("full"); } }));
  full.set("letters", true);
  expect("a storage that is full", full.get("letters", false), true);
});

end("play");
