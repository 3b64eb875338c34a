// Tests what the explorer knows of the game, of play and of set-up beside the program; checked.mjs says how.
import { Record } from "../../explorer/src/record.mjs";
import * as Rules from "../../explorer/src/rules.mjs";
import { below, caught, end, expect, run, section } from "./checked.mjs";

// Few stones, and now and then none on one side, so that captures, grand slams, feeding and ends come.
function boardForMoves(turn) {
  const board = Rules.randomBoard(turn % 3 ? below(14) : below(49));
  if (turn % 5 === 0) board.fill(0, 6);
  else if (turn % 7 === 0) board.fill(0, 0, 6);
  return board;
}

function moved(board, pit) {
  const { next, captured } = Rules.play(board, pit);
  return `${Rules.print(next)} ${captured}`;
}

await section("moves of 300 random boards of 0 to 48 stones beside `awari move`", () => {
  for (let turn = 0; turn < 300; turn++) {
    const board = boardForMoves(turn), word = Rules.print(board);
    for (let pit = 0; pit < 7; pit++)
      expect(`${word} ${pit}`, caught(() => moved(board, pit)), run("move", word, String(pit)));
  }
});

await section("words that are no boards beside `awari move`", () => {
  const words = [
    "", "1", "1,0,0,0,0,1,1,0,1,0,0,0", "1,0,0,0,0/1,0,1,0,0,0", "01,0,0,0,0,1/1,0,1,0,0,0", "+1,0,0,0,0,1/1,0,1,0,0,0",
    "1,,0,0,0,1/1,0,1,0,0,0", "100,0,0,0,0,1/1,0,1,0,0,0", "49,0,0,0,0,0/0,0,0,0,0,0", "24,0,0,0,0,0/0,0,0,0,0,25",
    "48,0,0,0,0,0/0,0,0,0,0,0", "1,0,0,0,0,1/1,0,1,0,0,0/", "a,0,0,0,0,1/1,0,1,0,0,0", "1 ,0,0,0,0,1/1,0,1,0,0,0",
    "١,0,0,0,0,0/0,0,0,0,0,0", "1,0,0,0,0,0/0,0,0,0,0,0\n",
  ];
  for (const word of words) {
    const said = run("move", word, "0"), isBoard = !/^refused [123] /.test(said);
    expect(`“${word}”`, caught(() => Rules.parse(word) && "board"), isBoard ? "board" : said);
  }
});

await section("what was set up and played", () => {
  const record = new Record(Rules.parse("1,0,0,0,0,1/1,0,1,0,0,0"));
  record.play(5);
  expect("captured", [record.now.captured, record.now.mover], [[2, 0], 1]);
  record.go(0);
  record.setUp(record.now.board, 0);
  expect("the same board is no new state", [record.at, record.end], [0, 1]);
  record.play(0);
  expect("what was behind is gone", [record.states.length, record.isLast, record.start], [2, true, 0]);
  const symmetric = Rules.parse("1,0,0,0,0,0/1,0,0,0,0,0");
  record.startAt(symmetric);
  record.add({ board: symmetric, mover: 1, captured: [0, 0], move: { captured: 0 } });
  expect("the same board with the other to move", record.isRepeated, false);
  record.add({ board: symmetric, mover: 0, captured: [0, 0], move: { captured: 0 } });
  expect("the same board with the same to move", record.isRepeated, true);
  record.startAt(Rules.parse("0,0,0,0,0,1/0,0,0,0,0,1"));
  expect("a board that is new", record.isRepeated, false);
  for (let ply = 0; ply < 400 && !record.isRepeated; ply++) {
    const { board } = record.now, quiet = Rules.legalPits(board).filter(pit => Rules.play(board, pit).captured === 0);
    if (quiet.length === 0) break;
    record.play(quiet[0]);
  }
  const shown = record.states.map(({ board, mover }) => `${mover} ${Rules.print(board)}`);
  expect("a board that was there before", record.isRepeated, shown.indexOf(shown.at(-1)) < shown.length - 1);
});

end("rules of the explorer");
