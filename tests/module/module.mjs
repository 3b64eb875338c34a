// Tests bindings/awari.mjs and its module beside the program.
//
//     node tests/module/module.mjs MODULE PROGRAM FOLDER TOP
//
// FOLDER has levels 0 to TOP, 5 or more, that the program built. Each level is built in the module, at once and in slices,
// and its file is to be the program's, byte for byte. The program's files are verified in a second module, and
// what that says of boards is what the program says. Files are taken as buffers and views of each kind. It prints a
// line for each of the first faults.
import { execFileSync } from "node:child_process";
import { createHash } from "node:crypto";
import { readFileSync } from "node:fs";
import { join } from "node:path";
import { Levels, Refused } from "../../bindings/awari.mjs";

const [modulePlace, program, folder, top] = process.argv.slice(2);
const TOP = Number(top), FAULTS_SHOWN = 20, RANDOM_BOARDS = 20_000;
const module = readFileSync(modulePlace);
const fileOf = level => readFileSync(join(folder, `level_${String(level).padStart(2, "0")}.awdb`));
const word = board => `${board.slice(0, 6)}/${board.slice(6)}`;
const isSame = (bytes, level) => Buffer.compare(Buffer.from(bytes), fileOf(level)) === 0;
const ask = (...words) => execFileSync(program, words, { encoding: "utf8", maxBuffer: 1 << 28 });

let faults = 0;
function expect(what, isRight) {
  if (isRight) return;
  faults += 1;
  if (faults <= FAULTS_SHOWN) console.log(what);
}

/** The call is refused by this number. */
function expectRefused(number, call, what = call.toString()) {
  try {
    call();
    expect(`${what}: not refused as ${number}`, false);
  } catch (refusal) {
    expect(`${what}: ${refusal}, and not ${number}`, refusal instanceof Refused && refusal.number === number);
  }
}

function buildAtOnce(levels) {
  for (let level = 0; level <= TOP; level++) expect(`level ${level} is another file`, isSame(levels.build(), level));
  expect(`${levels.length} levels`, levels.length === TOP + 1);
}

/** One slice after the other, with a question after each. */
function buildInSlices(levels) {
  for (let level = 0; level <= TOP; level++) {
    levels.begin();
    for (let gain = level + 1, settled = false; !settled; ) {
      const told = levels.spread(1000);
      expect(`level ${level}: gain ${told.gain} after ${gain}`, told.gain <= gain && levels.length === level);
      if (level > 0) levels.entry(levels.board(level - 1, 0));
      ({ gain, settled } = told);
    }
    expect(`level ${level} in slices is another file`, isSame(levels.finish(), level));
  }
}

function refuseSlicesOutOfTurn(levels) {
  expectRefused(59, () => levels.spread());
  expectRefused(59, () => levels.finish());
  levels.begin();
  levels.spread(1);
  expectRefused(59, () => levels.finish());
  expect("the levels stay", levels.length === TOP + 1);
  while (!levels.spread().settled);
  levels.finish();
  expect("a level that was begun is finished", levels.length === TOP + 2);
}

function refuseWrongFiles(levels) {
  for (let level = 0; level < 4; level++) levels.add(fileOf(level));
  const right = fileOf(4), changed = Uint8Array.from(right, (byte, at) => (at === 60 ? byte ^ 1 : byte));
  expectRefused(81, () => levels.add(right.subarray(0, -1)));
  expectRefused(81, () => levels.add(changed), "a changed byte");
  expectRefused(81, () => levels.add(new Uint8Array(0)));
  expectRefused(80, () => levels.add(fileOf(5)));
  expect("refused files change nothing", levels.length === 4);
  levels.add(right);
  expectRefused(59, () => levels.entry(levels.board(5, 0)));
}

/** A file is its bytes in a buffer or in any view of one. What is none is told in a sentence. */
async function takeBytes() {
  const levels = await Levels.start(new WebAssembly.Module(module)), bytes = level => Uint8Array.from(fileOf(level));
  levels.add(bytes(0).buffer);
  levels.add(new DataView(bytes(1).buffer));
  const wide = new Uint8Array(bytes(2).length + 9), shared = new Uint8Array(new SharedArrayBuffer(bytes(3).length));
  wide.set(bytes(2), 5);
  levels.add(new Uint8Array(wide.buffer, 5, bytes(2).length));
  shared.set(bytes(3));
  levels.add(shared.buffer);
  expect(`files in buffers: ${levels.length} levels`, levels.length === 4);
  for (const [file, kind] of [["text", "String"], [undefined, "Undefined"], [[...bytes(4)], "Array"], [Promise.resolve(), "Promise"]]) {
    let told = null;
    try {
      levels.add(file);
    } catch (fault) {
      told = fault;
    }
    expect(`${kind} for a file: ${told}`, told instanceof TypeError && told.message.endsWith(`this is of the kind ${kind}`));
  }
  expect("the levels stay", levels.length === 4);
}

/** The files of levels that were built stay what they were while others are built, and the memory is given back. */
async function keepFiles() {
  const levels = await start(), files = [];
  while (files.length < 5) files.push(levels.build());
  files.forEach((file, level) => expect(`the file of level ${level} has changed`, isSame(file, level)));
  let most = 0;
  for (let round = 0; round < 40; round++) {
    useOnce(levels, files);
    if (round === 2) most = levels.bytes;
  }
  expect(`memory grew from ${most} to ${levels.bytes}`, levels.bytes === most);
}

/** Levels that are built, verified and asked, and then closed. */
function useOnce(levels, files) {
  levels.close();
  files.forEach(() => levels.build());
  levels.close();
  files.forEach(file => levels.add(file));
  for (let turn = 0; turn < 40; turn++) levels.line("1,0,0,0,0,1/1,0,1,0,0,0");
}

/** The line of a level above those that the program built: by plans, up to what the board is worth. */
function compareHighLine(levels) {
  const first = levels.board(TOP + 1, 0).reverse(), { moves, outcome } = levels.line(first);
  let board = first, gained = 0, side = 1;
  for (const pit of moves) {
    expect(`${word(board)}: the line has another pit than the plan`, levels.entry(board).plan === pit);
    const after = levels.play(board, pit);
    [board, gained, side] = [after.board, gained + side * after.captures, -side];
  }
  const { plan, value } = levels.entry(board);
  expect(`${word(first)}: a line to ${gained}`, moves.length > 0 && outcome === gained + (plan === null ? side * value : 0));
}

const LONG = 3000, FAR = 4_000_000_001;

/** Calls that tell what no level has that a test can build: long lines, great distances and sizes, want of memory; and
 * another version. */
function unlikely(view) {
  const put = (place, bytes) => bytes.forEach((byte, at) => view().setUint8(Number(place) + at, byte));
  return {
    awari_probe: () => 0,
    awari_line: (handle, pits, place, room, out) => {
      put(place, Array.from({ length: Math.min(LONG, Number(room)) }, (_, at) => at % 6));
      view().setBigUint64(Number(out), BigInt(LONG), true);
      return 0;
    },
    // pit 1 alone is legal, captures 48 and is worth -300
    awari_probe_moves: (handle, pits, out) => {
      put(out, Array.from({ length: 48 }, (_, at) => ({ 8: 1, 9: 48, 10: 0xd4, 11: 0xfe })[at] ?? 0));
      view().setUint32(Number(out) + 12, FAR, true);
      return 0;
    },
    awari_add_level: (handle, place, length, fault) => {
      put(fault, Array(8).fill(9));
      return 84;
    },
    awari_size: () => -1,
    awari_version: () => 12_03_04,
  };
}

/** What a module tells by such calls. */
async function tellMore() {
  const { exports } = (await WebAssembly.instantiate(module)).instance, none = Array(12).fill(0);
  const levels = new Levels({ exports: { ...exports, ...unlikely(() => new DataView(exports.memory.buffer)) } });
  const { moves } = levels.line(none);
  expect(`a line of ${moves.length} moves`, moves.length === LONG && moves.every((pit, at) => pit === at % 6));
  const told = JSON.stringify(levels.moves(none));
  expect(`moves ${told}`, told === JSON.stringify([{ pit: 1, captures: 48, value: -300, distance: FAR }]));
  expect(`a size of ${levels.size(24)}`, levels.size(24) === 2 ** 32 - 1);
  expect(`version ${levels.version}`, levels.version === "12.3.4");
  try {
    levels.add(new Uint8Array(1));
    expect("want of memory is not told", false);
  } catch ({ number, message, level, inner, rule, rank }) {
    const told = [number, message, level, inner, rule, rank].filter(it => it !== undefined);
    expect(`want of memory: ${told}`, told.join() === "84,84 Memory");
  }
}

/** A refusal has its fields: the level, what is inside it, and with a rule the rank. */
async function expectFields() {
  const levels = await start(), wrong = Buffer.from(fileOf(1));
  levels.add(fileOf(0));
  wrong[52] ^= 1;
  createHash("sha256").update(wrong.subarray(0, -32)).digest().copy(wrong, wrong.length - 32);
  for (const [file, wanted] of [[wrong, [83, "Verify", 1, 22, "V1", 0]], [wrong.subarray(1), [81, "File", 1, 61]], [fileOf(2), [80, "Below", 1]]])
    try {
      levels.add(file);
      expect(`not refused as ${wanted}`, false);
    } catch ({ number, kind, level, inner, rule, rank }) {
      const told = [number, kind, level, inner, rule, rank].filter(it => it !== undefined);
      expect(`refused as ${told}, and not ${wanted}`, told.join() === wanted.join());
    }
}

/** Each call has a type. */
function compareTypes() {
  const types = readFileSync(new URL("../../bindings/awari.d.mts", import.meta.url), "utf8");
  for (const name of [...Object.getOwnPropertyNames(Levels.prototype), "static start"])
    expect(`${name} has no type`, new RegExp(`^  (get )?${name}[(]`, "m").test(types));
}

function refuseWrongBoards(levels) {
  expectRefused(1, () => levels.entry("0,0,0,0,0,1"));
  expectRefused(2, () => levels.entry("00,0,0,0,0,1/0,0,0,0,0,0"));
  expectRefused(3, () => levels.entry(Array(12).fill(5)));
  expectRefused(1, () => levels.entry([1, 2]));
  expectRefused(2, () => levels.entry(Array(12).fill(256)));
  expectRefused(59, () => levels.entry(Array(12).fill(4)));
  expectRefused(59, () => levels.board(25, 0));
  expectRefused(93, () => levels.board(1, 12));
  for (const rank of [1.5, -1, NaN, "1", undefined]) expectRefused(93, () => levels.board(3, rank), `rank ${rank}`);
  for (const level of [1.5, -1, 256, "1", undefined]) {
    expectRefused(59, () => levels.board(level, 0), `a board of level ${level}`);
    expectRefused(59, () => levels.counts(level), `counts of level ${level}`);
    expect(`the size of level ${level}`, levels.size(level) === 0);
  }
  for (const stones of [1.5, -1, 256, NaN, "1", undefined])
    expectRefused(2, () => levels.entry([stones, ...Array(11).fill(0)]), `${stones} stones`);
  for (const pit of [6, 1.5, -1, 256, 262, "1", undefined]) expectRefused(4, () => levels.play(Array(12).fill(4), pit), `pit ${pit}`);
  expectRefused(5, () => levels.play("0,0,0,0,0,1/0,0,0,0,0,0", 0));
  expect("sizes", levels.size(1) === 12 && levels.size(24) === 417225900 && levels.size(25) === 0);
}

/** Entry and rank of each board, beside `text`. */
function compareEntries(levels, level) {
  const lines = [];
  for (let rank = 0; rank < levels.size(level); rank++) {
    const board = levels.board(level, rank), { value, plan, distance } = levels.entry(board);
    const told = levels.rank(word(board));
    expect(`${word(board)}: level ${told.level}, rank ${told.rank}`, told.level === level && told.rank === rank);
    lines.push(`${value} ${plan ?? "-"} ${distance}`);
  }
  const text = ask("text", folder, String(level)).trimEnd().split("\n").slice(1).join("\n");
  expect(`level ${level}: entries are others`, text === lines.join("\n"));
}

/** The boards of random ranks of higher levels, whose ranks are told again and by the program. */
function compareRanks(levels) {
  const ranks = Array.from({ length: RANDOM_BOARDS }, () => {
    const level = 10 + Math.floor(Math.random() * 15);
    return { level, rank: Math.floor(Math.random() * levels.size(level)) };
  });
  for (const { level, rank } of ranks) {
    const told = levels.rank(levels.board(level, rank));
    expect(`level ${level}: rank ${rank} is told as ${told.rank}`, told.level === level && told.rank === rank);
  }
  for (const { level, rank } of ranks.slice(0, 50))
    expect(`level ${level}: rank ${rank} is of another board`,
      ask("board", String(level), String(rank)).includes(word(levels.board(level, rank))));
}

/** Worths, and the plays of all pits, beside `serve`. */
function compareMoves(levels, boards) {
  const input = boards.map(board => `moves ${word(board)}\n`).join("");
  const answers = execFileSync(program, ["serve", folder, "0", "0"], { input, encoding: "utf8", maxBuffer: 1 << 28 }).split("\n\n");
  boards.forEach((board, at) => {
    const moves = levels.moves(board), { plan, value } = levels.entry(board);
    const lines = moves.map(it =>
      `pit ${it.pit} captures ${it.captures} value ${it.value} distance ${it.distance}${it.pit === plan ? " plan" : ""}`);
    const text = lines.length ? lines.join("\n") : `ended ${value}`;
    expect(`${word(board)}: ${text}, and not ${answers[at]}`, text === answers[at]);
    for (const { pit, captures, value } of moves) {
      const after = levels.play(board, pit);
      const left = levels.entry(after.board).value;
      expect(`${word(board)} ${pit}: played otherwise`, after.captures === captures && captures - left === value);
    }
  });
}

function compareLines(levels, boards) {
  for (const board of boards) {
    const { moves, outcome } = levels.line(board);
    const told = ask("line", folder, word(board)).trimEnd().split("\n");
    const wanted = [`value ${outcome}`, ["moves", ...moves].join(" "), `outcome ${outcome}`];
    expect(`${word(board)}: ${wanted}, and not ${told}`, told.join("\n") === wanted.join("\n"));
  }
}

function compareLongestLines(levels, boards) {
  for (const board of boards) {
    const { value, distance } = levels.entry(board);
    const told = ask("line", "--longest", folder, word(board)).trimEnd();
    const wanted = [`value ${value}`, `distance ${distance}`, ["moves", ...levels.longestLine(board)].join(" ")].join("\n");
    expect(`${word(board)}: ${wanted}, and not ${told}`, told === wanted);
  }
}

/** What the levels count, beside the lines that the program prints when it builds them. */
function compareCounts(levels) {
  const told = ask("build", String(TOP)).trimEnd().split("\n");
  told.forEach((line, level) => {
    const { won, even, lost, limit } = levels.counts(level);
    const wanted = `level ${level} boards ${levels.size(level)} won ${won} even ${even} lost ${lost} limit ${limit}`;
    expect(`${wanted}, and not ${line}`, line === wanted);
  });
  expectRefused(59, () => levels.counts(TOP + 1));
}

/** Values alone, many boards at once and the bytes of files tell what `entry` and `moves` tell of verified levels. */
function compareOtherCalls(levels, boards) {
  const same = (one, other) => JSON.stringify(one) === JSON.stringify(other), sum = board => board.reduce((a, b) => a + b);
  const entries = boards.map(board => levels.entry(board));
  const files = Array.from({ length: TOP + 1 }, (_, level) => fileOf(level));
  expect("many boards are told otherwise", same(levels.probeMany(boards), entries) && same(levels.probeMany([]), []));
  expectRefused(59, () => levels.probeMany([boards[0], Array(12).fill(4)]));
  boards.forEach((board, at) => {
    expect(`${word(board)}: another value`, levels.value(board) === entries[at].value);
    expect(`${word(board)}: another entry in its file`, same(levels.entryIn(files[sum(board)], board), entries[at]));
    expect(`${word(board)}: other moves in files`, same(levels.movesIn(files, board), levels.moves(board)));
  });
  let digest = new Uint8Array(32);
  for (const file of files) {
    expectRefused(80, () => levels.check(file, new Uint8Array(32).fill(1)));
    digest = levels.check(file, digest);
    expect("a file ends in another digest", Buffer.compare(Buffer.from(digest), file.subarray(-32)) === 0);
  }
  expectRefused(66, () => levels.check(Uint8Array.from(files[1], (byte, at) => byte ^ (at === 155)), new Uint8Array(32)));
  expectRefused(60, () => levels.entryIn(files[2].subarray(1), levels.board(2, 0)));
  expectRefused(20, () => levels.movesIn([files[0], files[0]], levels.board(1, 0)));
  expectRefused(59, () => levels.movesIn([], levels.board(0, 0)));
  expectRefused(3, () => levels.legal(Array(12).fill(5)));
  const about = JSON.parse(readFileSync(new URL("../../bindings/package.json", import.meta.url)));
  expect("the version", levels.version === about.version);
  const manifest = readFileSync(new URL("../../release/MANIFEST", import.meta.url), "utf8");
  expect("the sources", manifest.includes(`\nsources ${levels.sourceId}\n`));
  expect("the sentence of 3", levels.sentence(3) === "A board has at most 48 stones" && levels.sentence(255).length > 9);
}

function allBoards(levels, highest) {
  const boards = [];
  for (let level = 0; level <= highest; level++)
    for (let rank = 0; rank < levels.size(level); rank++) boards.push(levels.board(level, rank));
  return boards;
}

function randomBoards(levels, count) {
  return Array.from({ length: count }, () => {
    const level = Math.floor(Math.random() * (TOP + 1));
    return levels.board(level, Math.floor(Math.random() * levels.size(level)));
  });
}

expect("the module imports something", WebAssembly.Module.imports(new WebAssembly.Module(module)).length === 0);
const start = () => Levels.start(module);
const built = await start();
buildAtOnce(built);
refuseSlicesOutOfTurn(built);
compareHighLine(built);
buildInSlices(await start());
refuseWrongFiles(await start());
await takeBytes();
await keepFiles();
await tellMore();
await expectFields();
compareTypes();
const levels = await start();
for (let level = 0; level <= TOP; level++) levels.add(fileOf(level));
refuseWrongBoards(levels);
for (let level = 0; level <= Math.min(TOP, 6); level++) compareEntries(levels, level);
compareRanks(levels);
compareMoves(levels, [...allBoards(levels, Math.min(TOP, 6)), ...randomBoards(levels, RANDOM_BOARDS)]);
compareLines(levels, randomBoards(levels, 50));
compareLongestLines(levels, randomBoards(levels, 50));
compareCounts(levels);
compareOtherCalls(levels, randomBoards(levels, 100));
const shared = levels.share();
levels.close();
expect("closed, it has levels", levels.length === 0);
expect("what shares them has none", shared.length === TOP + 1 && shared.entry(Array(12).fill(0)).plan === null);
shared.begin();
expectRefused(59, () => shared.share().spread(), "a level that was begun is shared");
if (faults > FAULTS_SHOWN) console.log(`${faults} faults`);
process.exit(faults ? 1 : 0);
