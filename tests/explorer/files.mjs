// Tests how the explorer takes files beside the program: wrong ones, folders with gaps, and what is verified of them.
// checked.mjs says how.
import { createHash } from "node:crypto";
import { copyFileSync, mkdirSync, mkdtempSync, readFileSync, rmSync, writeFileSync } from "node:fs";
import { tmpdir } from "node:os";
import { join } from "node:path";
import { Levels } from "../../bindings/awari.mjs";
import { nameOf } from "../../explorer/src/level_file.mjs";
import { Library } from "../../explorer/src/library.mjs";
import { Session } from "../../explorer/src/session.mjs";
import { Shelf } from "../../explorer/src/shelf.mjs";
import { weigh } from "../../explorer/src/worths.mjs";
import { below, end, expect, fileOf, filesIn, folder, listenerOf, module, Proved, run, section } from "./checked.mjs";

const HIGHEST = 12;
const read = number => readFileSync(join(folder, nameOf(number)));
const byModule = await Levels.start(module);
/** The proved code without a level, which tells ranks alone. */
const idle = new Proved(0);
await idle.ready;

// ---- wrong files, by the numbers of the program ----

const ENTRIES = 52, DIGEST = 32;
const made = mkdtempSync(join(tmpdir(), "explorer"));
process.on("exit", () => rmSync(made, { recursive: true }));

const changed = (bytes, place, ...by) => {
  const copy = Buffer.from(bytes);
  copy.set(by, place);
  return copy;
};
const hashed = bytes => {
  const content = bytes.subarray(0, bytes.length - DIGEST);
  return Buffer.concat([content, createHash("sha256").update(content).digest()]);
};

/** The number of the innermost fault with which `awari verify` refuses a folder, or 0. */
function numberOfProgram(files) {
  const place = mkdtempSync(join(made, "levels"));
  for (const [name, bytes] of Object.entries(files)) writeFileSync(join(place, name), bytes);
  const refused = /^refused (?:81 File level \d+: )?(\d+)/m.exec(run("verify", place));
  return Number(refused?.[1] ?? 0);
}

/** The levels of a page that opened these files, once they are verified. */
async function opened(files) {
  const library = new Library(count => new Proved(count), () => {}, () => {});
  await library.begin();
  await library.open({ files, name: "" });
  await library.settled;
  return library;
}

/** The number with which the page refuses one of these files, or 0. */
async function numberOfPage(files) {
  const { shelf } = await opened(Object.entries(files).map(([name, bytes]) => fileOf(bytes, name)));
  return Number(/\((\d+) \w+\)$/.exec(shelf.faults[0]?.fault.message ?? "")?.[1] ?? 0);
}

await section("wrong files beside `awari verify`", async () => {
  const good = read(2), lower = { "level_00.awdb": read(0), "level_01.awdb": read(1) };
  const cases = {
    "a right one": good,
    "an empty one": good.subarray(0, 0),
    "half a magic": good.subarray(0, 3),
    "another magic": Buffer.from("AWDX"),
    "a changed magic": changed(good, 0, 66),
    "version 3": changed(good, 5, 3),
    "a byte that is not zero": changed(good, 7, 1),
    "level 25": changed(good, 6, 25),
    "level 13 of version 1": changed(good, 5, 1, 13),
    "another count": changed(good, 15, 79),
    "the count of another level": changed(good, 6, 3),
    "half a header": good.subarray(0, 40),
    "one byte less": good.subarray(0, 551),
    "one byte more": Buffer.concat([good, Buffer.from("x")]),
    "version 1": hashed(changed(good, 5, 1)),
    "level 1": read(1),
    "level 3": read(3),
    "another below": hashed(changed(good, 20, 1, 2, 3)),
    "a changed byte": changed(good, 60, 99),
    "a changed digest": changed(good, 551, 0),
  };
  for (const [what, bytes] of Object.entries(cases)) {
    const files = { ...lower, "level_02.awdb": bytes };
    expect(what, await numberOfPage(files), numberOfProgram(files));
  }
  const files = { "level_00.awdb": hashed(changed(read(0), 20, 1)) };
  expect("level 0 over another", await numberOfPage(files), numberOfProgram(files));
});

await section("folders with gaps and entries that are wrong", async () => {
  const good = read(2), openWith = bytes => Shelf.of(
    [0, 1].map(number => fileOf(read(number), nameOf(number))).concat(fileOf(bytes, "level_02.awdb")), idle);
  const apart = await Shelf.of(["level_02.awdb", "notes.txt", "level_25.awdb"].map(name => fileOf(good, name)), idle);
  expect("a gap", [apart.gaps, apart.levels.map(({ number }) => number)], [[0, 1], [2]]);
  const twice = Shelf.of([1, 2].map(() => fileOf(good, "level_02.awdb")), idle);
  const told = await twice.catch(fault => fault.message);
  expect("two files of one name", /^Two files are named level_02.awdb/.test(told), true);
  const form = await openWith(changed(good, ENTRIES + 1, 6));
  expect("a plan 6", (await weigh(form, byModule.board(2, 0))).fault.number, 65);
  for (const stones of [HIGHEST + 1, 25])
    expect(`no level ${stones}`, (await weigh(form, [stones, ...Array(11).fill(0)])).fault.number, 59);
});

await section("the first wrong board of a changed level breaks the rule that `awari verify` names", async () => {
  const good = readFileSync(join(folder, "level_04.awdb"));
  for (let turn = 0; turn < 60; turn++) {
    const rank = below(byModule.size(4));
    const [part, by] = [[0, below(9)], [0, 256 - below(5)], [1, below(6)], [5, below(40)]][turn % 4];
    const bytes = hashed(changed(good, ENTRIES + 6 * rank + part, by)), place = join(made, `level-${turn}`);
    mkdirSync(place);
    for (const name of [0, 1, 2, 3].map(nameOf)) copyFileSync(join(folder, name), join(place, name));
    writeFileSync(join(place, "level_04.awdb"), bytes);
    const said = /22 Refused rank (\d+) rule (V[1-6])/.exec(run("verify", place));
    if (!said) continue;
    const { broken } = await weigh(await Shelf.of(filesIn(place), idle), byModule.board(4, Number(said[1])));
    expect(`rank ${said[1]}`, broken, said[2]);
    const { message } = (await opened(filesIn(place))).shelf.fault(4);
    expect(`rank ${said[1]} by the proved code`, message.includes(`rank ${said[1]} breaks rule ${said[2]} (83`), true);
  }
});

const standings = ({ shelf }) => shelf.slots.map(slot => slot?.standing?.[0] ?? (slot ? "!" : "-")).join("").replace(/-*$/, "");

await section("levels that are built, opened and closed", async () => {
  const works = [], library = new Library(count => new Proved(count), () => {}, () => works.push(library.work));
  await library.begin();
  expect("at first", [standings(library), library.title], ["bbbbbbb", "Levels 0 to 6, by the proved code"]);
  await library.build(9);
  expect("built", [standings(library), library.length, library.work], ["bbbbbbbbbb", 10, null]);
  expect("told in order", works.every((work, at) => !work || !works[at - 1] || work.share >= works[at - 1].share), true);
  for (const [number, file] of library.files.entries())
    expect(`level ${number}`, Buffer.compare(Buffer.from(await file.arrayBuffer()), read(number)), 0);
  const pick = numbers => numbers.map(number => fileOf(read(number), nameOf(number)));
  await library.open({ files: pick([0, 1, 2]), name: "few" });
  await library.settled;
  expect("three files", [standings(library), library.title], ["vvvbbbbbbb", "few: 3 levels, up to 2 stones"]);
  const before = library.proved;
  await library.open({ files: pick([7, 8, 9, 10, 11]), name: "more" });
  await library.settled;
  expect("files above what is built", [standings(library), library.length], ["bbbbbbbvvvvv", 12]);
  expect("the thread before is ended", [before.isEnded, library.proved === before], [true, false]);
  await library.open({ files: [fileOf(read(12), nameOf(12)), fileOf(Buffer.from("x"), nameOf(3))], name: "wrong" });
  await library.settled;
  expect("one wrong file", standings(library), "bbb!bbbvvvvvu");
  library.close();
  expect("closed", [standings(library), library.title], ["bbbbbbbvvvvv", "Levels 0 to 11, by the proved code"]);
  await library.open({ files: [fileOf(Buffer.from("x"), "notes.txt")], name: "other" });
  expect("no levels", [/^No levels were opened/.test(library.notice), standings(library)], [true, "bbbbbbbvvvvv"]);
});

await section("a level that is stopped, and a page that is played on without a browser", async () => {
  const session = new Session(count => new Proved(count));
  session.listener = listenerOf({ drawWork: ({ library }) => library.work?.share > 0.2 && library.stop() });
  await session.library.begin();
  await session.library.build(11);
  expect("stopped", session.library.length > 6 && session.library.length < 12, true);
  session.listener = listenerOf();
  await session.showText("1,0,0,0,0,1/1,0,1,0,0,0");
  expect("its worth", [session.shown.weighed.entry, session.plan], [{ value: 4, plan: 5, distance: 1 }, 5]);
  await session.play(session.plan);
  expect("played", [session.word, session.shown.state.captured], [run("move", "1,0,0,0,0,1/1,0,1,0,0,0", "5").split(" ")[0], [2, 0]]);
  await session.addStones(0, 1);
  expect("set up", session.shown.state.board[0], byModule.play("1,0,0,0,0,1/1,0,1,0,0,0", 5).board[0] + 1);
});

end("files of the explorer");
