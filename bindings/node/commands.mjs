/** What each command does: it prints what the program prints. */
import { Refused } from "../awari.mjs";
import { HIGHEST_LEVEL, Refusal, broken, refusalOf, word } from "./refusals.mjs";
import { countOf, digestOf, entryOf, filesOf, limitOf, placeOf } from "./table.mjs";

/** How often it is told how far a build is, in milliseconds, and how many boards a slice has. */
const TELLS = 250, SLICE = 100_000;
/** To verify the levels up to this one takes longer than a second. */
const LONG_LEVEL = 16;

// ---- levels

/**
 * Puts the levels of a folder on, each verified, up to the first that is not there; `each` is told of each file.
 * It is refused as the first file is that is at fault.
 */
export function load(levels, folder, most, each = () => {}) {
  for (let level = levels.length; level <= Math.min(most, HIGHEST_LEVEL); level++) {
    const file = folder.bytes(level);
    if (file === undefined) return;
    try {
      levels.add(file);
    } catch (fault) {
      throw fault instanceof Refused ? refusedFile(levels, fault) : fault;
    }
    each(level, file);
  }
}

/** The refusal of a file, with what is said of the board that breaks a rule. */
function refusedFile(levels, fault) {
  const { level, rank, rule } = fault;
  const at = rule === "V7" ? 16 : placeOf(rank ?? 0);
  const beside = rule ? broken(levels, level, fault, `at byte ${at} of its file`) : [];
  return Object.assign(refusalOf(fault), { beside });
}

/** The stones of a board, in the pits of its text. It is refused as 1 to 3. */
function pitsOf(levels, board) {
  levels.legal(board);
  return board.split(/[,/]/).map(Number);
}

/** The board's pits, with its levels put on and no more. If its level is not there, it is refused by this number. */
function opened(run, folder, board, number = 59) {
  const pits = pitsOf(run.levels, board), stones = pits.reduce((sum, its) => sum + its);
  if (stones >= LONG_LEVEL && stones <= HIGHEST_LEVEL) run.tell(`${folder.name}: verifying levels 0 to ${stones}`);
  load(run.levels, folder, stones);
  if (stones >= run.levels.length) throw new Refusal(number, { levels: run.levels.length });
  return pits;
}

/** A line of names and values, as text or as an object. */
const line = (members, json) =>
  json ? JSON.stringify(members) : Object.entries(members).flat().join(" ");

function countsOf(levels, level) {
  const { won, even, lost, limit } = levels.counts(level);
  return { level, boards: levels.size(level), won, even, lost, limit };
}

// ---- building

/** Says how far a build is. */
class Progress {
  #began = performance.now();
  #told = 0;
  #gain;

  constructor(run, levels, top) {
    this.run = run;
    this.top = top;
    this.all = 0;
    for (let level = levels.length; level <= top; level++) this.all += levels.size(level);
    this.done = 0;
  }

  tell(level, size, { boards, gain }) {
    const now = performance.now();
    if (gain === this.#gain && now - this.#told < TELLS) return;
    this.#gain = gain;
    this.#told = now;
    const share = Math.floor((100 * (this.done + boards)) / this.all), seconds = ((now - this.#began) / 1000).toFixed(1);
    this.run.tell(`level ${level} of ${this.top} gain ${gain} settled ${boards} of ${size}; ${share}% done in ${seconds} s`);
  }
}

function buildLevel(levels, progress) {
  const level = levels.length, size = levels.size(level);
  levels.begin();
  for (let draft = { settled: false }; !draft.settled; ) {
    draft = levels.spread(SLICE);
    progress?.tell(level, size, draft);
  }
  if (progress) progress.done += size;
  return levels.finish();
}

function build(run, [top], { folder: name, progress: isTold, threads, owners }) {
  if (threads !== undefined && owners) run.remark("--threads is not used, since owners build the levels");
  const { levels } = run, folder = name === undefined ? undefined : run.folder(name);
  folder?.expectWritable(top);
  if (folder) load(levels, folder, top, level => isTold && run.tell(`level ${level} is right`));
  const progress = isTold ? new Progress(run, levels, top) : undefined;
  while (levels.length <= top) {
    const level = levels.length, file = buildLevel(levels, progress);
    folder?.save(level, file);
    run.print(line(countsOf(levels, level)), true);
  }
}

// ---- levels of a folder

/** Whether the folder has just the levels 0 to TOP; if not, that is said. */
function hasLevels(run, folder, top) {
  if (top === undefined) return true;
  const count = run.levels.length;
  let above = top + 1;
  while (above <= HIGHEST_LEVEL && !folder.hasFile(above)) above++;
  if (above > HIGHEST_LEVEL && count === top + 1) return true;
  const file = above <= HIGHEST_LEVEL && above >= count ? ` and a file of level ${above}` : "";
  run.remark(`levels 0 to ${top} were asked for; the folder has ${count ? `levels 0 to ${count - 1}` : "no level"}${file}`);
  return false;
}

function hasDigest(run, digest, wished) {
  if (wished === undefined || wished.toLowerCase() === digest) return true;
  run.remark(`digest ${wished} was asked for; the folder has digest ${digest}`);
  return false;
}

function verify(run, [name], { levels: top, digest: wished, progress }) {
  const folder = run.folder(name), lines = [];
  let digest = "0".repeat(64);
  folder.tellLevels();
  load(run.levels, folder, HIGHEST_LEVEL, (level, file) => {
    if (progress) run.tell(`level ${level} is right`);
    lines.push(`level ${level} ok limit ${limitOf(file)}`);
    digest = digestOf(file).toString("hex");
  });
  for (const it of [...lines, `levels ${lines.length} digest ${digest}`]) run.print(it);
  const isWished = hasLevels(run, folder, top);
  return hasDigest(run, digest, wished) && isWished ? 0 : 1;
}

/** Puts levels on for a command, and gives the files of those that are asked for: all, or this one. */
function filesAsked(run, name, level) {
  const folder = run.folder(name), files = [];
  folder.tellLevels();
  load(run.levels, folder, level ?? HIGHEST_LEVEL, (at, file) => {
    if (level === undefined || level === at) files.push([at, file]);
  });
  if (level !== undefined && files.length === 0) throw new Refusal(59, { levels: run.levels.length });
  return files;
}

function text(run, [name, level], { boards }) {
  for (const [at, file] of filesAsked(run, name, level)) {
    if (!boards) run.print(`level ${at} limit ${limitOf(file)}`);
    for (let rank = 0; rank < countOf(file); rank++) {
      const { value, plan, distance } = entryOf(file, rank);
      run.print(`${boards ? `${word(run.levels.board(at, rank))} ` : ""}${value} ${plan ?? "-"} ${distance}`);
    }
  }
}

/** How often each number comes in a file, ascending. */
function tally(file, numberOf) {
  const times = new Map();
  for (let rank = 0; rank < countOf(file); rank++) {
    const number = numberOf(entryOf(file, rank));
    times.set(number, (times.get(number) ?? 0) + 1);
  }
  return [...times].sort(([one], [other]) => one - other);
}

function counts(run, [name, level], { csv, json }) {
  const files = filesAsked(run, name, level);
  const rows = ["value", "distance"].flatMap(column =>
    level === undefined ? [] : tally(files[0][1], it => it[column]).map(([number, boards]) => ({ [column]: number, boards })));
  const levels = files.map(([at]) => countsOf(run.levels, at));
  const found = csv && !json ? tableOf(levels, level === undefined ? undefined : rows) : [...levels, ...rows].map(it => line(it, json));
  for (const it of found) run.print(it);
}

/** The table of levels, or of the rows of one level. */
function tableOf(levels, rows) {
  if (rows === undefined) return ["level,boards,won,even,lost,limit", ...levels.map(it => Object.values(it).join(","))];
  return ["column,number,boards", ...rows.map(it => [Object.keys(it)[0], ...Object.values(it)].join(","))];
}

function check(run) {
  let greatest = 0;
  const { levels } = run;
  for (const { level, limit, line: at, file } of filesOf(run.input(), its => levels.size(its))) {
    try {
      levels.add(file);
    } catch (fault) {
      if (!(fault instanceof Refused) || !fault.rule) throw fault;
      run.print(`no level ${level} rank ${fault.rank} rule ${fault.rule}`);
      const place = fault.rule === "V7" ? at : at + 1 + fault.rank;
      for (const it of broken(levels, level, fault, `in line ${place} of the text`)) run.remark(it);
      return 1;
    }
    greatest = Math.max(greatest, limit);
  }
  run.print(`yes levels ${levels.length} limit ${greatest}`);
  return 0;
}

// ---- boards

function ask(run, [name, board], { json }) {
  const folder = run.folder(name);
  folder.tellLevels();
  const { value, plan, distance } = run.levels.entry(opened(run, folder, board));
  run.print(json ? JSON.stringify({ board, value, plan, distance }) : `${value} ${plan ?? "-"} ${distance}`);
}

/** How many replies a move leaves, and how many of them keep what the board is worth then. */
function repliesTo(levels, board, pit) {
  const { board: after } = levels.play(board, pit), replies = levels.moves(after), { value } = levels.entry(after);
  return { replies: replies.length, keep: replies.filter(it => it.value === value).length };
}

function moves(run, [name, board], { replies, json }) {
  const folder = run.folder(name);
  folder.tellLevels();
  const { levels } = run, pits = opened(run, folder, board), { value, plan, distance } = levels.entry(pits);
  const found = levels.moves(pits).map(it => (replies ? { ...it, ...repliesTo(levels, pits, it.pit) } : it));
  if (json) run.print(JSON.stringify({ board, value, plan, distance, moves: found.map(it => ({ ...it, plan: it.pit === plan })) }));
  else if (found.length === 0) run.print(`ended ${value}`);
  else for (const it of found) run.print(`${line(it)}${it.pit === plan ? " plan" : ""}`);
}

/** What is told of each ply of a line. If the board is worth 0, it ends once a board comes again. */
function* pliesOf(levels, start, pits, isEven) {
  const met = new Map([[word(start), 0]]);
  let board = start, running = 0, side = 1, ply = 0;
  for (const pit of pits) {
    const { board: after, captures } = levels.play(board, pit), { value, distance } = levels.entry(after), text = word(after);
    running += side * captures;
    ply += 1;
    yield { ply, pit, captures, running, board: text, value, distance };
    if (isEven && met.has(text)) {
      yield { repeats: met.get(text) };
      return;
    }
    met.set(text, ply);
    board = after;
    side = -side;
  }
}

function playLine(run, [name, board], { longest, plies, json }) {
  const folder = run.folder(name);
  folder.tellLevels();
  const { levels } = run, pits = opened(run, folder, board, 56), { value, distance } = levels.entry(pits);
  const found = longest ? levels.longestLine(pits) : levels.line(pits).moves;
  if (plies) for (const it of pliesOf(levels, pits, found, value === 0)) run.print(line(it, json));
  else if (json) run.print(JSON.stringify(longest ? { board, value, distance, moves: found } : { board, value, moves: found, outcome: value }));
  else {
    run.print(`value ${value}`);
    if (longest) run.print(`distance ${distance}`);
    run.print(["moves", ...found].join(" "));
    if (!longest) run.print(`outcome ${value}`);
  }
}

function move(run, [board, pit]) {
  pitsOf(run.levels, board);
  const { board: after, captures } = run.levels.play(board, pit);
  run.print(`${word(after)} ${captures}`);
}

/** A play as the first mover sees it. */
class Play {
  running = 0;
  quiet = 0;
  #side = 1;

  constructor(levels, board) {
    this.levels = levels;
    this.board = board;
  }

  play(pit) {
    const { board, captures } = this.levels.play(this.board, pit);
    this.running += this.#side * captures;
    this.quiet = captures ? 0 : this.quiet + 1;
    this.#side = -this.#side;
    this.board = board;
  }

  /** What it has come to, or none. At the end each side has the stones in its pits. */
  outcome(limit) {
    const gain = this.board.reduce((sum, stones, pit) => sum + (pit < 6 ? stones : -stones), 0);
    if (this.levels.legal(this.board).length === 0) return this.running + this.#side * gain;
    return this.quiet > limit ? this.running : "none";
  }
}

function judge(run, [board, limit, words]) {
  const play = new Play(run.levels, pitsOf(run.levels, board));
  for (const [at, byte] of Buffer.from(words.join("")).entries())
    try {
      play.play(byte >= 48 && byte < 58 ? byte - 48 : 255);
    } catch (fault) {
      throw fault instanceof Refused ? new Refusal(fault.number, { at: at + 1 }) : fault;
    }
  run.print(`board ${word(play.board)}`);
  run.print(`running ${play.running}`);
  run.print(`quiet ${play.quiet}`);
  run.print(`outcome ${play.outcome(limit)}`);
}

function rank(run, [board]) {
  const stones = pitsOf(run.levels, board).reduce((sum, its) => sum + its);
  if (stones > HIGHEST_LEVEL) throw new Refusal(59, { levels: HIGHEST_LEVEL + 1 });
  const found = run.levels.rank(board);
  run.print(`${found.level} ${found.rank}`);
}

function board(run, [level, its]) {
  if (level > HIGHEST_LEVEL) throw new Refusal(59, { levels: HIGHEST_LEVEL + 1 });
  if (its >= run.levels.size(level)) throw new Refusal(93, { boards: run.levels.size(level) });
  run.print(word(run.levels.board(level, its)));
}

/** Each command: it is given the run, its words and its options, and gives the status if it is not 0. */
export const DO = { check, move, judge, build, verify, text, ask, moves, line: playLine, rank, board, counts };
