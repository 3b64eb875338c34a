"use strict";
// Made by explorer/make of the modules in explorer/src and of bindings/awari.mjs: change those.

globalThis.awariThread = () => {
"use strict";
const module_awari = (() => {
/**
 * Awari's endgame levels for node and for pages, by the module that `release/page/make` makes of proved code.
 *
 *     import { Levels } from "./awari.mjs";
 *     const levels = await Levels.start();
 *     while (levels.length < 9) levels.build();
 *     console.log(levels.entry("1,0,0,0,0,1/1,0,1,0,0,0"));
 *
 * A board is its word, or the twelve numbers of its pits. Levels are built here, or verified when they are put
 * on, so what is said of a board is right as far as the module is what the proof is of: docs/GUARANTEES.md says
 * what stands between. A refusal is a `Refused`, with the number and the name of docs/FORMATS.md. Nothing is
 * read but the module, and nothing is sent.
 *
 * @typedef {string | ArrayLike<number>} Board
 * @typedef {{ value: number, plan: number | null, distance: number }} Entry
 * @typedef {{ pit: number, captures: number, value: number, distance: number }} Move
 */

const PITS = 12;
const HIGHEST_LEVEL = 24;
const MOST_STONES = 48;
const NO_PLAN = 255;
const HANDLE_BYTES = 16;
const ENTRY_BYTES = 8;
const MOVE_BYTES = 8;
const DIGEST_BYTES = 32;
/** A file of `awari.h`: its place and its length. */
const FILE_BYTES = 16;
/** Room for what a call writes, two digests or less. */
const OUT_BYTES = 64;
/** A slice of this many boards takes some 50 milliseconds. */
const SLICE = 100_000;

const NAMES = {
  1: "Shape", 2: "Number", 3: "TooMany", 4: "NoPit", 5: "EmptyPit", 6: "MustFeed", 7: "Ended", 20: "WrongLevel",
  21: "WrongSize", 22: "Refused", 51: "TooHigh", 53: "Memory", 59: "NotYet", 60: "Truncated", 61: "Magic",
  62: "Version", 63: "LevelOutOfRange", 64: "Count", 65: "EntryForm", 66: "Digest", 67: "Trailing", 70: "Write",
  80: "Below", 81: "File", 83: "Verify", 84: "Memory", 86: "Old", 93: "NoRank",
};

/** A refusal: its `number` and `kind`, and what is told beside it, as the level and the rank of a wrong board. */
class Refused extends Error {
  constructor(number, { level, inner, rule, rank } = {}) {
    const words = [number, NAMES[number]];
    if (level !== undefined) words.push("level", level);
    if (inner) words.push(":", inner, NAMES[inner]);
    if (rule) words.push("rank", rank, "rule", `V${rule}`);
    super(words.join(" ").replace(" :", ":"));
    this.number = number;
    this.name = "Refused";
    this.kind = NAMES[number];
    this.level = level;
    this.inner = inner || undefined;
    this.rule = rule ? `V${rule}` : undefined;
    this.rank = rule ? rank : undefined;
  }
}

function expect(answer) {
  if (answer !== 0) throw new Refused(answer);
}

/** The entry that lies there. */
function entryAt(view, at) {
  const plan = view.getUint8(at + 1);
  return { value: view.getInt8(at), plan: plan === NO_PLAN ? null : plan, distance: view.getUint32(at + 4, true) };
}

/** The bytes of a buffer or of a view of one, where they lie. */
function bytesOf(file) {
  if (ArrayBuffer.isView(file)) return new Uint8Array(file.buffer, file.byteOffset, file.byteLength);
  const [, kind] = /^\[object (\w+)\]$/.exec(Object.prototype.toString.call(file));
  if (kind === "ArrayBuffer" || kind === "SharedArrayBuffer") return new Uint8Array(file);
  throw new TypeError(`The bytes of a file are an ArrayBuffer or a view of one, as a Uint8Array, and this is of the kind ${kind}`);
}

/** The module that lies beside this file. */
async function shipped() {
  const place = new URL("awari.wasm", location.href);
  if (place.protocol !== "file:") return (await fetch(place)).arrayBuffer();
  const { readFile } = await import("node:fs/promises");
  return readFile(place);
}

/** Levels from 0 on, in a memory of their own. */
class Levels {
  #calls;
  #handle;
  #pits;
  #out;

  /**
   * No level yet, by the module of these bytes, or by this one, or by the one beside this file.
   * @param {BufferSource | WebAssembly.Module} [module]
   */
  static async start(module) {
    const made = await WebAssembly.instantiate(module ?? (await shipped()), {});
    return new Levels(made instanceof WebAssembly.Instance ? made : made.instance);
  }

  /** By an instance of the module; `start` makes one. */
  constructor(instance) {
    this.#calls = instance.exports;
    this.#handle = this.#room(HANDLE_BYTES);
    this.#pits = this.#room(PITS);
    this.#out = this.#room(OUT_BYTES);
    this.#bytes(this.#handle, HANDLE_BYTES).fill(0);
  }

  /** The version of the module. */
  get version() {
    const number = this.#calls.awari_version();
    return [10000, 100, 1].map(part => Math.floor(number / part) % 100).join(".");
  }

  /** The digest of the sources that the module was made of, in hexadecimal. */
  get sourceId() {
    this.#calls.awari_source_text(this.#out);
    return this.#lentText();
  }

  /** How many levels there are. Boards with fewer stones can be looked up. */
  get length() {
    return this.#calls.awari_levels(this.#handle);
  }

  /** How many bytes of memory the module has taken. It gives none back to the system. */
  get bytes() {
    return this.#calls.memory.buffer.byteLength;
  }

  /**
   * Verifies the bytes of a file, and puts its level on. It is refused as 80, 81, 83, 84 or 86.
   * @param {ArrayBufferLike | ArrayBufferView} file
   */
  add(file) {
    const answer = this.#lend(bytesOf(file), (place, length) =>
      this.#calls.awari_add_level(this.#handle, place, length, this.#out));
    if (answer === 0) return;
    const told = this.#view(8);
    throw new Refused(answer, answer === 84 ? {} : {
      level: told.getUint8(0), inner: told.getUint8(1), rule: told.getUint8(2), rank: told.getUint32(4, true),
    });
  }

  /** Begins the next level, in place of one that was begun. It is refused as 51 or 53. */
  begin() {
    expect(this.#calls.awari_begin(this.#handle));
  }

  /**
   * Builds a slice of the level that was begun: spreads about this many boards of one distance, or opens a gain.
   * It is refused as 59 if no level was begun, and as 53, and then the level is lost.
   * @returns {{ boards: number, gain: number, settled: boolean }} how many boards of the level are settled and were
   * spread so far, the gain that is open, and whether all gains are closed
   */
  spread(boards = SLICE) {
    expect(this.#calls.awari_spread(this.#handle, BigInt(boards), this.#out));
    const told = this.#view(16);
    return { boards: Number(told.getBigUint64(0, true)), gain: told.getUint8(8), settled: told.getUint8(9) === 1 };
  }

  /**
   * Puts the level on that was begun and whose gains are all closed. It is refused as 59 or 53.
   * @returns {Uint8Array} the bytes of its file
   */
  finish() {
    const level = this.length;
    const length = 84 + 6 * this.size(Math.min(level, HIGHEST_LEVEL));
    const place = this.#room(length);
    try {
      expect(this.#calls.awari_finish(this.#handle, place, BigInt(length)));
      return this.#bytes(place, length).slice();
    } finally {
      this.#calls.page_free(place);
    }
  }

  /**
   * Builds the next level and puts it on. It is refused as 51 or 53.
   * @returns {Uint8Array} the bytes of its file
   */
  build() {
    this.begin();
    while (!this.spread().settled);
    return this.finish();
  }

  /**
   * What the levels say of a board. It is refused as 1 to 3 or 59.
   * @param {Board} board
   * @returns {Entry}
   */
  entry(board) {
    expect(this.#calls.awari_probe(this.#handle, this.#board(board), this.#out));
    return entryAt(this.#view(ENTRY_BYTES), 0);
  }

  /**
   * The value of a board alone, which is less to read. It is refused as `entry` is.
   * @param {Board} board
   * @returns {number}
   */
  value(board) {
    expect(this.#calls.awari_probe_value(this.#handle, this.#board(board), this.#out));
    return this.#view(1).getInt8(0);
  }

  /**
   * What the levels say of many boards, in one call. It is refused as `entry` is of the first that is refused.
   * @param {Board[]} boards
   * @returns {Entry[]}
   */
  probeMany(boards) {
    const count = boards.length, place = this.#room((PITS + ENTRY_BYTES) * count);
    const entries = place + BigInt(PITS * count);
    try {
      boards.forEach((board, at) => {
        const pits = this.#bytes(this.#board(board), PITS);
        this.#bytes(place + BigInt(PITS * at), PITS).set(pits);
      });
      expect(this.#calls.awari_probe_many(this.#handle, place, BigInt(count), entries, BigInt(count), this.#out));
      const told = new DataView(this.#calls.memory.buffer, Number(entries), ENTRY_BYTES * count);
      return boards.map((_, at) => entryAt(told, ENTRY_BYTES * at));
    } finally {
      this.#calls.page_free(place);
    }
  }

  /**
   * What each legal pit is worth. It is refused as `entry` is.
   * @param {Board} board
   * @returns {Move[]}
   */
  moves(board) {
    expect(this.#calls.awari_probe_moves(this.#handle, this.#board(board), this.#out));
    return this.#legalMoves();
  }

  /**
   * The play by the plans of both sides, up to its first outcome. It is refused as `entry` is, or as 84.
   * @param {Board} board
   * @returns {{ moves: number[], outcome: number }}
   */
  line(board) {
    const outcome = this.entry(board).value;
    return { moves: this.#moves(board, this.#calls.awari_line), outcome };
  }

  /**
   * The play in which the side that gains follows its plans, and the other holds out as long as it can. It is
   * refused as `line` is.
   * @param {Board} board
   * @returns {number[]}
   */
  longestLine(board) {
    return this.#moves(board, this.#calls.awari_longest_line);
  }

  /**
   * How many boards of a level are won, even and lost for the mover, and the greatest distance of its boards.
   * It is refused as 59.
   * @returns {{ won: number, even: number, lost: number, limit: number }}
   */
  counts(level) {
    if (!Number.isInteger(level) || level < 0 || level > HIGHEST_LEVEL) throw new Refused(59);
    expect(this.#calls.awari_counts(this.#handle, level, this.#out));
    const told = this.#view(16);
    const [won, even, lost, limit] = [0, 4, 8, 12].map(at => told.getUint32(at, true));
    return { won, even, lost, limit };
  }

  /**
   * What the file of a board's level says of it. Nothing is verified: it is right if these bytes were. It is refused
   * as 1 to 3, as 59 for more than 24 stones, and as 20, 60 or 67 if the file of that level has another length.
   * @param {ArrayBufferLike | ArrayBufferView} file
   * @param {Board} board
   * @returns {Entry}
   */
  entryIn(file, board) {
    const pits = this.#board(board);
    expect(this.#lend(bytesOf(file), (place, length) => this.#calls.awari_probe_file(place, length, pits, this.#out)));
    return entryAt(this.#view(ENTRY_BYTES), 0);
  }

  /**
   * What each legal pit is worth by the files of levels 0, 1 and so on. It is refused as `entryIn` is, of the first
   * file up to the board's level that has another length.
   * @param {(ArrayBufferLike | ArrayBufferView)[]} files
   * @param {Board} board
   * @returns {Move[]}
   */
  movesIn(files, board) {
    const pits = this.#board(board), table = this.#room(FILE_BYTES * files.length);
    try {
      expect(this.#lendAll(files, table, () =>
        this.#calls.awari_probe_moves_files(table, BigInt(files.length), pits, this.#out)));
      return this.#legalMoves();
    } finally {
      this.#calls.page_free(table);
    }
  }

  /**
   * Whether these bytes are a level's file over the one that ends in the digest `below`, 32 zeros for level 0. Form,
   * digest and chain are judged, and not the entries. It is refused as 60 to 67, 80, 84 or 86.
   * @param {ArrayBufferLike | ArrayBufferView} file
   * @param {ArrayBufferLike | ArrayBufferView} below
   * @returns {Uint8Array} the digest in which they end
   */
  check(file, below) {
    const given = bytesOf(below), digest = this.#out + BigInt(DIGEST_BYTES);
    if (given.length !== DIGEST_BYTES)
      throw new TypeError(`A digest has ${DIGEST_BYTES} bytes, and this has ${given.length}`);
    this.#bytes(this.#out, DIGEST_BYTES).set(given);
    expect(this.#lend(bytesOf(file), (place, length) => this.#calls.awari_check_file(place, length, this.#out, digest)));
    return this.#bytes(digest, DIGEST_BYTES).slice();
  }

  /** The sentence for a person that belongs to a number that was answered. Every number has one. */
  sentence(number) {
    this.#calls.awari_text_of(number & 255, this.#out);
    return this.#lentText();
  }

  /** The text that was lent, without the zero byte behind it. */
  #lentText() {
    const told = this.#view(16), [place, length] = [0, 8].map(at => Number(told.getBigUint64(at, true)));
    return new TextDecoder().decode(this.#bytes(place, length - 1));
  }

  /**
   * The pits that can be played, ascending. It is refused as 1 to 3.
   * @param {Board} board
   * @returns {number[]}
   */
  legal(board) {
    const place = this.#board(board);
    if (this.#bytes(place, PITS).reduce((sum, stones) => sum + stones) > MOST_STONES) throw new Refused(3);
    const legal = this.#calls.awari_legal(place);
    return [0, 1, 2, 3, 4, 5].filter(pit => (legal >> pit) & 1);
  }

  /**
   * The board that a move leaves, as the other player sees it, and what it captures. It is refused as 1 to 7.
   * @param {Board} board
   */
  play(board, pit) {
    if (!Number.isInteger(pit) || pit < 0 || pit > 255) throw new Refused(4);
    expect(this.#calls.awari_play(this.#board(board), pit, this.#out, this.#out + BigInt(PITS)));
    const told = this.#bytes(this.#out, PITS + 1);
    return { board: [...told.slice(0, PITS)], captures: told[PITS] };
  }

  /**
   * The level and the rank of a board. It is refused as 1 to 3 or 59.
   * @param {Board} board
   */
  rank(board) {
    expect(this.#calls.awari_rank(this.#board(board), this.#out, this.#out + 4n));
    const told = this.#view(8);
    return { level: told.getUint8(0), rank: told.getUint32(4, true) };
  }

  /** The board of a rank, twelve numbers. It is refused as 59 or 93. */
  board(level, rank) {
    if (!Number.isInteger(level) || level < 0 || level > HIGHEST_LEVEL) throw new Refused(59);
    if (!Number.isInteger(rank) || rank < 0 || rank >= this.size(level)) throw new Refused(93);
    expect(this.#calls.awari_board(level, rank, this.#out));
    return [...this.#bytes(this.#out, PITS)];
  }

  /** How many boards a level has, 0 if there is no such level. */
  size(level) {
    if (!Number.isInteger(level) || level < 0 || level > HIGHEST_LEVEL) return 0;
    return this.#calls.awari_size(level) >>> 0;
  }

  /**
   * The same levels in an object of their own, which is closed by itself; a level that was begun is not shared. None
   * is copied. It is refused as 84.
   * @returns {Levels}
   */
  share() {
    const shared = new Levels({ exports: this.#calls });
    expect(this.#calls.awari_share_with(this.#handle, shared.#handle));
    return shared;
  }

  /** Forgets all levels, and one that was begun. */
  close() {
    this.#calls.awari_close(this.#handle);
  }

  /** The moves that a call told, without the pits that can't be played. */
  #legalMoves() {
    const told = this.#view(6 * MOVE_BYTES);
    return [0, 1, 2, 3, 4, 5].map(pit => ({ pit, at: MOVE_BYTES * pit })).filter(({ at }) => told.getUint8(at))
      .map(({ pit, at }) => ({
        pit, captures: told.getUint8(at + 1), value: told.getInt16(at + 2, true), distance: told.getUint32(at + 4, true),
      }));
  }

  /** The pits of a line. It is asked for again where it has more moves than there was room for. */
  #moves(board, lineOf) {
    for (let room = 1024; ; ) {
      const place = this.#room(room);
      try {
        expect(lineOf(this.#handle, this.#board(board), place, BigInt(room), this.#out));
        const count = Number(this.#view(8).getBigUint64(0, true));
        if (count <= room) return [...this.#bytes(place, count)];
        room = count;
      } finally {
        this.#calls.page_free(place);
      }
    }
  }

  /** Lays a board where the module reads it, and says where. */
  #board(board) {
    if (typeof board === "string") {
      const answer = this.#lend(new TextEncoder().encode(board), (place, length) =>
        this.#calls.awari_parse(place, length, this.#pits));
      expect(answer);
    } else {
      const pits = Array.from(board);
      if (pits.length !== PITS) throw new Refused(1);
      if (!pits.every(stones => Number.isInteger(stones) && stones >= 0 && stones < 256)) throw new Refused(2);
      this.#bytes(this.#pits, PITS).set(pits);
    }
    return this.#pits;
  }

  /** Calls with bytes that lie in the module's memory meanwhile. */
  #lend(bytes, call) {
    const place = this.#room(bytes.length);
    try {
      this.#bytes(place, bytes.length).set(bytes);
      return call(place, BigInt(bytes.length));
    } finally {
      this.#calls.page_free(place);
    }
  }

  /** Calls with files that lie in the module's memory meanwhile, each with its place and its length in the table. */
  #lendAll(files, table, call, at = 0) {
    if (at === files.length) return call();
    return this.#lend(bytesOf(files[at]), (place, length) => {
      const told = new DataView(this.#calls.memory.buffer, Number(table) + FILE_BYTES * at, FILE_BYTES);
      told.setBigUint64(0, place, true);
      told.setBigUint64(8, length, true);
      return this.#lendAll(files, table, call, at + 1);
    });
  }

  #room(bytes) {
    const place = this.#calls.page_alloc(BigInt(bytes));
    if (place === 0n) throw new Refused(84);
    return place;
  }

  /** The bytes of a place. They move when the memory grows, so nobody keeps them. */
  #bytes(place, length) {
    return new Uint8Array(this.#calls.memory.buffer, Number(place), length);
  }

  #view(length) {
    return new DataView(this.#calls.memory.buffer, Number(this.#out), length);
  }
}

// `node bindings/awari.mjs COMMAND ..` is the program in brief. A page starts no script.
if (globalThis.process?.argv?.[1]?.endsWith("awari.mjs"))
  import("./node/program.mjs").then(({ start }) => start(location.href));
return { Refused, Levels };
})();

const module_rules = (() => {
// The game by docs/RULES.md. Nothing here knows of files or of the page.
//
// The proved code answers from a thread of its own, and what a pointer passes over is drawn at once: where the
// stones of a pit fall, and whether it can be played. So the rules are here too, and tested beside the program.

/**
 * @typedef {number[]} Board the stones of twelve pits, as the mover sees them: pits 0 to 5 are the mover's own,
 * and pits 6 to 11 are the opponent's
 *
 * @typedef {object} Move
 * @property {number} pit
 * @property {number[]} falls the pits into which its stones fall, one by one
 * @property {number[]} taken the pits that are captured
 * @property {boolean} isSlam whether it would take all that the opponent has, and so takes nothing
 * @property {number} captured how many stones it captures
 * @property {Board} next the board that it leaves, as the other player sees it
 */

/** What is refused, by the number and the name that the program has for it (docs/FORMATS.md). */
class Fault extends Error {
  constructor(number, name, text) {
    super(`${text} (${number} ${name})`);
    this.number = number;
    this.fault = name;
    /** Whether the same may succeed later. */
    this.isPassing = false;
  }
}

const MOST_STONES = 48;
const OWN_PITS = [0, 1, 2, 3, 4, 5];

// ---- boards ----

/** @param {Board} board */
const stonesOf = board => board.reduce((sum, stones) => sum + stones, 0);

/**
 * The board as the other player sees it.
 * @param {Board} board
 * @returns {Board}
 */
const turned = board => [...board.slice(6), ...board.slice(0, 6)];

const print = board => `${board.slice(0, 6)}/${board.slice(6)}`;

const areSame = (board, other) => print(board) === print(other);

/**
 * The board that a word spells.
 * @param {string} text
 * @returns {Board}
 */
function parse(text) {
  const sides = text.split("/").map(side => side.split(","));
  if (sides.length !== 2 || sides.some(side => side.length !== 6))
    throw new Fault(1, "Shape", "A board is six numbers, a slash and six numbers, parted by commas");
  const wrong = sides.flat().find(field => !/^(0|[1-9][0-9]?)$/.test(field));
  if (wrong !== undefined)
    throw new Fault(2, "Number", `“${wrong}” is no number from 0 to 99 in its shortest form`);
  const board = sides.flat().map(Number);
  if (stonesOf(board) > MOST_STONES)
    throw new Fault(3, "TooMany", `These are ${stonesOf(board)} stones, and a board has at most ${MOST_STONES}`);
  return board;
}

// ---- moves ----

/** Where the stones of a pit fall, one by one. The origin is left out on each lap. */
const landings = (board, origin) =>
  Array.from({ length: board[origin] }, (_, stone) => (origin + 1 + stone % 11) % 12);

const opponentHasStones = board => board.slice(6).some(stones => stones > 0);

const feeds = (board, pit) => opponentHasStones(board) || landings(board, pit).some(fall => fall >= 6);

const isLegal = (board, pit) => OWN_PITS.includes(pit) && board[pit] > 0 && feeds(board, pit);

const legalPits = board => OWN_PITS.filter(pit => isLegal(board, pit));

const isEnded = board => legalPits(board).length === 0;

/** What the mover gains if play has ended: each player takes the stones on their own side. */
const endGain = board => stonesOf(board.slice(0, 6)) === 0 ? -stonesOf(board) : stonesOf(board);

/**
 * Why a pit can't be played, or null.
 * @param {Board} board
 * @param {number} pit
 */
function refusalOf(board, pit) {
  if (!OWN_PITS.includes(pit)) return new Fault(4, "NoPit", `The mover has no pit ${pit}`);
  if (isEnded(board)) return new Fault(7, "Ended", "The play has ended");
  if (board[pit] === 0) return new Fault(5, "EmptyPit", `Pit ${pit} is empty`);
  if (!feeds(board, pit))
    return new Fault(6, "MustFeed", `The opponent has no stones, and pit ${pit} would give none while another does`);
  return null;
}

/** The opponent's pits that a capture would take, from the last stone back. */
function capturedPits(sown, lastFall) {
  const taken = [];
  for (let pit = lastFall; pit >= 6 && (sown[pit] === 2 || sown[pit] === 3); pit--) taken.push(pit);
  return taken;
}

/**
 * The move from a pit. It throws its refusal.
 * @param {Board} board
 * @param {number} pit
 * @returns {Move}
 */
function play(board, pit) {
  const refused = refusalOf(board, pit);
  if (refused) throw refused;
  const falls = landings(board, pit), sown = [...board];
  sown[pit] = 0;
  for (const fall of falls) sown[fall] += 1;
  const reached = capturedPits(sown, falls.at(-1));
  const stones = reached.reduce((sum, each) => sum + sown[each], 0);
  // A grand slam would take all that the opponent has, and takes nothing.
  const isSlam = stones > 0 && stones === stonesOf(sown.slice(6));
  const taken = isSlam ? [] : reached;
  for (const each of taken) sown[each] = 0;
  return { pit, falls, taken, isSlam, captured: isSlam ? 0 : stones, next: turned(sown) };
}

/** How many boards have so many stones: in how many ways they lie in twelve pits. */
function sizeOf(stones) {
  let ways = 1;
  for (let bars = 1; bars <= 11; bars++) ways = ways * (stones + bars) / bars;
  return ways;
}

/**
 * Any board of so many stones, each as likely: eleven bars among the stones part the pits.
 * @returns {Board}
 */
function randomBoard(stones) {
  const bars = new Set();
  while (bars.size < 11) bars.add(Math.floor(Math.random() * (stones + 11)));
  const ends = [-1, ...[...bars].sort((one, other) => one - other), stones + 11];
  return Array.from({ length: 12 }, (_, pit) => ends[pit + 1] - ends[pit] - 1);
}
return { Fault, MOST_STONES, stonesOf, turned, print, areSame, parse, isLegal, legalPits, isEnded, endGain, refusalOf, play, sizeOf, randomBoard };
})();

const module_puzzle = (() => {
// Puzzles: boards with one move that keeps the gain, and it is not the greedy one. Nothing here knows of the page.
//
// A link names a puzzle by `puzzle=SEED,LEVEL,HARDNESS`, and a sheet of ten by `sheet=..`. The first digit of the
// hardness is how far the gain is, and the second how much the second best move throws away at least.

const { endGain, isEnded, legalPits, play } = module_rules;

/**
 * @typedef {import("./rules.mjs").Board} Board
 * @typedef {import("./level_file.mjs").Entry} Entry
 *
 * @typedef {object} Asked what a link names
 * @property {number} seed
 * @property {number} level the stones
 * @property {number} hardness two digits
 *
 * @typedef {{ pit: number, captured: number, value: number }} Choice a legal move and what it gains
 */

/** From which to which distance a digit leads. */
const PLIES = { 1: [1, 5], 2: [6, 15], 3: [16, 30], 4: [31, Infinity] };
/** Up to this level each board that is a puzzle is found, and then some are drawn, as `awari boards` does. */
const HIGHEST_GONE_OVER = 10;
const LEAST_LEVEL = 3;
const BOARDS_OF_A_SHEET = 10;
const HIGHEST_SEED = 4294967295;
const HIGHEST_LEVEL = 24;

// ---- links ----

/** @param {Asked} asked */
const printAsked = ({ seed, level, hardness }, kind = "puzzle") => `${kind}=${seed},${level},${hardness}`;

/**
 * What a link names, and whether that is a `puzzle` or a `sheet`; null if it names none of them.
 * @returns {{ kind: string, asked: Asked } | null}
 */
function parseAsked(text) {
  const [, kind, words] = /^(puzzle|sheet)=(.*)$/.exec(text.replaceAll(/%2c/gi, ",")) ?? [];
  if (!kind) return null;
  const numbers = words.split(",");
  if (numbers.length !== 3 || !numbers.every(word => /^(0|[1-9]\d{0,9})$/.test(word)))
    throw new Error(`A ${kind} is named by three numbers: ${kind}=SEED,LEVEL,HARDNESS`);
  const [seed, level, hardness] = numbers.map(Number);
  if (seed > HIGHEST_SEED) throw new Error(`A seed is at most ${HIGHEST_SEED}`);
  if (level < LEAST_LEVEL || level > HIGHEST_LEVEL)
    throw new Error(`A puzzle has ${LEAST_LEVEL} to ${HIGHEST_LEVEL} stones, and not ${level}`);
  if (!/^[1-4][1-9]$/.test(numbers[2])) throw new Error(`The hardness is 11 to 49, and not ${numbers[2]}`);
  return { kind, asked: { seed, level, hardness } };
}

/** @param {number} hardness */
const pliesOf = hardness => PLIES[Math.floor(hardness / 10)];
/** @param {number} hardness */
const marginOf = hardness => hardness % 10;

/** The words by which `awari boards` draws them, or null if it has none. */
function wordsOf({ seed, level, hardness }, count) {
  if (level > HIGHEST_GONE_OVER || marginOf(hardness) > 1) return null;
  const [least, most] = pliesOf(hardness), distance = `${least}..${most === Infinity ? "" : most}`;
  const which = `--value 1.. --distance ${distance} --keep 1 --trap 1..`;
  return `awari boards FOLDER ${level} ${which} --random ${count} --seed ${seed}`;
}

// ---- which boards are puzzles ----

/**
 * Whether a board has a gain that is so far.
 * @param {Entry} entry
 */
function isFar({ value, distance }, hardness) {
  const [least, most] = pliesOf(hardness);
  return value > 0 && distance >= least && distance <= most;
}

/** The move that captures most, and among equals the one that gains most. */
const greedyOf = moves => moves.reduce((best, move) =>
  move.captured > best.captured || (move.captured === best.captured && move.value > best.value) ? move : best);

/**
 * Whether one move keeps the value, the others throw away enough, and the greedy one is among those.
 * @param {number} value
 * @param {Choice[]} moves
 */
function isTrap(value, moves, hardness) {
  if (moves.filter(move => move.value > value - marginOf(hardness)).length !== 1) return false;
  const greedy = greedyOf(moves);
  return greedy.captured > 0 && greedy.value < value;
}

/** Whether a board may be a puzzle, as far as the rules tell. */
function mayBePuzzle(board) {
  const pits = legalPits(board);
  return pits.length > 1 && pits.some(pit => play(board, pit).captured > 0);
}

// ---- drawing ----

/** The number after this one, as in `awari boards --random`. */
const nextNumber = number => BigInt.asUintN(64, number * 6364136223846793005n + 1442695040888963407n);

/**
 * So many of these, in their order, as `awari boards --random` draws them.
 * @template T
 * @param {ArrayLike<T>} all
 * @returns {T[]}
 */
function drawn(all, wanted, seed) {
  let number = BigInt(seed), left = all.length;
  return Array.from(all).filter(() => {
    number = nextNumber(number);
    const isDrawn = (number >> 32n) % BigInt(left) < BigInt(wanted);
    left -= 1;
    wanted -= Number(isDrawn);
    return isDrawn;
  });
}

/** The ranks that a seed leads to, one after the other: for levels that are too large to be gone over. */
function* ranksOf(seed, boards) {
  for (let number = nextNumber(BigInt(seed)); ; number = nextNumber(number)) yield Number((number >> 32n) % BigInt(boards));
}

// ---- what came of one ----

/**
 * What South, who began, has gained.
 * @param {import("./game.mjs").State} state
 */
function gainOf({ board, mover, captured }) {
  const left = isEnded(board) ? endGain(board) : 0;
  return captured[0] - captured[1] + (mover === 0 ? left : -left);
}

/**
 * What the moves of a board throw away: how much each, which keep the value, and the least beside those.
 * @param {number} value
 * @param {Choice[]} moves
 */
function costsOf(value, moves) {
  const thrown = new Map(moves.map(move => [move.pit, value - move.value]));
  const right = moves.filter(move => move.value === value).map(({ pit }) => pit);
  const second = Math.min(...[...thrown.values()].filter(cost => cost > 0));
  return { thrown, right, second, greedy: greedyOf(moves).pit };
}
return { PLIES, HIGHEST_GONE_OVER, LEAST_LEVEL, BOARDS_OF_A_SHEET, printAsked, parseAsked, pliesOf, marginOf, wordsOf, isFar, isTrap, mayBePuzzle, drawn, ranksOf, gainOf, costsOf };
})();

const module_desk = (() => {
// What is asked of the proved code, in its thread. Nothing here knows of threads or of the page.

const { Levels } = module_awari;
const { isFar, isTrap } = module_puzzle;

/** @typedef {import("../../bindings/awari.mjs").Board} Board */

/** The thread works so long before it gives way. */
const MILLISECONDS_OF_WORK = 40;
/** So many boards are gone over before it gives way. */
const BOARDS_OF_A_SLICE = 8192;

const bytesOfText = text => Uint8Array.from(atob(text), character => character.charCodeAt(0));

class Desk {
  /** @type {Levels} */
  #levels;
  #isStopped = false;

  /** Starts the module, given in base64, and builds so many levels at once: their files. */
  async start(text, count) {
    this.#levels = await Levels.start(bytesOfText(text));
    return Array.from({ length: count }, () => this.#levels.build());
  }

  /** How many levels there are. */
  get length() { return this.#levels?.length ?? 0; }

  /**
   * Builds the next level in slices, and gives way now and then, so that boards are answered meanwhile.
   * @param {(boards: number) => void} told hears how many boards are done
   * @returns {Promise<Uint8Array | null>} its file, or null if it was stopped
   */
  async build(told) {
    this.#isStopped = false;
    this.#levels.begin();
    for (let isSettled = false; !isSettled; ) {
      const { boards, settled } = this.#spreadForAWhile();
      isSettled = settled;
      told(boards);
      await new Promise(next => setTimeout(next));
      if (this.#isStopped) return null;
    }
    return this.#levels.finish();
  }

  /** A slice ends with its distance, and many distances have few boards: there are slices until one would wait. */
  #spreadForAWhile() {
    const begun = performance.now();
    let told;
    do told = this.#levels.spread();
    while (!told.settled && performance.now() - begun < MILLISECONDS_OF_WORK);
    return told;
  }

  stop() { this.#isStopped = true; }

  /**
   * Goes over a level, and gives way now and then: the ranks of its boards that are puzzles of this hardness.
   * @param {number} level
   * @param {number} hardness
   * @param {(boards: number) => void} told hears how many boards are done
   */
  async puzzles(level, hardness, told) {
    const ranks = [], boards = this.#levels.size(level);
    for (let rank = 0; rank < boards; rank += BOARDS_OF_A_SLICE) {
      ranks.push(...this.#puzzlesIn(level, rank, Math.min(boards, rank + BOARDS_OF_A_SLICE), hardness));
      told(rank);
      await new Promise(next => setTimeout(next));
    }
    return ranks;
  }

  #puzzlesIn(level, from, to, hardness) {
    const ranks = [];
    for (let rank = from; rank < to; rank++) if (this.#isPuzzle(this.#levels.board(level, rank), hardness)) ranks.push(rank);
    return ranks;
  }

  #isPuzzle(board, hardness) {
    const entry = this.#levels.entry(board);
    if (!isFar(entry, hardness)) return false;
    const moves = this.#levels.moves(board).map(({ pit, captures, value }) => ({ pit, captured: captures, value }));
    return isTrap(entry.value, moves, hardness);
  }

  /**
   * Verifies a file, and puts its level on.
   * @param {Blob} file
   */
  async add(file) { this.#levels.add(new Uint8Array(await file.arrayBuffer())); }

  /** @param {Board} board */
  weigh(board) { return { entry: this.#levels.entry(board), moves: this.#levels.moves(board) }; }

  /** @param {Board} board */
  entry(board) { return this.#levels.entry(board); }

  /** @param {Board} board */
  line(board) { return this.#levels.line(board); }

  /** @param {Board} board */
  rank(board) { return this.#levels.rank(board); }

  /**
   * @param {number} level
   * @param {number} rank
   */
  board(level, rank) { return this.#levels.board(level, rank); }
}
return { Desk };
})();

const module_thread = (() => {
// The thread of the proved code: each message asks the desk, and is answered by its turn.

const { Desk } = module_desk;

const desk = new Desk();

/** A refusal as plain fields, since a message carries no class. */
const plain = ({ number, kind, message, level, inner, rule, rank }) =>
  ({ number, kind, message, level, inner, rule, rank });

globalThis.onmessage = async ({ data: [turn, name, ...words] }) => {
  const told = done => postMessage({ turn, done });
  try {
    const answer = await desk[name](...words, told);
    postMessage({ turn, answer, length: desk.length });
  } catch (refusal) {
    postMessage({ turn, refusal: plain(refusal), length: desk.length });
  }
};
return {  };
})();

};

const module_address = (() => {
// The address of the page, which has a link behind its #.

/** What stands behind the #, empty if nothing does. */
const readAddress = () => location.hash.slice(1);

/** Writes a link there, unless it is there. Back leads from a step to what was shown before it. */
function writeAddress(link, isStep) {
  if (history.state && readAddress() === link) return;
  try {
    if (isStep) history.pushState({ isStep }, "", `#${link}`);
    else history.replaceState({ isStep }, "", `#${link}`);
  } catch { /* a page without an address of its own */ }
}

/** Tells of Back and Forward among such steps, and of links that are opened. */
function onAddress({ comeTo, openLink }) {
  addEventListener("popstate", ({ state }) => {
    const link = readAddress();
    if (link) (state ? comeTo : openLink)(link);
  });
}
return { readAddress, writeAddress, onAddress };
})();

const module_elements = (() => {
// Makes elements of the page. All text comes in as text, so no name of a file can pass for markup.

const SVG = "http://www.w3.org/2000/svg";

/**
 * The element of this name, a field or any other.
 * @returns {any}
 */
const byId = id => document.getElementById(id);

/** An attribute that is false, null or undefined is left out, and so is such a child. */
function filled(node, attributes, children) {
  const isGiven = it => it !== false && it !== null && it !== undefined;
  for (const [name, value] of Object.entries(attributes)) if (isGiven(value)) node.setAttribute(name, value);
  node.append(...children.filter(isGiven));
  return node;
}

const element = (name, attributes = {}, ...children) =>
  filled(document.createElement(name), attributes, children);

const drawing = (name, attributes = {}, ...children) =>
  filled(document.createElementNS(SVG, name), attributes, children);

const icon = name => drawing("svg", { "aria-hidden": "true" }, drawing("use", { href: `#icon-${name}` }));

/** A button that can do nothing now. Hands leave it alone; if it were disabled, it would lose the keyboard. */
const turnOff = (button, isOff) => button.setAttribute("aria-disabled", String(isOff));
const isOff = button => button.getAttribute("aria-disabled") === "true";

/** Puts other children into a box. If one of the old had the keyboard, the first of the new that matches gets it. */
function refill(box, children, matching = "button") {
  const hasKeyboard = box.querySelector(":focus-visible") !== null;
  box.replaceChildren(...children);
  if (hasKeyboard) box.querySelector(matching)?.focus({ preventScroll: true });
}

function button(attributes, action, ...children) {
  const made = element("button", { type: "button", ...attributes }, ...children);
  made.addEventListener("click", action);
  return made;
}
return { byId, element, drawing, icon, turnOff, isOff, refill, button };
})();

const module_app = (() => {
// The page as an app: if it came from a server, the browser keeps it and opens it with no network.

const { element } = module_elements;

/** From the disk nothing is kept. A browser keeps nothing of a server without https, but for one on its own machine. */
async function keepPage() {
  if (!/^https?:$/.test(location.protocol)) return;
  document.head.append(
    element("link", { rel: "manifest", href: "manifest.webmanifest" }),
    element("link", { rel: "apple-touch-icon", href: "icon.png" }));
  try {
    await navigator.serviceWorker?.register("service_worker.js");
  } catch { /* the browser refuses, or the server has not that file */ }
}
return { keepPage };
})();

const module_choices = (() => {
// What was chosen on the page, yes or no, kept by the browser. Nothing here knows of the page.

const PREFIX = "awari-explorer.";

class Choices {
  /**
   * A page may be denied its storage; then choices last as long as the page.
   * @param {() => Storage} storage
   */
  constructor(storage) {
    this.chosen = new Map();
    try {
      this.storage = storage();
    } catch {
      this.storage = null;
    }
  }

  /** What was chosen, and `otherwise` if nothing was. */
  get(name, otherwise) {
    const kept = this.chosen.get(name) ?? this.storage?.getItem(PREFIX + name);
    return kept ? kept === "yes" : otherwise;
  }

  set(name, isChosen) {
    const kept = isChosen ? "yes" : "no";
    this.chosen.set(name, kept);
    try {
      this.storage?.setItem(PREFIX + name, kept);
    } catch { /* the storage is full */ }
  }
}
return { Choices };
})();

const module_files = (() => {
// The files that are chosen or dropped. Of a folder its own files are meant, and not those in folders inside it.

/** What an input of files has, and the name of the folder if it is one. */
function filesOfInput(input) {
  const files = [...input.files], path = files[0]?.webkitRelativePath?.split("/") ?? [];
  const isOwn = file => !file.webkitRelativePath || file.webkitRelativePath.split("/").length === 2;
  return { files: files.filter(isOwn), name: path.length > 1 ? path[0] : "" };
}

/** What was dropped. The browser lends it until the first wait, so all is asked for before that. */
function filesOfDrop(transfer) {
  const plain = [...transfer.files];
  const items = [...transfer.items].filter(item => item.kind === "file").map(item =>
    ({ entry: item.webkitGetAsEntry?.(), handle: item.getAsFileSystemHandle?.() }));
  const folder = items.find(({ entry }) => entry?.isDirectory);
  return folder ? ofFolder(folder) : Promise.resolve({ files: plain, name: "" });
}

/**
 * On a page that was opened from the disk Chromium reads no entries of a dropped folder, but it gives a
 * handle. Other browsers have no handles.
 */
async function ofFolder({ entry, handle }) {
  const given = await handle;
  return { files: await (given ? filesOfHandle(given) : filesOfEntry(entry)), name: entry.name };
}

async function filesOfHandle(handle) {
  const files = [];
  for await (const one of handle.values()) if (one.kind === "file") files.push(await one.getFile());
  return files;
}

/** A reader of entries gives some at a time, and none once it has given all. */
async function filesOfEntry(entry) {
  const reader = entry.createReader(), files = [];
  for (;;) {
    const some = await new Promise((done, failed) => reader.readEntries(done, failed));
    if (some.length === 0) return files;
    const asFile = one => new Promise((done, failed) => one.file(done, failed));
    files.push(...await Promise.all(some.filter(one => one.isFile).map(asFile)));
  }
}
return { filesOfInput, filesOfDrop };
})();

const module_letters = (() => {
// The names of pits: numbers as their mover sees them, or letters that stay with the pits. Nothing here knows
// of the page.

/** South's pits and North's, each from left to right as their owner sees them. */
const LETTERS = ["ABCDEF", "abcdef"];

/** The letter of a pit that the mover numbers so. */
const letterOf = (pit, mover) => LETTERS[pit < 6 ? mover : 1 - mover][pit % 6];

/** The name of a pit that the mover numbers so. */
const pitName = (pit, mover, hasLetters) => hasLetters ? letterOf(pit, mover) : String(pit);
return { letterOf, pitName };
})();

const module_rules = (() => {
// The game by docs/RULES.md. Nothing here knows of files or of the page.
//
// The proved code answers from a thread of its own, and what a pointer passes over is drawn at once: where the
// stones of a pit fall, and whether it can be played. So the rules are here too, and tested beside the program.

/**
 * @typedef {number[]} Board the stones of twelve pits, as the mover sees them: pits 0 to 5 are the mover's own,
 * and pits 6 to 11 are the opponent's
 *
 * @typedef {object} Move
 * @property {number} pit
 * @property {number[]} falls the pits into which its stones fall, one by one
 * @property {number[]} taken the pits that are captured
 * @property {boolean} isSlam whether it would take all that the opponent has, and so takes nothing
 * @property {number} captured how many stones it captures
 * @property {Board} next the board that it leaves, as the other player sees it
 */

/** What is refused, by the number and the name that the program has for it (docs/FORMATS.md). */
class Fault extends Error {
  constructor(number, name, text) {
    super(`${text} (${number} ${name})`);
    this.number = number;
    this.fault = name;
    /** Whether the same may succeed later. */
    this.isPassing = false;
  }
}

const MOST_STONES = 48;
const OWN_PITS = [0, 1, 2, 3, 4, 5];

// ---- boards ----

/** @param {Board} board */
const stonesOf = board => board.reduce((sum, stones) => sum + stones, 0);

/**
 * The board as the other player sees it.
 * @param {Board} board
 * @returns {Board}
 */
const turned = board => [...board.slice(6), ...board.slice(0, 6)];

const print = board => `${board.slice(0, 6)}/${board.slice(6)}`;

const areSame = (board, other) => print(board) === print(other);

/**
 * The board that a word spells.
 * @param {string} text
 * @returns {Board}
 */
function parse(text) {
  const sides = text.split("/").map(side => side.split(","));
  if (sides.length !== 2 || sides.some(side => side.length !== 6))
    throw new Fault(1, "Shape", "A board is six numbers, a slash and six numbers, parted by commas");
  const wrong = sides.flat().find(field => !/^(0|[1-9][0-9]?)$/.test(field));
  if (wrong !== undefined)
    throw new Fault(2, "Number", `“${wrong}” is no number from 0 to 99 in its shortest form`);
  const board = sides.flat().map(Number);
  if (stonesOf(board) > MOST_STONES)
    throw new Fault(3, "TooMany", `These are ${stonesOf(board)} stones, and a board has at most ${MOST_STONES}`);
  return board;
}

// ---- moves ----

/** Where the stones of a pit fall, one by one. The origin is left out on each lap. */
const landings = (board, origin) =>
  Array.from({ length: board[origin] }, (_, stone) => (origin + 1 + stone % 11) % 12);

const opponentHasStones = board => board.slice(6).some(stones => stones > 0);

const feeds = (board, pit) => opponentHasStones(board) || landings(board, pit).some(fall => fall >= 6);

const isLegal = (board, pit) => OWN_PITS.includes(pit) && board[pit] > 0 && feeds(board, pit);

const legalPits = board => OWN_PITS.filter(pit => isLegal(board, pit));

const isEnded = board => legalPits(board).length === 0;

/** What the mover gains if play has ended: each player takes the stones on their own side. */
const endGain = board => stonesOf(board.slice(0, 6)) === 0 ? -stonesOf(board) : stonesOf(board);

/**
 * Why a pit can't be played, or null.
 * @param {Board} board
 * @param {number} pit
 */
function refusalOf(board, pit) {
  if (!OWN_PITS.includes(pit)) return new Fault(4, "NoPit", `The mover has no pit ${pit}`);
  if (isEnded(board)) return new Fault(7, "Ended", "The play has ended");
  if (board[pit] === 0) return new Fault(5, "EmptyPit", `Pit ${pit} is empty`);
  if (!feeds(board, pit))
    return new Fault(6, "MustFeed", `The opponent has no stones, and pit ${pit} would give none while another does`);
  return null;
}

/** The opponent's pits that a capture would take, from the last stone back. */
function capturedPits(sown, lastFall) {
  const taken = [];
  for (let pit = lastFall; pit >= 6 && (sown[pit] === 2 || sown[pit] === 3); pit--) taken.push(pit);
  return taken;
}

/**
 * The move from a pit. It throws its refusal.
 * @param {Board} board
 * @param {number} pit
 * @returns {Move}
 */
function play(board, pit) {
  const refused = refusalOf(board, pit);
  if (refused) throw refused;
  const falls = landings(board, pit), sown = [...board];
  sown[pit] = 0;
  for (const fall of falls) sown[fall] += 1;
  const reached = capturedPits(sown, falls.at(-1));
  const stones = reached.reduce((sum, each) => sum + sown[each], 0);
  // A grand slam would take all that the opponent has, and takes nothing.
  const isSlam = stones > 0 && stones === stonesOf(sown.slice(6));
  const taken = isSlam ? [] : reached;
  for (const each of taken) sown[each] = 0;
  return { pit, falls, taken, isSlam, captured: isSlam ? 0 : stones, next: turned(sown) };
}

/** How many boards have so many stones: in how many ways they lie in twelve pits. */
function sizeOf(stones) {
  let ways = 1;
  for (let bars = 1; bars <= 11; bars++) ways = ways * (stones + bars) / bars;
  return ways;
}

/**
 * Any board of so many stones, each as likely: eleven bars among the stones part the pits.
 * @returns {Board}
 */
function randomBoard(stones) {
  const bars = new Set();
  while (bars.size < 11) bars.add(Math.floor(Math.random() * (stones + 11)));
  const ends = [-1, ...[...bars].sort((one, other) => one - other), stones + 11];
  return Array.from({ length: 12 }, (_, pit) => ends[pit + 1] - ends[pit] - 1);
}
return { Fault, MOST_STONES, stonesOf, turned, print, areSame, parse, isLegal, legalPits, isEnded, endGain, refusalOf, play, sizeOf, randomBoard };
})();

const module_words = (() => {
// Numbers and names as the page writes them. Nothing here knows of the game or of the page.

/** Player 0 and player 1. Who moves first is not said: a board may be set with either to move. */
const SIDES = ["South", "North"];

const grouped = number => String(number).replace(/\B(?=(\d{3})+$)/g, ",");

const plural = (number, one, many = `${one}s`) => `${grouped(number)} ${number === 1 ? one : many}`;

const plies = number => plural(number, "ply", "plies");

const signed = value => value > 0 ? `+${value}` : value < 0 ? `−${-value}` : "0";

/** The same for a voice, which may leave out a sign. */
const spoken = value => value > 0 ? `plus ${value}` : value < 0 ? `minus ${-value}` : "0";

const percent = (part, whole) => `${(100 * part / whole).toFixed(1)}%`;

function sizeText(number) {
  if (number < 1e4) return `${grouped(number)} bytes`;
  if (number < 1e6) return `${Math.round(number / 1e3)} kB`;
  if (number < 1e9) return `${(number / 1e6).toFixed(1)} MB`;
  return `${(number / 1e9).toFixed(2)} GB`;
}

/** For whom a value is: the name of its colour, too. */
const kindOf = value => value > 0 ? "won" : value < 0 ? "lost" : "even";
return { SIDES, grouped, plural, plies, signed, spoken, percent, sizeText, kindOf };
})();

const module_verdict = (() => {
// What boards and moves are worth, in words.

const { endGain, isEnded, stonesOf } = module_rules;
const { pitName } = module_letters;
const { plies, plural, SIDES, signed, spoken } = module_words;

const endsAhead = (lead, side) =>
  lead === 0 ? "the two end level" : `${SIDES[lead > 0 ? side : 1 - side]} ends ${Math.abs(lead)} ahead`;

/** How many stones a move threw away, and of what. */
function wordsOfToll({ before, after, thrown }) {
  if (thrown === 0) return `keeps the worth, ${signed(before)}`;
  return `threw away ${plural(thrown, "stone")}: worth ${signed(before)} before, ${signed(after)} after`;
}

/** A heading and a sentence on what the board is worth. */
function verdictOf({ state, weighed }) {
  if (isEnded(state.board)) return verdictOfEnd(state);
  const side = SIDES[state.mover];
  if (!weighed?.entry) return [`${side} to move`, weighed?.fault?.message ?? ""];
  const { value, distance } = weighed.entry, lead = leadOf(state);
  const inAll = lead === 0 ? "" : `. With what was captured, ${endsAhead(lead + value, state.mover)}`;
  if (value === 0) return [`${side} to move: even`, `Neither side can force a gain${inAll}`];
  const winner = SIDES[value > 0 ? state.mover : 1 - state.mover], stones = plural(Math.abs(value), "stone");
  return [
    `${side} to move: ${value > 0 ? "gains" : "loses"} ${Math.abs(value)}`,
    `${winner} can force ${stones} more, and a capture or the end within ${plies(distance)}${inAll}`,
  ];
}

/** How much more the mover has captured so far. */
const leadOf = ({ captured, mover }) => captured[mover] - captured[1 - mover];

function verdictOfEnd(state) {
  const { board, mover, move } = state, stones = stonesOf(board), gain = endGain(board);
  const keeper = SIDES[gain > 0 ? mover : 1 - mover], last = stones === 1 ? "stone" : `${stones} stones`;
  const keeps = stones === 0 ? "No stones are left" : `${keeper} keeps the last ${last}`;
  return ["Play has ended", move ? `${keeps}; ${endsAhead(leadOf(state) + gain, mover)}` : keeps];
}

const spokenVerdict = shown => verdictOf(shown).filter(Boolean).join(". ");

/** A grand slam and a capture, a value and a distance of a move, in words for a voice. */
function wordsOfMove(move, hasHints) {
  const worth = move.fault || move.value === undefined ? "its worth is not known" : `worth ${spoken(move.value)}`;
  return [
    move.captured ? `captures ${move.captured}` : move.isSlam ? "a grand slam, captures nothing" : "captures nothing",
    ...(hasHints ? [worth] : []),
    ...(move.distance ? [`within ${plies(move.distance)}`] : []),
    ...(move.isPlan ? ["the plan"] : []),
  ].join(", ");
}

// ---- puzzles ----

/** What there is to do in a puzzle, or what came of it. South solves it. */
function wordsOfPuzzle({ puzzle, hasLetters }) {
  const { standing, value, gained, rightMoves, decided } = puzzle;
  if (value === null) return "The levels are being asked.";
  if (standing === "home") return `Solved: South has gained ${plural(gained, "stone")}, and threw nothing away.`;
  if (standing === "round") return `This board was there before, so play goes round: ${gained} of ${value} are home.`;
  if (standing === "lost") return wordsOfLoss(decided, hasLetters);
  if (standing === "shown") return `Not solved. ${rightPits(decided, hasLetters)}`;
  if (rightMoves > 0) return `Right so far: ${gained} of ${value} are home. South to move.`;
  const { distance } = decided.weighed.entry;
  return `South gains ${value} by one move alone, and another captures more. A capture or the end comes within ${plies(distance)}.`;
}

function wordsOfLoss({ weighed, costs, pit }, hasLetters) {
  const before = weighed.entry.value, thrown = costs.thrown.get(pit);
  const toll = wordsOfToll({ before, after: before - thrown, thrown });
  return `Pit ${pitName(pit, 0, hasLetters)} ${toll}. ${rightPits({ costs }, hasLetters)}`;
}

function rightPits({ costs: { right } }, hasLetters) {
  const names = right.map(pit => pitName(pit, 0, hasLetters));
  return names.length === 1 ? `Right is pit ${names[0]}.` : `Right are pits ${names.join(", ")}.`;
}
return { wordsOfToll, verdictOf, spokenVerdict, wordsOfMove, wordsOfPuzzle };
})();

const module_plies_view = (() => {
// Moves that follow each other, a button each.

const { button, element } = module_elements;
const { pitName } = module_letters;
const { wordsOfToll } = module_verdict;
const { SIDES, signed } = module_words;

/**
 * A move as a button: its pit, what it captured, and what it threw away.
 * @param {{ pit: number, captured: number }} ply
 * @param {number} mover
 * @param {{ label: string, action: () => void, hasLetters: boolean, toll?: import("./game.mjs").Toll | null }} more
 * @param {{ class?: string, "aria-current"?: string | false }} attributes
 */
function makePly({ pit, captured }, mover, { label, action, hasLetters, toll }, attributes = {}) {
  const side = SIDES[mover], name = pitName(pit, mover, hasLetters);
  const captures = captured ? `, captures ${captured}` : "", cost = toll?.thrown ? `, ${wordsOfToll(toll)}` : "";
  const all = {
    ...attributes,
    class: `${side.toLowerCase()} ${attributes.class ?? ""}`,
    title: toll && wordsOfToll(toll),
    "aria-label": `${label}: ${side}, pit ${name}${captures}${cost}`,
  };
  return element("li", {}, button(all, action, name,
    captured > 0 && element("small", {}, `×${captured}`),
    toll?.thrown > 0 && element("small", { class: "thrown" }, signed(-toll.thrown))));
}

/**
 * The plies of a line that this side begins, from the one with this index on. Each goes to where it leads.
 * @param {{ pit: number, captured: number }[]} list
 * @param {{ mover: number, hasLetters: boolean, follow: (plies: object[]) => void }} how
 */
const makeLinePlies = (list, { mover, hasLetters, follow }, from = 0) => list.slice(from).map((ply, offset) =>
  makePly(ply, (mover + from + offset) % 2, {
    label: `Go to ply ${from + offset + 1} of the line`, action: () => follow(list.slice(0, from + offset + 1)), hasLetters,
  }));
return { makePly, makeLinePlies };
})();

const module_puzzle = (() => {
// Puzzles: boards with one move that keeps the gain, and it is not the greedy one. Nothing here knows of the page.
//
// A link names a puzzle by `puzzle=SEED,LEVEL,HARDNESS`, and a sheet of ten by `sheet=..`. The first digit of the
// hardness is how far the gain is, and the second how much the second best move throws away at least.

const { endGain, isEnded, legalPits, play } = module_rules;

/**
 * @typedef {import("./rules.mjs").Board} Board
 * @typedef {import("./level_file.mjs").Entry} Entry
 *
 * @typedef {object} Asked what a link names
 * @property {number} seed
 * @property {number} level the stones
 * @property {number} hardness two digits
 *
 * @typedef {{ pit: number, captured: number, value: number }} Choice a legal move and what it gains
 */

/** From which to which distance a digit leads. */
const PLIES = { 1: [1, 5], 2: [6, 15], 3: [16, 30], 4: [31, Infinity] };
/** Up to this level each board that is a puzzle is found, and then some are drawn, as `awari boards` does. */
const HIGHEST_GONE_OVER = 10;
const LEAST_LEVEL = 3;
const BOARDS_OF_A_SHEET = 10;
const HIGHEST_SEED = 4294967295;
const HIGHEST_LEVEL = 24;

// ---- links ----

/** @param {Asked} asked */
const printAsked = ({ seed, level, hardness }, kind = "puzzle") => `${kind}=${seed},${level},${hardness}`;

/**
 * What a link names, and whether that is a `puzzle` or a `sheet`; null if it names none of them.
 * @returns {{ kind: string, asked: Asked } | null}
 */
function parseAsked(text) {
  const [, kind, words] = /^(puzzle|sheet)=(.*)$/.exec(text.replaceAll(/%2c/gi, ",")) ?? [];
  if (!kind) return null;
  const numbers = words.split(",");
  if (numbers.length !== 3 || !numbers.every(word => /^(0|[1-9]\d{0,9})$/.test(word)))
    throw new Error(`A ${kind} is named by three numbers: ${kind}=SEED,LEVEL,HARDNESS`);
  const [seed, level, hardness] = numbers.map(Number);
  if (seed > HIGHEST_SEED) throw new Error(`A seed is at most ${HIGHEST_SEED}`);
  if (level < LEAST_LEVEL || level > HIGHEST_LEVEL)
    throw new Error(`A puzzle has ${LEAST_LEVEL} to ${HIGHEST_LEVEL} stones, and not ${level}`);
  if (!/^[1-4][1-9]$/.test(numbers[2])) throw new Error(`The hardness is 11 to 49, and not ${numbers[2]}`);
  return { kind, asked: { seed, level, hardness } };
}

/** @param {number} hardness */
const pliesOf = hardness => PLIES[Math.floor(hardness / 10)];
/** @param {number} hardness */
const marginOf = hardness => hardness % 10;

/** The words by which `awari boards` draws them, or null if it has none. */
function wordsOf({ seed, level, hardness }, count) {
  if (level > HIGHEST_GONE_OVER || marginOf(hardness) > 1) return null;
  const [least, most] = pliesOf(hardness), distance = `${least}..${most === Infinity ? "" : most}`;
  const which = `--value 1.. --distance ${distance} --keep 1 --trap 1..`;
  return `awari boards FOLDER ${level} ${which} --random ${count} --seed ${seed}`;
}

// ---- which boards are puzzles ----

/**
 * Whether a board has a gain that is so far.
 * @param {Entry} entry
 */
function isFar({ value, distance }, hardness) {
  const [least, most] = pliesOf(hardness);
  return value > 0 && distance >= least && distance <= most;
}

/** The move that captures most, and among equals the one that gains most. */
const greedyOf = moves => moves.reduce((best, move) =>
  move.captured > best.captured || (move.captured === best.captured && move.value > best.value) ? move : best);

/**
 * Whether one move keeps the value, the others throw away enough, and the greedy one is among those.
 * @param {number} value
 * @param {Choice[]} moves
 */
function isTrap(value, moves, hardness) {
  if (moves.filter(move => move.value > value - marginOf(hardness)).length !== 1) return false;
  const greedy = greedyOf(moves);
  return greedy.captured > 0 && greedy.value < value;
}

/** Whether a board may be a puzzle, as far as the rules tell. */
function mayBePuzzle(board) {
  const pits = legalPits(board);
  return pits.length > 1 && pits.some(pit => play(board, pit).captured > 0);
}

// ---- drawing ----

/** The number after this one, as in `awari boards --random`. */
const nextNumber = number => BigInt.asUintN(64, number * 6364136223846793005n + 1442695040888963407n);

/**
 * So many of these, in their order, as `awari boards --random` draws them.
 * @template T
 * @param {ArrayLike<T>} all
 * @returns {T[]}
 */
function drawn(all, wanted, seed) {
  let number = BigInt(seed), left = all.length;
  return Array.from(all).filter(() => {
    number = nextNumber(number);
    const isDrawn = (number >> 32n) % BigInt(left) < BigInt(wanted);
    left -= 1;
    wanted -= Number(isDrawn);
    return isDrawn;
  });
}

/** The ranks that a seed leads to, one after the other: for levels that are too large to be gone over. */
function* ranksOf(seed, boards) {
  for (let number = nextNumber(BigInt(seed)); ; number = nextNumber(number)) yield Number((number >> 32n) % BigInt(boards));
}

// ---- what came of one ----

/**
 * What South, who began, has gained.
 * @param {import("./game.mjs").State} state
 */
function gainOf({ board, mover, captured }) {
  const left = isEnded(board) ? endGain(board) : 0;
  return captured[0] - captured[1] + (mover === 0 ? left : -left);
}

/**
 * What the moves of a board throw away: how much each, which keep the value, and the least beside those.
 * @param {number} value
 * @param {Choice[]} moves
 */
function costsOf(value, moves) {
  const thrown = new Map(moves.map(move => [move.pit, value - move.value]));
  const right = moves.filter(move => move.value === value).map(({ pit }) => pit);
  const second = Math.min(...[...thrown.values()].filter(cost => cost > 0));
  return { thrown, right, second, greedy: greedyOf(moves).pit };
}
return { PLIES, HIGHEST_GONE_OVER, LEAST_LEVEL, BOARDS_OF_A_SHEET, printAsked, parseAsked, pliesOf, marginOf, wordsOf, isFar, isTrap, mayBePuzzle, drawn, ranksOf, gainOf, costsOf };
})();

const module_puzzle_view = (() => {
// The card of puzzles: which one is wanted, what there is to do, what came of it, and the streak.

const { byId, element, refill } = module_elements;
const { makeLinePlies } = module_plies_view;
const { LEAST_LEVEL, marginOf } = module_puzzle;
const { wordsOfPuzzle } = module_verdict;

/** @typedef {import("./session.mjs").Shown} Shown */

const HIGHEST_SEED_DRAWN = 1_000_000;
const KINDS = { home: "right", lost: "wrong", round: "wrong", shown: "wrong" };

/** The puzzle that the fields ask for, by another seed each time. */
function askedOfFields() {
  const level = Math.max(LEAST_LEVEL, Math.min(24, Math.floor(Number(byId("puzzle-level").value)) || LEAST_LEVEL));
  const hardness = Number(byId("puzzle-plies").value + byId("puzzle-margin").value);
  return { seed: Math.floor(Math.random() * HIGHEST_SEED_DRAWN), level, hardness };
}

/** Shows in the fields what a link asked for. */
function fillFields({ level, hardness }) {
  byId("puzzle-level").value = String(level);
  byId("puzzle-plies").value = String(Math.floor(hardness / 10));
  const margins = [...byId("puzzle-margin").options].map(({ value }) => value);
  if (margins.includes(String(marginOf(hardness)))) byId("puzzle-margin").value = String(marginOf(hardness));
}

class PuzzleView {
  #drawn = null;

  /** @param {{ follow: (plies: object[]) => void }} hands */
  constructor(hands) { this.hands = hands; }

  /**
   * @param {Shown} shown
   * @param {import("./streak.mjs").Streak} streak
   */
  draw(shown, streak) {
    const { puzzle, puzzleTold } = shown;
    if (puzzle && puzzle !== this.#drawn) fillFields(puzzle.asked);
    this.#drawn = puzzle;
    const told = puzzleTold || (puzzle ? wordsOfPuzzle(shown) : "");
    byId("puzzle-told").textContent = told;
    byId("puzzle-hint").hidden = Boolean(told);
    byId("puzzle-told").hidden = !told;
    byId("puzzle-told").className = puzzleTold ? "status" : `status ${KINDS[puzzle?.standing] ?? ""}`;
    byId("puzzle-card").setAttribute("aria-busy", String(puzzleTold.endsWith("…")));
    this.#drawButtons(puzzle);
    byId("streak").textContent = streak.text;
    this.#drawLine(shown);
  }

  /** One of two is there. If the other had the keyboard, it gets that. */
  #drawButtons(puzzle) {
    const held = document.activeElement?.id, buttons = ["solution", "again"];
    byId("solution").hidden = !puzzle?.isOpen;
    byId("again").hidden = !puzzle || puzzle.isOpen;
    if (buttons.includes(held) && byId(held).hidden) byId(buttons.find(id => !byId(id).hidden) ?? "puzzle").focus();
  }

  #drawLine({ puzzle, hasLetters }) {
    const plies = puzzle?.line?.plies ?? [];
    byId("puzzle-line").hidden = plies.length === 0;
    if (plies.length === 0) return byId("puzzle-line").replaceChildren();
    refill(byId("puzzle-line"), [
      element("p", { class: "small soft" }, "The line of both sides’ best moves:"),
      element("ol", { class: "plies" }, ...makeLinePlies(plies, { mover: 0, hasLetters, follow: this.hands.follow })),
    ]);
  }
}
return { askedOfFields, PuzzleView };
})();

const module_hands = (() => {
// What hands and keys do: buttons, fields, what is pasted or dropped, and the address.

const { onAddress } = module_address;
const { byId, element, isOff } = module_elements;
const { filesOfDrop, filesOfInput } = module_files;
const { askedOfFields } = module_puzzle_view;

/**
 * @typedef {import("./session.mjs").Session} Session
 * @typedef {import("./views.mjs").Views} Views
 */

/** The address of a file that is saved stays so long. */
const MILLISECONDS_OF_A_DOWNLOAD = 60_000;
const MILLISECONDS_BETWEEN_DOWNLOADS = 200;
const KEYS = {
  n: "puzzle", b: "best", p: "auto", u: "undo", r: "redo", t: "turn", s: "swap", e: "edit", h: "hints", l: "letters",
};

const isField = target => /^(INPUT|TEXTAREA|SELECT)$/.test(target.tagName) && target.type !== "checkbox";

/**
 * @param {Session} session
 * @param {Views} views
 * @param {import("./choices.mjs").Choices} choices
 */
function bindHands(session, views, choices) {
  const actions = actionsOf(session, views);
  for (const [id, action] of Object.entries(actions))
    byId(id).addEventListener("click", () => { if (!isOff(byId(id))) action(); });
  bindChoices(session, choices);
  bindWords(session, views);
  bindKeys(session);
  bindFiles(session, views);
  bindBuilding(session, views);
}

/** What each button does, by its name. */
function actionsOf(session, views) {
  return {
    undo: () => session.undo(),
    redo: () => session.redo(),
    start: () => session.goToStart(),
    best: () => session.play(session.plan),
    auto: () => session.togglePlaying(),
    turn: () => session.turnBoard(),
    swap: () => session.swapMover(),
    edit: () => session.setEditing(!session.shown.isEditing),
    adds: () => session.setTaking(false),
    takes: () => session.setTaking(true),
    clear: () => session.clear(),
    random: () => session.setRandomBoard(Number(byId("random-stones").value)),
    puzzle: () => session.openPuzzle(askedOfFields()),
    solution: () => session.showSolution(),
    again: () => session.tryAgain(),
    "sheet-button": () => session.openSheet(askedOfFields(), true),
    "print-sheet": () => print(),
    "close-sheet": () => session.show({ isStep: true }),
    copy: () => copy(session.word, "The board", views),
    "copy-game": () => copy(session.gameText, "The game", views),
    "copy-link": () => copy(location.href, "The link", views),
  };
}

/** What is chosen by a box, kept by the browser: whether it is at first, and what it changes. */
const BOXES = [
  { id: "keep-low", isAtFirst: false, choose: (session, isChosen) => session.keepMoverBelow(isChosen) },
  { id: "hints", isAtFirst: true, choose: (session, isChosen) => session.setHints(isChosen) },
  { id: "letters", isAtFirst: false, choose: (session, isChosen) => session.setLetters(isChosen) },
  { id: "keys-on", isAtFirst: true, choose: () => {} },
];

function bindChoices(session, choices) {
  for (const { id, isAtFirst, choose } of BOXES) {
    const box = byId(id);
    box.checked = choices.get(id, isAtFirst);
    if (box.checked !== isAtFirst) choose(session, box.checked);
    box.addEventListener("change", () => {
      choices.set(id, box.checked);
      choose(session, box.checked);
    });
  }
  const sides = [byId("table-south"), byId("table-north")];
  for (const side of sides) side.addEventListener("change", () => session.setTable(...sides.map(box => box.checked)));
}

function bindKeys(session) {
  addEventListener("keydown", event => {
    if (event.defaultPrevented || event.ctrlKey || event.metaKey || event.altKey) return;
    if (!byId("keys-on").checked || isField(event.target)) return;
    if (event.key === "Escape" && session.shown.isEditing) session.setEditing(false);
    else if (/^[0-5]$/.test(event.key) && !session.shown.isEditing) session.play(Number(event.key));
    else if (event.key === "o") session.changeTable();
    else if (event.key in KEYS) byId(KEYS[event.key]).click();
  });
}

// ---- words ----

/** Does what a text asks for, or tells what is wrong with the text. */
function attempt(show, tell) {
  try {
    show();
  } catch (fault) {
    tell(fault);
  }
}

function bindWords(session, views) {
  const tell = fault => {
    views.refuseWord(fault);
    views.hint(fault.message);
  };
  byId("word").addEventListener("input", () => { views.isWriting = true; });
  byId("word-form").addEventListener("submit", event => {
    event.preventDefault();
    views.isWriting = false; // what is shown takes its place
    attempt(() => session.showText(byId("word").value), fault => {
      views.isWriting = true;
      views.refuseWord(fault);
    });
  });
  document.addEventListener("paste", event => {
    const text = event.clipboardData?.getData("text") ?? "";
    if (!isField(event.target) && text.includes("/")) attempt(() => session.showText(text), tell);
  });
  onAddress({
    comeTo: link => attempt(() => session.comeTo(link), tell),
    openLink: link => attempt(() => session.openLink(link), tell),
  });
}

async function copy(text, name, views) {
  try {
    await navigator.clipboard.writeText(text);
  } catch {
    copyByField(text); // the older way, for pages to which the newer one is closed
  }
  views.hint(`${name} is copied`);
  views.say(`${name} is copied`);
}

function copyByField(text) {
  const field = element("textarea", { class: "unseen" }), activeElement = /** @type {any} */ (document.activeElement);
  field.value = text;
  document.body.append(field);
  field.select();
  document.execCommand("copy");
  field.remove();
  activeElement?.focus();
}

// ---- levels ----

function bindBuilding({ library }, views) {
  byId("build-form").addEventListener("submit", event => {
    event.preventDefault();
    if (library.work) library.stop();
    else if (!isOff(byId("build"))) library.build(views.more.top).then(() => views.say(library.notice ?? library.title));
  });
  byId("build-top").addEventListener("input", () => views.more.draw(library));
  byId("close").addEventListener("click", () => { if (!isOff(byId("close"))) library.close(); });
  byId("close").addEventListener("blur", () => views.more.drawClose(library));
  byId("save").addEventListener("click", () => saveFiles(library.files));
  byId("clear-kept").addEventListener("click", async () => {
    if (isOff(byId("clear-kept"))) return;
    await library.clear();
    views.hint("This browser keeps no levels any more");
    views.say("This browser keeps no levels any more");
  });
}

/** Each file comes as a download of its own. Chromium drops those that come too fast. */
async function saveFiles(files) {
  for (const file of files) {
    const link = element("a", { download: file.name, href: URL.createObjectURL(file) });
    link.click();
    setTimeout(() => URL.revokeObjectURL(link.href), MILLISECONDS_OF_A_DOWNLOAD);
    await new Promise(next => setTimeout(next, MILLISECONDS_BETWEEN_DOWNLOADS));
  }
}

// ---- files ----

function bindFiles(session, views) {
  byId("pick-whole").hidden = !("webkitdirectory" in byId("pick"));
  for (const input of [byId("pick"), byId("pick-files")])
    input.addEventListener("change", () => {
      openFiles(session, filesOfInput(input));
      input.value = ""; // so that the same folder can be chosen again
    });
  const mark = isDragging => document.body.classList.toggle("dragging", isDragging);
  addEventListener("dragover", event => {
    event.preventDefault();
    mark(true);
  });
  addEventListener("dragleave", event => { if (!event.relatedTarget) mark(false); });
  addEventListener("drop", event => {
    event.preventDefault();
    mark(false);
    filesOfDrop(event.dataTransfer)
      .then(chosen => chosen.files.length || chosen.name ? openFiles(session, chosen) : null)
      .catch(fault => views.hint(`What was dropped can’t be read: ${fault.message}`));
  });
}

async function openFiles(session, chosen) {
  await session.open(chosen);
  await session.library.settled;
  // how many choices were answered and verified, for scripts that wait for one
  document.body.dataset.opened = String(Number(document.body.dataset.opened ?? 0) + 1);
}
return { bindHands };
})();

const module_level_file = (() => {
// The file of a level by docs/FORMATS.md. Nothing here knows of the page.
//
// A file may have 2.5 GB. So its header and its digest are read when it is opened, and then the six bytes of each
// entry that is asked for.

const { Fault, sizeOf } = module_rules;
const { grouped } = module_words;

/**
 * @typedef {object} Source where the bytes of a level's file are: a file of the disk, or one of a server
 * @property {string} name
 * @property {number} size
 * @property {(from?: number, to?: number) => { arrayBuffer: () => Promise<ArrayBuffer> }} slice
 * @property {boolean} [isHosted] whether each slice is a request to a server
 *
 * @typedef {object} Level
 * @property {number} number
 * @property {Source} file
 * @property {number} boards
 * @property {number} limit
 * @property {string} below the digest of the file below
 * @property {string} digest
 *
 * @typedef {object} Entry what a level's file says of a board
 * @property {number} value
 * @property {number | null} plan
 * @property {number} distance
 */

const HIGHEST = 24;
const HIGHEST_OF_VERSION = { 1: 12, 2: HIGHEST };
const HEADER_BYTES = 52;
const ENTRY_BYTES = 6;
const DIGEST_BYTES = 32;
const MAGIC = "41574442";
const NO_DIGEST = "0".repeat(2 * DIGEST_BYTES);
const NO_PLAN = 255;
const LAST_PIT = 5;

const nameOf = number => `level_${String(number).padStart(2, "0")}.awdb`;
const fileSizeOf = number => HEADER_BYTES + ENTRY_BYTES * sizeOf(number) + DIGEST_BYTES;
const placeOf = rank => HEADER_BYTES + ENTRY_BYTES * rank;
const hex = bytes => Array.from(bytes, byte => byte.toString(16).padStart(2, "0")).join("");

async function bytesOf(file, from, to) {
  try {
    return new Uint8Array(await file.slice(from, to).arrayBuffer());
  } catch (fault) {
    if (fault instanceof Fault) throw fault;
    throw new Fault(68, "Read",
      `${file.name} can’t be read: it changed or went away since it was chosen. Choose it again. ${fault.name}`);
  }
}

// ---- a header ----

const versionOf = head => head[4] << 8 | head[5];
const highestOf = head => HIGHEST_OF_VERSION[versionOf(head)];
const countOf = head => new DataView(head.buffer).getBigUint64(8);

/**
 * The fields of a header in their order: its name, where it ends, and what is wrong with it, if anything.
 * @type {[string, number, (name: string, head: Uint8Array) => Fault | false | null][]}
 */
const FIELDS = [
  ["magic", 4, (name, head) => hex(head.slice(0, 4)) !== MAGIC &&
    new Fault(61, "Magic",
      `${name} is no file of a level: it begins with ${hex(head.slice(0, 4))}, and not with ${MAGIC}, “AWDB”`)],
  ["version", 6, (name, head) => !(versionOf(head) in HIGHEST_OF_VERSION) &&
    new Fault(62, "Version", `${name} has version ${versionOf(head)}; known are 1 and 2`)],
  ["level", 7, (name, head) => head[6] > highestOf(head) &&
    new Fault(63, "LevelOutOfRange",
      `${name} says that it is level ${head[6]}, and version ${versionOf(head)} has levels to ${highestOf(head)}`)],
  ["zero byte", 8, (name, head) => head[7] !== 0 &&
    new Fault(62, "Version", `${name} has ${head[7]} for its zero byte`)],
  ["count", 16, (name, head) => countOf(head) !== BigInt(sizeOf(head[6])) &&
    new Fault(64, "Count", `${name} counts ${countOf(head)} boards, and level ${head[6]} has ${sizeOf(head[6])}`)],
  ["limit", 20, () => null],
  ["digest of the file below", HEADER_BYTES, () => null],
];

function headerFaultOf(file, head) {
  for (const [field, end, faultOf] of FIELDS) {
    if (head.length < end)
      return new Fault(60, "Truncated", `${file.name} has ${file.size} bytes and ends inside its ${field}`);
    const fault = faultOf(file.name, head);
    if (fault) return fault;
  }
  return null;
}

function lengthFaultOf(file, number) {
  const due = fileSizeOf(number);
  if (file.size < due)
    return new Fault(60, "Truncated",
      `${file.name} is cut off: it has ${grouped(file.size)} bytes of ${grouped(due)}`);
  if (file.size > due)
    return new Fault(67, "Trailing",
      `${file.name} is too long: it has ${grouped(file.size)} bytes, and level ${number} has ${grouped(due)}`);
  return null;
}

/**
 * Reads the header and the digest of a level's file, and refuses it for the first field that is wrong.
 * @param {Source} file
 * @returns {Promise<Level>}
 */
async function openLevel(file) {
  const tail = bytesOf(file, Math.max(0, file.size - DIGEST_BYTES), file.size);
  tail.catch(() => {}); // it is told once the digest is due
  const head = await bytesOf(file, 0, HEADER_BYTES);
  const headerFault = headerFaultOf(file, head);
  if (headerFault) throw headerFault;
  const number = head[6];
  const lengthFault = lengthFaultOf(file, number);
  if (lengthFault) throw lengthFault;
  if (versionOf(head) === 1)
    throw new Fault(86, "Old",
      `${file.name} is of version 1, whose distances need not be the least; awari migrate FROM TO brings it over`);
  return {
    number, file,
    boards: sizeOf(number),
    limit: new DataView(head.buffer).getUint32(16),
    below: hex(head.slice(20, HEADER_BYTES)),
    digest: hex(await tail),
  };
}

/** Whether a level has its own number and was built over the one below it, which may not be there. */
function belowFaultOf(level, number, below) {
  if (level.number !== number)
    return new Fault(80, "Below", `${nameOf(number)} holds level ${level.number}, which its name denies`);
  const due = number === 0 ? NO_DIGEST : below?.digest;
  if (!due || level.below === due) return null;
  return new Fault(80, "Below", number === 0
    ? `${nameOf(0)} names a level below it`
    : `${nameOf(number)} was built over another ${nameOf(number - 1)} than this one`);
}

// ---- a folder ----

/** The files that have the name of a level, by its number. */
function namedLevels(files) {
  const named = new Map();
  for (const file of files) {
    const number = Number(/^level_(\d\d)\.awdb$/.exec(file.name)?.[1] ?? NaN);
    if (!(number <= HIGHEST)) continue;
    if (named.has(number)) throw new Error(`Two files are named ${file.name}: choose one folder of levels`);
    named.set(number, file);
  }
  return named;
}

const entryAt = (view, place) => {
  const plan = view.getUint8(place + 1);
  return { value: view.getInt8(place), plan: plan === NO_PLAN ? null : plan, distance: view.getUint32(place + 2) };
};
return { HIGHEST, HEADER_BYTES, ENTRY_BYTES, DIGEST_BYTES, MAGIC, NO_DIGEST, LAST_PIT, nameOf, fileSizeOf, placeOf, hex, bytesOf, openLevel, belowFaultOf, namedLevels, entryAt };
})();

const module_hosted = (() => {
// Levels in a folder of the page's own server. Six bytes of a file are asked for where the server knows Range.

const { fileSizeOf, HEADER_BYTES, HIGHEST, hex, MAGIC, nameOf, NO_DIGEST } = module_level_file;
const { Fault } = module_rules;

/** If a server ignores Range, files up to this level are fetched whole. */
const HIGHEST_WHOLE = 12;
/** So many files in a row that can't be read end the search for more. */
const MOST_UNREAD = 2;
const MAGIC_BYTES = 4;
/** What explorer/site lays beside the levels. */
const INDEX = "index.json", MOST_INDEX_BYTES = 1 << 16;
/** Besides those of 500 and more: the server asks to try again. */
const TRY_AGAIN = [408, 425, 429];

/**
 * In how many milliseconds an answer has to begin, and its bytes to come beside those that they take; how many bytes a
 * millisecond brings at least; and how long it is waited before each further try.
 */
const patience = { request: 10_000, bytesAMillisecond: 20, pauses: [300, 1500] };

/**
 * @typedef {{ folder: URL, isAsked: boolean }} Hosted a folder of a server, and whether the address names it
 *
 * @typedef {object} Found the file of a level on a server
 * @property {number} number
 * @property {import("./level_file.mjs").Source | null} source null if it is too large to be fetched whole
 * @property {Fault | null} fault why it could not be read
 * @property {boolean} isWhole whether the server ignores Range
 * @property {boolean} isLevel whether it begins as a level does, or could not be read
 * @property {import("./shelf.mjs").Listed} [listed] what the folder's index says of it, which has not been looked at
 */

/**
 * Where the address says that levels are: `?levels=URL`, or the folder beside the page. Null from the disk.
 * @returns {Hosted | null}
 */
function hostedFolder({ protocol, search, href }) {
  if (!/^https?:$/.test(protocol)) return null;
  const asked = new URLSearchParams(search).get("levels");
  return { folder: new URL((asked ?? "levels").replace(/\/?$/, "/"), href), isAsked: asked !== null };
}

/** A file of a server that knows Range: each slice is a request. */
class HostedFile {
  isHosted = true;

  /**
   * @param {URL} place
   * @param {number} size
   * @param {ArrayBuffer} [head] its first bytes, if they were read already
   */
  constructor(place, size, head = new ArrayBuffer(0)) {
    this.place = place;
    this.size = size;
    this.head = head;
    this.name = fileNameOf(place);
  }

  slice(from = 0, to = this.size) {
    const last = Math.min(to, this.size);
    if (last <= this.head.byteLength) return { arrayBuffer: async () => this.head.slice(from, last) };
    return { arrayBuffer: () => ask(this.place, from, last, answer => partOf(answer, this.place, from, last)) };
  }
}

const fileNameOf = place => place.pathname.split("/").at(-1);

// ---- requests ----

/** The network or the server failed at a file, which may be read later. */
function unread(place, why) {
  const fault = new Fault(68, "Read", `${fileNameOf(place)} can’t be read from the server: ${why}`);
  fault.isPassing = true;
  return fault;
}

/** What `take` makes of the answer, which has these bytes or the `whole` file. What fails is tried twice more. */
async function ask(place, from, to, take, whole = 0) {
  for (const pause of [...patience.pauses, null]) {
    try {
      return await askOnce(place, from, to, take, whole);
    } catch (fault) {
      if (!fault.isPassing || pause === null) throw fault;
      await new Promise(next => setTimeout(next, pause));
    }
  }
}

async function askOnce(place, from, to, take, whole) {
  const control = new AbortController(), headers = { Range: `bytes=${from}-${to - 1}` };
  let milliseconds = patience.request, timer = setTimeout(() => control.abort(), milliseconds);
  try {
    // a browser's cache would let parts of one file wait for each other
    const answer = await fetch(place, { headers, cache: "no-store", redirect: "manual", signal: control.signal });
    const { status, statusText } = answer;
    clearTimeout(timer);
    milliseconds += (status === 200 ? whole : to - from) / patience.bytesAMillisecond;
    timer = setTimeout(() => control.abort(), milliseconds);
    if (status >= 500 || TRY_AGAIN.includes(status)) throw unread(place, `it answers ${status} ${statusText}`.trim());
    return await take(answer);
  } catch (fault) {
    if (fault instanceof Fault) throw fault;
    throw unread(place, control.signal.aborted
      ? `it has not answered within ${Math.ceil(milliseconds / 1000)} seconds`
      : `the network fails, “${fault.message}”`);
  } finally {
    clearTimeout(timer);
    control.abort(); // of a body that nobody wants
  }
}

/** What an answer says of the part that it is: its first byte, the one behind its last, and the file's size if told. */
function rangeOf(answer) {
  const found = /^bytes (\d+)-(\d+)\/(\d+|\*)$/.exec(answer.headers.get("Content-Range") ?? "");
  if (!found) return null;
  const [first, last, size] = found.slice(1).map(Number);
  return { first, end: last + 1, size: found[3] === "*" ? null : size };
}

/** The bytes of a part, which have to be those that were asked for. */
async function partOf(answer, place, from, to) {
  const name = fileNameOf(place), range = rangeOf(answer);
  if (answer.status === 200)
    throw new Fault(68, "Read", `The server ignores Range for ${name}, and gives all of it in place of a part`);
  if (answer.status === 416) throw new Fault(60, "Truncated", `${name} ends before byte ${to}`);
  if (answer.status !== 206) throw unread(place, `it answers ${answer.status || "that it is elsewhere"}`);
  if (range?.first !== from || range.end !== Math.min(to, range.size ?? to)) throw anotherPart(answer, name);
  const bytes = await answer.arrayBuffer();
  if (bytes.byteLength !== range.end - from) throw unread(place, "a part ends too soon");
  return bytes;
}

function anotherPart(answer, name) {
  const told = answer.headers.get("Content-Range") ?? "no Content-Range";
  return new Fault(68, "Read", `The server gives another part of ${name} than was asked for: ${told}`);
}

/** The bytes of a body up to so many, so that no server fills the memory. */
async function bytesUpTo(answer, most) {
  const reader = answer.body?.getReader(), parts = [];
  for (let length = 0; reader && length < most; ) {
    const { done, value } = await reader.read();
    if (done) break;
    parts.push(value);
    length += value.length;
  }
  return new Blob(parts).arrayBuffer();
}

// ---- a folder ----

/**
 * The levels of a folder from this number up, to the first that is not there: those of its index at once if the server
 * gives parts, and else each as its header comes. Unless the address asks for levels, what does not begin as a level
 * does is not there: a server may show a page in its place.
 * @param {Hosted} hosted
 * @param {number} first
 * @returns {AsyncGenerator<Found>}
 */
async function* hostedLevels({ folder, isAsked }, first) {
  const [index, head] = await Promise.all([indexOf(folder), headOf(folder, first)]);
  const isByParts = !head || (head.isLevel && !head.isWhole);
  if (index.length > first && isByParts) yield* index.slice(first).map(listed => foundListed(folder, listed));
  else yield* foundHeads({ folder, isAsked }, first, head);
}

/** A level as the index has it. Its file is looked at with the first entry that is asked for. */
function foundListed(folder, listed) {
  const { number, bytes } = listed, source = new HostedFile(new URL(nameOf(number), folder), bytes);
  return { number, source, fault: null, isWhole: false, isLevel: true, listed };
}

/** The levels of a folder's index, none if it has none that can be read. */
async function indexOf(folder) {
  try {
    const signal = /** @type {any} */ (AbortSignal).timeout(patience.request);
    const answer = await fetch(new URL(INDEX, folder), { cache: "no-store", signal });
    return answer.ok ? listedIn(new TextDecoder().decode(await bytesUpTo(answer, MOST_INDEX_BYTES))) : [];
  } catch {
    return [];
  }
}

/** What an index says of the levels from 0 up, to the first that it has not or that can't be so. */
function listedIn(text) {
  const { levels } = JSON.parse(text), isSo = (each, number) => each?.number === number && number <= HIGHEST
    && each.bytes === fileSizeOf(number) && Number.isInteger(each.limit) && /^[0-9a-f]{64}$/.test(each.digest);
  const end = levels.findIndex((each, number) => !isSo(each, number));
  return (end < 0 ? levels : levels.slice(0, end)).map((each, number) =>
    ({ ...each, below: number === 0 ? NO_DIGEST : levels[number - 1].digest }));
}

/**
 * @param {Hosted} hosted
 * @param {number} first
 * @param {Found | null} head what is found under the name of the first
 */
async function* foundHeads({ folder, isAsked }, first, head) {
  let next = Promise.resolve(head);
  for (let number = first, unread = 0; number <= HIGHEST && unread < MOST_UNREAD; number++) {
    const found = await next;
    if (!found || (!found.isLevel && !isAsked)) return;
    if (found.isLevel && number < HIGHEST) next = headOf(folder, number + 1);
    unread = found.fault ? unread + 1 : 0;
    yield found;
    if (!found.isLevel) return;
  }
}

/** What is found under a level's name, null if nothing is. It never throws. */
async function headOf(folder, number) {
  const place = new URL(nameOf(number), folder), whole = number <= HIGHEST_WHOLE ? fileSizeOf(number) + 1 : MAGIC_BYTES;
  try {
    return await ask(place, 0, HEADER_BYTES, answer => foundIn(answer, place, number, whole), whole);
  } catch (fault) {
    return { number, source: new HostedFile(place, fileSizeOf(number)), fault, isWhole: false, isLevel: true };
  }
}

/** A folder without a file has many answers: it is refused, or it is elsewhere. */
async function foundIn(answer, place, number, whole) {
  const byParts = (size, isLevel, head) =>
    ({ number, source: new HostedFile(place, size, head), fault: null, isWhole: false, isLevel });
  if (answer.status === 200) {
    const bytes = await bytesUpTo(answer, whole), isLevel = beginsAsLevel(bytes);
    const source = number <= HIGHEST_WHOLE || !isLevel ? new File([bytes], nameOf(number)) : null;
    return { number, source, fault: null, isWhole: true, isLevel };
  }
  if (answer.status === 416) return byParts(0, false);
  if (answer.status !== 206) return null;
  const head = await partOf(answer, place, 0, HEADER_BYTES), size = rangeOf(answer)?.size ?? fileSizeOf(number);
  return byParts(size, beginsAsLevel(head), head);
}

const beginsAsLevel = bytes => hex(new Uint8Array(bytes.slice(0, MAGIC_BYTES))) === MAGIC;
return { HIGHEST_WHOLE, patience, hostedFolder, hostedLevels, listedIn };
})();

const module_proved = (() => {
// The proved code in a thread of its own, so that the page answers hands while it works.
//
// A page that was opened from the disk may start no thread from a file. So explorer/make puts the text of the
// thread and the bytes of the module into scripts, and the page makes a file of its own of the text.

const { Fault } = module_rules;

/** @typedef {{ awariThread: () => void, awariModule?: string }} Made what explorer/make puts beside the modules */

class Proved {
  /** How many levels it has: of boards with fewer stones it knows the truth. */
  length = 0;
  #turn = 0;
  #waiting = new Map();
  #thread;

  /** Starts the thread, which builds so many levels at once; `ready` has their files. */
  constructor(count = 0) {
    const { awariThread, awariModule } = /** @type {Made} */ (/** @type {unknown} */ (globalThis));
    const text = new Blob([`(${awariThread})();`], { type: "text/javascript" });
    const place = URL.createObjectURL(text);
    this.#thread = new Worker(place);
    this.#thread.onmessage = ({ data }) => this.#hear(data);
    this.#thread.onerror = event => this.#fail(event.message);
    /** @type {Promise<Uint8Array[]>} */
    this.ready = awariModule === undefined
      ? Promise.reject(new Error("The module of the proved code is not beside this page"))
      : this.ask("start", awariModule, count).finally(() => URL.revokeObjectURL(place));
  }

  /**
   * Asks the desk in the thread. A refusal is thrown as a fault.
   * @returns {Promise<any>}
   */
  ask(name, ...words) { return this.askTelling(null, name, ...words); }

  /**
   * The same of work that tells how far it is.
   * @param {((done: number) => void) | null} told
   */
  askTelling(told, name, ...words) {
    const turn = this.#turn++;
    return new Promise((answered, refused) => {
      this.#waiting.set(turn, { answered, refused, told });
      this.#thread.postMessage([turn, name, ...words]);
    });
  }

  #hear({ turn, done, answer, refusal, length }) {
    const waiting = this.#waiting.get(turn);
    if (!waiting) return;
    if (done !== undefined) return waiting.told?.(done);
    this.#waiting.delete(turn);
    this.length = length;
    if (refusal) waiting.refused(Object.assign(new Fault(refusal.number, refusal.kind, refusal.message), refusal));
    else waiting.answered(answer);
  }

  #fail(text) {
    for (const { refused } of this.#waiting.values()) refused(new Error(`The proved code does not run here: ${text}`));
    this.#waiting.clear();
  }

  /** Ends the thread, whatever it does, and gives its memory back. What was asked is not answered any more. */
  end() {
    this.#thread.terminate();
    this.#fail("it was ended");
  }
}
return { Proved };
})();

const module_stones = (() => {
// Stones in a bowl.

const { drawing } = module_elements;

const GOLDEN_ANGLE = 2.399963;

/** How large stones are if there are up to so many. */
const RADII = [[4, 15], [7, 13], [10, 11], [16, 9.5], [26, 7.6], [48, 6]];

const radiusOf = count => RADII.find(([most]) => count <= most)[1];

/** A picture of so many stones, laid like the seeds of a sunflower. Each number of a pit lays them otherwise. */
function drawStones(count, pit) {
  const radius = radiusOf(count), reach = count === 1 ? 0 : Math.min(47 - radius, 1.02 * radius * Math.sqrt(count));
  const stones = Array.from({ length: count }, (_, index) => {
    const angle = index * GOLDEN_ANGLE + pit * 1.7;
    const far = reach * Math.sqrt((index + (count < 4 ? 0.9 : 0.5)) / count);
    return drawing("circle", {
      cx: (50 + far * Math.cos(angle)).toFixed(1), cy: (51 + far * Math.sin(angle)).toFixed(1), r: radius,
      fill: `url(#stone-${(index * 7 + pit) % 3})`, stroke: "#0005", "stroke-width": 0.8,
    });
  });
  return drawing("svg", { viewBox: "0 0 100 100", "aria-hidden": "true" }, ...stones);
}
return { drawStones };
})();

const module_small_board = (() => {
// Small pictures of boards, as the rules and a sheet of puzzles have them.

const { drawing } = module_elements;
const { drawStones } = module_stones;

/**
 * @typedef {import("./rules.mjs").Board} Board
 *
 * @typedef {object} Marks what is marked at a pit
 * @property {(pit: number) => string} ring the class of a ring around it, or nothing
 * @property {(pit: number) => string} chip the text of a chip on it, or nothing
 */

/** In the units of a picture: the width of a pit, the margin, a bowl, and what stands where in the upper row. */
const PIT = 96, EDGE = 20, BOWL = 42;
const UPPER = { number: 28, bowl: 86, count: 150 };
const WIDTH = 2 * EDGE + 6 * PIT, HEIGHT = 346;

/**
 * @param {Board} board
 * @param {number} pit
 * @param {Marks} marks
 */
function drawPit(board, pit, { ring, chip }) {
  const isUpper = pit > 5, x = EDGE + PIT * ((isUpper ? 11 - pit : pit) + 0.5);
  const placeOf = part => isUpper ? UPPER[part] : HEIGHT - UPPER[part], y = placeOf("bowl");
  const write = (name, part, text) =>
    drawing("text", { class: name, x, y: placeOf(part), dy: ".35em" }, String(text));
  const stones = drawStones(board[pit], pit);
  for (const [name, value] of Object.entries({ x: x - BOWL, y: y - BOWL, width: 2 * BOWL, height: 2 * BOWL }))
    stones.setAttribute(name, String(value));
  return drawing("g", {},
    drawing("circle", { class: `hollow ${ring(pit)}`, cx: x, cy: y, r: BOWL }),
    stones,
    write("pit-number", "number", pit),
    write(board[pit] ? "pit-count" : "pit-count none", "count", board[pit]),
    chip(pit) !== "" && drawChip(x + BOWL - 8, y - BOWL + 12, chip(pit)));
}

const drawChip = (x, y, text) => drawing("g", { class: "chip" },
  drawing("rect", { x: x - 21, y: y - 15, width: 42, height: 30, rx: 11 }),
  drawing("text", { x, y, dy: ".35em" }, text));

/** What a voice reads of a picture. */
const wordsOfBoard = board =>
  `pits 0 to 5 hold ${board.slice(0, 6).join(", ")}, and pits 6 to 11 ${board.slice(6).join(", ")}`;

/**
 * @param {Board} board
 * @param {string} when
 * @param {Marks} marks
 */
const drawSmallBoard = (board, when, marks) =>
  drawing("svg", {
    class: "small-board", viewBox: `0 0 ${WIDTH} ${HEIGHT}`,
    role: "img", "aria-label": `${when}: ${wordsOfBoard(board)}`,
  },
  drawing("rect", { class: "wood", x: 3, y: 3, width: WIDTH - 6, height: HEIGHT - 6, rx: 30 }),
  drawing("line", { class: "ridge", x1: EDGE, x2: WIDTH - EDGE, y1: HEIGHT / 2, y2: HEIGHT / 2 }),
  ...board.map((_, pit) => drawPit(board, pit, marks)));
return { drawSmallBoard };
})();

const module_rules_view = (() => {
// The pictures of the rules: a board before a move and after its sowing, for each figure that names the two.

const { button, element } = module_elements;
const { parse, play, refusalOf } = module_rules;
const { drawSmallBoard } = module_small_board;

/** @typedef {import("./rules.mjs").Board} Board */

/** A board with its stones sown, and nothing captured yet. */
function sownBoard(board, { pit, falls }) {
  const sown = [...board];
  sown[pit] = 0;
  for (const fall of falls) sown[fall] += 1;
  return sown;
}

function drawBefore(board, { pit: origin }) {
  const isRefused = pit => pit < 6 && board[pit] > 0 && refusalOf(board, pit) !== null;
  return drawSmallBoard(board, "Before", {
    ring: pit => pit === origin ? "origin-ring" : isRefused(pit) ? "refused-ring" : "",
    chip: pit => isRefused(pit) ? "✕" : "",
  });
}

function drawSown(board, move) {
  const timesOf = pit => move.falls.filter(fall => fall === pit).length;
  return drawSmallBoard(sownBoard(board, move), "Sown", {
    ring: pit => move.taken.includes(pit) ? "taken-ring" : "",
    chip: pit => timesOf(pit) ? `+${timesOf(pit)}` : "",
  });
}

/**
 * Fills each figure that names a board and a pit. The button of a figure shows its board.
 * @param {NodeListOf<HTMLElement>} figures
 * @param {{ showBoard: (board: Board) => void }} hands
 */
function drawExamples(figures, hands) {
  for (const figure of figures) {
    const board = parse(figure.dataset.board), move = play(board, Number(figure.dataset.pit));
    const arrow = element("span", { class: "arrow", "aria-hidden": "true" }, "→");
    const caption = figure.querySelector("figcaption");
    const named = { class: "button small-button", "aria-label": `Show on the board: ${caption.textContent}` };
    figure.prepend(element("div", { class: "steps" }, drawBefore(board, move), arrow, drawSown(board, move)));
    caption.append(" ", button(named, () => hands.showBoard(board), "Show on the board"));
  }
}
return { drawExamples };
})();

const module_game = (() => {
// A game: what was played from a board, what each move threw away, and its text, as `awari judge` takes it.
// Nothing here knows of files or of the page.

const { parse, play, print, refusalOf } = module_rules;

/**
 * @typedef {import("./rules.mjs").Board} Board
 *
 * @typedef {object} State
 * @property {Board} board as its mover sees it
 * @property {number} mover whose move it is: 0 South, 1 North
 * @property {number[]} captured what each side has captured
 * @property {import("./rules.mjs").Move | null} move the move that led here, null if the board was set up
 *
 * @typedef {object} Game
 * @property {Board} board the first, as its mover sees it
 * @property {number} mover who moves first
 * @property {number[]} pits what was played in turn
 *
 * @typedef {object} Toll what a move cost its mover
 * @property {number} before what the board was worth
 * @property {number} after what it is worth by this move
 * @property {number} thrown how much less that is
 */

/** The greatest that `awari judge` takes: by it only the end of play is an outcome. */
const GREATEST_LIMIT = 4294967295;

/** A move of a game that is refused, and which one that is, from 1 on. */
class MoveFault extends Error {
  constructor(refused, at) {
    super(`Move ${at}: ${refused.message}`);
    this.number = refused.number;
    this.fault = refused.fault;
    this.at = at;
  }
}

/**
 * @param {Board} board
 * @param {number} mover
 * @returns {State}
 */
const stateOf = (board, mover) => ({ board, mover, captured: [0, 0], move: null });

/**
 * @param {State} state
 * @param {number} pit
 * @returns {State}
 */
function stateAfter(state, pit) {
  const move = play(state.board, pit), captured = [...state.captured];
  captured[state.mover] += move.captured;
  return { board: move.next, mover: 1 - state.mover, captured, move };
}

/**
 * The states of a game, from its first board on. It is refused for the first move that can't be played.
 * @param {Game} game
 */
function statesOf({ board, mover, pits }) {
  const states = [stateOf(board, mover)];
  for (const [index, pit] of pits.entries()) {
    const refused = refusalOf(states[index].board, pit);
    if (refused) throw new MoveFault(refused, index + 1);
    states.push(stateAfter(states[index], pit));
  }
  return states;
}

// ---- what was thrown away ----

/**
 * What each move of these states cost. Where a worth is not known, it is null.
 * @param {State[]} states
 * @param {(board: Board) => Promise<number | null>} valueOf
 * @returns {Promise<(Toll | null)[]>}
 */
async function tollsOf(states, valueOf) {
  const values = await Promise.all(states.map(({ board }) => valueOf(board)));
  return states.slice(1).map(({ move }, index) => {
    const before = values[index], next = values[index + 1];
    if (before === null || next === null) return null;
    const after = move.captured - next;
    return { before, after, thrown: before - after };
  });
}

/**
 * How many stones each side threw away in all.
 * @param {State[]} states
 * @param {(Toll | null)[]} tolls
 */
function thrownBySides(states, tolls) {
  const thrown = [0, 0];
  for (const [index, toll] of tolls.entries()) thrown[states[index].mover] += toll?.thrown ?? 0;
  return thrown;
}

// ---- text ----

/**
 * A game as the words of `awari judge`: its first board, a limit, and the moves. They don't say who is South.
 * @param {Game} game
 */
const printGame = ({ board, pits }, limit = GREATEST_LIMIT) => [print(board), limit, ...pits].join(" ");

/**
 * Reads such words, with the name of the command or without it. A board alone is a game of no moves. South
 * moves first.
 * @returns {Game}
 */
function parseGame(text) {
  const [board, limit, ...moves] = text.trim().replace(/^(\$\s+)?\S*awari\s+judge\s+/, "").split(/\s+/);
  const game = { board: parse(board), mover: 0, pits: pitsOf(moves.join("")) };
  if (limit !== undefined && !(/^\d+$/.test(limit) && Number(limit) <= GREATEST_LIMIT))
    throw new Error(`“${limit}” is no limit. That comes after the board, 0 to ${GREATEST_LIMIT}, and then the moves`);
  statesOf(game);
  return game;
}

/** The pits of moves, a digit each. What is none stays as it is, and is refused in its turn. */
const pitsOf = moves => [...moves].map(move => /[0-9]/.test(move) ? Number(move) : move);
return { MoveFault, stateOf, stateAfter, statesOf, tollsOf, thrownBySides, printGame, parseGame, pitsOf };
})();

const module_kept = (() => {
// The files of levels that the browser keeps until they are cleared. A browser may refuse: then it keeps none.

const STORE = "levels";

const asked = request => new Promise((done, failed) => {
  request.onsuccess = () => done(request.result);
  request.onerror = () => failed(request.error);
});

function openStore() {
  const opening = indexedDB.open("awari", 1);
  opening.onupgradeneeded = () => opening.result.createObjectStore(STORE);
  return asked(opening);
}

/** Does something to the store: what comes of it, or `otherwise` if the browser refuses. */
async function withStore(mode, otherwise, action) {
  try {
    const base = await openStore();
    return await asked(action(base.transaction(STORE, mode).objectStore(STORE))).finally(() => base.close());
  } catch {
    return otherwise;
  }
}

/**
 * The numbers of the levels that are kept.
 * @returns {Promise<number[]>}
 */
const keptNumbers = () => withStore("readonly", [], store => store.getAllKeys());

/**
 * The file of a level that is kept.
 * @returns {Promise<Blob | null>}
 */
const keptFile = number => withStore("readonly", null, store => store.get(number));

/**
 * Keeps the file of a level: whether the browser does.
 * @param {number} number
 * @param {Blob} file
 */
const keepFile = async (number, file) =>
  await withStore("readwrite", null, store => store.put(file, number)) === number;

const clearKept = () => withStore("readwrite", undefined, store => store.clear());
return { keptNumbers, keptFile, keepFile, clearKept };
})();

const module_shelf = (() => {
// The levels that are there, each of them built or verified by the proved code, or only read.

const {
  belowFaultOf, bytesOf, ENTRY_BYTES, entryAt, HIGHEST, LAST_PIT, namedLevels, nameOf, openLevel, placeOf,
} = module_level_file;
const { Fault, print, sizeOf, stonesOf } = module_rules;
const { plural } = module_words;

/**
 * @typedef {import("./rules.mjs").Board} Board
 * @typedef {import("./level_file.mjs").Entry} Entry
 * @typedef {import("./level_file.mjs").Level} Level
 * @typedef {import("./proved.mjs").Proved} Proved
 *
 * @typedef {"built" | "verified" | "unverified"} Standing how it is known what a level says
 * @typedef {import("./level_file.mjs").Source} Source
 * @typedef {{ number: number, bytes: number, limit: number, digest: string, below: string }} Listed what an index says
 * of a level
 *
 * @typedef {{ level?: Level, standing?: Standing, fault?: Error, again?: Source, isListed?: boolean,
 *   looking?: Promise<void> | null }} Slot a level, or why it is refused; what could not be read is tried again once a
 * board asks for it. Of a listed one nothing was read yet
 */

const notListed = number => new Fault(80, "Below", `${nameOf(number)} is another file than the index of its folder names`);

/** How many entries are kept that were read. */
const KEPT_ENTRIES = 20000;

class Shelf {
  /** The entries that were read or are being read, by the words of their boards. */
  #kept = new Map();
  /** The levels that are being tried again, by their numbers. */
  #trying = new Map();
  /** Hears that a level has come that could not be read before. */
  came = () => {};

  /**
   * @param {Proved | null} proved the proved code, which knows the levels that were built or verified
   * @param {Slot[]} slots from level 0 up
   */
  constructor(proved, slots = []) {
    this.proved = proved;
    /** @type {(Slot | null)[]} */
    this.slots = Array.from({ length: HIGHEST + 1 }, (_, number) => slots[number] ?? null);
  }

  /**
   * The levels of these files. Those that are not among them are taken from `known`.
   * @param {import("./level_file.mjs").Source[]} files
   * @param {Proved | null} proved
   * @param {Slot[]} known
   */
  static async of(files, proved = null, known = []) {
    const shelf = new Shelf(proved, known);
    const named = namedLevels(files);
    await Promise.all([...named].map(async ([number, file]) => {
      shelf.slots[number] = await openLevel(file).then(
        level => ({ level, standing: "unverified" }), fault => ({ fault }));
    }));
    for (const number of [...named.keys()].sort((one, other) => one - other)) {
      const level = shelf.level(number);
      const fault = level && belowFaultOf(level, number, shelf.level(number - 1));
      if (fault) shelf.slots[number] = { fault };
    }
    return shelf;
  }

  /**
   * Takes the file of a level. If it could not be read, or can't be now, it is tried again once a board asks for it.
   * @param {number} number
   * @param {Source} source
   * @param {Error | null} fault why it could not be read
   */
  async take(number, source, fault = null) {
    this.slots[number] = fault ? { fault, again: source } : await this.#opened(number, source);
  }

  /**
   * Takes a level by what an index says of it. Its file is looked at once an entry is asked for.
   * @param {Source} file
   * @param {Listed} listed
   */
  list(file, { number, limit, digest, below }) {
    const level = { number, file, boards: sizeOf(number), limit, below, digest };
    this.slots[number] = { level, standing: "unverified", isListed: true };
  }

  /** Looks once whether the file of a listed level is the one that the index names. */
  async #look(number) {
    const slot = this.slots[number];
    if (!slot?.isListed) return;
    slot.looking ??= this.#compare(number, slot);
    await slot.looking;
  }

  async #compare(number, slot) {
    try {
      const found = await openLevel(slot.level.file), fault = belowFaultOf(found, number, this.level(number - 1));
      if (fault) throw fault;
      if (found.digest !== slot.level.digest || found.limit !== slot.level.limit) throw notListed(number);
      slot.isListed = false;
    } catch (fault) {
      slot.looking = null;
      if (!fault.isPassing) this.slots[number] = { fault };
      if (!fault.isPassing) this.came();
      throw fault;
    }
  }

  /** @returns {Promise<Slot>} */
  async #opened(number, source) {
    try {
      const level = await openLevel(source), fault = belowFaultOf(level, number, this.level(number - 1));
      return fault ? { fault } : { level, standing: "unverified" };
    } catch (fault) {
      return fault.isPassing ? { fault, again: source } : { fault };
    }
  }

  async #tryAgain(number, source) {
    const slot = await this.#opened(number, source);
    this.#trying.delete(number);
    this.slots[number] = slot;
    if (slot.level) this.came();
  }

  /** Whether a level is here. One of a server gives way to one that was built. */
  has(number) {
    const slot = this.slots[number];
    return Boolean(slot) && !slot.again && !slot.level?.file.isHosted;
  }

  level(number) { return this.slots[number]?.level ?? null; }
  fault(number) { return this.slots[number]?.fault ?? null; }
  standing(number) { return this.slots[number]?.standing ?? null; }
  get isEmpty() { return this.slots.every(slot => !slot); }
  get levels() { return this.slots.flatMap(slot => slot?.level ?? []); }
  /** The files that are refused, and those that could not be read. */
  get faults() { return this.slots.flatMap((slot, number) => slot?.fault ? [{ number, fault: slot.fault }] : []); }

  /** The levels that are not there and have one above them that is. */
  get gaps() {
    const top = this.slots.reduce((top, slot, number) => slot ? number : top, -1);
    return this.slots.flatMap((slot, number) => number < top && !slot ? [number] : []);
  }

  /** The greatest limit of the levels with at most so many stones. */
  limitTo(stones) {
    return Math.max(0, ...this.levels.filter(({ number }) => number <= stones).map(({ limit }) => limit));
  }

  /**
   * Whether the proved code knows what a board is worth.
   * @param {Board} board
   */
  knows(board) {
    const stones = stonesOf(board), standing = this.standing(stones);
    return (standing === "built" || standing === "verified") && stones < (this.proved?.length ?? 0);
  }

  /** Whether a server would have to be asked for the entry of a board, and was not yet. */
  isFar(board) {
    const level = this.level(stonesOf(board));
    return Boolean(level?.file.isHosted) && !this.knows(board) && !this.#kept.has(print(board));
  }

  /**
   * The entry of a board. Of a level that is not verified its six bytes are read.
   * @returns {Promise<Entry>}
   */
  async entry(board) {
    if (this.knows(board)) return this.proved.ask("entry", board);
    const stones = stonesOf(board), again = this.slots[stones]?.again;
    if (again && !this.#trying.has(stones)) this.#trying.set(stones, this.#tryAgain(stones, again));
    await this.#trying.get(stones);
    const level = this.#levelOf(stones), word = print(board);
    if (!this.#kept.has(word)) {
      const reading = Promise.all([this.#read(level, board), this.#look(stones)]).then(([entry]) => entry);
      if (this.#kept.size >= KEPT_ENTRIES) this.#kept.clear();
      this.#kept.set(word, reading);
      reading.catch(() => this.#kept.delete(word));
    }
    return this.#kept.get(word);
  }

  async #read(level, board) {
    const { rank } = await this.proved.ask("rank", board);
    const bytes = await bytesOf(level.file, placeOf(rank), placeOf(rank + 1));
    if (bytes.length < ENTRY_BYTES)
      throw new Fault(60, "Truncated", `${level.file.name} ends before the entry of ${print(board)}`);
    const entry = entryAt(new DataView(bytes.buffer), 0);
    if (entry.plan !== null && entry.plan > LAST_PIT)
      throw new Fault(65, "EntryForm", `${level.file.name} has a plan ${entry.plan} at rank ${rank}`);
    return entry;
  }

  /** The level of the boards with so many stones, or why it is not there. */
  #levelOf(stones) {
    if (stones > HIGHEST)
      throw new Fault(59, "NotYet", `There are levels up to ${HIGHEST} stones, and this board has ${stones}`);
    const fault = this.fault(stones), level = this.level(stones);
    if (fault) throw fault;
    if (level) return level;
    throw new Fault(59, "NotYet",
      `${nameOf(stones)}, the level of the boards with ${plural(stones, "stone")}, is not there`);
  }
}
return { Shelf };
})();

const module_library = (() => {
// The levels that are there: built, kept, opened or hosted; and the work that builds and verifies them.

const { HIGHEST_WHOLE, hostedLevels } = module_hosted;
const { clearKept, keepFile, keptFile, keptNumbers } = module_kept;
const { namedLevels, nameOf, openLevel } = module_level_file;
const { sizeOf } = module_rules;
const { Shelf } = module_shelf;
const { plural } = module_words;

/**
 * @typedef {import("./level_file.mjs").Source} Source
 * @typedef {import("./proved.mjs").Proved} Proved
 * @typedef {import("./shelf.mjs").Slot} Slot
 *
 * @typedef {object} Work what is being built or verified
 * @property {"build" | "verify"} kind
 * @property {string} text
 * @property {number} share from 0 to 1
 * @property {number | null} secondsLeft how long it still takes, null while that is not known
 */

/** So many levels are built while the page opens. */
const FIRST_LEVELS = 7;
/** Above this a module's memory does not suffice. */
const HIGHEST_BUILT = 18;
/** Above this a level is not verified: the module would need all of its file, and seconds. */
const HIGHEST_VERIFIED = 16;
/** Refusals that are no fault of a file: there is no memory. */
const NO_MEMORY = [53, 84];
/** With less done than this nobody can say how long the work will take. */
const MILLISECONDS_TO_GUESS = 300;
const SHARE_TO_GUESS = 0.02;

/** The boards of some levels, of each of which one is about as much work. */
function boardsIn(from, to) {
  let boards = 0;
  for (let number = from; number <= to; number++) boards += sizeOf(number);
  return boards;
}

class Library {
  /**
   * Levels 0 up that are right: built here, or verified here.
   * @type {Slot[]}
   */
  #right = [];
  /**
   * The proved code that verifies what was opened, until that is done.
   * @type {Proved | null}
   */
  #trial = null;
  /** Comes once the first levels are there. */
  #first = Promise.resolve();
  /** Comes once those are there, too, that the browser has kept. */
  begun = Promise.resolve();
  /**
   * Comes once the levels of the page's server are there.
   * @type {Promise<void>}
   */
  hosting = Promise.resolve();
  /** Whether a hand has stopped the build, which may be between two levels. */
  #isStopped = false;
  /** Files are kept one after the other, and nobody waits for it. */
  #keeping = Promise.resolve();
  /** @type {Work | null} */
  work = null;
  /**
   * Why files were not taken, or levels not built.
   * @type {string | null}
   */
  notice = null;
  /**
   * What was opened, null if nothing was.
   * @type {string | null}
   */
  opened = null;
  /**
   * Comes once what was opened is verified as far as it can be.
   * @type {Promise<void>}
   */
  settled = Promise.resolve();
  /** Until the first levels are there. */
  isStarting = true;
  /** Until the levels of the page's server are there. */
  isHosting = false;
  /** Whether more was built, now or earlier, than the page builds by itself. */
  hasBuilt = false;
  /** Whether the browser keeps it. */
  isKept = true;

  /**
   * @param {(count: number) => Proved} startProved starts the proved code with so many levels
   * @param {() => void} changed hears that other levels are there
   * @param {() => void} worked hears that work has gone on
   */
  constructor(startProved, changed, worked) {
    this.startProved = startProved;
    this.changed = changed;
    this.worked = worked;
    this.proved = startProved(FIRST_LEVELS);
    this.shelf = new Shelf(this.proved);
  }

  /** Takes the first levels, and then those that the browser has kept. */
  async begin() {
    this.#first = this.#takeFirst();
    this.begun = this.#first.then(() => this.#takeKept());
    await this.begun;
  }

  async #takeFirst() {
    try {
      const files = await this.proved.ready;
      for (const file of files) await this.#addRight(new File([file], nameOf(this.#right.length)), "built");
    } catch (fault) {
      this.notice = `${fault.message}.`;
    }
    this.isStarting = false;
    this.#showRight();
  }

  async #takeKept() {
    const numbers = await keptNumbers();
    for (let number = this.#right.length; numbers.includes(number); number++) {
      const file = await keptFile(number);
      const isRight = await this.proved.ask("add", file).then(() => true, () => false);
      if (!isRight || this.#right.length !== number) break;
      await this.#addRight(new File([file], nameOf(number)), "verified");
      this.hasBuilt = true;
    }
    if (this.hasBuilt && !this.opened) this.#showRight();
  }

  /** Takes the next level, unless what was verified meanwhile has it. */
  async #addRight(file, standing) {
    const level = await openLevel(file);
    if (level.number === this.#right.length) this.#right.push({ level, standing });
  }

  #showRight() {
    this.shelf = new Shelf(this.proved, this.#right);
    this.changed();
  }

  // ---- what is told ----

  /** Whether a level may come at once, so that nobody can say that it is not there. */
  isAwaited(number) { return this.isStarting || (this.isHosting && !this.shelf.slots[number]); }

  /** How many levels are right, from level 0 up. */
  get length() { return this.#right.length; }

  get title() {
    if (this.opened) return this.opened;
    return this.length === 0 ? "No levels" : `Levels 0 to ${this.length - 1}, by the proved code`;
  }

  /**
   * The files of the right levels.
   * @returns {File[]}
   */
  get files() { return this.#right.map(({ level }) => /** @type {File} */ (level?.file)); }

  /** How much of that the browser keeps: what the page does not build by itself. */
  get keptBytes() { return this.files.slice(FIRST_LEVELS).reduce((bytes, { size }) => bytes + size, 0); }

  #workOn(work) {
    this.work = work;
    this.worked();
  }

  /** Tells how many boards of which level are done, and guesses by that when the last of them will be. */
  #teller(kind, verb, first, top) {
    const all = boardsIn(first, top), begun = performance.now();
    return (number, done = 0) => {
      const share = (boardsIn(first, number - 1) + done) / all, passed = performance.now() - begun;
      const canGuess = passed > MILLISECONDS_TO_GUESS && share > SHARE_TO_GUESS;
      const secondsLeft = canGuess ? passed * (1 - share) / share / 1000 : null;
      this.#workOn({ kind, text: `${verb} level ${number} of ${top}`, share, secondsLeft });
    };
  }

  // ---- building ----

  /** Builds the levels that are missing up to this one, in slices, and keeps their files. */
  async build(top) {
    await this.begun;
    if (this.work) return;
    const { proved } = this, first = this.length, tell = this.#teller("build", "Building", first, top);
    this.notice = null;
    this.#isStopped = false;
    try {
      for (let number = first; number <= top && !this.#isStopped; number++) {
        tell(number);
        const file = await proved.askTelling(done => tell(number, done), "build");
        if (!file || proved !== this.proved) break;
        await this.#takeBuilt(number, new File([file], nameOf(number)));
      }
    } catch (fault) {
      if (proved !== this.proved) return; // what was verified meanwhile has taken its place
      const hasNoMemory = NO_MEMORY.includes(fault.number);
      this.notice = hasNoMemory ? `There is no memory for level ${this.length} here.` : `${fault.message}.`;
    }
    this.#workOn(null);
    this.changed();
  }

  async #takeBuilt(number, file) {
    await this.#addRight(file, "built");
    this.hasBuilt = true;
    if (!this.shelf.has(number)) this.shelf.slots[number] = this.#right[number];
    this.changed();
    this.#keeping = this.#keeping.then(() => this.#keep());
  }

  /** Keeps what the page does not build by itself, as far as it is not kept yet. */
  async #keep() {
    const numbers = await keptNumbers();
    for (let number = FIRST_LEVELS; number < this.length; number++)
      if (!numbers.includes(number)) this.isKept = await keepFile(number, await wholeOf(this.files[number]));
  }

  stop() {
    this.#isStopped = true;
    if (this.work?.kind === "build") this.proved.ask("stop").catch(() => {}); // it may have ended
    else this.#endTrial();
  }

  /** Clears what the browser has kept. What is there stays, until the page is closed. */
  async clear() {
    await this.#keeping;
    await clearKept();
    this.isKept = false;
    this.changed();
  }

  // ---- files ----

  /** @param {{ files: Source[], name: string }} chosen the files, and the name of their folder if it has one */
  async open({ files, name }) {
    await this.#first;
    const opened = await Shelf.of(files, this.proved, this.#right).catch(fault => fault);
    this.notice = whyNotOpened(opened, files, name);
    if (!this.notice) this.#take(opened, titleOf(opened, files, name));
    this.changed();
    if (!this.notice) this.settled = this.#verify(opened);
  }

  #take(shelf, title) {
    this.stop();
    this.shelf = shelf;
    this.opened = title;
  }

  /** Leaves the folder. What was verified of it stays. */
  close() {
    this.#endTrial();
    this.opened = null;
    this.notice = null;
    this.#showRight();
  }

  /** Has the levels of a shelf verified, from level 0 up, as far as they fit and are right. */
  async #verify(shelf) {
    const all = shelf.levels.filter(canBeVerified);
    if (all.every(({ number }) => shelf.standing(number) !== "unverified")) return;
    const trial = this.#trial = this.startProved(0);
    const tell = this.#teller("verify", "Verifying", 0, all.at(-1)?.number ?? 0);
    try {
      await trial.ready;
      for (const level of all) {
        if (level.number !== trial.length) break;
        tell(level.number);
        await trial.ask("add", level.file);
        if (trial !== this.#trial) return;
        if (shelf.standing(level.number) === "unverified") shelf.slots[level.number] = { level, standing: "verified" };
      }
    } catch (fault) {
      if (trial !== this.#trial) return;
      const refused = faultOf(fault, shelf.level(trial.length));
      if (refused) shelf.slots[trial.length] = { fault: refused };
    }
    this.#settle(shelf, trial);
  }

  /** What was verified is the truth, and answers if it goes higher than what was there. */
  #settle(shelf, trial) {
    this.#trial = null;
    if (trial.length > this.length) {
      this.proved.end();
      this.proved = shelf.proved = trial;
      this.#right = shelf.slots.slice(0, trial.length);
    } else {
      trial.end();
    }
    this.#workOn(null);
    this.changed();
  }

  #endTrial() {
    const trial = this.#trial;
    this.#trial = null;
    trial?.end();
    this.#workOn(null);
  }

  // ---- a folder of a server ----

  /**
   * Takes the levels of a folder of the page's own server, above those that are there, each as it comes.
   * @param {import("./hosted.mjs").Hosted} hosted
   */
  host(hosted) {
    this.isHosting = true;
    this.hosting = this.#host(hosted).finally(() => {
      this.isHosting = false;
      this.changed();
    });
    return this.hosting;
  }

  async #host(hosted) {
    const { folder, isAsked } = hosted, first = this.length;
    if (folder.origin !== location.origin)
      return this.#tell(`Levels are read from this server alone, and not from ${folder.origin}.`);
    let shelf = null, isWhole = false, isListed = false;
    for await (const found of hostedLevels(hosted, first)) {
      if (shelf && !isListed ? this.shelf !== shelf : this.opened) return; // a hand was quicker
      isWhole ||= found.isWhole && found.isLevel;
      if (!found.source) break;
      shelf ??= new Shelf(this.proved, this.#right);
      isListed = Boolean(found.listed);
      if (found.listed) shelf.list(found.source, found.listed);
      else await shelf.take(found.number, found.source, found.fault);
      if (this.opened && this.shelf !== shelf) return;
      if (!isListed) this.#takeHosted(shelf, first);
    }
    if (isListed) this.#takeHosted(shelf, first);
    if (isWhole)
      this.#tell(`This server ignores Range requests: levels to ${HIGHEST_WHOLE} are fetched whole, and none above.`);
    else if (isAsked && !shelf) this.#tell(`${folder.pathname} has no ${nameOf(first)}.`);
    if (isWhole && shelf) this.settled = this.#verify(shelf);
  }

  #takeHosted(shelf, first) {
    const top = shelf.levels.at(-1)?.number ?? -1;
    const title = top < first ? "The levels of this server can’t be read" : `Levels to ${top} of this server`;
    if (this.shelf !== shelf) this.#take(shelf, title);
    shelf.came = () => { if (this.shelf === shelf) this.#takeHosted(shelf, first); };
    this.opened = title;
    this.changed();
  }

  /** @param {string} notice */
  #tell(notice) {
    this.notice ??= notice;
    this.changed();
  }
}

const canBeVerified = ({ number, file }) => number <= HIGHEST_VERIFIED && !file.isHosted;

const wholeOf = async file => new Blob([await file.arrayBuffer()]);

function titleOf(shelf, files, name) {
  const own = shelf.levels.filter(({ file }) => files.includes(file)), top = own.at(-1);
  const upTo = top ? `, up to ${plural(top.number, "stone")}` : "";
  return `${name ? `${name}: ` : ""}${plural(own.length, "level")}${upTo}`;
}

/** What is wrong with a file that the proved code refuses; null if it could not be read, or had no room. */
function faultOf({ number, inner, rule, rank, message }, level) {
  if (number === undefined || NO_MEMORY.includes(number) || !level) return null;
  const { name } = level.file;
  if (inner === 66) return new Error(`${name} is damaged: its SHA-256 is not that of its bytes (66 Digest)`);
  if (rule) return new Error(`${name} is not right: the board of rank ${rank} breaks rule ${rule} (83 Verify)`);
  return new Error(`${name} is refused: ${message}`);
}

function whyNotOpened(opened, files, name) {
  if (opened instanceof Error) return `No levels were opened. ${opened.message}.`;
  if (namedLevels(files).size > 0) return null;
  const all = `Of ${plural(files.length, "file")} in ${name || "the choice"} none`;
  const none = files.length ? all : "The folder is empty: no file";
  return `No levels were opened. ${none} is named level_00.awdb, level_01.awdb and so on.`;
}
return { HIGHEST_BUILT, HIGHEST_VERIFIED, Library };
})();

const module_links = (() => {
// What stands behind the # of an address: a game, the place in it that is shown, the side whose pits lie below,
// and the sides that the table plays. Nothing here knows of the page.
//
//     BOARD&mover=north&moves=502&at=1&below=north&table=both
//
// Only the board has to be there. So an address with a board alone, South to move, is as good as it ever was.

const { parse, print } = module_rules;
const { pitsOf, statesOf } = module_game;

/**
 * `at` counts the moves that were played up to what is shown.
 * @typedef {import("./game.mjs").Game & { at: number, below: number, table: boolean[] }} Link
 */

const SIDE_NAMES = ["south", "north"];
const TABLES = { south: [true, false], north: [false, true], both: [true, true] };

/** @param {Link} link */
function printLink({ board, mover, pits, at, below, table }) {
  const played = Object.keys(TABLES).find(name => String(TABLES[name]) === String(table));
  const parts = [
    ["mover", mover && SIDE_NAMES[mover]],
    ["moves", pits.join("")],
    ["at", at < pits.length && String(at)],
    ["below", below && SIDE_NAMES[below]],
    ["table", played],
  ];
  return [print(board), ...parts.filter(([, value]) => value).map(part => part.join("="))].join("&");
}

/** What a part may be, and how it reads. */
const LINK_PARTS = {
  mover: ["“south” or “north”", text => sideNamed(text)],
  moves: ["pits, a digit each", pitsOf],
  at: ["a number of moves", text => /^\d{1,6}$/.test(text) ? Number(text) : undefined],
  below: ["“south” or “north”", text => sideNamed(text)],
  table: ["“south”, “north” or “both”", text => Object.hasOwn(TABLES, text) ? TABLES[text] : undefined],
};

function sideNamed(text) {
  const side = SIDE_NAMES.indexOf(text);
  return side < 0 ? undefined : side;
}

/**
 * Reads what `printLink` writes. A part that is left out is as in an address with a board alone.
 * @returns {Link}
 */
function parseLink(text) {
  const [word, ...parts] = unescaped(text).split("&");
  const link = { board: parse(word), mover: 0, pits: [], at: Infinity, below: 0, table: [false, false] };
  for (const part of parts) readPart(link, part);
  statesOf(link);
  link.at = Math.min(link.at, link.pits.length);
  return link;
}

function readPart(link, part) {
  const [name, ...values] = part.split("="), value = values.join("=");
  if (!Object.hasOwn(LINK_PARTS, name))
    throw new Error(`The address has a part “${name}”. Known are ${Object.keys(LINK_PARTS).join(", ")}`);
  const [wanted, read] = LINK_PARTS[name], found = read(value);
  if (found === undefined) throw new Error(`The address has “${part}”, and ${name} is ${wanted}`);
  link[name === "moves" ? "pits" : name] = found;
}

/** Some programs write a comma or a slash of an address as %2C or %2F. */
function unescaped(text) {
  try {
    return decodeURIComponent(text);
  } catch {
    return text;
  }
}
return { printLink, parseLink };
})();

const module_opponent = (() => {
// The opponent: it plays for one side or for both, by what the table says. Nothing here knows of the page.

/** How long it waits, so that one sees what was played before. */
const MILLISECONDS_OF_A_REPLY = 700;

/**
 * A move with what it is worth, or why that is not known.
 * @typedef {{ pit: number, value: number, distance: number, isPlan?: boolean, fault?: Error }} WorthyMove
 */

/**
 * The order of the table of moves, the best first: by worth; then the winner hurries and the loser holds out.
 * A move whose worth is not known comes last.
 * @param {WorthyMove} one
 * @param {WorthyMove} other
 */
function compareMoves(one, other) {
  return Number(Boolean(one.fault)) - Number(Boolean(other.fault))
    || other.value - one.value
    || (one.value > 0 ? one.distance - other.distance : other.distance - one.distance)
    || Number(Boolean(other.isPlan)) - Number(Boolean(one.isPlan))
    || one.pit - other.pit;
}

/**
 * The pit that the table plays, or null if there is none or the worth of a move is not known.
 * @param {WorthyMove[]} moves
 */
function tableMove(moves) {
  const [first] = [...moves].sort(compareMoves);
  return first && !moves.some(({ fault }) => fault) ? first.pit : null;
}

/** It rests while one goes to and fro in a game, and goes on once a move is played by hand. */
class Opponent {
  /** Whether it plays South, and whether it plays North. */
  sides = [false, false];
  isResting = false;
  #timer = null;

  /**
   * @param {(pit: number) => void} play
   * @param {{ setTimeout: Function, clearTimeout: Function }} clock the timers: of the page, or of a test
   */
  constructor(play, clock = globalThis) {
    this.play = play;
    this.clock = clock;
  }

  /** Whether a reply is on its way. */
  get isThinking() { return this.#timer !== null; }

  /** Whether its move comes next, now or once it has rested. */
  isDue({ mover }) { return this.sides[mover]; }

  setSides(south, north) {
    this.sides = [south, north];
    this.isResting = false;
  }

  rest() {
    this.stop();
    this.isResting = true;
  }

  wake() { this.isResting = false; }

  stop() {
    this.clock.clearTimeout(this.#timer);
    this.#timer = null;
  }

  /** Replies to the state that is shown, if it is its turn and the worths of all moves are known. */
  consider(state, moves) {
    this.stop();
    const pit = tableMove(moves);
    if (pit === null || this.isResting || !this.isDue(state)) return;
    this.#timer = this.clock.setTimeout(() => {
      this.#timer = null;
      this.play(pit);
    }, MILLISECONDS_OF_A_REPLY);
  }
}
return { compareMoves, tableMove, Opponent };
})();

const module_worths = (() => {
// What boards are worth, and how play goes on: by the proved code where it knows a level, and else by its file.

const { endGain, Fault, isEnded, legalPits, play, print, stonesOf } = module_rules;
const { LAST_PIT } = module_level_file;

/**
 * @typedef {import("./rules.mjs").Board} Board
 * @typedef {import("./level_file.mjs").Entry} Entry
 * @typedef {import("./shelf.mjs").Shelf} Shelf
 *
 * @typedef {object} Worth what a move gains
 * @property {number} value
 * @property {number} distance
 * @property {boolean} isPlan
 * @property {Error} [fault] why that is not known
 *
 * @typedef {object} Weighed
 * @property {Board} board
 * @property {Entry | null} entry
 * @property {Error | null} fault why there is no entry
 * @property {(import("./rules.mjs").Move & Worth)[]} moves
 * @property {string | null} broken the first rule that the entry breaks beside its moves
 * @property {boolean} isProved whether the proved code says all this
 *
 * @typedef {object} Line the play by the plans of both sides
 * @property {number} value of the board from which it starts
 * @property {{ pit: number, captured: number }[]} plies
 * @property {boolean} ended whether play ends with it
 * @property {number | null} repeats the ply after which the same pits come for ever
 * @property {number} outcome what the mover gains by it
 * @property {boolean} [isGrowing] whether more plies are to come
 */

/**
 * Whether something of a board is not known.
 * @param {Weighed | null} weighed
 */
const hasFault = weighed => Boolean(weighed && (weighed.fault || weighed.moves.some(({ fault }) => fault)));

/**
 * The entry of a board, and its moves with their worths. A fault stands in the place of what can't be read.
 * @param {Shelf} shelf
 * @param {Board} board
 * @returns {Promise<Weighed>}
 */
const weigh = (shelf, board) => shelf.knows(board) ? told(shelf, board) : read(shelf, board);

async function told({ proved }, board) {
  const { entry, moves } = await proved.ask("weigh", board);
  const withWorths = moves.map(({ pit, value, distance }) =>
    ({ ...play(board, pit), value, distance, isPlan: entry.plan === pit }));
  return { board, entry, fault: null, moves: withWorths, broken: null, isProved: true };
}

// ---- levels that are not verified ----

async function read(shelf, board) {
  const [{ entry = null, fault = null }, ...moves] = await Promise.all([
    shelf.entry(board).then(entry => ({ entry }), fault => ({ fault })),
    ...legalPits(board).map(pit => withWorth(shelf, play(board, pit))),
  ]);
  for (const move of moves) move.isPlan = entry?.plan === move.pit;
  const canJudge = entry && !moves.some(move => move.fault);
  return { board, entry, fault, moves, broken: canJudge ? brokenRule(board, entry, moves) : null, isProved: false };
}

const withWorth = (shelf, move) =>
  shelf.entry(move.next).then(entry => worthOf(move, entry), fault => ({ ...move, fault }));

/** A move with what it gains, by the entry of the board that it leaves. */
function worthOf(move, entry) {
  const value = move.captured - entry.value;
  const plies = move.captured > 0 ? 1 : 1 + entry.distance;
  return { ...move, value, plies, distance: value === 0 ? 0 : plies };
}

/** The first of the rules V1 to V6 of docs/FORMATS.md that an entry breaks beside its board's moves, or null. */
function brokenRule(board, { value, plan, distance }, moves) {
  if (Math.abs(value) > stonesOf(board) || (plan !== null && plan > LAST_PIT)) return "V1";
  if (moves.length === 0) return value === endGain(board) && plan === null && distance === 0 ? null : "V2";
  const planned = moves.find(move => move.pit === plan);
  if (!planned) return "V3";
  if (moves.some(move => move.value > value)) return "V4";
  if (planned.value !== value) return "V5";
  return isDistance(distance, value, planned, moves) ? null : "V6";
}

function isDistance(distance, value, planned, moves) {
  if (value === 0) return distance === 0;
  if (value < 0) return distance === Math.max(...moves.map(move => move.plies));
  const gaining = moves.filter(move => move.value === value);
  const planComesNearer = planned.captured > 0 || planned.plies - 1 < distance;
  return distance === Math.min(...gaining.map(move => move.plies)) && planComesNearer;
}

// ---- lines ----

/**
 * The play from a board in which both sides follow the plans, as `awari line` prints it. It ends at the first
 * board that its mover has seen before, since from there on the same pits come for ever. `repeats` is the ply
 * after which that stood, as `awari line --plies` tells it.
 * @param {Shelf} shelf
 * @param {Board} board
 * @param {(plies: Line["plies"]) => boolean} goOn hears each ply of a level that is read, and says whether more are wanted
 * @returns {Promise<Line>}
 */
async function bestLine(shelf, board, goOn = () => true) {
  if (shelf.knows(board)) {
    const { moves, outcome } = await shelf.proved.ask("line", board);
    return { ...await walk(board, async (_, ply) => moves[ply] ?? null, () => true), value: outcome, outcome };
  }
  const { value } = await shelf.entry(board), limit = shelf.limitTo(stonesOf(board));
  return { ...await walk(board, (at, _, quiet) => quiet > limit ? null : planOf(shelf, at), goOn), value };
}

/** A server is asked for the entries of a board's moves together with its own, so that two plies come at once. */
async function planOf(shelf, board) {
  const isFar = shelf.isFar(board), asked = shelf.entry(board);
  if (isFar) for (const pit of legalPits(board)) shelf.entry(play(board, pit).next).catch(() => {});
  const { plan } = await asked;
  if (plan === null)
    throw new Fault(83, "Verify", `The entry of ${print(board)} names no plan, and play has not ended`);
  return plan;
}

/** Plays what `pitAt` gives for a board, a ply and how many plies captured nothing, up to null or as long as wanted. */
async function walk(board, pitAt, goOn) {
  const plies = [], met = new Map();
  let running = 0, side = 1, quiet = 0, repeats = null;
  while (!isEnded(board) && repeats === null) {
    const pit = await pitAt(board, plies.length, quiet);
    if (pit === null || !goOn(plies)) break;
    met.set(print(board), plies.length);
    const { captured, next } = play(board, pit);
    plies.push({ pit, captured });
    running += side * captured;
    quiet = captured > 0 ? 0 : quiet + 1;
    board = next;
    side = -side;
    repeats = met.get(print(board)) ?? null;
  }
  const outcome = running + (isEnded(board) ? side * endGain(board) : 0);
  return { plies, ended: isEnded(board), repeats, outcome };
}
return { hasFault, weigh, worthOf, brokenRule, bestLine };
})();

const module_puzzler = (() => {
// Draws puzzles from the levels that are there. Nothing here knows of elements.

const {
  BOARDS_OF_A_SHEET, drawn, HIGHEST_GONE_OVER, isFar, isTrap, marginOf, mayBePuzzle, pliesOf, ranksOf,
} = module_puzzle;
const { sizeOf } = module_rules;
const { bestLine, weigh } = module_worths;
const { plies, plural } = module_words;

/**
 * @typedef {import("./puzzle.mjs").Asked} Asked
 * @typedef {import("./rules.mjs").Board} Board
 * @typedef {import("./worths.mjs").Weighed} Weighed
 */

/** So many boards are tried at once, and so many in all, of a level that is not gone over. */
const TRIED_AT_ONCE = 24, MOST_TRIED = 6000;

class Puzzler {
  /** The puzzles of a level, by its number and the hardness. */
  #found = new Map();

  /** @param {import("./library.mjs").Library} library */
  constructor(library) { this.library = library; }

  /**
   * So many puzzles, or fewer if there are no more. A link gives the same everywhere.
   * @param {Asked} asked
   * @param {(text: string) => void} told hears what it waits for
   * @returns {Promise<Board[]>}
   */
  async draw(asked, count, told) {
    await this.library.begun;
    const isGoneOver = asked.level <= HIGHEST_GONE_OVER;
    const boards = isGoneOver ? await this.#drawn(asked, count, told) : await this.#tried(asked, count, told);
    if (boards.length === 0) throw new Error(whyNone(asked, isGoneOver));
    return boards;
  }

  // ---- levels that are gone over ----

  async #drawn({ seed, level, hardness }, count, told) {
    const { library } = this;
    if (library.length <= level) {
      told(`Building levels to ${level}…`);
      await library.settled;
      await library.build(level);
    }
    if (library.length <= level) throw new Error(library.notice ?? `Level ${level} is not built yet`);
    const ranks = await this.#ranks(level, hardness, told);
    return Promise.all(drawn(ranks, count, seed).map(rank => library.proved.ask("board", level, rank)));
  }

  /** All puzzles of a level. They are found once. */
  async #ranks(level, hardness, told) {
    const name = `${level} ${hardness}`, all = sizeOf(level);
    if (!this.#found.has(name)) {
      const tell = done => told(`Looking at level ${level}: ${Math.round(100 * done / all)}%…`);
      this.#found.set(name, await this.library.proved.askTelling(tell, "puzzles", level, hardness));
    }
    return this.#found.get(name);
  }

  // ---- larger levels ----

  async #tried({ seed, level, hardness }, count, told) {
    await this.library.hosting;
    const { shelf, proved } = this.library, ranks = ranksOf(seed, sizeOf(level)), boards = [];
    if (!shelf.level(level)) throw new Error(shelf.fault(level)?.message ?? `Level ${level} is not here. Build it, or open it`);
    for (let tried = 0; tried < MOST_TRIED && boards.length < count; tried += TRIED_AT_ONCE) {
      if (tried > 0) told(`Tried ${tried} boards…`);
      const some = Array.from({ length: TRIED_AT_ONCE }, () => ranks.next().value);
      const all = await Promise.all(some.map(rank => proved.ask("board", level, rank)));
      const fit = await Promise.all(all.map(board => this.#fits(shelf, board, hardness)));
      boards.push(...all.filter((_, at) => fit[at]));
    }
    return boards.slice(0, count);
  }

  /** Little is asked for: the entry of a board, and those of its moves only if that is far enough. */
  async #fits(shelf, board, hardness) {
    if (!mayBePuzzle(board) || !isFar(await shelf.entry(board), hardness)) return false;
    const { entry, moves, fault } = await weigh(shelf, board), unknown = fault ?? moves.find(move => move.fault)?.fault;
    if (unknown) throw unknown;
    return isTrap(entry.value, moves, hardness);
  }

  // ---- a sheet ----

  /**
   * A sheet of puzzles, each with what its moves are worth, and its line.
   * @param {Asked} asked
   * @param {(text: string) => void} told
   */
  async sheet(asked, told) {
    const boards = await this.draw(asked, BOARDS_OF_A_SHEET, told), { shelf } = this.library;
    return Promise.all(boards.map(async board =>
      ({ board, weighed: await weigh(shelf, board), line: await bestLine(shelf, board) })));
  }
}

function whyNone({ level, hardness }, isGoneOver) {
  const [least, most] = pliesOf(hardness), far = most === Infinity ? `${plies(least)} or more` : `${least} to ${plies(most)}`;
  const which = `with a gain within ${far} that all moves but one throw away by ${plural(marginOf(hardness), "stone")} or more`;
  const none = isGoneOver ? `Level ${level} has no board` : `Of ${MOST_TRIED} boards of level ${level} there is none`;
  return `${none} ${which}. Choose more stones, or other plies`;
}
return { Puzzler };
})();

const module_record = (() => {
// What was set up and played: a list of states, one of which is shown. Nothing here knows of the page.

const { stateAfter, stateOf, statesOf } = module_game;
const { areSame } = module_rules;

class Record {
  /** @param {import("./rules.mjs").Board} board */
  constructor(board) { this.startAt(board); }

  startAt(board) {
    this.states = [stateOf(board, 0)];
    this.at = 0;
  }

  get now() { return this.states[this.at]; }
  get isFirst() { return this.at === 0; }
  get isLast() { return this.at === this.states.length - 1; }

  go(index) { this.at = Math.max(0, Math.min(index, this.states.length - 1)); }

  /** Puts a state behind the one that is shown. What was behind that is gone. */
  add(state) {
    this.states = [...this.states.slice(0, this.at + 1), state];
    this.at += 1;
  }

  play(pit) { this.add(stateAfter(this.now, pit)); }

  setUp(board, mover) {
    const isShown = areSame(board, this.now.board) && mover === this.now.mover && !this.now.move;
    if (!isShown) this.add(stateOf(board, mover));
  }

  /** The state from which the play that is shown began. */
  get start() {
    let index = this.at;
    while (this.states[index].move) index--;
    return index;
  }

  /** The last state of that play, which may lie behind the one that is shown. */
  get end() {
    let index = this.at;
    while (this.states[index + 1]?.move) index++;
    return index;
  }

  /**
   * The play that is shown, and how many of its moves led to what is shown.
   * @returns {import("./game.mjs").Game & { at: number }}
   */
  get game() {
    const { start, at } = this, { board, mover } = this.states[start];
    const pits = this.states.slice(start + 1, this.end + 1).map(({ move }) => move.pit);
    return { board, mover, pits, at: at - start };
  }

  /**
   * Shows a place of a game: where the record has it, and else in place of all that was there.
   * @param {import("./game.mjs").Game & { at: number }} game
   */
  open(game) {
    const starts = [this.start, ...this.states.keys()], start = starts.find(index => this.#holds(game, index));
    if (start === undefined) this.states = statesOf(game);
    this.at = (start ?? 0) + game.at;
  }

  /** Whether a game begins at a state, with more moves behind its own or not. */
  #holds({ board, mover, pits }, index) {
    const state = this.states[index];
    return !state.move && state.mover === mover && areSame(state.board, board)
      && pits.every((pit, ply) => this.states[index + 1 + ply]?.move?.pit === pit);
  }

  /** Whether the board was there before, with the same side to move and no capture since. */
  get isRepeated() {
    const { board, mover } = this.now;
    for (let index = this.at; this.states[index].move?.captured === 0; index--) {
      const before = this.states[index - 1];
      if (before.mover === mover && areSame(before.board, board)) return true;
    }
    return false;
  }
}
return { Record };
})();

const module_solving = (() => {
// A puzzle that is being solved: what was played right, and what was thrown away. Nothing here knows of the page.

const { costsOf, gainOf } = module_puzzle;
const { isEnded } = module_rules;

/**
 * @typedef {import("./game.mjs").State} State
 * @typedef {import("./worths.mjs").Weighed} Weighed
 *
 * @typedef {"open" | "home" | "lost" | "round" | "shown"} Standing still open; the gain is home; a move threw it away;
 * play went round; or the solution was asked for
 */

class Solving {
  /** @type {Standing} */
  standing = "open";
  /**
   * The last right board, and what its moves cost: what the solution is of.
   * @type {{ state: State, weighed: Weighed, costs: ReturnType<typeof costsOf>, pit: number | null } | null}
   */
  decided = null;
  /**
   * Where the solution begins, once it is over, and the line from there.
   * @type {State | null}
   */
  from = null;
  /** @type {import("./worths.mjs").Line | null} */
  line = null;

  /**
   * @param {import("./puzzle.mjs").Asked} asked
   * @param {State} start
   * @param {boolean} counts whether it counts for the streak: it is tried for the first time
   */
  constructor(asked, start, counts) {
    this.asked = asked;
    this.start = start;
    this.counts = counts;
    /** How many stones there are to gain, null until that is known. */
    this.value = null;
    /** How many moves were right. */
    this.rightMoves = 0;
  }

  get isOpen() { return this.standing === "open"; }
  /** How much of the gain is there already. */
  gained = 0;
  /** How many stones the wrong move threw away. */
  get thrown() { return this.decided?.costs.thrown.get(this.decided.pit) ?? 0; }

  /**
   * Hears what the board is worth that is shown, and its moves.
   * @param {State} state
   * @param {Weighed} weighed
   */
  weigh(state, weighed) {
    if (!this.isOpen || state.mover !== 0 || !weighed.entry || weighed.moves.some(({ fault }) => fault)) return;
    this.value ??= weighed.entry.value;
    if (weighed.moves.length) this.decided = { state, weighed, costs: costsOf(weighed.entry.value, weighed.moves), pit: null };
  }

  /** Whether a pit of this board may be judged: what its moves are worth is known. */
  canJudge(state) { return this.decided?.state === state; }

  /**
   * Judges what South plays. A move that throws something away ends it.
   * @param {number} pit
   */
  judge(pit) {
    this.decided.pit = pit;
    if (this.thrown > 0) this.standing = "lost";
    else this.rightMoves += 1;
  }

  /**
   * Looks whether the gain is home, after a move of either side.
   * @param {State} state
   * @param {boolean} isRepeated
   */
  settle(state, isRepeated) {
    if (!this.isOpen) return;
    this.gained = gainOf(state);
    if (this.gained >= this.value) this.standing = "home";
    else if (isRepeated || isEnded(state.board)) this.standing = "round";
  }

  show() { this.standing = "shown"; }
}
return { Solving };
})();

const module_streak = (() => {
// How many puzzles were solved one after the other, now and at best. The browser alone keeps it.

const NAME = "awari-explorer.streak";

class Streak {
  now = 0;
  best = 0;

  /**
   * A page may be denied its storage; then the streak lasts as long as the page.
   * @param {() => Storage} storage
   */
  constructor(storage) {
    try {
      this.storage = storage();
      const [now, best] = (this.storage.getItem(NAME) ?? "").split(" ").map(Number);
      if (now >= 0 && best >= now) Object.assign(this, { now, best });
    } catch {
      this.storage = null;
    }
  }

  /** @param {boolean} isSolved */
  add(isSolved) {
    this.now = isSolved ? this.now + 1 : 0;
    this.best = Math.max(this.best, this.now);
    try {
      this.storage?.setItem(NAME, `${this.now} ${this.best}`);
    } catch { /* the storage is full */ }
  }

  get text() { return this.best === 0 ? "" : `Solved in a row: ${this.now}, at best ${this.best}`; }
}
return { Streak };
})();

const module_session = (() => {
// What the page shows, and what is done to it: boards, play, set-up and levels. Nothing here knows of elements.

const { parseGame, printGame, tollsOf } = module_game;
const { pitName } = module_letters;
const { Library } = module_library;
const { parseLink, printLink } = module_links;
const { Opponent, tableMove } = module_opponent;
const { parseAsked, printAsked } = module_puzzle;
const { Puzzler } = module_puzzler;
const { Record } = module_record;
const { MOST_STONES, print, randomBoard, refusalOf, stonesOf, turned } = module_rules;
const { Solving } = module_solving;
const { Streak } = module_streak;
const { spokenVerdict, wordsOfPuzzle } = module_verdict;
const { plural, SIDES } = module_words;
const { bestLine, hasFault, weigh } = module_worths;

/**
 * @typedef {import("./rules.mjs").Board} Board
 * @typedef {import("./worths.mjs").Weighed} Weighed
 * @typedef {import("./worths.mjs").Line} Line
 *
 * @typedef {object} Shown what the views draw
 * @property {Record} record what was set up and played
 * @property {import("./game.mjs").State} state that of the record which is shown
 * @property {Weighed | null} weighed what its board is worth, null while that is being asked
 * @property {Line | { fault: Error } | null} line the best line so far, null while that is being asked
 * @property {number} below the side whose pits lie in the lower row
 * @property {boolean} keepsMoverBelow whether that is always the mover's
 * @property {import("./shelf.mjs").Shelf} shelf the levels that are there
 * @property {Library} library what builds, verifies and opens them
 * @property {boolean} isEditing whether a click changes a pit
 * @property {boolean} isTaking whether it takes a stone, and does not add one
 * @property {boolean} isPlaying whether the line plays itself
 * @property {Opponent} opponent what plays the sides that are left to the table
 * @property {WeakMap<import("./game.mjs").State, import("./game.mjs").Toll | null>} tolls what the moves to states cost
 * @property {boolean} hasHints whether worths are shown
 * @property {boolean} hasLetters whether pits have letters
 * @property {Solving | null} puzzle the puzzle that is being solved, or was
 * @property {string} puzzleTold what drawing one waits for, or why there is none
 *
 * @typedef {object} Listener draws what has changed, and tells what is said
 * @property {(shown: Shown) => void} drawState another state is shown, without its worth yet
 * @property {(shown: Shown) => void} drawWorth its worth has come
 * @property {(shown: Shown) => void} drawLine its line has come, or more of it
 * @property {(shown: Shown) => void} drawBoard the board lies otherwise, or is being edited
 * @property {(shown: Shown) => void} drawLevels other levels are there
 * @property {(shown: Shown) => void} drawWork levels are being built or verified, or are not any more
 * @property {(shown: Shown) => void} drawPlaying the line plays itself, or has stopped
 * @property {(shown: Shown) => void} drawPlayed what moves cost has come
 * @property {(shown: Shown) => void} drawPuzzle a puzzle is drawn, or something came of it
 * @property {(sheet: { asked: import("./puzzle.mjs").Asked, puzzles: object[] }) => void} showSheet puzzles to be printed
 * @property {(link: string, isStep: boolean) => void} keepLink a step that Back takes back, or the same step otherwise
 * @property {(text: string) => void} say to those who listen
 * @property {(text: string) => void} hint to those who look, for a while
 */

const FIRST_BOARD = "1,0,0,0,0,1/1,0,1,0,0,0";
const MILLISECONDS_A_PLY = 950;
const MILLISECONDS_TO_THE_FIRST = 150;
const MILLISECONDS_BETWEEN_DRAWINGS = 50;

class Session {
  /** @type {Listener} */
  listener;
  /** Whose pits lie below, if it is not always the mover's. */
  #northIsBelow = false;
  /** What is asked of a board counts only as long as that board is shown. */
  #turn = 0;
  #playTimer;
  /** The puzzle or the sheet that the address names, until there are levels. */
  #awaited;
  /** What is drawn counts only if nothing else was asked for meanwhile. */
  #draws = 0;
  #isDrawing = false;
  /** The sides that the table played before a puzzle. */
  #sidesBefore = [false, false];

  /**
   * @param {(count: number) => import("./proved.mjs").Proved} startProved starts the proved code with so many levels
   * @param {string} address what stands behind the # of the page's address
   * @param {{ setTimeout: Function, clearTimeout: Function }} clock the timers: of the page, or of a test
   * @param {Streak} streak
   */
  constructor(startProved, address = FIRST_BOARD, clock = globalThis, streak = new Streak(() => null)) {
    this.#awaited = parseAsked(address) && address;
    const link = parseLink(this.#awaited ? FIRST_BOARD : address);
    this.record = new Record(link.board);
    this.opponent = new Opponent(pit => this.#play(pit), clock);
    this.library = new Library(startProved, () => this.#takeLevels(), () => this.listener.drawWork(this.shown));
    this.puzzler = new Puzzler(this.library);
    this.streak = streak;
    /** @type {Shown} */
    this.shown = {
      record: this.record, state: this.record.now, weighed: null, line: null, below: 0, keepsMoverBelow: false,
      shelf: this.library.shelf, library: this.library, isEditing: false, isTaking: false, isPlaying: false,
      opponent: this.opponent, tolls: new WeakMap(), hasHints: true, hasLetters: false, puzzle: null, puzzleTold: "",
    };
    this.#takeLink(link);
  }

  // ---- showing ----

  /** Shows the state of the record, at first without its worth, and then with it. Back undoes a step. */
  async show({ isStep = false } = {}) {
    Object.assign(this.shown, { state: this.record.now, weighed: null, line: null });
    if (!this.#isDrawing) this.shown.puzzleTold = "";
    if (isStep) this.#awaited = null;
    this.#leavePuzzle();
    this.#laySides();
    this.listener.drawState(this.seen);
    this.listener.keepLink(this.link, isStep && !this.shown.puzzle);
    await this.#weigh();
  }

  async #weigh() {
    const mine = ++this.#turn, { shown } = this;
    if (this.library.isAwaited(stonesOf(shown.state.board))) return; // it is told once it has come
    const weighed = await weigh(shown.shelf, shown.state.board).catch(() => null);
    if (mine !== this.#turn || !weighed) return;
    shown.weighed = weighed;
    shown.puzzle?.weigh(shown.state, weighed);
    this.listener.drawWorth(this.seen);
    this.listener.drawPuzzle(shown);
    this.#considerReply();
    this.#showLine(mine);
    this.#showTolls();
  }

  /** The line comes later and grows, since it may be long. Nobody waits for it. */
  async #showLine(mine) {
    const { shown } = this;
    let drawn = performance.now();
    const goOn = plies => {
      if (mine !== this.#turn) return false;
      if (performance.now() - drawn < MILLISECONDS_BETWEEN_DRAWINGS) return true;
      drawn = performance.now();
      this.#drawLine({ plies, isGrowing: true });
      return true;
    };
    const line = await bestLine(shown.shelf, shown.state.board, goOn).catch(fault => ({ fault }));
    if (mine === this.#turn) this.#drawLine(line);
  }

  #drawLine(line) {
    this.shown.line = line;
    this.listener.drawLine(this.seen);
  }

  async #showTolls() {
    const { record, shown: { shelf, tolls } } = this, states = record.states.slice(record.start, record.end + 1);
    const found = await tollsOf(states, board => shelf.entry(board).then(({ value }) => value, () => null));
    for (const [index, toll] of found.entries()) tolls.set(states[index + 1], toll);
    this.listener.drawPlayed(this.seen);
  }

  /** What is shown, but for what hints would tell. An open puzzle has none. */
  get seen() {
    const { hasHints, puzzle } = this.shown;
    if (hasHints && !puzzle?.isOpen) return this.shown;
    return { ...this.shown, hasHints: false, weighed: null, line: null, tolls: new WeakMap() };
  }

  #laySides() {
    const { state, keepsMoverBelow } = this.shown;
    this.shown.below = keepsMoverBelow ? state.mover : Number(this.#northIsBelow);
  }

  sayVerdict() { this.listener.say(spokenVerdict(this.seen)); }

  refuse(text) {
    this.listener.say(text);
    this.listener.hint(text);
  }

  // ---- playing ----

  /** The pit of the plan, or null. */
  get plan() { return this.shown.weighed?.entry?.plan ?? null; }

  go(index) {
    this.stopPlaying();
    this.record.go(index);
    if (this.record.isLast) this.opponent.wake();
    else this.opponent.rest();
    return this.show();
  }

  undo() { return this.go(this.#neighbour(-1)); }
  redo() { return this.go(this.#neighbour(1)); }

  /** The next state there. Moves of the table are passed over if a hand plays the other side. */
  #neighbour(step) {
    const { states, start, end, at } = this.record, [south, north] = this.opponent.sides;
    const isPassed = index => south !== north && index > start && index < end && this.opponent.isDue(states[index]);
    const next = at + step;
    return isPassed(next) ? next + step : next;
  }

  /** To the board from which play began, and from there to the first of all. */
  goToStart() {
    const { record } = this;
    return this.go(record.start === record.at ? 0 : record.start);
  }

  async #play(pit) {
    const { mover } = this.record.now, name = this.nameOf(pit), wasOpen = this.#isSolving;
    if (wasOpen && mover === 0) this.shown.puzzle.judge(pit);
    this.record.play(pit);
    const { captured, isSlam } = this.record.now.move;
    if (wasOpen) this.#settlePuzzle();
    await this.show({ isStep: true });
    const captures = captured ? `, captured ${captured}` : isSlam ? ", a grand slam, which captures nothing" : "";
    const told = wasOpen ? wordsOfPuzzle(this.shown) : spokenVerdict(this.seen);
    this.listener.say(`${SIDES[mover]} played pit ${name}${captures}. ${told}`);
  }

  /** What a hand plays, if it may. */
  async play(pit) {
    const { board, mover } = this.record.now, refused = refusalOf(board, pit);
    if (this.#isTablesMove) return this.refuse(`The table plays ${SIDES[mover]}`);
    this.stopPlaying();
    if (refused) return this.refuse(refused.message);
    this.opponent.wake();
    return this.#mayPlay() ? this.#play(pit) : this.refuse("The levels are still being asked");
  }

  /** Plays a part of the best line at once. */
  follow(plies) {
    this.stopPlaying();
    this.opponent.wake();
    for (const { pit } of plies) this.record.play(pit);
    return this.show({ isStep: true });
  }

  /** A line that goes on for ever is played to its first repetition. */
  async #playOn() {
    if (this.plan === null || this.record.isRepeated) return this.togglePlaying();
    await this.#play(this.plan);
    if (this.shown.isPlaying) this.#playTimer = setTimeout(() => this.#playOn(), MILLISECONDS_A_PLY);
  }

  stopPlaying() {
    clearTimeout(this.#playTimer);
    this.opponent.stop();
    this.shown.isPlaying = false;
    this.listener.drawPlaying(this.shown);
  }

  togglePlaying() {
    const isPlaying = !this.shown.isPlaying;
    this.stopPlaying();
    if (!isPlaying) return this.#considerReply();
    this.shown.isPlaying = true;
    this.listener.drawPlaying(this.shown);
    this.#playTimer = setTimeout(() => this.#playOn(), MILLISECONDS_TO_THE_FIRST);
  }

  // ---- the table plays ----

  setTable(south, north) {
    if (this.#isSolving) {
      this.listener.drawBoard(this.seen);
      return this.refuse("The table plays North until the puzzle is over");
    }
    this.stopPlaying();
    this.opponent.setSides(south, north);
    this.listener.say(`The table plays ${nameOfSides(south, north)}`);
    this.listener.keepLink(this.link, false);
    this.#considerReply();
  }

  /** North, South, both and neither in turn. */
  changeTable() {
    const [south, north] = this.opponent.sides;
    return this.setTable(south !== north, !north);
  }

  /** Whether the move is the table's, unless it turns out that the table can't tell. */
  get #isTablesMove() {
    const { opponent, shown: { state, weighed } } = this;
    return opponent.isDue(state) && !opponent.isResting && (!weighed || tableMove(weighed.moves) !== null);
  }

  /** Has the table reply if it is its turn. With itself it plays to the first repetition. */
  #considerReply() {
    const { opponent, record, shown } = this, { state, weighed, isEditing, isPlaying } = shown;
    if (record.isRepeated && opponent.sides.every(Boolean)) opponent.rest();
    else if (weighed && !isEditing && !isPlaying) opponent.consider(state, weighed.moves);
    this.listener.drawBoard(this.seen);
  }

  // ---- links and texts ----

  get link() {
    if (this.#awaited) return this.#awaited;
    if (this.shown.puzzle) return printAsked(this.shown.puzzle.asked);
    return printLink({ ...this.record.game, below: Number(this.#northIsBelow), table: this.opponent.sides });
  }

  #takeLink(link) {
    this.record.open(link);
    this.#northIsBelow = link.below === 1;
    this.opponent.setSides(...link.table);
    if (!this.record.isLast) this.opponent.rest();
  }

  /** Shows what a link says. It throws what is wrong with it. */
  openLink(text) {
    const named = parseAsked(text);
    if (named) return named.kind === "sheet" ? this.openSheet(named.asked) : this.openPuzzle(named.asked);
    const link = parseLink(text);
    this.stopPlaying();
    this.#takeLink(link);
    return this.show().then(() => this.sayVerdict());
  }

  /** Shows the place of a link by Back or Forward: the rest stays, and the table rests. */
  comeTo(text) {
    const named = parseAsked(text);
    if (named) return named.kind === "sheet" ? this.openSheet(named.asked) : this.openPuzzle(named.asked, true);
    const link = parseLink(text);
    this.stopPlaying();
    this.record.open(link);
    this.opponent.rest();
    return this.show().then(() => this.sayVerdict());
  }

  /** Shows the board or the game that a text spells, or what the link in it says. It throws what is wrong with it. */
  showText(text) {
    if (text.includes("#")) return this.openLink(text.trim().slice(text.trim().indexOf("#") + 1));
    const { board, pits } = parseGame(text), stones = plural(stonesOf(board), "stone");
    this.stopPlaying();
    this.opponent.wake();
    this.record.setUp(board, 0);
    for (const pit of pits) this.record.play(pit);
    return this.show({ isStep: true }).then(() => this.listener.say(`${stones}. ${spokenVerdict(this.seen)}`));
  }

  /** The word of the board that is shown. */
  get word() { return print(this.shown.state.board); }

  /** The play that is shown as `awari judge` takes it. */
  get gameText() {
    const { record: { game }, shown: { shelf } } = this, stones = stonesOf(game.board);
    return printGame(game, shelf.level(stones) ? shelf.limitTo(stones) : undefined);
  }

  // ---- puzzles ----

  get #isSolving() { return this.shown.puzzle?.isOpen ?? false; }

  /** Opens the puzzle or the sheet of the address, once there are levels. */
  openAwaited() { if (this.#awaited) return this.openLink(this.#awaited); }

  /**
   * Draws a puzzle and shows it: hints are hidden, and the table plays North until it is over.
   * @param {import("./puzzle.mjs").Asked} asked
   */
  async openPuzzle(asked, isAgain = false) {
    this.stopPlaying();
    const boards = await this.#draw(told => this.puzzler.draw(asked, 1, told));
    if (!boards) return;
    this.#awaited = null;
    this.#closePuzzle();
    this.record.setUp(boards[0], 0);
    this.shown.puzzle = new Solving(asked, this.record.now, !isAgain);
    this.#sidesBefore = this.opponent.sides;
    this.opponent.setSides(false, true);
    this.#northIsBelow = false;
    this.listener.keepLink(this.link, true);
    await this.show();
    this.listener.say(wordsOfPuzzle(this.shown));
  }

  /** Shows a sheet of puzzles, to be printed. What is shown later takes its place. */
  async openSheet(asked, isStep = false) {
    this.stopPlaying();
    const puzzles = await this.#draw(told => this.puzzler.sheet(asked, told));
    if (!puzzles) return;
    this.#awaited = null;
    this.listener.keepLink(printAsked(asked, "sheet"), isStep);
    this.listener.showSheet({ asked, puzzles });
  }

  /** What a draw gives: null if it fails, which is told, or if something else was asked for meanwhile. */
  async #draw(draw) {
    const mine = ++this.#draws;
    const tell = text => {
      if (mine !== this.#draws) return;
      this.shown.puzzleTold = text;
      this.listener.drawPuzzle(this.shown);
    };
    this.#isDrawing = true;
    tell("A puzzle is drawn…");
    const given = await draw(tell).catch(fault => ({ fault }));
    if (mine !== this.#draws) return null;
    this.#isDrawing = false;
    tell(given.fault ? `${given.fault.message}.` : "");
    if (!given.fault) return given;
    this.listener.say(this.shown.puzzleTold);
    return null;
  }

  /** Solves the same puzzle from its start. That does not count. */
  tryAgain() { if (this.shown.puzzle) return this.openPuzzle(this.shown.puzzle.asked, true); }

  /** Whether a hand may play now: an open puzzle waits until it can judge. One that is over goes. */
  #mayPlay() {
    const { puzzle, state } = this.shown;
    if (!puzzle?.isOpen) this.#closePuzzle();
    return !puzzle?.isOpen || puzzle.canJudge(state);
  }

  #settlePuzzle() {
    this.shown.puzzle.settle(this.record.now, this.record.isRepeated);
    if (!this.#isSolving) this.#endPuzzle();
  }

  /** Shows the solution of an open puzzle, which is not solved then. */
  showSolution() {
    if (!this.#isSolving) return;
    this.stopPlaying();
    this.shown.puzzle.show();
    this.#endPuzzle();
    this.#redraw();
    this.listener.say(wordsOfPuzzle(this.shown));
  }

  /** The line comes later. Nobody waits for it. */
  async #endPuzzle() {
    const { puzzle, shelf } = this.shown, { standing, decided, start } = puzzle;
    if (puzzle.counts) this.streak.add(standing === "home");
    puzzle.counts = false;
    this.opponent.setSides(...this.#sidesBefore);
    puzzle.from = standing === "home" || !decided ? start : decided.state;
    puzzle.line = await bestLine(shelf, puzzle.from.board).catch(() => null);
    this.listener.drawPuzzle(this.shown);
  }

  /** Plays a part of the line of a puzzle from where that begins. */
  followSolution(plies) {
    const { from } = this.shown.puzzle, index = this.record.states.indexOf(from);
    if (index < 0) this.record.setUp(from.board, from.mover); // other moves took its place
    else this.record.go(index);
    return this.follow(plies);
  }

  #closePuzzle() {
    if (this.#isSolving) this.opponent.setSides(...this.#sidesBefore);
    this.shown.puzzle = null;
  }

  /** Another board than that of the puzzle leads out of it. */
  #leavePuzzle() {
    const { record, shown: { puzzle } } = this;
    if (puzzle && record.states[record.start] !== puzzle.start) this.#closePuzzle();
  }

  // ---- setting up ----

  /** @param {Board} board */
  setBoard(board, mover = this.shown.state.mover) {
    this.stopPlaying();
    this.opponent.wake();
    this.record.setUp(board, mover);
    return this.show({ isStep: true });
  }

  setStones(pit, stones) {
    const board = [...this.shown.state.board];
    board[pit] = Math.max(0, stones);
    const all = stonesOf(board), told = `Pit ${this.nameOf(pit)}: ${plural(board[pit], "stone")}, ${all} in all`;
    if (all > MOST_STONES) return this.refuse(`A board has at most ${MOST_STONES} stones`);
    return this.setBoard(board).then(() => this.listener.say(told));
  }

  addStones(pit, stones) { return this.setStones(pit, this.shown.state.board[pit] + stones); }

  /** What a click on a pit does. */
  press(pit) {
    const { isEditing, isTaking } = this.shown;
    return isEditing ? this.addStones(pit, isTaking ? -1 : 1) : this.play(pit);
  }

  clear() { return this.setBoard(Array(12).fill(0)); }

  setRandomBoard(stones) {
    const board = randomBoard(Math.max(0, Math.min(MOST_STONES, Math.floor(stones) || 0)));
    return this.setBoard(board).then(() => this.sayVerdict());
  }

  swapMover() {
    const { board, mover } = this.shown.state;
    return this.setBoard(turned(board), 1 - mover).then(() => this.sayVerdict());
  }

  setEditing(isEditing) {
    this.stopPlaying();
    this.shown.isEditing = isEditing;
    this.#considerReply();
  }

  setTaking(isTaking) {
    this.shown.isTaking = isTaking;
    this.listener.drawBoard(this.seen);
  }

  turnBoard() {
    const { keepsMoverBelow, state } = this.shown;
    this.#northIsBelow = keepsMoverBelow ? state.mover === 0 : !this.#northIsBelow;
    this.keepMoverBelow(false);
    this.listener.say(`${SIDES[this.shown.below]} is below`);
  }

  keepMoverBelow(keeps) {
    this.shown.keepsMoverBelow = keeps;
    this.#laySides();
    this.listener.drawBoard(this.seen);
    this.listener.keepLink(this.link, false);
  }

  setHints(hasHints) {
    if (hasHints) this.showSolution();
    this.shown.hasHints = hasHints;
    this.#redraw();
    this.listener.say(`Hints are ${hasHints ? "on" : "off"}. ${spokenVerdict(this.seen)}`);
  }

  setLetters(hasLetters) {
    this.shown.hasLetters = hasLetters;
    this.#redraw();
    this.listener.say(`Pits have ${hasLetters ? "letters" : "numbers"}`);
  }

  #redraw() {
    this.listener.drawBoard(this.seen);
    this.listener.drawWorth(this.seen);
    this.listener.drawPlayed(this.seen);
  }

  nameOf(pit) { return pitName(pit, this.shown.state.mover, this.shown.hasLetters); }

  // ---- levels ----

  /** Other levels are there, so the board that is shown may be worth something else, or be known at last. */
  #takeLevels() {
    this.shown.shelf = this.library.shelf;
    this.listener.drawLevels(this.shown);
    this.#forgetFaults();
    this.#weigh();
  }

  /** What was not known may have come with them. */
  #forgetFaults() {
    const { shown } = this;
    if (shown.line && "fault" in shown.line) this.#drawLine(null);
    if (!hasFault(shown.weighed)) return;
    shown.weighed = null;
    this.listener.drawWorth(this.seen);
  }

  /** @param {{ files: File[], name: string }} chosen the files, and the name of their folder if it has one */
  async open(chosen) {
    this.stopPlaying();
    await this.library.open(chosen);
    await this.show();
    this.listener.say(this.library.notice ?? `${this.library.title}. ${spokenVerdict(this.seen)}`);
  }

  /** Shows the board of a level that has this rank. */
  async showRank(level, rank) {
    await this.setBoard(await this.library.proved.ask("board", level, rank), 0);
    this.sayVerdict();
  }
}

function nameOfSides(south, north) {
  if (south === north) return south ? "both sides" : "neither side";
  return SIDES[Number(north)];
}
return { Session };
})();

const module_board_view = (() => {
// The board: twelve pits in two rows, each of them a button, and a line for each player.

const { element } = module_elements;
const { letterOf, pitName } = module_letters;
const { isEnded, isLegal, play, refusalOf } = module_rules;
const { drawStones } = module_stones;
const { wordsOfMove } = module_verdict;
const { kindOf, plural, SIDES, signed } = module_words;

class BoardView {
  /** `hands` has what a hand does: press(pit), add(pit, stones) and set(pit, stones). */
  constructor(box, players, hands) {
    this.players = players;
    this.hands = hands;
    this.shown = null;
    /** What the stones were laid for. */
    this.laid = { state: null, below: 0 };
    /** The place to which the tabulator leads: the lower left one at first. */
    this.focused = 6;
    this.places = Array.from({ length: 12 }, (_, place) => this.makePit(place));
    box.append(...this.places.slice(0, 6), element("div", { class: "middle" }), ...this.places.slice(6));
    box.addEventListener("keydown", event => this.onKey(event));
  }

  makePit(place) {
    const pit = element("button", { type: "button", class: `pit ${place < 6 ? "upper" : "lower"}` },
      ...["number", "tag", "bowl", "count"].map(part => element("span", { class: part })));
    pit.addEventListener("click", () => this.hands.press(this.pitAt(place)));
    pit.addEventListener("contextmenu", event => this.onRightClick(event, place));
    pit.addEventListener("focus", () => this.onFocus(place));
    pit.addEventListener("blur", () => this.preview(null));
    pit.addEventListener("pointerenter", event => event.pointerType === "mouse" && this.preview(this.pitAt(place)));
    pit.addEventListener("pointerleave", () => this.preview(null));
    return pit;
  }

  /** The pit in one of the twelve places, the upper row first, as the mover numbers it. */
  pitAt(place) {
    const fromBelow = place < 6 ? 11 - place : place - 6;
    return this.shown.below === this.shown.state.mover ? fromBelow : (fromBelow + 6) % 12;
  }

  // ---- drawing ----

  /**
   * Draws the board. Stones are laid anew, and those that fell are marked, only if the state is another one or
   * the board was turned.
   */
  draw(shown) {
    const isLaid = this.laid.state === shown.state && this.laid.below === shown.below;
    this.shown = shown;
    this.laid = { state: shown.state, below: shown.below };
    this.places.forEach((element, place) => {
      this.drawPit(element, this.pitAt(place));
      if (!isLaid) this.layStones(element, this.pitAt(place));
    });
    this.drawPlayers();
    this.leadTabulator();
  }

  drawPit(element, pit) {
    const { state: { board }, weighed, isEditing } = this.shown;
    const canPlay = !isEditing && isLegal(board, pit);
    const [number, tag, , count] = element.children;
    number.replaceChildren(...this.nameOf(pit));
    count.textContent = board[pit];
    tag.replaceChildren(...this.tagOf(pit));
    element.dataset.pit = pit;
    element.setAttribute("aria-label", this.labelOf(pit));
    element.setAttribute("aria-disabled", String(!canPlay && !isEditing));
    element.classList.toggle("open", canPlay || isEditing);
    element.classList.toggle("plan", canPlay && weighed?.entry?.plan === pit);
    element.classList.toggle("empty", board[pit] === 0);
    element.classList.toggle("bare", tag.childElementCount === 0);
  }

  /** A letter stays with its pit. Beside it stands the number by which the mover plays it. */
  nameOf(pit) {
    const { state: { mover }, hasLetters } = this.shown;
    if (!hasLetters) return [String(pit)];
    return [letterOf(pit, mover), ...(pit < 6 ? [element("small", {}, String(pit))] : [])];
  }

  /** What the move from a pit is worth, as it stands on the board. */
  tagOf(pit) {
    const { weighed, isEditing } = this.shown;
    const move = !isEditing && weighed?.moves.find(each => each.pit === pit);
    if (!move) return [];
    const takes = move.captured ? `takes ${move.captured}` : "";
    if (move.fault) return takes ? [this.makeTag("even", "?", takes)] : [];
    const kind = `${kindOf(move.value)}${move.isPlan ? " plan" : ""}`;
    return [this.makeTag(kind, signed(move.value), takes || this.withinOf(move) || "even")];
  }

  makeTag(kind, value, ...below) {
    return element("span", { class: kind },
      element("b", {}, value),
      element("small", {}, ...below));
  }

  /** The distance. A narrow board has no room for the word behind it. */
  withinOf({ distance }) {
    if (!distance) return "";
    const unit = element("span", { class: "wide" }, distance === 1 ? " ply" : " plies");
    return element("span", {}, `in ${distance}`, unit);
  }

  labelOf(pit) {
    const { state: { board, mover }, weighed, isEditing, isTaking, hasLetters } = this.shown;
    const side = SIDES[pit < 6 ? mover : 1 - mover];
    const held = `${side}, pit ${pitName(pit, mover, hasLetters)}, ${plural(board[pit], "stone")}`;
    if (isEditing) return `${held}. ${isTaking ? "Take" : "Add"} a stone`;
    if (pit > 5) return held;
    const refused = refusalOf(board, pit);
    if (refused) return `${held}. ${refused.message}`;
    const move = weighed?.moves.find(each => each.pit === pit);
    return `${held}. Play${move ? `: ${wordsOfMove(move, true)}` : ""}`;
  }

  layStones(element, pit) {
    const { board, mover, move } = this.shown.state, bowl = element.children[2];
    element.classList.remove("taken", "origin");
    bowl.className = "bowl";
    bowl.style.animationDelay = "";
    // By a number that stays with the pit while the board is turned, so that its stones lie still.
    bowl.replaceChildren(drawStones(board[pit], (pit + 6 * mover) % 12));
    if (move) this.markWhatFell(bowl, move, (pit + 6) % 12);
  }

  /** The pits of a move are numbered by its mover, who is the other side now. */
  markWhatFell(bowl, move, pit) {
    const fall = move.falls.indexOf(pit);
    void bowl.offsetWidth; // else an animation that has run does not run again
    if (move.taken.includes(pit)) {
      bowl.classList.add("lost");
    } else if (fall >= 0) {
      bowl.classList.add("fell");
      bowl.style.animationDelay = `${45 * fall}ms`;
    }
  }

  drawPlayers() {
    const { state: { board, mover, captured }, below } = this.shown, hasEnded = isEnded(board);
    [1 - below, below].forEach((side, row) => {
      const isMover = side === mover, stones = element("b", {}, String(captured[side]));
      this.players[row].classList.toggle("moves", isMover && !hasEnded);
      this.players[row].replaceChildren(
        element("span", { class: "dot" }),
        element("span", { class: "name" }, SIDES[side]),
        element("span", { class: "turn" }, this.turnOf(side)),
        element("span", { class: "captured" }, "captured ", stones));
    });
  }

  /** Whether a side is to move, and whether the table plays it. */
  turnOf(side) {
    const { state: { board, mover }, opponent, weighed } = this.shown, isTable = opponent.sides[side];
    if (side !== mover) return isTable ? "the table" : "";
    if (isEnded(board)) return "has no move";
    if (!isTable) return "to move";
    if (opponent.isResting) return "the table waits";
    if (opponent.isThinking) return "the table moves…";
    return weighed?.moves.some(({ fault }) => fault) ? "the table can’t tell" : "the table";
  }

  /** Shows where the stones of a pit would fall and what they would capture; of null, nothing. */
  preview(pit) {
    const { state: { board }, isEditing } = this.shown;
    const canPlay = pit !== null && !isEditing && isLegal(board, pit);
    const move = canPlay ? play(board, pit) : { pit: null, falls: [], taken: [] };
    this.places.forEach((element, place) => {
      const here = this.pitAt(place), times = move.falls.filter(fall => fall === here).length;
      element.classList.toggle("taken", move.taken.includes(here));
      element.classList.toggle("origin", move.pit === here);
      element.querySelector(".plus")?.remove();
      if (times) element.children[2].append(this.makePlus(times));
    });
  }

  makePlus(times) { return element("span", { class: "plus", "aria-hidden": "true" }, `+${times}`); }

  // ---- hands ----

  /** The board is one stop of the tabulator. The arrow keys go from pit to pit. */
  leadTabulator() {
    this.places.forEach((pit, place) => { pit.tabIndex = place === this.focused ? 0 : -1; });
  }

  onFocus(place) {
    this.focused = place;
    this.leadTabulator();
    this.preview(this.pitAt(place));
  }

  onRightClick(event, place) {
    if (!this.shown.isEditing) return;
    event.preventDefault();
    this.hands.add(this.pitAt(place), -1);
  }

  onKey(event) {
    if (event.ctrlKey || event.metaKey || event.altKey) return;
    if (!this.goByArrow(event.key) && !this.editByKey(event.key)) return;
    event.stopPropagation();
    event.preventDefault();
  }

  goByArrow(key) {
    const step = { ArrowLeft: -1, ArrowRight: 1, ArrowUp: -6, ArrowDown: 6 }[key];
    if (step === undefined) return false;
    const place = this.focused + step;
    const staysInRow = Math.floor(place / 6) === Math.floor(this.focused / 6);
    if (place >= 0 && place < 12 && (staysInRow || Math.abs(step) === 6)) this.places[place].focus();
    return true;
  }

  editByKey(key) {
    if (!this.shown.isEditing) return false;
    const pit = this.pitAt(this.focused);
    if (["+", "="].includes(key)) this.hands.add(pit, 1);
    else if (["-", "Delete", "Backspace"].includes(key)) this.hands.add(pit, -1);
    else if (/^[0-9]$/.test(key)) this.hands.set(pit, Number(key));
    else return false;
    return true;
  }
}
return { BoardView };
})();

const module_known = (() => {
// The digests that docs/levels.csv has. A level has one right file, so another digest is that of a wrong one.

const DIGESTS = [
  "c90c3c3629b1c963507f83d9894d84cb78d15ceb14847ebb17360a8ed545cf0f",
  "e5a9a57f6858a25baad0b0a5a6a39407e11a4315b2a1df329ebea00cef062deb",
  "326cbe86f97046809b09630f35e9ca500777be5ba275edb931a71fa1af1a4a9f",
  "791ea546bd1662c21d7c27eb050f8e444e8f541da97bd285f3dc5c692ae39a2f",
  "b55db5f40f80654fee93fde6d202a74b07968d57100653e9539b264afcbfc16d",
  "48aac3847d9f84e5506759b520db175f2c0ea5c49086f7205acdc2eb67ac3c53",
  "ebbc32bd38a6dafb1b2d7caca7dc013cd1264cb40d1669e9739a020ba053f212",
  "da45313cf97401fa927c44404dff7b919d07a291bbde6ccf17ca061e75599f4f",
  "1fabe20106d8b54a9f17be4e5fa9257df62dba8ac94bcc3903ba11483b50b9ae",
  "5a73de92e7ab59c5c07f2da4ddac33914756150bd8d72d4adb36485b16402180",
  "8c66b6a7172e3c31ac9db1c18ca189a04e85ebb1c954ce1a86d15e4844d722cd",
  "34ac9da831b00578ae75fc5afda6f2abb30639e2512a1d8fcb87a902e713773d",
  "2190e4348b698372c41cadf693c0390bd0ad890a15d09b988da42fd9e0bce990",
  "374a7343e4816a4539999b92db364cb71e80f9fa8737e0a4eab3c95c5af53bbb",
  "17d99fd212f53f5a10ea21c730354e5dcd8720d28a3ccd1891bb6dc6dd6740da",
  "3e503f68f0b947662e190a41604492724492f174f7db07c4ffbcff98deb9378e",
  "9e473c89a229ce08b5006afe0dc287752c1486fcd85751f2fbe90bc506666ec7",
  "3eb39ef892bb3885e1bf548790ab5214880c0f3f9f045456adcb2446abd3a60e",
  "ea01b681f39d50344853fd6c3a09a1c6a05691475bda2fde5d290b37e7015e2d",
  "4352fe557001574f03dc295e837a3644d6abab28542e28193db0769916d9e292",
  "79ed6ac9b5309e75d2338f42b56cd293969247b0aa81c90c5707feee8dfe98bf",
  "063cd4b3ad86566c8b29b29d3458c21df1a1537da8afb9b2c6865ba0c7e15598",
  "aacf722f2e19583e3b0fa095ed2c35e8fc0f9d63b741a48e04ed68ca0c61391f",
  "b16b1a5f2b7e5fe31e03359e3d2bc83a14d47c2f21068aa707fffe11f6122ec4",
  "3c37679cd0489c92cc3b86b41bcc17d2a526d762aa76d6f29d216e06b2b4f759",
];

/**
 * Whether a level ends in the digest that docs/levels.csv has for it.
 * @param {{ number: number, digest: string }} level
 */
const isKnown = ({ number, digest }) => DIGESTS[number] === digest;
return { isKnown };
})();

const module_pictures = (() => {
// Numbers as pictures: columns of which one is chosen, by a finger, a mouse or the arrow keys.
//
// A picture is a slider for those who do not see it: its value is the chosen column, in words.

const { button, drawing, element } = module_elements;
const { grouped, kindOf, percent, plies, plural, signed } = module_words;

class Picture {
  /**
   * A column is { boards, first, kind, text }: how many boards, the rank of the first of them, its colour, and
   * what they have in common. `isLogarithmic` is for numbers of which some are a thousand times as large as
   * others. `show` is given the rank of a board that is asked for.
   */
  constructor({ id, title, columns, ends, isLogarithmic = false, total, show }) {
    this.columns = columns;
    this.isLogarithmic = isLogarithmic;
    this.total = total;
    this.show = show;
    this.most = Math.max(1, ...columns.map(column => column.boards));
    // A wrong file may have none of the values that its level can have.
    this.chosen = Math.max(0, columns.findIndex(column => column.boards === this.most));
    this.bars = columns.map((column, index) => this.makeBar(column, index));
    this.plot = this.makePlot(title);
    this.readout = element("span", { class: "readout-text" });
    this.showButton = button({ class: "button small-button" }, () => this.showChosen(), "Show one");
    const endTexts = ends.map(end => element("span", {}, end));
    this.figure = element("figure", { class: "picture", id },
      element("figcaption", {}, title),
      this.plot,
      element("div", { class: "ends", "aria-hidden": "true" }, ...endTexts),
      element("p", { class: "readout" }, this.readout, this.showButton));
    this.figure.style.setProperty("--gutter", `${this.gutterWidth()}rem`);
    this.tell(this.chosen);
  }

  /** From 0 to 1. One board is seen, too. */
  heightOf(boards) {
    return this.isLogarithmic ? Math.log1p(boards) / Math.log1p(this.most) : boards / this.most;
  }

  makeBar({ boards, kind }, index) {
    const width = 1000 / this.columns.length, gap = width > 8 ? 2 : 0;
    const height = boards === 0 ? 0 : Math.max(2, 100 * this.heightOf(boards));
    return drawing("rect", {
      class: kind, x: index * width + gap / 2, y: 100 - height, width: width - gap, height,
    });
  }

  makePlot(title) {
    const plot = element("div", {
      class: "plot", role: "slider", tabindex: "0", "aria-label": title, "aria-valuemin": "0",
      "aria-valuemax": String(this.columns.length - 1),
    });
    const drawn = { viewBox: "0 0 1000 100", preserveAspectRatio: "none", "aria-hidden": "true" };
    plot.append(
      ...this.gridNumbers().map(number => this.makeGridLine(number)),
      drawing("svg", drawn, ...this.bars));
    plot.addEventListener("keydown", event => this.onKey(event));
    plot.addEventListener("pointerdown", event => this.choose(this.columnAt(event)));
    plot.addEventListener("pointermove", event => {
      if (event.buttons) this.choose(this.columnAt(event));
      else this.tell(this.columnAt(event));
    });
    plot.addEventListener("pointerleave", () => this.tell(this.chosen));
    return plot;
  }

  /** The numbers of boards at which a line is drawn: at most five of them. */
  gridNumbers() {
    const magnitude = Math.floor(Math.log10(this.most));
    return this.isLogarithmic ? this.powersOfTen(magnitude) : this.roundNumbers(10 ** magnitude);
  }

  powersOfTen(magnitude) {
    const step = Math.max(1, Math.ceil(magnitude / 4));
    return Array.from({ length: Math.floor(magnitude / step) }, (_, index) => 10 ** (step * (index + 1)));
  }

  roundNumbers(power) {
    const fits = each => Number.isInteger(each) && 2 * each <= this.most;
    const step = [5 * power, 2 * power, power, power / 2].find(fits) ?? 1;
    return Array.from({ length: Math.floor(this.most / step) }, (_, index) => step * (index + 1));
  }

  /** Room for the widest number of a line. A digit of that size is some .45rem wide. */
  gutterWidth() {
    const widest = Math.max(0, ...this.gridNumbers().map(number => grouped(number).length));
    return 0.45 * widest + 0.5;
  }

  makeGridLine(number) {
    const line = element("div", { class: "grid-line", "aria-hidden": "true" },
      element("span", {}, grouped(number)));
    line.style.bottom = `${100 * this.heightOf(number)}%`;
    return line;
  }

  columnAt({ clientX }) {
    const { left, width } = this.plot.getBoundingClientRect();
    return this.within(Math.floor((clientX - left) / width * this.columns.length));
  }

  within(index) { return Math.max(0, Math.min(index, this.columns.length - 1)); }

  onKey(event) {
    if (event.ctrlKey || event.metaKey || event.altKey) return;
    const steps = {
      ArrowLeft: -1, ArrowDown: -1, ArrowRight: 1, ArrowUp: 1, PageDown: -10, PageUp: 10,
      Home: -Infinity, End: Infinity,
    };
    if (event.key in steps) this.choose(this.within(this.chosen + steps[event.key]));
    else if (event.key === "Enter") this.showChosen();
    else return;
    event.preventDefault();
  }

  choose(index) {
    this.chosen = index;
    this.tell(index);
  }

  /** Says what a column is, without choosing it. */
  tell(index) {
    const { boards, text } = this.columns[index];
    const told = `${text}: ${plural(boards, "board")} (${percent(boards, this.total)})`;
    this.readout.textContent = told;
    this.bars.forEach((bar, each) => bar.classList.toggle("chosen", each === index));
    this.plot.setAttribute("aria-valuenow", String(index));
    this.plot.setAttribute("aria-valuetext", told);
    this.showButton.disabled = boards === 0;
    this.showButton.setAttribute("aria-label", `Show a board: ${text}`);
  }

  showChosen() {
    const { boards, first } = this.columns[this.chosen];
    if (boards > 0) this.show(first);
  }

  // ---- the two pictures of a level ----

  static ofValues(counts, show) {
    const { number, boards } = counts.level;
    const columns = counts.values.map(({ value, boards, first }) =>
      ({ boards, first, kind: kindOf(value), text: `Value ${signed(value)}` }));
    const ends = number === 0 ? ["", "0", ""] : [signed(-number), "0", signed(number)];
    return new Picture({ id: "picture-values", title: "Boards by value", columns, ends, total: boards, show });
  }

  /** Of a great limit several distances share a column, so that each is wide enough to be met. 0 stays alone. */
  static ofDistances(counts, show) {
    const MOST_COLUMNS = 100, all = counts.distances, last = all.length - 1;
    const together = Math.max(1, Math.ceil(last / MOST_COLUMNS)), columns = [Picture.joinedColumn([all[0]])];
    for (let from = 1; from <= last; from += together)
      columns.push(Picture.joinedColumn(all.slice(from, from + together)));
    const ends = last === 0 ? ["", "0", ""] : ["0", "", plies(last)];
    return new Picture({
      id: "picture-distances", title: "Boards by distance", columns, ends, isLogarithmic: true,
      total: counts.level.boards, show,
    });
  }

  static joinedColumn(distances) {
    const from = distances[0].distance, to = distances.at(-1).distance;
    const farthest = distances.findLast(({ boards }) => boards > 0);
    return {
      boards: distances.reduce((sum, { boards }) => sum + boards, 0),
      first: farthest?.first ?? 0,
      kind: "far",
      text: from === to ? `Distance ${from}` : `Distances ${from} to ${to}`,
    };
  }
}
return { Picture };
})();

const module_scans = (() => {
// What is found by going over a whole file: how many boards have which value and distance.
//
// A file is read in pieces, each of which takes a few milliseconds. Between two of them the page answers
// hands, so no thread of its own is needed. A scan says how far it is, and stops if its signal says so.

const { bytesOf, ENTRY_BYTES, placeOf } = module_level_file;

/** The bytes of a piece: whole entries of a level. */
const PIECE_BYTES = ENTRY_BYTES * 64 * 1024;
/** A wrong file may have any distance. Those above this are counted together. */
const MOST_DISTANCE = 65535;
const LEAST_VALUE = -128, VALUES = 256;

/** The pieces of a file in turn. The next is being read while one is looked at. */
async function* pieces(file, from, to, signal) {
  const read = place => {
    const piece = bytesOf(file, place, Math.min(place + PIECE_BYTES, to));
    piece.catch(() => {}); // it is told once the piece is due
    return piece;
  };
  let next = read(from);
  for (let place = from; place < to; place += PIECE_BYTES) {
    const bytes = await next;
    signal?.throwIfAborted();
    if (place + PIECE_BYTES < to) next = read(place + PIECE_BYTES);
    yield { place, bytes };
  }
}

/** How many boards have which value, and which distance, and the first board of each. */
class Counts {
  constructor(level) {
    const distances = Math.min(level.limit, MOST_DISTANCE) + 1;
    this.level = level;
    this.ofValue = new Uint32Array(VALUES);
    this.firstOfValue = new Uint32Array(VALUES);
    this.ofDistance = new Uint32Array(distances);
    this.firstOfDistance = new Uint32Array(distances);
    this.greatest = 0;
    this.firstOfGreatest = 0;
  }

  add(bytes, firstRank) {
    const view = new DataView(bytes.buffer), most = this.ofDistance.length - 1;
    for (let place = 0, rank = firstRank; place < bytes.length; place += ENTRY_BYTES, rank++) {
      const value = view.getInt8(place) - LEAST_VALUE, distance = view.getUint32(place + 2);
      if (this.ofValue[value]++ === 0) this.firstOfValue[value] = rank;
      if (distance > this.greatest) {
        this.greatest = distance;
        this.firstOfGreatest = rank;
      }
      const counted = Math.min(distance, most);
      if (this.ofDistance[counted]++ === 0) this.firstOfDistance[counted] = rank;
    }
  }

  /** The values of a right level, from the least up, with their boards. */
  get values() {
    const { number } = this.level;
    return Array.from({ length: 2 * number + 1 }, (_, column) => {
      const value = column - number, index = value - LEAST_VALUE;
      return { value, boards: this.ofValue[index], first: this.firstOfValue[index] };
    });
  }

  get distances() {
    return Array.from(this.ofDistance, (boards, distance) =>
      ({ distance, boards, first: this.firstOfDistance[distance] }));
  }

  sum(isMeant) {
    return this.ofValue.reduce((sum, boards, index) => isMeant(index + LEAST_VALUE) ? sum + boards : sum, 0);
  }

  get won() { return this.sum(value => value > 0); }
  get even() { return this.sum(value => value === 0); }
  get lost() { return this.sum(value => value < 0); }
}

/**
 * @param {import("./level_file.mjs").Level} level
 * @param {(share: number) => void} told
 * @param {AbortSignal | null} signal
 */
async function countBoards(level, told = () => {}, signal = null) {
  const counts = new Counts(level), from = placeOf(0), to = placeOf(level.boards);
  for await (const { place, bytes } of pieces(level.file, from, to, signal)) {
    counts.add(bytes, (place - from) / ENTRY_BYTES);
    told((place + bytes.length - from) / (to - from));
  }
  return counts;
}
return { PIECE_BYTES, countBoards };
})();

const module_levels_view = (() => {
// The levels that are there, a button each, and a summary of one of them: its numbers, and two pictures.

const { button, byId, element } = module_elements;
const { isKnown } = module_known;
const { fileSizeOf, HIGHEST, nameOf } = module_level_file;
const { Picture } = module_pictures;
const { sizeOf } = module_rules;
const { countBoards } = module_scans;
const { Shelf } = module_shelf;
const { grouped, percent, plies, plural, sizeText } = module_words;

/** Levels up to this size are counted unasked, which takes less than half a second. */
const COUNTED_UNASKED_BYTES = 32e6;

/** What is said of a level by its standing. */
const STANDINGS = {
  built: ["Built here", " by the proved code: it is right for every board."],
  verified: ["Verified here", " by the proved code: it is right for every board."],
  unverified: ["Not verified.", " This page shows what the file says, right or wrong."],
};

class LevelsView {
  /** `hands` has showRank(level, rank) and say(text). */
  constructor({ card, buttons, summary }, hands) {
    this.card = card;
    this.buttons = buttons;
    this.summary = summary;
    this.hands = hands;
    this.open(new Shelf(null));
  }

  /** Draws the levels anew, since some came or were verified. */
  update(shelf) {
    if (shelf !== this.shelf) this.open(shelf);
    this.redraw();
  }

  /** Takes another folder. What was begun on the one before is stopped. */
  open(shelf) {
    for (const job of this.jobs ?? []) job.control.abort();
    this.shelf = shelf;
    this.jobs = new Set();
    this.counts = new Map();
    this.pictures = new Map();
    /** Levels whose count was stopped. They are counted again only if a hand asks for it. */
    this.stopped = new Set();
    this.chosen = null;
    this.drawn = null;
  }

  // ---- which level ----

  /** Shows the level of a board, unless one was chosen by hand. */
  draw(stones) {
    this.stones = stones;
    if (this.number !== this.drawn) this.redraw();
  }

  /** A new board leads back to its own level. */
  forget() { this.chosen = null; }

  get number() { return this.chosen ?? Math.min(this.stones ?? 0, HIGHEST); }

  redraw() {
    const held = this.card.contains(document.activeElement) ? document.activeElement : null;
    this.drawn = this.number;
    this.buttons.replaceChildren(...this.shelf.slots.map((slot, number) => this.makeLevelButton(slot, number)));
    this.summary.replaceChildren(...this.makeSummary(this.number));
    this.giveFocusBack(held);
    this.countUnasked(this.number);
  }

  /** To what had it before: to itself if it is still there, or to what was made anew in its place. */
  giveFocusBack(held) {
    if (held?.isConnected) held.focus();
    else if (held?.id) byId(held.id)?.focus();
  }

  redrawIfShown(number) { if (number === this.drawn) this.redraw(); }

  makeLevelButton(slot, number) {
    const kind = slot?.level ? `here ${slot.standing}` : slot ? "wrong" : "missing";
    const standing = slot?.level && STANDINGS[slot.standing][0].replace(".", "").toLowerCase();
    const text = standing ?? slot?.fault?.message ?? "missing";
    const attributes = {
      id: `level-${number}`, class: kind, title: text,
      "aria-pressed": String(number === this.number), "aria-label": `Level ${number}: ${text}`,
    };
    const choose = () => {
      this.chosen = number;
      this.redraw();
    };
    return button(attributes, choose, String(number));
  }

  // ---- the summary ----

  makeSummary(number) {
    const level = this.shelf.level(number), fault = this.shelf.fault(number);
    if (fault) return [element("p", { class: "status wrong" }, `${fault.message}.`)];
    if (!level) return [this.makeMissing(number)];
    const counts = this.counts.get(number);
    return [
      element("div", { class: "head" },
        element("b", {}, `Level ${number}`),
        element("span", { class: "soft small" }, `${level.file.name}, ${sizeText(level.file.size)}`)),
      this.makeStanding(this.shelf.standing(number)),
      ...(counts?.level ? [this.makeBar(counts)] : []),
      this.makeNumbers(level, counts),
      ...this.makePictures(number, counts),
      this.makeActions(level, counts),
      ...this.makeRemarks(level, counts),
    ];
  }

  makeStanding(standing) {
    const [title, text] = STANDINGS[standing];
    return element("p", { id: "standing", class: `status ${standing}` }, element("b", {}, title), text);
  }

  makeMissing(number) {
    const boards = grouped(sizeOf(number));
    return element("p", { class: "status" },
      element("b", {}, nameOf(number)), " is not here. ",
      element("code", {}, `awari build ${number} --folder FOLDER`),
      ` makes it: ${boards} ${number === 0 ? "board" : "boards"}, ${sizeText(fileSizeOf(number))}.`);
  }

  makeBar(counts) {
    const parts = ["won", "even", "lost"];
    const text = parts.map(part => `${percent(counts[part], counts.level.boards)} ${part}`).join(", ");
    return element("div", { class: "bar", role: "img", "aria-label": text },
      ...parts.filter(part => counts[part] > 0).map(part => {
        const piece = element("span", { class: part });
        piece.style.flexGrow = counts[part];
        return piece;
      }));
  }

  makeNumbers(level, counts) {
    const row = (id, name, ...value) => [element("dt", {}, ...name), element("dd", { id: `level-${id}` }, ...value)];
    const part = (kind, name) => row(kind, [element("span", { class: `key ${kind}` }), `${name} for the mover`],
      grouped(counts[kind]), " ", element("span", { class: "soft" }, `(${percent(counts[kind], level.boards)})`));
    const parts = counts?.level ? [...part("won", "Won"), ...part("even", "Even"), ...part("lost", "Lost")] : [];
    return element("dl", {},
      ...row("boards", [`Boards with ${plural(level.number, "stone")}`], grouped(level.boards)),
      ...parts,
      ...row("limit", ["Greatest distance"], plies(level.limit)),
      ...row("digest", ["Digest"], element("code", {}, level.digest)),
      ...row("known", ["Which is"], isKnown(level) ? "that of docs/levels.csv" : element("b", { class: "bad" }, "not that of docs/levels.csv: the file is wrong")));
  }

  /** They are made once, so that the column that was chosen stays so. */
  makePictures(number, counts) {
    if (!counts?.level) return [];
    if (!this.pictures.has(number)) {
      const show = rank => this.hands.showRank(number, rank);
      this.pictures.set(number, [Picture.ofValues(counts, show), Picture.ofDistances(counts, show)]);
    }
    const figures = this.pictures.get(number).map(picture => picture.figure);
    return [element("div", { class: "pictures" }, ...figures)];
  }

  makeActions(level, counts) {
    const { number } = level;
    const isBusy = [...this.jobs].some(job => job.number === number);
    const show = () => this.hands.showRank(number, counts.firstOfGreatest);
    const action = (id, act, text) => button({ id, class: "button" }, act, text);
    const countText = `Count the boards (${sizeText(level.file.size)})`;
    return element("div", { class: "row actions" },
      !counts && !isBusy && action("count", () => this.count(number), countText),
      counts?.level && action("farthest", show, `Show a board of ${plies(counts.greatest)}`));
  }

  makeRemarks(level, counts) {
    const remarks = [];
    if (counts?.fault) remarks.push(element("p", { class: "status wrong" }, `${counts.fault.message}.`));
    if (counts?.level && counts.greatest !== level.limit)
      remarks.push(element("p", { class: "status wrong" },
        `The file gives ${level.limit} as its greatest distance, and an entry has ${counts.greatest} (rule V7).`));
    for (const job of this.jobs) if (job.number === level.number) remarks.push(this.makeProgress(job));
    return remarks;
  }

  // ---- work on whole files ----

  makeProgress(job) {
    const text = `${job.what} ${nameOf(job.number)}`;
    job.bar = element("progress", { max: "1", value: job.part, "aria-label": text });
    const stop = () => {
      job.control.abort();
      this.hands.say(`${text}: stopped`);
    };
    return element("div", { class: "status job" },
      element("span", {}, text), job.bar,
      button({ id: `stop-${job.what.toLowerCase()}`, class: "button small-button" }, stop, "Stop"));
  }

  /** Does work that can be stopped. Null comes of it if it was, and a fault of what can't be read. */
  async run(what, number, control, work) {
    const job = { what, number, control, part: 0 };
    const told = part => {
      job.part = part;
      if (job.bar) job.bar.value = part;
    };
    this.jobs.add(job);
    this.redrawIfShown(number);
    const found = await work(this.shelf.level(number), told, control.signal).catch(fault => ({ fault }));
    this.jobs.delete(job);
    return control.signal.aborted ? null : found;
  }

  countUnasked(number) {
    const level = this.shelf.level(number), isBusy = [...this.jobs].some(job => job.number === number);
    const isWanted = level && !this.counts.has(number) && !this.stopped.has(number);
    if (isWanted && !isBusy && !level.file.isHosted && level.file.size <= COUNTED_UNASKED_BYTES) this.count(number);
  }

  async count(number) {
    const { shelf } = this;
    const counts = await this.run("Counting", number, new AbortController(), countBoards);
    if (shelf !== this.shelf) return;
    if (counts) this.counts.set(number, counts);
    else this.stopped.add(number);
    this.redrawIfShown(number);
  }
}
return { LevelsView };
})();

const module_line_view = (() => {
// The best line from the board that is shown. It grows as it comes, and a ply that has the keyboard keeps it.

const { element, refill } = module_elements;
const { makeLinePlies } = module_plies_view;
const { plies, SIDES, signed } = module_words;

/** @typedef {import("./session.mjs").Shown} Shown */

/** More plies of a line than this are counted, and not shown. */
const MOST_PLIES_SHOWN = 400;

class LineView {
  /** What the list is of, and the list. */
  #state = null;
  #hasLetters = false;
  #list = null;

  /**
   * @param {HTMLElement} box
   * @param {{ follow: (plies: object[]) => void }} hands
   */
  constructor(box, hands) {
    this.box = box;
    this.hands = hands;
  }

  /**
   * While nothing has come, the line before stays, but faint; what was wrong with it goes.
   * @param {Shown} shown
   */
  draw(shown) {
    const line = /** @type {any} */ (shown.line), isWaiting = !line && shown.hasHints;
    this.box.setAttribute("aria-busy", String(isWaiting || Boolean(line?.isGrowing)));
    this.box.classList.toggle("waiting", isWaiting);
    if (isWaiting && this.#list) return;
    if (line && !line.fault) return this.#drawPlies(shown);
    this.#list = this.#state = null;
    const text = isWaiting ? "The line is being asked." : whyNoLine(shown);
    this.box.replaceChildren(element("p", { class: "small soft" }, text));
  }

  #drawPlies(shown) {
    const { line, state, hasLetters } = shown, list = line.plies.slice(0, MOST_PLIES_SHOWN);
    const isSame = state === this.#state && hasLetters === this.#hasLetters && this.#list.childElementCount <= list.length;
    if (!isSame) this.#list = element("ol", { class: "plies" });
    const how = { mover: state.mover, hasLetters, follow: this.hands.follow };
    this.#list.append(...makeLinePlies(list, how, this.#list.childElementCount));
    this.#list.hidden = list.length === 0;
    const told = [element("p", { class: "outcome" }, outcomeText(line, list.length, state.mover)), ...makeLineRemarks(line)];
    if (isSame) this.#list.nextElementSibling.replaceChildren(...told);
    else refill(this.box, [this.#list, element("div", {}, ...told)]);
    this.#state = state;
    this.#hasLetters = hasLetters;
  }
}

function whyNoLine({ line, weighed, hasHints }) {
  if (!hasHints) return "Hints are off.";
  return weighed?.fault ? "There is no line without the entry of this board." : `${line.fault.message}.`;
}

function outcomeText(line, shownPlies, mover) {
  if (line.isGrowing) return `${plies(line.plies.length)} so far.`;
  const gains = line.outcome === 0 ? "neither side gains"
    : `${SIDES[line.outcome > 0 ? mover : 1 - mover]} gains ${Math.abs(line.outcome)}`;
  const hidden = line.plies.length - shownPlies, more = hidden > 0 ? ` (${plies(hidden)} more)` : "";
  if (line.ended && line.plies.length === 0) return `Play has ended: ${gains}.`;
  if (line.ended) return `Play ends after ${plies(line.plies.length)}${more}: ${gains}.`;
  if (line.repeats !== null) return `From ply ${line.repeats + 1} on the play repeats for ever${more}: ${gains}.`;
  return `No capture comes any more${more}: ${gains}.`;
}

function makeLineRemarks({ outcome, value, isGrowing }) {
  if (isGrowing || outcome === value) return [];
  const text = `The plans come to ${signed(outcome)}, and the value is ${signed(value)}: the files are wrong.`;
  return [element("p", { class: "bad small", role: "alert" }, text)];
}
return { LineView };
})();

const module_more_view = (() => {
// The card by which more levels come: how many are to be built, how far the work is, and what is kept and saved.

const { byId, element, turnOff } = module_elements;
const { fileSizeOf } = module_level_file;
const { HIGHEST_BUILT } = module_library;
const { sizeOf } = module_rules;
const { plural, sizeText } = module_words;

/** @typedef {import("./library.mjs").Library} Library */

/** Building a level takes about so many bytes of memory for each of its boards, its file among them. */
const BYTES_A_BOARD = 26;
/** Up to these a click builds, in turn. */
const STEPS = [8, 10, 12];

const sum = (from, to, of) => {
  let all = 0;
  for (let number = from; number <= to; number++) all += of(number);
  return all;
};

/** What building these levels costs, in words. */
function costOf(first, top) {
  if (first > HIGHEST_BUILT) return "This page builds no more levels: the program does.";
  if (top < first) return `Levels to ${first - 1} are here.`;
  const files = sum(first, top, fileSizeOf), memory = BYTES_A_BOARD * sizeOf(top);
  const boards = plural(sum(first, top, sizeOf), "board");
  return `${boards}, ${sizeText(files)} of files, some ${sizeText(memory)} of memory.`;
}

function timeText(seconds) {
  if (seconds === null) return "";
  if (seconds < 90) return `, some ${Math.max(1, Math.round(seconds))} s left`;
  return `, some ${Math.round(seconds / 60)} minutes left`;
}

class MoreView {
  #suggested = 0;

  /** How many stones the field asks for. */
  get top() {
    const asked = Math.floor(Number(byId("build-top").value)) || 0;
    return Math.max(0, Math.min(HIGHEST_BUILT, asked));
  }

  /**
   * Draws what there is.
   * @param {Library} library
   */
  draw(library) {
    const { length, isKept } = library;
    if (!library.work) this.#suggest(STEPS.find(step => step >= length) ?? Math.min(length, HIGHEST_BUILT));
    this.drawClose(library);
    byId("save").hidden = byId("kept-told").hidden = byId("clear-kept").hidden = !library.hasBuilt;
    turnOff(byId("clear-kept"), !isKept);
    byId("kept-told").textContent = isKept
      ? `This browser keeps levels to ${length - 1}, ${sizeText(library.keptBytes)}, until you clear it.`
      : "This browser keeps nothing: save the levels as files.";
    this.drawCost(library);
    this.drawWork(library);
  }

  /**
   * Without a folder there is nothing to close. A button that has the keyboard stays until that goes on.
   * @param {Library} library
   */
  drawClose({ opened }) {
    const hasKeyboard = document.activeElement === byId("close");
    turnOff(byId("close"), opened === null);
    byId("close").hidden = opened === null && !hasKeyboard;
  }

  /** The field has the next step, unless a hand wrote something else. */
  #suggest(step) {
    if (this.#suggested === step) return;
    this.#suggested = step;
    byId("build-top").value = String(step);
  }

  /** @param {Library} library */
  drawCost({ length }) { byId("build-cost").textContent = costOf(length, this.top); }

  /** @param {Library} library */
  drawWork({ work, length }) {
    byId("build").textContent = work ? "Stop" : "Build";
    turnOff(byId("build"), !work && this.top < length);
    byId("build-top").readOnly = Boolean(work);
    byId("work").hidden = !work;
    if (!work) return byId("work").replaceChildren();
    const text = `${work.text}${timeText(work.secondsLeft)}`, bar = byId("work").querySelector("progress");
    if (!bar) byId("work").append(element("span", {}), element("progress", { max: "1", "aria-label": "Levels" }));
    byId("work").firstChild.textContent = text;
    byId("work").querySelector("progress").value = work.share;
  }
}
return { MoreView };
})();

const module_notice_view = (() => {
// What is wrong with the levels, above everything else.

const { element } = module_elements;
const { nameOf } = module_level_file;

const strongLine = (strong, text = "") => element("p", {}, element("b", {}, strong), text);

/** Faults of one number are told once, with the other files that have it. */
function faultLines({ faults }) {
  const refused = faults.filter(({ fault }) => !fault.isPassing);
  const unread = faults.filter(({ fault }) => fault.isPassing);
  return [
    ...linesOf(refused, refused.length === 1 ? "A file is refused." : `${refused.length} files are refused.`),
    ...linesOf(unread, "Not all levels could be read. They are asked for again once a board needs them."),
  ];
}

function linesOf(faults, title) {
  if (faults.length === 0) return [];
  const kinds = new Map();
  for (const each of faults) kinds.set(each.fault.number, [...kinds.get(each.fault.number) ?? [], each]);
  return [strongLine(title), element("ul", {}, ...[...kinds.values()].map(faultLine))];
}

function faultLine([first, ...others]) {
  const names = others.map(({ number }) => nameOf(number)).join(", ");
  return element("li", {}, `${first.fault.message}${names ? `. So is ${names}` : ""}.`);
}

function gapLines({ gaps }) {
  if (gaps.length === 0) return [];
  const names = gaps.map(nameOf).join(", ");
  const meaning = "Boards with so many stones have no worth here, and the program goes by none of the levels above.";
  return [strongLine("Missing: ", `${names}. ${meaning}`)];
}

/**
 * @param {HTMLElement} box
 * @param {import("./library.mjs").Library} library
 */
function drawNotice(box, { shelf, notice }) {
  const lines = [...(notice ? [strongLine(notice)] : []), ...faultLines(shelf), ...gapLines(shelf)];
  box.hidden = lines.length === 0;
  box.replaceChildren(...lines);
}
return { drawNotice };
})();

const module_sheet_view = (() => {
// A sheet of puzzles to be printed: ten boards, and on the next page their solutions.

const { byId, element } = module_elements;
const { costsOf, marginOf, pliesOf, printAsked, wordsOf } = module_puzzle;
const { print } = module_rules;
const { drawSmallBoard } = module_small_board;
const { plies, plural } = module_words;

/**
 * @typedef {{ board: import("./rules.mjs").Board, weighed: import("./worths.mjs").Weighed,
 *   line: import("./worths.mjs").Line }} Printed a puzzle, with what its moves are worth, and its line
 */

const NO_MARKS = { ring: () => "", chip: () => "" };

function makeBoard({ board, weighed: { entry } }, index) {
  const goal = `${index + 1}. South gains ${entry.value}, within ${plies(entry.distance)}`;
  return element("li", {}, element("figure", { class: "example" },
    drawSmallBoard(board, `Puzzle ${index + 1}`, NO_MARKS),
    element("figcaption", {}, element("b", {}, goal), element("span", {}, "Pit: ____"))));
}

function makeSolution({ board, weighed: { entry, moves }, line }) {
  const { right, second, greedy, thrown } = costsOf(entry.value, moves);
  const pits = line.plies.map(({ pit }) => pit).join(" ");
  return element("li", {},
    element("b", {}, `Pit ${right[0]}`), ` gains ${entry.value}. `,
    `Pit ${greedy}, which captures most, throws away ${thrown.get(greedy)}; the second best ${second}. `,
    element("span", { class: "soft" }, `The line: ${pits}${line.ended ? "." : " …"} `),
    element("code", {}, print(board)));
}

function wordsOfHardness(hardness) {
  const [least, most] = pliesOf(hardness), far = most === Infinity ? `${plies(least)} or more` : `${least} to ${plies(most)}`;
  return `a capture or the end within ${far}; the second best move throws away ${plural(marginOf(hardness), "stone")} or more`;
}

/**
 * @param {{ asked: import("./puzzle.mjs").Asked, puzzles: Printed[] }} sheet
 */
function drawSheet({ asked, puzzles }) {
  const words = wordsOf(asked, puzzles.length);
  byId("sheet-title").textContent = `${plural(puzzles.length, "puzzle")} of ${plural(asked.level, "stone")}, sheet ${asked.seed}`;
  byId("sheet-which").textContent = `In each, one pit alone keeps what South gains, and another captures more: ${wordsOfHardness(asked.hardness)}.`;
  byId("sheet-boards").replaceChildren(...puzzles.map(makeBoard));
  byId("sheet-solutions").replaceChildren(...puzzles.map(makeSolution));
  byId("sheet-source").replaceChildren(
    "This sheet is ", element("code", {}, `#${printAsked(asked, "sheet")}`),
    ...(words ? [" of the explorer, and ", element("code", {}, words), " prints its boards."] : [" of the explorer."]));
}

/** Shows the sheet in the place of the page, or the page again. */
function showSheet(isShown) {
  if (byId("sheet").hidden !== isShown) return;
  byId("sheet").hidden = !isShown;
  byId("page-grid").hidden = isShown;
  byId(isShown ? "print-sheet" : "sheet-button").focus();
}
return { drawSheet, showSheet };
})();

const module_worth_view = (() => {
// What the board that is shown is worth: a verdict and the table of moves; and what was played.

const { element, refill } = module_elements;
const { thrownBySides } = module_game;
const { pitName } = module_letters;
const { compareMoves } = module_opponent;
const { makePly } = module_plies_view;
const { endGain, isEnded, legalPits, play } = module_rules;
const { verdictOf, wordsOfMove, wordsOfToll } = module_verdict;
const { grouped, kindOf, plies, SIDES, signed } = module_words;
const { hasFault } = module_worths;

function makeVerdict(shown) {
  const { state, weighed } = shown, hasEnded = isEnded(state.board);
  const [title, text] = verdictOf(shown);
  const value = hasEnded ? endGain(state.board) : weighed?.entry?.value;
  const kind = value === undefined ? "open" : kindOf(value);
  return element("div", { class: "verdict" },
    element("div", { class: `value-box ${kind}` },
      element("span", { id: "value" }, value === undefined ? "?" : signed(value)),
      element("small", {}, `for ${SIDES[state.mover]}`)),
    element("div", {},
      element("b", {}, title),
      element("p", {}, wordsBeside(shown, text && `${text}.`))));
}

function wordsBeside({ state, weighed, hasHints, puzzle }, text) {
  if (isEnded(state.board) || weighed) return text;
  if (hasHints) return "The levels are being asked.";
  return puzzle?.isOpen ? "Hints are hidden until the puzzle is over." : "Hints are off.";
}

// ---- the table of moves ----

function makeMovesTable(shown, hands) {
  const { state: { board }, weighed, hasHints } = shown;
  const moves = weighed
    ? [...weighed.moves].sort(compareMoves)
    : legalPits(board).map(pit => play(board, pit));
  const names = ["Move", "Captures", ...(hasHints ? ["Value", "Within"] : [])];
  const heads = names.map(text => element("th", { scope: "col" }, text));
  const planHead = element("th", { scope: "col" }, element("span", { class: "unseen" }, "Plan"));
  return element("table", { id: "moves" },
    element("caption", { class: "unseen" }, hasHints ? "The legal moves, the best first" : "The legal moves"),
    element("thead", {}, element("tr", {}, ...heads, hasHints && planHead)),
    element("tbody", {}, ...moves.map(move => makeMoveRow(move, shown, hands))));
}

function makeMoveRow(move, { state: { mover }, hasHints, hasLetters }, hands) {
  const name = pitName(move.pit, mover, hasLetters), label = `Play pit ${name}, ${wordsOfMove(move, hasHints)}`;
  const playButton = element("button", { type: "button", class: "button", "aria-label": label }, `Pit ${name}`);
  const slam = element("span", { title: "A grand slam: it would take all, and takes nothing" }, "0 (slam)");
  const row = element("tr", { "data-pit": move.pit },
    element("td", {}, playButton),
    element("td", { class: "captures" }, move.isSlam ? slam : String(move.captured)),
    ...(hasHints ? makeWorthCells(move) : []));
  row.addEventListener("click", () => hands.play(move.pit));
  for (const event of ["pointerenter", "focusin"]) row.addEventListener(event, () => hands.preview(move.pit));
  for (const event of ["pointerleave", "focusout"]) row.addEventListener(event, () => hands.preview(null));
  return row;
}

function makeWorthCells(move) {
  const isKnown = move.value !== undefined && !move.fault;
  const value = isKnown
    ? element("span", { class: `value ${kindOf(move.value)}` }, signed(move.value))
    : element("span", { class: "soft" }, "?");
  return [
    element("td", {}, value),
    element("td", { class: "within" }, ...(isKnown ? withinOf(move) : [])),
    element("td", { class: "plan-mark" }, move.isPlan && "plan"),
  ];
}

/** The distance. A narrow table has no room for the word behind it. */
const withinOf = ({ distance }) => distance
  ? [grouped(distance), element("span", { class: "wide" }, distance === 1 ? " ply" : " plies")]
  : ["–"];

// ---- what is wrong with it ----

function makeRemarks({ weighed, record }) {
  const remarks = [], unknown = weighed?.moves.find(move => move.fault);
  if (weighed?.broken)
    remarks.push(element("p", { class: "status wrong", role: "alert" },
      element("b", {}, "The files are wrong here. "),
      `The entry of this board breaks rule ${weighed.broken} beside those of its moves. See `,
      element("code", {}, "awari verify FOLDER"), "."));
  if (weighed?.entry && unknown) remarks.push(element("p", { class: "small bad" }, `${unknown.fault.message}.`));
  if (record.isRepeated)
    remarks.push(element("p", { class: "small soft" },
      "This board was there before. Play that goes on for ever without a capture gains neither side anything."));
  return remarks;
}

/** Whether something stands there that tells what is not known. */
const tellsFault = box => box.dataset.fault === "true";

/**
 * While the entries are being read, what was there before stays, but faint: nothing flickers. What was not known then
 * goes at once.
 */
function drawWorth(box, shown, hands) {
  const isWaiting = !shown.weighed && !isEnded(shown.state.board) && shown.hasHints;
  const stays = isWaiting && box.childElementCount > 0 && !tellsFault(box);
  box.setAttribute("aria-busy", String(!shown.weighed && shown.hasHints));
  box.classList.toggle("waiting", stays);
  if (stays) return;
  box.dataset.fault = String(hasFault(shown.weighed));
  const hasMoves = !isEnded(shown.state.board);
  refill(box, [makeVerdict(shown), ...(hasMoves ? [makeMovesTable(shown, hands)] : []), ...makeRemarks(shown)]);
}

/** Whether the proved code says what is shown. */
function drawStanding(box, { weighed, hasHints }) {
  if (!weighed && hasHints) return; // what was there before stays, as the worth does
  box.className = `standing ${weighed?.isProved ? "proved" : ""}`;
  box.textContent = weighed?.isProved ? "by the proved code" : weighed?.entry ? "not verified" : "";
}

// ---- what was played ----

/** The moves of the play that is shown, its score, and what was thrown away. */
function drawPlayed({ card, list, score, told }, { record, state, tolls, hasLetters }, hands) {
  const { start, end, at } = record;
  card.hidden = start === end;
  const items = record.states.slice(start + 1, end + 1).map((to, offset) => {
    const index = start + 1 + offset, toll = tolls.get(to);
    const attributes = { class: index > at ? "later" : "", "aria-current": index === at && "step" };
    const ply = { label: `Go to ply ${offset + 1}`, action: () => hands.go(index), hasLetters, toll };
    return makePly(to.move, 1 - to.mover, ply, attributes);
  });
  refill(list, items, "[aria-current]");
  scrollTo(list, list.querySelector("[aria-current]"));
  score.textContent = `South ${state.captured[0]} : ${state.captured[1]} North`;
  told.textContent = thrownText(record.states.slice(start, at + 1), tolls, hasLetters);
}

/** Scrolls a list, and not the page, so that an element is in its middle. */
function scrollTo(list, element) {
  if (element) list.scrollTop = element.offsetTop - list.offsetTop - list.clientHeight / 2;
}

/** What the last of these moves cost, and what both sides threw away by all of them. */
function thrownText(states, tolls, hasLetters) {
  const { move, mover } = states.at(-1), toll = tolls.get(states.at(-1));
  if (!move || !toll) return "";
  const last = `${SIDES[1 - mover]}’s pit ${pitName(move.pit, 1 - mover, hasLetters)} ${wordsOfToll(toll)}.`;
  const [south, north] = thrownBySides(states, states.slice(1).map(state => tolls.get(state) ?? null));
  return south + north === 0 ? last : `${last} In all South threw away ${south} and North ${north}.`;
}
return { drawWorth, drawStanding, drawPlayed };
})();

const module_views = (() => {
// All that is seen of a session, and what is told to those who listen.

const { writeAddress } = module_address;
const { BoardView } = module_board_view;
const { byId, element, icon, turnOff } = module_elements;
const { LevelsView } = module_levels_view;
const { LineView } = module_line_view;
const { MoreView } = module_more_view;
const { drawNotice } = module_notice_view;
const { PuzzleView } = module_puzzle_view;
const { print, stonesOf } = module_rules;
const { drawSheet, showSheet } = module_sheet_view;
const { drawPlayed, drawStanding, drawWorth } = module_worth_view;

/** @typedef {import("./session.mjs").Shown} Shown */

const MILLISECONDS_OF_A_HINT = 3500;

/** The listener of a session. */
class Views {
  #hintTimer;
  /** Whether a hand has written in the field of the board since that was shown. */
  isWriting = false;

  /** @param {import("./session.mjs").Session} session what hands in the views act on */
  constructor(session) {
    this.board = new BoardView(byId("board"), [byId("player-upper"), byId("player-lower")], {
      press: pit => session.press(pit),
      add: (pit, stones) => session.addStones(pit, stones),
      set: (pit, stones) => session.setStones(pit, stones),
    });
    this.exampleHands = {
      showBoard: board => {
        session.setBoard(board, 0).then(() => session.sayVerdict());
        byId("board").scrollIntoView({ block: "nearest" });
      },
    };
    this.levels = new LevelsView({ card: byId("levels-card"), buttons: byId("levels"), summary: byId("summary") }, {
      showRank: (level, rank) => {
        session.showRank(level, rank);
        byId("board").scrollIntoView({ block: "nearest" });
      },
      say: text => this.say(text),
    });
    this.more = new MoreView();
    this.puzzle = new PuzzleView({ follow: plies => session.followSolution(plies) });
    this.streak = session.streak;
    this.moveHands = { play: pit => session.play(pit), preview: pit => this.board.preview(pit) };
    this.line = new LineView(byId("line"), { follow: plies => session.follow(plies) });
    this.playedHands = { go: index => session.go(index) };
  }

  // ---- telling ----

  say(text) { byId("say").textContent = text; }

  hint(text) {
    clearTimeout(this.#hintTimer);
    byId("toast").hidden = false;
    byId("toast").textContent = text;
    this.#hintTimer = setTimeout(() => { byId("toast").hidden = true; }, MILLISECONDS_OF_A_HINT);
  }

  /** Says what is wrong with the word in the field. */
  refuseWord(fault) {
    byId("word-fault").textContent = `${fault.message}.`;
    byId("word-fault").hidden = false;
    byId("word").setAttribute("aria-invalid", "true");
  }

  // ---- drawing ----

  /** @param {Shown} shown */
  drawState(shown) {
    showSheet(false);
    this.levels.forget();
    this.board.draw(shown);
    this.#drawWorthAndLine(shown);
    this.drawPlayed(shown);
    this.levels.draw(stonesOf(shown.state.board));
    this.drawPuzzle(shown);
    this.#drawWord(print(shown.state.board));
  }

  keepLink(link, isStep) { writeAddress(link, isStep); }

  /** @param {Shown} shown */
  drawPlayed(shown) {
    const parts = { card: byId("played-card"), list: byId("played"), score: byId("score"), told: byId("thrown") };
    drawPlayed(parts, shown, this.playedHands);
  }

  /** @param {Shown} shown */
  drawWorth(shown) {
    this.board.draw(shown);
    this.#drawWorthAndLine(shown);
  }

  #drawWorthAndLine(shown) {
    this.#drawControls(shown);
    drawWorth(byId("worth"), shown, this.moveHands);
    drawStanding(byId("worth-standing"), shown);
    this.line.draw(shown);
  }

  /** @param {Shown} shown */
  drawBoard(shown) {
    this.board.draw(shown);
    this.#drawControls(shown);
    byId("keep-low").checked = shown.keepsMoverBelow;
    byId("hints").checked = shown.hasHints;
    byId("letters").checked = shown.hasLetters;
    [byId("table-south").checked, byId("table-north").checked] = shown.opponent.sides;
    byId("setup").hidden = !shown.isEditing;
    for (const [id, isPressed] of [["edit", shown.isEditing], ["adds", !shown.isTaking], ["takes", shown.isTaking]])
      byId(id).setAttribute("aria-pressed", String(isPressed));
  }

  #drawControls({ record, weighed, isPlaying }) {
    for (const id of ["undo", "start"]) turnOff(byId(id), record.isFirst);
    turnOff(byId("redo"), record.isLast);
    const hasNoPlan = typeof weighed?.entry?.plan !== "number";
    turnOff(byId("best"), hasNoPlan);
    turnOff(byId("auto"), hasNoPlan && !isPlaying);
  }

  /** What is being written in the field stays. */
  #drawWord(word) {
    if (this.isWriting && document.activeElement === byId("word")) return;
    this.isWriting = false;
    byId("word").value = word;
    byId("word").removeAttribute("aria-invalid");
    byId("word-fault").hidden = true;
  }

  /** @param {Shown} shown */
  drawLine(shown) { this.line.draw(shown); }

  /** @param {Shown} shown */
  drawPuzzle(shown) { this.puzzle.draw(shown, this.streak); }

  showSheet(sheet) {
    drawSheet(sheet);
    showSheet(true);
    this.say(byId("sheet-title").textContent);
  }

  /** @param {Shown} shown */
  drawLevels(shown) {
    this.levels.update(shown.shelf);
    this.more.draw(shown.library);
    drawNotice(byId("notice"), shown.library);
    byId("folder-name").textContent = shown.library.title;
  }

  /** @param {Shown} shown */
  drawWork({ library }) { this.more.drawWork(library); }

  /** @param {Shown} shown */
  drawPlaying({ isPlaying }) {
    byId("auto").setAttribute("aria-pressed", String(isPlaying));
    const [name, text] = isPlaying ? ["pause", "Pause"] : ["play", "Play line"];
    byId("auto").replaceChildren(icon(name), element("span", {}, text));
  }
}
return { Views };
})();

const module_page = (() => {
// The page: a session, its views, and the hands that act on it.

const { readAddress } = module_address;
const { keepPage } = module_app;
const { Choices } = module_choices;
const { bindHands } = module_hands;
const { hostedFolder } = module_hosted;
const { Proved } = module_proved;
const { drawExamples } = module_rules_view;
const { Session } = module_session;
const { Streak } = module_streak;
const { Views } = module_views;

const startProved = count => new Proved(count);
const streak = new Streak(() => localStorage);

/** The session of the address. One that is wrong is told, and the first board is shown. */
function begin() {
  try {
    return { session: new Session(startProved, readAddress() || undefined, globalThis, streak), fault: null };
  } catch (fault) {
    return { session: new Session(startProved, undefined, globalThis, streak), fault };
  }
}

const { session, fault } = begin();
const views = new Views(session);
session.listener = views;
bindHands(session, views, new Choices(() => localStorage));
drawExamples(document.querySelectorAll("figure.example"), views.exampleHands);
session.stopPlaying();
session.show();
if (fault) views.hint(fault.message);

const hosted = hostedFolder(location);
session.library.isHosting = hosted !== null;
session.library.begin().then(() => {
  if (hosted) session.library.host(hosted);
  session.openAwaited();
});
keepPage();
return {  };
})();

