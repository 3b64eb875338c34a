/**
 * Awari's endgame levels for node and for pages, by the module that `release/page/make` makes of proved code.
 *
 *     import { Levels } from "./awari.mjs";
 *     const levels = await Levels.start();
 *     while (levels.length < 9) levels.build();
 *     console.log(levels.entry("1,0,0,0,0,1/1,0,1,0,0,0"));
 *
 * A board is its word, or the twelve numbers of its pits. Levels are built here, or verified when they are put
 * on, so what is said of a board is right as far as the module is what the proof is of: docs/GUARANTEES.md says
 * what stands between. A refusal is a `Refused`, with the number and the name of docs/FORMATS.md. Nothing is
 * read but the module, and nothing is sent.
 *
 * @typedef {string | ArrayLike<number>} Board
 * @typedef {{ value: number, plan: number | null, distance: number }} Entry
 * @typedef {{ pit: number, captures: number, value: number, distance: number }} Move
 */

const PITS = 12;
const HIGHEST_LEVEL = 24;
const MOST_STONES = 48;
const NO_PLAN = 255;
const HANDLE_BYTES = 16;
const ENTRY_BYTES = 8;
const MOVE_BYTES = 8;
const DIGEST_BYTES = 32;
/** A file of `awari.h`: its place and its length. */
const FILE_BYTES = 16;
/** Room for what a call writes, two digests or less. */
const OUT_BYTES = 64;
/** A slice of this many boards takes some 50 milliseconds. */
const SLICE = 100_000;

const NAMES = {
  1: "Shape", 2: "Number", 3: "TooMany", 4: "NoPit", 5: "EmptyPit", 6: "MustFeed", 7: "Ended", 20: "WrongLevel",
  21: "WrongSize", 22: "Refused", 51: "TooHigh", 53: "Memory", 59: "NotYet", 60: "Truncated", 61: "Magic",
  62: "Version", 63: "LevelOutOfRange", 64: "Count", 65: "EntryForm", 66: "Digest", 67: "Trailing", 70: "Write",
  80: "Below", 81: "File", 83: "Verify", 84: "Memory", 86: "Old", 93: "NoRank",
};

/** A refusal: its `number` and `kind`, and what is told beside it, as the level and the rank of a wrong board. */
export class Refused extends Error {
  constructor(number, { level, inner, rule, rank } = {}) {
    const words = [number, NAMES[number]];
    if (level !== undefined) words.push("level", level);
    if (inner) words.push(":", inner, NAMES[inner]);
    if (rule) words.push("rank", rank, "rule", `V${rule}`);
    super(words.join(" ").replace(" :", ":"));
    this.number = number;
    this.name = "Refused";
    this.kind = NAMES[number];
    this.level = level;
    this.inner = inner || undefined;
    this.rule = rule ? `V${rule}` : undefined;
    this.rank = rule ? rank : undefined;
  }
}

function expect(answer) {
  if (answer !== 0) throw new Refused(answer);
}

/** The entry that lies there. */
function entryAt(view, at) {
  const plan = view.getUint8(at + 1);
  return { value: view.getInt8(at), plan: plan === NO_PLAN ? null : plan, distance: view.getUint32(at + 4, true) };
}

/** The bytes of a buffer or of a view of one, where they lie. */
function bytesOf(file) {
  if (ArrayBuffer.isView(file)) return new Uint8Array(file.buffer, file.byteOffset, file.byteLength);
  const [, kind] = /^\[object (\w+)\]$/.exec(Object.prototype.toString.call(file));
  if (kind === "ArrayBuffer" || kind === "SharedArrayBuffer") return new Uint8Array(file);
  throw new TypeError(`The bytes of a file are an ArrayBuffer or a view of one, as a Uint8Array, and this is of the kind ${kind}`);
}

/** The module that lies beside this file. */
async function shipped() {
  const place = new URL("awari.wasm", import.meta.url);
  if (place.protocol !== "file:") return (await fetch(place)).arrayBuffer();
  const { readFile } = await import("node:fs/promises");
  return readFile(place);
}

/** Levels from 0 on, in a memory of their own. */
export class Levels {
  #calls;
  #handle;
  #pits;
  #out;

  /**
   * No level yet, by the module of these bytes, or by this one, or by the one beside this file.
   * @param {BufferSource | WebAssembly.Module} [module]
   */
  static async start(module) {
    const made = await WebAssembly.instantiate(module ?? (await shipped()), {});
    return new Levels(made instanceof WebAssembly.Instance ? made : made.instance);
  }

  /** By an instance of the module; `start` makes one. */
  constructor(instance) {
    this.#calls = instance.exports;
    this.#handle = this.#room(HANDLE_BYTES);
    this.#pits = this.#room(PITS);
    this.#out = this.#room(OUT_BYTES);
    this.#bytes(this.#handle, HANDLE_BYTES).fill(0);
  }

  /** The version of the module. */
  get version() {
    const number = this.#calls.awari_version();
    return [10000, 100, 1].map(part => Math.floor(number / part) % 100).join(".");
  }

  /** The digest of the sources that the module was made of, in hexadecimal. */
  get sourceId() {
    this.#calls.awari_source_text(this.#out);
    return this.#lentText();
  }

  /** How many levels there are. Boards with fewer stones can be looked up. */
  get length() {
    return this.#calls.awari_levels(this.#handle);
  }

  /** How many bytes of memory the module has taken. It gives none back to the system. */
  get bytes() {
    return this.#calls.memory.buffer.byteLength;
  }

  /**
   * Verifies the bytes of a file, and puts its level on. It is refused as 80, 81, 83, 84 or 86.
   * @param {ArrayBufferLike | ArrayBufferView} file
   */
  add(file) {
    const answer = this.#lend(bytesOf(file), (place, length) =>
      this.#calls.awari_add_level(this.#handle, place, length, this.#out));
    if (answer === 0) return;
    const told = this.#view(8);
    throw new Refused(answer, answer === 84 ? {} : {
      level: told.getUint8(0), inner: told.getUint8(1), rule: told.getUint8(2), rank: told.getUint32(4, true),
    });
  }

  /** Begins the next level, in place of one that was begun. It is refused as 51 or 53. */
  begin() {
    expect(this.#calls.awari_begin(this.#handle));
  }

  /**
   * Builds a slice of the level that was begun: spreads about this many boards of one distance, or opens a gain.
   * It is refused as 59 if no level was begun, and as 53, and then the level is lost.
   * @returns {{ boards: number, gain: number, settled: boolean }} how many boards of the level are settled and were
   * spread so far, the gain that is open, and whether all gains are closed
   */
  spread(boards = SLICE) {
    expect(this.#calls.awari_spread(this.#handle, BigInt(boards), this.#out));
    const told = this.#view(16);
    return { boards: Number(told.getBigUint64(0, true)), gain: told.getUint8(8), settled: told.getUint8(9) === 1 };
  }

  /**
   * Puts the level on that was begun and whose gains are all closed. It is refused as 59 or 53.
   * @returns {Uint8Array} the bytes of its file
   */
  finish() {
    const level = this.length;
    const length = 84 + 6 * this.size(Math.min(level, HIGHEST_LEVEL));
    const place = this.#room(length);
    try {
      expect(this.#calls.awari_finish(this.#handle, place, BigInt(length)));
      return this.#bytes(place, length).slice();
    } finally {
      this.#calls.page_free(place);
    }
  }

  /**
   * Builds the next level and puts it on. It is refused as 51 or 53.
   * @returns {Uint8Array} the bytes of its file
   */
  build() {
    this.begin();
    while (!this.spread().settled);
    return this.finish();
  }

  /**
   * What the levels say of a board. It is refused as 1 to 3 or 59.
   * @param {Board} board
   * @returns {Entry}
   */
  entry(board) {
    expect(this.#calls.awari_probe(this.#handle, this.#board(board), this.#out));
    return entryAt(this.#view(ENTRY_BYTES), 0);
  }

  /**
   * The value of a board alone, which is less to read. It is refused as `entry` is.
   * @param {Board} board
   * @returns {number}
   */
  value(board) {
    expect(this.#calls.awari_probe_value(this.#handle, this.#board(board), this.#out));
    return this.#view(1).getInt8(0);
  }

  /**
   * What the levels say of many boards, in one call. It is refused as `entry` is of the first that is refused.
   * @param {Board[]} boards
   * @returns {Entry[]}
   */
  probeMany(boards) {
    const count = boards.length, place = this.#room((PITS + ENTRY_BYTES) * count);
    const entries = place + BigInt(PITS * count);
    try {
      boards.forEach((board, at) => {
        const pits = this.#bytes(this.#board(board), PITS);
        this.#bytes(place + BigInt(PITS * at), PITS).set(pits);
      });
      expect(this.#calls.awari_probe_many(this.#handle, place, BigInt(count), entries, BigInt(count), this.#out));
      const told = new DataView(this.#calls.memory.buffer, Number(entries), ENTRY_BYTES * count);
      return boards.map((_, at) => entryAt(told, ENTRY_BYTES * at));
    } finally {
      this.#calls.page_free(place);
    }
  }

  /**
   * What each legal pit is worth. It is refused as `entry` is.
   * @param {Board} board
   * @returns {Move[]}
   */
  moves(board) {
    expect(this.#calls.awari_probe_moves(this.#handle, this.#board(board), this.#out));
    return this.#legalMoves();
  }

  /**
   * The play by the plans of both sides, up to its first outcome. It is refused as `entry` is, or as 84.
   * @param {Board} board
   * @returns {{ moves: number[], outcome: number }}
   */
  line(board) {
    const outcome = this.entry(board).value;
    return { moves: this.#moves(board, this.#calls.awari_line), outcome };
  }

  /**
   * The play in which the side that gains follows its plans, and the other holds out as long as it can. It is
   * refused as `line` is.
   * @param {Board} board
   * @returns {number[]}
   */
  longestLine(board) {
    return this.#moves(board, this.#calls.awari_longest_line);
  }

  /**
   * How many boards of a level are won, even and lost for the mover, and the greatest distance of its boards.
   * It is refused as 59.
   * @returns {{ won: number, even: number, lost: number, limit: number }}
   */
  counts(level) {
    if (!Number.isInteger(level) || level < 0 || level > HIGHEST_LEVEL) throw new Refused(59);
    expect(this.#calls.awari_counts(this.#handle, level, this.#out));
    const told = this.#view(16);
    const [won, even, lost, limit] = [0, 4, 8, 12].map(at => told.getUint32(at, true));
    return { won, even, lost, limit };
  }

  /**
   * What the file of a board's level says of it. Nothing is verified: it is right if these bytes were. It is refused
   * as 1 to 3, as 59 for more than 24 stones, and as 20, 60 or 67 if the file of that level has another length.
   * @param {ArrayBufferLike | ArrayBufferView} file
   * @param {Board} board
   * @returns {Entry}
   */
  entryIn(file, board) {
    const pits = this.#board(board);
    expect(this.#lend(bytesOf(file), (place, length) => this.#calls.awari_probe_file(place, length, pits, this.#out)));
    return entryAt(this.#view(ENTRY_BYTES), 0);
  }

  /**
   * What each legal pit is worth by the files of levels 0, 1 and so on. It is refused as `entryIn` is, of the first
   * file up to the board's level that has another length.
   * @param {(ArrayBufferLike | ArrayBufferView)[]} files
   * @param {Board} board
   * @returns {Move[]}
   */
  movesIn(files, board) {
    const pits = this.#board(board), table = this.#room(FILE_BYTES * files.length);
    try {
      expect(this.#lendAll(files, table, () =>
        this.#calls.awari_probe_moves_files(table, BigInt(files.length), pits, this.#out)));
      return this.#legalMoves();
    } finally {
      this.#calls.page_free(table);
    }
  }

  /**
   * Whether these bytes are a level's file over the one that ends in the digest `below`, 32 zeros for level 0. Form,
   * digest and chain are judged, and not the entries. It is refused as 60 to 67, 80, 84 or 86.
   * @param {ArrayBufferLike | ArrayBufferView} file
   * @param {ArrayBufferLike | ArrayBufferView} below
   * @returns {Uint8Array} the digest in which they end
   */
  check(file, below) {
    const given = bytesOf(below), digest = this.#out + BigInt(DIGEST_BYTES);
    if (given.length !== DIGEST_BYTES)
      throw new TypeError(`A digest has ${DIGEST_BYTES} bytes, and this has ${given.length}`);
    this.#bytes(this.#out, DIGEST_BYTES).set(given);
    expect(this.#lend(bytesOf(file), (place, length) => this.#calls.awari_check_file(place, length, this.#out, digest)));
    return this.#bytes(digest, DIGEST_BYTES).slice();
  }

  /** The sentence for a person that belongs to a number that was answered. Every number has one. */
  sentence(number) {
    this.#calls.awari_text_of(number & 255, this.#out);
    return this.#lentText();
  }

  /** The text that was lent, without the zero byte behind it. */
  #lentText() {
    const told = this.#view(16), [place, length] = [0, 8].map(at => Number(told.getBigUint64(at, true)));
    return new TextDecoder().decode(this.#bytes(place, length - 1));
  }

  /**
   * The pits that can be played, ascending. It is refused as 1 to 3.
   * @param {Board} board
   * @returns {number[]}
   */
  legal(board) {
    const place = this.#board(board);
    if (this.#bytes(place, PITS).reduce((sum, stones) => sum + stones) > MOST_STONES) throw new Refused(3);
    const legal = this.#calls.awari_legal(place);
    return [0, 1, 2, 3, 4, 5].filter(pit => (legal >> pit) & 1);
  }

  /**
   * The board that a move leaves, as the other player sees it, and what it captures. It is refused as 1 to 7.
   * @param {Board} board
   */
  play(board, pit) {
    if (!Number.isInteger(pit) || pit < 0 || pit > 255) throw new Refused(4);
    expect(this.#calls.awari_play(this.#board(board), pit, this.#out, this.#out + BigInt(PITS)));
    const told = this.#bytes(this.#out, PITS + 1);
    return { board: [...told.slice(0, PITS)], captures: told[PITS] };
  }

  /**
   * The level and the rank of a board. It is refused as 1 to 3 or 59.
   * @param {Board} board
   */
  rank(board) {
    expect(this.#calls.awari_rank(this.#board(board), this.#out, this.#out + 4n));
    const told = this.#view(8);
    return { level: told.getUint8(0), rank: told.getUint32(4, true) };
  }

  /** The board of a rank, twelve numbers. It is refused as 59 or 93. */
  board(level, rank) {
    if (!Number.isInteger(level) || level < 0 || level > HIGHEST_LEVEL) throw new Refused(59);
    if (!Number.isInteger(rank) || rank < 0 || rank >= this.size(level)) throw new Refused(93);
    expect(this.#calls.awari_board(level, rank, this.#out));
    return [...this.#bytes(this.#out, PITS)];
  }

  /** How many boards a level has, 0 if there is no such level. */
  size(level) {
    if (!Number.isInteger(level) || level < 0 || level > HIGHEST_LEVEL) return 0;
    return this.#calls.awari_size(level) >>> 0;
  }

  /**
   * The same levels in an object of their own, which is closed by itself; a level that was begun is not shared. None
   * is copied. It is refused as 84.
   * @returns {Levels}
   */
  share() {
    const shared = new Levels({ exports: this.#calls });
    expect(this.#calls.awari_share_with(this.#handle, shared.#handle));
    return shared;
  }

  /** Forgets all levels, and one that was begun. */
  close() {
    this.#calls.awari_close(this.#handle);
  }

  /** The moves that a call told, without the pits that can't be played. */
  #legalMoves() {
    const told = this.#view(6 * MOVE_BYTES);
    return [0, 1, 2, 3, 4, 5].map(pit => ({ pit, at: MOVE_BYTES * pit })).filter(({ at }) => told.getUint8(at))
      .map(({ pit, at }) => ({
        pit, captures: told.getUint8(at + 1), value: told.getInt16(at + 2, true), distance: told.getUint32(at + 4, true),
      }));
  }

  /** The pits of a line. It is asked for again where it has more moves than there was room for. */
  #moves(board, lineOf) {
    for (let room = 1024; ; ) {
      const place = this.#room(room);
      try {
        expect(lineOf(this.#handle, this.#board(board), place, BigInt(room), this.#out));
        const count = Number(this.#view(8).getBigUint64(0, true));
        if (count <= room) return [...this.#bytes(place, count)];
        room = count;
      } finally {
        this.#calls.page_free(place);
      }
    }
  }

  /** Lays a board where the module reads it, and says where. */
  #board(board) {
    if (typeof board === "string") {
      const answer = this.#lend(new TextEncoder().encode(board), (place, length) =>
        this.#calls.awari_parse(place, length, this.#pits));
      expect(answer);
    } else {
      const pits = Array.from(board);
      if (pits.length !== PITS) throw new Refused(1);
      if (!pits.every(stones => Number.isInteger(stones) && stones >= 0 && stones < 256)) throw new Refused(2);
      this.#bytes(this.#pits, PITS).set(pits);
    }
    return this.#pits;
  }

  /** Calls with bytes that lie in the module's memory meanwhile. */
  #lend(bytes, call) {
    const place = this.#room(bytes.length);
    try {
      this.#bytes(place, bytes.length).set(bytes);
      return call(place, BigInt(bytes.length));
    } finally {
      this.#calls.page_free(place);
    }
  }

  /** Calls with files that lie in the module's memory meanwhile, each with its place and its length in the table. */
  #lendAll(files, table, call, at = 0) {
    if (at === files.length) return call();
    return this.#lend(bytesOf(files[at]), (place, length) => {
      const told = new DataView(this.#calls.memory.buffer, Number(table) + FILE_BYTES * at, FILE_BYTES);
      told.setBigUint64(0, place, true);
      told.setBigUint64(8, length, true);
      return this.#lendAll(files, table, call, at + 1);
    });
  }

  #room(bytes) {
    const place = this.#calls.page_alloc(BigInt(bytes));
    if (place === 0n) throw new Refused(84);
    return place;
  }

  /** The bytes of a place. They move when the memory grows, so nobody keeps them. */
  #bytes(place, length) {
    return new Uint8Array(this.#calls.memory.buffer, Number(place), length);
  }

  #view(length) {
    return new DataView(this.#calls.memory.buffer, Number(this.#out), length);
  }
}

// `node bindings/awari.mjs COMMAND ..` is the program in brief. A page starts no script.
if (globalThis.process?.argv?.[1]?.endsWith("awari.mjs"))
  import("./node/program.mjs").then(({ start }) => start(import.meta.url));
