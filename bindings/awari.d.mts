/** The types of awari.mjs, which says what each call answers and how it is refused. */

/** A board's word, as "1,0,0,0,0,1/1,0,1,0,0,0", or the twelve numbers of its pits. */
export type Board = string | ArrayLike<number>;

/** What the levels say of a board; the plan is null if the play has ended. */
export interface Entry {
  value: number;
  plan: number | null;
  distance: number;
}

/** What a legal pit is worth. */
export interface Move {
  pit: number;
  captures: number;
  value: number;
  distance: number;
}

/** A refusal, by the numbers and names of docs/FORMATS.md. */
export class Refused extends Error {
  constructor(number: number, more?: { level?: number; inner?: number; rule?: number; rank?: number });
  readonly number: number;
  readonly kind: string;
  readonly level: number | undefined;
  readonly inner: number | undefined;
  /** V1 to V7. */
  readonly rule: string | undefined;
  readonly rank: number | undefined;
}

/** Levels from 0 on, in a memory of their own. */
export class Levels {
  static start(module?: BufferSource | WebAssembly.Module): Promise<Levels>;
  constructor(instance: WebAssembly.Instance);
  /** The version of the module. */
  get version(): string;
  /** The digest of the sources that the module was made of, in hexadecimal. */
  get sourceId(): string;
  /** How many levels there are. */
  get length(): number;
  /** How many bytes of memory the module has taken. */
  get bytes(): number;
  add(file: ArrayBufferLike | ArrayBufferView): void;
  begin(): void;
  spread(boards?: number): { boards: number; gain: number; settled: boolean };
  finish(): Uint8Array;
  build(): Uint8Array;
  entry(board: Board): Entry;
  value(board: Board): number;
  probeMany(boards: Board[]): Entry[];
  moves(board: Board): Move[];
  line(board: Board): { moves: number[]; outcome: number };
  longestLine(board: Board): number[];
  counts(level: number): { won: number; even: number; lost: number; limit: number };
  entryIn(file: ArrayBufferLike | ArrayBufferView, board: Board): Entry;
  movesIn(files: (ArrayBufferLike | ArrayBufferView)[], board: Board): Move[];
  check(file: ArrayBufferLike | ArrayBufferView, below: ArrayBufferLike | ArrayBufferView): Uint8Array;
  /** What a number that was answered means, for a person. */
  sentence(number: number): string;
  legal(board: Board): number[];
  play(board: Board, pit: number): { board: number[]; captures: number };
  rank(board: Board): { level: number; rank: number };
  board(level: number, rank: number): number[];
  size(level: number): number;
  /** The same levels in an object of their own. */
  share(): Levels;
  close(): void;
}
