// @ts-check
// What is found by going over a whole file: how many boards have which value and distance.
//
// A file is read in pieces, each of which takes a few milliseconds. Between two of them the page answers
// hands, so no thread of its own is needed. A scan says how far it is, and stops if its signal says so.

import { bytesOf, ENTRY_BYTES, placeOf } from "./level_file.mjs";

/** The bytes of a piece: whole entries of a level. */
export const PIECE_BYTES = ENTRY_BYTES * 64 * 1024;
/** A wrong file may have any distance. Those above this are counted together. */
const MOST_DISTANCE = 65535;
const LEAST_VALUE = -128, VALUES = 256;

/** The pieces of a file in turn. The next is being read while one is looked at. */
async function* pieces(file, from, to, signal) {
  const read = place => {
    const piece = bytesOf(file, place, Math.min(place + PIECE_BYTES, to));
    piece.catch(() => {}); // it is told once the piece is due
    return piece;
  };
  let next = read(from);
  for (let place = from; place < to; place += PIECE_BYTES) {
    const bytes = await next;
    signal?.throwIfAborted();
    if (place + PIECE_BYTES < to) next = read(place + PIECE_BYTES);
    yield { place, bytes };
  }
}

/** How many boards have which value, and which distance, and the first board of each. */
class Counts {
  constructor(level) {
    const distances = Math.min(level.limit, MOST_DISTANCE) + 1;
    this.level = level;
    this.ofValue = new Uint32Array(VALUES);
    this.firstOfValue = new Uint32Array(VALUES);
    this.ofDistance = new Uint32Array(distances);
    this.firstOfDistance = new Uint32Array(distances);
    this.greatest = 0;
    this.firstOfGreatest = 0;
  }

  add(bytes, firstRank) {
    const view = new DataView(bytes.buffer), most = this.ofDistance.length - 1;
    for (let place = 0, rank = firstRank; place < bytes.length; place += ENTRY_BYTES, rank++) {
      const value = view.getInt8(place) - LEAST_VALUE, distance = view.getUint32(place + 2);
      if (this.ofValue[value]++ === 0) this.firstOfValue[value] = rank;
      if (distance > this.greatest) {
        this.greatest = distance;
        this.firstOfGreatest = rank;
      }
      const counted = Math.min(distance, most);
      if (this.ofDistance[counted]++ === 0) this.firstOfDistance[counted] = rank;
    }
  }

  /** The values of a right level, from the least up, with their boards. */
  get values() {
    const { number } = this.level;
    return Array.from({ length: 2 * number + 1 }, (_, column) => {
      const value = column - number, index = value - LEAST_VALUE;
      return { value, boards: this.ofValue[index], first: this.firstOfValue[index] };
    });
  }

  get distances() {
    return Array.from(this.ofDistance, (boards, distance) =>
      ({ distance, boards, first: this.firstOfDistance[distance] }));
  }

  sum(isMeant) {
    return this.ofValue.reduce((sum, boards, index) => isMeant(index + LEAST_VALUE) ? sum + boards : sum, 0);
  }

  get won() { return this.sum(value => value > 0); }
  get even() { return this.sum(value => value === 0); }
  get lost() { return this.sum(value => value < 0); }
}

/**
 * @param {import("./level_file.mjs").Level} level
 * @param {(share: number) => void} told
 * @param {AbortSignal | null} signal
 */
export async function countBoards(level, told = () => {}, signal = null) {
  const counts = new Counts(level), from = placeOf(0), to = placeOf(level.boards);
  for await (const { place, bytes } of pieces(level.file, from, to, signal)) {
    counts.add(bytes, (place - from) / ENTRY_BYTES);
    told((place + bytes.length - from) / (to - from));
  }
  return counts;
}
