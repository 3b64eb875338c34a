// @ts-check
// The file of a level by docs/FORMATS.md. Nothing here knows of the page.
//
// A file may have 2.5 GB. So its header and its digest are read when it is opened, and then the six bytes of each
// entry that is asked for.

import { Fault, sizeOf } from "./rules.mjs";
import { grouped } from "./words.mjs";

/**
 * @typedef {object} Source where the bytes of a level's file are: a file of the disk, or one of a server
 * @property {string} name
 * @property {number} size
 * @property {(from?: number, to?: number) => { arrayBuffer: () => Promise<ArrayBuffer> }} slice
 * @property {boolean} [isHosted] whether each slice is a request to a server
 *
 * @typedef {object} Level
 * @property {number} number
 * @property {Source} file
 * @property {number} boards
 * @property {number} limit
 * @property {string} below the digest of the file below
 * @property {string} digest
 *
 * @typedef {object} Entry what a level's file says of a board
 * @property {number} value
 * @property {number | null} plan
 * @property {number} distance
 */

export const HIGHEST = 24;
const HIGHEST_OF_VERSION = { 1: 12, 2: HIGHEST };
export const HEADER_BYTES = 52;
export const ENTRY_BYTES = 6;
export const DIGEST_BYTES = 32;
export const MAGIC = "41574442";
export const NO_DIGEST = "0".repeat(2 * DIGEST_BYTES);
const NO_PLAN = 255;
export const LAST_PIT = 5;

export const nameOf = number => `level_${String(number).padStart(2, "0")}.awdb`;
export const fileSizeOf = number => HEADER_BYTES + ENTRY_BYTES * sizeOf(number) + DIGEST_BYTES;
export const placeOf = rank => HEADER_BYTES + ENTRY_BYTES * rank;
export const hex = bytes => Array.from(bytes, byte => byte.toString(16).padStart(2, "0")).join("");

export async function bytesOf(file, from, to) {
  try {
    return new Uint8Array(await file.slice(from, to).arrayBuffer());
  } catch (fault) {
    if (fault instanceof Fault) throw fault;
    throw new Fault(68, "Read",
      `${file.name} can’t be read: it changed or went away since it was chosen. Choose it again. ${fault.name}`);
  }
}

// ---- a header ----

const versionOf = head => head[4] << 8 | head[5];
const highestOf = head => HIGHEST_OF_VERSION[versionOf(head)];
const countOf = head => new DataView(head.buffer).getBigUint64(8);

/**
 * The fields of a header in their order: its name, where it ends, and what is wrong with it, if anything.
 * @type {[string, number, (name: string, head: Uint8Array) => Fault | false | null][]}
 */
const FIELDS = [
  ["magic", 4, (name, head) => hex(head.slice(0, 4)) !== MAGIC &&
    new Fault(61, "Magic",
      `${name} is no file of a level: it begins with ${hex(head.slice(0, 4))}, and not with ${MAGIC}, “AWDB”`)],
  ["version", 6, (name, head) => !(versionOf(head) in HIGHEST_OF_VERSION) &&
    new Fault(62, "Version", `${name} has version ${versionOf(head)}; known are 1 and 2`)],
  ["level", 7, (name, head) => head[6] > highestOf(head) &&
    new Fault(63, "LevelOutOfRange",
      `${name} says that it is level ${head[6]}, and version ${versionOf(head)} has levels to ${highestOf(head)}`)],
  ["zero byte", 8, (name, head) => head[7] !== 0 &&
    new Fault(62, "Version", `${name} has ${head[7]} for its zero byte`)],
  ["count", 16, (name, head) => countOf(head) !== BigInt(sizeOf(head[6])) &&
    new Fault(64, "Count", `${name} counts ${countOf(head)} boards, and level ${head[6]} has ${sizeOf(head[6])}`)],
  ["limit", 20, () => null],
  ["digest of the file below", HEADER_BYTES, () => null],
];

function headerFaultOf(file, head) {
  for (const [field, end, faultOf] of FIELDS) {
    if (head.length < end)
      return new Fault(60, "Truncated", `${file.name} has ${file.size} bytes and ends inside its ${field}`);
    const fault = faultOf(file.name, head);
    if (fault) return fault;
  }
  return null;
}

function lengthFaultOf(file, number) {
  const due = fileSizeOf(number);
  if (file.size < due)
    return new Fault(60, "Truncated",
      `${file.name} is cut off: it has ${grouped(file.size)} bytes of ${grouped(due)}`);
  if (file.size > due)
    return new Fault(67, "Trailing",
      `${file.name} is too long: it has ${grouped(file.size)} bytes, and level ${number} has ${grouped(due)}`);
  return null;
}

/**
 * Reads the header and the digest of a level's file, and refuses it for the first field that is wrong.
 * @param {Source} file
 * @returns {Promise<Level>}
 */
export async function openLevel(file) {
  const tail = bytesOf(file, Math.max(0, file.size - DIGEST_BYTES), file.size);
  tail.catch(() => {}); // it is told once the digest is due
  const head = await bytesOf(file, 0, HEADER_BYTES);
  const headerFault = headerFaultOf(file, head);
  if (headerFault) throw headerFault;
  const number = head[6];
  const lengthFault = lengthFaultOf(file, number);
  if (lengthFault) throw lengthFault;
  if (versionOf(head) === 1)
    throw new Fault(86, "Old",
      `${file.name} is of version 1, whose distances need not be the least; awari migrate FROM TO brings it over`);
  return {
    number, file,
    boards: sizeOf(number),
    limit: new DataView(head.buffer).getUint32(16),
    below: hex(head.slice(20, HEADER_BYTES)),
    digest: hex(await tail),
  };
}

/** Whether a level has its own number and was built over the one below it, which may not be there. */
export function belowFaultOf(level, number, below) {
  if (level.number !== number)
    return new Fault(80, "Below", `${nameOf(number)} holds level ${level.number}, which its name denies`);
  const due = number === 0 ? NO_DIGEST : below?.digest;
  if (!due || level.below === due) return null;
  return new Fault(80, "Below", number === 0
    ? `${nameOf(0)} names a level below it`
    : `${nameOf(number)} was built over another ${nameOf(number - 1)} than this one`);
}

// ---- a folder ----

/** The files that have the name of a level, by its number. */
export function namedLevels(files) {
  const named = new Map();
  for (const file of files) {
    const number = Number(/^level_(\d\d)\.awdb$/.exec(file.name)?.[1] ?? NaN);
    if (!(number <= HIGHEST)) continue;
    if (named.has(number)) throw new Error(`Two files are named ${file.name}: choose one folder of levels`);
    named.set(number, file);
  }
  return named;
}

export const entryAt = (view, place) => {
  const plan = view.getUint8(place + 1);
  return { value: view.getInt8(place), plan: plan === NO_PLAN ? null : plan, distance: view.getUint32(place + 2) };
};
