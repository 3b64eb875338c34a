// @ts-check
// Levels in a folder of the page's own server. Six bytes of a file are asked for where the server knows Range.

import { fileSizeOf, HEADER_BYTES, HIGHEST, hex, MAGIC, nameOf, NO_DIGEST } from "./level_file.mjs";
import { Fault } from "./rules.mjs";

/** If a server ignores Range, files up to this level are fetched whole. */
export const HIGHEST_WHOLE = 12;
/** So many files in a row that can't be read end the search for more. */
const MOST_UNREAD = 2;
const MAGIC_BYTES = 4;
/** What explorer/site lays beside the levels. */
const INDEX = "index.json", MOST_INDEX_BYTES = 1 << 16;
/** Besides those of 500 and more: the server asks to try again. */
const TRY_AGAIN = [408, 425, 429];

/**
 * In how many milliseconds an answer has to begin, and its bytes to come beside those that they take; how many bytes a
 * millisecond brings at least; and how long it is waited before each further try.
 */
export const patience = { request: 10_000, bytesAMillisecond: 20, pauses: [300, 1500] };

/**
 * @typedef {{ folder: URL, isAsked: boolean }} Hosted a folder of a server, and whether the address names it
 *
 * @typedef {object} Found the file of a level on a server
 * @property {number} number
 * @property {import("./level_file.mjs").Source | null} source null if it is too large to be fetched whole
 * @property {Fault | null} fault why it could not be read
 * @property {boolean} isWhole whether the server ignores Range
 * @property {boolean} isLevel whether it begins as a level does, or could not be read
 * @property {import("./shelf.mjs").Listed} [listed] what the folder's index says of it, which has not been looked at
 */

/**
 * Where the address says that levels are: `?levels=URL`, or the folder beside the page. Null from the disk.
 * @returns {Hosted | null}
 */
export function hostedFolder({ protocol, search, href }) {
  if (!/^https?:$/.test(protocol)) return null;
  const asked = new URLSearchParams(search).get("levels");
  return { folder: new URL((asked ?? "levels").replace(/\/?$/, "/"), href), isAsked: asked !== null };
}

/** A file of a server that knows Range: each slice is a request. */
class HostedFile {
  isHosted = true;

  /**
   * @param {URL} place
   * @param {number} size
   * @param {ArrayBuffer} [head] its first bytes, if they were read already
   */
  constructor(place, size, head = new ArrayBuffer(0)) {
    this.place = place;
    this.size = size;
    this.head = head;
    this.name = fileNameOf(place);
  }

  slice(from = 0, to = this.size) {
    const last = Math.min(to, this.size);
    if (last <= this.head.byteLength) return { arrayBuffer: async () => this.head.slice(from, last) };
    return { arrayBuffer: () => ask(this.place, from, last, answer => partOf(answer, this.place, from, last)) };
  }
}

const fileNameOf = place => place.pathname.split("/").at(-1);

// ---- requests ----

/** The network or the server failed at a file, which may be read later. */
function unread(place, why) {
  const fault = new Fault(68, "Read", `${fileNameOf(place)} can’t be read from the server: ${why}`);
  fault.isPassing = true;
  return fault;
}

/** What `take` makes of the answer, which has these bytes or the `whole` file. What fails is tried twice more. */
async function ask(place, from, to, take, whole = 0) {
  for (const pause of [...patience.pauses, null]) {
    try {
      return await askOnce(place, from, to, take, whole);
    } catch (fault) {
      if (!fault.isPassing || pause === null) throw fault;
      await new Promise(next => setTimeout(next, pause));
    }
  }
}

async function askOnce(place, from, to, take, whole) {
  const control = new AbortController(), headers = { Range: `bytes=${from}-${to - 1}` };
  let milliseconds = patience.request, timer = setTimeout(() => control.abort(), milliseconds);
  try {
    // a browser's cache would let parts of one file wait for each other
    const answer = await fetch(place, { headers, cache: "no-store", redirect: "manual", signal: control.signal });
    const { status, statusText } = answer;
    clearTimeout(timer);
    milliseconds += (status === 200 ? whole : to - from) / patience.bytesAMillisecond;
    timer = setTimeout(() => control.abort(), milliseconds);
    if (status >= 500 || TRY_AGAIN.includes(status)) throw unread(place, `it answers ${status} ${statusText}`.trim());
    return await take(answer);
  } catch (fault) {
    if (fault instanceof Fault) throw fault;
    throw unread(place, control.signal.aborted
      ? `it has not answered within ${Math.ceil(milliseconds / 1000)} seconds`
      : `the network fails, “${fault.message}”`);
  } finally {
    clearTimeout(timer);
    control.abort(); // of a body that nobody wants
  }
}

/** What an answer says of the part that it is: its first byte, the one behind its last, and the file's size if told. */
function rangeOf(answer) {
  const found = /^bytes (\d+)-(\d+)\/(\d+|\*)$/.exec(answer.headers.get("Content-Range") ?? "");
  if (!found) return null;
  const [first, last, size] = found.slice(1).map(Number);
  return { first, end: last + 1, size: found[3] === "*" ? null : size };
}

/** The bytes of a part, which have to be those that were asked for. */
async function partOf(answer, place, from, to) {
  const name = fileNameOf(place), range = rangeOf(answer);
  if (answer.status === 200)
    throw new Fault(68, "Read", `The server ignores Range for ${name}, and gives all of it in place of a part`);
  if (answer.status === 416) throw new Fault(60, "Truncated", `${name} ends before byte ${to}`);
  if (answer.status !== 206) throw unread(place, `it answers ${answer.status || "that it is elsewhere"}`);
  if (range?.first !== from || range.end !== Math.min(to, range.size ?? to)) throw anotherPart(answer, name);
  const bytes = await answer.arrayBuffer();
  if (bytes.byteLength !== range.end - from) throw unread(place, "a part ends too soon");
  return bytes;
}

function anotherPart(answer, name) {
  const told = answer.headers.get("Content-Range") ?? "no Content-Range";
  return new Fault(68, "Read", `The server gives another part of ${name} than was asked for: ${told}`);
}

/** The bytes of a body up to so many, so that no server fills the memory. */
async function bytesUpTo(answer, most) {
  const reader = answer.body?.getReader(), parts = [];
  for (let length = 0; reader && length < most; ) {
    const { done, value } = await reader.read();
    if (done) break;
    parts.push(value);
    length += value.length;
  }
  return new Blob(parts).arrayBuffer();
}

// ---- a folder ----

/**
 * The levels of a folder from this number up, to the first that is not there: those of its index at once if the server
 * gives parts, and else each as its header comes. Unless the address asks for levels, what does not begin as a level
 * does is not there: a server may show a page in its place.
 * @param {Hosted} hosted
 * @param {number} first
 * @returns {AsyncGenerator<Found>}
 */
export async function* hostedLevels({ folder, isAsked }, first) {
  const [index, head] = await Promise.all([indexOf(folder), headOf(folder, first)]);
  const isByParts = !head || (head.isLevel && !head.isWhole);
  if (index.length > first && isByParts) yield* index.slice(first).map(listed => foundListed(folder, listed));
  else yield* foundHeads({ folder, isAsked }, first, head);
}

/** A level as the index has it. Its file is looked at with the first entry that is asked for. */
function foundListed(folder, listed) {
  const { number, bytes } = listed, source = new HostedFile(new URL(nameOf(number), folder), bytes);
  return { number, source, fault: null, isWhole: false, isLevel: true, listed };
}

/** The levels of a folder's index, none if it has none that can be read. */
async function indexOf(folder) {
  try {
    const signal = /** @type {any} */ (AbortSignal).timeout(patience.request);
    const answer = await fetch(new URL(INDEX, folder), { cache: "no-store", signal });
    return answer.ok ? listedIn(new TextDecoder().decode(await bytesUpTo(answer, MOST_INDEX_BYTES))) : [];
  } catch {
    return [];
  }
}

/** What an index says of the levels from 0 up, to the first that it has not or that can't be so. */
export function listedIn(text) {
  const { levels } = JSON.parse(text), isSo = (each, number) => each?.number === number && number <= HIGHEST
    && each.bytes === fileSizeOf(number) && Number.isInteger(each.limit) && /^[0-9a-f]{64}$/.test(each.digest);
  const end = levels.findIndex((each, number) => !isSo(each, number));
  return (end < 0 ? levels : levels.slice(0, end)).map((each, number) =>
    ({ ...each, below: number === 0 ? NO_DIGEST : levels[number - 1].digest }));
}

/**
 * @param {Hosted} hosted
 * @param {number} first
 * @param {Found | null} head what is found under the name of the first
 */
async function* foundHeads({ folder, isAsked }, first, head) {
  let next = Promise.resolve(head);
  for (let number = first, unread = 0; number <= HIGHEST && unread < MOST_UNREAD; number++) {
    const found = await next;
    if (!found || (!found.isLevel && !isAsked)) return;
    if (found.isLevel && number < HIGHEST) next = headOf(folder, number + 1);
    unread = found.fault ? unread + 1 : 0;
    yield found;
    if (!found.isLevel) return;
  }
}

/** What is found under a level's name, null if nothing is. It never throws. */
async function headOf(folder, number) {
  const place = new URL(nameOf(number), folder), whole = number <= HIGHEST_WHOLE ? fileSizeOf(number) + 1 : MAGIC_BYTES;
  try {
    return await ask(place, 0, HEADER_BYTES, answer => foundIn(answer, place, number, whole), whole);
  } catch (fault) {
    return { number, source: new HostedFile(place, fileSizeOf(number)), fault, isWhole: false, isLevel: true };
  }
}

/** A folder without a file has many answers: it is refused, or it is elsewhere. */
async function foundIn(answer, place, number, whole) {
  const byParts = (size, isLevel, head) =>
    ({ number, source: new HostedFile(place, size, head), fault: null, isWhole: false, isLevel });
  if (answer.status === 200) {
    const bytes = await bytesUpTo(answer, whole), isLevel = beginsAsLevel(bytes);
    const source = number <= HIGHEST_WHOLE || !isLevel ? new File([bytes], nameOf(number)) : null;
    return { number, source, fault: null, isWhole: true, isLevel };
  }
  if (answer.status === 416) return byParts(0, false);
  if (answer.status !== 206) return null;
  const head = await partOf(answer, place, 0, HEADER_BYTES), size = rangeOf(answer)?.size ?? fileSizeOf(number);
  return byParts(size, beginsAsLevel(head), head);
}

const beginsAsLevel = bytes => hex(new Uint8Array(bytes.slice(0, MAGIC_BYTES))) === MAGIC;
