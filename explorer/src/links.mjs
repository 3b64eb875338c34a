// @ts-check
// What stands behind the # of an address: a game, the place in it that is shown, the side whose pits lie below,
// and the sides that the table plays. Nothing here knows of the page.
//
//     BOARD&mover=north&moves=502&at=1&below=north&table=both
//
// Only the board has to be there. So an address with a board alone, South to move, is as good as it ever was.

import { parse, print } from "./rules.mjs";
import { pitsOf, statesOf } from "./game.mjs";

/**
 * `at` counts the moves that were played up to what is shown.
 * @typedef {import("./game.mjs").Game & { at: number, below: number, table: boolean[] }} Link
 */

const SIDE_NAMES = ["south", "north"];
const TABLES = { south: [true, false], north: [false, true], both: [true, true] };

/** @param {Link} link */
export function printLink({ board, mover, pits, at, below, table }) {
  const played = Object.keys(TABLES).find(name => String(TABLES[name]) === String(table));
  const parts = [
    ["mover", mover && SIDE_NAMES[mover]],
    ["moves", pits.join("")],
    ["at", at < pits.length && String(at)],
    ["below", below && SIDE_NAMES[below]],
    ["table", played],
  ];
  return [print(board), ...parts.filter(([, value]) => value).map(part => part.join("="))].join("&");
}

/** What a part may be, and how it reads. */
const LINK_PARTS = {
  mover: ["“south” or “north”", text => sideNamed(text)],
  moves: ["pits, a digit each", pitsOf],
  at: ["a number of moves", text => /^\d{1,6}$/.test(text) ? Number(text) : undefined],
  below: ["“south” or “north”", text => sideNamed(text)],
  table: ["“south”, “north” or “both”", text => Object.hasOwn(TABLES, text) ? TABLES[text] : undefined],
};

function sideNamed(text) {
  const side = SIDE_NAMES.indexOf(text);
  return side < 0 ? undefined : side;
}

/**
 * Reads what `printLink` writes. A part that is left out is as in an address with a board alone.
 * @returns {Link}
 */
export function parseLink(text) {
  const [word, ...parts] = unescaped(text).split("&");
  const link = { board: parse(word), mover: 0, pits: [], at: Infinity, below: 0, table: [false, false] };
  for (const part of parts) readPart(link, part);
  statesOf(link);
  link.at = Math.min(link.at, link.pits.length);
  return link;
}

function readPart(link, part) {
  const [name, ...values] = part.split("="), value = values.join("=");
  if (!Object.hasOwn(LINK_PARTS, name))
    throw new Error(`The address has a part “${name}”. Known are ${Object.keys(LINK_PARTS).join(", ")}`);
  const [wanted, read] = LINK_PARTS[name], found = read(value);
  if (found === undefined) throw new Error(`The address has “${part}”, and ${name} is ${wanted}`);
  link[name === "moves" ? "pits" : name] = found;
}

/** Some programs write a comma or a slash of an address as %2C or %2F. */
function unescaped(text) {
  try {
    return decodeURIComponent(text);
  } catch {
    return text;
  }
}
