// @ts-check
// Numbers and names as the page writes them. Nothing here knows of the game or of the page.

/** Player 0 and player 1. Who moves first is not said: a board may be set with either to move. */
export const SIDES = ["South", "North"];

export const grouped = number => String(number).replace(/\B(?=(\d{3})+$)/g, ",");

export const plural = (number, one, many = `${one}s`) => `${grouped(number)} ${number === 1 ? one : many}`;

export const plies = number => plural(number, "ply", "plies");

export const signed = value => value > 0 ? `+${value}` : value < 0 ? `−${-value}` : "0";

/** The same for a voice, which may leave out a sign. */
export const spoken = value => value > 0 ? `plus ${value}` : value < 0 ? `minus ${-value}` : "0";

export const percent = (part, whole) => `${(100 * part / whole).toFixed(1)}%`;

export function sizeText(number) {
  if (number < 1e4) return `${grouped(number)} bytes`;
  if (number < 1e6) return `${Math.round(number / 1e3)} kB`;
  if (number < 1e9) return `${(number / 1e6).toFixed(1)} MB`;
  return `${(number / 1e9).toFixed(2)} GB`;
}

/** For whom a value is: the name of its colour, too. */
export const kindOf = value => value > 0 ? "won" : value < 0 ? "lost" : "even";
