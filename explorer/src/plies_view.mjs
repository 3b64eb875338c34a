// @ts-check
// Moves that follow each other, a button each.

import { button, element } from "./elements.mjs";
import { pitName } from "./letters.mjs";
import { wordsOfToll } from "./verdict.mjs";
import { SIDES, signed } from "./words.mjs";

/**
 * A move as a button: its pit, what it captured, and what it threw away.
 * @param {{ pit: number, captured: number }} ply
 * @param {number} mover
 * @param {{ label: string, action: () => void, hasLetters: boolean, toll?: import("./game.mjs").Toll | null }} more
 * @param {{ class?: string, "aria-current"?: string | false }} attributes
 */
export function makePly({ pit, captured }, mover, { label, action, hasLetters, toll }, attributes = {}) {
  const side = SIDES[mover], name = pitName(pit, mover, hasLetters);
  const captures = captured ? `, captures ${captured}` : "", cost = toll?.thrown ? `, ${wordsOfToll(toll)}` : "";
  const all = {
    ...attributes,
    class: `${side.toLowerCase()} ${attributes.class ?? ""}`,
    title: toll && wordsOfToll(toll),
    "aria-label": `${label}: ${side}, pit ${name}${captures}${cost}`,
  };
  return element("li", {}, button(all, action, name,
    captured > 0 && element("small", {}, `×${captured}`),
    toll?.thrown > 0 && element("small", { class: "thrown" }, signed(-toll.thrown))));
}

/**
 * The plies of a line that this side begins, from the one with this index on. Each goes to where it leads.
 * @param {{ pit: number, captured: number }[]} list
 * @param {{ mover: number, hasLetters: boolean, follow: (plies: object[]) => void }} how
 */
export const makeLinePlies = (list, { mover, hasLetters, follow }, from = 0) => list.slice(from).map((ply, offset) =>
  makePly(ply, (mover + from + offset) % 2, {
    label: `Go to ply ${from + offset + 1} of the line`, action: () => follow(list.slice(0, from + offset + 1)), hasLetters,
  }));
