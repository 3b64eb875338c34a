// @ts-check
// What is wrong with the levels, above everything else.

import { element } from "./elements.mjs";
import { nameOf } from "./level_file.mjs";

const strongLine = (strong, text = "") => element("p", {}, element("b", {}, strong), text);

/** Faults of one number are told once, with the other files that have it. */
function faultLines({ faults }) {
  const refused = faults.filter(({ fault }) => !fault.isPassing);
  const unread = faults.filter(({ fault }) => fault.isPassing);
  return [
    ...linesOf(refused, refused.length === 1 ? "A file is refused." : `${refused.length} files are refused.`),
    ...linesOf(unread, "Not all levels could be read. They are asked for again once a board needs them."),
  ];
}

function linesOf(faults, title) {
  if (faults.length === 0) return [];
  const kinds = new Map();
  for (const each of faults) kinds.set(each.fault.number, [...kinds.get(each.fault.number) ?? [], each]);
  return [strongLine(title), element("ul", {}, ...[...kinds.values()].map(faultLine))];
}

function faultLine([first, ...others]) {
  const names = others.map(({ number }) => nameOf(number)).join(", ");
  return element("li", {}, `${first.fault.message}${names ? `. So is ${names}` : ""}.`);
}

function gapLines({ gaps }) {
  if (gaps.length === 0) return [];
  const names = gaps.map(nameOf).join(", ");
  const meaning = "Boards with so many stones have no worth here, and the program goes by none of the levels above.";
  return [strongLine("Missing: ", `${names}. ${meaning}`)];
}

/**
 * @param {HTMLElement} box
 * @param {import("./library.mjs").Library} library
 */
export function drawNotice(box, { shelf, notice }) {
  const lines = [...(notice ? [strongLine(notice)] : []), ...faultLines(shelf), ...gapLines(shelf)];
  box.hidden = lines.length === 0;
  box.replaceChildren(...lines);
}
