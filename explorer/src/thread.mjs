// @ts-check
// The thread of the proved code: each message asks the desk, and is answered by its turn.

import { Desk } from "./desk.mjs";

const desk = new Desk();

/** A refusal as plain fields, since a message carries no class. */
const plain = ({ number, kind, message, level, inner, rule, rank }) =>
  ({ number, kind, message, level, inner, rule, rank });

globalThis.onmessage = async ({ data: [turn, name, ...words] }) => {
  const told = done => postMessage({ turn, done });
  try {
    const answer = await desk[name](...words, told);
    postMessage({ turn, answer, length: desk.length });
  } catch (refusal) {
    postMessage({ turn, refusal: plain(refusal), length: desk.length });
  }
};
