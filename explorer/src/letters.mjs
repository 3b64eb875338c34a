// @ts-check
// The names of pits: numbers as their mover sees them, or letters that stay with the pits. Nothing here knows
// of the page.

/** South's pits and North's, each from left to right as their owner sees them. */
const LETTERS = ["ABCDEF", "abcdef"];

/** The letter of a pit that the mover numbers so. */
export const letterOf = (pit, mover) => LETTERS[pit < 6 ? mover : 1 - mover][pit % 6];

/** The name of a pit that the mover numbers so. */
export const pitName = (pit, mover, hasLetters) => hasLetters ? letterOf(pit, mover) : String(pit);
