// @ts-check
// The opponent: it plays for one side or for both, by what the table says. Nothing here knows of the page.

/** How long it waits, so that one sees what was played before. */
const MILLISECONDS_OF_A_REPLY = 700;

/**
 * A move with what it is worth, or why that is not known.
 * @typedef {{ pit: number, value: number, distance: number, isPlan?: boolean, fault?: Error }} WorthyMove
 */

/**
 * The order of the table of moves, the best first: by worth; then the winner hurries and the loser holds out.
 * A move whose worth is not known comes last.
 * @param {WorthyMove} one
 * @param {WorthyMove} other
 */
export function compareMoves(one, other) {
  return Number(Boolean(one.fault)) - Number(Boolean(other.fault))
    || other.value - one.value
    || (one.value > 0 ? one.distance - other.distance : other.distance - one.distance)
    || Number(Boolean(other.isPlan)) - Number(Boolean(one.isPlan))
    || one.pit - other.pit;
}

/**
 * The pit that the table plays, or null if there is none or the worth of a move is not known.
 * @param {WorthyMove[]} moves
 */
export function tableMove(moves) {
  const [first] = [...moves].sort(compareMoves);
  return first && !moves.some(({ fault }) => fault) ? first.pit : null;
}

/** It rests while one goes to and fro in a game, and goes on once a move is played by hand. */
export class Opponent {
  /** Whether it plays South, and whether it plays North. */
  sides = [false, false];
  isResting = false;
  #timer = null;

  /**
   * @param {(pit: number) => void} play
   * @param {{ setTimeout: Function, clearTimeout: Function }} clock the timers: of the page, or of a test
   */
  constructor(play, clock = globalThis) {
    this.play = play;
    this.clock = clock;
  }

  /** Whether a reply is on its way. */
  get isThinking() { return this.#timer !== null; }

  /** Whether its move comes next, now or once it has rested. */
  isDue({ mover }) { return this.sides[mover]; }

  setSides(south, north) {
    this.sides = [south, north];
    this.isResting = false;
  }

  rest() {
    this.stop();
    this.isResting = true;
  }

  wake() { this.isResting = false; }

  stop() {
    this.clock.clearTimeout(this.#timer);
    this.#timer = null;
  }

  /** Replies to the state that is shown, if it is its turn and the worths of all moves are known. */
  consider(state, moves) {
    this.stop();
    const pit = tableMove(moves);
    if (pit === null || this.isResting || !this.isDue(state)) return;
    this.#timer = this.clock.setTimeout(() => {
      this.#timer = null;
      this.play(pit);
    }, MILLISECONDS_OF_A_REPLY);
  }
}
