// @ts-check
// The proved code in a thread of its own, so that the page answers hands while it works.
//
// A page that was opened from the disk may start no thread from a file. So explorer/make puts the text of the
// thread and the bytes of the module into scripts, and the page makes a file of its own of the text.

import { Fault } from "./rules.mjs";

/** @typedef {{ awariThread: () => void, awariModule?: string }} Made what explorer/make puts beside the modules */

export class Proved {
  /** How many levels it has: of boards with fewer stones it knows the truth. */
  length = 0;
  #turn = 0;
  #waiting = new Map();
  #thread;

  /** Starts the thread, which builds so many levels at once; `ready` has their files. */
  constructor(count = 0) {
    const { awariThread, awariModule } = /** @type {Made} */ (/** @type {unknown} */ (globalThis));
    const text = new Blob([`(${awariThread})();`], { type: "text/javascript" });
    const place = URL.createObjectURL(text);
    this.#thread = new Worker(place);
    this.#thread.onmessage = ({ data }) => this.#hear(data);
    this.#thread.onerror = event => this.#fail(event.message);
    /** @type {Promise<Uint8Array[]>} */
    this.ready = awariModule === undefined
      ? Promise.reject(new Error("The module of the proved code is not beside this page"))
      : this.ask("start", awariModule, count).finally(() => URL.revokeObjectURL(place));
  }

  /**
   * Asks the desk in the thread. A refusal is thrown as a fault.
   * @returns {Promise<any>}
   */
  ask(name, ...words) { return this.askTelling(null, name, ...words); }

  /**
   * The same of work that tells how far it is.
   * @param {((done: number) => void) | null} told
   */
  askTelling(told, name, ...words) {
    const turn = this.#turn++;
    return new Promise((answered, refused) => {
      this.#waiting.set(turn, { answered, refused, told });
      this.#thread.postMessage([turn, name, ...words]);
    });
  }

  #hear({ turn, done, answer, refusal, length }) {
    const waiting = this.#waiting.get(turn);
    if (!waiting) return;
    if (done !== undefined) return waiting.told?.(done);
    this.#waiting.delete(turn);
    this.length = length;
    if (refusal) waiting.refused(Object.assign(new Fault(refusal.number, refusal.kind, refusal.message), refusal));
    else waiting.answered(answer);
  }

  #fail(text) {
    for (const { refused } of this.#waiting.values()) refused(new Error(`The proved code does not run here: ${text}`));
    this.#waiting.clear();
  }

  /** Ends the thread, whatever it does, and gives its memory back. What was asked is not answered any more. */
  end() {
    this.#thread.terminate();
    this.#fail("it was ended");
  }
}
