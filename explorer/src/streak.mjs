// @ts-check
// How many puzzles were solved one after the other, now and at best. The browser alone keeps it.

const NAME = "awari-explorer.streak";

export class Streak {
  now = 0;
  best = 0;

  /**
   * A page may be denied its storage; then the streak lasts as long as the page.
   * @param {() => Storage} storage
   */
  constructor(storage) {
    try {
      this.storage = storage();
      const [now, best] = (this.storage.getItem(NAME) ?? "").split(" ").map(Number);
      if (now >= 0 && best >= now) Object.assign(this, { now, best });
    } catch {
      this.storage = null;
    }
  }

  /** @param {boolean} isSolved */
  add(isSolved) {
    this.now = isSolved ? this.now + 1 : 0;
    this.best = Math.max(this.best, this.now);
    try {
      this.storage?.setItem(NAME, `${this.now} ${this.best}`);
    } catch { /* the storage is full */ }
  }

  get text() { return this.best === 0 ? "" : `Solved in a row: ${this.now}, at best ${this.best}`; }
}
