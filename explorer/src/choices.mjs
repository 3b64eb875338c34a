// @ts-check
// What was chosen on the page, yes or no, kept by the browser. Nothing here knows of the page.

const PREFIX = "awari-explorer.";

export class Choices {
  /**
   * A page may be denied its storage; then choices last as long as the page.
   * @param {() => Storage} storage
   */
  constructor(storage) {
    this.chosen = new Map();
    try {
      this.storage = storage();
    } catch {
      this.storage = null;
    }
  }

  /** What was chosen, and `otherwise` if nothing was. */
  get(name, otherwise) {
    const kept = this.chosen.get(name) ?? this.storage?.getItem(PREFIX + name);
    return kept ? kept === "yes" : otherwise;
  }

  set(name, isChosen) {
    const kept = isChosen ? "yes" : "no";
    this.chosen.set(name, kept);
    try {
      this.storage?.setItem(PREFIX + name, kept);
    } catch { /* the storage is full */ }
  }
}
