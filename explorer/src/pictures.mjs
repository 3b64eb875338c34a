// @ts-check
// Numbers as pictures: columns of which one is chosen, by a finger, a mouse or the arrow keys.
//
// A picture is a slider for those who do not see it: its value is the chosen column, in words.

import { button, drawing, element } from "./elements.mjs";
import { grouped, kindOf, percent, plies, plural, signed } from "./words.mjs";

export class Picture {
  /**
   * A column is { boards, first, kind, text }: how many boards, the rank of the first of them, its colour, and
   * what they have in common. `isLogarithmic` is for numbers of which some are a thousand times as large as
   * others. `show` is given the rank of a board that is asked for.
   */
  constructor({ id, title, columns, ends, isLogarithmic = false, total, show }) {
    this.columns = columns;
    this.isLogarithmic = isLogarithmic;
    this.total = total;
    this.show = show;
    this.most = Math.max(1, ...columns.map(column => column.boards));
    // A wrong file may have none of the values that its level can have.
    this.chosen = Math.max(0, columns.findIndex(column => column.boards === this.most));
    this.bars = columns.map((column, index) => this.makeBar(column, index));
    this.plot = this.makePlot(title);
    this.readout = element("span", { class: "readout-text" });
    this.showButton = button({ class: "button small-button" }, () => this.showChosen(), "Show one");
    const endTexts = ends.map(end => element("span", {}, end));
    this.figure = element("figure", { class: "picture", id },
      element("figcaption", {}, title),
      this.plot,
      element("div", { class: "ends", "aria-hidden": "true" }, ...endTexts),
      element("p", { class: "readout" }, this.readout, this.showButton));
    this.figure.style.setProperty("--gutter", `${this.gutterWidth()}rem`);
    this.tell(this.chosen);
  }

  /** From 0 to 1. One board is seen, too. */
  heightOf(boards) {
    return this.isLogarithmic ? Math.log1p(boards) / Math.log1p(this.most) : boards / this.most;
  }

  makeBar({ boards, kind }, index) {
    const width = 1000 / this.columns.length, gap = width > 8 ? 2 : 0;
    const height = boards === 0 ? 0 : Math.max(2, 100 * this.heightOf(boards));
    return drawing("rect", {
      class: kind, x: index * width + gap / 2, y: 100 - height, width: width - gap, height,
    });
  }

  makePlot(title) {
    const plot = element("div", {
      class: "plot", role: "slider", tabindex: "0", "aria-label": title, "aria-valuemin": "0",
      "aria-valuemax": String(this.columns.length - 1),
    });
    const drawn = { viewBox: "0 0 1000 100", preserveAspectRatio: "none", "aria-hidden": "true" };
    plot.append(
      ...this.gridNumbers().map(number => this.makeGridLine(number)),
      drawing("svg", drawn, ...this.bars));
    plot.addEventListener("keydown", event => this.onKey(event));
    plot.addEventListener("pointerdown", event => this.choose(this.columnAt(event)));
    plot.addEventListener("pointermove", event => {
      if (event.buttons) this.choose(this.columnAt(event));
      else this.tell(this.columnAt(event));
    });
    plot.addEventListener("pointerleave", () => this.tell(this.chosen));
    return plot;
  }

  /** The numbers of boards at which a line is drawn: at most five of them. */
  gridNumbers() {
    const magnitude = Math.floor(Math.log10(this.most));
    return this.isLogarithmic ? this.powersOfTen(magnitude) : this.roundNumbers(10 ** magnitude);
  }

  powersOfTen(magnitude) {
    const step = Math.max(1, Math.ceil(magnitude / 4));
    return Array.from({ length: Math.floor(magnitude / step) }, (_, index) => 10 ** (step * (index + 1)));
  }

  roundNumbers(power) {
    const fits = each => Number.isInteger(each) && 2 * each <= this.most;
    const step = [5 * power, 2 * power, power, power / 2].find(fits) ?? 1;
    return Array.from({ length: Math.floor(this.most / step) }, (_, index) => step * (index + 1));
  }

  /** Room for the widest number of a line. A digit of that size is some .45rem wide. */
  gutterWidth() {
    const widest = Math.max(0, ...this.gridNumbers().map(number => grouped(number).length));
    return 0.45 * widest + 0.5;
  }

  makeGridLine(number) {
    const line = element("div", { class: "grid-line", "aria-hidden": "true" },
      element("span", {}, grouped(number)));
    line.style.bottom = `${100 * this.heightOf(number)}%`;
    return line;
  }

  columnAt({ clientX }) {
    const { left, width } = this.plot.getBoundingClientRect();
    return this.within(Math.floor((clientX - left) / width * this.columns.length));
  }

  within(index) { return Math.max(0, Math.min(index, this.columns.length - 1)); }

  onKey(event) {
    if (event.ctrlKey || event.metaKey || event.altKey) return;
    const steps = {
      ArrowLeft: -1, ArrowDown: -1, ArrowRight: 1, ArrowUp: 1, PageDown: -10, PageUp: 10,
      Home: -Infinity, End: Infinity,
    };
    if (event.key in steps) this.choose(this.within(this.chosen + steps[event.key]));
    else if (event.key === "Enter") this.showChosen();
    else return;
    event.preventDefault();
  }

  choose(index) {
    this.chosen = index;
    this.tell(index);
  }

  /** Says what a column is, without choosing it. */
  tell(index) {
    const { boards, text } = this.columns[index];
    const told = `${text}: ${plural(boards, "board")} (${percent(boards, this.total)})`;
    this.readout.textContent = told;
    this.bars.forEach((bar, each) => bar.classList.toggle("chosen", each === index));
    this.plot.setAttribute("aria-valuenow", String(index));
    this.plot.setAttribute("aria-valuetext", told);
    this.showButton.disabled = boards === 0;
    this.showButton.setAttribute("aria-label", `Show a board: ${text}`);
  }

  showChosen() {
    const { boards, first } = this.columns[this.chosen];
    if (boards > 0) this.show(first);
  }

  // ---- the two pictures of a level ----

  static ofValues(counts, show) {
    const { number, boards } = counts.level;
    const columns = counts.values.map(({ value, boards, first }) =>
      ({ boards, first, kind: kindOf(value), text: `Value ${signed(value)}` }));
    const ends = number === 0 ? ["", "0", ""] : [signed(-number), "0", signed(number)];
    return new Picture({ id: "picture-values", title: "Boards by value", columns, ends, total: boards, show });
  }

  /** Of a great limit several distances share a column, so that each is wide enough to be met. 0 stays alone. */
  static ofDistances(counts, show) {
    const MOST_COLUMNS = 100, all = counts.distances, last = all.length - 1;
    const together = Math.max(1, Math.ceil(last / MOST_COLUMNS)), columns = [Picture.joinedColumn([all[0]])];
    for (let from = 1; from <= last; from += together)
      columns.push(Picture.joinedColumn(all.slice(from, from + together)));
    const ends = last === 0 ? ["", "0", ""] : ["0", "", plies(last)];
    return new Picture({
      id: "picture-distances", title: "Boards by distance", columns, ends, isLogarithmic: true,
      total: counts.level.boards, show,
    });
  }

  static joinedColumn(distances) {
    const from = distances[0].distance, to = distances.at(-1).distance;
    const farthest = distances.findLast(({ boards }) => boards > 0);
    return {
      boards: distances.reduce((sum, { boards }) => sum + boards, 0),
      first: farthest?.first ?? 0,
      kind: "far",
      text: from === to ? `Distance ${from}` : `Distances ${from} to ${to}`,
    };
  }
}
