/** Folders of level files, as docs/FORMATS.md has them: what is in one, its levels read, and new ones saved. */
import { closeSync, constants, fstatSync, fsyncSync, linkSync, openSync, readFileSync, renameSync, statSync, unlinkSync, writeFileSync } from "node:fs";
import { join } from "node:path";
import { getSystemErrorMap } from "node:util";
import { HIGHEST_LEVEL, Refusal } from "./refusals.mjs";

const two = level => String(level).padStart(2, "0");

/** What the system says of an error, as `Permission denied (os error 13)`. */
export function said(error) {
  const [, about] = getSystemErrorMap().get(error.errno) ?? [error.code, error.code];
  const number = process.platform === "win32" ? error.code : `os error ${-error.errno}`;
  return `${about[0].toUpperCase()}${about.slice(1)} (${number})`;
}

/** What this does, or undefined if there is no such file. */
function unlessMissing(work) {
  try {
    return work();
  } catch (error) {
    if (error.code === "ENOENT") return undefined;
    throw error;
  }
}

/** The whole of a file that is open, which is closed then. */
function contentOf(file, level, place) {
  try {
    if (!fstatSync(file).isFile()) throw opens(level, `${place}: not a regular file`);
    return readFileSync(file);
  } catch (error) {
    if (error instanceof Refusal) throw error;
    throw Object.assign(new Refusal(81, { level }, new Refusal(68)), { beside: [`${place}: ${said(error)}`] });
  } finally {
    closeSync(file);
  }
}

/** A refusal as 82, and what is said behind its sentence. */
function opens(level, ...beside) {
  return Object.assign(new Refusal(82, { level }), { beside });
}

/** A folder of this name. `remark` is told what stands beside answers on the error stream. */
export class Folder {
  #name;
  #remark;

  constructor(name, remark) {
    this.#name = name;
    this.#remark = remark;
  }

  /** The name that it was given. */
  get name() {
    return this.#name;
  }

  #place(level, end = "") {
    return join(this.#name, `level_${two(level)}.awdb${end}`);
  }

  /** The place of a level's file as it is told. */
  #told(level, end = "") {
    return `${this.#name.replace(/\/$/, "")}/level_${two(level)}.awdb${end}`;
  }

  /** Whether there is a folder of this name; if not, that is said. */
  isThere() {
    const found = unlessMissing(() => statSync(this.#name, { throwIfNoEntry: false }));
    if (!found) this.#remark(`no such folder: ${this.#name}`);
    else if (!found.isDirectory()) this.#remark(`not a folder: ${this.#name}`);
    return Boolean(found?.isDirectory());
  }

  hasFile(level) {
    return statSync(this.#place(level), { throwIfNoEntry: false }) !== undefined;
  }

  /** The lowest level that has no file. */
  firstMissing() {
    for (let level = 0; level <= HIGHEST_LEVEL; level++) if (!this.hasFile(level)) return level;
    return HIGHEST_LEVEL + 1;
  }

  /** Says which levels are not read since one below them is missing. */
  tellLevels() {
    if (!this.isThere()) return;
    const missing = this.firstMissing(), above = [];
    for (let level = missing + 1; level <= HIGHEST_LEVEL; level++) if (this.hasFile(level)) above.push(level);
    if (above.length)
      this.#remark(`${this.#name}: level_${two(missing)}.awdb is missing; ${runs(above)} ${above.length > 1 ? "are" : "is"} not read`);
    else if (missing === 0) this.#remark(`${this.#name}: no level is there`);
  }

  /** The bytes of a level's file, undefined if it is not there. It is refused as 82 or 81. */
  bytes(level) {
    const place = this.#told(level), { O_RDONLY, O_NONBLOCK = 0 } = constants;
    let file;
    try {
      file = openSync(this.#place(level), O_RDONLY | O_NONBLOCK);
    } catch (error) {
      if (error.code === "ENOENT") return undefined;
      throw error.code === "ENOTDIR" ? opens(level) : opens(level, `${place}: ${said(error)}`);
    }
    return contentOf(file, level, place);
  }

  /**
   * Sees before any work that a build to this level can write here. A level that is there already wants no file.
   * It is refused as 82. node has no locks, so nobody else is kept from building here.
   */
  expectWritable(top) {
    const level = this.firstMissing();
    if (top < level) {
      this.#remark(`${this.#name}: files of levels 0 to ${top} are there already`);
      return;
    }
    if (!this.isThere()) throw opens(level);
    try {
      closeSync(this.#create(level));
      unlinkSync(this.#place(level, ".new"));
    } catch (error) {
      this.#remark(`${this.#told(level, ".new")}: ${said(error)}`);
      throw opens(level);
    }
  }

  /** Makes the new file of a level. One that was left over goes first, and is never written through. */
  #create(level) {
    unlessMissing(() => unlinkSync(this.#place(level, ".new")));
    return openSync(this.#place(level, ".new"), "wx");
  }

  /**
   * Saves a level's file: whole, and in the place of none. If there is a file, it has to be the same, or it is
   * refused as 85. What can't be written is refused as 81 with 70, or as 82.
   */
  save(level, bytes) {
    const found = unlessMissing(() => readFileSync(this.#place(level)));
    if (found !== undefined) {
      if (Buffer.compare(found, bytes) !== 0) throw new Refusal(85, { level });
      return;
    }
    try {
      this.#write(level, bytes);
    } catch (error) {
      this.#remark(`${this.#told(level, ".new")}: ${said(error)}`);
      throw new Refusal(81, { level }, new Refusal(70));
    }
    this.#takeName(level);
    this.#bringToDisk();
  }

  #write(level, bytes) {
    const file = this.#create(level);
    try {
      writeFileSync(file, bytes);
      fsyncSync(file);
    } catch (error) {
      unlessMissing(() => unlinkSync(this.#place(level, ".new")));
      throw error;
    } finally {
      closeSync(file);
    }
  }

  /** The new file takes its name, if no other file has taken it meanwhile. Some file systems have no links. */
  #takeName(level) {
    const fresh = this.#place(level, ".new");
    try {
      linkSync(fresh, this.#place(level));
      unlinkSync(fresh);
    } catch (error) {
      if (error.code === "EEXIST") throw new Refusal(85, { level });
      if (this.hasFile(level)) throw new Refusal(85, { level });
      renameSync(fresh, this.#place(level));
    }
  }

  /** Brings the folder to the disk, if the system can. */
  #bringToDisk() {
    try {
      const folder = openSync(this.#name, "r");
      try {
        fsyncSync(folder);
      } finally {
        closeSync(folder);
      }
    } catch {
      // the file has its name by now
    }
  }
}

/** Levels as they are told: `12 to 13, 24`. */
function runs(levels) {
  const found = [];
  for (const level of levels) {
    const run = found.at(-1);
    if (run?.last === level - 1) run.last = level;
    else found.push({ first: level, last: level });
  }
  return found.map(({ first, last }) => (first === last ? two(first) : `${two(first)} to ${two(last)}`)).join(", ");
}
