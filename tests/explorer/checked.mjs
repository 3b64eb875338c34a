// What the tests by node share: the program, the module, boards, and the count of what was checked.
//
//     node tests/explorer/TEST.mjs AWARI FOLDER
//
// AWARI is the program, and FOLDER has levels 0 to 12 that it built. The module is the one beside the page. A line is
// printed for each fault, and for each section.
import { spawnSync } from "node:child_process";
import { readFileSync, readdirSync } from "node:fs";
import { join } from "node:path";
import { Desk } from "../../explorer/src/desk.mjs";
import { Session } from "../../explorer/src/session.mjs";

export const [awari, folder] = process.argv.slice(2);
if (!folder) {
  console.error("node tests/explorer/TEST.mjs AWARI FOLDER");
  process.exit(2);
}

const beside = readFileSync(new URL("../../explorer/awari_module.js", import.meta.url), "utf8");
const inBase64 = /awariModule = "([^"]*)"/.exec(beside)[1];
/** The bytes of the module. */
export const module = Buffer.from(inBase64, "base64");
const MOST_FAULTS_TOLD = 20;
let passed = 0, failed = 0;

export function expect(what, found, wanted) {
  if (JSON.stringify(found) === JSON.stringify(wanted)) {
    passed += 1;
    return;
  }
  failed += 1;
  if (failed > MOST_FAULTS_TOLD) return;
  console.log(`FAILED ${what}: ${JSON.stringify(found)}, and not ${JSON.stringify(wanted)}`);
}

export async function section(name, test) {
  const before = { passed, failed };
  await test();
  console.log(`${name}: ${passed - before.passed} passed, ${failed - before.failed} failed`);
}

export function end(name) {
  console.log(`${name} by node: ${passed} passed, ${failed} failed`);
  process.exit(failed ? 1 : 0);
}

export const below = number => Math.floor(Math.random() * number);
export const run = (...words) => spawnSync(awari, words, { encoding: "utf8", maxBuffer: 1 << 28 }).stdout.trimEnd();
export const fileOf = (bytes, name) => new File([bytes], name);
export const filesIn = place => readdirSync(place).map(name => fileOf(readFileSync(join(place, name)), name));

/** A listener of a session that hears what `own` has, and nothing else. */
export const listenerOf = (own = {}) => new Proxy(own, { get: (_, name) => own[name] ?? (() => {}) });

/** What comes of a call, or its refusal as the program prints it. */
export function caught(call) {
  try {
    return call();
  } catch (fault) {
    return `refused ${fault.number} ${fault.fault}`;
  }
}

/** The proved code in place of explorer/src/proved.mjs: without a thread. */
export class Proved {
  length = 0;
  isEnded = false;
  #desk = new Desk();

  constructor(count) { this.ready = this.ask("start", inBase64, count); }

  ask(name, ...words) { return this.askTelling(() => {}, name, ...words); }

  async askTelling(told, name, ...words) {
    try {
      return await this.#desk[name](...words, told);
    } finally {
      this.length = this.#desk.length;
    }
  }

  end() { this.isEnded = true; }
}

/** A session, what it said and where it led, and a clock that rings when it is told to. */
export function sessionAt(address, streak = undefined) {
  const told = { said: "", links: [], steps: 0, sheet: null }, due = new Map();
  let timers = 0;
  const session = new Session(count => new Proved(count), address, {
    setTimeout: call => due.set(++timers, call) && timers,
    clearTimeout: timer => due.delete(timer),
  }, streak);
  session.listener = listenerOf({
    say: text => { told.said = text; },
    showSheet: sheet => { told.sheet = sheet; },
    keepLink: (link, isStep) => {
      told.links.push(link);
      told.steps += Number(isStep);
    },
  });
  const settled = () => new Promise(done => { setTimeout(done, 20); });
  const ring = async () => {
    const calls = [...due.values()];
    due.clear();
    for (const call of calls) await call();
    await settled();
  };
  return { session, told, ring, settled };
}
