// @ts-check
// What hands and keys do: buttons, fields, what is pasted or dropped, and the address.

import { onAddress } from "./address.mjs";
import { byId, element, isOff } from "./elements.mjs";
import { filesOfDrop, filesOfInput } from "./files.mjs";
import { askedOfFields } from "./puzzle_view.mjs";

/**
 * @typedef {import("./session.mjs").Session} Session
 * @typedef {import("./views.mjs").Views} Views
 */

/** The address of a file that is saved stays so long. */
const MILLISECONDS_OF_A_DOWNLOAD = 60_000;
const MILLISECONDS_BETWEEN_DOWNLOADS = 200;
const KEYS = {
  n: "puzzle", b: "best", p: "auto", u: "undo", r: "redo", t: "turn", s: "swap", e: "edit", h: "hints", l: "letters",
};

const isField = target => /^(INPUT|TEXTAREA|SELECT)$/.test(target.tagName) && target.type !== "checkbox";

/**
 * @param {Session} session
 * @param {Views} views
 * @param {import("./choices.mjs").Choices} choices
 */
export function bindHands(session, views, choices) {
  const actions = actionsOf(session, views);
  for (const [id, action] of Object.entries(actions))
    byId(id).addEventListener("click", () => { if (!isOff(byId(id))) action(); });
  bindChoices(session, choices);
  bindWords(session, views);
  bindKeys(session);
  bindFiles(session, views);
  bindBuilding(session, views);
}

/** What each button does, by its name. */
function actionsOf(session, views) {
  return {
    undo: () => session.undo(),
    redo: () => session.redo(),
    start: () => session.goToStart(),
    best: () => session.play(session.plan),
    auto: () => session.togglePlaying(),
    turn: () => session.turnBoard(),
    swap: () => session.swapMover(),
    edit: () => session.setEditing(!session.shown.isEditing),
    adds: () => session.setTaking(false),
    takes: () => session.setTaking(true),
    clear: () => session.clear(),
    random: () => session.setRandomBoard(Number(byId("random-stones").value)),
    puzzle: () => session.openPuzzle(askedOfFields()),
    solution: () => session.showSolution(),
    again: () => session.tryAgain(),
    "sheet-button": () => session.openSheet(askedOfFields(), true),
    "print-sheet": () => print(),
    "close-sheet": () => session.show({ isStep: true }),
    copy: () => copy(session.word, "The board", views),
    "copy-game": () => copy(session.gameText, "The game", views),
    "copy-link": () => copy(location.href, "The link", views),
  };
}

/** What is chosen by a box, kept by the browser: whether it is at first, and what it changes. */
const BOXES = [
  { id: "keep-low", isAtFirst: false, choose: (session, isChosen) => session.keepMoverBelow(isChosen) },
  { id: "hints", isAtFirst: true, choose: (session, isChosen) => session.setHints(isChosen) },
  { id: "letters", isAtFirst: false, choose: (session, isChosen) => session.setLetters(isChosen) },
  { id: "keys-on", isAtFirst: true, choose: () => {} },
];

function bindChoices(session, choices) {
  for (const { id, isAtFirst, choose } of BOXES) {
    const box = byId(id);
    box.checked = choices.get(id, isAtFirst);
    if (box.checked !== isAtFirst) choose(session, box.checked);
    box.addEventListener("change", () => {
      choices.set(id, box.checked);
      choose(session, box.checked);
    });
  }
  const sides = [byId("table-south"), byId("table-north")];
  for (const side of sides) side.addEventListener("change", () => session.setTable(...sides.map(box => box.checked)));
}

function bindKeys(session) {
  addEventListener("keydown", event => {
    if (event.defaultPrevented || event.ctrlKey || event.metaKey || event.altKey) return;
    if (!byId("keys-on").checked || isField(event.target)) return;
    if (event.key === "Escape" && session.shown.isEditing) session.setEditing(false);
    else if (/^[0-5]$/.test(event.key) && !session.shown.isEditing) session.play(Number(event.key));
    else if (event.key === "o") session.changeTable();
    else if (event.key in KEYS) byId(KEYS[event.key]).click();
  });
}

// ---- words ----

/** Does what a text asks for, or tells what is wrong with the text. */
function attempt(show, tell) {
  try {
    show();
  } catch (fault) {
    tell(fault);
  }
}

function bindWords(session, views) {
  const tell = fault => {
    views.refuseWord(fault);
    views.hint(fault.message);
  };
  byId("word").addEventListener("input", () => { views.isWriting = true; });
  byId("word-form").addEventListener("submit", event => {
    event.preventDefault();
    views.isWriting = false; // what is shown takes its place
    attempt(() => session.showText(byId("word").value), fault => {
      views.isWriting = true;
      views.refuseWord(fault);
    });
  });
  document.addEventListener("paste", event => {
    const text = event.clipboardData?.getData("text") ?? "";
    if (!isField(event.target) && text.includes("/")) attempt(() => session.showText(text), tell);
  });
  onAddress({
    comeTo: link => attempt(() => session.comeTo(link), tell),
    openLink: link => attempt(() => session.openLink(link), tell),
  });
}

async function copy(text, name, views) {
  try {
    await navigator.clipboard.writeText(text);
  } catch {
    copyByField(text); // the older way, for pages to which the newer one is closed
  }
  views.hint(`${name} is copied`);
  views.say(`${name} is copied`);
}

function copyByField(text) {
  const field = element("textarea", { class: "unseen" }), activeElement = /** @type {any} */ (document.activeElement);
  field.value = text;
  document.body.append(field);
  field.select();
  document.execCommand("copy");
  field.remove();
  activeElement?.focus();
}

// ---- levels ----

function bindBuilding({ library }, views) {
  byId("build-form").addEventListener("submit", event => {
    event.preventDefault();
    if (library.work) library.stop();
    else if (!isOff(byId("build"))) library.build(views.more.top).then(() => views.say(library.notice ?? library.title));
  });
  byId("build-top").addEventListener("input", () => views.more.draw(library));
  byId("close").addEventListener("click", () => { if (!isOff(byId("close"))) library.close(); });
  byId("close").addEventListener("blur", () => views.more.drawClose(library));
  byId("save").addEventListener("click", () => saveFiles(library.files));
  byId("clear-kept").addEventListener("click", async () => {
    if (isOff(byId("clear-kept"))) return;
    await library.clear();
    views.hint("This browser keeps no levels any more");
    views.say("This browser keeps no levels any more");
  });
}

/** Each file comes as a download of its own. Chromium drops those that come too fast. */
async function saveFiles(files) {
  for (const file of files) {
    const link = element("a", { download: file.name, href: URL.createObjectURL(file) });
    link.click();
    setTimeout(() => URL.revokeObjectURL(link.href), MILLISECONDS_OF_A_DOWNLOAD);
    await new Promise(next => setTimeout(next, MILLISECONDS_BETWEEN_DOWNLOADS));
  }
}

// ---- files ----

function bindFiles(session, views) {
  byId("pick-whole").hidden = !("webkitdirectory" in byId("pick"));
  for (const input of [byId("pick"), byId("pick-files")])
    input.addEventListener("change", () => {
      openFiles(session, filesOfInput(input));
      input.value = ""; // so that the same folder can be chosen again
    });
  const mark = isDragging => document.body.classList.toggle("dragging", isDragging);
  addEventListener("dragover", event => {
    event.preventDefault();
    mark(true);
  });
  addEventListener("dragleave", event => { if (!event.relatedTarget) mark(false); });
  addEventListener("drop", event => {
    event.preventDefault();
    mark(false);
    filesOfDrop(event.dataTransfer)
      .then(chosen => chosen.files.length || chosen.name ? openFiles(session, chosen) : null)
      .catch(fault => views.hint(`What was dropped can’t be read: ${fault.message}`));
  });
}

async function openFiles(session, chosen) {
  await session.open(chosen);
  await session.library.settled;
  // how many choices were answered and verified, for scripts that wait for one
  document.body.dataset.opened = String(Number(document.body.dataset.opened ?? 0) + 1);
}
