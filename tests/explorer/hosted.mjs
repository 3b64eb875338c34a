// Tests what the page makes of servers: of those that know Range and those that don't, of such as show a page in place
// of what they have not, and of a network that fails. The requests are answered here. checked.mjs says how.
import { readFileSync } from "node:fs";
import { join } from "node:path";
import { hostedFolder, hostedLevels, patience } from "../../explorer/src/hosted.mjs";
import { nameOf } from "../../explorer/src/level_file.mjs";
import { Library } from "../../explorer/src/library.mjs";
import { end, expect, folder, Proved, section } from "./checked.mjs";

const PLACE = "http://server.example/", TOP = 9;
const files = new Map(Array.from({ length: TOP + 1 }, (_, number) => [nameOf(number), readFileSync(join(folder, nameOf(number)))]));
const PAGE = Buffer.from("<!doctype html><title>Not here</title>".repeat(40));
globalThis.location = { origin: new URL(PLACE).origin };
Object.assign(patience, { request: 100, pauses: [1, 2] });

/** What was asked for since the last `serve`: names and ranges. */
let asked = [];

/** Answers each request by this: a name, the first and the last byte, and how often the name was asked for. */
function serve(answer) {
  asked = [];
  globalThis.fetch = async (place, { headers, signal }) => {
    const name = place.pathname.split("/").at(-1);
    if (name === "index.json") return index();
    const [, first, last] = /^bytes=(\d+)-(\d+)$/.exec(headers.Range).map(Number);
    asked.push(`${name} ${first}-${last}`);
    const times = asked.filter(it => it.startsWith(name)).length;
    return answer({ name, first, last, times, signal });
  };
}

const missing = () => new Response("none", { status: 404 });
/** What is answered for the index of the folder. */
let index = missing;
/** As explorer/site writes it. */
const listed = [...files].map(([, bytes], number) =>
  ({ number, bytes: bytes.length, limit: bytes.readUInt32BE(16), digest: bytes.subarray(-32).toString("hex") }));
const indexOf = levels => () => new Response(JSON.stringify({ levels }));
const whole = bytes => new Response(bytes);
function part(bytes, first, last, told) {
  const end = Math.min(last + 1, bytes.length), range = told !== undefined ? told : `bytes ${first}-${end - 1}/${bytes.length}`;
  return new Response(bytes.subarray(first, end), { status: 206, headers: range ? { "Content-Range": range } : {} });
}

/** A right server, which knows Range. */
const right = ({ name, first, last }) => files.has(name) ? part(files.get(name), first, last) : missing();
const never = signal => new Promise((_, refuse) => signal.addEventListener("abort", () => refuse(signal.reason)));

/** The levels of a page on this server, once all is told, and what was shown meanwhile. */
async function opened(search = "") {
  const shown = [], library = new Library(count => new Proved(count), () => shown.push(library.title), () => {});
  await library.begin();
  await library.host(hostedFolder({ protocol: "http:", search, href: PLACE }));
  await library.settled;
  return { library, shelf: library.shelf, shown, told: [library.notice, ...library.shelf.faults.map(({ fault }) => fault.message)].filter(Boolean) };
}

const standings = ({ shelf }) => shelf.slots.map(slot => slot?.standing?.[0] ?? (slot ? "!" : "-")).join("").replace(/-*$/, "");
const boardOf = stones => [stones - 3, 0, 1, 0, 0, 0, 0, 1, 0, 1, 0, 0];
const entryOf = (shelf, stones) => shelf.entry(boardOf(stones)).then(({ value }) => value, fault => `${fault.number} ${fault.message}`);
/** What the files say of these boards, by a page that has verified them. */
const values = new Map();

await section("a server that knows Range", async () => {
  serve(right);
  const page = await opened();
  expect("its levels", [standings(page), page.library.title, page.told], ["bbbbbbbuuu", "Levels to 9 of this server", []]);
  expect("each as it comes", [...new Set(page.shown.filter(title => title.endsWith("server")))], [7, 8, 9].map(top => `Levels to ${top} of this server`));
  asked = [];
  for (const stones of [7, 8, 9]) values.set(stones, await entryOf(page.shelf, stones));
  expect("six bytes each", [asked.length, asked.every(it => /^\S+ (\d+)-(\d+)$/.exec(it).slice(1).map(Number).reduce((one, other) => other - one) === 5)], [3, true]);
  expect("values", [...values.values()].every(Number.isInteger), true);
  const built = await opened();
  await built.library.build(8);
  expect("what is built here takes the place of the server's", [standings(built), await entryOf(built.shelf, 8)], ["bbbbbbbbbu", values.get(8)]);
});

await section("parts that are not those asked for", async () => {
  serve(it => it.first === 0 ? right(it) : whole(files.get(it.name) ?? PAGE));
  let page = await opened();
  expect("headers by parts and the rest whole", [standings(page), page.library.title], ["bbbbbbb!!!", "The levels of this server can’t be read"]);
  expect("it is told", page.told.every(it => /^The server ignores Range for level_0[789].awdb, and gives all of it in place of a part \(68 Read\)$/.test(it)), true);
  serve(it => it.last - it.first === 5 ? whole(files.get(it.name)) : right(it));
  page = await opened();
  expect("entries whole", await entryOf(page.shelf, 8), "68 The server ignores Range for level_08.awdb, and gives all of it in place of a part (68 Read)");
  expect("not again and again", asked.filter(it => it.startsWith("level_08")).length, 3);
  for (const told of ["bytes 0-5/191028", "bytes 0-51/191028", null, "bytes x"]) {
    serve(it => it.last - it.first === 5 ? part(files.get(it.name), it.first, it.last, told) : right(it));
    page = await opened();
    expect(`entries as ${told}`, await entryOf(page.shelf, 9),
      `68 The server gives another part of level_09.awdb than was asked for: ${told ?? "no Content-Range"} (68 Read)`);
  }
  serve(({ name, first, last }) => files.has(name) ? part(files.get(name), first, last, `bytes ${first}-${last}/*`) : missing());
  page = await opened();
  expect("a size that is not told", [standings(page), page.told], ["bbbbbbbuuu", []]);
  expect("its entries", await entryOf(page.shelf, 9), values.get(9));
  serve(it => it.last - it.first === 5 ? new Response("four", { status: 206, headers: { "Content-Range": `bytes ${it.first}-${it.last}/${files.get(it.name).length}` } }) : right(it));
  page = await opened();
  expect("a part that ends too soon", await entryOf(page.shelf, 8), "68 level_08.awdb can’t be read from the server: a part ends too soon (68 Read)");
});

await section("a server that ignores Range", async () => {
  serve(({ name }) => files.has(name) ? whole(files.get(name)) : missing());
  const page = await opened();
  expect("levels are fetched whole and verified", standings(page), "bbbbbbbvvv");
  expect("it is told", page.told, ["This server ignores Range requests: levels to 12 are fetched whole, and none above."]);
  const endless = () => new Response(new ReadableStream({ pull: control => control.enqueue(new Uint8Array(1 << 16).fill(65)) }));
  serve(it => it.name === nameOf(8) ? endless() : right(it));
  expect("a body without an end", standings(await opened()), "bbbbbbbu");
});

await section("a server that shows a page for what it has not", async () => {
  for (const [kind, other] of [["whole", whole], ["by parts", (page, first, last) => part(page, first, last)]]) {
    serve(({ first, last }) => other(PAGE, first, last));
    expect(`no levels, ${kind}`, [(await opened()).told, asked.length], [[], 1]);
    serve(it => files.has(it.name) ? right(it) : other(PAGE, it.first, it.last));
    let page = await opened();
    expect(`levels to 9, ${kind}`, [standings(page), page.told], ["bbbbbbbuuu", []]);
    serve(({ first, last }) => other(PAGE, first, last));
    page = await opened("?levels=here");
    expect(`the address asks for levels, ${kind}`, [standings(page), page.told],
      ["bbbbbbb!", ["level_07.awdb is no file of a level: it begins with 3c21646f, and not with 41574442, “AWDB” (61 Magic)"]]);
  }
  serve(missing);
  expect("no levels", [(await opened()).told, (await opened("?levels=here")).told], [[], ["/here/ has no level_07.awdb."]]);
  serve(() => new Response(null, { status: 302, headers: { Location: "/" } }));
  expect("elsewhere", (await opened()).told, []);
});

await section("a network that fails", async () => {
  const fails = { 500: () => new Response("", { status: 500, statusText: "Internal Server Error" }), 429: () => new Response("", { status: 429 }), network: () => { throw new TypeError("Failed to fetch"); }, waits: ({ signal }) => never(signal) };
  for (const [kind, fail] of Object.entries(fails)) {
    serve(it => it.times % 3 ? fail(it) : right(it));
    const page = await opened();
    expect(`${kind}: twice, and then not`, [standings(page), page.told], ["bbbbbbbuuu", []]);
    expect(`${kind}: entries`, await entryOf(page.shelf, 8), values.get(8));
  }
  let isDown = true;
  serve(it => isDown && it.name === nameOf(8) ? fails[500](it) : right(it));
  const page = await opened();
  const said = "level_08.awdb can’t be read from the server: it answers 500 Internal Server Error (68 Read)";
  expect("a level that fails", [standings(page), page.told, page.library.title], ["bbbbbbbu!u", [said], "Levels to 9 of this server"]);
  expect("its boards", await entryOf(page.shelf, 8), `68 ${said}`);
  isDown = false;
  expect("its boards once it answers", await Promise.all([entryOf(page.shelf, 8), entryOf(page.shelf, 8)]), [values.get(8), values.get(8)]);
  expect("and it is there", [standings(page), page.shelf.faults], ["bbbbbbbuuu", []]);
  serve(it => it.name === nameOf(8) && it.first > 0 ? fails[500](it) : right(it));
  expect("a digest that fails", [standings(await opened()), (await opened()).told], ["bbbbbbbu!u", [said]]);
  serve(it => it.name === nameOf(9) ? never(it.signal) : right(it));
  const slow = new Library(count => new Proved(count), () => {}, () => {});
  patience.request = 300;
  await slow.begin();
  const hosted = slow.host(hostedFolder({ protocol: "http:", search: "", href: PLACE }));
  await new Promise(next => setTimeout(next, 200));
  expect("levels are shown while another waits", [slow.title, slow.shelf.level(8)?.number], ["Levels to 8 of this server", 8]);
  await hosted;
  expect("what waits is told", slow.shelf.faults.map(({ fault }) => fault.message), ["level_09.awdb can’t be read from the server: it has not answered within 1 seconds (68 Read)"]);
  patience.request = 100;
  serve(fails[500]);
  expect("a server that is down", (await opened()).told.length, 2);
  expect("it is left alone then", [asked.length < 10, asked.some(it => it.startsWith(nameOf(10)))], [true, false]);
});

await section("a folder with an index", async () => {
  index = indexOf(listed);
  serve(right);
  let page = await opened();
  expect("its levels", [standings(page), page.library.title, page.told], ["bbbbbbbuuu", "Levels to 9 of this server", []]);
  expect("by one header", asked.filter(it => !it.startsWith("level_09")), ["level_07.awdb 0-51"]);
  expect("all at once", [...new Set(page.shown.filter(title => title.endsWith("server")))], ["Levels to 9 of this server"]);
  asked = [];
  for (const stones of [7, 8, 9, 7]) expect(`an entry of ${stones}`, await entryOf(page.shelf, stones), values.get(stones));
  const lengths = asked.map(it => /(\d+)-(\d+)$/.exec(it).slice(1).map(Number)).map(([first, last]) => last + 1 - first).sort((one, other) => one - other);
  expect("a header and a digest of each level once", lengths, [6, 6, 6, 32, 32, 32, 52, 52, 52]);
  index = indexOf(listed.map(each => each.number === 8 ? { ...each, digest: "ab".repeat(32) } : each));
  serve(right);
  page = await opened();
  expect("another digest", await entryOf(page.shelf, 8), "80 level_08.awdb is another file than the index of its folder names (80 Below)");
  expect("is told", [standings(page), page.library.shelf.faults.length], ["bbbbbbbu!u", 1]);
  expect("the one above it answers", await entryOf(page.shelf, 9), values.get(9));
  index = indexOf(listed);
  serve(it => right({ ...it, name: it.name === nameOf(8) && it.first < 60 ? nameOf(7) : it.name }));
  page = await opened();
  expect("another level under its name", await entryOf(page.shelf, 8), "67 level_08.awdb is too long: it has 453,576 bytes, and level 7 has 191,028 (67 Trailing)");
  serve(it => it.name === nameOf(9) ? missing() : right(it));
  page = await opened();
  expect("a level that the folder has not", await entryOf(page.shelf, 9), "68 level_09.awdb can’t be read from the server: it answers 404 (68 Read)");
  serve(({ name }) => files.has(name) ? whole(files.get(name)) : missing());
  expect("a server that ignores Range", standings(await opened()), "bbbbbbbvvv");
});

await section("an index that is none", async () => {
  serve(right);
  for (const [what, answer] of Object.entries({
    "a page": () => whole(PAGE), "half of it": () => new Response(JSON.stringify({ levels: listed }).slice(0, 300)), "no list": () => new Response('{"levels":7}'),
    nothing: missing, "a list of others": indexOf(["x", null]), "a list without a size": indexOf(listed.map(({ number, digest }) => ({ number, digest }))),
    "a network that fails": () => { throw new TypeError("Failed to fetch"); },
  })) {
    index = answer;
    const page = await opened();
    expect(`${what}: each level is looked for`, [standings(page), page.told], ["bbbbbbbuuu", []]);
  }
  index = indexOf(listed.slice(0, 9));
  expect("a list to 8", (await opened()).library.title, "Levels to 8 of this server");
  index = indexOf([...listed.slice(0, 8), { ...listed[8], bytes: 1 }]);
  expect("a size that can't be", (await opened()).library.title, "Levels to 7 of this server");
  index = missing;
});

await section("a hand that is quicker", async () => {
  serve(right);
  const library = new Library(count => new Proved(count), () => {}, () => {});
  await library.begin();
  const hosted = library.host(hostedFolder({ protocol: "http:", search: "", href: PLACE }));
  await library.open({ files: [new File([files.get(nameOf(7))], nameOf(7))], name: "mine" });
  await Promise.all([hosted, library.settled]);
  expect("its folder stays", [library.title, standings(library)], ["mine: 1 level, up to 7 stones", "bbbbbbbv"]);
  const found = [];
  for await (const { number } of hostedLevels(hostedFolder({ protocol: "http:", search: "", href: PLACE }), 0)) found.push(number);
  expect("all levels of a folder", found, Array.from({ length: TOP + 1 }, (_, number) => number));
});

end("servers of the explorer");
