"use strict";
// Made by explorer/make of explorer/src/service_worker.js: change those.

const VERSION = "7ebc6ef52afb46de";
// Keeps the page that came from a server, so that it opens with no network. Levels are not its matter: the page keeps
// what it built, and asks the server for others. A changed file makes another VERSION, and so another cache.

const FILES = ["index.html", "style.css", "explorer.js", "awari_module.js", "manifest.webmanifest", "icon.svg", "icon.png"];
const PREFIX = "awari-explorer ", CACHE = PREFIX + VERSION;

/** Past the browser's own cache, so that all files are of one version. */
async function keepFiles() {
  const cache = await caches.open(CACHE);
  await cache.addAll(FILES.map(name => new Request(name, { cache: "reload" })));
  await self.skipWaiting();
}

async function dropOthers() {
  const names = await caches.keys();
  await Promise.all(names.filter(name => name.startsWith(PREFIX) && name !== CACHE).map(name => caches.delete(name)));
  await self.clients.claim();
}

/** The file of the page that an address means, or null. */
function fileOf({ method, url }) {
  const place = new URL(url), scope = new URL(self.registration.scope);
  if (method !== "GET" || place.origin !== scope.origin || !place.pathname.startsWith(scope.pathname)) return null;
  const name = place.pathname.slice(scope.pathname.length) || "index.html";
  return FILES.includes(name) ? name : null;
}

async function answer(name, request) {
  const cache = await caches.open(CACHE);
  return await cache.match(name) ?? fetch(request);
}

addEventListener("install", event => {
  // parts of levels go to the server at once, in browsers that can be told so
  event.addRoutes?.({ condition: { urlPattern: new URLPattern({ pathname: "*.awdb" }) }, source: "network" }).catch(() => {});
  event.waitUntil(keepFiles());
});
addEventListener("activate", event => event.waitUntil(dropOthers()));
addEventListener("fetch", event => {
  const name = fileOf(event.request);
  if (name) event.respondWith(answer(name, event.request));
});
