// @ts-check
// The page as an app: if it came from a server, the browser keeps it and opens it with no network.

import { element } from "./elements.mjs";

/** From the disk nothing is kept. A browser keeps nothing of a server without https, but for one on its own machine. */
export async function keepPage() {
  if (!/^https?:$/.test(location.protocol)) return;
  document.head.append(
    element("link", { rel: "manifest", href: "manifest.webmanifest" }),
    element("link", { rel: "apple-touch-icon", href: "icon.png" }));
  try {
    await navigator.serviceWorker?.register("service_worker.js");
  } catch { /* the browser refuses, or the server has not that file */ }
}
