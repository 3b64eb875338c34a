// @ts-check
// The address of the page, which has a link behind its #.

/** What stands behind the #, empty if nothing does. */
export const readAddress = () => location.hash.slice(1);

/** Writes a link there, unless it is there. Back leads from a step to what was shown before it. */
export function writeAddress(link, isStep) {
  if (history.state && readAddress() === link) return;
  try {
    if (isStep) history.pushState({ isStep }, "", `#${link}`);
    else history.replaceState({ isStep }, "", `#${link}`);
  } catch { /* a page without an address of its own */ }
}

/** Tells of Back and Forward among such steps, and of links that are opened. */
export function onAddress({ comeTo, openLink }) {
  addEventListener("popstate", ({ state }) => {
    const link = readAddress();
    if (link) (state ? comeTo : openLink)(link);
  });
}
