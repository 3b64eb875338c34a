// @ts-check
// The files of levels that the browser keeps until they are cleared. A browser may refuse: then it keeps none.

const STORE = "levels";

const asked = request => new Promise((done, failed) => {
  request.onsuccess = () => done(request.result);
  request.onerror = () => failed(request.error);
});

function openStore() {
  const opening = indexedDB.open("awari", 1);
  opening.onupgradeneeded = () => opening.result.createObjectStore(STORE);
  return asked(opening);
}

/** Does something to the store: what comes of it, or `otherwise` if the browser refuses. */
async function withStore(mode, otherwise, action) {
  try {
    const base = await openStore();
    return await asked(action(base.transaction(STORE, mode).objectStore(STORE))).finally(() => base.close());
  } catch {
    return otherwise;
  }
}

/**
 * The numbers of the levels that are kept.
 * @returns {Promise<number[]>}
 */
export const keptNumbers = () => withStore("readonly", [], store => store.getAllKeys());

/**
 * The file of a level that is kept.
 * @returns {Promise<Blob | null>}
 */
export const keptFile = number => withStore("readonly", null, store => store.get(number));

/**
 * Keeps the file of a level: whether the browser does.
 * @param {number} number
 * @param {Blob} file
 */
export const keepFile = async (number, file) =>
  await withStore("readwrite", null, store => store.put(file, number)) === number;

export const clearKept = () => withStore("readwrite", undefined, store => store.clear());
