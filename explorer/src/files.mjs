// @ts-check
// The files that are chosen or dropped. Of a folder its own files are meant, and not those in folders inside it.

/** What an input of files has, and the name of the folder if it is one. */
export function filesOfInput(input) {
  const files = [...input.files], path = files[0]?.webkitRelativePath?.split("/") ?? [];
  const isOwn = file => !file.webkitRelativePath || file.webkitRelativePath.split("/").length === 2;
  return { files: files.filter(isOwn), name: path.length > 1 ? path[0] : "" };
}

/** What was dropped. The browser lends it until the first wait, so all is asked for before that. */
export function filesOfDrop(transfer) {
  const plain = [...transfer.files];
  const items = [...transfer.items].filter(item => item.kind === "file").map(item =>
    ({ entry: item.webkitGetAsEntry?.(), handle: item.getAsFileSystemHandle?.() }));
  const folder = items.find(({ entry }) => entry?.isDirectory);
  return folder ? ofFolder(folder) : Promise.resolve({ files: plain, name: "" });
}

/**
 * On a page that was opened from the disk Chromium reads no entries of a dropped folder, but it gives a
 * handle. Other browsers have no handles.
 */
async function ofFolder({ entry, handle }) {
  const given = await handle;
  return { files: await (given ? filesOfHandle(given) : filesOfEntry(entry)), name: entry.name };
}

async function filesOfHandle(handle) {
  const files = [];
  for await (const one of handle.values()) if (one.kind === "file") files.push(await one.getFile());
  return files;
}

/** A reader of entries gives some at a time, and none once it has given all. */
async function filesOfEntry(entry) {
  const reader = entry.createReader(), files = [];
  for (;;) {
    const some = await new Promise((done, failed) => reader.readEntries(done, failed));
    if (some.length === 0) return files;
    const asFile = one => new Promise((done, failed) => one.file(done, failed));
    files.push(...await Promise.all(some.filter(one => one.isFile).map(asFile)));
  }
}
