// The files that were dropped, those of folders too; and the shelf among them.
import { ShelfRefused, partFileOf } from '../../js/shelf.js';

// No folder with more files is read.
const MOST_FILES = 20_000;

// The files of a folder, by a handle of it: Chromium has them, also for a page that is a file itself.
async function filesOfHandle(folder) {
  const files = [];
  for await (const it of folder.values()) {
    if (it.kind === 'file') files.push(await it.getFile());
    if (files.length > MOST_FILES) break;
  }
  return files;
}

// The same by an entry of it, which come some at a time: other browsers have them.
async function filesOfEntry(folder) {
  const reader = folder.createReader();
  const files = [];
  for (;;) {
    const some = await new Promise((done, not) => reader.readEntries(done, not));
    if (some.length === 0 || files.length > MOST_FILES) return files;
    for (const it of some) if (it.isFile) files.push(await new Promise((done, not) => it.file(done, not)));
  }
}

// Each file of what was dropped, with its path; of a folder those that are in it, and none further down.
export async function filesIn(transfer) {
  // All of it is there only while the event is handled, so it is asked for at once.
  const items = Array.from(transfer.items).filter((item) => item.kind === 'file');
  const dropped = items.map((item) => {
    const [entry, file] = [item.webkitGetAsEntry?.(), item.getAsFile()];
    return { entry, file, handle: entry?.isDirectory ? item.getAsFileSystemHandle?.() : undefined };
  });
  const files = [];
  for (const { entry, file, handle } of dropped) {
    if (!entry?.isDirectory) {
      if (file) files.push({ path: file.name, name: file.name, file });
      continue;
    }
    try {
      const inside = handle ? await filesOfHandle(await handle) : await filesOfEntry(entry);
      files.push(...inside.map((it) => ({ path: `${entry.name}/${it.name}`, name: it.name, file: it })));
    } catch {
      // Not every browser lets a page that is a file itself read a folder: the folder stands for itself, and can't be read.
      if (file) files.push({ path: entry.name, name: entry.name, file });
    }
  }
  return files;
}

// The shelf among files: those beside a file called 'shelf', with its name, and the others, which are its book and what was dropped beside it. Undefined where there is none.
export function shelfIn(files, most) {
  const settings = files.find(({ name }) => name === 'shelf');
  if (!settings) return undefined;
  const folder = settings.path.slice(0, -'shelf'.length);
  const beside = files.filter(({ path, name }) => path === folder + name);
  const own = (name) => name === 'shelf' || name === 'list' || name.startsWith('part-');
  const read = (file) => async () => {
    const part = partFileOf(file.name)?.part ?? null;
    if (file.size > most) throw new ShelfRefused(1, part, `its file has ${file.size} bytes, and no store has more than ${most}`);
    try {
      return new Uint8Array(await file.arrayBuffer());
    } catch {
      throw new ShelfRefused(3, part, 'its file can’t be read any more: drop it again');
    }
  };
  return {
    name: folder.replace(/\/$/, '').split('/').at(-1) || 'What was dropped',
    files: beside.filter(({ name }) => own(name)).map(({ name, file }) => ({ name, read: read(file) })),
    // In the folder itself the list's book is the one; other files of it are not the shelf's.
    others: files.filter((it) => !beside.includes(it) || (!own(it.name) && (folder === '' || it.name === 'list.book'))),
  };
}
