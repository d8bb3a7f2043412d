// A shelf (docs/SCALE.md): more grants than one store holds, under one root. It is a folder of files, of which this knows names and bytes alone: who opens one says how they are read, and who changes
// one how they are written. The list says which root a part has in a version, and what a part's file says counts only where it has that root.
import { AT, MOST_SLOTS, RECORD_BYTES, sameBytes, u32 } from './form.js';
import { Refused, batch, toHex } from './grants.js';

export const SHELF_BITS = 12;
// A publishing takes no more records for a part, and changes no more parts.
const MOST_RECORDS = 1024;
// So many parts are kept open at a time; a part has two million bytes at most.
const MOST_OPEN = 16;

const HEAD = '# A shelf of grant stores: how many bits of a key name its part, and how many slots a new part gets. Neither is changed by hand.\n';
const NO_ROOT = new Uint8Array(32);

const partName = (part) => part.toString(16).padStart(3, '0');

// A shelf has no answer: the number of refusal that it comes to, and the part that it is refused for, null where it is the list. A part that isn't the one that the list names makes the shelf
// unsound, 3.
export class ShelfRefused extends Refused {
  constructor(number, part, sentence) {
    super(number);
    this.name = 'ShelfRefused';
    this.part = part;
    if (sentence) this.sentence = sentence;
    this.message = `refused with ${number}: ${part === null ? '' : `part ${partName(part)}: `}${this.sentence}`;
  }
}

// What a call over the list or a part gives, or its refusal with the part's number.
function forPart(part, call) {
  try {
    return call();
  } catch (refused) {
    if (!(refused instanceof Refused) || refused instanceof ShelfRefused) throw refused;
    throw new ShelfRefused(refused.number, part, refused.sentence);
  }
}

// The number of a key's part: its first bits.
export const partOf = (key, bits) => (256 * key[0] + key[1]) >> (16 - bits);

// The key that a part has in the list: its bits, then zeros.
export function listKey(part, bits) {
  const key = new Uint8Array(32);
  key.set([(part << (16 - bits)) >> 8, (part << (16 - bits)) & 255]);
  return key;
}

// The file of a part, which its name tells apart: `part-0a3-7-2-3906` is part 0a3 with versions 2 to 7, and 3,906 grants in version 7. Undefined for any other name.
export function partFileOf(name) {
  const read = /^part-([0-9a-f]{3,4})-(0|[1-9]\d{0,9})-(0|[1-9]\d{0,9})-(0|[1-9]\d*)$/.exec(name);
  if (!read) return undefined;
  const file = { name, part: parseInt(read[1], 16), latest: Number(read[2]), oldest: Number(read[3]), grants: Number(read[4]) };
  return partName(file.part) === read[1] && file.latest <= 0xffff_ffff && file.oldest <= 0xffff_ffff && file.grants <= MOST_SLOTS ? file : undefined;
}

const fileName = ({ part, latest, oldest, grants }) => `part-${partName(part)}-${latest}-${oldest}-${grants}`;

// The bits and slots that a file 'shelf' says; undefined for one that doesn't. Where a shelf is being made afresh it also has a line 'fresh', whose bits and slots hold as soon as its list is the
// fresh one, in which nothing was published.
function settingsOf(text, latest) {
  const numbers = (form) => new RegExp(`^${form}$`, 'm').exec(text)?.slice(1).map(Number) ?? [];
  const [[bits], [slots], fresh] = [numbers('bits (\\d{1,9})'), numbers('slots (\\d{1,9})'), numbers('fresh (\\d{1,9}) (\\d{1,9})')];
  if (!(bits <= SHELF_BITS) || slots === undefined) return undefined;
  return latest === 0 && fresh[0] <= SHELF_BITS ? { bits: fresh[0], slots: fresh[1] } : { bits, slots };
}

const settingsText = ({ bits, slots }) => new TextEncoder().encode(`${HEAD}bits ${bits}\nslots ${slots}\n`);

// Batch records of 72 bytes by part. 5 where the parts don't ascend; whether keys do within a part, the library says.
function runsOf(records, bits) {
  const runs = new Map();
  let last = 0;
  for (let at = 0; at < records.length; at += RECORD_BYTES) {
    const record = records.slice(at, at + RECORD_BYTES);
    const part = partOf(record.subarray(AT.recordKey), bits);
    if (part < last) throw new Refused(5);
    last = part;
    if (runs.has(part)) runs.get(part).push(record);
    else runs.set(part, [record]);
  }
  return runs;
}

function joinedRecords(records) {
  const all = new Uint8Array(RECORD_BYTES * records.length);
  records.forEach((record, i) => all.set(record, RECORD_BYTES * i));
  return all;
}

// A shelf as its files were when it was opened. `files` have a `name` and `read()`, which gives their bytes; `put(name, bytes)` writes one, whole or not at all. One writer at a time is the caller's to see to.
export class Shelf {
  #grants;
  #files = new Map();
  #open = new Map();
  // Whether the file 'shelf' has a line 'fresh', which the next writer takes away before anything is published.
  #afresh = false;

  constructor(grants, settings, list) {
    this.#grants = grants;
    Object.assign(this, settings);
    this.list = list;
  }

  // An empty shelf: its two files are put, the list last.
  static async format(grants, { bits, slots, listSlots = slots }, put) {
    if (!Number.isInteger(bits) || bits < 0) throw new RangeError('bits are a whole number');
    if (bits > SHELF_BITS) throw new Refused(21);
    (await grants.format(slots)).close();
    const list = await grants.format(listSlots);
    await put('shelf', settingsText({ bits, slots }));
    await put('list', list.bytes());
    return new Shelf(grants, { bits, slots }, list);
  }

  // The shelf of these files; others than a shelf's are passed over. The list is checked. 1, 2, 3 of the list; an Error where they are no shelf.
  static async open(grants, files) {
    const named = new Map(Array.from(files, (file) => [file.name, file]));
    for (const name of ['shelf', 'list']) if (!named.has(name)) throw new Error(`these files are no shelf: there is none called '${name}'`);
    const text = new TextDecoder().decode(await named.get('shelf').read());
    if (!settingsOf(text)) throw new Error('these files are no shelf: the one called \'shelf\' has no bits from 0 to 12, or no slots');
    const list = await grants.open(await named.get('list').read());
    if (list.movedOver) throw new Error('these files are a shelf of the old form: `grants move` of the command line tool brings it over');
    forPart(null, () => list.index());
    const shelf = new Shelf(grants, settingsOf(text, list.latest), list);
    shelf.#afresh = /^fresh /m.test(text);
    const parts = [...named.keys()].map(partFileOf).filter((file) => file && file.part < 2 ** shelf.bits && file.latest <= list.latest && file.oldest <= list.oldest);
    // The newest of each part comes last.
    parts.sort((a, b) => a.latest - b.latest || a.oldest - b.oldest || a.grants - b.grants);
    for (const file of parts) shelf.#files.set(file.part, { ...file, read: () => named.get(file.name).read() });
    return shelf;
  }

  get oldest() {
    return this.list.oldest;
  }

  get latest() {
    return this.list.latest;
  }

  // The parts' files that are in use, by their names.
  get files() {
    return [...this.#files.values()].map(({ name }) => name).sort();
  }

  // The one hash that is signed. 8.
  root(version) {
    return forPart(null, () => this.list.root(version));
  }

  // The kept publishings: the list's.
  publishings() {
    return this.list.publishings();
  }

  // The root that the list has for a part in a version, 32 zero bytes where the part has no grant there.
  #rootOf(version, part) {
    const found = forPart(null, () => this.list.get(version, listKey(part, this.bits)));
    return found.present ? found.value : NO_ROOT;
  }

  // A part's store, checked, undefined where it has no file. The last ones that were asked for are kept, and the others closed.
  async #store(part) {
    const file = this.#files.get(part);
    if (!file) return undefined;
    if (!this.#open.has(part)) {
      const store = await this.#grants.open(await file.read());
      try {
        forPart(part, () => store.check());
      } catch (refused) {
        store.close();
        throw refused;
      }
      // Another call may have been faster.
      if (this.#open.has(part)) store.close();
      else this.#open.set(part, store);
    }
    const store = this.#open.get(part);
    this.#open.delete(part);
    this.#open.set(part, store);
    if (this.#open.size > MOST_OPEN) this.#closed(this.#open.keys().next().value);
    return store;
  }

  #closed(part) {
    this.#open.get(part)?.close();
    this.#open.delete(part);
  }

  // Closes the list and the parts that are open; nothing can be asked of the shelf from then on.
  close() {
    for (const part of [...this.#open.keys()]) this.#closed(part);
    this.list.close();
  }

  // A part in a version of the shelf, with the version of its own that this reads as; undefined where it has no file and is empty. 3 where it isn't the part that the list names.
  async #partAt(part, version) {
    const root = this.#rootOf(version, part);
    const store = await this.#store(part);
    if (!store && sameBytes(root, NO_ROOT)) return undefined;
    if (!store) throw new ShelfRefused(3, part, `it is lost: the list names it in version ${version}, and it has no file`);
    const own = Math.min(version, store.latest);
    const has = own < store.oldest ? NO_ROOT : forPart(part, () => store.root(own));
    if (!sameBytes(has, root)) throw new ShelfRefused(3, part, `its file has another root in version ${version} than the list names`);
    return { part, store, version: own };
  }

  // Every part that the list names in a version, in the order of keys. 8; 3 where a key of the list is no part's.
  #parts(version) {
    return forPart(null, () => this.list.grants(version)).map(({ key }) => {
      const part = partOf(key, this.bits);
      if (!sameBytes(listKey(part, this.bits), key)) throw new ShelfRefused(3, null, `the list has ${toHex(key)}, which is no part’s key with these bits`);
      return part;
    });
  }

  #partOf(key) {
    if (!(key instanceof Uint8Array) || key.length !== 32) throw new Refused(12);
    return partOf(key, this.bits);
  }

  // A key in a version. 12, 8, 3 or 17.
  async get(version, key) {
    const at = await this.#partAt(this.#partOf(key), version);
    return at ? forPart(at.part, () => at.store.get(at.version, key)) : { present: false };
  }

  // The proof of a key in a version, or that it isn't there, for `shelfVerify`. 12, 8, 14 (the shelf holds no grant), 3 or 17.
  async prove(version, key) {
    return (await this.palette(version, [key]))[0];
  }

  // The proofs for up to 256 keys, in the order asked; a part is read once. 12, 8, 14, 3 or 17.
  async palette(version, keys) {
    const parts = keys.map((key) => this.#partOf(key));
    if (keys.length > 256) throw new Refused(12);
    const proofs = [];
    for (const part of new Set(parts)) {
      const wanted = parts.flatMap((it, i) => (it === part ? [i] : []));
      const first = forPart(null, () => this.list.prove(version, listKey(part, this.bits)));
      const at = sameBytes(this.#rootOf(version, part), NO_ROOT) ? undefined : await this.#partAt(part, version);
      const row = at ? forPart(part, () => at.store.palette(at.version, wanted.map((i) => keys[i]))) : wanted.map(() => new Uint8Array(0));
      wanted.forEach((i, n) => (proofs[i] = Uint8Array.from([...first, ...row[n]])));
    }
    return proofs;
  }

  // How many grants a version has. 8, 3.
  async count(version) {
    let sum = 0;
    for (const part of this.#parts(version)) {
      const at = await this.#partAt(part, version);
      sum += forPart(part, () => at.store.count(at.version));
    }
    return sum;
  }

  // The grants of a version, in the order of keys, part by part. 8, 3.
  async *grants(version) {
    for (const part of this.#parts(version)) {
      const at = await this.#partAt(part, version);
      for (const grant of forPart(part, () => at.store.grants(at.version))) {
        if (partOf(grant.key, this.bits) !== part) throw new ShelfRefused(3, part, `it holds ${toHex(grant.key)}, which begins with other bits`);
        yield grant;
      }
    }
  }

  // What changed from one kept version to another, in the order of keys. 8, 3.
  async changes(first, second) {
    const changed = [];
    for (const { key } of forPart(null, () => this.list.changes(first, second))) {
      const part = partOf(key, this.bits);
      const [was, now] = [await this.#partAt(part, first), await this.#partAt(part, second)];
      if (!now) throw new ShelfRefused(3, part, 'it is lost: the list names it, and it has no file');
      changed.push(...forPart(part, () => now.store.changes(was?.version ?? 0, now.version)));
    }
    return changed;
  }

  // What became of a key: each kept version from which it reads otherwise than before, the oldest first. 12, 3.
  async history(key) {
    const part = this.#partOf(key);
    const [oldest, latest] = [this.oldest, this.latest];
    const at = await this.#partAt(part, latest);
    if (!at) return [{ version: oldest, value: null }];
    const turns = forPart(part, () => at.store.history(key));
    const kept = turns.filter(({ version }, i) => i + 1 === turns.length || turns[i + 1].version > oldest).map(({ version, value }) => ({ version: Math.max(version, oldest), value }));
    for (const { version } of kept) await this.#partAt(part, version);
    return kept;
  }

  // Whether a run of records changes anything in a store's version.
  static #changing(store, version, run) {
    return run.some((record) => {
      const found = store.get(version, record.subarray(AT.recordKey, AT.recordValue));
      const value = u32(record, AT.length) === RECORD_BYTES ? record.subarray(AT.recordValue, RECORD_BYTES) : null;
      return value === null ? found.present : !found.present || !sameBytes(found.value, value);
    });
  }

  // A copy of a part's store, or a fresh one, changed by the work: what the work gave, with the part's new file; undefined where it gave nothing. A part that is newer than the list is not built upon.
  async #made(part, work) {
    const at = await this.#partAt(part, this.latest);
    if (at && at.store.latest > this.latest) throw new ShelfRefused(3, part, 'its file is newer than the list');
    const store = at ? await this.#grants.open(at.store.bytes()) : await this.#grants.format(this.slots);
    try {
      const given = forPart(part, () => work(store, at?.version ?? 0));
      if (given === undefined) return undefined;
      const { oldest, latest } = store;
      const file = { part, oldest, latest, grants: store.count(latest) };
      return { ...given, file: { ...file, name: fileName(file) }, bytes: store.bytes() };
    } finally {
      store.close();
    }
  }

  // Publishes a version under a number above latest: the parts that change are put under new names, then the list, and from then on the shelf is the new one. `gone` are the
  // names of files that no one needs any more. Where anything is refused, or can't be put, the shelf stays as it was. 3, 4 (also where it takes several publishings), 5, 18, 7.
  async publish(number, changes, put) {
    const records = batch(changes);
    if (records.length % RECORD_BYTES !== 0) throw new Refused(4);
    const runs = runsOf(records, this.bits);
    const most = Math.max(0, ...[...runs.values()].map((run) => run.length));
    if (most > MOST_RECORDS || runs.size > MOST_RECORDS) throw new ShelfRefused(4, null, 'a publishing takes at most 1,024 records for a part, and 1,024 parts');
    if (number <= this.latest) throw new Refused(18);
    const made = [];
    for (const [part, run] of runs) {
      const it = await this.#made(part, (store, version) => (Shelf.#changing(store, version, run) ? store.apply(number, joinedRecords(run)) : undefined));
      if (it) made.push(it);
    }
    const roots = made.map(({ file, root }) => ({ key: listKey(file.part, this.bits), value: sameBytes(root, NO_ROOT) ? null : root }));
    const { version, root, newRecords, gone } = await this.#replaced(made, put, (list) => list.apply(number, roots));
    return { version, root, newRecords: newRecords + made.reduce((sum, it) => sum + it.newRecords, 0), parts: made.length, gone };
  }

  // Keeps no version before this one, in the list and in each part. 3, 8.
  async prune(version, put) {
    const made = [];
    for (const { part, oldest, latest } of this.#files.values()) {
      if (oldest >= Math.min(version, latest)) continue;
      made.push(await this.#made(part, (store, own) => ({ freed: store.prune(Math.min(version, own)) })));
    }
    const { freed, gone } = await this.#replaced(made, put, (list) => ({ freed: list.prune(version) }));
    return { freed: freed + made.reduce((sum, it) => sum + it.freed, 0), gone };
  }

  // Puts parts under their new names and then the list, changed by the work: what that gave, and the names that the parts were under before.
  async #replaced(made, put, work) {
    const list = await this.#grants.open(this.list.bytes());
    let given;
    try {
      given = forPart(null, () => work(list));
      if (this.#afresh) await put('shelf', settingsText(this));
      this.#afresh = false;
      for (const { file, bytes } of made) await put(file.name, bytes);
      await put('list', list.bytes());
      list.index();
    } catch (error) {
      list.close();
      throw error;
    }
    const gone = made.flatMap(({ file: { part, name } }) => (this.#files.has(part) && this.#files.get(part).name !== name ? [this.#files.get(part).name] : []));
    for (const { file, bytes } of made) {
      this.#files.set(file.part, { ...file, read: () => bytes });
      this.#closed(file.part);
    }
    this.list.close();
    this.list = list;
    return { ...given, gone };
  }
}
