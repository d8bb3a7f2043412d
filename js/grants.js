// The calls of the grant store for Node, browsers and workers. What a store, a batch or a proof is worth is always the WebAssembly's word.
import { AT, DELETE_KIND, DELETE_LENGTH, HEADER_BYTES, INNER_KIND, INSERT_KIND, LEAF_KIND, LONGEST_MESSAGE, LONGEST_PROOF, MOST_SLOTS, OLD_FORM, OLD_SLOT_BYTES, PRESENCE_KIND, RECORD_BYTES, SLOT_BYTES, isOldForm, oldStoreBytes, sameBytes, storeBytes, u16, u32 } from './form.js';
import { REFUSALS } from './refusals.js';

// What a number means in one call alone.
const OTHERWISE = { 'rescue 3': 'the version that the run must end at can not be rescued' };

// A call was refused, and changed nothing. Where a read was refused for a spoilt record, `slot` is the slot that has it, else null. `oldForm` says that
// the store is one of the old form.
export class Refused extends Error {
  constructor(number, slot = null, { call = '', oldForm = false } = {}) {
    const sentence = OTHERWISE[`${call} ${number}`] ?? REFUSALS[number] ?? 'a number without a sentence here';
    super(`refused with ${number}: ${sentence}${slot === null ? '' : `; the record in slot ${slot} is spoilt`}${oldForm ? `; ${OLD_FORM}` : ''}`);
    this.name = 'Refused';
    this.number = number;
    this.sentence = sentence;
    this.slot = slot;
    this.oldForm = oldForm;
  }
}

// The bytes of hex digits, two for each.
export function fromHex(text) {
  if (text.length % 2 !== 0 || !/^[0-9a-f]*$/i.test(text)) throw new TypeError('not whole bytes in hex digits');
  return Uint8Array.from({ length: text.length / 2 }, (_, i) => parseInt(text.slice(2 * i, 2 * i + 2), 16));
}

export function toHex(bytes) {
  return Array.from(bytesOf(bytes), (b) => b.toString(16).padStart(2, '0')).join('');
}

// Bytes as they are, or of hex digits.
function bytesOf(given) {
  if (typeof given === 'string') return fromHex(given);
  if (given instanceof Uint8Array) return given;
  if (ArrayBuffer.isView(given)) return new Uint8Array(given.buffer, given.byteOffset, given.byteLength);
  if (given instanceof ArrayBuffer) return new Uint8Array(given);
  throw new TypeError('neither bytes nor hex digits');
}

// A version as the calls take it; WebAssembly would wrap any other number round.
function versionOf(given) {
  if (!Number.isInteger(given) || given < 0 || given > 0xffff_ffff) throw new RangeError('a version is a whole number from 0 to 4,294,967,295');
  return given;
}

// A position as the calls take it: 64 bits, so a BigInt says every one; a number does where it is exact.
function positionOf(given) {
  const exact = typeof given === 'bigint' || Number.isSafeInteger(given);
  if (!exact || given < 0 || given > 0xffff_ffff_ffff_ffffn) throw new RangeError('a position is a whole number from 0 to 18,446,744,073,709,551,615; above 9,007,199,254,740,991 as a BigInt');
  return BigInt(given);
}

function joined(pieces) {
  const all = new Uint8Array(pieces.reduce((length, piece) => length + piece.length, 0));
  let at = 0;
  for (const piece of pieces) {
    all.set(piece, at);
    at += piece.length;
  }
  return all;
}

// A list of keys as the calls take it: torn keys that make up whole ones must not pass for these.
function keysOf(given) {
  const keys = Array.from(given, bytesOf);
  if (keys.some((key) => key.length !== 32)) throw new Refused(12);
  return joined(keys);
}

// The number of refusal that a call returned, and the slot that a read named: its 64 bits have the number in the low half, the slot + 1 in the high.
function parted(said) {
  if (typeof said === 'number') return [said >>> 0, null];
  const high = Number(BigInt.asUintN(64, said) >> 32n);
  return [Number(BigInt.asUintN(32, said)), high === 0 ? null : high - 1];
}

// Room that a call writes its answer to: an array, or a slice with its length.
const answer = (length) => ({ length, slice: false });
const room = (length) => ({ length, slice: true });

const aligned = (at) => Math.ceil(at / 64) * 64;

// An instance of the library and the memory that is its own: first the stack, then what is kept (a store, and its table where it has one), then what one call is lent.
class Machine {
  #instance;
  #exports;
  #start;
  #kept = 0;
  // How many entries of 4 bytes the table has.
  #entries = 0;
  #stopped = false;
  #ended = false;

  constructor(instance) {
    this.#instance = instance;
    this.#exports = instance.exports;
    this.#start = aligned(instance.exports.__heap_base.value);
  }

  has(name) {
    return typeof this.#exports[`grants_${name}`] === 'function';
  }

  // All memory up to an end, grown where it was shorter.
  #reach(end) {
    if (this.#ended) throw new Error('this store was closed');
    const { memory } = this.#exports;
    const missing = end - memory.buffer.byteLength;
    if (missing > 0) memory.grow(Math.ceil(missing / 65536));
    return new Uint8Array(memory.buffer);
  }

  keep(bytes) {
    this.#reach(this.#start + bytes.length).set(bytes, this.#start);
    this.#kept = bytes.length;
    this.#entries = 0;
  }

  // Wipes what is kept, and gives the instance for another; from then on nothing can be asked. None where a call was stopped in it.
  end() {
    this.#reach(0).fill(0, this.#start, this.#free());
    [this.#kept, this.#entries, this.#ended] = [0, 0, true];
    return this.#stopped ? undefined : this.#instance;
  }

  // Makes the table of the store that is kept. Where that is refused, there is none.
  index() {
    this.#entries = this.slots;
    this.#reach(this.#free()).fill(0, this.#table(), this.#free());
    try {
      this.call('index', 'store', 'table');
    } catch (refused) {
      this.#entries = 0;
      throw refused;
    }
  }

  get indexed() {
    return this.#entries > 0;
  }

  #table() {
    return aligned(this.#start + this.#kept);
  }

  // Where what is kept ends.
  #free() {
    return this.#entries ? this.#table() + 4 * this.#entries : this.#start + this.#kept;
  }

  // What is kept of a store, or its first bytes.
  kept(length = this.#kept) {
    return this.#reach(0).slice(this.#start, this.#start + Math.min(length, this.#kept));
  }

  // How many whole slots the store that is kept has room for.
  get slots() {
    return Math.max(Math.floor((this.#kept - HEADER_BYTES) / SLOT_BYTES), 0);
  }

  // A view of what is kept, for the one call as its store.
  #lentStore() {
    return [this.#start, BigInt(this.#kept)];
  }

  // One call. Given: 'store', 'table', a number (of 64 bits a BigInt), bytes, an answer or room. What it wrote to answer and room, in their order.
  call(name, ...given) {
    if (this.#ended) throw new Error('this store was closed');
    if (this.#stopped) throw new Error('an earlier call was stopped by the engine; make this anew');
    const words = [];
    const lent = [];
    let end = this.#free();
    for (const it of given) {
      if (it === 'store') words.push(...this.#lentStore());
      else if (it === 'table') words.push(this.#table(), BigInt(this.#entries));
      else if (typeof it === 'number' || typeof it === 'bigint') words.push(it);
      else {
        // No two overlap, and none is empty, so that each has a place of its own.
        const at = aligned(end);
        end = at + it.length + 1;
        lent.push({ at, it });
        words.push(at);
        if (it instanceof Uint8Array || it.slice) words.push(BigInt(it.length));
      }
    }
    const memory = this.#reach(end);
    for (const { at, it } of lent) if (it instanceof Uint8Array) memory.set(it, at);
    let said;
    let wrote;
    try {
      said = this.#exports[`grants_${name}`](...words);
      wrote = lent.filter(({ it }) => !(it instanceof Uint8Array)).map(({ at, it }) => memory.slice(at, at + it.length));
    } catch (trap) {
      this.#stopped = true;
      throw trap;
    } finally {
      // Nothing that one call was lent is there for the next.
      memory.fill(0, this.#free(), end);
    }
    const [number, slot] = parted(said);
    // A store of the old form is refused for its size or its header; a rescue may find no version in it.
    if (number !== 0) throw new Refused(number, slot, { call: name, oldForm: number <= 3 && given.includes('store') && isOldForm(this.kept()) });
    return wrote;
  }
}

function found([flag, ...value]) {
  return flag === 1 ? { present: true, value: Uint8Array.from(value) } : { present: false };
}

// The bytes of one answer of many: a number, and the 33 bytes of what is found.
const ANSWER = 34;
// No proof of the pocket profile is longer.
const LONGEST_POCKET = 2296;

// So many looks at a slot take as long as making a table, or longer: a read by scans looks at every slot, some times.
const TABLE_PAYS = 16 * MOST_SLOTS;

// So many instances of closed stores are kept for others.
const MOST_IDLE = 16;

// No comparison of two versions takes more visits.
const MOST_VISITS = 32769;

// The records of a batch in the order of their keys; a batch's own bytes stay as they are.
export function batch(changes) {
  if (typeof changes === 'string' || changes instanceof ArrayBuffer || ArrayBuffer.isView(changes)) return bytesOf(changes);
  const records = Array.from(changes, ({ key, value }) => {
    const record = new Uint8Array(RECORD_BYTES);
    record.set(value === null ? [DELETE_LENGTH, 0, 0, 0, DELETE_KIND] : [RECORD_BYTES, 0, 0, 0, INSERT_KIND]);
    for (const [at, it] of value === null ? [[AT.recordKey, key]] : [[AT.recordKey, key], [AT.recordValue, value]]) {
      const bytes = bytesOf(it);
      if (bytes.length !== 32) throw new TypeError('a key and a value are 32 bytes');
      record.set(bytes, at);
    }
    return record;
  });
  const order = (a, b) => {
    const at = a.findIndex((byte, i) => i >= AT.recordKey && i < AT.recordValue && byte !== b[i]);
    return at < 0 ? 0 : a[at] - b[at];
  };
  const all = new Uint8Array(RECORD_BYTES * records.length);
  records.sort(order).forEach((record, i) => all.set(record, RECORD_BYTES * i));
  return all;
}

// A store in memory of its own.
export class Store {
  #machine;
  #movedOver;
  #back;
  // Whether the library has called it sound. No call of ours on a sound store leaves another one.
  #sound = false;
  // Whether a table was asked for and refused.
  #noTable = false;

  // `back` takes the instance when the store is closed.
  constructor(machine, back, movedOver = false) {
    this.#machine = machine;
    this.#back = back;
    this.#movedOver = movedOver;
  }

  // Wipes the store's memory and gives it back for another store: an engine has room for some hundred at a time, and may be late to see that one isn't needed any more. Nothing can be asked of
  // a store that was closed.
  close() {
    this.#back(this.#machine.end());
  }

  // A copy of the store's bytes.
  bytes() {
    return this.#machine.kept();
  }

  // What the header says; only `check` says whether the store is sound. Bytes too few for a header are refused as every call refuses them.
  #field(at) {
    const header = this.#machine.kept(HEADER_BYTES);
    if (header.length < HEADER_BYTES) throw new Refused(1);
    return u32(header, at);
  }

  get capacity() {
    return this.#field(AT.capacity);
  }

  get oldest() {
    return this.#field(AT.oldest);
  }

  get latest() {
    return this.#field(AT.latest);
  }

  // Whether this is a store of the old form, which every call refuses: one that could not be moved over.
  get oldForm() {
    return isOldForm(this.bytes());
  }

  // Whether the bytes that it was opened with were a store of the old form, and were moved over in memory.
  get movedOver() {
    return this.#movedOver;
  }

  // The store's bytes in the old form.
  movedBack() {
    return this.#machine.call('back', 'store', room(oldStoreBytes(this.#machine.slots)))[0];
  }

  // A call by the table where there is one: it answers as the plain one, and a write leaves the table right.
  #call(name, ...given) {
    return this.#machine.indexed ? this.#machine.call(`${name}_indexed`, 'store', 'table', ...given) : this.#machine.call(name, 'store', ...given);
  }

  // Makes a table of the store's records in memory, by which reads find them in a few looks instead of looking at every slot; from then on it is kept with the store. No answer changes. The
  // store is checked with it: 1, 2, 3.
  index() {
    if (this.#machine.indexed) return;
    this.#machine.index();
    this.#sound = true;
  }

  // Whether it has a table.
  get indexed() {
    return this.#machine.indexed;
  }

  // Before so many reads: the table, where the store is large enough that it pays and is sound. Where it isn't, reads go on without.
  #expect(reads) {
    if (this.#machine.indexed || this.#noTable || reads * this.#machine.slots < TABLE_PAYS) return;
    try {
      this.index();
    } catch (refused) {
      if (!(refused instanceof Refused)) throw refused;
      this.#noTable = true;
    }
  }

  format() {
    this.#call('format');
    this.#sound = true;
    this.#noTable = false;
  }

  check() {
    this.#machine.call('check', 'store');
    this.#sound = true;
  }

  // The kept versions at which a wanted record begins or ends, with oldest and latest, ascending; of a store that the library has called sound: 1, 2, 3. A record stands
  // at a place of the store's bytes.
  #turns(wanted) {
    if (!this.#sound) this.check();
    const bytes = this.bytes();
    const [oldest, latest] = [AT.oldest, AT.latest].map((field) => u32(bytes, field));
    const turns = new Set([oldest, latest]);
    for (let from = HEADER_BYTES; from < bytes.length; from += SLOT_BYTES) {
      if (!wanted(bytes, from)) continue;
      for (const field of [AT.version, AT.retiredSince]) {
        const version = u32(bytes, from + field);
        if (oldest <= version && version <= latest) turns.add(version);
      }
    }
    return [...turns].sort((a, b) => a - b);
  }

  // The kept publishings of a sound store, the oldest first: `first` to `last` are the versions that read as it. They are found where a root begins or ends, and at
  // latest; no number between is looked at. 1, 2, 3.
  publishings() {
    const firsts = this.#turns((bytes, from) => [LEAF_KIND, INNER_KIND].includes(u16(bytes, from + AT.kind)) && u16(bytes, from + AT.bitCount) === 0);
    return firsts.map((first, i) => ({ first, last: i + 1 < firsts.length ? firsts[i + 1] - 1 : this.latest }));
  }

  // What became of a key: each kept version of a sound store from which it reads otherwise than before, the oldest first. Where to look is told by the
  // leaves of the key; what is there, `get` says. 12, 1, 2, 3.
  history(key) {
    const asked = bytesOf(key);
    if (asked.length !== 32) throw new Refused(12);
    const rows = [];
    const turns = this.#turns((bytes, from) => u16(bytes, from + AT.kind) === LEAF_KIND && asked.every((byte, i) => byte === bytes[from + AT.key + i]));
    this.#expect(turns.length);
    for (const version of turns) {
      const value = this.get(version, asked).value ?? null;
      if (rows.length === 0 || !sameBytes(rows.at(-1).value ?? [], value ?? [])) rows.push({ version, value });
    }
    return rows;
  }

  // All grants of a version of a sound store, in the order of keys. 1, 2, 3, 8.
  grants(version) {
    if (!this.#sound) this.check();
    const length = this.count(version);
    this.#expect(length);
    return Array.from({ length }, (_, i) => this.at(version, i));
  }

  // Publishes under a number of the caller's, any above latest.
  apply(number, changes) {
    const [wrote] = this.#call('apply', versionOf(number), batch(changes), answer(40));
    return { version: u32(wrote, 0), root: wrote.slice(4, 36), newRecords: u32(wrote, 36) };
  }

  // Under the number after latest. Where there is none it is 0, which is never above latest; where there is no header, the call says so first.
  applyNext(changes) {
    const header = this.#machine.kept(HEADER_BYTES);
    return this.apply(header.length < HEADER_BYTES ? 0 : (u32(header, AT.latest) + 1) % 2 ** 32, changes);
  }

  prune(version) {
    return u32(this.#call('prune', versionOf(version), answer(4))[0], 0);
  }

  root(version) {
    return this.#call('root', versionOf(version), answer(32))[0];
  }

  get(version, key) {
    return found(this.#call('get', versionOf(version), bytesOf(key), answer(33))[0]);
  }

  // How many grants a version has: two counts of 32 bits summed, so a number says it exactly.
  count(version) {
    const [wrote] = this.#call('count', versionOf(version), answer(8));
    return u32(wrote, 0) + 2 ** 32 * u32(wrote, 4);
  }

  // The grant at a position of a version, 0 the least key.
  at(version, position) {
    const [wrote] = this.#call('at', versionOf(version), positionOf(position), answer(64));
    return { key: wrote.slice(0, 32), value: wrote.slice(32) };
  }

  prove(version, key, most = LONGEST_PROOF) {
    if (!Number.isInteger(most) || most < 0) throw new RangeError('room is a whole number of bytes');
    const [proof, length] = this.#call('prove', versionOf(version), bytesOf(key), room(Math.min(most, LONGEST_PROOF)), answer(4));
    return proof.slice(0, u32(length, 0));
  }

  // The same in the pocket profile: 19 where a leaf that the proof shows has more than 32 steps.
  provePocket(version, key, most = LONGEST_POCKET) {
    if (!Number.isInteger(most) || most < 0) throw new RangeError('room is a whole number of bytes');
    const [proof, length] = this.#machine.call('pocket_prove', 'store', versionOf(version), bytesOf(key), room(Math.min(most, LONGEST_POCKET)), answer(4));
    return proof.slice(0, u32(length, 0));
  }

  // What is counted over the trees of the kept versions from first to last, 1 to 1,024 of them, and over all of them.
  figures(first, last, most = Infinity) {
    if (most !== Infinity && (!Number.isInteger(most) || most < 0)) throw new RangeError('room is a whole number of bytes');
    const many = Math.min(Math.max(versionOf(last) - versionOf(first) + 1, 0), 1024);
    const [numbers, totals] = this.#machine.call('figures', 'store', first, last, room(Math.min(most, 16 * many)), answer(8));
    const versions = Array.from({ length: many }, (_, i) => {
      const [leaves, innerNodes, longestPath, pathSum] = [0, 4, 8, 12].map((at) => u32(numbers, 16 * i + at));
      return { version: first + i, leaves, innerNodes, longestPath, pathSum };
    });
    return { versions, distinct: u32(totals, 0), records: u32(totals, 4) };
  }

  // What is found of a proof for a key in a version that verify accepts against the version's root: `truth`, or that it isn't, with the messages that it took:
  // two different ones with equal SHA-256, or one whose SHA-256 is zero. 12, 1, 2, 3, 8, 14, 10, 11.
  finding(version, key, proof) {
    const [wrote] = this.#machine.call('finding', 'store', versionOf(version), bytesOf(key), bytesOf(proof), answer(131));
    const messages = wrote[0] === 0 ? [] : wrote[0] === 1 ? [wrote.slice(1, 66), wrote.slice(66)] : [wrote.slice(1, 66)];
    return { truth: wrote[0] === 0, messages };
  }

  // The proofs for up to 256 keys, in the order asked, each as prove would give it. 12, 1, 2, 8, then of the first key refused 14, 3 or 17; then 9.
  palette(version, keys, most = LONGEST_PROOF * Math.min(keys.length, 256)) {
    if (!Number.isInteger(most) || most < 0) throw new RangeError('room is a whole number of bytes');
    this.#expect(keys.length);
    const [all, length] = this.#call('palette', versionOf(version), keysOf(keys), room(Math.min(most, LONGEST_PROOF * 256)), answer(4));
    const proofs = [];
    for (let at = 0; at < u32(length, 0); at += proofs.at(-1).length) proofs.push(all.slice(at, at + u32(all, at)));
    return proofs;
  }

  // What changed from one version to another, in the order of keys: `before` is null where a key was added, `after` where it was removed.
  changes(first, second, limit = MOST_VISITS, most = Infinity) {
    if (most !== Infinity && (!Number.isInteger(most) || most < 0)) throw new RangeError('room is a whole number of bytes');
    // Each record of the list is another leaf of the store.
    const longest = RECORD_BYTES * 2 * this.#machine.slots;
    const [list, records] = this.#machine.call('changes', 'store', versionOf(first), versionOf(second), versionOf(limit), room(Math.min(most, longest)), answer(4));
    const changed = [];
    for (let at = 0; at < RECORD_BYTES * u32(records, 0); at += RECORD_BYTES) {
      const [key, value] = [list.slice(at + AT.recordKey, at + AT.recordValue), list.slice(at + AT.recordValue, at + RECORD_BYTES)];
      const last = changed.at(-1);
      if (u16(list, at + AT.kind) === DELETE_KIND) changed.push({ key, before: value, after: null });
      else if (last && last.after === null && last.key.every((byte, i) => byte === key[i])) last.after = value;
      else changed.push({ key, before: null, after: value });
    }
    return changed;
  }
}

// The calls that need no store, and stores.
export class Grants {
  #machine;
  // Instances of stores that were closed.
  #idle = [];

  constructor(module, instance) {
    this.module = module;
    this.#machine = new Machine(instance);
  }

  verify(root, key, proof) {
    return found(this.#machine.call('verify', bytesOf(root), bytesOf(key), bytesOf(proof), answer(33))[0]);
  }

  // What each proof of a row shows of its key against one root, up to 256 at once: as `verify`, or its `Refused` (10 or 11) in its place. The row is a
  // list of proofs, or their bytes one after the other. 12, 10 where it isn't as many pieces as keys.
  verifyMany(root, keys, row) {
    const list = keysOf(keys);
    const proofs = Array.isArray(row) ? joined(row.map(bytesOf)) : bytesOf(row);
    const [answers] = this.#machine.call('verify_many', bytesOf(root), list, proofs, room((ANSWER * list.length) / 32));
    return Array.from({ length: list.length / 32 }, (_, i) => {
      const [number, ...bytes] = answers.subarray(ANSWER * i, ANSWER * (i + 1));
      return number === 0 ? found(bytes) : new Refused(number);
    });
  }

  // The same of a key of a shelf, against its list's root: the list's record for the key's part, then the part's where the list shows it. The bits are signed with the
  // root (`Statement.bits`). 12, 21, 10, 11.
  shelfVerify(root, bits, key, proof) {
    return found(this.#machine.call('shelf_verify', bytesOf(root), versionOf(bits), bytesOf(key), bytesOf(proof), answer(33))[0]);
  }

  // The same for proofs of at most 32 steps for each leaf shown; 19 for others.
  verifyPocket(root, key, proof) {
    return found(this.#machine.call('pocket_verify', bytesOf(root), bytesOf(key), bytesOf(proof), answer(33))[0]);
  }

  // A proof as the message of ICS 23 that partners' verifiers read. Keys and values are raw there: the key asked for, and key and value of each leaf that the
  // proof shows, the left one first. 10, 15.
  writeMessage(proof, asked, leaves) {
    this.#whole('ics23_write');
    const lent = Array.from(leaves, ({ key, value }) => [bytesOf(key), bytesOf(value)]);
    if (lent.length > 2) throw new Refused(15);
    while (lent.length < 2) lent.push([new Uint8Array(0), new Uint8Array(0)]);
    const [message, length] = this.#machine.call('ics23_write', bytesOf(proof), bytesOf(asked), ...lent.flat(), room(LONGEST_MESSAGE), answer(4));
    return message.slice(0, u32(length, 0));
  }

  // What such a message was written from. No other encoding is taken. 10.
  readMessage(message) {
    const bytes = bytesOf(message);
    const [record, wrote] = this.#machine.call('ics23_read', bytes, room(LONGEST_PROOF), answer(44));
    const part = (i) => bytes.slice(u32(wrote, 4 + 8 * i), u32(wrote, 4 + 8 * i) + u32(wrote, 8 + 8 * i));
    const leaves = [1, 3].map((i) => ({ key: part(i), value: part(i + 1) })).filter(({ key }) => key.length > 0);
    return { proof: record.slice(0, u32(wrote, 0)), asked: part(0), leaves };
  }

  // What a message shows of the raw key in it, against a root. 10, 12, 11.
  verifyMessage(root, message) {
    const { proof, asked } = this.readMessage(message);
    return this.verify(root, this.sha256(asked), proof);
  }

  sha256(bytes) {
    return this.#machine.call('sha256', bytesOf(bytes), answer(32))[0];
  }

  // The key that stands for a name: the SHA-256 of its UTF-8 bytes, as in the command line tool.
  name(text) {
    return this.sha256(new TextEncoder().encode(text));
  }

  // A fresh store. No capacity above 16,384 is accepted, so none needs more memory than 16,385 would.
  async format(capacity) {
    if (!Number.isInteger(capacity) || capacity < 0) throw new RangeError('a capacity is a whole number');
    const store = await this.open(new Uint8Array(storeBytes(Math.min(capacity, MOST_SLOTS + 1))));
    store.format();
    return store;
  }

  // A sound store of the longest run of versions, none before oldest, that ends at latest and whose trees are whole in a damaged store's bytes.
  // Compare the root of latest with the signed one (README.md).
  async rescue(damaged, oldest, latest) {
    const bytes = bytesOf(damaged);
    const machine = await this.#opened(bytes);
    const [target, wrote] = machine.call('rescue', 'store', versionOf(oldest), versionOf(latest), room(bytes.length), answer(16));
    machine.keep(target);
    return { store: this.#store(machine), first: u32(wrote, 0), same: u32(wrote, 4), other: u32(wrote, 8), out: u32(wrote, 12) };
  }

  // A store of any bytes, copied; `check` says whether it is sound. A sound one of the old form is moved over in memory, and `movedOver` says so.
  async open(bytes) {
    const given = bytesOf(bytes);
    const machine = await this.#opened(given);
    if (!isOldForm(given)) return this.#store(machine);
    try {
      const [moved] = machine.call('over', 'store', room(storeBytes((given.length - HEADER_BYTES) / OLD_SLOT_BYTES)));
      machine.keep(moved);
      return this.#store(machine, true);
    } catch (refused) {
      if (!(refused instanceof Refused)) throw refused;
      return this.#store(machine);
    }
  }

  #store(machine, movedOver) {
    const back = (instance) => instance && this.#idle.length < MOST_IDLE && this.#idle.push(instance);
    return new Store(machine, back, movedOver);
  }

  #whole(call) {
    if (!this.#machine.has(call)) throw new Error('this WebAssembly only checks proofs: load grants.wasm');
  }

  async #opened(bytes) {
    this.#whole('apply');
    const machine = new Machine(this.#idle.pop() ?? (await WebAssembly.instantiate(this.module)));
    machine.keep(bytes);
    return machine;
  }
}

// Proofs of a shelf that stand one after the other, cut apart by the lengths and the kinds of their records: one record, and a second one where the first shows a presence. Whether a piece is a
// proof, `shelfVerify` says.
export function shelfPieces(proofs) {
  const end = (from) => {
    const length = proofs.length - from < 4 ? 0 : u32(proofs, from);
    return length < 4 || length > proofs.length - from ? proofs.length : from + length;
  };
  const pieces = [];
  for (let from = 0; from < proofs.length; from += pieces.at(-1).length) {
    const first = end(from);
    const parted = first < proofs.length && u16(proofs, from + AT.kind) === PRESENCE_KIND;
    pieces.push(proofs.slice(from, parted ? end(first) : first));
  }
  return pieces;
}

// Whether this engine has SIMD, which grants-verify-simd.wasm needs: whether it takes a module of one function that splats a byte.
export function hasSimd() {
  return WebAssembly.validate(Uint8Array.of(0, 97, 115, 109, 1, 0, 0, 0, 1, 5, 1, 96, 0, 1, 123, 3, 2, 1, 0, 10, 10, 1, 8, 0, 65, 0, 253, 15, 253, 98, 11));
}

// The WebAssembly at a URL, or at a path in Node.
async function fetched(source) {
  const inNode = typeof process === 'object' && process.versions?.node;
  if (inNode && !/^(https?|data|blob):/.test(String(source))) {
    const { readFile } = await import('node:fs/promises');
    return readFile(/^file:/.test(String(source)) ? new URL(source) : source);
  }
  const response = await fetch(source);
  if (!response.ok) throw new Error(`${source}: ${response.status}`);
  return response.arrayBuffer();
}

// The library from bytes, a compiled module, a URL or (in Node) a path; without one, grants.wasm beside this file.
export async function load(source = new URL('grants.wasm', import.meta.url)) {
  let module = source;
  if (!(module instanceof WebAssembly.Module)) {
    const named = typeof source === 'string' || source instanceof URL;
    module = await WebAssembly.compile(named ? await fetched(source) : bytesOf(source));
  }
  return new Grants(module, await WebAssembly.instantiate(module));
}
