// The program of vectors once more, through js/: what comes must be the lines that the gate holds the proved program to (crates/vectors/stdout).
import { createHash } from 'node:crypto';
import { readFileSync } from 'node:fs';
import { INNER_KIND, LEAF_KIND, storeBytes } from '../../js/form.js';
import { Refused, batch, toHex } from '../../js/grants.js';

const [A, B, C, D, F] = [0x00, 0x40, 0x60, 0x80, 0x10];
const zeros = Buffer.alloc(32);
const sha256 = (...parts) => createHash('sha256').update(Buffer.concat(parts)).digest();
const value = (byte) => Buffer.alloc(32, byte);

function key(first, last = 0) {
  const bytes = Buffer.alloc(32);
  bytes[0] = first;
  bytes[31] = last;
  return bytes;
}

// The hashes of 01's trees, by Node's own SHA-256.
const leaf = (k, byte) => sha256(Buffer.of(1), k, value(byte));
const inner = (left, right) => sha256(Buffer.of(0), left, right);
const lone = (hash, levels) => (levels === 0 ? hash : lone(inner(hash, zeros), levels - 1));
const insert = (k, byte) => ({ key: k, value: value(byte) });
const remove = (k) => ({ key: k, value: null });

// The i-th key of a large batch: its first ten bits are i; the last one has those of the one before it and its last bit set.
function numbered(i) {
  const k = key(0, i < 1024 ? 0 : 1);
  k.writeUInt16BE(Math.min(i, 1023) << 6);
  return k;
}

// The tree of all numbers of ten bits from one on.
const whole = (from, bits) => (bits === 0 ? leaf(numbered(from), 1) : inner(whole(from, bits - 1), whole(from + 2 ** (bits - 1), bits - 1)));

class Program {
  lines = {};
  section = '';

  constructor(grants) {
    this.grants = grants;
  }

  say(line) {
    (this.lines[this.section] ??= []).push(line);
  }

  // A call's line; a refused one must have left the store's bytes.
  tried(what, store, call, note = ', nothing written') {
    const before = toHex(store.bytes());
    try {
      this.say(`  came  ${what}: ${call()}`);
    } catch (refused) {
      if (!(refused instanceof Refused)) throw refused;
      const after = note && toHex(store.bytes()) !== before ? ', BUT SOMETHING WRITTEN' : note;
      const slot = refused.slot === null ? '' : `, slot ${refused.slot}`;
      this.say(`  came  ${what}: refused with ${refused.number}${slot}${after}`);
      return false;
    }
    return true;
  }

  async format(bytes) {
    const store = await this.grants.open(new Uint8Array(bytes));
    this.tried(`format ${bytes} bytes`, store, () => (store.format(), 'accepted'));
    return store;
  }

  slots(store, wanted) {
    const bytes = Buffer.from(store.bytes());
    const found = [];
    for (let i = 0; storeBytes(i) < bytes.length; i += 1) {
      const slot = bytes.subarray(storeBytes(i));
      const [kind, count] = [slot.readUInt16LE(4), slot.readUInt16LE(6)];
      const bits = Array.from({ length: count }, (_, b) => (slot[8 + (b >> 3)] >> (7 - (b & 7))) & 1).join('');
      const record = { version: slot.readUInt32LE(40), retired: slot.readUInt32LE(44), count, kind };
      if (kind !== 0 && wanted(record)) found.push({ ...record, text: `slot ${i} ${kind === LEAF_KIND ? 'leaf' : 'inner'} ${bits || 'root'}` });
    }
    return found;
  }

  shown(found) {
    this.say(`        ${found.map((it) => it.text).join('  ')}`);
  }

  // Under a number, or under the next one.
  apply(store, name, changes, root, number) {
    let made;
    const done = this.tried(name, store, () => {
      made = number === undefined ? store.applyNext(changes) : store.apply(number, changes);
      const retired = this.slots(store, (it) => it.retired === made.version).length;
      return `version ${made.version}, new records ${made.newRecords}, retired since ${made.version}: ${retired}`;
    });
    if (!done) return;
    if (made.newRecords > 0 && made.newRecords <= 20) this.shown(this.slots(store, (it) => it.version === made.version));
    this.say(`        root ${toHex(made.root)}, ${root.equals(made.root) ? "the hash of 01's tree" : "NOT THE HASH OF 01'S TREE"}`);
  }

  prune(store, version) {
    if (this.tried(`prune to ${version}`, store, () => `freed ${store.prune(version)}`)) this.shown(this.slots(store, () => true));
  }

  found(it) {
    return it.present ? `present, value ${toHex(it.value)}` : 'absent';
  }

  prove(store, name, k, version, most) {
    this.tried(`prove ${name} in version ${version}, buffer ${most} bytes`, store, () => {
      const proof = Buffer.from(store.prove(version, k, most));
      const kind = proof.readUInt16LE(4) === 16 ? 'steps' : 'flags';
      const shown = this.grants.verify(store.root(version), k, proof);
      return `length ${proof.length}, ${kind} ${proof.readUInt16LE(6)}; verify: ${this.found(shown)}`;
    });
  }

  changes(store, first, second, limit, most) {
    this.tried(`changes ${first} to ${second}, limit ${limit}, buffer ${most} bytes`, store, () => {
      const said = (kind, it, value) => (value ? [`, ${kind} ${toHex(it.key.slice(0, 1))} with ${toHex(value.slice(0, 1))}`] : []);
      const list = store.changes(first, second, limit, most).flatMap((it) => [...said('delete', it, it.before), ...said('insert', it, it.after)]);
      return `${list.length} records${list.join('')}`;
    });
  }

  pocket(store, name, k, version, most) {
    this.tried(`pocket prove ${name} in version ${version}, buffer ${most} bytes`, store, () => {
      const proof = Buffer.from(store.provePocket(version, k, most));
      const kind = proof.readUInt16LE(4) === 16 ? 'steps' : 'flags';
      const shown = this.grants.verifyPocket(store.root(version), k, proof);
      return `length ${proof.length}, ${kind} ${proof.readUInt16LE(6)}; pocket check: ${this.found(shown)}`;
    });
  }

  figures(store, first, last, most) {
    this.tried(`figures ${first} to ${last}, buffer ${most} bytes`, store, () => {
      const { versions, distinct, records } = store.figures(first, last, most);
      const each = versions.slice(0, 8).map((it) => `; ${it.leaves} ${it.innerNodes} ${it.longestPath} ${it.pathSum}`);
      return `distinct ${distinct}, sum ${records}${each.join('')}`;
    });
  }

  root(store, version) {
    this.tried(`root of ${version}`, store, () => toHex(store.root(version)), '');
  }

  get(store, name, k, version) {
    this.tried(`get ${name} in version ${version}`, store, () => this.found(store.get(version, k)), '');
  }

  look(store, version) {
    this.get(store, 'B', key(B), version);
    this.prove(store, 'B', key(B), version, 316);
  }

  // The desk's grants under numbers with gaps.
  async gaps(all, four) {
    const store = await this.format(storeBytes(20));
    const two = inner(leaf(key(A), 1), leaf(key(D), 4));
    const check = () => this.tried('check', store, () => (store.check(), 'sound'));
    this.apply(store, 'insert A, B, C, D', all, four, 5);
    this.apply(store, 'delete B and C', [remove(key(B)), remove(key(C))], two, 9);
    for (const version of [4, 5, 7, 8, 9, 10]) this.root(store, version);
    this.look(store, 7);
    this.look(store, 9);
    for (const [first, second, limit] of [[5, 8, 1], [7, 9, 7], [7, 9, 6]]) this.changes(store, first, second, limit, 288);
    for (const number of [9, 7, 0]) this.apply(store, 'empty batch', [], two, number);
    this.apply(store, 'D before A', Buffer.concat([batch([insert(key(D), 1)]), batch([insert(key(A), 1)])]), two, 9);
    this.prune(store, 7);
    for (const version of [6, 7]) this.root(store, version);
    check();
    this.apply(store, 'delete A and D', [remove(key(A)), remove(key(D))], zeros, 12);
    this.apply(store, 'insert D', [insert(key(D), 4)], leaf(key(D), 4), 15);
    for (const version of [11, 13]) this.root(store, version);
    for (const version of [13, 15]) this.prove(store, 'D', key(D), version, 316);
    this.prune(store, 13);
    for (const version of [13, 15]) this.root(store, version);
    check();
    this.apply(store, 'insert A', [insert(key(A), 1)], two, 4294967295);
    for (const version of [4000000000, 4294967294]) this.root(store, version);
    for (const version of [4000000000, 4294967295]) this.get(store, 'A', key(A), version);
    this.apply(store, 'empty batch', [], two, 4294967295);
    this.apply(store, 'empty batch', [], two);
    check();
    const one = await this.format(storeBytes(1));
    for (const number of [0, 1]) this.apply(one, 'insert both', [insert(key(A), 1), insert(key(F), 2)], zeros, number);
  }

  // The same bytes with one thing changed, in another store.
  async harmed(store, line, harm) {
    const bytes = store.bytes();
    harm(bytes);
    this.say(`  harm  ${line}`);
    return this.grants.open(bytes);
  }

  byte(store, slot, at, value) {
    return this.harmed(store, `slot ${slot}, byte ${at} made ${value}`, (bytes) => (bytes[storeBytes(slot) + at] = value));
  }

  lose(store, slot) {
    return this.harmed(store, `slot ${slot} emptied`, (bytes) => bytes.fill(0, storeBytes(slot), storeBytes(slot + 1)));
  }

  // A lost record and a spoilt one.
  async missing(all, four) {
    const [under, between] = [key(0x20), key(0x40)];
    const proofs = (store, name, k, ...rooms) => rooms.forEach((most) => this.prove(store, name, k, 1, most));
    let store = await this.format(storeBytes(20));
    this.apply(store, 'insert A, B, C, D', all, four, 1);
    store = await this.lose(store, 0);
    this.tried('check', store, () => (store.check(), 'sound'), '');
    this.root(store, 1);
    this.get(store, 'A', key(A), 1);
    this.get(store, 'B', key(B), 1);
    proofs(store, 'B', key(B), 316);
    proofs(store, '001', under, 316, 0);
    store = await this.byte(store, 1, 4, 9);
    this.get(store, 'C', key(C), 1);
    proofs(store, 'C', key(C), 316);
    store = await this.byte(store, 1, 40, 2);
    this.get(store, 'C', key(C), 1);
    store = await this.byte(store, 1, 40, 1);
    store = await this.byte(store, 3, 0, 9);
    this.get(store, 'B', key(B), 1);
    this.get(store, 'C', key(C), 1);
    proofs(store, '001', under, 316);
    store = await this.byte(store, 2, 48, 128);
    this.get(store, 'A', key(A), 1);
    store = await this.byte(store, 6, 5, 1);
    this.root(store, 1);
    this.get(store, 'D', key(D), 1);
    proofs(store, 'D', key(D), 316);
    for (const version of [0, 2]) this.root(store, version);
    store = await this.lose(store, 6);
    this.root(store, 1);
    this.get(store, 'D', key(D), 1);
    proofs(store, 'D', key(D), 316);
    store = await this.byte(store, 7, 119, 1);
    for (const version of [0, 1]) this.root(store, version);
    store = await this.byte(store, 7, 44, 1);
    for (const version of [0, 1]) this.root(store, version);
    store = await this.format(storeBytes(20));
    const those = [insert(key(0x00), 1), insert(key(0x20), 2), insert(key(0x80), 3), insert(key(0xc0), 4)];
    const below = inner(leaf(key(0x00), 1), leaf(key(0x20), 2));
    this.apply(store, 'insert the four', those, inner(inner(below, zeros), inner(leaf(key(0x80), 3), leaf(key(0xc0), 4))), 1);
    proofs(store, '01', between, 349);
    store = await this.byte(store, 3, 4, 9);
    proofs(store, '01', between, 349, 348);
    store = await this.lose(store, 1);
    proofs(store, '01', between, 349);
    this.get(store, '01', between, 1);
    this.get(store, '000', key(0x00), 1);
    proofs(store, '000', key(0x00), 171);
  }

  count(store, version) {
    this.tried(`grants in version ${version}`, store, () => store.count(version), '');
  }

  at(store, version, ...positions) {
    for (const position of positions) {
      this.tried(`position ${position} in version ${version}`, store, () => {
        const grant = store.at(version, position);
        return `key ${toHex(grant.key)}, value ${toHex(grant.value)}`;
      }, '');
    }
  }

  async rescue(store, oldest, latest) {
    const bytes = store.bytes();
    const { store: target, first, same, other, out } = await this.grants.rescue(bytes, oldest, latest);
    this.say(`  came  rescue from ${oldest} to ${latest}, target ${bytes.length} bytes: first version ${first}, as they were ${same}, with another retired since ${other}, left out ${out}`);
    this.shown(this.slots(target, () => true));
    target.check();
    this.say(`        sound, root ${toHex(target.root(latest))}`);
  }

  // The desk's grants by number and position, and with counts that are wrong.
  async positions(all, four, three, both, alone) {
    const store = await this.format(storeBytes(20));
    const check = (it) => this.tried('check', it, () => (it.check(), 'sound'), '');
    this.apply(store, 'insert A, B, C, D', all, four);
    this.count(store, 1);
    this.at(store, 1, 0, 1, 2, 3, 4);
    this.apply(store, 'delete B, change C', [remove(key(B)), insert(key(C), 5)], three);
    this.apply(store, 'empty batch', [], three);
    this.apply(store, 'delete A', [remove(key(A))], inner(leaf(key(C), 5), leaf(key(D), 4)));
    this.apply(store, 'delete D', [remove(key(D))], leaf(key(C), 5));
    this.apply(store, 'delete C', [remove(key(C))], zeros);
    for (const version of [1, 2, 3, 4, 5, 6, 0]) this.count(store, version);
    for (const [version, ...asked] of [[1, 1], [2, 0, 1, 2, 3], [4, 0], [5, 0, 1], [6, 0], [0, 0]]) this.at(store, version, ...asked);
    this.count(store, 7);
    this.at(store, 7, 9);
    let harmed = await this.byte(store, 6, 120, 9);
    check(harmed);
    this.count(harmed, 1);
    this.at(harmed, 1, 2, 3, 9, 10);
    await this.rescue(harmed, 0, 5);
    const bytes = async (...harms) => {
      for (const [slot, at, made] of harms) harmed = await this.byte(harmed, slot, at, made);
    };
    await bytes([6, 120, 3], [6, 123, 255], [6, 127, 255]);
    this.count(harmed, 1);
    this.at(harmed, 1, 4278190083, 4278190084n);
    await bytes([6, 123, 0], [6, 127, 0], [4, 120, 0], [4, 124, 0]);
    this.at(harmed, 1, 0, 3);
    await bytes([4, 120, 1], [4, 124, 2]);
    harmed = await this.lose(harmed, 0);
    await bytes([1, 4, 9], [2, 48, 128]);
    this.at(harmed, 1, 1, 2, 0, 4);
    await bytes([6, 5, 1]);
    this.count(harmed, 1);
    this.at(harmed, 1, 4);
    harmed = await this.lose(harmed, 6);
    this.count(harmed, 1);
    this.at(harmed, 1, 0);
    const lean = await this.format(storeBytes(20));
    this.apply(lean, 'insert both', both, alone);
    this.count(lean, 1);
    this.at(lean, 1, 1, 2);
    harmed = await this.byte(lean, 5, 124, 1);
    check(harmed);
    this.count(harmed, 1);
    this.at(harmed, 1, 1, 2, 3);
  }

  async run() {
    this.section = "The desk's store";
    const store = await this.format(storeBytes(20));
    const all = [insert(key(A), 1), insert(key(B), 2), insert(key(C), 3), insert(key(D), 4)];
    const four = inner(inner(leaf(key(A), 1), inner(leaf(key(B), 2), leaf(key(C), 3))), leaf(key(D), 4));
    const three = inner(inner(leaf(key(A), 1), leaf(key(C), 5)), leaf(key(D), 4));
    this.section = 'M1';
    this.apply(store, 'insert A, B, C, D', all, four);
    this.look(store, 1);
    this.section = 'M2';
    this.apply(store, 'delete B, insert C', [remove(key(B)), insert(key(C), 5)], three);
    this.look(store, 1);
    this.look(store, 2);
    this.section = 'M3';
    this.apply(store, 'empty batch', [], three);
    this.section = 'M4';
    this.apply(store, 'delete A', [remove(key(A))], inner(leaf(key(C), 5), leaf(key(D), 4)));
    this.section = 'M5';
    this.apply(store, 'delete D', [remove(key(D))], leaf(key(C), 5));
    this.section = 'M6';
    this.apply(store, 'delete C', [remove(key(C))], zeros);
    this.look(store, 6);
    this.section = '2026-01';
    for (const [first, second, limit] of [[0, 1, 7], [1, 2, 7], [2, 1, 7], [2, 3, 3], [3, 4, 5], [5, 6, 1], [4, 4, 1], [1, 2, 6]]) this.changes(store, first, second, limit, 288);
    for (const [second, limit, most] of [[2, 6, 215], [2, 7, 215], [2, 7, 216], [7, 0, 215]]) this.changes(store, 1, second, limit, most);
    this.section = '2026-14';
    for (const [first, last, most] of [[0, 6, 112], [0, 6, 111], [1, 0, 0], [1, 7, 0], [2, 3, 32]]) this.figures(store, first, last, most);
    for (const [version, most] of [[1, 171], [1, 170], [2, 316], [6, 316]]) this.pocket(store, 'B', key(B), version, most);
    this.section = 'M7';
    this.prune(store, 4);
    this.look(store, 3);
    this.section = 'M8';
    this.apply(store, 'insert E', [insert(key(D, 1), 6)], leaf(key(D, 1), 6));
    this.section = 'M9';
    const both = [insert(key(A), 1), insert(key(F), 2)];
    const alone = lone(inner(leaf(key(A), 1), leaf(key(F), 2)), 3);
    for (const bytes of [storeBytes(20), storeBytes(5)]) this.apply(await this.format(bytes), 'insert both', both, alone);
    this.section = 'M10';
    const deep = await this.format(storeBytes(258));
    this.apply(deep, 'insert both', [insert(key(A), 1), insert(key(A, 1), 2)], lone(inner(leaf(key(A), 1), leaf(key(A, 1), 2)), 255));
    const levels = (wanted) => new Set(this.slots(deep, wanted).map((it) => it.count)).size;
    const leaves = this.slots(deep, (it) => it.kind === LEAF_KIND && it.count === 256).length;
    this.say(`  came  leaves at 256 bits: ${leaves}, levels with an inner node: ${levels((it) => it.kind === INNER_KIND)}, levels in all: ${levels(() => true)}`);
    this.prove(deep, 'the first', key(A), 1, 8520);
    this.prove(deep, 'the second', key(A, 1), 1, 8520);
    for (const most of [8520, 0]) this.pocket(deep, 'the first', key(A), 1, most);
    this.figures(deep, 1, 1, 16);
    this.section = 'M11';
    this.prune(store, 4);
    this.prune(store, 8);
    this.tried('check', store, () => (store.check(), 'sound'));
    this.section = 'M12';
    const full = await this.format(storeBytes(7));
    this.apply(full, 'insert A, B, C, D', all, four);
    this.apply(full, 'empty batch', [], four);
    this.apply(full, 'delete A, B, C, D', [A, B, C, D].map((first) => remove(key(first))), zeros);
    this.section = '2026-13';
    await this.gaps(all, four);
    this.section = '2026-07';
    await this.missing(all, four);
    this.section = '2026-09';
    await this.positions(all, four, three, both, alone);
    this.section = 'Closing cases';
    const large = await this.format(storeBytes(2047));
    const many = batch(Array.from({ length: 1025 }, (_, i) => insert(numbered(i), 1)));
    this.apply(large, '1,025 records', many, zeros);
    this.apply(large, '1,024 of them', many.subarray(0, 1024 * 72), whole(0, 10));
    const long = await this.format(storeBytes(262));
    const ends = inner(inner(leaf(key(0, 0), 1), leaf(key(0, 1), 2)), zeros);
    const others = inner(zeros, inner(leaf(key(0, 6), 3), leaf(key(0, 7), 4)));
    const fourEnds = [insert(key(0, 0), 1), insert(key(0, 1), 2), insert(key(0, 6), 3), insert(key(0, 7), 4)];
    this.apply(long, 'insert keys that end in 000, 001, 110, 111', fourEnds, lone(inner(ends, others), 253));
    for (const most of [8520, 8519]) this.prove(long, 'the key that ends in 001', key(0, 1), 1, most);
    for (const most of [17080, 17079]) this.prove(long, 'the key that ends in 010', key(0, 2), 1, most);
    await this.format(storeBytes(20) - 1);
  }
}

// The lines below each heading of the file, without 01's and 02's words.
function held(file) {
  const sections = {};
  let section = '';
  for (const line of readFileSync(file, 'utf8').split('\n')) {
    if (/^\S/.test(line)) section = line;
    else if (line && !/^  0[12] /.test(line)) (sections[section] ??= []).push(line);
  }
  return sections;
}

export async function vectors(tally, grants) {
  const program = new Program(grants);
  await program.run();
  const wanted = held('crates/vectors/stdout');
  for (const [section, lines] of Object.entries(program.lines)) {
    const all = wanted[section] ?? [];
    tally.equal(`vectors, ${section}: how many lines`, lines.length, all.length);
    lines.forEach((line, i) => tally.equal(`vectors, ${section}`, line, all[i]));
  }
  const others = Object.keys(wanted).filter((section) => !program.lines[section]);
  if (others.length) console.log(`rows of the vectors that js/ has no call for: ${others.join('; ')}`);
}
