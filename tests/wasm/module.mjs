// js/ as its README has it: what each call gives, what it refuses, and that nothing is left behind.
import { createHash } from 'node:crypto';
import { readFileSync } from 'node:fs';
import { Worker } from 'node:worker_threads';
import { AT, oldStoreBytes, storeBytes } from '../../js/form.js';
import { Refused, batch, fromHex, load, toHex } from '../../js/grants.js';
import { REFUSALS } from '../../js/refusals.js';

function refused(call) {
  try {
    call();
  } catch (error) {
    return error instanceof Refused ? error.number : error.constructor.name;
  }
  return 'accepted';
}

// A shelf of one bit: the list has the root of the part of keys that begin with 0, and none for those that begin with 1.
export async function shelf(grants, tally) {
  const [low, high, none] = [0x00, 0x80, 0x40].map((first) => Uint8Array.from({ length: 32 }, (_, i) => (i ? 0 : first)));
  const read = grants.name('read');
  const [list, part] = [await grants.format(20), await grants.format(20)];
  const { root: partRoot } = part.apply(1, [{ key: none, value: read }]);
  const { root } = list.apply(1, [{ key: low, value: partRoot }]);
  const proof = Buffer.concat([list.prove(1, low), part.prove(1, none)]);
  tally.equal('a key of a shelf', grants.shelfVerify(root, 1, none, proof), { present: true, value: read });
  tally.equal('a key of a part, absent', grants.shelfVerify(root, 1, low, Buffer.concat([list.prove(1, low), part.prove(1, low)])), { present: false });
  tally.equal('a part that is not there', grants.shelfVerify(root, 1, high, list.prove(1, high)), { present: false });
  const wrong = [[root.slice(1), 13, none, proof], [root, 13, none, proof], [root, 1, none, list.prove(1, low)], [root, 1, none, Buffer.concat([proof, Buffer.of(0)])], [root, 1, high, proof], [partRoot, 1, none, proof]];
  tally.equal('refused for a shelf', wrong.map((given) => refused(() => grants.shelfVerify(...given))), [12, 21, 10, 10, 11, 11]);
  tally.equal('bits that are no number', refused(() => grants.shelfVerify(root, -1, none, proof)), 'RangeError');
  const alone = await load(new URL('../../js/grants-verify.wasm', import.meta.url));
  tally.equal('by the checker alone', alone.shelfVerify(root, 1, none, proof), { present: true, value: read });
}

async function loading(tally) {
  const file = new URL('../../js/grants-verify.wasm', import.meta.url);
  const empty = 'e3b0c44298fc1c149afbf4c8996fb92427ae41e4649b934ca495991b7852b855';
  for (const source of [file, file.href, file.pathname, readFileSync(file), new Uint8Array(readFileSync(file)).buffer, await WebAssembly.compile(readFileSync(file))]) {
    const grants = await load(source);
    tally.equal('loaded', toHex(grants.sha256('')), empty);
    tally.equal('a store of the checker alone', await grants.format(1).catch((e) => e.message), 'this WebAssembly only checks proofs: load grants.wasm');
  }
  const { module } = await load();
  const script = `import { workerData, parentPort } from 'node:worker_threads';
    const { load, toHex } = await import(workerData.url);
    parentPort.postMessage(toHex((await load(workerData.module)).sha256('')));`;
  const url = new URL('../../js/grants.js', import.meta.url).href;
  const worker = new Worker(new URL(`data:text/javascript,${encodeURIComponent(script)}`), { workerData: { module, url } });
  tally.equal('in a worker', await new Promise((done, not) => worker.once('message', done).once('error', not)), empty);
  await worker.terminate();
}

async function publishing(tally, grants) {
  const store = await grants.format(20);
  const [chords, lyrics] = ['chords sonata', 'lyrics sonata'].map((name) => grants.name(name));
  const read = grants.name('read');
  const first = store.apply(1, [{ key: lyrics, value: toHex(read) }, { key: chords, value: read }]);
  tally.equal('the first version', [first.version, first.newRecords, store.oldest, store.latest, store.capacity], [1, first.newRecords, 0, 1, 20]);
  const second = store.applyNext([{ key: lyrics, value: null }]);
  tally.equal('its root', toHex(store.root(1)), toHex(first.root));
  tally.equal('get', store.get(1, lyrics), { present: true, value: read });
  tally.equal('get, absent', store.get(2, lyrics), { present: false });
  tally.equal('palette', store.palette(1, [lyrics, chords, lyrics]).map(toHex), [lyrics, chords, lyrics].map((key) => toHex(store.prove(1, key))));
  tally.equal('no keys', store.palette(1, []), []);
  tally.equal('changes', store.changes(1, 2), [{ key: lyrics, before: read, after: null }]);
  tally.equal('changes, undone', store.changes(2, 1), [{ key: lyrics, before: null, after: read }]);
  tally.equal('no changes', store.changes(2, 2), []);
  const other = await grants.format(20);
  other.apply(1, [{ key: lyrics, value: read }]);
  other.apply(2, [{ key: lyrics, value: lyrics }, { key: chords, value: read }]);
  tally.equal('another value', other.changes(1, 2).map(({ key, before, after }) => [toHex(key), before && toHex(before), toHex(after)]).sort(),
    [[toHex(lyrics), toHex(read), toHex(lyrics)], [toHex(chords), null, toHex(read)]].sort());
  const [then, now] = [store.prove(1, lyrics), store.prove(2, lyrics)];
  tally.equal('present', grants.verify(first.root, lyrics, then), { present: true, value: read });
  tally.equal('absent', grants.verify(toHex(second.root), toHex(lyrics).toUpperCase(), toHex(now)), { present: false });
  tally.equal('views', grants.verify(new DataView(first.root.buffer), lyrics.buffer, then), { present: true, value: read });
  const row = [then, store.prove(1, chords), then];
  const asked = [lyrics, chords, lyrics];
  tally.equal('many', grants.verifyMany(first.root, asked, row), row.map((proof, i) => grants.verify(first.root, asked[i], proof)));
  tally.equal('many, their bytes', grants.verifyMany(first.root, asked, Buffer.concat(row)), grants.verifyMany(first.root, asked, row));
  tally.equal('many, each its own', grants.verifyMany(second.root, asked, row).map((it) => it.number), asked.map((key, i) => refused(() => grants.verify(second.root, key, row[i]))));
  tally.equal('many, none', grants.verifyMany(first.root, [], []), []);
  tally.equal('many, a proof short', refused(() => grants.verifyMany(first.root, asked, row.slice(1))), 10);
  tally.equal('many, a short key', refused(() => grants.verifyMany(first.root, [lyrics.slice(1)], [then])), 12);
  tally.equal('many, 257 keys', refused(() => grants.verifyMany(first.root, Array(257).fill(lyrics), Array(257).fill(then))), 12);
  tally.equal('last month', refused(() => grants.verify(second.root, lyrics, then)), 11);
  tally.equal('a byte over', refused(() => grants.verify(first.root, lyrics, [...then, 0].reduce((h, b) => h + b.toString(16).padStart(2, '0'), ''))), 10);
  tally.equal('a short root', refused(() => grants.verify(first.root.slice(1), lyrics, then)), 12);
  tally.equal('a pocket proof', toHex(store.provePocket(1, lyrics)), toHex(then));
  tally.equal('a pocket check', grants.verifyPocket(first.root, lyrics, then), { present: true, value: read });
  await shelf(grants, tally);
  tally.equal('a pocket check, last month', refused(() => grants.verifyPocket(second.root, lyrics, then)), 11);
  const deep = await grants.format(64);
  const [near, far] = [new Uint8Array(32), new Uint8Array(32)];
  far[5] = 0x80;
  const apart = deep.apply(1, [{ key: near, value: read }, { key: far, value: read }]);
  tally.equal('41 steps', [refused(() => deep.provePocket(1, far)), refused(() => grants.verifyPocket(apart.root, far, deep.prove(1, far)))], [19, 19]);
  tally.equal('figures', deep.figures(0, 1), {
    versions: [{ version: 0, leaves: 0, innerNodes: 0, longestPath: 0, pathSum: 0 }, { version: 1, leaves: 2, innerNodes: 41, longestPath: 41, pathSum: 82 }],
    distinct: 43,
    records: 43,
  });
  tally.equal('no range', [refused(() => deep.figures(1, 0)), refused(() => deep.figures(0, 2)), refused(() => deep.figures(0, 1, 31))], [8, 8, 9]);
  const orchestra = await grants.format(20);
  const [raw, hashed] = [(text) => new TextEncoder().encode(text), (text) => grants.name(text)];
  const viola = { key: raw('viola'), value: raw('may write') };
  const played = orchestra.apply(1, [{ key: hashed('viola'), value: hashed('may write') }]);
  const message = grants.writeMessage(orchestra.prove(1, hashed('viola')), viola.key, [viola]);
  tally.equal('a message there and back', grants.readMessage(message), { proof: orchestra.prove(1, hashed('viola')), asked: viola.key, leaves: [viola] });
  tally.equal('a message', grants.verifyMessage(played.root, message), { present: true, value: hashed('may write') });
  tally.equal('a message, last month', refused(() => grants.verifyMessage(first.root, message)), 11);
  const nothing = grants.writeMessage(orchestra.prove(1, hashed('flute')), raw('flute'), [viola]);
  tally.equal('a message of absence', [grants.verifyMessage(played.root, nothing).present, grants.readMessage(nothing).leaves.length], [false, 1]);
  tally.equal('another value', refused(() => grants.writeMessage(orchestra.prove(1, hashed('viola')), viola.key, [{ ...viola, value: raw('may read') }])), 15);
  tally.equal('three leaves', refused(() => grants.writeMessage(orchestra.prove(1, hashed('viola')), viola.key, [viola, viola, viola])), 15);
  tally.equal('no message', [refused(() => grants.readMessage(message.slice(1))), refused(() => grants.verifyMessage(played.root, [...message, 0].reduce((h, b) => h + b.toString(16).padStart(2, '0'), '')))], [10, 10]);
  tally.equal('no bytes', refused(() => grants.verify('', '', '')), 12);
  for (const odd of ['abc', 'xy', ' ab', null, undefined, 7, [1, 2]]) tally.equal(`key ${odd}`, refused(() => grants.verify(first.root, odd, then)), 'TypeError');
  for (const odd of [-1, 1.5, 2 ** 32, NaN, '1', undefined, 1n]) tally.equal(`version ${odd}`, refused(() => store.get(odd, lyrics)), 'RangeError');
  for (const odd of [-1, 1.5, 2 ** 32, NaN, '1', undefined, 1n]) tally.equal(`number ${odd}`, refused(() => store.apply(odd, [])), 'RangeError');
  const gaps = await grants.format(20);
  const five = gaps.apply(5, [{ key: lyrics, value: read }]);
  const last = gaps.apply(4294967295, [{ key: lyrics, value: null }]);
  tally.equal('numbers with a gap', [five.version, last.version, gaps.latest], [5, 4294967295, 4294967295]);
  tally.equal('between', [toHex(gaps.root(4000000000)), gaps.get(4294967294, lyrics).present, gaps.get(4, lyrics).present], [toHex(five.root), true, false]);
  tally.equal('no number left', refused(() => gaps.applyNext([])), 18);
  return { store, lyrics, then, first };
}

// Every call that can be refused, refused: the store stays, and the sentence is the table's.
async function refusing(tally, grants, { store, lyrics }) {
  const before = toHex(store.bytes());
  const damaged = await grants.open(store.bytes().fill(255, storeBytes(1) + AT.key, storeBytes(1) + AT.key + 1));
  const cases = [
    [3, () => damaged.check()],
    [4, () => store.apply(3, new Uint8Array(71))],
    [5, () => store.apply(1, [{ key: lyrics, value: null }, { key: lyrics, value: lyrics }])],
    [18, () => store.apply(2, [])],
    [18, () => store.apply(0, [])],
    [7, () => store.applyNext(Array.from({ length: 20 }, (_, i) => ({ key: grants.name(`${i}`), value: lyrics })))],
    [8, () => store.prune(3)],
    [8, () => store.root(4294967295)],
    [9, () => store.prove(1, lyrics, 71)],
    [12, () => store.get(1, lyrics.slice(1))],
    [14, () => store.prove(0, lyrics)],
    [8, () => store.finding(3, lyrics, new Uint8Array(9))],
    [14, () => store.finding(0, lyrics, new Uint8Array(9))],
    [10, () => store.finding(1, lyrics, new Uint8Array(9))],
    [11, () => store.finding(1, grants.name('another'), store.prove(1, lyrics))],
    [12, () => store.finding(1, lyrics.slice(1), store.prove(1, lyrics))],
    [3, () => damaged.finding(1, lyrics, store.prove(1, lyrics))],
    [8, () => store.count(3)],
    [8, () => store.at(3, 0)],
    [20, () => store.at(1, 2)],
    [20, () => store.at(1, 2n ** 64n - 1n)],
    [20, () => store.at(0, 0)],
    [13, () => store.changes(0, 1, 0)],
    [8, () => store.changes(0, 99)],
  ];
  for (const [number, call] of cases) {
    tally.equal(`refused with ${number}`, refused(call), number);
    tally.equal(`after ${number}`, toHex(store.bytes()), before);
  }
  // A lost record, and a spoilt one with its slot.
  const two = await grants.format(4);
  two.apply(1, [{ key: '00'.repeat(32), value: lyrics }, { key: '80'.repeat(32), value: lyrics }]);
  const whole = two.bytes();
  const missing = async (harm) => {
    const bytes = whole.slice();
    harm(bytes);
    const open = await grants.open(bytes);
    const told = (call) => {
      try {
        call();
      } catch (error) {
        return [error.number, error.slot];
      }
      return 'accepted';
    };
    return [told(() => open.root(1)), told(() => open.get(1, '80'.repeat(32))), told(() => open.prove(1, '80'.repeat(32))), told(() => open.get(1, '00'.repeat(32)))];
  };
  tally.equal('a lost leaf', await missing((bytes) => bytes.fill(0, storeBytes(1), storeBytes(2))), ['accepted', [17, null], [17, null], 'accepted']);
  tally.equal('a spoilt leaf', await missing((bytes) => (bytes[storeBytes(1)] = 1)), ['accepted', [3, 1], [3, 1], 'accepted']);
  tally.equal('a wrong key', await missing((bytes) => (bytes[storeBytes(1) + AT.key] = 0)), ['accepted', [3, null], [3, null], 'accepted']);
  tally.equal('a spoilt root', await missing((bytes) => (bytes[storeBytes(2) + AT.kind] = 7)), [[3, 2], [3, 2], [3, 2], [3, 2]]);
  tally.equal('a lost root', await missing((bytes) => bytes.fill(0, storeBytes(2), storeBytes(3))), ['accepted', 'accepted', [14, null], 'accepted']);
  tally.equal('its words', new Refused(3, 5).message.endsWith('; the record in slot 5 is spoilt'), true);
  tally.equal('no slots', await grants.format(0).catch((e) => e.number), 1);
  tally.equal('too many slots', await grants.format(1e9).catch((e) => e.number), 1);
  const few = await grants.open(new Uint8Array(5));
  for (const field of ['capacity', 'oldest', 'latest']) tally.equal(`the ${field} of five bytes`, refused(() => few[field]), 1);
  const beyond = await grants.rescue(store.bytes(), 0, 0).catch((e) => [e.number, e.sentence]);
  tally.equal('what can not be rescued', beyond, [3, 'the version that the run must end at can not be rescued']);
  tally.equal('what is not sound', new Refused(3).message, "refused with 3: the store isn't sound");
  const odd = await grants.open(new Uint8Array(storeBytes(1)).fill(1));
  tally.equal('a wrong header', refused(() => odd.check()), 2);
  for (const [number, sentence] of Object.entries(REFUSALS)) {
    const error = new Refused(Number(number));
    tally.equal('its sentence', [error.name, error.number, error.sentence, error.message], ['Refused', Number(number), sentence, `refused with ${number}: ${sentence}`]);
  }
  const header = readFileSync('include/grants.h', 'utf8');
  for (const [number, sentence] of Object.entries(REFUSALS)) tally.holds(`the header's sentence of ${number}`, new RegExp(`^ \\* +${number}  `, 'm').test(header) && header.includes(sentence));
}

// The header and a slot lost: the versions after that slot's record come back, and nothing is left of the source.
async function rescuing(tally, grants) {
  const store = await grants.format(20);
  const key = grants.name('chords sonata');
  for (const name of ['read', 'write', 'print']) store.applyNext([{ key, value: grants.name(name) }]);
  const signed = toHex(store.root(3));
  const damaged = store.bytes().fill(255, 0, storeBytes(0) + 8);
  const { store: rescued, ...numbers } = await grants.rescue(damaged, 0, 3);
  tally.equal('a rescue', numbers, { first: 2, same: 2, other: 0, out: 1 });
  tally.equal('the rescued root', toHex(rescued.root(3)), signed);
  tally.equal('a rescued store', [refused(() => rescued.check()), rescued.oldest, rescued.latest, rescued.capacity], ['accepted', 2, 3, 20]);
  const again = await grants.rescue(toHex(rescued.bytes()), 2, 3);
  tally.equal('a rescue again', [toHex(again.store.bytes()), again.same, again.other, again.out], [toHex(rescued.bytes()), 2, 0, 0]);
  const why = (...given) => grants.rescue(...given).then(() => 'accepted', (e) => e.number ?? e.constructor.name);
  tally.equal('no rescue', [await why(damaged.slice(1), 0, 3), await why(damaged, 4, 3), await why(damaged, 0, 1), await why(damaged, -1, 3), await why(null, 0, 3)], [1, 2, 3, 'RangeError', 'TypeError']);
}

// What was lent to a call is wiped when it ends, and memory stays as large as the largest call made it.
async function memory(tally, grants, { lyrics, then, first }) {
  let seen;
  const instantiate = WebAssembly.instantiate;
  WebAssembly.instantiate = async (...given) => (seen = await instantiate(...given));
  const own = await load(grants.module);
  WebAssembly.instantiate = instantiate;
  const { exports } = seen;
  const size = () => exports.memory.buffer.byteLength;
  const left = () => new Uint8Array(exports.memory.buffer, exports.__heap_base.value).some((b) => b !== 0);
  for (let i = 0; i < 2000; i += 1) own.verify(first.root, lyrics, then);
  const small = size();
  refused(() => own.verify(first.root, lyrics, new Uint8Array(17080).fill(9)));
  tally.equal('memory after 2,000 proofs and a long refused one', size(), small);
  tally.equal('nothing is left of a call', left(), false);
  const long = new Uint8Array(3 << 20).fill(7);
  tally.equal('a long message', toHex(own.sha256(long)), createHash('sha256').update(long).digest('hex'));
  const large = size();
  tally.holds('memory grew', large > small);
  tally.equal('nothing is left of it', left(), false);
  for (let i = 0; i < 20; i += 1) own.sha256(long);
  tally.equal('memory after twenty more', size(), large);
  // Of a store with a table: behind the two nothing is left either.
  WebAssembly.instantiate = async (...given) => (seen = await instantiate(...given));
  const tabled = await own.format(40);
  WebAssembly.instantiate = instantiate;
  tabled.index();
  tabled.apply(1, [{ key: lyrics, value: lyrics }]);
  tabled.palette(1, [lyrics, first.root]);
  refused(() => tabled.prove(1, lyrics.slice(1)));
  const end = (from, length) => Math.ceil(from / 64) * 64 + length;
  const behind = end(end(seen.exports.__heap_base.value, storeBytes(40)), 4 * 40);
  tally.equal('nothing is left behind a table', new Uint8Array(seen.exports.memory.buffer, behind).some((b) => b !== 0), false);
  tally.equal('and the table is there', new Uint32Array(seen.exports.memory.buffer, behind - 160, 40).slice(0, 3).join(), '0,40,40');
  // A closed store is wiped, its memory is another's, and nothing can be asked of it.
  const { exports: held } = seen;
  tabled.close();
  tally.equal('nothing is left of a closed store', new Uint8Array(held.memory.buffer, held.__heap_base.value).some((b) => b !== 0), false);
  const said = (call) => {
    try {
      return call();
    } catch (error) {
      return error.message;
    }
  };
  for (const call of [() => tabled.bytes(), () => tabled.latest, () => tabled.get(1, lyrics), () => tabled.index(), () => tabled.close()]) tally.equal('a closed store', said(call), 'this store was closed');
  let made = 0;
  WebAssembly.instantiate = async (...given) => ((made += 1), instantiate(...given));
  const next = await own.format(50);
  for (let i = 0; i < 40; i += 1) {
    const it = await own.open(next.bytes());
    it.apply(1, [{ key: lyrics, value: lyrics }]);
    tally.equal('a store after another', [it.get(1, lyrics).present, it.count(1), it.indexed], [true, 1, false]);
    it.close();
  }
  WebAssembly.instantiate = instantiate;
  tally.equal('its memory is another’s', made, 1);
  const [one, other] = [await own.format(3), await own.format(3)];
  one.apply(1, [{ key: lyrics, value: lyrics }]);
  tally.equal('two stores', [one.latest, other.latest], [1, 0]);
}

// How many grants and which one, in a store of 40 beside the list of its keys, and in stores with wrong counts.
async function counting(tally, grants) {
  const store = await grants.format(400);
  const names = Array.from({ length: 40 }, (_, i) => toHex(grants.name(`${i}`)));
  store.apply(1, names.map((key) => ({ key, value: grants.name('read') })));
  store.apply(9, names.slice(7).map((key) => ({ key, value: null })));
  for (const [version, held] of [[0, []], [1, names], [8, names], [9, names.slice(0, 7)]]) {
    const keys = [...held].sort();
    tally.equal(`how many in ${version}`, store.count(version), keys.length);
    tally.equal(`which in ${version}`, keys.map((_, i) => toHex(store.at(version, i % 2 ? i : BigInt(i)).key)), keys);
    tally.equal(`none after in ${version}`, refused(() => store.at(version, keys.length)), 20);
  }
  tally.equal('its value', toHex(store.at(9, 0).value), toHex(grants.name('read')));
  // Present, and absent between two neighbours.
  for (const key of [names[3], grants.name('no one')]) tally.equal('the truth', store.finding(1, key, store.prove(1, key)), { truth: true, messages: [] });
  for (const odd of [-1, 1.5, 2 ** 53, NaN, '1', undefined, null, -1n, 2n ** 64n]) tally.equal(`position ${odd}`, refused(() => store.at(1, odd)), 'RangeError');
  for (const most of [2 ** 53 - 1, 2n ** 53n, 2n ** 64n - 1n]) tally.equal(`position ${most}`, refused(() => store.at(1, most)), 20);
  // A leaf in slot 0, one in slot 1, the root in slot 2.
  const two = await grants.format(3);
  two.apply(1, [{ key: '00'.repeat(32), value: names[0] }, { key: '80'.repeat(32), value: names[1] }]);
  const counted = (left, right) => {
    const bytes = two.bytes();
    [left, right].forEach((count, i) => new DataView(bytes.buffer).setUint32(storeBytes(2) + AT.counts[i], count, true));
    return grants.open(bytes);
  };
  const most = await counted(2 ** 32 - 1, 2 ** 32 - 1);
  tally.equal('a sum of more than 32 bits', [most.count(1), refused(() => most.check())], [8589934590, 3]);
  tally.equal('positions left over', [refused(() => most.at(1, 8589934589)), refused(() => most.at(1, 8589934590)), toHex(most.at(1, 0).key)], [3, 20, '00'.repeat(32)]);
  const none = await counted(0, 0);
  tally.equal('no counts', [none.count(1), refused(() => none.at(1, 0))], [0, 20]);
}

// Publishings, a key's history and a version's grants, beside a list that is kept along; refused where the store isn't sound.
async function histories(tally, grants) {
  const store = await grants.format(600);
  const names = Array.from({ length: 12 }, (_, i) => toHex(grants.name(`${i}`)));
  const [read, write] = ['read', 'write'].map((name) => toHex(grants.name(name)));
  const kept = new Map([[0, new Map()]]);
  // Numbers with gaps; each publishing changes three keys: another value, the same, none.
  for (let version = 3, last = kept.get(0); version < 60; version += 1 + (version % 4)) {
    const changes = [0, 1, 2].map((i) => [names[(version * (i + 2)) % 12], [read, write, null][(version + i) % 3]]);
    const now = new Map(last);
    for (const [key, value] of new Map(changes)) value === null ? now.delete(key) : now.set(key, value);
    store.apply(version, [...new Map(changes)].map(([key, value]) => ({ key, value })));
    kept.set(version, (last = now));
  }
  const readAs = (version) => kept.get([...kept.keys()].filter((it) => it <= version).at(-1));
  const compared = (oldest) => {
    const firsts = store.publishings().map(({ first }) => first);
    tally.equal('publishings begin with oldest and end with latest', [firsts[0], store.publishings().at(-1).last], [oldest, store.latest]);
    tally.holds('each goes on to the next', store.publishings().every(({ last }, i, all) => i + 1 === all.length || last + 1 === all[i + 1].first));
    tally.holds('none is missed', [...kept.keys()].filter((it) => it >= oldest).every((it) => firsts.includes(it) || toHex(store.root(it)) === toHex(store.root(it - 1))));
    for (let version = oldest; version <= store.latest; version += 7) {
      tally.equal(`the grants of ${version}`, store.grants(version).map(({ key, value }) => `${toHex(key)} ${toHex(value)}`), [...readAs(version)].map(([key, value]) => `${key} ${value}`).sort());
    }
    for (const key of [...names, toHex(grants.name('no one'))]) {
      const wanted = [];
      for (let version = oldest; version <= store.latest; version += 1) {
        const value = readAs(version).get(key) ?? null;
        if (wanted.length === 0 || wanted.at(-1).value !== value) wanted.push({ version, value });
      }
      tally.equal('a history', store.history(key).map(({ version, value }) => ({ version, value: value && toHex(value) })), wanted);
    }
  };
  compared(0);
  store.prune(30);
  compared(30);
  tally.equal('a key of 31 bytes', refused(() => store.history('00'.repeat(31))), 12);
  tally.equal('a version that is not kept', refused(() => store.grants(29)), 8);
  const damaged = await grants.open(store.bytes().fill(255, storeBytes(1) + AT.key, storeBytes(1) + AT.key + 1));
  for (const call of [() => damaged.publishings(), () => damaged.history(names[0]), () => damaged.grants(40)]) tally.equal('not of a damaged store', refused(call), 3);
}

// A store with a table beside its twin without one: every answer, every refusal and every byte.
async function tables(tally, grants) {
  const [plain, tabled] = [await grants.format(1500), await grants.format(1500)];
  tabled.index();
  tally.equal('who has a table', [plain.indexed, tabled.indexed], [false, true]);
  const names = Array.from({ length: 60 }, (_, i) => toHex(grants.name(`${i}`)));
  const values = ['read', 'write'].map((name) => toHex(grants.name(name)));
  const said = (call) => {
    try {
      return JSON.stringify(call(), (_, it) => (it instanceof Uint8Array ? toHex(it) : it));
    } catch (error) {
      return error instanceof Refused ? `refused ${error.number} ${error.slot}` : error.constructor.name;
    }
  };
  const same = (what, call) => tally.equal(what, said(() => call(tabled)), said(() => call(plain)));
  const reads = (version) => {
    for (const key of [...names.slice(0, 8), grants.name('no one'), '00'.repeat(31)]) for (const [what, call] of Object.entries({ get: (it) => it.get(version, key), prove: (it) => it.prove(version, key), short: (it) => it.prove(version, key, 100) })) same(`${what} by a table`, call);
    for (const [what, call] of Object.entries({ root: (it) => it.root(version), count: (it) => it.count(version), at: (it) => [0, 1, 7].map((i) => said(() => it.at(version, i))), none: (it) => it.at(version, 10_000), palette: (it) => it.palette(version, names.slice(0, 20)), 'the grants': (it) => it.grants(version), changes: (it) => it.changes(version, it.latest) })) same(`${what} by a table`, call);
  };
  for (let round = 1, random = 7; round <= 14; round += 1) {
    const changes = Array.from({ length: 9 }, () => {
      random = (random * 1103515245 + 12345) % 2147483648;
      return { key: names[random % 60], value: [...values, null][(random >> 8) % 3] };
    }).filter(({ key }, i, all) => all.findIndex((it) => it.key === key) === i);
    same('apply by a table', (it) => it.apply(3 * round, changes));
    if (round % 5 === 0) same('prune by a table', (it) => it.prune(3 * round - 4));
    // Refused, and nothing changes.
    for (const call of [(it) => it.apply(3 * round, []), (it) => it.apply(3 * round + 1, new Uint8Array(71)), (it) => it.prune(3 * round + 1), (it) => it.apply(3 * round + 1, [changes[0], changes[0]])]) same('refused by a table', call);
    tally.holds('the same bytes', toHex(plain.bytes()) === toHex(tabled.bytes()));
    for (const version of [3 * round, 3 * round - 2, plain.oldest, 3 * round + 1]) reads(version);
  }
  same('publishings by a table', (it) => it.publishings());
  for (const key of names.slice(0, 6)) same('a history by a table', (it) => it.history(key));
  const full = Array.from({ length: 1024 }, (_, i) => ({ key: grants.name(`more ${i}`), value: values[0] }));
  same('no room by a table', (it) => it.apply(100, full));
  // Made fresh, it keeps its table; nothing of what it held is found.
  same('made fresh', (it) => (it.format(), it.apply(1, full.slice(0, 300)), [it.count(1), it.root(1)]));
  tally.equal('still by a table', [plain.indexed, tabled.indexed], [false, true]);
  // Long work makes one by itself where it pays, and no answer shows it.
  const large = await grants.open(plain.bytes());
  tally.equal('not for a few reads', (large.palette(1, names.slice(0, 3)), large.get(1, names[0]), large.history(full[0].key), large.indexed), false);
  tally.equal('for many', (large.grants(1), large.indexed), true);
  const many = await grants.open(plain.bytes());
  tally.equal('for a palette', [many.palette(1, full.slice(0, 256).map(({ key }) => key)).map(toHex).join(), many.indexed], [full.slice(0, 256).map(({ key }) => toHex(plain.prove(1, key))).join(), true]);
  const small = await grants.format(40);
  tally.equal('not for a small store', (small.apply(1, full.slice(0, 9)), small.grants(1), small.indexed), false);
  // A damaged store has none, and reads what it can as before.
  const damaged = () => grants.open(plain.bytes().fill(9, storeBytes(1), storeBytes(1) + 1));
  const [one, two] = [await damaged(), await damaged()];
  tally.equal('no table of a damaged store', [refused(() => one.index()), one.indexed], [3, false]);
  for (const version of [0, 1, 2]) for (const { key } of full.slice(0, 40)) tally.equal('a damaged store reads as before', said(() => one.get(version, key)), said(() => two.get(version, key)));
  tally.equal('nor for a palette', [said(() => two.palette(1, full.slice(0, 256).map(({ key }) => key))), two.indexed], [said(() => one.palette(1, full.slice(0, 256).map(({ key }) => key))), false]);
  const few = await grants.open(new Uint8Array(5));
  tally.equal('no table of five bytes', [refused(() => few.index()), few.indexed], [1, false]);
}

// A store of 20 slots, and one of 16, whose size a store of 15 slots has today.
async function oldForm(tally, grants) {
  // Not sound: a slot holds one byte.
  for (const [slots, number, kind, old] of [[20, 1, 1, true], [16, 2, 1, true], [16384, 2, 1, true], [20, 1, 4, false], [16, 2, 9, false]]) {
    const bytes = new Uint8Array(oldStoreBytes(slots));
    bytes.set([24, 0, 0, 0, kind, 0, 0, 0, slots & 255, slots >> 8]);
    bytes[100] = 1;
    const store = await grants.open(bytes);
    tally.equal(`old form, ${slots} slots, kind ${kind}`, store.oldForm, old);
    const calls = [() => store.check(), () => store.root(0), () => store.get(0, '00'.repeat(32)), () => store.count(0), () => store.at(0, 0), () => store.apply(1, []), () => store.prune(0), () => store.changes(0, 0)];
    for (const call of calls) {
      try {
        call();
        tally.fail('an old store was taken');
      } catch (error) {
        tally.equal('refused', [error.number, error.oldForm], [number, old]);
        tally.equal('what it is', error.message.endsWith('this is a store of the old form (slots of 120 bytes); `grants move` of the command line tool brings it over'), old);
      }
    }
  }
  const empty = (slots) => Uint8Array.from({ length: oldStoreBytes(slots) }, (_, i) => ({ 0: 24, 4: 1, 8: slots })[i] ?? 0);
  const why = (slots) => grants.rescue(empty(slots), 0, 1).catch((e) => [e.number, e.oldForm]);
  tally.equal('no rescue of one', [await why(20), await why(16)], [[1, true], [3, true]]);
  const cut = await grants.open(new Uint8Array(oldStoreBytes(20) - 1).fill(24, 0, 1).fill(1, 4, 5));
  tally.equal('an old store cut short', [cut.oldForm, refused(() => cut.check())], [false, 1]);
  tally.equal('a store of today', (await grants.format(15)).oldForm, false);
  // A sound one is moved over in memory, and back it has its bytes.
  const made = await grants.format(20);
  made.apply(1, [{ key: '00'.repeat(32), value: '01'.repeat(32) }, { key: '40'.repeat(32), value: '02'.repeat(32) }]);
  const back = made.movedBack();
  tally.equal('moved back', [back.length, made.movedOver], [oldStoreBytes(20), false]);
  const over = await grants.open(back);
  tally.equal('moved over', [over.oldForm, over.movedOver, over.count(1), toHex(over.root(1))], [false, true, 2, toHex(made.root(1))]);
  tally.equal('there and back', [toHex(over.bytes()) === toHex(made.bytes()), toHex(over.movedBack()) === toHex(back)], [true, true]);
  tally.equal('an empty one', (await grants.open(empty(16))).movedOver, true);
  tally.equal('no bytes', (await grants.open(new Uint8Array(0))).oldForm, false);
}

export async function module(tally, grants) {
  await loading(tally);
  const made = await publishing(tally, grants);
  await refusing(tally, grants, made);
  await rescuing(tally, grants);
  await counting(tally, grants);
  await histories(tally, grants);
  await tables(tally, grants);
  await oldForm(tally, grants);
  await memory(tally, grants, made);
  tally.equal('hex', toHex(fromHex('00ffAb')), '00ffab');
  tally.equal('a batch as it is', batch(new Uint8Array([1, 2])), new Uint8Array([1, 2]));
}
