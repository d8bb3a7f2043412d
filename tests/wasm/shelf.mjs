// Shelves of js/: published, read, proved and pruned beside a list that is kept along; and files that are lost, older, swapped, changed or of another shelf.
import { Refused, batch, fromHex, shelfPieces, toHex } from '../../js/grants.js';
import { Shelf, ShelfRefused, listKey, partFileOf, partOf } from '../../js/shelf.js';

const asFiles = (folder) => [...folder].map(([name, bytes]) => ({ name, read: async () => bytes }));
const refusedBy = (promise) => promise.then(() => 'accepted', (error) => (error instanceof Refused ? error.number : error.constructor.name));
const partBy = (promise) => promise.then(() => 'accepted', (error) => (error instanceof ShelfRefused ? [error.number, error.part, error.sentence] : error.message));

// A shelf in memory, and what it should hold in each version.
async function published(grants, bits) {
  const folder = new Map();
  const put = async (name, bytes) => void folder.set(name, bytes);
  const shelf = await Shelf.format(grants, { bits, slots: 256, listSlots: 800 }, put);
  const names = Array.from({ length: 40 }, (_, i) => toHex(grants.name(`${i}`)));
  const [read, write] = ['read', 'write'].map((name) => toHex(grants.name(name)));
  const kept = new Map([[0, new Map()]]);
  const snapshots = [new Map(folder)];
  for (const version of [2, 3, 7, 11, 12]) {
    const now = new Map([...kept.values()].at(-1));
    const changes = version === 2 ? names.slice(0, 30).map((key) => [key, read]) : version === 11 ? [[names[0], read], [names[39], null]] : names.slice(version, version + 9).map((key, i) => [key, [write, null, read][i % 3]]);
    for (const [key, value] of changes) value === null ? now.delete(key) : now.set(key, value);
    const { gone } = await shelf.publish(version, changes.map(([key, value]) => ({ key, value })), put);
    gone.forEach((name) => folder.delete(name));
    kept.set(version, now);
    snapshots.push(new Map(folder));
  }
  return { folder, put, shelf, names, kept, snapshots };
}

async function compared(tally, grants, bits, shelf, kept, names) {
  const readAs = (version) => kept.get([...kept.keys()].filter((it) => it <= version).at(-1));
  for (const version of [0, 2, 5, 7, 11, 12].filter((it) => it >= shelf.oldest)) {
    const held = readAs(version);
    const listed = [];
    for await (const { key, value } of shelf.grants(version)) listed.push(`${toHex(key)} ${toHex(value)}`);
    tally.equal(`${bits} bits: the grants of ${version}`, listed, [...held].map((it) => it.join(' ')).sort());
    tally.equal('how many', await shelf.count(version), held.size);
    if (held.size === 0) {
      tally.equal('nothing to prove', await refusedBy(shelf.prove(version, fromHex(names[0]))), 14);
      continue;
    }
    const keys = names.map(fromHex);
    const proofs = await shelf.palette(version, keys);
    const root = shelf.root(version);
    tally.equal('proved', proofs.map((proof, i) => grants.shelfVerify(root, bits, keys[i], proof)).map((it) => (it.present ? toHex(it.value) : null)), names.map((name) => held.get(name) ?? null));
    tally.equal('cut apart', shelfPieces(Buffer.concat(proofs)).map(toHex), proofs.map(toHex));
    tally.equal('one by itself', toHex(await shelf.prove(version, keys[3])), toHex(proofs[3]));
    const found = await shelf.get(version, keys[5]);
    tally.equal('read', found.present ? toHex(found.value) : null, held.get(names[5]) ?? null);
  }
  const [first, second] = [kept.get(7), kept.get(12)];
  if (shelf.oldest <= 7) {
    const wanted = [...new Set([...first.keys(), ...second.keys()])].sort().filter((key) => first.get(key) !== second.get(key)).map((key) => [key, first.get(key) ?? null, second.get(key) ?? null]);
    tally.equal('what changed', (await shelf.changes(7, 12)).map(({ key, before, after }) => [toHex(key), before && toHex(before), after && toHex(after)]), wanted);
  }
  for (const name of [names[3], names[8], names[39]]) {
    const wanted = [];
    for (let version = shelf.oldest; version <= shelf.latest; version += 1) {
      const value = readAs(version).get(name) ?? null;
      if (wanted.length === 0 || wanted.at(-1).value !== value) wanted.push({ version, value });
    }
    tally.equal('a history', (await shelf.history(fromHex(name))).map(({ version, value }) => ({ version, value: value && toHex(value) })), wanted);
  }
}

// What may happen to the files of a shelf's folder.
async function harmed(tally, grants, { folder, snapshots, names, kept }) {
  const opened = (files) => Shelf.open(grants, asFiles(files));
  const part = partOf(fromHex(names[4]), 2);
  const [key, file] = [fromHex(names[4]), [...folder.keys()].find((name) => partFileOf(name)?.part === part)];
  const other = [...folder.keys()].find((name) => partFileOf(name) && partFileOf(name).part !== part);
  const said = async (files) => partBy((await opened(files)).get(12, key));
  tally.equal('names of no part', ['part-0a3-7-2-16385', 'part-0a3-07-2-1', 'part-0A3-7-2-1', 'list'].map(partFileOf), [undefined, undefined, undefined, undefined]);
  const without = new Map(folder);
  without.delete(file);
  tally.equal('a lost part', await said(without), [3, part, 'it is lost: the list names it in version 12, and it has no file']);
  tally.equal('a swapped part', await said(new Map(folder).set(file, folder.get(other))), [3, part, 'its file has another root in version 12 than the list names']);
  const older = [...snapshots[1].keys()].find((name) => partFileOf(name)?.part === part);
  tally.equal('an older part under its name', (await said(new Map(folder).set(file, snapshots[1].get(older))))[0], 3);
  const spoilt = folder.get(file).slice().fill(9, 70, 71);
  tally.equal('a spoilt part', (await said(new Map(folder).set(file, spoilt))).slice(0, 2), [3, part]);
  tally.equal('a part that is no store', (await said(new Map(folder).set(file, new Uint8Array(9)))).slice(0, 2), [1, part]);
  // Files of a writer that was killed before the list was replaced: the old shelf.
  const killed = new Map([...snapshots[4], ...folder]).set('list', snapshots[4].get('list'));
  const old = await opened(killed);
  const listed = [];
  for await (const grant of old.grants(old.latest)) listed.push(toHex(grant.key));
  tally.equal('a publishing that was not finished', [old.latest, listed.length], [11, kept.get(11).size]);
  for (const [name, bytes, why] of [['shelf', 'bits 13\nslots 20\n', 'Error'], ['shelf', 'slots 20\n', 'Error'], ['list', new Uint8Array(30), 1], ['list', folder.get('list').slice().fill(9, 70, 71), 3]]) tally.equal(`a ${name} that is none`, await refusedBy(opened(new Map(folder).set(name, typeof bytes === 'string' ? new TextEncoder().encode(bytes) : bytes))), why);
  for (const name of ['shelf', 'list']) tally.equal(`no ${name}`, await refusedBy(opened([...folder].filter(([it]) => it !== name))), 'Error');
  // Other bits than the list was made with.
  const bits = await opened(new Map(folder).set('shelf', new TextEncoder().encode('bits 1\nslots 256\n')));
  tally.equal('other bits', await refusedBy(bits.count(12)), 3);
  // A part with a grant of another part, which the list names all the same.
  const [stray, list] = [await grants.open(folder.get(file)), await grants.open(folder.get('list'))];
  const elsewhere = names.find((name) => partOf(fromHex(name), 2) !== part);
  const { root } = stray.apply(13, [{ key: elsewhere, value: elsewhere }]);
  list.apply(13, [{ key: listKey(part, 2), value: root }]);
  const strayed = await opened(new Map(folder).set(`part-00${part}-13-0-${stray.count(13)}`, stray.bytes()).set('list', list.bytes()));
  tally.equal('a stray grant', await refusedBy((async () => { for await (const grant of strayed.grants(13)) void grant; })()), 3);
  // Made afresh by the tool and stopped between its two files: the line 'fresh' holds where nothing was published, and goes with the next publishing.
  const afresh = (list) => new Map([['shelf', new TextEncoder().encode('bits 2\nslots 256\nfresh 5 64\n')], ['list', list]]);
  const before = await opened(new Map([...folder, ...afresh(folder.get('list'))]));
  tally.equal('not yet fresh', [before.bits, await before.count(12)], [2, kept.get(12).size]);
  const empty = afresh((await grants.format(800)).bytes());
  const fresh = await opened(empty);
  tally.equal('fresh', [fresh.bits, fresh.slots], [5, 64]);
  await fresh.publish(1, [{ key: names[0], value: names[1] }], (name, bytes) => void empty.set(name, bytes));
  const [again, text] = [await opened(empty), new TextDecoder().decode(empty.get('shelf'))];
  tally.equal('and no line of it', [again.bits, again.slots, await again.count(1), text.includes('fresh')], [5, 64, 1, false]);
  tally.equal('the old form', await refusedBy(opened(new Map(folder).set('list', (await grants.open(folder.get('list'))).movedBack()))), 'Error');
  const seen = new Set(await Promise.all(['part-a3-7-2-1', 'part-0A3-7-2-1', 'part-0a3-07-2-1', 'part-0a3-7-2-1-1', 'part-0a3-7-2', 'part-0a3-4294967296-2-1', 'list'].map(partFileOf)));
  tally.equal('no name of a part', [...seen], [undefined]);
}

async function refusing(tally, grants, { folder, put, shelf, names }) {
  const before = toHex(shelf.root(12));
  const change = [{ key: names[0], value: names[1] }];
  const twice = [{ key: names[0], value: names[1] }, { key: names[0], value: null }];
  for (const [number, call] of [
    [18, () => shelf.publish(12, change, put)],
    [5, () => shelf.publish(13, twice, put)],
    [4, () => shelf.publish(13, new Uint8Array(71), put)],
    [8, () => shelf.prune(13, put)],
    [8, () => shelf.get(13, fromHex(names[0]))],
    [12, () => shelf.get(12, new Uint8Array(31))],
    [12, () => shelf.palette(12, Array(257).fill(fromHex(names[0])))],
    [21, () => Shelf.format(grants, { bits: 13, slots: 20 }, put)],
    [1, () => Shelf.format(grants, { bits: 1, slots: 0 }, put)],
  ]) tally.equal(`refused with ${number}`, await refusedBy(call()), number);
  const many = (n) => Array.from({ length: n }, (_, i) => ({ key: i.toString(16).padStart(64, '0'), value: names[0] }));
  tally.equal('no room', await refusedBy(shelf.publish(13, many(1024), put)), 7);
  tally.equal('more than one publishing takes', await refusedBy(shelf.publish(13, many(1025), put)), 4);
  tally.equal('parts that don’t ascend', await refusedBy(shelf.publish(13, Buffer.concat(['ff', '00'].map((first) => batch([{ key: first.repeat(32), value: names[0] }]))), put)), 5);
  tally.equal('a file that can’t be put', await refusedBy(shelf.publish(13, change, async () => { throw new TypeError('full'); })), 'TypeError');
  tally.equal('the shelf is as it was', [toHex(shelf.root(12)), shelf.latest, (await Shelf.open(grants, asFiles(folder))).latest], [before, 12, 12]);
  // What changes nothing touches no part.
  const idle = await shelf.publish(13, [{ key: names[39], value: null }], put);
  tally.equal('nothing changed', [idle.parts, toHex(idle.root), shelf.latest], [0, before, 13]);
}

export async function shelves(tally, grants) {
  for (const bits of [0, 1, 2, 12]) {
    const made = await published(grants, bits);
    await compared(tally, grants, bits, made.shelf, made.kept, made.names);
    const again = await Shelf.open(grants, asFiles(made.folder));
    tally.equal('the same files', [again.bits, again.files], [bits, made.shelf.files]);
    await compared(tally, grants, bits, again, made.kept, made.names);
    if (bits === 2) {
      await harmed(tally, grants, made);
      await refusing(tally, grants, made);
    }
    const pruned = await again.prune(7, made.put);
    pruned.gone.forEach((name) => made.folder.delete(name));
    tally.holds('freed', pruned.freed > 0);
    await compared(tally, grants, bits, again, made.kept, made.names);
    const last = await Shelf.open(grants, asFiles(made.folder));
    if (bits !== 2) await compared(tally, grants, bits, last, made.kept, made.names);
    for (const shelf of [last, again, made.shelf]) shelf.close();
    tally.equal('a closed shelf', await refusedBy(again.get(12, fromHex(made.names[0]))), 'Error');
  }
}
