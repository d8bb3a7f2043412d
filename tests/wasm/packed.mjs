// The package by its name: a proof made and checked.
import { load } from 'grants';
import { Shelf } from 'grants/shelf';

const grants = await load();
const store = await grants.format(4);
const key = grants.name('chords sonata');
const { version, root } = store.applyNext([{ key, value: key }]);
const checker = await load(new URL(import.meta.resolve('grants/grants-verify.wasm')));
if (!checker.verify(root, key, store.prove(version, key)).present) throw new Error('not present');
const files = new Map();
const shelf = await Shelf.format(grants, { bits: 1, slots: 8 }, (name, bytes) => void files.set(name, bytes));
await shelf.publish(1, [{ key, value: key }], (name, bytes) => void files.set(name, bytes));
if (!checker.shelfVerify(shelf.root(1), 1, key, await shelf.prove(1, key)).present) throw new Error('not present on the shelf');
