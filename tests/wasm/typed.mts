// What the types of js/ allow, and what they don't.
import { load, Refused, shelfPieces, type Found, type Store } from '../../js/grants.js';
import { Shelf, type ShelfFile } from '../../js/shelf.js';
import { Seen, Statement, type Verdict } from '../../js/statement.js';

export async function shown(root: string, key: Uint8Array, proof: ArrayBuffer): Promise<string> {
  const grants = await load(new URL('file:///grants-verify.wasm'));
  try {
    const found: Found = grants.verify(root, key, proof);
    const shelved: Found = grants.shelfVerify(root, 8, key, proof);
    return found.present ? String(found.value.length) : shelved.present ? 'on the shelf' : 'absent';
  } catch (refused) {
    return refused instanceof Refused ? `${refused.number} ${refused.sentence} ${refused.slot ?? 'no slot'}` : 'another error';
  }
}

export async function published(): Promise<number> {
  const grants = await load();
  const store: Store = await grants.format(20);
  const { version, newRecords } = store.apply(1, [{ key: '00', value: null }]);
  store.index();
  const tabled: boolean = store.indexed;
  // @ts-expect-error whether there is a table is not set
  store.indexed = tabled;
  const count: number = store.count(version);
  const grant = store.at(version, BigInt(count) - 1n);
  const least: Uint8Array = store.at(version, 0).key;
  const held: string[] = store.grants(version).map((it) => String(it.value.length));
  const since: number = store.publishings()[0].first + store.history(least)[0].version + held.length;
  // @ts-expect-error a key has no value where it isn't granted
  store.history(least)[0].value.length;
  const truth: boolean = store.finding(version, least, store.prove(version, least)).truth;
  const message: Uint8Array = grants.writeMessage(store.prove(version, least), '61', [{ key: '61', value: grant.value }]);
  const asked: Uint8Array = grants.readMessage(message).asked;
  // @ts-expect-error a leaf has a value
  grants.writeMessage(message, asked, [{ key: '61' }]);
  // @ts-expect-error a position is a number
  store.at(version, '0');
  // @ts-expect-error a publishing has a number
  store.apply([{ key: '00', value: null }]);
  // @ts-expect-error a version is a number
  store.prove('1', grants.name('x'));
  // @ts-expect-error an absent key has no value
  store.get(version, grants.name('x')).value;
  const { store: rescued, first } = await grants.rescue(store.bytes(), 0, version);
  // @ts-expect-error a rescue ends at a version
  await grants.rescue(store.bytes(), 0);
  return since + newRecords + first + rescued.latest + least.length + grant.value.length + Number(truth);
}

export function judged(text: Uint8Array): Verdict | undefined {
  const statement = Statement.read(text);
  // @ts-expect-error what was read may be no statement
  statement.version;
  // @ts-expect-error a time is a number
  if (statement) new Seen().take(statement, 'now');
  return statement ? new Seen({ version: 2 }).take(statement, Date.now() / 1000) : undefined;
}

export async function shelved(files: ShelfFile[]): Promise<number> {
  const grants = await load();
  const shelf = await Shelf.open(grants, files);
  const key = grants.name('x');
  let sum = (await shelf.count(shelf.latest)) + shelfPieces(await shelf.prove(1, key)).length;
  for await (const grant of shelf.grants(shelf.latest)) sum += grant.value.length;
  const { root, gone } = await shelf.publish(shelf.latest + 1, [{ key, value: null }], (name: string, bytes: Uint8Array) => void [name, bytes]);
  // @ts-expect-error who publishes says how files are written
  await shelf.publish(shelf.latest + 1, []);
  // @ts-expect-error a key is bytes
  await shelf.get(1, '00');
  return sum + root.length + gone.length;
}
