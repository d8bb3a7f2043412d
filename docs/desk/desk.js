// The desk: a store or a shelf, its book and a signed statement are dropped, and three questions asked of them. Every grant that is listed, every change and every proof is the library's answer; names, dates and
// authors are the book's.
import { Refused, load, toHex, fromHex } from '../../js/grants.js';
import { Shelf } from '../../js/shelf.js';
import { Statement } from '../../js/statement.js';
import { bookOf, latestAt, saidOf, shownText } from '../inspect/book.js';
import { at, busyWith, calledBy, counted, element, shortHex, tableOf } from '../inspect/elements.js';
import { filesIn, shelfIn } from './folder.js';

const grants = await load(Uint8Array.from(atob(at('wasm').textContent.trim()), (c) => c.charCodeAt(0)));
const dateText = (time) => new Date(time * 1000).toISOString().slice(0, 16).replace('T', ' ');

// A store has some two million bytes at most; a book may be longer, as for the tool.
const MOST_STORE = 3_000_000;
const MOST_BOOK = 64 << 20;
// So many rows are made at a time, and so many grants of a long answer kept.
const MOST_LISTED = 500;
const MOST_ANSWERED = 50_000;

// A store in the words of a shelf; it has no bits.
const asShelf = (store) => ({
  bits: null,
  close: () => store.close(),
  oldest: store.oldest,
  latest: store.latest,
  root: (version) => store.root(version),
  publishings: () => store.publishings(),
  grants: (version) => store.grants(version),
  changes: (first, second) => store.changes(first, second),
  prove: (version, key) => store.prove(version, key),
});

// The store or the shelf, once the library has called it, or its list, sound.
let held;
let publishings = [];
let roots = new Map();
let book = bookOf('');
let statement;

const called = (bytes) => calledBy(book, (name) => grants.name(name), bytes);

const kindHeld = () => (held.bits === null ? 'store' : 'shelf');

function rootOf(version) {
  if (!roots.has(version)) roots.set(version, toHex(held.root(version)));
  return roots.get(version);
}

const entryOf = (version) => saidOf(book, version, rootOf(version));

function publishedAs(version) {
  const entry = entryOf(version);
  return entry ? `version ${version} (${dateText(entry.time)}, ${shownText(entry.author)}: ${shownText(entry.message)})` : `version ${version}`;
}

// A table of which the first rows are made, and more by a click.
function table(id, heads, items, row, upTo = MOST_LISTED) {
  at(id).replaceChildren(tableOf(heads, items.slice(0, upTo).map(row)));
  if (items.length <= upTo) return;
  const more = element('button', { type: 'button' }, `Show ${Math.min(MOST_LISTED, items.length - upTo)} more`);
  more.addEventListener('click', () => table(id, heads, items, row, upTo + MOST_LISTED));
  at(id).append(element('p', { class: 'row' }, `The first ${upTo} of ${items.length} are listed. `, more));
}

function proveButton(version, key) {
  const button = element('button', { type: 'button' }, 'Prove it');
  button.setAttribute('aria-label', `Prove it: ${shownText(book.names.get(toHex(key)) ?? '')} ${shortHex(toHex(key))} in version ${version}`);
  button.addEventListener('click', () => prove(version, key));
  return button;
}

// One question is answered at a time: what comes of an older one, or of other files, is dropped.
let question = 0;

// Runs a question; where a part is refused, that is the answer.
async function answered(id, work) {
  const mine = (question += 1);
  const current = () => mine === question;
  at(id).replaceChildren();
  at(`${id}-said`).className = '';
  try {
    await work(current);
  } catch (refused) {
    if (!(refused instanceof Refused)) throw refused;
    if (!current()) return;
    at(id).replaceChildren();
    at(`${id}-said`).className = 'bad';
    at(`${id}-said`).textContent = `No answer: ${refused.message}. ${refused.part === undefined ? '' : 'The shelf’s files are not whole, or not of one shelf.'}`;
  }
}

// The version of a day, by the book; undefined, with a sentence, where that can't be told.
function versionOn(day) {
  const dated = new Map(publishings.flatMap((it) => (entryOf(it) ? [[it, entryOf(it).time]] : [])));
  const told = latestAt(publishings, dated, held.oldest, Date.parse(`${day}T23:59:59Z`) / 1000);
  if (told.why) at('who-said').textContent = `Which version was the latest on ${day} can’t be told: ${told.why}.`;
  return told.version;
}

// Who could open it? The grants of the version of that day whose names have the words in them.
const who = () => answered('who', async (current) => {
  const day = at('day').value;
  const version = day ? versionOn(day) : held.latest;
  if (version === undefined) return;
  const words = at('words').value.trim().toLowerCase();
  const matching = [];
  let [all, found] = [0, 0];
  for await (const grant of held.grants(version)) {
    all += 1;
    if (words === '' || (book.names.get(toHex(grant.key)) ?? toHex(grant.key)).toLowerCase().includes(words)) found += 1;
    if (found > matching.length && found <= MOST_ANSWERED) matching.push(grant);
    if (all % 10_000 === 0) {
      at('who-said').textContent = `${all} grants were read.`;
      await new Promise((done) => setTimeout(done));
    }
    if (!current()) return;
  }
  at('who-said').textContent = `${day ? `By the book, on ${day} the latest was ` : 'The latest is '}${publishedAs(version)}. ${found} of its ${counted(all, 'grant')}${found > matching.length ? `, of which the first ${matching.length} are kept here; more words find fewer` : ''}:`;
  table('who', ['Grant', 'Value', 'Proof'], matching, ({ key, value }) => [called(key), called(value), proveButton(version, key)]);
});

// What changed from one version to another, as the library lists it.
const changed = () => answered('changed', async (current) => {
  const [first, second] = [at('first'), at('second')].map((it) => Number(it.value));
  const list = await held.changes(first, second);
  if (!current()) return;
  at('changed-said').textContent = `From ${publishedAs(first)} to ${publishedAs(second)}: ${counted(list.length, 'key')}.`;
  const what = ({ before, after }) => (before === null ? 'added' : after === null ? 'removed' : 'given another value');
  table('changed', ['Key', 'What', 'Before', 'After', 'Proof'], list, (it) => [called(it.key), what(it), it.before ? called(it.before) : '', it.after ? called(it.after) : '', proveButton(second, it.key)]);
});

function sayProof(kind, verdict, ...inside) {
  at('shown').hidden = false;
  at('proof-said').className = kind;
  at('proof-said').textContent = verdict;
  at('proof').replaceChildren(...inside);
}

// What the statement that was dropped has to do with a version: of a shelf it has the bits too.
function isStated(version) {
  return statement.version === version && toHex(statement.root) === rootOf(version) && statement.bits === held.bits;
}

// A proof, made from the store or the shelf and checked against the version's root as any editor would.
async function prove(version, key) {
  const mine = (question += 1);
  try {
    const root = held.root(version);
    const proof = await held.prove(version, key);
    if (mine !== question) return;
    const found = held.bits === null ? grants.verify(root, key, proof) : grants.shelfVerify(root, held.bits, key, proof);
    const signed = statement && statement.version === version ? (isStated(version) ? ' It is the root of the statement that was dropped.' : ' It is not the root of the statement that was dropped.') : '';
    const link = element('a', { download: `proof-${version}`, href: `data:application/octet-stream;base64,${btoa(String.fromCharCode(...proof))}` }, `Save the proof, ${proof.length} bytes`);
    sayProof(
      found.present ? 'granted' : 'not-granted',
      found.present ? 'granted' : 'not granted',
      element('p', {}, called(key), found.present ? ' has the value ' : ' is in no grant of ', found.present ? called(found.value) : '', found.present ? ' in ' : '', `${publishedAs(version)}: accepted against its root.${signed}`),
      element('p', { class: 'hex' }, `root ${toHex(root)}`),
      held.bits === null ? '' : element('p', { class: 'hex' }, `bits ${held.bits}`),
      element('p', { class: 'hex' }, `key ${toHex(key)}`),
      element('p', {}, link),
    );
  } catch (refused) {
    if (!(refused instanceof Refused)) throw refused;
    if (mine !== question) return;
    const text = refused.part == null ? `${publishedAs(version)}. Refused with ${refused.number}: ${refused.sentence}.` : `${publishedAs(version)}. No answer: ${refused.message}.`;
    sayProof('nothing', refused.number === 14 ? 'nothing is granted' : 'no proof', element('p', {}, `${text}${refused.number === 14 ? ' Its root of 32 zero bytes, signed, is itself the proof.' : ''}`));
  }
  at('shown').scrollIntoView({ block: 'nearest' });
  at('shown').focus();
}

// Hex digits stand for a key, a name for what the book gives it, else for its SHA-256.
function keyOf(text) {
  if (/^[0-9a-f]{64}$/i.test(text)) return fromHex(text);
  const meant = book.meant.get(text) ?? [];
  if (meant.length > 1) throw new Error(`the book gives the name “${shownText(text)}” to two keys: say which by its digits`);
  return meant.length ? fromHex(meant[0]) : grants.name(text);
}

function aboutBook() {
  // Version 0 was never published.
  const published = publishings.filter((version) => version > 0);
  const told = published.filter((version) => entryOf(version)).length;
  const beyond = [...book.entries.keys()].filter((version) => version > held.latest).reduce((a, b) => Math.max(a, b), 0);
  const unread = book.unread ? ` ${counted(book.unread, 'line')} of it can’t be read, the first is line ${book.firstUnread}.` : '';
  const old = beyond ? ` It speaks of version ${beyond}, past the latest of this ${kindHeld()}: is it an old copy?` : '';
  return book.entries.size || book.names.size ? `The book has ${counted(book.names.size, 'name')}, and dates of ${told} of the ${counted(published.length, 'publishing')} that agree with their roots.${unread}${old}` : 'No book yet: names and dates are not known.';
}

// What is known of the files that were dropped.
function refresh() {
  question += 1;
  at('ask').hidden = !held;
  if (!held) return;
  publishings = held.publishings().map(({ first }) => first);
  roots = new Map();
  for (const id of ['first', 'second', 'of']) {
    at(id).replaceChildren(...publishings.map((version) => element('option', { value: `${version}` }, publishedAs(version))));
    at(id).value = `${publishings.at(id === 'first' && publishings.length > 1 ? -2 : -1)}`;
  }
  at('about-book').textContent = aboutBook();
  at('about-statement').textContent = '';
  if (statement) {
    const kept = statement.version >= held.oldest && statement.version <= held.latest;
    const same = kept && isStated(statement.version);
    const has = same ? 'has that root' : !kept ? 'doesn’t keep that version' : statement.bits === held.bits ? 'has another root' : 'has other bits';
    at('about-statement').className = same ? 'granted' : 'bad';
    at('about-statement').textContent = `The statement is of version ${statement.version}, made ${dateText(statement.made)}${statement.notAfter === null ? ', without a date' : `, good until ${dateText(statement.notAfter)}`}: this ${kindHeld()} ${has}. Its signature is not looked at here; the page that shows a proof checks it.`;
  }
  for (const id of ['who', 'changed', 'proof']) at(id).replaceChildren();
  for (const id of ['who-said', 'changed-said', 'proof-said']) at(id).textContent = '';
  at('shown').hidden = true;
}

function saySound(kind, text) {
  at('sound').className = kind;
  at('sound').textContent = text;
}

// What is held no more is closed; an answer on the way is of it, and is dropped.
function letGo() {
  question += 1;
  held?.close();
  held = undefined;
}

async function openStore(name, bytes) {
  letGo();
  const opened = await grants.open(bytes);
  try {
    // Checked, and with a table for the reads that follow.
    opened.index();
    held = asShelf(opened);
    saySound('granted', `${shownText(name)} is sound: versions ${opened.oldest} to ${opened.latest}, ${opened.capacity} slots.`);
  } catch (refused) {
    if (!(refused instanceof Refused)) throw refused;
    saySound('bad', `${shownText(name)} is not to be used. Refused with ${refused.number}: ${refused.sentence}.`);
  }
}

// A shelf's list is checked at once, and each part when it is asked for.
async function openShelf({ name, files }) {
  letGo();
  try {
    held = await Shelf.open(grants, files);
    saySound('granted', `${shownText(name)} is a shelf of ${held.bits} bits with ${counted(held.files.length, 'part')}, and its list is sound: versions ${held.oldest} to ${held.latest}. Each part is checked when it is asked for.`);
  } catch (error) {
    saySound('bad', `${shownText(name)} is not to be used. ${error instanceof Refused ? `Its list is refused with ${error.number}: ${error.sentence}.` : `${error.message[0].toUpperCase()}${error.message.slice(1)}.`}`);
  }
}

const notTaken = (name, why) => at('not-taken').append(element('p', { class: 'bad' }, `${shownText(name)} is not taken: ${why}.`));

// Text that a book or a statement is; undefined for other bytes.
function plainText(bytes) {
  try {
    return bytes.includes(0) ? undefined : new TextDecoder('utf-8', { fatal: true }).decode(bytes);
  } catch {
    return undefined;
  }
}

// A statement begins with its first line, a book is any other text with a line that can be read, and a store has zero bytes.
async function taken({ name, file }) {
  if (file.size > MOST_BOOK) return notTaken(name, `it has ${file.size} bytes, and no book has more than ${MOST_BOOK}`);
  const bytes = new Uint8Array(await file.arrayBuffer());
  const text = plainText(bytes);
  if (bytes.length === 0) return notTaken(name, 'it is empty');
  if (text === undefined) return bytes.length > MOST_STORE ? notTaken(name, `it has ${bytes.length} bytes, and no store has more than ${MOST_STORE}`) : openStore(name, bytes);
  if (text.startsWith('the root of')) {
    const read = Statement.read(bytes);
    statement = read ?? statement;
    return read ? undefined : notTaken(name, 'it begins as a statement, and isn’t the very lines that `grants root --out` writes');
  }
  const given = bookOf(text);
  if (given.names.size === 0 && given.entries.size === 0 && given.unread > 0) return notTaken(name, 'it is text, and neither a statement nor a book');
  book = given;
  return undefined;
}

// A shelf's folder is opened as one; its book is the list's. What else was dropped is taken file by file.
async function takeAll(given) {
  at('not-taken').replaceChildren();
  const files = await given;
  const shelf = shelfIn(files, MOST_STORE);
  if (shelf) await openShelf(shelf);
  for (const file of shelf ? shelf.others : files) {
    try {
      await taken(file);
    } catch (error) {
      if (error instanceof DOMException) notTaken(file.name, 'it can’t be read. Is it a folder? Then open it by the button, or drop the files in it');
      else throw error;
    }
  }
  refresh();
}

const asked = (id, answer) => at(id).addEventListener('submit', (event) => {
  event.preventDefault();
  answer();
});
asked('ask-who', who);
asked('ask-changed', changed);
asked('ask-proof', () => {
  try {
    prove(Number(at('of').value), keyOf(at('key').value.trim()));
  } catch (error) {
    sayProof('nothing', 'no proof', element('p', {}, error.message));
  }
});
for (const id of ['file', 'folder']) at(id).addEventListener('change', (event) => busyWith(() => takeAll(Array.from(event.target.files, (file) => ({ path: file.webkitRelativePath || file.name, name: file.name, file })))));
for (const kind of ['dragover', 'dragleave', 'drop']) {
  document.addEventListener(kind, (event) => {
    event.preventDefault();
    document.body.classList.toggle('over', kind === 'dragover');
    if (kind === 'drop') busyWith(() => takeAll(filesIn(event.dataTransfer)));
  });
}
document.documentElement.dataset.ready = 'true';
