// tests/wasm/desk.mjs CHROMIUM [PICTURE]: docs/desk/desk.html in a headless browser: store, book and statement dropped, the three questions asked, by texts and roles. A second argument names a file for a picture of
// the page.
import { cpSync, mkdirSync, readdirSync, rmSync, writeFileSync } from 'node:fs';
import { resolve } from 'node:path';
import { pathToFileURL } from 'node:url';
import { load, toHex } from '../../js/grants.js';
import { Shelf, partOf } from '../../js/shelf.js';
import { bookOf, latestAt } from '../../docs/inspect/book.js';
import { Browser } from './browser.mjs';
import { Tally } from './tally.mjs';

const [program, picture] = process.argv.slice(2);
const tally = new Tally();
const folder = resolve('target/wasm/desk');
rmSync(folder, { recursive: true, force: true });
mkdirSync(folder, { recursive: true });
const file = (name, bytes) => {
  writeFileSync(`${folder}/${name}`, bytes);
  return `${folder}/${name}`;
};

// The README's market: four grants, then one withdrawn and one changed; a third version withdraws all.
const grants = await load();
const key = (name) => grants.name(name);
const names = ['chords symphony', 'chords sonata', 'lyrics sonata', 'tuner symphony'];
const store = await grants.format(20);
store.apply(1, names.map((name) => ({ key: key(name), value: key('read') })));
store.apply(2, [{ key: key('lyrics sonata'), value: null }, { key: key('chords sonata'), value: key('write') }]);
const two = store.bytes();
const roots = [1, 2].map((version) => toHex(store.root(version)));
store.apply(7, names.map((name) => ({ key: key(name), value: null })));
const quoted = [...names, 'read', 'write'].map((name) => `name ${toHex(key(name))} "${name}"\n`).join('');
const line = (version, root, day, who, why) => `version ${version} ${root} ${day}T10:00:00Z "${who}" "${why}"\n`;
const bookText = `# Names and dates\n${quoted}${line(1, roots[0], '2026-05-03', 'mira', 'Spring list')}${line(2, roots[1], '2026-05-10', 'mira', 'Lyrics \\"withdrawn\\"')}`;
const market = file('market', two);
const book = file('market.book', bookText);
const longer = file('longer', store.bytes());
const tampered = file('tampered', two.slice().fill(255, 400, 401));
const said = (version, root) => `the root of a grant store\nversion ${version}\nroot ${root}\nmade 2026-05-10T10:30:00Z\nnot-after 2026-06-10T23:59:59Z\n`;
const [true_, false_] = [file('root.txt', said(2, roots[1])), file('other.txt', said(2, roots[0]))];

// The book alone, read as the tool reads it.
function books() {
  const read = bookOf(bookText);
  tally.equal('names', [read.names.size, read.names.get(toHex(key('lyrics sonata'))), read.unread], [6, 'lyrics sonata', 0]);
  tally.equal('an escape', read.entries.get(2)[0].message, 'Lyrics "withdrawn"');
  const odd = bookOf(`\ufeffname ${'AB'.repeat(32)} "\\u{e9} # \\\\"# more\r\nname 12 "short"\n"open\nname ${'00'.repeat(32)} "a"b\nversion 1 2\nfresh 2026-06-01T08:00:00Z\n\n  # nothing\nname ${'00'.repeat(32)} "\\u{110000}"\n`);
  tally.equal('odd lines', [[...odd.names], odd.unread], [[['ab'.repeat(32), 'é # \\']], 5]);
  tally.equal('fresh', bookOf(`${bookText}fresh 2026-06-01T08:00:00Z\n`).entries.size, 0);
  const at = (dated, end, oldest = 0, all = [0, 1, 2]) => latestAt(all, new Map(dated), oldest, end);
  tally.equal('before all', at([[1, 10], [2, 20]], 5), { version: 0 });
  tally.equal('between', at([[1, 10], [2, 20]], 15), { version: 1 });
  tally.equal('after all', at([[1, 10], [2, 20]], 25), { version: 2 });
  tally.holds('no date after it', at([[1, 10]], 15).why.includes('no date for version 2'));
  tally.holds('dates that don’t ascend', at([[1, 30], [2, 20]], 25).why.includes('ascend'));
  tally.holds('not kept any more', at([[5, 10], [6, 20]], 5, 5, [5, 6]).why.includes('older than version 5'));
  tally.holds('no date at all', at([], 5, 5, [5, 6]).why.includes('no date for version 5'));
}

const browser = await Browser.start(program, `${folder}/profile`);
const text = (id) => browser.ask(`document.getElementById('${id}').innerText`);
const fill = (id, value) => browser.ask(`document.getElementById('${id}').value = ${JSON.stringify(value)}; 0`);
const submit = (id) => browser.ask(`document.getElementById('${id}').requestSubmit()`);
const rows = (id) => browser.ask(`[...document.querySelectorAll('#${id} tbody tr')].map((row) => [...row.cells].slice(0, -1).map((cell) => cell.innerText).join(' | '))`);
// A name as it is shown: with its digits.
const withDigits = (name) => `“${name}” ${toHex(key(name)).slice(0, 8)}..${toHex(key(name)).slice(-4)}`;

const dropped = (...files) => browser.drop(...files);

async function questions() {
  await dropped(market, book);
  await browser.until(`document.getElementById('about-book').textContent.includes('6 names')`);
  tally.equal('sound', await text('sound'), 'market is sound: versions 0 to 2, 20 slots.');
  tally.holds('dates that agree', (await text('about-book')).includes('dates of 2 of the 2 publishings'));
  await fill('words', 'Sonata');
  await fill('day', '2026-05-05');
  await submit('ask-who');
  tally.holds('the version of that day', (await text('who-said')).startsWith('By the book, on 2026-05-05 the latest was version 1 (2026-05-03 10:00, mira: Spring list). 2 of its 4 grants:'));
  tally.equal('who could', (await rows('who')).sort(), ['chords sonata', 'lyrics sonata'].map((name) => `${withDigits(name)} | ${withDigits('read')}`));
  await browser.ask(`document.querySelector('#who button[aria-label*="lyrics"]').click()`);
  tally.equal('proved', await text('proof-said'), 'granted');
  tally.holds('by its root', (await text('proof')).includes(roots[0]) && (await text('proof')).includes('accepted against its root'));
  tally.equal('it has the focus', await browser.ask('document.activeElement.id'), 'shown');
  const saved = await browser.ask(`document.querySelector('#proof a').href`);
  const proof = Uint8Array.from(Buffer.from(saved.split(',')[1], 'base64'));
  tally.equal('the proof that is saved holds', grants.verify(roots[0], key('lyrics sonata'), proof).present, true);
  await fill('day', '2026-05-10');
  await submit('ask-who');
  tally.equal('who can since', await rows('who'), [`${withDigits('chords sonata')} | ${withDigits('write')}`]);
  await fill('day', '2026-05-01');
  await submit('ask-who');
  tally.holds('before the first', (await text('who-said')).includes('version 0') && (await text('who-said')).includes('0 of its 0 grants'));
  await fill('day', '');
  await fill('words', '');
  await submit('ask-who');
  tally.equal('all of the latest', (await rows('who')).length, 3);
  await submit('ask-changed');
  tally.holds('what changed', (await text('changed-said')).endsWith('mira: Lyrics "withdrawn"): 2 keys.'));
  tally.equal('each change', (await rows('changed')).sort(), [`${withDigits('chords sonata')} | given another value | ${withDigits('read')} | ${withDigits('write')}`, `${withDigits('lyrics sonata')} | removed | ${withDigits('read')} | `]);
  await fill('key', 'lyrics sonata');
  await submit('ask-proof');
  tally.equal('proved absent', await text('proof-said'), 'not granted');
  await fill('of', '0');
  await submit('ask-proof');
  tally.equal('an empty version', await text('proof-said'), 'nothing is granted');
  tally.holds('why', (await text('proof')).includes('Refused with 14'));
}

async function statements() {
  await dropped(true_);
  await browser.until(`document.getElementById('about-statement').textContent !== ''`);
  tally.holds('the signed root', /version 2, made 2026-05-10 10:30, good until 2026-06-10 23:59: this store has that root/.test(await text('about-statement')));
  await fill('key', 'chords sonata');
  await fill('of', '2');
  await submit('ask-proof');
  tally.holds('said beside the proof', (await text('proof')).includes('It is the root of the statement that was dropped.'));
  await dropped(false_);
  await browser.until(`document.getElementById('about-statement').textContent.includes('another root')`);
  tally.equal('in red', await browser.ask(`document.getElementById('about-statement').className`), 'bad');
  await dropped(longer);
  await browser.until(`document.getElementById('sound').textContent.startsWith('longer')`);
  await fill('day', '2026-05-20');
  await submit('ask-who');
  tally.holds('not certain', (await text('who-said')).includes('can’t be told: the book has no date for version 7'));
  await dropped(tampered);
  await browser.until(`document.getElementById('sound').textContent.includes('not to be used')`);
  tally.equal('no question of a tampered store', await browser.ask(`document.getElementById('ask').hidden`), true);
  await dropped(market);
  await browser.until(`document.getElementById('sound').textContent.includes('is sound')`);
}

// Files that are none of these are said to be so, and what was there stays.
async function hostile() {
  const before = await text('sound');
  const named = await text('about-book');
  for (const [name, bytes, why] of [
    ['notes.txt', 'hello\n', 'notes.txt is not taken: it is text, and neither a statement nor a book.'],
    ['cut.txt', said(2, roots[1]).slice(0, 50), 'cut.txt is not taken: it begins as a statement, and isn’t the very lines that `grants root --out` writes.'],
    ['nothing', '', 'nothing is not taken: it is empty.'],
    ['large', new Uint8Array(3_000_001), 'large is not taken: it has 3000001 bytes, and no store has more than 3000000.'],
  ]) {
    await dropped(file(name, bytes));
    await browser.until(`document.getElementById('not-taken').textContent !== ''`);
    tally.equal(name, [await text('not-taken'), await text('sound'), await text('about-book')], [why, before, named]);
  }
  // A book that gives a name to another key: it is marked wherever it stands.
  await dropped(file('lies.book', `name ${toHex(key('tuner symphony'))} "lyrics sonata"\nname ${toHex(key('chords sonata'))} "a\u202eb"\nversion 2 ${roots[1]} 2026-05-10T10:00:00Z "mi\u202era" "x"\n`));
  await browser.until(`document.getElementById('about-book').textContent.includes('2 names')`);
  await fill('words', '');
  await fill('day', '');
  await submit('ask-who');
  const marked = (await rows('who')).filter((row) => row.includes('(by the book alone: not the name’s SHA-256)'));
  tally.equal('marked', marked.map((row) => row.split('”')[0]).sort(), ['“a\\u{202e}b', '“lyrics sonata']);
  tally.holds('an author', (await text('who-said')).includes('mi\\u{202e}ra'));
  await fill('key', 'lyrics sonata');
  await submit('ask-proof');
  await browser.until(`document.getElementById('proof-said').textContent === 'granted'`);
  tally.holds('and in a proof', (await text('proof')).includes(`“lyrics sonata” ${toHex(key('tuner symphony')).slice(0, 8)}..${toHex(key('tuner symphony')).slice(-4)} (by the book alone`));
  await dropped(book);
  await browser.until(`document.getElementById('about-book').textContent.includes('6 names')`);
}

// The market as a shelf of two bits: its folder dropped, its files dropped, and folders that aren't whole.
async function shelves() {
  const place = `${folder}/shelf-market`;
  mkdirSync(place);
  const put = (name, bytes) => writeFileSync(`${place}/${name}`, bytes);
  const shelf = await Shelf.format(grants, { bits: 2, slots: 32 }, put);
  for (const [number, changes] of [[1, names.map((name) => ({ key: key(name), value: key('read') }))], [2, [{ key: key('lyrics sonata'), value: null }, { key: key('chords sonata'), value: key('write') }]]]) {
    const { gone } = await shelf.publish(number, changes, put);
    gone.forEach((name) => rmSync(`${place}/${name}`));
  }
  const [one, two] = [1, 2].map((version) => toHex(shelf.root(version)));
  put('list.book', `${quoted}${line(1, one, '2026-05-03', 'mira', 'Spring list')}${line(2, two, '2026-05-10', 'mira', 'Withdrawn')}`);
  const stated = file('shelf.txt', said(2, two).replace(`${two}\n`, `${two}\nbits 2\n`));
  const settled = (words) => browser.until(`document.getElementById('sound').textContent.includes(${JSON.stringify(words)})`);
  const opened = `shelf-market is a shelf of 2 bits with ${shelf.files.length} parts, and its list is sound: versions 0 to 2.`;
  for (const [how, given] of [['its folder', [place, stated]], ['its files', [...readdirSync(place).map((name) => `${place}/${name}`), stated]]]) {
    await dropped(market);
    await settled('market is sound');
    await dropped(...given);
    await browser.until(`document.getElementById('about-statement').textContent.includes('this shelf has that root')`);
    tally.holds(`${how}: what it is`, (await text('sound')).startsWith(how === 'its folder' ? opened : opened.replace('shelf-market', 'What was dropped')));
    tally.holds(`${how}: its book`, (await text('about-book')).startsWith('The book has 6 names, and dates of 2 of the 2 publishings'));
    await fill('words', 'sonata');
    await fill('day', '2026-05-05');
    await submit('ask-who');
    await browser.until(`document.getElementById('who-said').textContent.includes('By the book')`);
    tally.holds('the version of that day', (await text('who-said')).includes('the latest was version 1 (2026-05-03 10:00, mira: Spring list). 2 of its 4 grants:'));
    tally.equal('who could', (await rows('who')).sort(), ['chords sonata', 'lyrics sonata'].map((name) => `${withDigits(name)} | ${withDigits('read')}`));
    await browser.ask(`document.querySelector('#who button[aria-label*="lyrics"]').click()`);
    await browser.until(`document.getElementById('proof-said').textContent === 'granted'`);
    const saved = await browser.ask(`document.querySelector('#proof a').href`);
    tally.equal('the proof that is saved holds', grants.shelfVerify(one, 2, key('lyrics sonata'), Buffer.from(saved.split(',')[1], 'base64')).present, true);
    await submit('ask-changed');
    await browser.until(`document.getElementById('changed-said').textContent.endsWith('2 keys.')`);
    tally.equal('each change', (await rows('changed')).sort(), [`${withDigits('chords sonata')} | given another value | ${withDigits('read')} | ${withDigits('write')}`, `${withDigits('lyrics sonata')} | removed | ${withDigits('read')} | `]);
    await fill('key', 'lyrics sonata');
    await submit('ask-proof');
    await browser.until(`document.getElementById('proof-said').textContent === 'not granted'`);
    tally.holds('with root and bits', (await text('proof')).includes(two) && (await text('proof')).includes('bits 2') && (await text('proof')).includes('It is the root of the statement that was dropped.'));
    await fill('of', '0');
    await submit('ask-proof');
    await browser.until(`document.getElementById('proof-said').textContent === 'nothing is granted'`);
  }
  // By the button for folders.
  const { root } = await browser.send('DOM.getDocument');
  const { nodeId } = await browser.send('DOM.querySelector', { nodeId: root.nodeId, selector: '#folder' });
  await dropped(market);
  await settled('market is sound');
  await browser.send('DOM.setFileInputFiles', { nodeId, files: [place] });
  await settled('shelf-market is a shelf of 2 bits');
  // The statement of a store isn't that of a shelf with the same root.
  await dropped(file('nobits.txt', said(2, two)));
  await browser.until(`document.getElementById('about-statement').textContent.includes('has other bits')`);
  // Folders that aren't whole: the list is refused at once, a part when it is asked for.
  const harmed = async (name, harm) => {
    cpSync(place, `${folder}/${name}`, { recursive: true });
    harm((file_, bytes) => (bytes === undefined ? rmSync(`${folder}/${name}/${file_}`) : writeFileSync(`${folder}/${name}/${file_}`, bytes)));
    await dropped(`${folder}/${name}`);
    await settled(`${name} is`);
    return text('sound');
  };
  tally.equal('no list', await harmed('listless', (put_) => put_('list')), 'listless is not to be used. These files are no shelf: there is none called \'list\'.');
  tally.equal('thirteen bits', await harmed('bitless', (put_) => put_('shelf', 'bits 13\nslots 32\n')), 'bitless is not to be used. These files are no shelf: the one called \'shelf\' has no bits from 0 to 12, or no slots.');
  tally.holds('a spoilt list', (await harmed('spoilt', (put_) => put_('list', shelf.list.bytes().fill(9, 70, 71)))).startsWith('spoilt is not to be used. Its list is refused with 3'));
  const part = partOf(key('lyrics sonata'), 2);
  const its = shelf.files.find((name) => name.startsWith(`part-00${part}`));
  for (const [name, bytes, why] of [['partless', undefined, 'is lost'], ['swapped', store.bytes(), 'has another root'], ['broken', new Uint8Array(5), 'refused with 1'], ['huge', new Uint8Array(3_000_001), 'no store has more than']]) {
    await harmed(name, (put_) => put_(its, bytes));
    for (const [form, id] of [['ask-who', 'who-said'], ['ask-changed', 'changed-said'], ['ask-proof', 'proof']]) {
      await fill('words', '');
      await fill('day', '');
      await fill('key', 'lyrics sonata');
      await submit(form);
      await browser.until(`document.getElementById('${id}').textContent.includes('o answer')`);
      tally.holds(`${name}: ${form}`, (await text(id)).includes(`part 00${part}`) && (await text(id)).includes(why));
    }
    tally.equal(`${name}: no row is left`, [await rows('who'), await rows('changed')], [[], []]);
  }
  await dropped(market, book);
  await settled('market is sound');
}

async function usable() {
  const roles = await browser.roles();
  for (const [role, name] of [['heading', 'Who could open this score?'], ['form', 'Who could open it on that day?'], ['form', 'What changed?'], ['form', 'Prove it'], ['textbox', 'Words in the name'], ['button', 'Who could?'], ['button', 'Open store, book and statement'], ['button', 'Open a shelf’s folder'], ['main', '']]) {
    if (roles.some((it) => it.role === role && it.name.startsWith(name))) tally.pass();
    else tally.fail(`no ${role} called '${name}': ${JSON.stringify(roles.filter((it) => it.role === role))}`);
  }
  await browser.send('Emulation.setDeviceMetricsOverride', { width: 360, height: 740, deviceScaleFactor: 2, mobile: true });
  await browser.until('document.documentElement.clientWidth === 360');
  tally.equal('on a phone nothing is wider than the page', await browser.ask('document.documentElement.scrollWidth <= 360'), true);
  await browser.send('Emulation.clearDeviceMetricsOverride');
}

try {
  books();
  await browser.open(pathToFileURL('docs/desk/desk.html').href);
  await questions();
  await statements();
  await hostile();
  await shelves();
  await usable();
  const requests = browser.events.filter((it) => it.method === 'Network.requestWillBeSent').map((it) => it.params.request.url.split(':')[0]);
  // The browser draws the calendar of a date field from a picture of its own, a data address.
  tally.equal('nothing is fetched but the page', requests.filter((scheme) => !['about', 'data'].includes(scheme)), ['file']);
  const errors = browser.events.filter((it) => it.method === 'Runtime.exceptionThrown' || (it.method === 'Log.entryAdded' && it.params.entry.level === 'error'));
  tally.equal('no error', errors.map((it) => JSON.stringify(it.params)), []);
  if (picture) {
    await browser.send('Page.reload');
    await browser.until(`document.documentElement?.dataset.ready === 'true'`);
    await dropped(market, book, true_);
    await browser.until(`document.getElementById('about-statement').textContent.includes('has that root')`);
    await submit('ask-changed');
    await fill('words', 'sonata');
    await fill('day', '2026-05-05');
    await submit('ask-who');
    await fill('key', 'lyrics sonata');
    await submit('ask-proof');
    await browser.send('Emulation.setDeviceMetricsOverride', { width: 880, height: 1500, deviceScaleFactor: 1, mobile: false });
    await browser.send('Emulation.setEmulatedMedia', { features: [{ name: 'prefers-color-scheme', value: 'light' }] });
    await browser.send('Emulation.setScrollbarsHidden', { hidden: true });
    await browser.until(`document.getElementById('proof-said').textContent !== ''`);
    await browser.ask('document.activeElement.blur(); scrollTo(0, 0)');
    writeFileSync(picture, await browser.picture());
  }
} catch (error) {
  tally.fail(error.stack);
} finally {
  await browser.end();
}
console.log(`${tally.passed} passed, ${tally.failed} failed`);
process.exitCode = tally.failed ? 1 : 0;
