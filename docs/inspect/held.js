// A store that was dropped: its publishings, the tree of one, and what became of a key. It is drawn only when the library has called it sound.
import { OLD_FORM } from '../../js/form.js';
import { Refused, toHex } from '../../js/grants.js';
import { saidOf, shownText } from './book.js';
import { leavesOf, recordsOf, treeOf } from './drawing.js';
import { at, calledBy, element, shortHex, tableOf } from './elements.js';

// So many publishings are listed at a time.
const MOST_ROWS = 100;

// When, by whom and why, where the book has a line of the version with its root.
export function bookSays(book, version, root) {
  const entry = saidOf(book, version, root);
  return entry ? `${new Date(entry.time * 1000).toISOString().slice(0, 16).replace('T', ' ')}, ${shownText(entry.author)}: ${shownText(entry.message)}` : '';
}

// `page` has what the rest of the page knows: the `grants`, the `book`, the `key` that stands in its field, how to `prove` a key in a version.
export class Held {
  #page;
  #store;
  #records;
  #spans = [];
  #shown = 0;

  constructor(page) {
    this.#page = page;
  }

  // What a read of the latest version meets in a store that isn't sound: which record is lost or spoilt.
  #met() {
    const version = this.#store.latest;
    const key = this.#page.key();
    try {
      this.#store.root(version);
      if (key) this.#store.get(version, key);
    } catch (refused) {
      if (!(refused instanceof Refused)) throw refused;
      if (refused.slot !== null) return ` In version ${version} the record in slot ${refused.slot} is spoilt.`;
      if (refused.number === 17) return ` In version ${version} a record on the way to the key is lost.`;
    }
    return '';
  }

  async open(name, bytes) {
    at('store').hidden = false;
    for (const id of ['asking', 'by-number', 'paging']) at(id).hidden = true;
    at('page-no').textContent = '';
    at('store-title').textContent = `Store ${shownText(name)}`;
    for (const id of ['tree', 'versions', 'history']) at(id).replaceChildren();
    for (const id of ['history-said', 'sound']) at(id).textContent = '';
    this.#store?.close();
    this.#store = await this.#page.grants.open(bytes);
    try {
      // Checked, and with a table for the reads that follow.
      this.#store.index();
    } catch (refused) {
      if (!(refused instanceof Refused)) throw refused;
      at('sound').className = 'bad';
      const why = refused.oldForm ? ` By its size and its header ${OLD_FORM}.` : refused.number === 3 ? `${this.#met()} What is whole in it can be rescued with the command line tool (grants rescue).` : '';
      at('sound').textContent = `This store is not to be used. Refused with ${refused.number}: ${refused.sentence}.${why}`;
      return;
    }
    this.#records = recordsOf(this.#store.bytes());
    const { oldest, latest, capacity, movedOver } = this.#store;
    at('sound').className = 'granted';
    const moved = movedOver ? ' It is a store of the old form (slots of 120 bytes), and is shown as it was moved over in memory; the file is as it was.' : '';
    at('sound').textContent = `Sound: versions ${oldest} to ${latest}, ${capacity} slots.${moved}`;
    this.#spans = this.#store.publishings();
    this.#list();
    for (const id of ['asking', 'by-number']) at(id).hidden = false;
  }

  // The publishings that end before one of them, the newest first, so many at a time; the others are reached from there.
  #list(end = this.#spans.length) {
    const start = Math.max(0, end - MOST_ROWS);
    const rows = this.#spans.slice(start, end).reverse().map(({ first, last }) => {
      const button = element('button', { type: 'button' }, first === last ? `version ${first}` : `version ${first} to ${last}`);
      button.addEventListener('click', () => this.show(first));
      return [button, `${this.#store.count(first)}`, element('span', { class: 'hex' }, toHex(this.#store.root(first)))];
    });
    at('versions').replaceChildren(tableOf(['Version', 'Grants', 'Root'], rows));
    const many = this.#spans.length;
    at('paging').hidden = many <= MOST_ROWS;
    at('page-said').textContent = `Publishings ${start + 1} to ${end} of ${many}, the newest first.`;
    at('later').disabled = end === many;
    at('earlier').disabled = start === 0;
    at('later').onclick = () => this.#list(Math.min(many, end + MOST_ROWS));
    at('earlier').onclick = () => this.#list(Math.max(MOST_ROWS, start));
  }

  // The tree of any version that is kept, and the publishing that it reads as in the list.
  openVersion(text) {
    const { oldest, latest } = this.#store;
    const version = /^\d{1,10}$/.test(text) ? Number(text) : NaN;
    const kept = oldest <= version && version <= latest;
    at('page-no').textContent = kept ? '' : `That is no version of this store: ${oldest} to ${latest} are kept.`;
    if (!kept) return;
    const which = this.#spans.findIndex(({ last }) => version <= last);
    this.#list(Math.min(this.#spans.length, Math.max(MOST_ROWS, which + 1 + MOST_ROWS / 2)));
    this.show(version);
  }

  #called(bytes) {
    return calledBy(this.#page.book(), (name) => this.#page.grants.name(name), bytes);
  }

  // `made` is the number that the tree was published under: what has it is new there.
  #node(tree, version, made) {
    const place = tree.place || 'root';
    const look = tree.version === made ? 'new' : '';
    if (tree.below) {
      const below = tree.below.map((child, bit) => child && element('li', {}, `${bit} `, this.#node(child, version, made)));
      return element('span', {}, element('span', { class: look }, `inner node ${place}, ${tree.counts.join(' + ')} grants below, version ${tree.version}, slot ${tree.slot}`), element('ul', {}, ...below));
    }
    const button = element('button', { type: 'button', class: 'hex', title: toHex(tree.key) }, `prove ${shortHex(toHex(tree.key))}`);
    button.addEventListener('click', () => this.prove(version, tree.key));
    const names = this.#page.book().names;
    const key = names.has(toHex(tree.key)) ? [' ', this.#called(tree.key)] : [];
    return element('span', {}, button, ...key, ' = ', element('span', { class: look }, this.#called(tree.value)), ` leaf ${place.length > 24 ? `${place.slice(0, 20)}.. (${place.length} bits)` : place}, version ${tree.version}, slot ${tree.slot}`);
  }

  prove(version, key) {
    this.#page.prove(this.#store.root(version), key, this.#store.prove(version, key));
  }

  // What became of the keys since the version before, which reads as the publishing before.
  #changes(version) {
    const [before, now] = [version - 1, version].map((v) => new Map(leavesOf(treeOf(this.#records, v)).map((leaf) => [toHex(leaf.key), toHex(leaf.value)])));
    const lines = [];
    for (const [key, value] of now) if (before.get(key) !== value) lines.push(`${before.has(key) ? 'changed' : 'added'} ${shortHex(key)}`);
    for (const key of before.keys()) if (!now.has(key)) lines.push(`removed ${shortHex(key)}`);
    return lines;
  }

  show(version) {
    this.#shown = version;
    const tree = treeOf(this.#records, version);
    const since = version > this.#store.oldest ? this.#changes(version) : undefined;
    at('tree').replaceChildren(
      element('h2', { tabindex: '-1', id: 'tree-title' }, `The tree of version ${version}`),
      element('p', { id: 'changes' }, since === undefined ? 'The version before it is not kept.' : since.length ? `Since version ${version - 1}: ${since.join(', ')}.` : `Since version ${version - 1} no grant changed.`),
      tree ? element('div', { class: 'wide' }, this.#node(tree, version, tree.version)) : element('p', {}, 'It holds no grant: its root is 32 zero bytes, and that is itself the proof.'),
    );
    at('tree-title').focus();
  }

  // Names came: what is shown is shown again with them.
  named() {
    if (at('tree-title')) this.show(this.#shown);
    if (at('history').childElementCount) this.history(this.#asked);
  }

  #asked;

  // Each kept version from which the key reads otherwise than before; every value is the library's read.
  history(key) {
    this.#asked = key;
    const { oldest, latest } = this.#store;
    const turns = this.#store.history(key);
    const what = ({ value }, i) => (value === null ? (i === 0 ? 'not granted' : 'withdrawn') : i === 0 ? 'granted' : turns[i - 1].value === null ? 'granted' : 'given another value');
    const name = this.#page.book().names.has(toHex(key)) ? [', which the book calls ', this.#called(key)] : [];
    at('history-said').replaceChildren(`What versions ${oldest} to ${latest} say of the key `, element('span', { class: 'hex' }, toHex(key)), ...name, ':');
    const rows = turns.map((turn, i) => {
      const { version, value } = turn;
      const prove = element('button', { type: 'button', 'aria-label': `Prove it in version ${version}` }, 'Prove it');
      prove.addEventListener('click', () => this.prove(version, key));
      const root = toHex(this.#store.root(version));
      const provable = /[^0]/.test(root) ? prove : 'its root of zeros is the proof';
      return [`${i === 0 && oldest > 0 ? 'kept since ' : ''}version ${version}`, what(turn, i), value ? this.#called(value) : '', bookSays(this.#page.book(), version, root), provable];
    });
    at('history').replaceChildren(tableOf(['From', 'What', 'Value', 'By the book', 'Proof'], rows));
  }
}
