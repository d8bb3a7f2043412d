// What both pages are made of: elements, and texts of others shown so that they can't pass for more than they are.
import { toHex } from '../../js/grants.js';
import { shownText } from './book.js';

export const at = (id) => document.getElementById(id);

// An element with its class, its text or what is in it, and its attributes.
export function element(tag, { class: names, ...given } = {}, ...inside) {
  const it = document.createElement(tag);
  if (names) it.className = names;
  for (const [name, value] of Object.entries(given)) it.setAttribute(name, value);
  it.append(...inside.filter((x) => x !== undefined));
  return it;
}

export const shortHex = (hex) => `${hex.slice(0, 8)}..${hex.slice(-4)}`;
export const counted = (n, what) => `${n} ${what}${n === 1 ? '' : 's'}`;

// 32 bytes with the name that a book gives them, and their digits beside it. A name is marked where its SHA-256 is another: then only the book says that it is theirs.
export function calledBy(book, sha256OfName, bytes) {
  const hex = toHex(bytes);
  const digits = element('span', { class: 'hex short', title: hex }, shortHex(hex));
  const name = book.names.get(hex);
  if (name === undefined) return digits;
  const mark = toHex(sha256OfName(name)) === hex ? '' : element('span', { class: 'bad' }, ' (by the book alone: not the name’s SHA-256)');
  // Letters that run from right to left stay within the name.
  return element('span', { class: 'named' }, element('bdi', {}, `“${shownText(name)}”`), ' ', digits, mark);
}

// Does work during which the page is busy, and tells who can't see it: what it then says is whole only when the work is done.
let works = 0;
export async function busyWith(work) {
  const say = (more) => document.body.setAttribute('aria-busy', `${(works += more) > 0}`);
  say(1);
  try {
    await work();
  } finally {
    say(-1);
  }
}

export function tableOf(heads, rows) {
  const head = element('tr', {}, ...heads.map((text) => element('th', { scope: 'col' }, text)));
  const body = rows.map((cells) => element('tr', {}, ...cells.map((cell) => element('td', {}, cell))));
  return element('div', { class: 'wide' }, element('table', {}, element('thead', {}, head), element('tbody', {}, ...body)));
}
