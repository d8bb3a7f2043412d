// The book beside a store (docs/TOOL.md), read: names of keys and values, and for each published version its root, time, author and message. It is text for people, and anybody may have written it.

// No line that the tool writes is longer; a longer one is as good as one that can't be read.
const MOST_LINE = 10_000;
// What is shown of a name or a message at most.
const MOST_SHOWN = 120;

// The words of a line: { plain } or { quoted }; undefined where it can't be read.
export function wordsOf(line) {
  if (line.length > MOST_LINE) return undefined;
  const words = [];
  let rest = line;
  for (;;) {
    rest = rest.trimStart();
    if (rest === '' || rest.startsWith('#')) return words;
    const quoted = /^"((?:[^"\\]|\\["\\]|\\u\{[0-9a-f]{1,6}\})*)"(?=\s|#|$)/i.exec(rest);
    const plain = rest.startsWith('"') ? null : /^[^\s#]+/.exec(rest);
    if (!quoted && !plain) return undefined;
    try {
      const unescaped = (text) => text.replace(/\\(?:(["\\])|u\{([0-9a-f]+)\})/gi, (_, kept, code) => kept ?? String.fromCodePoint(parseInt(code, 16)));
      words.push(quoted ? { quoted: unescaped(quoted[1]) } : { plain: plain[0] });
    } catch {
      return undefined;
    }
    rest = rest.slice((quoted ?? plain)[0].length);
  }
}

export const linesOf = (text) => text.replace(/^\ufeff/, '').split(/\r?\n/);

// A text of others as it is shown: what has no look of its own, or turns the letters around it, by its number; and no longer than a line.
export function shownText(text) {
  const letters = Array.from(text.slice(0, 2 * MOST_SHOWN + 2));
  const plain = letters.slice(0, MOST_SHOWN).join('').replace(/[\p{C}\p{Zl}\p{Zp}]|(?! )\p{Zs}/gu, (letter) => `\\u{${letter.codePointAt(0).toString(16)}}`);
  return letters.length > MOST_SHOWN ? `${plain}… (${text.length} characters)` : plain;
}

const HEX = /^[0-9a-f]{64}$/i;

// What a book says: `names` of 32 bytes (by their hex digits), what each name `meant` (a list of hex digits), `entries` of each version, how many lines it has that can't be read, and the first of them.
export function bookOf(text) {
  const book = { names: new Map(), meant: new Map(), entries: new Map(), unread: 0, firstUnread: 0 };
  linesOf(text).forEach((line, i) => {
    const words = wordsOf(line);
    const [what, first, second, third, fourth, fifth] = words ?? [];
    const time = (word) => (/^\d{4}-\d\d-\d\dT\d\d:\d\d:\d\dZ$/.test(word?.plain ?? '') ? Date.parse(word.plain) / 1000 : NaN);
    if (words && words.length === 0) return;
    if (words?.length === 3 && what.plain === 'name' && HEX.test(first.plain ?? '') && second.quoted !== undefined) {
      const hex = first.plain.toLowerCase();
      if (!book.names.has(hex)) book.names.set(hex, second.quoted);
      const meant = book.meant.get(second.quoted);
      if (!meant) book.meant.set(second.quoted, [hex]);
      // Two are as bad as many.
      else if (meant.length === 1 && meant[0] !== hex) meant.push(hex);
    } else if (words?.length === 6 && what.plain === 'version' && /^\d{1,10}$/.test(first.plain ?? '') && HEX.test(second.plain ?? '') && !Number.isNaN(time(third)) && fourth.quoted !== undefined && fifth.quoted !== undefined) {
      const version = Number(first.plain);
      const entry = { version, root: second.plain.toLowerCase(), time: time(third), author: fourth.quoted, message: fifth.quoted };
      if (book.entries.has(version)) book.entries.get(version).push(entry);
      else book.entries.set(version, [entry]);
    } else if (words?.length === 2 && what.plain === 'fresh' && !Number.isNaN(time(first))) book.entries.clear();
    else {
      book.unread += 1;
      book.firstUnread ||= i + 1;
    }
  });
  return book;
}

// What the book says of a version whose root is known, its last line first; undefined where it says nothing that agrees.
export const saidOf = (book, version, root) => (book.entries.get(version) ?? []).findLast((entry) => entry.root === root);

// The version that was the latest at a second, by dates whose roots agree; a sentence where that isn't certain. `publishings` are the numbers that the store shows, `dated` their times.
export function latestAt(publishings, dated, oldest, end) {
  const known = publishings.filter((version) => dated.has(version));
  const found = known.findLast((version) => dated.get(version) <= end);
  if (known.some((version) => version < (found ?? 0) && dated.get(version) > end)) return { why: 'the dates in the book don’t ascend' };
  if (found === undefined && oldest > 0) return { why: known[0] === publishings[0] ? `it was older than version ${publishings[0]}, the oldest that is kept` : `the book has no date for version ${publishings[0]} that agrees with its root` };
  const after = publishings.find((version) => version > Math.max(found ?? 0, oldest));
  if (after !== undefined && !dated.has(after)) return { why: `the book has no date for version ${after} that agrees with its root` };
  return { version: Math.max(found ?? 0, oldest) };
}
