// What the publisher signs, read; and what an editor keeps so that a stale list is refused (docs/EDITOR.md). Nothing here needs the WebAssembly.

const FORM = /^the root of a grant store\nversion (0|[1-9]\d{0,9})\nroot ([0-9a-f]{64})\n(?:bits (\d|1[0-2])\n)?(?:published (\S{20})\n)?made (\S{20})\n(?:not-after (\S{20})\n)?$/;
const DATE = /^(\d{4})-(\d\d)-(\d\d)T(\d\d):(\d\d):(\d\d)Z$/;

// Seconds since 1970 of a date such as 2026-05-10T10:00:00Z, NaN for a day or a time that there isn't; null where none is given.
function seconds(text) {
  if (text === undefined) return null;
  const read = DATE.exec(text);
  if (!read) return NaN;
  const [year, month, day, hour, minute, second] = read.slice(1).map(Number);
  const date = new Date(0);
  date.setUTCFullYear(year, month - 1, day);
  date.setUTCHours(hour, minute, second);
  // What isn't there, as the 30th of February, comes out as another day.
  return date.toISOString() === `${text.slice(0, 19)}.000Z` ? date.getTime() / 1000 : NaN;
}

// A root with its version and dates, as it is signed (docs/SIGNING.md). Dates are seconds since 1970.
export class Statement {
  constructor({ version, root, bits = null, published = null, made, notAfter = null }) {
    Object.assign(this, { version, root, bits, published, made, notAfter });
    Object.freeze(this);
  }

  // The very lines that `grants root --out` writes, and no others; null for any other bytes or text. Check the signature first, over the same bytes.
  static read(given) {
    let text = given;
    if (typeof given !== 'string') {
      // A byte is a character here; none above 127 is in the form. The longest statement has 239 bytes.
      if (!(given instanceof Uint8Array) || given.length > 300) return null;
      text = String.fromCharCode(...given);
    }
    const read = text.length <= 300 ? FORM.exec(text) : null;
    if (!read) return null;
    const version = Number(read[1]);
    // Of a shelf, how many bits of a key name its part.
    const bits = read[3] === undefined ? null : Number(read[3]);
    const [published, made, notAfter] = read.slice(4).map(seconds);
    if (version > 0xffff_ffff || [published, made, notAfter].some(Number.isNaN)) return null;
    const root = Uint8Array.from(read[2].match(/../g), (digits) => parseInt(digits, 16));
    return new Statement({ version, root, bits, published, made, notAfter });
  }
}

const same = (a, b) => a.length === b.length && a.every((byte, i) => byte === b[i]);

// What an editor keeps of a list, from one start to the next: the highest version, its root, and the latest time that it knows to have come.
export class Seen {
  constructor({ version = 0, root = new Uint8Array(32), time = 0 } = {}) {
    Object.assign(this, { version, root, time });
  }

  // What to make of a statement whose signature holds, at a time of the clock in seconds since 1970: 'fresh', or why it isn't. A clock that is behind
  // what was seen, or behind the statement's own 'made', is not believed.
  judge(statement, now) {
    if (!(statement instanceof Statement) || !Number.isFinite(now)) throw new TypeError('a statement and a time are wanted');
    if (statement.version < this.version) return 'older than the version seen before';
    if (statement.version === this.version && !same(statement.root, this.root)) return 'another root for the version seen before';
    if (statement.notAfter === null) return 'without a date';
    return this.#time(statement, now) > statement.notAfter ? 'past its date' : 'fresh';
  }

  // The same, and what it says is kept where it is fresh. Of one that is past, that its date has come is kept: no clock that is set back makes it fresh again.
  take(statement, now) {
    const verdict = this.judge(statement, now);
    if (verdict === 'fresh') Object.assign(this, { version: statement.version, root: statement.root, time: this.#time(statement, now) });
    if (verdict === 'past its date') this.time = Math.max(this.time, statement.notAfter + 1);
    return verdict;
  }

  #time(statement, now) {
    return Math.max(now, this.time, statement.made);
  }
}
