/** What the publisher signs, read; and what an editor keeps so that a stale list is refused (docs/EDITOR.md of the checkout). */

/** A root with its version and dates, as it is signed. Dates are seconds since 1970. */
export class Statement {
  constructor(given: { version: number; root: Uint8Array; bits?: number | null; published?: number | null; made: number; notAfter?: number | null });
  readonly version: number;
  readonly root: Uint8Array;
  /** Of a shelf, how many bits of a key name its part, for `shelfVerify`; null of a store. */
  readonly bits: number | null;
  readonly published: number | null;
  readonly made: number;
  readonly notAfter: number | null;
  /** The very lines that `grants root --out` writes, and no others; null for any other bytes or text. Check the signature first, over the same bytes. */
  static read(given: Uint8Array | string): Statement | null;
}

/** 'fresh', or why a statement isn't to be believed. */
export type Verdict =
  | 'fresh'
  | 'older than the version seen before'
  | 'another root for the version seen before'
  | 'without a date'
  | 'past its date';

/** What an editor keeps of a list, from one start to the next: the highest version, its root, and the latest time that it knows to have come. */
export class Seen {
  constructor(given?: { version?: number; root?: Uint8Array; time?: number });
  version: number;
  root: Uint8Array;
  time: number;
  /** What to make of a statement whose signature holds, at a time of the clock in seconds since 1970. */
  judge(statement: Statement, now: number): Verdict;
  /** The same, and what it says is kept where it is fresh; of one that is past, that its date has come. */
  take(statement: Statement, now: number): Verdict;
}
