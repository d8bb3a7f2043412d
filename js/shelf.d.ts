/** A shelf: more grants than one store holds, under one root (docs/SCALE.md of the checkout). */
import type { Bytes, Change, Changed, Found, Grant, Grants, Publishing, Store, Turn } from './grants.js';
import { Refused } from './grants.js';

/** A shelf has at most so many bits. */
export const SHELF_BITS: 12;

/** A file of a shelf's folder: its name, and how its bytes are read. */
export interface ShelfFile {
  name: string;
  read(): Bytes | Promise<Bytes>;
}

/** Writes a file, whole or not at all; the bytes are there when it is done. */
export type Put = (name: string, bytes: Uint8Array) => void | Promise<void>;

/** A shelf has no answer: the number of refusal that it comes to, and the part that it is refused for, null where it is the list. A part that isn't the one that the list names is 3. */
export class ShelfRefused extends Refused {
  constructor(number: number, part: number | null, sentence?: string);
  readonly part: number | null;
}

/** A shelf as its files were when it was opened. What a part's file says counts only where it has the root that the list names. */
export class Shelf {
  private constructor();
  /** An empty shelf: its files `shelf` and `list` are put. Refused: 21, 1. */
  static format(grants: Grants, given: { bits: number; slots: number; listSlots?: number }, put: Put): Promise<Shelf>;
  /** The shelf of these files; others than a shelf's are passed over, and a part is read when it is asked for. The list is checked. Refused: 1, 2, 3; an Error where they are no shelf. */
  static open(grants: Grants, files: Iterable<ShelfFile>): Promise<Shelf>;
  /** How many bits of a key name its part, 0 to 12. */
  readonly bits: number;
  /** How many slots a new part gets. */
  readonly slots: number;
  /** The store whose root is signed, until the next publishing or pruning. */
  readonly list: Store;
  readonly oldest: number;
  readonly latest: number;
  /** The parts' files that are in use. */
  readonly files: string[];
  /** The one hash that is signed. Refused: 8. */
  root(version: number): Uint8Array;
  publishings(): Publishing[];
  /** Refused: 12, 8, 3 or 17. */
  get(version: number, key: Uint8Array): Promise<Found>;
  /** A proof for `shelfVerify`. Refused: 12, 8, 14 (the shelf holds no grant), 3 or 17. */
  prove(version: number, key: Uint8Array): Promise<Uint8Array>;
  /** The proofs for up to 256 keys, in the order asked; a part is read once. Refused: 12, 8, 14, 3 or 17. */
  palette(version: number, keys: readonly Uint8Array[]): Promise<Uint8Array[]>;
  /** Refused: 8, 3. */
  count(version: number): Promise<number>;
  /** The grants of a version in the order of keys, part by part. Refused: 8, 3. */
  grants(version: number): AsyncGenerator<Grant>;
  /** What changed from one kept version to another, in the order of keys. Refused: 8, 3. */
  changes(first: number, second: number): Promise<Changed[]>;
  /** Each kept version from which a key reads otherwise than before, the oldest kept one first. Refused: 12, 3. */
  history(key: Uint8Array): Promise<Turn[]>;
  /** Publishes under a number above latest: the parts that change are put under new names, the list last; from then on the shelf is the new one. `gone` are files that no one needs any more. One writer at a
   * time is the caller's to see to. Where it is refused, or a file can't be put, the shelf stays as it was. Refused: 3, 4 (also where it takes several publishings), 5, 18, 7. */
  publish(number: number, changes: Iterable<Change> | Bytes, put: Put): Promise<{ version: number; root: Uint8Array; newRecords: number; parts: number; gone: string[] }>;
  /** Closes the list and the parts that are open; nothing can be asked of the shelf from then on. */
  close(): void;
  /** Keeps no version before this one. Refused: 3, 8. */
  prune(version: number, put: Put): Promise<{ freed: number; gone: string[] }>;
}

/** The number of a key's part: its first bits. */
export function partOf(key: Uint8Array, bits: number): number;
/** The key that a part has in the list: its bits, then zeros. */
export function listKey(part: number, bits: number): Uint8Array;
/** What the name of a part's file says; undefined for any other name. */
export function partFileOf(name: string): { name: string; part: number; latest: number; oldest: number; grants: number } | undefined;
