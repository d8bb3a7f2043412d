/** The calls of the grant store as WebAssembly. README.md shows them; docs/RULES.md of the checkout says what each does. */

/** Bytes, or hex digits for them. */
export type Bytes = Uint8Array | ArrayBuffer | ArrayBufferView | string;

/** What a read or a proof says of a key. */
export type Found = { present: true; value: Uint8Array } | { present: false };

/** A key's new value, or null to take the key out. */
export interface Change {
  key: Bytes;
  value: Bytes | null;
}

/** What a publishing made. */
export interface Applied {
  /** The number that was given. */
  version: number;
  root: Uint8Array;
  newRecords: number;
}

/** A call was refused; it changed nothing. */
export class Refused extends Error {
  constructor(number: number, slot?: number | null, of?: { call?: string; oldForm?: boolean });
  /** The number of refusal. */
  readonly number: number;
  /** Its sentence. */
  readonly sentence: string;
  /** The slot of the spoilt record that a read was refused for (3); null for all else. */
  readonly slot: number | null;
  /** The store is one of the old form, with slots of 120 bytes: `grants move` of the command line tool brings it over. */
  readonly oldForm: boolean;
}

/** A store in memory of its own. Its calls run one after the other, and throw `Refused` where the library refuses. */
export class Store {
  private constructor();
  /** A copy of the store's bytes, to be kept in a file. */
  bytes(): Uint8Array;
  /** What the header says; only `check` says whether the store is sound. */
  readonly capacity: number;
  readonly oldest: number;
  readonly latest: number;
  /** Whether this is a store of the old form, with slots of 120 bytes, by size and header, that could not be moved over: every call refuses it, and says so. */
  readonly oldForm: boolean;
  /** Whether it was opened from a store of the old form, and was moved over in memory: roots, reads and proofs are what they were. */
  readonly movedOver: boolean;
  /** The store's bytes in the old form. Refused: 1, 2, 3. */
  movedBack(): Uint8Array;
  /** Makes the store fresh and empty again, whatever it holds. Refused: 1. */
  format(): void;
  /** Nothing where the store is sound. Refused: 1, 2, 3. */
  check(): void;
  /** Checks the store, and makes a table of its records in memory by which reads find them in a few looks; it is kept with the store from then on, and no answer changes. `grants`, `history` and `palette`
   * make it by themselves where that pays. Refused: 1, 2, 3. */
  index(): void;
  /** Wipes the store's memory and gives it back for another store; nothing can be asked of it from then on. An engine has room for some hundred stores at a time. */
  close(): void;
  /** Whether there is a table. */
  readonly indexed: boolean;
  /** Publishes a version under a number, any above latest; changes may come in any order, bytes are taken as a batch. A version between two
   * publishings reads as the earlier one. Refused: 1, 2, 3, 4, 5, 18, 7. */
  apply(number: number, changes: Iterable<Change> | Bytes): Applied;
  /** The same under the number after latest. Refused: 1, 2, 3, 4, 5, 18 (latest is 4,294,967,295), 7. */
  applyNext(changes: Iterable<Change> | Bytes): Applied;
  /** Keeps no version before this one; how many records were freed. Refused: 1, 2, 3, 8. */
  prune(version: number): number;
  /** The root of a version, 32 zero bytes where it holds no grant. Refused: 1, 2, 8, 3. */
  root(version: number): Uint8Array;
  /** A key in a version; a read trusts the store. A record on the way may be spoilt (3, with `slot`) or lost (17). Refused: 12, 1, 2, 8, 3 or 17. */
  get(version: number, key: Bytes): Found;
  /** How many grants a version has. The library's answer has 64 bits and is at most 8,589,934,590, which a number says exactly. Refused: 1, 2, 8, 3. */
  count(version: number): number;
  /** The grant at a position of a version, 0 the one with the least key. A position has 64 bits: a number where that is exact, else a BigInt. Where it
   * isn't below `count` it is refused with 20. Refused: 1, 2, 8, 3 (of the root), 20, 3 or 17. */
  at(version: number, position: number | bigint): Grant;
  /** All grants of a version of a sound store, in the order of keys. Refused: 1, 2, 3, 8. */
  grants(version: number): Grant[];
  /** The kept publishings of a sound store, the oldest first: `first` to `last` are the versions that read as it. Refused: 1, 2, 3. */
  publishings(): Publishing[];
  /** What became of a key: each kept version of a sound store from which it reads otherwise than before, the oldest kept one first. Refused: 12, 1, 2, 3. */
  history(key: Bytes): Turn[];
  /** The proof that a key is in a version, or that it isn't, in at most so many bytes. Refused: 12, 1, 2, 8, 14, 3 or 17, 9. */
  prove(version: number, key: Bytes, most?: number): Uint8Array;
  /** What is found of a proof for a key in a version. 12, 1, 2, 3, 8, 14, 10, 11. */
  finding(version: number, key: Bytes, proof: Bytes): Finding;
  /** The proofs for up to 256 keys, in the order asked, in at most so many bytes together. Refused: 12, 1, 2, 8, then of the first key refused 14, 3 or 17;
   * then 9. */
  palette(version: number, keys: readonly Bytes[], most?: number): Uint8Array[];
  /** What changed from one kept version to another, in the order of keys, with at most so many visits (32,769 are always enough) and bytes of
   * the library's list (all that it can take). Refused: 1, 2, 3, 8, 13, 9. */
  changes(first: number, second: number, limit?: number, most?: number): Changed[];
  /** As `prove`; 19 where a leaf that the proof shows has more than 32 steps. */
  provePocket(version: number, key: Bytes, most?: number): Uint8Array;
  /** What is counted over the trees of the kept versions from first to last, 1 to 1,024 of them. */
  figures(first: number, last: number, most?: number): { versions: Figures[]; distinct: number; records: number };
}

/** A key with its value. */
export interface Grant {
  key: Uint8Array;
  value: Uint8Array;
}

/** The versions that read as one publishing. */
export interface Publishing {
  first: number;
  last: number;
}

/** A version from which a key has another value than before, null where it has none. */
export interface Turn {
  version: number;
  value: Uint8Array | null;
}

/** What is counted over the tree of one version. */
export interface Figures {
  version: number;
  leaves: number;
  innerNodes: number;
  longestPath: number;
  pathSum: number;
}

/** A key that was added (`before` is null), removed (`after` is null) or given another value. */
export interface Changed {
  key: Uint8Array;
  before: Uint8Array | null;
  after: Uint8Array | null;
}

/** Whether a proof that is accepted tells the truth; if it doesn't, two different messages of 65 bytes with equal SHA-256, or one whose SHA-256 is zero. */
export interface Finding {
  truth: boolean;
  messages: Uint8Array[];
}

/** What a rescue gave back: versions `first` to latest. The numbers are those of the two buffers compared. */
export interface Rescued {
  store: Store;
  first: number;
  /** Records kept as they were. */
  same: number;
  /** Records kept with another retired-since. */
  other: number;
  /** Used slots left out. */
  out: number;
}

/** What was hashed for a leaf that a proof shows. */
export interface RawLeaf<T = Bytes> {
  key: T;
  value: T;
}

/** What an ICS 23 message was written from: the proof, the raw key asked for, and the raw leaves shown, the left one first. */
export interface Message {
  proof: Uint8Array;
  asked: Uint8Array;
  leaves: RawLeaf<Uint8Array>[];
}

/** The calls that need no store, and stores. */
export class Grants {
  private constructor();
  /** To hand to a worker, whose `load` takes it. */
  readonly module: WebAssembly.Module;
  /** What a proof shows of a key against a root. Refused: 12, 10, 11. */
  verify(root: Bytes, key: Bytes, proof: Bytes): Found;
  /** What each proof of a row shows of its key against one root, up to 256 at once: as `verify`, or its refusal, 10 or 11, in its place. The row is a list
   * of proofs as `palette` gives it, or their bytes one after the other. Refused: 12, 10 (it isn't as many pieces as keys, by their own lengths). */
  verifyMany(root: Bytes, keys: readonly Bytes[], row: readonly Bytes[] | Bytes): (Found | Refused)[];
  /** What a proof shows of a key of a shelf, against its list's root: the list's record for the key's part, then the part's where the list shows it. The bits, 0 to 12,
   * are signed with the root (`Statement.bits`). Refused: 12, 21, 10, 11. */
  shelfVerify(root: Bytes, bits: number, key: Bytes, proof: Bytes): Found;
  /** As `verify` for proofs of at most 32 steps for each leaf shown; 19 for others. */
  verifyPocket(root: Bytes, key: Bytes, proof: Bytes): Found;
  /** A proof as the message of ICS 23 that partners' verifiers read (docs/PARTNERS.md): the raw key asked for, and raw key and value of each leaf that the
   * proof shows, the left one first. Raw keys have 1 to 256 bytes, raw values 1 to 4,096. Needs grants.wasm. Refused: 10, 15. */
  writeMessage(proof: Bytes, asked: Bytes, leaves: readonly RawLeaf[]): Uint8Array;
  /** What such a message was written from; no other encoding is taken. Refused: 10. */
  readMessage(message: Bytes): Message;
  /** What a message shows of the raw key in it, against a root. Refused: 10, 12, 11. */
  verifyMessage(root: Bytes, message: Bytes): Found;
  sha256(bytes: Bytes): Uint8Array;
  /** The key that stands for a name: the SHA-256 of its UTF-8 bytes. */
  name(text: string): Uint8Array;
  /** A fresh store of so many slots. Refused: 1. */
  format(capacity: number): Promise<Store>;
  /** A store of any bytes, copied. A sound one of the old form is moved over in memory, and `movedOver` says so. */
  open(bytes: Bytes): Promise<Store>;
  /** The good versions of a damaged store: the longest run, none before oldest, that ends at latest; the bytes' header isn't looked at. Compare
   * `store.root(latest)` with the signed root: a root record whose retired-since was damaged makes withdrawn grants seem in force in later
   * versions, and nothing else shows it. Refused: 1, 2 (oldest above latest), 3 (no version). */
  rescue(damaged: Bytes, oldest: number, latest: number): Promise<Rescued>;
}

/** Proofs of a shelf that stand one after the other, cut apart by the lengths and kinds of their records. Whether a piece is a proof, `shelfVerify` says. */
export function shelfPieces(proofs: Uint8Array): Uint8Array[];

/** Whether this engine has SIMD, which grants-verify-simd.wasm needs. */
export function hasSimd(): boolean;

/** The library from its WebAssembly: bytes, a compiled module, a URL, or a path in Node; without one, grants.wasm beside this file. */
export function load(source?: Uint8Array | ArrayBuffer | WebAssembly.Module | URL | string): Promise<Grants>;

/** The bytes of a batch: records in the order of their keys. */
export function batch(changes: Iterable<Change> | Bytes): Uint8Array;

export function fromHex(text: string): Uint8Array;
export function toHex(bytes: Bytes): string;
