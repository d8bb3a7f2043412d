// The sizes, kinds and offsets of docs/FORMAT.md. No other file of js/ or of the page has them as numbers.

export const MOST_SLOTS = 16384;
export const HEADER_BYTES = 24;
export const SLOT_BYTES = 128;
// A slot of the old form, whose inner records have no counts.
export const OLD_SLOT_BYTES = 120;
// A record of a batch or of a list of changes.
export const RECORD_BYTES = 72;
// What a delete says of its length: it has no value.
export const DELETE_LENGTH = 40;
// A presence proof before its steps, a step, an absence proof before its neighbours, and the longest proof.
export const PRESENCE_BYTES = 72;
export const STEP_BYTES = 33;
export const ABSENCE_BYTES = 40;
export const LONGEST_PROOF = 17080;
export const LONGEST_MESSAGE = 29999;

export const HEADER_KIND = 4;
export const OLD_HEADER_KIND = 1;
export const LEAF_KIND = 2;
export const INNER_KIND = 5;
export const INSERT_KIND = 1;
export const DELETE_KIND = 2;
export const PRESENCE_KIND = 16;
export const ABSENCE_KIND = 17;

// Where fields stand: of every record, of the header, of a slot with a record, of a batch record, of a proof.
export const AT = {
  length: 0, kind: 4,
  capacity: 8, oldest: 12, latest: 16,
  bitCount: 6, bits: 8, version: 40, retiredSince: 44,
  key: 48, value: 80,
  children: [48, 84], counts: [120, 124],
  recordKey: 8, recordValue: 40,
  steps: 6, flags: 6, proofKey: 8, proofValue: 40,
};

export const storeBytes = (capacity) => HEADER_BYTES + SLOT_BYTES * capacity;
export const oldStoreBytes = (capacity) => HEADER_BYTES + OLD_SLOT_BYTES * capacity;

export const sameBytes = (a, b) => a.length === b.length && a.every((byte, i) => byte === b[i]);

// A number of 2 or 4 bytes; what lies past the end counts as zero.
export const u16 = (bytes, at) => (bytes[at] ?? 0) + 256 * (bytes[at + 1] ?? 0);
export const u32 = (bytes, at) => u16(bytes, at) + 65536 * u16(bytes, at + 2);

// Whether bytes begin as the header of a store does, of this form or of the old one.
export const isHeader = (bytes) => bytes.length > HEADER_BYTES && u32(bytes, AT.length) === HEADER_BYTES && [HEADER_KIND, OLD_HEADER_KIND].includes(u16(bytes, AT.kind));

// Whether bytes are a store of the old form: by their size and the kind in their header, and by the capacity too where a store of today may have that size.
export function isOldForm(bytes) {
  const slots = (bytes.length - HEADER_BYTES) / OLD_SLOT_BYTES;
  if (!Number.isInteger(slots) || slots < 1 || slots > MOST_SLOTS) return false;
  const either = (bytes.length - HEADER_BYTES) % SLOT_BYTES === 0;
  return isHeader(bytes) && u16(bytes, AT.kind) === OLD_HEADER_KIND && (!either || u32(bytes, AT.capacity) === slots);
}

export const OLD_FORM = `this is a store of the old form (slots of ${OLD_SLOT_BYTES} bytes); \`grants move\` of the command line tool brings it over`;
