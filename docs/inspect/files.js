// What a file that was dropped is: a root, a statement, its signature or the key to it, a book, a store, proofs, keys; or why this page takes nothing of it.
import { ABSENCE_KIND, AT, PRESENCE_KIND, isHeader, u16, u32 } from '../../js/form.js';
import { fromHex, shelfPieces, toHex } from '../../js/grants.js';
import { Statement } from '../../js/statement.js';
import { bookOf, linesOf, wordsOf } from './book.js';
import { publicKeyOf, signatureOf } from './signature.js';

// The largest store there is has some two million bytes, and the proofs of 256 keys some four.
export const MOST_BYTES = 5_000_000;
// No more keys are asked for, or proofs checked, at once.
export const MOST_KEYS = 256;

const isProof = (record) => [PRESENCE_KIND, ABSENCE_KIND].includes(u16(record, AT.kind));

// The whole records that bytes are made of, by their own lengths; undefined where they aren't, or one is no proof's.
function recordsIn(bytes) {
  const records = [];
  for (let from = 0; from < bytes.length; from += records.at(-1).length) {
    const record = bytes.subarray(from, from + u32(bytes, from));
    if (record.length < 8 || record.length !== u32(bytes, from) || !isProof(record)) return undefined;
    records.push(record);
  }
  return records;
}

// The proofs that stand one after the other: of a store each is a record, of a shelf one or two. Bytes that aren't whole records are one piece, and the checker says what they are worth.
export function proofsIn(bytes, bits = null) {
  const records = recordsIn(bytes);
  if (!records || records.length < 2) return [bytes];
  return bits === null ? records : shelfPieces(bytes);
}

// The key that a proof says it is for.
export function keyIn(proof, bits = null) {
  const first = proof.subarray(0, u32(proof, AT.length));
  const record = bits !== null && first.length < proof.length ? proof.subarray(first.length) : first;
  return record.slice(AT.proofKey, AT.proofKey + 32);
}

const nothing = (why) => ({ kind: 'nothing', why });
const HEX_KEY = /^[0-9a-f]{64}$/i;

// A file of keys, a line each, as `grants prove --keys` takes it: digits, or a name in double quotes.
function keysIn(text) {
  const keys = [];
  for (const [i, line] of linesOf(text).entries()) {
    const words = wordsOf(line);
    if (words?.length === 0) continue;
    const [{ plain, quoted }] = words?.length === 1 ? words : [{}];
    if (!HEX_KEY.test(plain ?? '') && quoted === undefined) return nothing(`line ${i + 1} of it is no key: 64 hex digits, or a name in double quotes.`);
    keys.push(plain !== undefined ? { hex: plain.toLowerCase() } : { name: quoted });
    if (keys.length > MOST_KEYS) return nothing(`it has more than ${MOST_KEYS} keys, and no more are asked for at once.`);
  }
  return { kind: 'keys', keys };
}

const BOOK_LINE = /^\s*(name\s+[0-9a-f]{64}\s+"|version\s+\d+\s+[0-9a-f]{64}\s|fresh\s+\d{4}-)/im;

function textKind(text, bytes) {
  if (text.startsWith('the root of')) {
    const statement = Statement.read(bytes);
    return statement ? { kind: 'statement', bytes, statement } : nothing('it begins as a statement, and isn’t the very lines that `grants root --out` writes: what is signed has one form, so this one shows nothing.');
  }
  if (/^untrusted comment:/.test(text) || text.includes('-----BEGIN') || /^[^#\n]*(^|\s)(ssh|ecdsa|sk)-\S+\s+AAAA/m.test(text)) {
    const [signature, signers] = [signatureOf(bytes), publicKeyOf(bytes)];
    if (!signature.why) return { kind: 'signature', text: text.trim() };
    if (!signers.why) return { kind: 'signers', text: text.trim() };
    return nothing(`${/BEGIN SSH SIGNATURE|^trusted comment:/m.test(text) ? signature.why : signers.why}.`);
  }
  if (text.startsWith('# A shelf of grant stores')) return nothing('it is a file of a shelf’s folder, which the desk’s page takes; this page takes its statement and its proofs.');
  if (BOOK_LINE.test(text)) return { kind: 'book', book: bookOf(text) };
  if (/^\s*[+-]\s/m.test(text)) return nothing('it is a batch: this page publishes nothing.');
  if (/^\s*("|[0-9a-f]{64}\s*(#|$))/im.test(text)) return keysIn(text);
  return nothing('it is text, and neither a root, a statement, its signature, a public key, a book nor a list of keys.');
}

// Text in UTF-8 without a zero byte, which every record has; undefined for other bytes.
function asText(bytes) {
  if (bytes.includes(0)) return undefined;
  try {
    return new TextDecoder('utf-8', { fatal: true }).decode(bytes);
  } catch {
    return undefined;
  }
}

const LISTED = 'a root, a statement, its signature, a public key, a proof, proofs in a row, an ICS 23 message, a store, a book nor a list of keys';

export function kindOf(bytes) {
  if (bytes.length === 0) return nothing('it is empty.');
  const text = asText(bytes);
  const digits = text?.replace(/\s/g, '');
  // A list of keys is lines of digits too; it is a root where it has one line.
  const lines = text === undefined ? [] : linesOf(text).filter((line) => line.trim() !== '');
  if (lines.length > 1 && lines.every((line) => HEX_KEY.test(line.trim()))) return keysIn(text);
  if (digits && /^([0-9a-f]{2})+$/i.test(digits)) return kindOf(fromHex(digits));
  if (text !== undefined && /[^\x20-\x7e\s]/.test(text) === false) return textKind(text, bytes);
  if (bytes.length === 32) return { kind: 'root', root: toHex(bytes) };
  if (isHeader(bytes)) return { kind: 'store', bytes };
  if (bytes.length === 64) return { kind: 'signature', text: toHex(bytes) };
  if (!publicKeyOf(bytes).why) return { kind: 'signers', text: toHex(bytes) };
  if (text !== undefined) return textKind(text, bytes);
  if (!isProof(bytes)) return nothing(`it is neither ${LISTED}.`);
  const proofs = recordsIn(bytes);
  if (proofs && proofs.length > 2 * MOST_KEYS) return nothing(`it has ${proofs.length} proofs, and no more than ${MOST_KEYS} are checked at once.`);
  return { kind: 'proof', bytes };
}
