// Who signed a statement: the signatures of docs/SIGNING.md (openssl, ssh-keygen, minisign), each over the very bytes of the statement, checked by the browser's own Ed25519.
// Whose the public key is nobody can tell from it: that comes from the publisher by another way.
import { sameBytes } from '../../js/form.js';
import { fromHex, toHex } from '../../js/grants.js';

// The namespace that signatures of ssh-keygen are made in, where a line of signers doesn't name others.
const NAMESPACE = 'grant-roots';
// Public keys, lists of signers and signatures are small texts.
const MOST_SIGNED_BYTES = 16_384;
// What stands before the 32 bytes of an Ed25519 key in its DER form.
const DER = fromHex('302a300506032b6570032100');

const ascii = (text) => new TextEncoder().encode(text);
const joinedBytes = (...pieces) => Uint8Array.from(pieces.flatMap((piece) => [...piece]));

// The bytes of base64, undefined for anything else.
function fromBase64(text) {
  if (!/^[A-Za-z0-9+/]+={0,2}$/.test(text) || text.length % 4 !== 0) return undefined;
  return Uint8Array.from(atob(text), (c) => c.charCodeAt(0));
}

// Strings as ssh writes them: a length of 4 bytes, the highest first, then so many bytes.
const sshString = (bytes) => joinedBytes([24, 16, 8, 0].map((shift) => (bytes.length >>> shift) & 255), bytes);

// The strings that bytes are made of; undefined where they aren't whole.
function sshStrings(bytes) {
  const strings = [];
  for (let from = 0; from < bytes.length; ) {
    const length = bytes.length - from < 4 ? Infinity : bytes.slice(from, from + 4).reduce((sum, byte) => 256 * sum + byte, 0);
    if (from + 4 + length > bytes.length) return undefined;
    strings.push(bytes.slice(from + 4, from + 4 + length));
    from += 4 + length;
  }
  return strings;
}

// What an 'ssh-ed25519' pair of strings holds: a key of 32 bytes, or a signature of 64.
function sshEd25519(bytes, length) {
  const [kind, held, ...more] = sshStrings(bytes ?? []) ?? [];
  return kind && held && more.length === 0 && sameBytes(kind, ascii('ssh-ed25519')) && held.length === length ? held : undefined;
}

const no = (why) => ({ why });

// A line of signers, 'WHO namespaces="grant-roots" ssh-ed25519 KEY', or of a public key, 'ssh-ed25519 KEY'.
function sshKeyOf(line) {
  const found = /^(.*?)(?:^|\s)ssh-ed25519\s+(\S+)(?:\s.*)?$/.exec(line);
  const key = found && sshEd25519(fromBase64(found[2]), 32);
  if (!key) return undefined;
  const [, who = '', options = ''] = /^(\S+)\s*(.*)$/.exec(found[1].trim()) ?? [];
  const named = /^namespaces="([^"]*)"$/.exec(options);
  if (options !== '' && !named) return undefined;
  return { key, who, namespaces: named ? named[1].split(',') : [NAMESPACE] };
}

function sshKeysOf(text) {
  const lines = text.split(/\r?\n/).map((line) => line.trim()).filter((line) => line !== '' && !line.startsWith('#'));
  const keys = lines.map(sshKeyOf);
  return lines.length && keys.every(Boolean) ? { form: 'ssh', keys } : no('a line of it is no Ed25519 key of ssh (WHO namespaces="grant-roots" ssh-ed25519 ..), or has options that this page doesn’t know');
}

// The lines of minisign's files: a comment and base64, in signatures twice.
const minisignLines = (text) => text.replace(/\r\n/g, '\n').replace(/\n$/, '').split('\n');

function minisignKeyOf(text) {
  const [, second, ...more] = minisignLines(text);
  const bytes = fromBase64(second ?? '');
  if (more.length || bytes?.length !== 42 || !sameBytes(bytes.slice(0, 2), ascii('Ed'))) return no('it begins as a public key of minisign, and isn’t one');
  return { form: 'minisign', keys: [{ key: bytes.slice(10), id: bytes.slice(2, 10) }] };
}

function textOf(bytes) {
  try {
    return new TextDecoder('utf-8', { fatal: true }).decode(bytes).trim();
  } catch {
    return undefined;
  }
}

// A public key, or a list of ssh's signers: { form, keys }, or { why } it is none.
export function publicKeyOf(bytes) {
  if (bytes.length > MOST_SIGNED_BYTES) return no(`it has ${bytes.length} bytes, and no public key has more than ${MOST_SIGNED_BYTES}`);
  const der = (given) => (given?.length === 44 && sameBytes(given.slice(0, 12), DER) ? { form: 'openssl', keys: [{ key: given.slice(12) }] } : undefined);
  if (der(bytes)) return der(bytes);
  const text = textOf(bytes);
  if (text === undefined) return no('it is no public key');
  if (/^[0-9a-f]{88}$/i.test(text)) return publicKeyOf(fromHex(text));
  if (/PRIVATE KEY|minisign encrypted secret key/.test(text)) return no('it is a private key: show it to no one, and to no page');
  const pem = /^-----BEGIN PUBLIC KEY-----\s([\sA-Za-z0-9+/=]*)-----END PUBLIC KEY-----$/.exec(text);
  if (pem) return der(fromBase64(pem[1].replace(/\s/g, ''))) ?? no('it is a public key, and not one of Ed25519');
  if (text.startsWith('untrusted comment:')) return minisignKeyOf(text);
  return /(^|\s)(ssh|ecdsa|sk)-/.test(text) ? sshKeysOf(text) : no('it is no public key of openssl, ssh or minisign');
}

function sshSignatureOf(text) {
  const armour = /^-----BEGIN SSH SIGNATURE-----\s([\sA-Za-z0-9+/=]*)-----END SSH SIGNATURE-----$/.exec(text);
  const bytes = armour && fromBase64(armour[1].replace(/\s/g, ''));
  const strings = bytes && sameBytes(bytes.slice(0, 10), joinedBytes(ascii('SSHSIG'), [0, 0, 0, 1])) ? sshStrings(bytes.slice(10)) : undefined;
  if (strings?.length !== 5) return no('it begins as a signature of ssh-keygen, and isn’t one');
  const [key, signature] = [sshEd25519(strings[0], 32), sshEd25519(strings[4], 64)];
  const [namespace, hash] = [textOf(strings[1]), textOf(strings[3])];
  if (!key || !signature) return no('it is a signature of ssh-keygen, and not one by an Ed25519 key');
  if (!['sha256', 'sha512'].includes(hash)) return no('it is a signature of ssh-keygen over a hash that this page doesn’t know');
  return { form: 'ssh', key, signature, namespace, hash, reserved: strings[2] };
}

function minisignSignatureOf(text) {
  const lines = minisignLines(text);
  const [first, last] = [fromBase64(lines[1] ?? ''), fromBase64(lines[3] ?? '')];
  const kind = first && String.fromCharCode(...first.slice(0, 2));
  if (lines.length !== 4 || first?.length !== 74 || last?.length !== 64 || !['Ed', 'ED'].includes(kind) || !lines[2].startsWith('trusted comment: ')) return no('it begins as a signature of minisign, and isn’t one');
  return { form: 'minisign', id: first.slice(2, 10), signature: first.slice(10), hashed: kind === 'ED', comment: lines[2].slice('trusted comment: '.length), over: last };
}

// A signature: { form, .. }, or { why } it is none.
export function signatureOf(bytes) {
  if (bytes.length > MOST_SIGNED_BYTES) return no(`it has ${bytes.length} bytes, and no signature has more than ${MOST_SIGNED_BYTES}`);
  const text = textOf(bytes) ?? '';
  if (/^[0-9a-f]{128}$/i.test(text)) return { form: 'openssl', signature: fromHex(text) };
  if (bytes.length === 64) return { form: 'openssl', signature: bytes };
  if (text.startsWith('-----BEGIN SSH SIGNATURE-----')) return sshSignatureOf(text);
  if (text.startsWith('untrusted comment:')) return minisignSignatureOf(text);
  return no('it is no signature of openssl (64 bytes), ssh-keygen or minisign');
}

// BLAKE2b-512 (RFC 7693), which minisign hashes with and no browser has.
export function blake2b512(message) {
  const start = [0x6a09e667f3bcc908n, 0xbb67ae8584caa73bn, 0x3c6ef372fe94f82bn, 0xa54ff53a5f1d36f1n, 0x510e527fade682d1n, 0x9b05688c2b3e6c1fn, 0x1f83d9abfb41bd6bn, 0x5be0cd19137e2179n];
  const sigma = ['0123456789abcdef', 'ea489fd61c02b753', 'b8c052fdae367194', '7931dcbe265a40f8', '905724afe1bc683d', '2c6a0b834d75fe19', 'c51fed4a0763928b', 'db7ec13950f4862a', '6fe9b308c2d714a5', 'a2847615fb9e3cd0'];
  const word = (it) => BigInt.asUintN(64, it);
  const turned = (it, by) => word((it >> by) | (it << (64n - by)));
  const state = start.map((it, i) => (i === 0 ? it ^ 0x01010040n : it));
  const blocks = Math.max(1, Math.ceil(message.length / 128));
  for (let block = 0; block < blocks; block += 1) {
    const bytes = new Uint8Array(128);
    bytes.set(message.subarray(128 * block, 128 * (block + 1)));
    const words = Array.from({ length: 16 }, (_, i) => new DataView(bytes.buffer).getBigUint64(8 * i, true));
    const v = [...state, ...start];
    v[12] ^= BigInt(Math.min(128 * (block + 1), message.length));
    if (block === blocks - 1) v[14] = word(~v[14]);
    const mix = (a, b, c, d, x, y) => {
      for (const [one, two, by1, by2] of [[a, x, 32n, 24n], [a, y, 16n, 63n]]) {
        v[one] = word(v[one] + v[b] + two);
        v[d] = turned(v[d] ^ v[one], by1);
        v[c] = word(v[c] + v[d]);
        v[b] = turned(v[b] ^ v[c], by2);
      }
    };
    for (let round = 0; round < 12; round += 1) {
      const at = Array.from(sigma[round % 10], (digit) => words[parseInt(digit, 16)]);
      for (let i = 0; i < 4; i += 1) mix(i, 4 + i, 8 + i, 12 + i, at[2 * i], at[2 * i + 1]);
      for (let i = 0; i < 4; i += 1) mix(i, 4 + ((i + 1) % 4), 8 + ((i + 2) % 4), 12 + ((i + 3) % 4), at[8 + 2 * i], at[9 + 2 * i]);
    }
    state.forEach((it, i) => (state[i] = it ^ v[i] ^ v[i + 8]));
  }
  const digest = new DataView(new ArrayBuffer(64));
  state.forEach((it, i) => digest.setBigUint64(8 * i, it, true));
  return new Uint8Array(digest.buffer);
}

// What is checked: for each, the bytes that were signed and their signature.
async function signedBytes(subtle, it, message) {
  if (it.form === 'openssl') return [[message, it.signature]];
  if (it.form === 'minisign') return [[it.hashed ? blake2b512(message) : message, it.signature], [joinedBytes(it.signature, ascii(it.comment)), it.over]];
  const digest = new Uint8Array(await subtle.digest(it.hash === 'sha256' ? 'SHA-256' : 'SHA-512', message));
  return [[joinedBytes(ascii('SSHSIG'), ...[ascii(it.namespace), it.reserved, ascii(it.hash), digest].map(sshString)), it.signature]];
}

// The key of a list that a signature says it is by; { why } there is none.
function keyFor(signers, it) {
  if (signers.form !== it.form) return no(`the public key is one of ${PROGRAMS[signers.form]}, and the signature one of ${PROGRAMS[it.form]}`);
  if (it.form === 'ssh') {
    const found = signers.keys.find(({ key }) => sameBytes(key, it.key));
    if (!found) return no('it is a signature by another key');
    return found.namespaces.includes(it.namespace) ? found : no('it is a signature in another namespace, made for something else');
  }
  const [found] = signers.keys;
  return it.form === 'minisign' && !sameBytes(found.id, it.id) ? no('it is a signature by another key') : found;
}

const PROGRAMS = { openssl: 'openssl', ssh: 'ssh-keygen', minisign: 'minisign' };

// How the same is asked of the program that made a signature.
const COMMANDS = {
  openssl: 'openssl pkeyutl -verify -rawin -pubin -inkey desk.pub.pem -in root.txt -sigfile root.sig',
  ssh: 'ssh-keygen -Y verify -n grant-roots -f signers -I WHO -s root.txt.sig <root.txt',
  minisign: 'minisign -V -p desk.pub -m root.txt',
};
export const byHand = (form) => `${COMMANDS[form]} && grants verify root.txt KEY proof`;

// A key as a person compares it: ssh-keygen -l prints the SHA-256 of its line, for the others it is the key's own digits.
async function fingerprint(subtle, { form }, { key }) {
  if (form !== 'ssh') return toHex(key);
  const digest = await subtle.digest('SHA-256', joinedBytes(sshString(ascii('ssh-ed25519')), sshString(key)));
  return `SHA256:${btoa(String.fromCharCode(...new Uint8Array(digest))).replace(/=+$/, '')}`;
}

// Whether a signature over a message holds under one of the keys: 'holds' with the key, 'fails' and why, or 'unable' where this browser has no Ed25519 for a page.
export async function signatureCheck(subtle, signers, it, message) {
  const by = keyFor(signers, it);
  if (by.why) return { verdict: 'fails', why: by.why };
  try {
    const key = await subtle.importKey('raw', by.key, { name: 'Ed25519' }, false, ['verify']);
    for (const [signed, signature] of await signedBytes(subtle, it, message)) {
      if (!(await subtle.verify({ name: 'Ed25519' }, key, signature, signed))) return { verdict: 'fails', why: 'it is no signature of this statement by this key' };
    }
    return { verdict: 'holds', fingerprint: await fingerprint(subtle, it, by), who: by.who ?? '' };
  } catch (error) {
    if (error.name === 'DataError') return { verdict: 'fails', why: 'the public key is none of Ed25519' };
    return { verdict: 'unable' };
  }
}
