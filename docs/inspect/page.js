// The page: what is dropped, typed and clicked, the checker's verdicts, and the drawings.
import { AT, sameBytes, u32 } from '../../js/form.js';
import { Refused, fromHex, load, toHex } from '../../js/grants.js';
import { bookOf, shownText } from './book.js';
import { MOST_BYTES, MOST_KEYS, keyIn, kindOf, proofsIn } from './files.js';
import { faultsOf, hashesOf, proofOf } from './drawing.js';
import { at, busyWith, calledBy, counted, element, shortHex, tableOf } from './elements.js';
import { Held } from './held.js';
import { byHand, publicKeyOf, signatureCheck, signatureOf } from './signature.js';

const grants = await load(Uint8Array.from(atob(at('wasm').textContent.trim()), (c) => c.charCodeAt(0)));
let book = bookOf('');

const hashBox = (names, label, hash) => element('span', { class: `box ${names}`, title: hash ? toHex(hash) : '' }, element('small', {}, label), hash ? element('span', { class: 'hex' }, shortHex(toHex(hash))) : '');
const called = (bytes) => calledBy(book, (name) => grants.name(name), bytes);

// Hex digits stand for a key, anything else for a name, whose SHA-256 is the key; what the book gives the name is never asked for.
function keyOf(text) {
  const quoted = /^"(.*)"$/.exec(text);
  if (!quoted && /^[0-9a-f]*$/i.test(text)) return { key: fromHex(text), taken: '' };
  const name = quoted ? quoted[1] : text;
  const key = grants.name(name);
  const other = book.meant.get(name)?.find((hex) => hex !== toHex(key));
  return { key, taken: `the name “${shownText(name)}”, so the key ${toHex(key)}${other ? `; the book gives this name to another key, ${other}, which is not asked for` : ''}` };
}

// The statement that was dropped, with its file's name and its bytes, while its root stands in the field.
let signed;
let signing = { verdict: 'none' };
let signingAsked = 0;

// Whether these are the root and the bits of the statement.
const isSigned = (root, bits) => signed !== undefined && sameBytes(signed.statement.root, root) && signed.statement.bits === bits;
const isPast = ({ notAfter }) => notAfter !== null && Date.now() / 1000 > notAfter;
const instant = (seconds) => new Date(seconds * 1000).toISOString().replace('.000Z', 'Z');

// Who is shown to have signed the root that a verdict was given for. Where the statement says that it is not to be believed, that is the verdict.
function standing(root, bits) {
  const told = (kind, text) => {
    at('standing').className = kind;
    at('standing').textContent = text;
  };
  if (!isSigned(root, bits)) return told('note', 'Nothing here shows who signed this root.');
  const name = shownText(signed.name);
  const doubt = signing.verdict === 'fails' ? 'the signature does not hold' : isPast(signed.statement) ? 'past its date' : '';
  if (doubt) {
    at('reason').prepend(`Under this root alone: ${at('verdict').textContent}. `);
    at('verdict').className = 'nothing';
    at('verdict').textContent = doubt;
    return told('bad', signing.verdict === 'fails' ? `The signature of ${name} does not hold, so nothing is to be believed by this root.` : `The statement ${name} of this root was good until ${instant(signed.statement.notAfter)}: get a newer one.`);
  }
  if (signing.verdict === 'holds') return told('good', `The root is that of version ${signed.statement.version} in ${name}, and its signature holds under the key ${signing.fingerprint}.`);
  return told('note', `The root stands in ${name}; that anybody signed it is not shown.`);
}

function saySigned(kind, ...text) {
  at('signed').className = kind;
  at('signed').replaceChildren(...text);
}

// Asked anew with each change; a verdict that stands is given again with what came.
async function checkSignature() {
  await askSignature();
  if (checked && signed) check();
}

// The signature of the statement, under the public key that stands in its field. What was asked before counts no more.
async function askSignature() {
  const mine = (signingAsked += 1);
  signing = { verdict: 'none' };
  const [signersText, signatureText] = ['signers', 'signature'].map((id) => at(id).value.trim());
  if (signersText || signatureText) at('signing').open = true;
  if (!signed) return saySigned('note', signersText || signatureText ? 'The statement is wanted too: drop the file that was signed.' : '');
  if (!signersText || !signatureText) return saySigned('note', !signersText && !signatureText ? 'Its signature was not given, so that anybody signed it is not shown.' : `Its signature is not checked yet: ${signersText ? 'the signature' : 'the public key'} is wanted too.`);
  const [signers, signature] = [publicKeyOf(new TextEncoder().encode(signersText)), signatureOf(new TextEncoder().encode(signatureText))];
  if (signers.why) return saySigned('bad', `The public key is not taken: ${signers.why}.`);
  if (signature.why) {
    signing = { verdict: 'fails' };
    return saySigned('bad', `The signature does not hold: ${signature.why}.`);
  }
  saySigned('note', 'Its signature is being checked.');
  const came = await signatureCheck(globalThis.crypto?.subtle, signers, signature, signed.bytes);
  if (mine !== signingAsked) return undefined;
  signing = came;
  if (came.verdict === 'fails') return saySigned('bad', `The signature does not hold: ${came.why}.`);
  if (came.verdict === 'unable') return saySigned('bad', 'This browser has no Ed25519 for a page, so the signature is not checked. At a terminal: ', element('code', { class: 'hex' }, byHand(signature.form)));
  return saySigned('good', `The signature of the statement holds, under the key ${came.fingerprint}${came.who ? `, in the list as ${shownText(came.who)}` : ''}. Compare that with what the publisher gave you by another way.`);
}

// What a statement says beside the root.
function saySigner() {
  const { statement, name } = signed;
  const until = statement.notAfter === null ? ', without a date' : `, ${isPast(statement) ? 'past its date' : 'good until'} ${instant(statement.notAfter)}`;
  at('stated').className = isPast(statement) ? 'bad' : 'note';
  at('stated').textContent = `By ${shownText(name)} the root of version ${statement.version}${statement.bits === null ? '' : ` of a shelf of ${statement.bits} bits`}, made ${instant(statement.made)}${until}.`;
}

// Another root than the statement's has nothing of it.
function setRoot(root, bits) {
  at('root').value = toHex(root);
  at('bits').value = bits ?? '';
  if (!isSigned(root, bits)) unsigned();
}

function unsigned() {
  signed = undefined;
  at('stated').textContent = '';
  return checkSignature();
}

function say(kind, verdict, reason) {
  at('result').hidden = false;
  at('verdict').className = kind;
  at('verdict').textContent = verdict;
  at('reason').replaceChildren(...reason);
  at('standing').textContent = '';
}

// One path, from the root down to the leaf.
function drawn(path, hashes, root, failing) {
  const top = hashes.at(-1);
  const meets = sameBytes(top, root);
  const list = element('ol', { class: 'path', 'aria-label': `${path.what}: from the root down to the leaf` });
  list.append(element('li', { class: 'top' }, element('span', { class: meets ? '' : 'bad' }, meets ? 'The hashes meet the root' : 'The hashes do not meet the root'), hashBox(meets ? 'mine' : 'fails', meets ? 'the root' : 'what the path leads to', top)));
  path.steps.map((step, i) => ({ step, i })).reverse().forEach(({ step: { side, sibling }, i }) => {
    const none = sibling.every((byte) => byte === 0);
    const mine = hashBox(failing.includes(i) ? 'mine fails' : 'mine', side === 0 ? 'left: this path' : 'right: this path', hashes[i]);
    const other = none ? hashBox('none', `${side === 0 ? 'right' : 'left'}: no sibling`) : hashBox('', `${side === 0 ? 'right' : 'left'}: sibling`, sibling);
    list.append(element('li', { class: side === 1 ? 'right' : '' }, element('span', { class: failing.includes(i) ? 'bad' : 'note' }, `Step ${i + 1}${failing.includes(i) ? ': it fails here' : ''}`), element('span', { class: 'pair' }, ...(side === 0 ? [mine, other] : [other, mine]))));
  });
  list.append(element('li', {}, 'Leaf', hashBox('mine', 'key', path.key), hashBox('mine', 'value', path.value)));
  return element('div', {}, element('h3', {}, `${path.what}: ${counted(path.steps.length, 'step')}`), list);
}

// One record: what is drawn of it, and why it doesn't hold.
function recordDrawn({ bytes, root, key, title = '' }, number) {
  const proof = proofOf(bytes);
  const all = proof.paths.map((path) => hashesOf((message) => grants.sha256(message), path));
  const { said, steps } = number === 11 ? faultsOf(proof, root, key, all.map((hashes) => hashes.at(-1))) : { said: [], steps: proof.paths.map(() => []) };
  const paths = element('div', { class: 'paths' }, ...proof.paths.map((path, i) => drawn(path, all[i], root, steps[i])));
  return { said: said.map((line) => title + line), inside: [element('h2', {}, title + (proof.absence ? 'The neighbours of the key, and their paths' : 'The path')), paths] };
}

function draw(pieces, number) {
  const off = [10, 12, 21].includes(number);
  at('drawing').hidden = off;
  if (off) return [];
  const all = pieces.map((piece) => recordDrawn(piece, number));
  at('drawing').replaceChildren(...all.flatMap(({ inside }) => inside));
  return all.flatMap(({ said }) => said);
}

// The records of a proof, each with the root and the key that it is checked for: a store's has one; a shelf's has the list's, and the part's under the root that the list shows.
function piecesOf(proof, root, key, bits) {
  if (bits === null) return [{ bytes: proof, root, key }];
  const part = key.map((byte, i) => byte & (0xff00 >> Math.min(8, Math.max(0, bits - 8 * i))));
  const first = proof.slice(0, u32(proof, AT.length));
  const pieces = [{ bytes: first, root, key: part, title: 'The list: ' }];
  if (first.length < proof.length) pieces.push({ bytes: proof.slice(first.length), root: first.slice(AT.proofValue, AT.proofValue + 32), key, title: 'The part: ' });
  return pieces;
}

// The bits of a shelf that stand in their field, null where it is empty.
function bitsOf(text) {
  if (text === '') return null;
  if (!/^\d{1,9}$/.test(text)) throw new TypeError('bits are a number');
  return Number(text);
}

// Whether a verdict of the fields stands.
let checked = false;

// No verdict stands beside fields that it wasn't given for.
function forget() {
  checked = false;
  for (const id of ['result', 'drawing', 'row']) at(id).hidden = true;
  at('verdict').textContent = '';
  at('taken').textContent = '';
}

// The lines of the field of keys.
const keyLines = () => at('key').value.split(/\r?\n/).map((line) => line.trim()).filter((line) => line !== '');

// What one proof shows of one key: the checker's answer, or its refusal.
function shownBy(root, bits, key, proof) {
  try {
    return bits === null ? grants.verify(root, key, proof) : grants.shelfVerify(root, bits, key, proof);
  } catch (refused) {
    if (!(refused instanceof Refused)) throw refused;
    return refused;
  }
}

const SHOWS_NOTHING = 'this proof shows nothing';

function checkOne(root, bits, key, proof) {
  const empty = root.length === 32 && root.every((byte) => byte === 0) ? ' This root is that of no grants: signed, it shows by itself that nothing is granted, and there is no proof.' : '';
  const found = shownBy(root, bits, key, proof);
  if (found instanceof Refused) {
    const why = draw([10, 12, 21].includes(found.number) ? [] : piecesOf(proof, root, key, bits), found.number);
    say('nothing', SHOWS_NOTHING, [`Refused with ${found.number}: ${found.sentence}.${empty}`, ...why.map((line) => element('span', { class: 'bad', style: 'display:block' }, line))]);
    return;
  }
  draw(piecesOf(proof, root, key, bits), 0);
  if (found.present) say('granted', 'granted', ['The grant stands, with the value ', element('span', { class: 'hex' }, toHex(found.value)), ...(book.names.has(toHex(found.value)) ? [', ', called(found.value)] : [])]);
  else say('not-granted', 'not granted', ['There is no such grant under this root.']);
  standing(root, bits);
}

// What each of several proofs shows of its key: of a store in one call, of a shelf one by one.
function shownByAll(root, bits, keys, proofs) {
  if (bits !== null) return proofs.map((proof, i) => shownBy(root, bits, keys[i], proof));
  try {
    return grants.verifyMany(root, keys, proofs);
  } catch (refused) {
    if (!(refused instanceof Refused)) throw refused;
    return keys.map(() => refused);
  }
}

function checkRow(root, bits, keys, proofs) {
  const all = shownByAll(root, bits, keys, proofs);
  const [granted, refused] = [all.filter((it) => it.present), all.filter((it) => it instanceof Refused)].map((list) => list.length);
  const rest = all.length - granted - refused;
  if (refused) say('nothing', `${refused} of ${counted(all.length, 'proof')} ${refused === 1 ? 'shows' : 'show'} nothing`, [`Of the others ${granted} show a grant, and ${rest} that there is none.`]);
  else say(rest ? 'not-granted' : 'granted', [granted ? `${granted} granted` : '', rest ? `${rest} not granted` : ''].filter(Boolean).join(', '), ['Each key with what its proof shows:']);
  const rows = all.map((it, i) => {
    const verdict = it instanceof Refused ? element('span', { class: 'bad' }, `shows nothing: refused with ${it.number}, ${it.sentence}`) : element('span', { class: it.present ? 'granted' : 'not-granted' }, it.present ? 'granted' : 'not granted');
    const button = element('button', { type: 'button', 'aria-label': `Draw proof ${i + 1}` }, 'Draw');
    button.addEventListener('click', () => {
      draw(it.number === 10 || it.number === 12 || it.number === 21 ? [] : piecesOf(proofs[i], root, keys[i], bits), it.number ?? 0);
      at('drawing').prepend(element('p', { class: 'hex' }, `Proof ${i + 1}, for the key ${toHex(keys[i])}`));
      at('drawing').scrollIntoView({ block: 'start' });
    });
    const drawable = ![10, 12, 21].includes(it.number);
    return [`${i + 1}`, called(keys[i]), verdict, it.present ? called(it.value) : '', drawable ? button : ''];
  });
  at('row').hidden = false;
  at('row').replaceChildren(tableOf(['', 'Key', 'Verdict', 'Value', 'Path'], rows));
  standing(root, bits);
}

// The verdict of what stands in the fields.
function check() {
  let root, bits, keys, proof;
  forget();
  checked = true;
  const lines = keyLines();
  try {
    bits = bitsOf(at('bits').value.trim());
    root = fromHex(at('root').value.trim());
    const asked = (lines.length ? lines : ['']).map(keyOf);
    keys = asked.map(({ key }) => key);
    at('taken').textContent = asked.map(({ taken }) => taken).filter(Boolean).slice(0, lines.length > 1 ? 0 : 1).join('');
    proof = fromHex(at('proof').value.replace(/\s/g, ''));
  } catch {
    say('nothing', SHOWS_NOTHING, ['Root and proof are written in hex digits, two for each byte; bits as a number.']);
    return;
  }
  const proofs = proofsIn(proof, bits);
  const several = (why) => say('nothing', 'these proofs show nothing', [why]);
  if (proofs.length > MOST_KEYS || lines.length > MOST_KEYS) several(`No more than ${MOST_KEYS} keys are asked for at once; here are ${counted(lines.length, 'key')} and ${counted(proofs.length, 'proof')}.`);
  else if (proofs.length === 1 && lines.length <= 1) checkOne(root, bits, keys[0], proof);
  else if (lines.length === 0) {
    keys = proofs.map((it) => keyIn(it, bits));
    at('key').value = keys.map(toHex).join('\n');
    at('taken').textContent = 'These are the keys that the proofs themselves name.';
    checkRow(root, bits, keys, proofs);
  } else if (lines.length === 1) {
    const which = proofs.findIndex((it) => sameBytes(keyIn(it, bits), keys[0]));
    if (which < 0) several(`Of ${counted(proofs.length, 'proof')} none is for this key. (The proof of a shelf has two records: it wants the shelf’s bits.)`);
    else {
      at('taken').textContent += ` Of ${counted(proofs.length, 'proof')} this is number ${which + 1}.`;
      checkOne(root, bits, keys[0], proofs[which]);
    }
  } else if (lines.length !== proofs.length) several(`Here are ${counted(lines.length, 'key')}, and ${counted(proofs.length, 'proof')}: one is wanted for each key, in the order of the keys.`);
  else checkRow(root, bits, keys, proofs);
}

// The proof of a key in a version of the store, by a click.
function prove(root, key, proof) {
  setRoot(root, null);
  at('key').value = toHex(key);
  at('proof').value = toHex(proof);
  check();
  at('result').scrollIntoView({ block: 'start' });
  at('result').tabIndex = -1;
  at('result').focus();
}

const fieldKey = () => (/^[0-9a-f]{64}$/i.test(at('key').value.trim()) ? at('key').value.trim() : undefined);
const held = new Held({ grants, prove, book: () => book, key: fieldKey });

const notTaken = (name, why) => say('nothing', 'this file is not taken', [element('bdi', {}, `${shownText(name)}: ${why}`)]);

// What an ICS 23 message was written from, where a file has one or its hex digits.
function messageOf(bytes) {
  const digits = new TextDecoder().decode(bytes).replace(/\s/g, '');
  for (const given of /^([0-9a-f]{2})+$/i.test(digits) ? [fromHex(digits)] : [bytes]) {
    try {
      return grants.readMessage(given);
    } catch (refused) {
      if (!(refused instanceof Refused)) throw refused;
    }
  }
  return undefined;
}

const PLAIN_NAME = /^[\p{L}\p{N}\p{P}\p{S} ]+$/u;

// The key asked for stands in a message as it was before hashing: as a name where it is text, else its SHA-256 is the key.
function takeMessage({ proof, asked }) {
  const text = new TextDecoder().decode(asked);
  const isName = PLAIN_NAME.test(text) && sameBytes(grants.name(text), grants.sha256(asked));
  at('key').value = isName ? `"${text}"` : toHex(grants.sha256(asked));
  at('proof').value = toHex(proof);
}

// Names stand in the field as they are, where a line of it can hold them.
const takeKeys = (keys) => (at('key').value = keys.map(({ hex, name }) => hex ?? (PLAIN_NAME.test(name) ? `"${name}"` : toHex(grants.name(name)))).join('\n'));

// A file is taken for what it is; one of hex digits for the bytes that they stand for.
async function taken(file) {
  forget();
  if (file.size > MOST_BYTES) {
    notTaken(file.name, `it has ${file.size} bytes, and no file for this page has more than ${MOST_BYTES}.`);
    return false;
  }
  let bytes;
  try {
    bytes = new Uint8Array(await file.arrayBuffer());
  } catch {
    notTaken(file.name, 'it can’t be read. Is it a folder?');
    return false;
  }
  const message = messageOf(bytes);
  const it = message ? { kind: 'message' } : kindOf(bytes);
  if (it.kind === 'message') takeMessage(message);
  else if (it.kind === 'root') {
    setRoot(fromHex(it.root), null);
    await unsigned();
  } else if (it.kind === 'statement') {
    signed = { name: file.name, bytes: it.bytes, statement: it.statement };
    setRoot(it.statement.root, it.statement.bits);
    saySigner();
    await checkSignature();
  } else if (it.kind === 'signature' || it.kind === 'signers') {
    at(it.kind).value = it.text;
    await checkSignature();
  } else if (it.kind === 'store') await held.open(file.name, it.bytes);
  else if (it.kind === 'book') takeBook(file.name, it.book);
  else if (it.kind === 'keys') takeKeys(it.keys);
  else if (it.kind === 'proof') at('proof').value = toHex(it.bytes);
  else notTaken(file.name, it.why);
  return it.kind !== 'nothing';
}

// The names of a book are for the eye alone, and nothing is asked by them.
function takeBook(name, given) {
  book = given;
  const odd = given.unread ? ` ${counted(given.unread, 'line')} of it can’t be read, the first is line ${given.firstUnread}.` : '';
  at('store').hidden = false;
  at('named').textContent = `${counted(given.names.size, 'name')} from ${shownText(name)}, which is not trusted: a name here is what that file says, with the digits that it says it of; it is marked where the digits are not its SHA-256.${odd}`;
  held.named();
}

async function takeAll(files) {
  let all = true;
  for (const file of files) all = (await taken(file)) && all;
  // What was not taken is said, and no verdict takes its place.
  if (all && at('root').value && at('proof').value && (at('key').value || proofsIn(fromProof()).length > 1)) check();
}

const fromProof = () => {
  try {
    return fromHex(at('proof').value.replace(/\s/g, ''));
  } catch {
    return new Uint8Array(0);
  }
};

at('ask').addEventListener('submit', (event) => {
  event.preventDefault();
  check();
});
at('ask').addEventListener('input', forget);
for (const id of ['root', 'bits']) at(id).addEventListener('input', unsigned);
for (const id of ['signers', 'signature']) at(id).addEventListener('input', checkSignature);
// The field of keys has several lines, and is a line as long as it has one.
at('key').addEventListener('keydown', (event) => {
  if (event.key !== 'Enter' || event.shiftKey || at('key').value.includes('\n')) return;
  event.preventDefault();
  at('ask').requestSubmit();
});
at('ask-history').addEventListener('submit', (event) => {
  event.preventDefault();
  const text = at('history-key').value.trim();
  try {
    held.history(keyOf(text).key);
  } catch (error) {
    at('history').replaceChildren();
    at('history-said').textContent = error instanceof Refused || error instanceof TypeError ? 'A key is 64 hex digits; any other text is a name, whose SHA-256 is the key.' : error.message;
  }
});
at('by-number').addEventListener('submit', (event) => {
  event.preventDefault();
  held.openVersion(at('number').value.trim());
});
at('file').addEventListener('change', (event) => busyWith(() => takeAll(event.target.files)));
for (const kind of ['dragover', 'dragleave', 'drop']) {
  document.addEventListener(kind, (event) => {
    event.preventDefault();
    document.body.classList.toggle('over', kind === 'dragover');
    if (kind === 'drop') busyWith(() => takeAll(event.dataTransfer.files));
  });
}
document.documentElement.dataset.ready = 'true';
