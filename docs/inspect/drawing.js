// What is drawn of a proof and of a store. Nothing here is a verdict: bytes are read for the eye alone.
import { ABSENCE_BYTES, ABSENCE_KIND, AT, INNER_KIND, LEAF_KIND, PRESENCE_BYTES, PRESENCE_KIND, SLOT_BYTES, STEP_BYTES, sameBytes, storeBytes, u16, u32 } from '../../js/form.js';

const noHash = (hash) => hash.every((byte) => byte === 0);
const compareBytes = (a, b) => {
  const at = a.findIndex((byte, i) => byte !== b[i]);
  return at < 0 ? 0 : a[at] - b[at];
};

// A presence proof at the front of some bytes, none where they are too few.
export function presenceOf(bytes) {
  const steps = u16(bytes, AT.steps);
  const end = (i) => PRESENCE_BYTES + STEP_BYTES * i;
  if (bytes.length < end(steps) || u16(bytes, AT.kind) !== PRESENCE_KIND) return undefined;
  const step = (i) => ({ side: bytes[end(i)], sibling: bytes.slice(end(i) + 1, end(i + 1)) });
  return { key: bytes.slice(AT.proofKey, AT.proofValue), value: bytes.slice(AT.proofValue, end(0)), steps: Array.from({ length: steps }, (_, i) => step(i)), length: end(steps) };
}

// A proof: its key, and the paths that it shows.
export function proofOf(bytes) {
  if (u16(bytes, AT.kind) === PRESENCE_KIND) {
    const leaf = presenceOf(bytes);
    return leaf && { key: leaf.key, paths: [{ ...leaf, what: 'The leaf of the key' }] };
  }
  if (u16(bytes, AT.kind) !== ABSENCE_KIND) return undefined;
  const flags = u16(bytes, AT.flags);
  const paths = [];
  let rest = bytes.slice(ABSENCE_BYTES);
  for (const [flag, side] of [[1, 'left'], [2, 'right']]) {
    if (!(flags & flag)) continue;
    const leaf = presenceOf(rest);
    if (!leaf) return undefined;
    paths.push({ ...leaf, neighbour: side, what: `The ${side} neighbour` });
    rest = rest.slice(leaf.length);
  }
  return { key: bytes.slice(AT.proofKey, ABSENCE_BYTES), absence: true, paths };
}

// The hashes on a path: the leaf's, and the one after each step.
export function hashesOf(sha256, path) {
  const hashes = [sha256(Uint8Array.of(1, ...path.key, ...path.value))];
  for (const { side, sibling } of path.steps) {
    const below = hashes.at(-1);
    hashes.push(sha256(Uint8Array.of(0, ...(side === 0 ? [...below, ...sibling] : [...sibling, ...below]))));
  }
  return hashes;
}

// The first steps, from the leaf, that don't go along an edge of the tree: a path is rightmost where every step has side 1 or no sibling.
const offEdge = (steps, side, upTo = steps.length) => steps.slice(0, upTo).flatMap((step, i) => (step.side === side || noHash(step.sibling) ? [] : [i]));

// Why a proof in form doesn't hold: sentences, and the steps of each path that fail.
export function faultsOf(proof, root, key, tops) {
  const said = [];
  const steps = proof.paths.map(() => []);
  if (!sameBytes(proof.key, key)) said.push('The proof was made for another key.');
  proof.paths.forEach((path, i) => {
    if (!sameBytes(tops[i], root)) said.push(`${path.what}: its path leads to another root.`);
    if (proof.absence && compareBytes(path.key, key) * (path.neighbour === 'left' ? 1 : -1) >= 0) said.push(`${path.what} is not ${path.neighbour} of the key.`);
  });
  if (!proof.absence) return { said, steps };
  const [left, right] = ['left', 'right'].map((side) => proof.paths.findIndex((path) => path.neighbour === side));
  const edge = (at, side, upTo) => {
    steps[at].push(...offEdge(proof.paths[at].steps, side, upTo));
    for (const i of steps[at]) said.push(`${proof.paths[at].what}: step ${i + 1} leaves room for a key beside it.`);
  };
  if (right < 0 && left >= 0) edge(left, 1);
  else if (left < 0 && right >= 0) edge(right, 0);
  else if (left >= 0) {
    let [a, b] = [left, right].map((at) => proof.paths[at].steps.length);
    const stepAt = (at, n) => proof.paths[at].steps[n - 1];
    while (a > 0 && b > 0 && stepAt(left, a).side === stepAt(right, b).side && sameBytes(stepAt(left, a).sibling, stepAt(right, b).sibling)) [a, b] = [a - 1, b - 1];
    if (a === 0 || b === 0 || stepAt(left, a).side !== 0 || stepAt(right, b).side !== 1) {
      said.push('The two paths don’t part as neighbours do.');
      if (a > 0) steps[left].push(a - 1);
      if (b > 0) steps[right].push(b - 1);
    } else {
      edge(left, 1, a - 1);
      edge(right, 0, b - 1);
    }
  }
  return { said, steps };
}

// The records of a store by version and place, the lowest slot of each.
export function recordsOf(bytes) {
  const records = new Map();
  for (let slot = 0; storeBytes(slot + 1) <= bytes.length; slot += 1) {
    const it = bytes.slice(storeBytes(slot), storeBytes(slot) + SLOT_BYTES);
    const kind = u16(it, AT.kind);
    if (kind !== LEAF_KIND && kind !== INNER_KIND) continue;
    const place = Array.from({ length: u16(it, AT.bitCount) }, (_, b) => (it[AT.bits + (b >> 3)] >> (7 - (b & 7))) & 1).join('');
    const record = { slot, place, version: u32(it, AT.version), retired: u32(it, AT.retiredSince) };
    if (kind === LEAF_KIND) Object.assign(record, { key: it.slice(AT.key, AT.key + 32), value: it.slice(AT.value, AT.value + 32) });
    else for (const part of ['children', 'counts']) record[part] = AT[part].map((at) => u32(it, at));
    const name = `${record.version}:${place}`;
    if (!records.has(name)) records.set(name, record);
  }
  return records;
}

// The node of a version at a place, with all below it.
function nodeOf(records, version, place) {
  const record = records.get(`${version}:${place}`);
  if (!record?.children) return record;
  return { ...record, below: record.children.map((child, bit) => (child ? nodeOf(records, child, place + bit) : undefined)) };
}

const rootsOf = (records) => [...records.values()].filter(({ place }) => place === '');

// The tree of a version, none where it has no root: its root is the root record whose lifetime covers it.
export function treeOf(records, version) {
  const root = rootsOf(records).find((it) => it.version <= version && (it.retired === 0 || version < it.retired));
  return root && nodeOf(records, root.version, '');
}

// The leaves of a tree, from left to right.
export const leavesOf = (tree) => (!tree ? [] : tree.below ? tree.below.flatMap(leavesOf) : [tree]);
