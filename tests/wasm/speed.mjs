// tests/wasm/speed.mjs [CHROMIUM]: 256 presence proofs of 20 steps under one root, 21 hashes each, in Node and in the browser: by single calls and in one row, without SIMD and with it, and by the module
// with every call that the pages have; beside WebCrypto's SHA-256 of the same messages. Microseconds a proof, the best of some runs, and each row beside the single calls. Then reads of a full store of
// 16,384 slots, without a table and with one.
import { readFileSync } from 'node:fs';
import { pathToFileURL } from 'node:url';
import { load } from '../../js/grants.js';
import { Browser } from './browser.mjs';

// Runs in Node and, as its text, in the page: what it needs is given or global.
async function measured(load, sources) {
  const [plain, simd, whole] = await Promise.all(sources.map((source) => load(source)));
  const random = (n) => globalThis.crypto.getRandomValues(new Uint8Array(n));
  const hash = (message) => plain.sha256(message);
  const pair = (left, right) => Uint8Array.of(0, ...left, ...right);
  // A whole tree of 256 leaves, and twelve steps from its top to the root that all proofs share.
  const leaves = Array.from({ length: 256 }, () => ({ key: random(32), value: random(32), messages: [], steps: [] }));
  for (const leaf of leaves) leaf.messages.push(Uint8Array.of(1, ...leaf.key, ...leaf.value));
  let level = leaves.map((leaf) => ({ hash: hash(leaf.messages[0]), leaves: [leaf] }));
  const step = (node, side, sibling, message) => node.leaves.forEach((leaf) => {
    leaf.steps.push(Uint8Array.of(side, ...sibling));
    leaf.messages.push(message);
  });
  while (level.length > 1) {
    const above = [];
    for (let i = 0; i < level.length; i += 2) {
      const [left, right] = [level[i], level[i + 1]];
      const message = pair(left.hash, right.hash);
      step(left, 0, right.hash, message);
      step(right, 1, left.hash, message);
      above.push({ hash: hash(message), leaves: [...left.leaves, ...right.leaves] });
    }
    level = above;
  }
  for (let i = 0; i < 12; i += 1) {
    const sibling = random(32);
    const message = i % 2 ? pair(level[0].hash, sibling) : pair(sibling, level[0].hash);
    step(level[0], i % 2 ? 0 : 1, sibling, message);
    level = [{ ...level[0], hash: hash(message) }];
  }
  const root = level[0].hash;
  const keys = leaves.map(({ key }) => key);
  const proofs = leaves.map(({ key, value, steps }) => {
    const length = 72 + 33 * steps.length;
    const proof = new Uint8Array(length);
    proof.set([length & 255, length >> 8, 0, 0, 16, 0, steps.length, 0, ...key, ...value]);
    steps.forEach((bytes, i) => proof.set(bytes, 72 + 33 * i));
    return proof;
  });
  const present = (found) => {
    if (!found.present) throw new Error('not present');
  };
  const single = (of) => () => proofs.forEach((proof, i) => present(of.verify(root, keys[i], proof)));
  const row = (of) => () => of.verifyMany(root, keys, proofs).forEach(present);
  const digest = (message) => globalThis.crypto.subtle.digest('SHA-256', message);
  const runs = {
    'single calls': single(plain),
    'in a row': row(plain),
    'single calls, SIMD': single(simd),
    'in a row, SIMD': row(simd),
    'single calls, every call’s module': single(whole),
    'in a row, every call’s module': row(whole),
    'WebCrypto, one after the other': async () => { for (const { messages } of leaves) for (const message of messages) await digest(message); },
    'WebCrypto, all at once': () => Promise.all(leaves.flatMap(({ messages }) => messages.map(digest))),
  };
  // In turns, so that what else the machine does falls on all of them; and long enough for the engine to compile what is hot once more, which takes its own time.
  const best = Object.fromEntries(Object.keys(runs).map((what) => [what, Infinity]));
  const begun = performance.now();
  for (let turn = 0; turn < 15 || performance.now() - begun < 5000; turn += 1) {
    for (const [what, run] of Object.entries(runs)) {
      const start = performance.now();
      await run();
      best[what] = Math.min(best[what], ((performance.now() - start) * 1000) / proofs.length);
    }
  }
  return best;
}

// Milliseconds of long work on a full, sound store, by scans and by a table; a list and a history are some reads each, so that scans end.
async function tabled(load, source) {
  const grants = await load(source);
  const made = await grants.format(16384);
  const keys = [];
  try {
    for (let n = 0; ; n += 1) {
      const some = Array.from({ length: 768 }, (_, i) => ({ key: grants.name(`${n} ${i}`), value: grants.name('read') }));
      made.applyNext(some);
      made.prune(made.latest);
      keys.push(...some.map(({ key }) => key));
    }
  } catch (refused) {
    if (refused.number !== 7) throw refused;
  }
  const [plain, table] = [await grants.open(made.bytes()), await grants.open(made.bytes())];
  const version = made.latest;
  table.index();
  const asked = keys.filter((_, i) => i % Math.floor(keys.length / 15) === 0).slice(0, 15);
  const works = {
    'a list, 15 of its grants': (it) => asked.map((_, i) => it.at(version, 300 * i).key),
    '15 histories': (it) => asked.map((key) => it.history(key)[0].value),
    '15 values': (it) => asked.map((key) => it.get(version, key).value),
    '15 proofs': (it) => asked.map((key) => it.prove(version, key)),
    'a palette of 15': (it) => it.palette(version, asked),
  };
  const best = async (run) => {
    let least = Infinity;
    for (let turn = 0; turn < 9; turn += 1) {
      const start = performance.now();
      await run();
      least = Math.min(least, performance.now() - start);
    }
    return least;
  };
  const figures = { grants: made.count(version), check: await best(() => plain.check()) };
  figures['making a table'] = await best(async () => (await grants.open(made.bytes())).index());
  figures['the whole list by a table'] = await best(() => table.grants(version));
  for (const [what, work] of Object.entries(works)) {
    if (String(work(plain)) !== String(work(table))) throw new Error(`${what}: another answer by the table`);
    figures[what] = [await best(() => work(plain)), await best(() => work(table))];
  }
  return figures;
}

function sayTabled(where, figures) {
  for (const [what, it] of Object.entries(figures)) {
    if (Array.isArray(it)) console.log(`${where}: ${what}: ${it[0].toFixed(2)} ms by scans, ${it[1].toFixed(3)} ms by a table, ${(it[0] / it[1]).toFixed(0)} times`);
    else console.log(`${where}: a full store of 16,384 slots: ${what}: ${what === 'grants' ? it : `${it.toFixed(1)} ms`}`);
  }
}

function say(where, figures) {
  for (const [what, us] of Object.entries(figures)) console.log(`${where}: ${what}: ${us.toFixed(1)} us a proof, ${(us / figures['single calls']).toFixed(2)} of single calls`);
}

globalThis.crypto ??= (await import('node:crypto')).webcrypto;
const files = ['grants-verify', 'grants-verify-simd', 'grants'].map((name) => `js/${name}.wasm`);
say(`Node ${process.version}`, await measured(load, files));
sayTabled(`Node ${process.version}`, await tabled(load, files[2]));
if (process.argv[2]) {
  const browser = await Browser.start(process.argv[2], 'target/wasm/speed');
  await browser.open(pathToFileURL('docs/inspect/inspect.html').href);
  // The page's own policy allows no other script.
  await browser.send('Page.setBypassCSP', { enabled: true });
  await browser.send('Page.reload');
  await browser.until(`document.documentElement?.dataset.ready === 'true'`);
  const source = ['js/form.js', 'js/refusals.js', 'js/grants.js'].map((name) => readFileSync(name, 'utf8').replace(/^import .*$/gm, '')).join('');
  const module = `data:text/javascript;base64,${Buffer.from(source).toString('base64')}`;
  const given = files.map((name) => `Uint8Array.from(atob('${readFileSync(name).toString('base64')}'), (c) => c.charCodeAt(0))`);
  const version = await browser.ask('navigator.userAgent.match(/Chrome.[0-9]+/)[0]');
  say(version.replace('/', ' '), await browser.ask(`(async () => (${measured})((await import('${module}')).load, [${given}]))()`));
  sayTabled(version.replace('/', ' '), await browser.ask(`(async () => (${tabled})((await import('${module}')).load, ${given[2]}))()`));
  await browser.end();
}
