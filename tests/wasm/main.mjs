// tests/wasm/main.mjs PART [CALLS]: 'calls', the WebAssembly beside the native library's calls, and the vectors; 'js', js/ itself, and what the page makes of files; 'shelves'. Each in a process of its own: an
// engine reserves so much for each store that it has room for some hundred, and waits for its collector where more were made.
import { load } from '../../js/grants.js';
import { files } from './files.mjs';
import { module } from './module.mjs';
import { replay } from './replay.mjs';
import { shelves } from './shelf.mjs';
import { Tally } from './tally.mjs';
import { vectors } from './vectors.mjs';

const [part, calls] = process.argv.slice(2);
const tally = new Tally();
const grants = await load();
if (part === 'calls') {
  for (const [name, stack] of [['grants-verify', 64 << 10], ['grants-verify-simd', 64 << 10], ['grants', 512 << 10]]) await replay(tally, calls, `target/wasm/${name}.wasm`, stack);
  await vectors(tally, grants);
} else if (part === 'js') {
  await module(tally, grants);
  await files(tally, grants);
} else await shelves(tally, grants);
console.log(`${tally.passed} passed, ${tally.failed} failed`);
process.exitCode = tally.failed ? 1 : 0;
