// Every call that the comparison made of the native library, made once more of the WebAssembly: the same number, and the same bytes in all that it was lent.
import { readFileSync } from 'node:fs';

const EDGE = 64;
const MARK = 0xc3;

// The calls of a file that tests/compare wrote; src/record.rs says its form.
function* calls(bytes) {
  const view = new DataView(bytes.buffer, bytes.byteOffset, bytes.byteLength);
  let at = 0;
  const byte = () => bytes[at++];
  const number = () => view.getUint32((at += 4) - 4, true);
  const long = () => view.getBigUint64((at += 8) - 8, true);
  const some = (n) => bytes.subarray(at, (at += n));
  while (at < bytes.length) {
    const name = Buffer.from(some(byte())).toString();
    const given = Array.from({ length: byte() }, () => {
      const letter = String.fromCharCode(byte());
      if (letter === 'l') return { letter, n: long() };
      const n = number();
      if (letter === 'n') return { letter, n };
      // A table has entries of four bytes each.
      const bytes = 'tk'.includes(letter) ? 4 * n : n;
      const before = some(bytes);
      return { letter, n, bytes, before, after: 'rt'.includes(letter) ? before : some(bytes) };
    });
    yield { name, given, answer: long() };
  }
}

// A number, of 32 bits or of 64, and no bytes.
const plain = (letter) => letter === 'n' || letter === 'l';

const unsigned = (said) => (typeof said === 'bigint' ? said : said >>> 0);

// One call over buffers between marked edges: whether all is as it was with the native library.
function same(exports, { name, given, answer }) {
  let end = exports.__heap_base.value + EDGE;
  const places = given.map(({ letter, bytes }) => {
    if (plain(letter)) return 0;
    const at = 'tk'.includes(letter) ? Math.ceil(end / 4) * 4 : end;
    end = at + bytes + EDGE;
    return at;
  });
  const missing = end - exports.memory.buffer.byteLength;
  if (missing > 0) exports.memory.grow(Math.ceil(missing / 65536));
  const memory = Buffer.from(exports.memory.buffer);
  memory.fill(MARK, exports.__heap_base.value, end);
  const words = [];
  given.forEach(({ letter, n, before }, i) => {
    if (plain(letter)) words.push(n);
    else {
      memory.set(before, places[i]);
      words.push(places[i]);
      if (letter !== 'a') words.push(BigInt(n));
    }
  });
  // All bits of what came: 64 of a read, 32 of the other calls.
  const came = BigInt.asUintN(64, BigInt(unsigned(exports[`grants_${name}`](...words))));
  const marked = (from, to) => memory.subarray(from, to).every((b) => b === MARK);
  return (
    came === answer &&
    marked(exports.__heap_base.value, exports.__heap_base.value + EDGE) &&
    given.every(({ letter, bytes, after }, i) => plain(letter) || (memory.compare(after, 0, bytes, places[i], places[i] + bytes) === 0 && marked(places[i] + bytes, places[i] + bytes + EDGE)))
  );
}

// The stack lies first in memory, from its end downwards: what of it was ever written.
function deepest(exports, stack) {
  return stack - new Uint8Array(exports.memory.buffer, 0, stack).findIndex((byte) => byte !== 0);
}

export async function replay(tally, file, wasm, stack) {
  const { exports } = await WebAssembly.instantiate(await WebAssembly.compile(readFileSync(wasm)));
  const times = {};
  for (const call of calls(readFileSync(file))) {
    if (!exports[`grants_${call.name}`]) continue;
    times[call.name] = (times[call.name] ?? 0) + 1;
    if (!same(exports, call)) tally.fail(`${wasm}: ${call.name} number ${times[call.name]} is not as the native library has it`);
    else tally.pass();
  }
  const most = deepest(exports, stack);
  tally.holds(`${wasm}: ${most} bytes of stack leave a quarter of it free`, most < 0.75 * stack);
  console.log(`${wasm}: ${most} of ${stack} bytes of stack at most`);
  console.log(`${wasm}: as the native library, byte by byte: ${Object.entries(times).map(([name, n]) => `${name} ${n}`).join(', ')}`);
}
