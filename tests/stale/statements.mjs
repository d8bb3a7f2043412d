// Lines 'NOW HEX' from standard input, each a statement that comes at a time: what is read of it, and what an editor makes of it. An empty line is another editor.
import { readFileSync } from 'node:fs';
import { Seen, Statement } from '../../js/statement.js';

let seen = new Seen();
const out = readFileSync(0, 'latin1').split('\n').slice(0, -1).map((line) => {
  if (line === '') {
    seen = new Seen();
    return '';
  }
  const [now, hex] = line.split(' ');
  const read = Statement.read(new Uint8Array(Buffer.from(hex, 'hex')));
  if (read === null) return '-';
  const date = (time) => time ?? 'none';
  const verdict = seen.take(read, Number(now));
  return `${read.version} ${Buffer.from(read.root).toString('hex')} ${date(read.bits)} ${date(read.published)} ${read.made} ${date(read.notAfter)}: ${verdict}, ${seen.version} ${seen.time}`;
});
process.stdout.write(`${out.join('\n')}\n`);
