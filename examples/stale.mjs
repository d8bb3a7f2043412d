// SPDX-License-Identifier: Apache-2.0
// The composer's editor refuses the old list: as examples/stale.c tells it, and with the same output. make wasm; node examples/stale.mjs
import { load, Refused, toHex } from '../js/grants.js';
import { Seen, Statement } from '../js/statement.js';

// Monday, the 4th of May 2026, nine o'clock.
const [MONDAY, HOUR] = [1777885200, 3600];
const grants = await load();
const store = await grants.format(20);

// The desk publishes one change, and signs what `grants root --out` writes of it. The flag stands for a signature by ssh-keygen, minisign or openssl (docs/SIGNING.md):
// whoever changes the text loses it.
function publish(version, words, value, made, notAfter) {
  const { root } = store.apply(version, [{ key: grants.name(words), value: value && grants.name(value) }]);
  const text = `the root of a grant store\nversion ${version}\nroot ${toHex(root)}\nmade ${made}\n`;
  return { text: notAfter ? `${text}not-after ${notAfter}\n` : text, byDesk: true };
}

// What an editor does with a list and a proof from anybody: the signature, the form, whether it is stale, and only then the proof.
class Editor {
  seen = new Seen();

  mayOpen(when, now, list, words, proof) {
    console.log(`${when}: ${this.answer(now, list, grants.name(words), proof)}`);
  }

  answer(now, { text, byDesk }, key, proof) {
    if (!byDesk) return "refused, the desk didn't sign this list";
    const statement = Statement.read(text);
    if (statement === null) return 'refused, this is no statement';
    const verdict = this.seen.take(statement, now);
    if (verdict !== 'fresh') return `refused, the list of version ${statement.version} is ${verdict}`;
    const said = `the list of version ${statement.version} is fresh; `;
    if (statement.root.every((byte) => byte === 0)) return `${said}nothing is granted`;
    try {
      return said + (grants.verify(statement.root, key, proof).present ? 'the grant stands' : 'there is no such grant');
    } catch (refused) {
      if (!(refused instanceof Refused)) throw refused;
      return `${said}the proof shows nothing, refused with ${refused.number}`;
    }
  }
}

const score = 'chords symphony';
const [composer, traveller] = [new Editor(), new Editor()];

// Version 1 grants, version 2 grants another plugin something else, version 3 withdraws the first. Each list is good for two days.
publish(1, score, 'read', '2026-05-04T08:00:00Z', '2026-05-06T08:00:00Z');
const old = publish(2, 'tuner sonata', 'read', '2026-05-04T09:00:00Z', '2026-05-06T09:00:00Z');
const then = store.prove(2, grants.name(score));
const fresh = publish(3, score, null, '2026-05-05T09:00:00Z', '2026-05-07T09:00:00Z');
const now = store.prove(3, grants.name(score));

composer.mayOpen('monday', MONDAY + HOUR, old, score, then);
composer.mayOpen('tuesday, withdrawn', MONDAY + 25 * HOUR, fresh, score, now);

// A plugin brings its own copy of the list: all of it was signed, and all of it was true on monday.
composer.mayOpen('the old list again', MONDAY + 26 * HOUR, old, score, then);
composer.mayOpen('the old proof with the new list', MONDAY + 26 * HOUR, fresh, score, then);
const forged = { text: old.text.replace('version 2', 'version 9'), byDesk: false };
composer.mayOpen('the old list under a higher number', MONDAY + 26 * HOUR, forged, score, then);

// An editor that was offline has seen no newer list. The date is what ends it, also for a clock that is set back.
traveller.mayOpen('offline, before its date', MONDAY + 47 * HOUR, old, score, then);
traveller.mayOpen('offline, after its date', MONDAY + 49 * HOUR, old, score, then);
traveller.mayOpen('offline, the clock set back', MONDAY, old, score, then);
traveller.mayOpen('online again', MONDAY + 50 * HOUR, fresh, score, then);
traveller.mayOpen('online, the clock a day behind', MONDAY + 24 * HOUR, fresh, score, now);

// What a desk must not sign: a list without a date, and two lists of one number.
const undated = publish(4, 'tuner sonata', null, '2026-05-06T09:00:00Z', null);
composer.mayOpen('without a date', MONDAY + 49 * HOUR, undated, score, now);
const roots = [old, fresh].map(({ text }) => text.split('\n')[2]);
composer.mayOpen('version 3 signed with another root', MONDAY + 49 * HOUR, { text: fresh.text.replace(roots[1], roots[0]), byDesk: true }, score, then);

// With the last grant gone the root is 32 zero bytes: itself the proof.
const empty = publish(5, 'tuner sonata', null, '2026-05-06T10:00:00Z', '2026-05-08T10:00:00Z');
composer.mayOpen('the empty list', MONDAY + 50 * HOUR, empty, score, then);
console.log(`the composer's editor keeps: version ${composer.seen.version}`);
