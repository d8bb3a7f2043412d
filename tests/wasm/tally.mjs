// Counts what held and what didn't.
import { isDeepStrictEqual, inspect } from 'node:util';

export class Tally {
  passed = 0;
  failed = 0;

  pass() {
    this.passed += 1;
  }

  fail(what) {
    this.failed += 1;
    console.log(`failed: ${what}`);
  }

  equal(what, came, wanted) {
    if (isDeepStrictEqual(came, wanted)) this.pass();
    else this.fail(`${what}: ${inspect(came)} came, ${inspect(wanted)} was wanted`);
  }

  holds(what, it) {
    this.equal(what, it, true);
  }
}
