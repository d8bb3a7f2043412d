# SPDX-License-Identifier: Apache-2.0
"""The composer's editor refuses the old list: as examples/stale.c tells it, and with the same output. PYTHONPATH=python python3 examples/stale.py"""

from grants import Refused, Seen, Statement, Store, Verdict, name, verify

# Monday, the 4th of May 2026, nine o'clock.
MONDAY, HOUR = 1777885200, 3600
store = Store.format(20)


def publish(version, words, value, made, not_after):
    """The desk publishes one change, and signs what `grants root --out` writes of it. The flag stands for a signature by ssh-keygen, minisign or openssl
    (docs/SIGNING.md): whoever changes the text loses it."""
    root = store.apply(version, {name(words): name(value) if value else None}).root
    text = "the root of a grant store\nversion %d\nroot %s\nmade %s\n" % (version, root.hex(), made)
    return (text + ("not-after %s\n" % not_after if not_after else ""), True)


class Editor:
    """What an editor does with a list and a proof from anybody: the signature, the form, whether it is stale, and only then the proof."""

    def __init__(self):
        self.seen = Seen()

    def may_open(self, when, now, signed, words, proof):
        print("%s: %s" % (when, self.answer(now, signed, name(words), proof)))

    def answer(self, now, signed, key, proof):
        text, by_desk = signed
        if not by_desk:
            return "refused, the desk didn't sign this list"
        try:
            statement = Statement.read(text)
        except ValueError:
            return "refused, this is no statement"
        verdict = self.seen.judge(statement, now)
        self.seen = self.seen.after(statement, now)
        if verdict is not Verdict.FRESH:
            return "refused, the list of version %d is %s" % (statement.version, verdict.value)
        said = "the list of version %d is fresh; " % statement.version
        if statement.root == bytes(32):
            return said + "nothing is granted"
        try:
            value = verify(statement.root, key, proof)
        except Refused as refused:
            return said + "the proof shows nothing, refused with %d" % refused.number
        return said + ("there is no such grant" if value is None else "the grant stands")


score = "chords symphony"
composer, traveller = Editor(), Editor()

# Version 1 grants, version 2 grants another plugin something else, version 3 withdraws the first. Each list is good for two days.
publish(1, score, "read", "2026-05-04T08:00:00Z", "2026-05-06T08:00:00Z")
old = publish(2, "tuner sonata", "read", "2026-05-04T09:00:00Z", "2026-05-06T09:00:00Z")
then = store.prove(2, name(score))
fresh = publish(3, score, None, "2026-05-05T09:00:00Z", "2026-05-07T09:00:00Z")
now = store.prove(3, name(score))

composer.may_open("monday", MONDAY + HOUR, old, score, then)
composer.may_open("tuesday, withdrawn", MONDAY + 25 * HOUR, fresh, score, now)

# A plugin brings its own copy of the list: all of it was signed, and all of it was true on monday.
composer.may_open("the old list again", MONDAY + 26 * HOUR, old, score, then)
composer.may_open("the old proof with the new list", MONDAY + 26 * HOUR, fresh, score, then)
forged = (old[0].replace("version 2", "version 9"), False)
composer.may_open("the old list under a higher number", MONDAY + 26 * HOUR, forged, score, then)

# An editor that was offline has seen no newer list. The date is what ends it, also for a clock that is set back.
traveller.may_open("offline, before its date", MONDAY + 47 * HOUR, old, score, then)
traveller.may_open("offline, after its date", MONDAY + 49 * HOUR, old, score, then)
traveller.may_open("offline, the clock set back", MONDAY, old, score, then)
traveller.may_open("online again", MONDAY + 50 * HOUR, fresh, score, then)
traveller.may_open("online, the clock a day behind", MONDAY + 24 * HOUR, fresh, score, now)

# What a desk must not sign: a list without a date, and two lists of one number.
undated = publish(4, "tuner sonata", None, "2026-05-06T09:00:00Z", None)
composer.may_open("without a date", MONDAY + 49 * HOUR, undated, score, now)
roots = [text.split("\n")[2] for text, _ in (old, fresh)]
twice = (fresh[0].replace(roots[1], roots[0]), True)
composer.may_open("version 3 signed with another root", MONDAY + 49 * HOUR, twice, score, then)

# With the last grant gone the root is 32 zero bytes: itself the proof.
empty = publish(5, "tuner sonata", None, "2026-05-06T10:00:00Z", "2026-05-08T10:00:00Z")
composer.may_open("the empty list", MONDAY + 50 * HOUR, empty, score, then)
print("the composer's editor keeps: version %d" % composer.seen.version)
