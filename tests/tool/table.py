"""Long work makes itself a table of the store's slots: the answers are those without one, of sound stores and of damaged ones, to the byte."""

import os
import random

from common import *

PLAIN = {"GRANTS_NO_TABLE": "1"}


def both(*words, **more):
    """The same status, output and sentences with the table and without."""
    ran = [grants(*words, env=env, **more) for env in (None, PLAIN)]
    seen = [(one.status, one.out, one.err) for one in ran]
    assert seen[0] == seen[1], ran
    return ran[0]


def published(name, slots):
    answered(0, "format", name, slots)
    rng = random.Random(12)
    keys = ["%s" % rng.randbytes(32).hex() for _ in range(slots // 8)]
    for n in range(5):
        lines = ["+ %s %s\n" % (k, value(rng.randrange(1, 99))) for k in rng.sample(keys, len(keys) // (1 if n == 0 else 9))]
        grants("apply", name, "-", "--number", 3 * n + 2, "--date", "2026-05-%02d" % (n + 1), input="".join(lines))
    return keys


def asked(name, keys):
    """Commands that read much."""
    write("keys", "".join(k + "\n" for k in keys[:200] + ["ab" * 32]))
    yield ("prove", name, "--keys", "keys")
    yield ("prove", name, 5, "--keys", "keys", "--json")
    yield ("list", name, "--full")
    yield ("list", name, 4, "--csv")
    yield ("list", name, "--from", 10, "--most", 150, "--full")
    yield ("list", name, "--at", "2026-05-03")
    yield ("export", name)
    yield ("history", name, keys[0], "--full")
    yield ("log", name, "--full")
    yield ("report", name)
    yield ("show", name, "--full")
    yield ("diff", name, 2, 8)
    yield ("import", name, "list", "--dry-run", "--no-end", "--most-removed", 9999)


@test
def a_table_changes_no_answer():
    for slots in (100, 1200):
        for file in ("m", "m.book"):
            if os.path.exists(file):
                os.remove(file)
        keys = published("m", slots)
        write("list", many(60, seed=4))
        for words in asked("m", keys):
            ran = both(*words)
            # A small store has no room for what is imported.
            assert ran.status in (0, 1) or words[0] == "import" and ran.status == 17, ran
        # Grown in both ways: the same bytes.
        for name, env in (("one", None), ("two", PLAIN)):
            write(name, read("m"))
            answered(0, "grow", name, 2 * slots, env=env)
        assert read("one") == read("two")
        # Damaged: the same refusals, with the same sentences, and the same answers where there are any.
        s = read("m")
        used = [i for i in range(slots) if any(s[slot(i)])]
        rng = random.Random(slots)
        seen = set()
        for n in range(6):
            i, j = rng.sample(used, 2)
            content = (bytes(SLOT), b"\xff" * 4 + s[slot(i)][4:], s[slot(j)])[n % 3]
            write("d", s[: size(i)] + content + s[size(i + 1) :])
            for words in list(asked("d", keys))[: 5 if n else None]:
                seen.add(both(*words).status)
            # Each key alone, read by scans: what the many say of it.
            seen.add(both("prove", "d", keys[n]).status)
        assert {0, 13} <= seen, seen
