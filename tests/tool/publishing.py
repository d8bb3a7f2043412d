"""Publishing that can't go wrong quietly: what holds it back, what is said beside it, and what the book learns."""

import csv
import hashlib
import json
import os
import pwd
import random
import resource
import subprocess

from common import *


def digest(name):
    return hashlib.sha256(name.encode()).hexdigest()


def listed(name="m", count=4):
    """A store with so many grants, by name."""
    answered(0, "format", name, 100 + 4 * count)
    answered(0, "apply", name, "-", input="".join('+ "plugin %d" "read"\n' % n for n in range(count)))
    return name


def processor(work):
    """The seconds of the processor that what is run takes."""
    before, _, after = resource.getrusage(resource.RUSAGE_CHILDREN), work(), resource.getrusage(resource.RUSAGE_CHILDREN)
    return after.ru_utime + after.ru_stime - before.ru_utime - before.ru_stime


def spread(script):
    """A line of shell with `grants` in it, as a person types it."""
    return subprocess.run(["bash", "-c", script.replace("grants ", "'%s' " % TOOL)], capture_output=True, text=True, timeout=60)


@test
def a_book_chooses_no_key_that_is_published():
    """Someone who can write the book alone gives a name to another key before it is published."""
    m = listed()
    other = digest("malware sonata")
    with open("m.book", "a") as book:
        book.write('name %s "lyrics sonata"\nname %s "play"\n' % (other, digest("write")))
    said = 'held back: line 1 names "lyrics sonata", which m.book gives to %s and not to its SHA-256, %s. If that is meant, say --by-book \'lyrics sonata\'' % (other, digest("lyrics sonata"))
    for line in ('+ "lyrics sonata" "read"\n', '- "lyrics sonata"\n', '+ %s "lyrics sonata"\n' % A):
        for more in ((), ("--dry-run",)):
            untouched(m, 5, said, "apply", m, "-", *more, input=line)
    whole = answered(0, "export", m).replace("end 4", '+ "lyrics sonata" "read"\nend 5')
    for more in ((), ("--dry-run",)):
        untouched(m, 5, 'names "lyrics sonata", which m.book gives', "import", m, "-", *more, input=whole)
    # Each name is allowed by itself.
    untouched(m, 5, 'names "play"', "apply", m, "-", "--by-book", "lyrics sonata", input='+ "lyrics sonata" "play"\n')
    ran = grants("apply", m, "-", "--by-book", "lyrics sonata", "--by-book", "play", "--json", input='+ "lyrics sonata" "play"\n')
    assert ran.status == 0 and ran.err == 'grants: by m.book, "lyrics sonata" is %s\ngrants: by m.book, "play" is %s\n' % (other, digest("write")), ran
    assert json.loads(ran.out)["by_book"] == [{"name": "lyrics sonata", "bytes": other}, {"name": "play", "bytes": digest("write")}], ran
    assert answered(0, "get", m, other) == digest("write") + "\n"
    # Two keys for one name are refused, whatever is allowed.
    with open("m.book", "a") as book:
        book.write('name %s "lyrics sonata"\n' % digest("lyrics sonata"))
    untouched(m, 4, "to two keys", "apply", m, "-", "--by-book", "lyrics sonata", input='- "lyrics sonata"\n')
    # Without the book a name is its hash.
    answered(0, "apply", m, "-", "--no-book", input='+ "lyrics sonata" "read"\n')
    assert answered(0, "get", m, digest("lyrics sonata")) == digest("read") + "\n"


@test
def a_failed_producer_removes_nothing():
    m = listed()
    before = read(m)
    for script in ("false | grants import m -", "false | grants import m - --dry-run", "grants import m /dev/null", "printf '# nothing\\nend 0\\n' | grants import m -"):
        done = spread(script)
        assert done.returncode == 5 and "the list has no grant, so every grant would be removed. If that is meant, say --allow-empty" in done.stderr, (script, done)
    # Standard input that is closed is no empty batch.
    for script in ("grants apply m - <&-", "grants import m - --allow-empty --no-end <&-", "grants apply m - --dry-run <&-", "grants check - <&-"):
        done = spread(script)
        assert done.returncode == 3 and "cannot read standard input: it is closed" in done.stderr, (script, done)
    assert read(m) == before
    # A list that was cut off lacks its end line, wherever it was cut.
    whole = answered(0, "export", m)
    assert whole.endswith("end 4\n")
    for cut in range(len(whole) - 1):
        if cut % 7 == 0 or whole[cut - 1] == "\n":
            ran = grants("import", m, "-", "--most-removed", 4, "--allow-empty", input=whole[:cut])
            assert ran.status in (5, 14) and read(m) == before, (cut, ran)
    lines = whole.splitlines(True)
    untouched(m, 5, "no end line, so it may have been cut off. `grants export` writes one; add the line 'end 3'", "import", m, "-", "--most-removed", 4, input="".join(lines[:-2]))
    untouched(m, 14, "it ends a batch of 4 keys, and 3 stand before it", "import", m, "-", input="".join(lines[:-2] + lines[-1:]))
    untouched(m, 14, "it stands after the end line", "import", m, "-", input=whole + lines[1])
    untouched(m, 14, "after 'end' stands the number of keys", "import", m, "-", input="end all\n")
    assert answered(0, "import", m, "-", input=whole).startswith("the store holds these grants already; no version was published\n")
    # Without an end line, where that is said; and an apply that wants one.
    answered(0, "import", m, "-", "--no-end", input="".join(lines[:-1]))
    untouched(m, 5, "no end line", "apply", m, "-", "--end", input="".join(lines[:-2]))
    untouched(m, 14, "and 3 stand before it", "apply", m, "-", input="".join(lines[:-2] + lines[-1:]))
    refused(2, "--end goes with a batch as text", "apply", m, write("b", record(A, value(1))), "--end")
    answered(0, "apply", m, "-", "--end", input=answered(0, "diff", m, 0, 1, "--batch"))
    # An empty list, where it is meant.
    answered(0, "import", m, "-", "--allow-empty", "--most-removed", 4, input="end 0\n")
    assert answered(0, "root", m).strip() == ZERO


@test
def removals_are_counted_and_bounded():
    m = listed(count=40)
    said = json.loads(answered(0, "apply", m, "-", "--json", input='- "plugin 0"\n+ "plugin 1" "write"\n+ "plugin 40" "read"\n'))
    assert [said[k] for k in ("added", "removed", "changed", "before", "after", "no_change", "by_book")] == [1, 1, 1, 40, 40, [], []], said
    whole = answered(0, "export", m).splitlines(True)

    def less(count):
        return "".join(whole[: -1 - count]) + "end %d\n" % (40 - count)

    out = answered(0, "import", m, "-", "--dry-run", input=less(4))
    assert "\n0 added, 4 removed, 0 changed; 40 grants before, 36 after\n" in out, out
    sentence = "held back: this would remove 5 of 40 grants, more than a tenth. If that is meant, say --most-removed 5; else see that the batch is whole. Nothing was changed."
    untouched(m, 5, sentence, "import", m, "-", input=less(5))
    untouched(m, 5, sentence, "import", m, "-", "--dry-run", input=less(5))
    told = grants("import", m, "-", "--json", input=less(5))
    assert (told.status, json.loads(told.out)["status"], json.loads(told.out)["refused"]) == (5, 5, None), told
    untouched(m, 5, "this would remove 5 of 40 grants, and --most-removed allows 4", "import", m, "-", "--most-removed", 4, input=less(5))
    untouched(m, 5, "this would remove 1 of 40 grants, and --most-removed allows 0", "import", m, "-", "--most-removed", 0, input=less(1))
    refused(2, "N is a number", "import", m, "-", "--most-removed", "few", input=less(1))
    assert "0 added, 5 removed, 0 changed; 40 grants before, 35 after\n" in answered(0, "import", m, "-", "--most-removed", 5, input=less(5))
    # In a batch each removal is a line: up to ten go unasked, however short the list is.
    keys = [line.split()[1] + " " + line.split()[2] for line in whole[1:31]]
    deletes = "".join("- %s\n" % key for key in keys)
    untouched(m, 5, "this would remove 30 of 35 grants, more than a tenth", "apply", m, "-", input=deletes)
    untouched(m, 5, "--most-removed allows 9", "apply", m, "-", "--most-removed", 9, input="".join(deletes.splitlines(True)[:10]))
    answered(0, "apply", m, "-", input="".join(deletes.splitlines(True)[:10]))
    answered(0, "apply", m, "-", "--most-removed", 20, input="".join(deletes.splitlines(True)[10:]))


@test
def the_root_that_was_expected():
    m = listed()
    batch = write("b", '- "plugin 0"\n')
    expected = json.loads(answered(0, "apply", m, batch, "--dry-run", "--json"))["published"][0]["root"]
    untouched(m, 5, "the root would be %s, and %s was expected" % (expected, ZERO), "apply", m, batch, "--expect-root", ZERO)
    untouched(m, 5, "was expected", "apply", m, batch, "--dry-run", "--expect-root", ZERO)
    untouched(m, 22, "64 hex digits", "apply", m, batch, "--expect-root", "ab")
    untouched(m, 2, "is no hex digit", "apply", m, batch, "--expect-root", "g" * 64)
    answered(0, "apply", m, batch, "--expect-root", expected.upper())
    assert answered(0, "root", m).strip() == expected
    # Where a list is there already its root is the one that is compared; and whoever names the root has counted.
    whole = answered(0, "export", m)
    untouched(m, 5, "was expected", "import", m, "-", "--expect-root", ZERO, input=whole)
    answered(0, "import", m, "-", "--expect-root", expected, input=whole)
    answered(0, "import", m, "-", "--allow-empty", "--expect-root", ZERO, input="end 0\n")
    n = listed("n")
    untouched(n, 5, "--most-removed allows 0", "apply", n, batch, "--expect-root", expected, "--most-removed", 0)


@test
def what_changes_nothing_is_said():
    m = listed()
    book = read("m.book")
    typo = "lyrics sonota"
    ran = grants("apply", m, "-", input='- "%s"\n+ "plugin 1" "read"\n- "plugin 0"\n' % typo)
    lines = ['grants: no change: "%s" (%s) is to be removed and isn\'t there' % (typo, digest(typo)), 'grants: no change: "plugin 1" (%s) has this value already' % digest("plugin 1")]
    assert ran.status == 0 and sorted(ran.err.splitlines()) == sorted(lines), ran
    assert "\n0 added, 1 removed, 0 changed, 2 without effect; 4 grants before, 3 after\n" in ran.out, ran
    # The book doesn't learn a name that nothing has.
    assert typo.encode() not in read("m.book") and read("m.book").startswith(book)
    refused(2, "has no name", "get", m, typo)
    told = grants("apply", m, "-", "--json", "--dry-run", input='- "%s"\n' % typo)
    assert json.loads(told.out)["no_change"] == [{"key": digest(typo), "value": None}] and typo in told.err, told
    # Names of what is there are learned, also where nothing changes.
    answered(0, "apply", m, "-", input="+ %s %s\n" % (digest("by digits"), digest("read")))
    answered(0, "apply", m, "-", input='+ "by digits" "read"\n')
    assert answered(0, "get", m, "by digits") == digest("read") + "\n"
    # --strict takes none of them, binary records neither.
    sentence = "held back: \"%s\" (%s) is to be removed and isn't there: --strict takes no record that changes nothing." % (typo, digest(typo))
    untouched(m, 5, sentence, "apply", m, "-", "--strict", input='- "%s"\n' % typo)
    untouched(m, 5, "isn't there, and 1 record more: --strict", "apply", m, write("b", record(A) + record(B)), "--strict")
    untouched(m, 5, "has this value already: --strict", "apply", m, "-", "--strict", "--dry-run", input='+ "plugin 1" "read"\n')
    answered(0, "apply", m, "-", "--strict", input='+ "plugin 1" "write"\n- "plugin 2"\n')
    # Many of them are counted, in JSON all of them named.
    ran = grants("apply", m, "-", "--json", input="".join("- %064x\n" % n for n in range(1, 50)))
    assert ran.err.count("\n") == 21 and ran.err.endswith("grants: no change: and 29 more\n"), ran
    assert len(json.loads(ran.out)["no_change"]) == 49


@test
def a_book_in_the_folder_where_one_is():
    """--book with a name alone: what is written is said to be written."""
    answered(0, "format", "m", 40)
    answered(0, "apply", "m", "-", "--book", "names", input='+ "a" "read"\n')
    answered(0, "name", "m", "b", A, "--book", "names")
    answered(0, "apply", "m", "-", "--book", "./names", input='+ "c" "read"\n')
    assert [v["book"] for v in json.loads(answered(0, "log", "m", "--json", "--book", "names"))] == [None, "agrees", "agrees"]
    assert sorted(os.listdir(".")) == ["m", "names"]


@test
def what_a_match_leaves_out_is_said():
    m = listed(count=3)
    answered(0, "apply", m, "-", "--no-book", input="+ %s %s\n" % (A, value(1)))
    root = answered(0, "root", m).strip()
    heads = lambda *words: answered(words[0], "list", m, "--match", *words[1:]).splitlines()[0].split(": ", 1)[1]
    assert heads(0, "plugin 1") == "1 of 4 matches; 1 has no name; of all of them, root " + root
    assert heads(0, "plugin") == "3 of 4 match; 1 has no name; of all of them, root " + root
    assert heads(1, "lyrics") == "0 of 4 match; 1 has no name; of all of them, root " + root
    assert heads(1, "plugin", "--book", "/dev/null") == "0 of 4 match; 4 have no name; of all of them, root " + root
    told = json.loads(answered(0, "list", m, "--match", "plugin 1", "--json"))
    assert (len(told["grants"]), told["count"], told["without_name"]) == (1, 4, 1), told
    ran = grants("list", m, "--match", "plugin 1", "--csv")
    assert ran.err == "grants: by m.book, 1 of 4 matches; 1 has no name\n" and ran.out.count("\n") == 2, ran
    assert "without_name" not in json.loads(answered(0, "list", m, "--json"))


@test
def a_lost_line_of_the_book_is_restored():
    m = listed()
    # A writer is killed after the store has its name and before the book does.
    for at in range(1, 60):
        held = read(m)
        ran = grants("apply", m, "-", "--message", "lost", input='- "plugin 0"\n', env={"LD_PRELOAD": FAULT, "FAULT": "kill", "FAULT_AT": str(at)})
        assert ran.status != 0, "no kill fell between the store and its book"
        if read(m) != held:
            break
    assert json.loads(answered(0, "log", m, "--json"))[2]["book"] is None
    ran = grants("apply", m, "/dev/null")
    assert ran.status == 0 and ran.err == "grants: note: m.book has no line for version 2; `grants note m 2 --date DATE` adds one\n", ran
    assert grants("apply", m, "/dev/null").err == ""
    refused(2, "--date is missing", "note", m, 2)
    refused(2, "wants a date", "note", m, 2, "--date", "2026-02-30")
    refused(18, "keeps versions 0 to 4", "note", m, 5, "--date", "2026-06-02")
    refused(4, "shows no publishing under the number 0", "note", m, 0, "--date", "2026-06-02")
    root = answered(0, "root", m, 2).strip()
    out = answered(0, "note", m, 2, "--date", "2026-06-02", "--message", "found again", "--author", "tove")
    assert out == 'version 2 %s 2026-06-02T00:00:00Z "tove" "found again"\n' % root
    line = json.loads(answered(0, "log", m, "--json"))[2]
    assert (line["book"], line["time"], line["author"], line["message"]) == ("agrees", "2026-06-02T00:00:00Z", "tove", "found again")
    before = read("m.book")
    refused(4, 'has a line for version 2 that agrees, of 2026-06-02T00:00:00Z, by "tove": --again', "note", m, 2, "--date", "2026-06-02")
    assert read("m.book") == before
    told = json.loads(answered(0, "note", m, 2, "--date", "2026-06-02", "--again", "--message", "better", "--json"))
    assert (told["version"], told["root"], told["message"], told["author"]) == (2, root, "better", "mira") and read("m.book").startswith(before)
    # A number that nothing was published under, and one from before the oldest version that still reads as it.
    answered(0, "apply", m, "-", "--no-book", "--number", 9, input='- "plugin 1"\n')
    refused(4, "shows no publishing under the number 7: it reads as version 4", "note", m, 7, "--date", "2026-06-02")
    answered(0, "apply", m, "-", "--no-book", "--number", 12, input='- "plugin 2"\n')
    answered(0, "prune", m, 10)
    answered(0, "note", m, 9, "--date", "2026-06-09", "--message", "nine")
    assert json.loads(answered(0, "log", m, "--json"))[0]["message"] == "nine"
    refused(18, "keeps versions 10 to 12", "note", m, 4, "--date", "2026-06-02")
    # A store that came without its book.
    os.remove("m.book")
    assert grants("apply", m, "/dev/null").err == "grants: note: m.book is not there, and is begun with this version\n"


@test
def many_keys_and_one_book():
    m = listed(count=256)
    names = ["plugin %d" % n for n in range(256)]
    with open("m.book", "a") as book:
        book.writelines('name %064x "other %d"\n' % (n, n) for n in range(1, 20000))
    write("keys", "# all of them\n\n" + "".join('"%s"\n' % name for name in names[:255]) + digest(names[255]).upper() + " # by its digits\n")
    # The book is read once, and not for each of them, which takes some 256 times as long; in processor time, since cores may be busy.
    once = processor(lambda: answered(0, "name", m))
    by_file, by_words = ("prove", m, "--keys", "keys", "--out", "proofs"), ("prove", m, *['"%s"' % name for name in names], "--version", 1, "--out", "again")
    for words in (by_file, by_words):
        took = processor(lambda: answered(0, *words, env={"LD_PRELOAD": FAULT, "FAULT_LOG": "../calls.log"}))
        opened = read("../calls.log").decode().splitlines()
        assert sum(line.startswith("open ") and line.endswith("m.book") for line in opened) == 1 and took < 60 * once, (took, once)
        os.remove("../calls.log")
    assert answered(0, *by_file, "--force").startswith("proofs: 256 proofs, ")
    assert read("proofs") == read("again")
    root = answered(0, "root", m).strip()
    assert answered(0, "verify", root, "proofs", "--keys", "keys").count(" present ") == 256
    assert answered(0, "prove", m, 1, "--keys", "keys", "--json") == answered(0, "prove", m, "--version", 1, "--keys", "keys", "--json")
    refused(24, "refused with 14", "prove", m, 0, "--keys", "keys")
    for text, sentence in (("a b\n", "line 1 of keys is no key: a line has one key"), ('\n"a\n', "line 2 of keys is no key: a quote is not closed"), ("zz\n", "no hex digit"), (b"\xff", "no text in UTF-8")):
        write("keys", text)
        refused(2, sentence, "prove", m, "--keys", "keys")
    refused(22, "257 keys were asked for", "prove", m, "--keys", write("keys", (A + "\n") * 257))
    refused(22, "Key 2 has 1 byte.", "prove", m, "--keys", write("keys", A + "\nab\n"))
    refused(2, "the words are STORE and VERSION alone", "prove", m, A, 1, "--keys", "keys")
    refused(2, "the words are ROOT and PROOF alone", "verify", root, A, "proofs", "--keys", "keys")
    refused(2, "KEY is missing", "prove", m)
    refused(2, "PROOF is missing", "verify", root, A)
    refused(3, "no such file", "prove", m, "--keys", "none")


@test
def advice_that_can_be_followed():
    m = listed()
    os.rename("m.book", "away")
    write("m.book", b"x")
    os.chmod("m.book", 0)
    if os.getuid() == 0:
        os.remove("m.book")
        os.mkdir("m.book")
    for words in (("list", m), ("log", m), ("export", m), ("history", m, '"plugin 1"'), ("get", m, '"plugin 1"'), ("root", m, "--out", "-"), ("show", m)):
        answered(0, *words, "--no-book")
    refused(3, "cannot read m.book", "name", m)
    assert "--no-book" not in grants("name", m).err
    # Too few slots: how many it takes, how many are there, and only what would help.
    answered(0, "format", "s", 5)
    untouched("s", 17, "It takes 7 new records, and s has 5 free slots. To make room, give the store more slots (grants grow s 7, or more). s is as it was.", "apply", "s", "-", input=FOUR)
    answered(0, "grow", "s", 7)
    answered(0, "apply", "s", "-", "--no-book", input=FOUR)
    untouched("s", 17, "It takes 3 new records, and s has 0 free slots. To make room, give the store more slots (grants grow s 10, or more)", "apply", "s", "-", "--no-book", input=WITHDRAW)
    answered(0, "grow", "s", 10)
    answered(0, "apply", "s", "-", "--no-book", input=WITHDRAW)
    untouched("s", 17, "prune versions that no one asks for any more (grants prune frees up to 5 slots), or give the store more slots (grants grow s 11, or more)", "apply", "s", "/dev/null", "--no-book")
    answered(0, "prune", "s", 2)
    answered(0, "apply", "s", "/dev/null", "--no-book")
    answered(0, "format", "t", 100)
    untouched("t", 17, "no store has room for this: 16384 slots at most", "apply", "t", write("b", many(9000)), "--split")
    # A damaged store is not said to be beyond rescue.
    bad = bytearray(read(m))
    bad[HEADER + 60] ^= 1
    write("bad", bytes(bad))
    for words in (("check", "bad"), ("list", "bad", "--no-book"), ("apply", "bad", "/dev/null", "--no-book")):
        ran = grants(*words)
        assert ran.status == 13 and "no version can be rescued" not in ran.err and "can be rescued (grants rescue)" in ran.err, ran


@test
def small_ways_to_go_wrong():
    m = listed()
    before = read(m)
    for words in (("apply", m, "/dev/null"), ("import", m, "/dev/null", "--allow-empty", "--no-end")):
        untouched(m, 2, "wants a date", *words, "--dry-run", "--date", "2026-02-30")
    # Nothing that a terminal obeys, in JSON either.
    odd = "a\u009b31m\u202eb\x7f\\"
    answered(0, "apply", m, "-", "--message", odd, input='+ "%s" "read"\n' % odd.replace("\\", "\\\\"))
    for words in (("log", m), ("list", m), ("name", m)):
        out = answered(0, *words, "--json")
        assert not any(c in out for c in "\u009b\u202e\x7f") and odd in flat(json.loads(out)), out
    # In CSV a backslash is told from one that stands for something else.
    both = ("x\\u{1b}", "x\x1b")
    answered(0, "apply", m, "-", input="".join('+ "%s" "read"\n' % name for name in ("x\\\\u{1b}", "x\\u{1b}")))
    rows = {row[0]: row[2] for row in csv.reader(answered(0, "list", m, "--csv").splitlines())}
    assert [rows[digest(name)] for name in both] == ["x\\\\u{1b}", "x\\u{1b}"], rows
    # A rescue that wrote nothing doesn't look like one that did.
    ran = grants("rescue", m, "out", "--json")
    assert ran.status == 2 and json.loads(ran.out)["status"] == 2 and "--latest is missing" in ran.err and not os.path.exists("out"), ran
    # What no one can read is not done.
    before = read(m)
    for words in ("apply m /dev/null", "check m", "root m", "prune m 1"):
        done = spread("grants %s >&-" % words)
        assert done.returncode == 3 and "standard output is closed" in done.stderr, (words, done)
    assert read(m) == before
    # A book that is read-only, or something else than a book.
    os.chmod("m.book", 0o444)
    untouched(m, 3, "cannot write m.book: it is read-only (chmod u+w allows it); nothing was changed", "apply", m, "/dev/null")
    refused(3, "it is read-only", "name", m, "b", B)
    os.chmod("m.book", 0o644)
    batch = write("b", '+ "c" "read"\n')
    untouched(m, 2, "b is read by this command as something else than a book", "apply", m, "b", "--book", "b")
    untouched(m, 2, "m is read by this command as something else", "apply", m, "b", "--book", "./m")
    refused(2, "something else than a book", "name", m, "b", B, "--book", m)
    assert read(batch) == b'+ "c" "read"\n'
    for name in ("m", "m.book"):
        refused(2, "would be lost", "prove", m, A, "--out", name, "--force")
    # Who publishes is known where no one said it.
    answered(0, "apply", m, "/dev/null", env={"GRANTS_AUTHOR": "", "USER": "", "LOGNAME": ""})
    assert json.loads(answered(0, "log", m, "--json"))[-1]["author"] == pwd.getpwuid(os.getuid()).pw_name


def flat(row):
    """Every text in an answer."""
    if isinstance(row, dict):
        return [text for value_ in row.values() for text in flat(value_)]
    if isinstance(row, list):
        return [text for value_ in row for text in flat(value_)]
    return [row]


@test
def a_link_that_someone_planted_hinders_no_one():
    """Beside the store in a folder that all may write: it is neither followed nor waited for."""
    m = listed()
    write("mine", "dear")
    planted = [".m.grants-new", ".m.grants-new.2", ".m.book.grants-new"]
    for name in planted:
        os.symlink("mine", name)
    os.mkdir(".m.grants-new.3")
    os.mkfifo(".m.grants-new.4")
    answered(0, "apply", m, "/dev/null")
    answered(0, "check", m)
    assert read("mine") == b"dear" and all(os.path.islink(name) for name in planted)
    assert sorted(os.listdir(".")) == sorted(planted + [".m.grants-new.3", ".m.grants-new.4", "m", "m.book", "mine"])


@test
def a_diff_for_people():
    m = listed(count=3)
    answered(0, "apply", m, "-", "--date", "2999-05-10", "--author", "tove", "--message", "less", input='- "plugin 0"\n+ "plugin 1" "write"\n+ "plugin 9" "read"\n')
    answered(0, "apply", m, "/dev/null", "--date", "2999-05-11")
    rows = {
        "- %s %s" % (digest("plugin 0"), digest("read")): '"plugin 0" = "read"',
        "~ %s %s -> %s" % (digest("plugin 1"), digest("read"), digest("write")): '"plugin 1" = "read" -> "write"',
        "+ %s %s" % (digest("plugin 9"), digest("read")): '"plugin 9" = "read"',
    }
    lines = answered(0, "diff", m, 1, 2).splitlines()
    assert sorted(lines[:-1]) == sorted("%s  %s" % row for row in rows.items()), lines
    assert lines[-1].endswith(", mira) to 2 (2999-05-10 00:00, tove: less): 1 added, 1 removed, 1 changed"), lines
    assert answered(0, "diff", m, 1, 2, "--no-book").splitlines()[-1] == "version 1 to 2: 1 added, 1 removed, 1 changed"
    told = json.loads(answered(0, "diff", m, 1, 2, "--json"))["changes"]
    assert {(c["key_name"], c["old_name"], c["new_name"]) for c in told} == {("plugin 0", "read", None), ("plugin 1", "read", "write"), ("plugin 9", None, "read")}, told
    table = list(csv.reader(answered(0, "diff", m, 1, 2, "--csv").splitlines()))
    assert table[0] == ["change", "key", "old", "new", "key_name", "old_name", "new_name"] and ["changed", digest("plugin 1"), digest("read"), digest("write"), "plugin 1", "read", "write"] in table, table
    refused(2, "choose one", "diff", m, 1, 2, "--csv", "--json")
    # Of a day, and of the last publishing alone.
    assert answered(0, "diff", m, "--at", "2999-05-09", "--json") == answered(0, "diff", m, 1, "--json")
    refused(2, "VERSION and --at both", "diff", m, 1, "--at", "2999-05-09")
    assert answered(0, "diff", m, "--json") == answered(0, "diff", m, 2, 3, "--json")
    answered(0, "apply", m, "-", "--number", 9, input='- "plugin 9"\n')
    assert answered(0, "diff", m, "--json") == answered(0, "diff", m, 8, 9, "--json") and json.loads(answered(0, "diff", m, "--json"))["removed"] == 1
    answered(0, "prune", m, 9)
    assert answered(0, "diff", m, "--stat", "--no-book") == "version 9 to 9: 0 added, 0 removed, 0 changed\n"
    answered(0, "format", "empty", 5)
    assert answered(0, "diff", "empty") == "version 0 to 0: 0 added, 0 removed, 0 changed\n"


@test
def a_store_of_the_right_size():
    """The estimate of format --for, beside a year of publishings."""
    rng = random.Random(12)
    out = answered(0, "format", "s", "--for", 300, "--weekly", 10, "--keep", 20)
    capacity = json.loads(answered(0, "stat", "s", "--json"))["capacity"]
    assert out.startswith("s: %d free slots, " % capacity) and "grants prune STORE N-19" in out, out
    keys = ["%064x" % rng.getrandbits(256) for _ in range(300)]
    answered(0, "apply", "s", "-", "--no-book", input="".join("+ %s %s\n" % (key, value(1)) for key in keys))
    most = 0
    for week in range(2, 40):
        answered(0, "apply", "s", "-", "--no-book", input="".join("+ %s %064x\n" % (key, rng.getrandbits(256)) for key in rng.sample(keys, 10)))
        most = max(most, json.loads(answered(0, "stat", "s", "--json"))["used"])
        if week >= 20:
            answered(0, "prune", "s", week - 19)
    assert capacity * 0.7 < most <= capacity, (most, capacity)
    refused(2, "12000 grants with 0 changes a week and 1 version kept want some 32950 slots, and a store has 16384 at most: make a shelf, of several stores under one root (grants format DIR --bits 8; docs/SCALE.md)", "format", "t", "--for", 12000)
    refused(2, "keep fewer versions", "format", "t", "--for", 3000, "--weekly", 100, "--keep", 52)
    refused(2, "CAPACITY is missing", "format", "t")
    refused(2, "both say how many slots", "format", "t", 20, "--for", 5)
    refused(2, "go with --for", "format", "t", 20, "--keep", 5)
    assert not os.path.exists("t")


@test
def dates_and_splits_that_are_said():
    m = listed()
    after = lambda *words, **more: grants(*words, **more).err
    said = after("apply", m, "/dev/null", "--date", "2020-01-01")
    assert said.startswith("grants: note: 2020-01-01T00:00:00Z is before ") and said.endswith(", the date of version 1: --at can't tell what was the latest in between\n"), said
    assert after("apply", m, "/dev/null", "--date", "2999-01-01") == "grants: note: 2999-01-01T00:00:00Z lies ahead\n"
    said = after("root", m, "--out", "root", "--not-after", "2020-01-01")
    assert said == "grants: note: 2020-01-01T23:59:59Z is past already: no editor takes this root\n", said
    assert after("root", m, "--out", "later", "--not-after", "2999-01-01") == ""
    answered(0, "format", "large", LARGEST)
    text = many(1500)
    said = after("import", "large", "-", input=text + "end 1500\n")
    assert said == "grants: note: 1500 changes make 2 versions: a version takes 1024 at most\n", said
    # What the last publishings made, and not what the list itself did when it came.
    for n in range(4):
        answered(0, "apply", "large", "-", "--no-book", input="+ %s %s\n" % (text.split()[1], value(n)))
    refused(2, "a picture of ", "show", "large", "--svg", "large.svg")
    refused(2, "would take minutes", "show", "large", "--svg", "-")
    told = json.loads(answered(0, "stat", "large", "--json"))
    assert told["free"] / 20 < told["publishings_left"] < told["free"] / 8, told
    answered(0, "format", "once", 2000)
    answered(0, "import", "once", "-", "--no-end", input=many(300))
    answered(0, "apply", "once", "-", "--no-book", input="+ %s %s\n" % (A, value(1)))
    told = json.loads(answered(0, "stat", "once", "--json"))
    assert told["free"] / 20 < told["publishings_left"] < told["free"] / 4, told
