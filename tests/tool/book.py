"""The book, and what is asked by name and by day."""

import csv
import hashlib
import json
import os
import random
import shutil

from common import *


NAMES = '+ "chords symphony" "read"\n+ "chords sonata" "read"\n+ "lyrics sonata" "read" # all of it\n+ "tuner symphony" "read"\n'


def digest(name):
    return hashlib.sha256(name.encode()).hexdigest()


def market(name="market"):
    answered(0, "format", name, 40)
    answered(0, "apply", name, "-", "--message", "Spring list", "--date", "2026-05-03", input=NAMES)
    second = '- "lyrics sonata"\n+ "chords sonata" "write"\n'
    answered(0, "apply", name, "-", "--message", "Lyrics withdrawn", "--date", "2026-05-10T10:00:00Z", "--author", "tove", input=second)
    return name


@test
def names_stand_for_their_hash():
    m = market()
    assert answered(0, "get", m, digest("chords sonata")) == digest("write") + "\n"
    assert answered(0, "get", m, "chords sonata") == answered(0, "get", m, '"chords sonata"') == digest("write") + "\n"
    assert answered(1, "get", m, "lyrics sonata") == "absent\n"
    assert answered(0, "get", m, "lyrics sonata", 1) == digest("read") + "\n"
    # A slip is no name, but in quotes anything is.
    refused(2, 'market.book has no name "chords sonatas"', "get", m, "chords sonatas")
    assert answered(1, "get", m, '"chords sonatas"') == "absent\n"
    refused(22, "The key has 5 hex digits", "get", m, "cafe0")
    refused(22, "The key has 1 hex digit.", "verify", ZERO, "a", "none")
    answered(0, "apply", m, "-", input='+ "cafe" "read"\n')
    assert answered(0, "get", m, "cafe") == digest("read") + "\n"
    for wrong in ('"', '"a', '"a" b', '""x'):
        refused(2, "two double quotes", "get", m, wrong)
    answered(0, "prove", m, "chords sonata", "--out", "p")
    root = answered(0, "root", m).strip()
    assert answered(0, "verify", root, '"chords sonata"', "p") == "present %s\n" % digest("write")
    # A name for a key that is not its hash.
    answered(0, "apply", m, "-", input="+ %s %s\n" % (D, value(4)))
    assert answered(0, "name", m, "the old desk", D) == '%s "the old desk"\n' % D
    ran = grants("get", m, "the old desk")
    assert (ran.status, ran.out) == (0, value(4) + "\n") and ran.err == 'grants: by market.book, "the old desk" is %s\n' % D, ran
    assert grants("get", m, "chords sonata").err == "", "what a hash says needs no book"
    refused(4, "lines are only ever added", "name", m, "the old desk", C)
    refused(22, "64 hex digits", "name", m, "short", "ab")
    answered(0, "apply", m, "-", "--by-book", "the old desk", input='- "the old desk"\n')
    assert answered(1, "get", m, D) == "absent\n"
    assert '%s "the old desk"\n' % D in answered(0, "name", m)
    # Without a book, names in quotes are hashes still.
    answered(0, "apply", m, "-", "--no-book", input='+ "the old desk" "read"\n')
    assert answered(0, "get", m, digest("the old desk")) == digest("read") + "\n"
    for text, sentence in (
        ('+ "a "read"\n', "right after a closing quote"),
        ('+ "a" "read\n', "a quote is not closed"),
        ('+ "a\\n" "read"\n', "a backslash in quotes"),
        ('+ a "read"\n', "a name stands in double quotes"),
        ('"+" "a" "b"\n', "neither"),
    ):
        untouched(m, 14, sentence, "apply", m, write("b", text))
    untouched(m, 15, "in line 1 and again in line 2", "apply", m, write("b", '- "a"\n- %s\n' % digest("a")))


@test
def the_book_is_text_that_only_grows():
    m = market()
    book = read(m + ".book").decode()
    roots = [answered(0, "root", m, v).strip() for v in (1, 2)]
    assert 'name %s "lyrics sonata"\n' % digest("lyrics sonata") in book
    assert 'version 1 %s 2026-05-03T00:00:00Z "mira" "Spring list"\n' % roots[0] in book
    assert book.endswith('version 2 %s 2026-05-10T10:00:00Z "tove" "Lyrics withdrawn"\n' % roots[1])
    odd = 'two\nlines, "quotes" \\ and \x1b[31m # no comment'
    answered(0, "apply", m, "-", "--message", odd, input='+ "%s" "read"\n' % 'a \\"b\\" # c')
    after = read(m + ".book").decode()
    assert after.startswith(book) and "\x1b" not in after
    told = json.loads(answered(0, "log", m, "--json"))
    assert [v["message"] for v in told] == [None, "Spring list", "Lyrics withdrawn", odd]
    assert "\x1b" not in answered(0, "log", m) and answered(0, "log", m).count("\n") == 5
    assert answered(0, "get", m, 'a "b" # c') == digest("read") + "\n"
    # Its absence is no error, nor is a line that says nothing; no line is lost.
    os.rename(m + ".book", "away")
    assert json.loads(answered(0, "log", m, "--json"))[1]["book"] is None
    assert "published" in answered(0, "log", m)
    refused(2, "has no name", "get", m, "chords sonata")
    assert answered(0, "get", m, "chords sonata", "--book", "away") == digest("write") + "\n"
    write(m + ".book", "<<<<<<< ours\n" + after)
    assert "1 line can't be read, the first is line 1" in answered(0, "log", m)
    answered(0, "apply", m, "/dev/null")
    assert read(m + ".book").decode().startswith("<<<<<<< ours\n" + after)
    write(m + ".book", b"\xff\xfe")
    untouched(m, 3, "no text in UTF-8", "apply", m, "/dev/null")
    os.remove(m + ".book")
    os.mkdir(m + ".book")
    untouched(m, 3, "it is a directory", "apply", m, "/dev/null")
    answered(0, "apply", m, "/dev/null", "--no-book")


@test
def the_book_is_not_trusted():
    m = market()
    book = read(m + ".book").decode()
    root = answered(0, "root", m, 2).strip()
    # A line with another root is not used, and neither is its date.
    write(m + ".book", book.replace("version 2 " + root, "version 2 " + ZERO))
    told = json.loads(answered(0, "log", m, "--json"))
    assert [v["book"] for v in told] == [None, "agrees", "disagrees"] and told[2]["time"] is None and told[2]["message"] is None
    assert answered(0, "log", m).splitlines()[-1].endswith("the book disagrees")
    assert "(the book disagrees)" in answered(0, "list", m)
    refused(4, "no date for version 2", "get", m, "chords sonata", "--at", "2026-05-20")
    # The last line that agrees counts, and one that doesn't takes nothing away.
    write(m + ".book", book + 'version 2 %s 2026-05-09 "eve" "forged"\n' % ZERO)
    assert json.loads(answered(0, "log", m, "--json"))[2]["author"] == "tove"
    # A name that stands for two keys stands for none.
    write(m + ".book", book + 'name %s "chords sonata"\n' % D)
    refused(4, "to two keys", "get", m, "chords sonata")
    # A store that is older than its book is told so.
    write(m + ".book", book + 'version 9 %s 2026-06-09 "mira" ""\n' % root)
    assert "speaks of version 9: this store is older than its book" in answered(0, "log", m)
    # A fresh store starts another history; names stay.
    write(m + ".book", book)
    answered(0, "format", m, 20, "--force")
    answered(0, "apply", m, "-", input=FOUR)
    assert [v["book"] for v in json.loads(answered(0, "log", m, "--json"))] == [None, "agrees"]
    assert read(m + ".book").decode().startswith(book) and "older than its book" not in answered(0, "log", m)
    assert answered(1, "get", m, "chords sonata") == "absent\n"
    # And so does one that is made where another was taken away.
    os.remove(m)
    answered(0, "format", m, 20)
    answered(0, "apply", m, "-", input=WITHDRAW)
    assert [v["book"] for v in json.loads(answered(0, "log", m, "--json"))] == [None, "agrees"]
    assert read(m + ".book").decode().count("\nfresh 2") == 2


@test
def who_could_open_it_on_that_day():
    m = market()

    def held(day, *more):
        ran = grants("list", m, "--at", day, "--json", *more)
        assert ran.status in (0, 1), ran
        told = json.loads(ran.out)
        return told["version"], [g["key_name"] for g in told["grants"]]

    four = sorted(["chords symphony", "chords sonata", "lyrics sonata", "tuner symphony"], key=digest)
    three = [name for name in four if name != "lyrics sonata"]
    assert held("2026-05-02") == (0, [])
    assert held("2026-05-03") == held("2026-05-09") == held("2026-05-10T09:59:59Z") == (1, four)
    assert held("2026-05-10") == held("2026-05-10T10:00:00Z") == held("2030-01-01") == (2, three)
    assert held("2026-05-09", "--match", "sonata") == (1, [n for n in four if "sonata" in n])
    assert answered(0, "get", m, "lyrics sonata", "--at", "2026-05-09") == digest("read") + "\n"
    ran = grants("get", m, "lyrics sonata", "--at", "2026-05-10")
    assert (ran.status, ran.out) == (1, "absent\n") and ran.err == "grants: by market.book, version 2 was the latest on 2026-05-10\n", ran
    assert answered(0, "root", m, "--at", "2026-05-09") == answered(0, "root", m, 1)
    assert answered(0, "export", m, "--at", "2026-05-09") == answered(0, "export", m, 1)
    assert answered(0, "show", m, "--at", "2026-05-09") == answered(0, "show", m, 1)
    answered(0, "prove", m, "lyrics sonata", "--at", "2026-05-09", "--out", "then")
    assert answered(0, "verify", answered(0, "root", m, 1).strip(), '"lyrics sonata"', "then").startswith("present")
    refused(2, "VERSION and --at both", "get", m, "lyrics sonata", 1, "--at", "2026-05-09")
    for wrong in ("yesterday", "2026-02-30", "2026-5-3", ""):
        refused(2, "wants a date", "list", m, "--at", wrong)
    refused(2, "wants a date", "apply", m, "/dev/null", "--date", "tomorrow")
    # Where it can't be known, it isn't said.
    answered(0, "apply", m, "-", "--no-book", input="- %s\n" % digest("chords sonata"))
    refused(4, "no date for version 3", "list", m, "--at", "2026-06-01")
    assert held("2026-05-09")[0] == 1
    answered(0, "apply", m, "/dev/null", "--date", "2026-05-01")
    refused(4, "don't ascend", "list", m, "--at", "2026-05-02")
    answered(0, "prune", m, 2)
    os.remove(m + ".book")
    refused(4, "has no date for version", "list", m, "--at", "2026-06-01")
    raw = read(m)
    ran = grants("list", "-", "--at", "2026-06-01", input=raw)
    assert ran.status == 4, ran


@test
def a_day_before_the_oldest_kept():
    m = market()
    answered(0, "prune", m, 2)
    refused(4, "older than version 2, the oldest", "list", m, "--at", "2026-05-09")
    assert answered(0, "list", m, "--at", "2026-05-10").startswith("version 2 (2026-05-10 10:00, tove: Lyrics withdrawn): 3 grants")


@test
def list_in_its_forms():
    m = market()
    out = answered(0, "list", m).splitlines()
    assert out[0].startswith("version 2 (2026-05-10 10:00, tove: Lyrics withdrawn): 3 grants, root ")
    assert '  %s..%s = %s..%s  "chords sonata" = "write"' % (digest("chords sonata")[:8], digest("chords sonata")[60:], digest("write")[:8], digest("write")[60:]) in out
    assert digest("tuner symphony") in answered(0, "list", m, "--full")
    rows = list(csv.reader(answered(0, "list", m, "--csv").splitlines()))
    assert rows[0] == ["key", "value", "key_name", "value_name"] and len(rows) == 4
    assert [digest("chords sonata"), digest("write"), "chords sonata", "write"] in rows
    answered(0, "apply", m, "-", input='+ "a, \\"b\\"" "read"\n')
    assert [digest('a, "b"'), digest("read"), 'a, "b"', "read"] in list(csv.reader(answered(0, "list", m, "--csv").splitlines()))
    assert answered(1, "list", m, 0) == "version 0: 0 grants, root %s\n" % ZERO
    assert answered(0, "list", m, "--book", "/dev/null").count('"') == 0
    refused(18, "keeps versions 0 to 3", "list", m, 4)


@test
def export_and_import_go_round():
    m = market()
    answered(0, "apply", m, "-", input="+ %s %s\n" % (D, value(4)))
    answered(0, "name", m, "the old desk", D)
    out = answered(0, "export", m)
    assert '+ "chords sonata" "write"\n' in out and '+ %s %s  # "the old desk"\n' % (D, value(4)) in out
    for version in (1, 2, 3):
        write("text", answered(0, "export", m, version))
        answered(0, "format", "t", 40)
        answered(0, "apply", "t", "text")
        assert answered(0, "root", "t") == answered(0, "root", m, version)
        assert answered(0, "export", "t").splitlines()[1:] == [l.split("  #")[0] for l in answered(0, "export", m, version).splitlines()[1:]]
        os.remove("t")
        os.remove("t.book")
    # Into a store that holds others: they go, in as few records as it takes.
    write("text", answered(0, "export", m, 1))
    told = json.loads(answered(0, "import", m, "text", "--dry-run", "--json", "--most-removed", 1))
    assert told["dry_run"] and told["published"][0]["root"] == answered(0, "root", m, 1).strip()
    answered(0, "import", m, "text", "--message", "as it was", "--most-removed", 1)
    assert answered(0, "root", m) == answered(0, "root", m, 1)
    assert json.loads(answered(0, "log", m, "--json"))[-1]["message"] == "as it was"
    before = read(m)
    assert "no version was published" in answered(0, "import", m, "text")
    assert json.loads(answered(0, "import", m, "text", "--json"))["published"] == [] and read(m) == before
    untouched(m, 14, "'+' lines alone", "import", m, write("b", "- %s\nend 1\n" % D))
    untouched(m, 14, "Line 1", "import", m, write("b", "hello"))
    # More than a batch takes: several versions, and all or none.
    answered(0, "format", "large", LARGEST)
    answered(0, "apply", "large", write("many", many(2500)), "--split")
    write("text", answered(0, "export", "large"))
    answered(0, "format", "again", LARGEST)
    assert answered(0, "import", "again", "text").count("version") == 3
    assert answered(0, "root", "again") == answered(0, "root", "large")


@test
def a_dry_run_changes_nothing():
    s = desk()
    before, around_ = read(s), sorted(os.listdir("."))
    write("../b", "- %s\n" % A)
    os.chmod(s, 0o444)
    out = answered(0, "apply", s, "../b", "--dry-run")
    assert read(s) == before and sorted(os.listdir(".")) == around_
    told = json.loads(answered(0, "apply", s, "../b", "--dry-run", "--json"))
    os.chmod(s, 0o644)
    really = json.loads(answered(0, "apply", s, "../b", "--json"))
    assert told["published"] == really["published"] and told["free"] == json.loads(answered(0, "stat", s, "--json"))["free"]
    made = really["published"][0]
    counts = "0 added, 1 removed, 0 changed; 3 grants before, 2 after"
    assert out == "would be version 3, %d new records, root %s\n%s\n%d free slots would be left; nothing was changed\n" % (made["new_records"], made["root"], counts, told["free"])
    untouched(s, 17, "refused with 7", "apply", s, write("../c", many(200)), "--dry-run")


@test
def diff_between_two_versions():
    answered(0, "format", "d", 40)
    answered(0, "apply", "d", "-", "--no-book", input=FOUR)
    answered(0, "apply", "d", "-", "--no-book", input=WITHDRAW)
    lines = ["- %s %s" % (B, value(2)), "~ %s %s -> %s" % (C, value(3), value(5)), "version 1 to 2: 0 added, 1 removed, 1 changed"]
    assert answered(0, "diff", "d", 1).splitlines() == lines
    assert answered(0, "diff", "d", 1, 2, "--stat").splitlines() == lines[2:]
    back = ["+ %s %s" % (B, value(2)), "~ %s %s -> %s" % (C, value(5), value(3)), "version 2 to 1: 1 added, 0 removed, 1 changed"]
    assert answered(0, "diff", "d", 2, 1).splitlines() == back
    told = json.loads(answered(0, "diff", "d", 1, 2, "--json"))
    assert [(c["key"], c["old"], c["new"]) for c in told["changes"]] == [(B, value(2), None), (C, value(3), value(5))]
    assert answered(0, "diff", "d", 2, 2) == "version 2 to 2: 0 added, 0 removed, 0 changed\n"
    refused(23, "13", "diff", "d", 1, 2, "--limit", 6)
    refused(18, "8", "diff", "d", 1, 3)
    answered(0, "diff", "d", 1, 2, "--limit", 7, "--records", "list")
    assert [r[4:6] + r[8:9] + r[40:41] for r in (read("list")[i:i + 72] for i in range(0, 216, 72))] == [b"\2\0\x40\2", b"\2\0\x60\3", b"\1\0\x60\5"]
    # The batch makes the one version's grants of the other's.
    answered(0, "apply", "d", "-", "--no-book", input=answered(0, "diff", "d", 2, 1, "--batch"))
    assert answered(0, "root", "d", 3) == answered(0, "root", "d", 1)
    assert answered(0, "diff", "d", 1, 3).splitlines() == ["version 1 to 3: 0 added, 0 removed, 0 changed"]


@test
def history_of_a_key():
    m = market()
    answered(0, "apply", m, "/dev/null", "--date", "2026-05-11")
    answered(0, "apply", m, "-", "--date", "2026-05-12", "--message", "back", input='+ "lyrics sonata" "read"\n')
    told = json.loads(answered(0, "history", m, "lyrics sonata", "--json"))
    assert [(h["version"], h["value_name"], h["message"]) for h in told] == [(0, None, None), (1, "read", "Spring list"), (2, None, "Lyrics withdrawn"), (4, "read", "back")]
    out = answered(0, "history", m, "lyrics sonata").splitlines()
    assert len(out) == 4 and out[2].split() == ["2", "2026-05-10", "10:00", "absent", "tove:", "Lyrics", "withdrawn"]
    assert answered(1, "history", m, "ff" * 32) == "         0  -                 absent\n"
    # Against every read there is, over a history with prunes.
    rng = random.Random(3)
    keys = [rng.randbytes(32).hex() for _ in range(12)]
    answered(0, "format", "s", 800)
    for _ in range(25):
        some = rng.sample(keys, 4)
        text = "".join("- %s\n" % k if rng.random() < 0.4 else "+ %s %s\n" % (k, value(rng.randrange(3))) for k in some)
        answered(0, "apply", "s", "-", "--no-book", input=text)
    answered(0, "prune", "s", 6)
    for key in keys[:4]:
        reads = [grants("get", "s", key, v).out.strip() for v in range(6, 26)]
        expected = [(6 + i, r) for i, r in enumerate(reads) if i == 0 or r != reads[i - 1]]
        told = json.loads(grants("history", "s", key, "--json").out)
        assert [(h["version"], h["value"] or "absent") for h in told] == expected


@test
def numbers_with_gaps():
    answered(0, "format", "s", 40)
    dated = lambda day, message: ("--date", "2026-05-%02dT08:00:00Z" % day, "--author", "mira", "--message", message)
    told = json.loads(answered(0, "apply", "s", "-", "--number", 5, "--json", *dated(1, "spring"), input=FOUR))["published"]
    assert [(v["version"], v["new_records"]) for v in told] == [(5, 7)]
    assert answered(0, "apply", "s", "-", "--number=9", *dated(9, "less"), input=WITHDRAW).startswith("version 9, 3 new records, root ")
    # Numbers up to the latest, in any case that would be accepted else; and without a number the next one.
    for number_ in (0, 5, 7, 9):
        untouched("s", 28, "refused with 18: the number isn't above latest. s is at version 9: give a higher number", "apply", "s", "-", "--number", number_, input=FOUR)
    untouched("s", 2, "N is a number from 0 to 4294967295", "apply", "s", "-", "--number", 2**32, input=FOUR)
    assert answered(0, "apply", "s", "-", "--dry-run", input="").startswith("would be version 10, 1 new record, ")
    # A version between two publishings reads as the earlier one.
    roots = {v: answered(0, "root", "s", v).strip() for v in range(10)}
    assert {roots[v] for v in range(5)} == {ZERO} and {roots[v] for v in range(5, 9)} == {roots[5]} and roots[9] != roots[5]
    for v in range(5, 9):
        assert answered(0, "get", "s", B, v) == answered(0, "get", "s", B, 5)
        assert answered(0, "prove", "s", B, v) == answered(0, "prove", "s", B, 5)
        assert answered(0, "list", "s", v).splitlines()[1:] == answered(0, "list", "s", 5).splitlines()[1:]
        assert answered(0, "diff", "s", v, 9).splitlines()[:-1] == answered(0, "diff", "s", 5, 9).splitlines()[:-1]
        assert answered(0, "diff", "s", 5, v, "--limit", 1, "--no-book") == "version 5 to %d: 0 added, 0 removed, 0 changed\n" % v
        assert answered(0, "prove", "s", B, v, "--out", "proof", "--force") and answered(0, "verify", roots[5], B, "proof").startswith("present ")
    assert answered(0, "list", "s", 7).startswith("version 7 (2026-05-01 08:00, mira: spring): 4 grants, ")
    assert answered(0, "show", "s", 7).startswith("version 7 (published as 5): 4 grants, 7 records, root %s\n" % roots[5])
    assert answered(0, "show", "s", 5).startswith("version 5: 4 grants, ")
    # The log has a line for each publishing.
    log = lambda *more: json.loads(answered(0, "log", "s", "--json", *more))
    names = ("version", "last", "published", "grants", "added", "removed", "changed", "new", "root", "message")
    assert [[v[k] for k in names] for v in log()] == [
        [0, 4, None, 0, 0, 0, 0, 0, ZERO, None],
        [5, 8, 5, 4, 4, 0, 0, 7, roots[5], "spring"],
        [9, 9, 9, 3, 0, 1, 1, 3, roots[9], "less"],
    ]
    assert [line.split("  ")[0].strip() or line.strip().split("  ")[0] for line in answered(0, "log", "s").splitlines()[1:]] == ["0 to 4", "5 to 8", "9"]
    assert log("--last", 2) == log()[1:]
    assert [h["version"] for h in json.loads(answered(0, "history", "s", C, "--json"))] == [0, 5, 9]
    # By the book's dates.
    for day, version in (("2026-04-30", 0), ("2026-05-01", 5), ("2026-05-08", 5), ("2026-05-09", 9)):
        ran = grants("root", "s", "--at", day)
        assert (ran.status, ran.out, ran.err) == (0, roots[version] + "\n", "grants: by s.book, version %d was the latest on %s\n" % (version, day)), ran
    # A prune between two publishings keeps the earlier one; its root's record is older than the oldest version.
    assert answered(0, "prune", "s", 7) == "0 records freed, versions 7 to 9 kept\n"
    assert answered(0, "check", "s") == "s is sound, versions 7 to 9\n"
    assert [[v[k] for k in names] for v in log()] == [[7, 8, 5, 4, None, None, None, 7, roots[5], "spring"], [9, 9, 9, 3, 0, 1, 1, 3, roots[9], "less"]]
    ran = grants("root", "s", "--at", "2026-05-05")
    assert (ran.status, ran.out) == (0, roots[5] + "\n") and "version 5 was the latest" in ran.err, ran
    refused(4, "it was older than version 5, the oldest that s keeps", "root", "s", "--at", "2026-04-30")
    refused(18, "s keeps versions 7 to 9", "root", "s", 6)
    # Emptied, then a grant again, then the last number of all; nothing between is looked at.
    answered(0, "apply", "s", "-", "--number", 12, *dated(12, "none"), input="- %s\n- %s\n- %s\n" % (A, C, D))
    answered(0, "apply", "s", "-", "--number", 13, *dated(13, "still none"), input="")
    answered(0, "apply", "s", "-", "--number", 15, *dated(15, "D"), input="+ %s %s\n" % (D, "04" * 32))
    answered(0, "apply", "s", "-", "--number", 2**32 - 1, *dated(20, "last"), input="+ %s %s\n" % (A, "01" * 32))
    spans = [(7, 8), (9, 11), (12, 12), (13, 14), (15, 2**32 - 2), (2**32 - 1, 2**32 - 1)]
    assert [(v["version"], v["last"]) for v in log()] == spans
    assert [(v["grants"], v["message"]) for v in log()] == [(4, "spring"), (3, "less"), (0, "none"), (0, "still none"), (1, "D"), (2, "last")]
    # Without the book an empty publishing after an empty one is not seen.
    assert [(v["version"], v["last"]) for v in log("--book", "/dev/null")] == spans[:2] + [(12, 14)] + spans[4:]
    assert answered(0, "get", "s", D, 4 * 10**9) == "04" * 32 + "\n"
    assert grants("get", "s", A, 4 * 10**9).out == "absent\n"
    assert json.loads(answered(0, "stat", "s", "--json"))["publishings"] == 5
    assert "\nkept      7 to 4294967295, 4294967289 versions, 5 publishings\n" in answered(0, "stat", "s")
    # The same numbers and roots in a larger store.
    shutil.copy("s", "t")
    answered(0, "grow", "t", 300)
    answered(0, "check", "t")
    for first, last in spans:
        for v in (first, last):
            assert answered(0, "root", "t", v) == answered(0, "root", "s", v)
    untouched("s", 28, "no number is above that", "apply", "s", "-", input=FOUR)
    answered(0, "prune", "s", 13)
    assert [(v["version"], v["last"]) for v in log()] == spans[3:]
    # In parts: the last gets the number, those before it the numbers just below; all of them above the latest, or nothing is written.
    answered(0, "format", "large", LARGEST)
    write("many", many(2500))
    answered(0, "apply", "large", "-", "--number", 10, input=FOUR)
    for number_ in (0, 2, 10, 11, 12):
        untouched("large", 28, "3 versions take as many numbers", "apply", "large", "many", "--split", "--number", number_)
    assert [v["version"] for v in json.loads(answered(0, "apply", "large", "many", "--split", "--number", 13, "--json"))["published"]] == [11, 12, 13]
    write("other", many(2500, 2))
    told = json.loads(answered(0, "apply", "large", "other", "--split", "--number", 2**32 - 2, "--json", "--dry-run"))["published"]
    assert [v["version"] for v in told] == [2**32 - 4, 2**32 - 3, 2**32 - 2]
    assert [v["version"] for v in json.loads(answered(0, "apply", "large", "-", "--split", "--number", 20, "--json", input=FOUR))["published"]] == [20]
    # Import takes a number too.
    write("kept", "".join("+ %s %s\n" % (k, "09" * 32) for k in (A, B)) + "end 2\n")
    assert [v["version"] for v in json.loads(answered(0, "import", "large", "kept", "--number", 40, "--json", "--most-removed", 3000))["published"]] == [38, 39, 40]
    untouched("large", 28, "large is at version 40", "import", "large", write("one", "+ %s %s\nend 1\n" % (A, "08" * 32)), "--number", 40)


@test
def a_store_grows():
    rng = random.Random(4)
    keys = [rng.randbytes(32).hex() for _ in range(30)]
    answered(0, "format", "s", 400)
    for n in range(14):
        some = rng.sample(keys, 6)
        text = "".join("- %s\n" % k if rng.random() < 0.4 else "+ %s %s\n" % (k, rng.randbytes(32).hex()) for k in some)
        answered(0, "apply", "s", "-", "--message", str(n), input=text)
    for oldest in (0, 5, 14):
        answered(0, "prune", "s", oldest)
        shutil.copy("s", "t")
        shutil.copy("s.book", "t.book")
        told = json.loads(answered(0, "grow", "t", 1000 + oldest, "--json"))
        assert (told["capacity"], told["oldest"], told["latest"]) == (1000 + oldest, oldest, 14)
        answered(0, "check", "t")
        for version in range(oldest, 15):
            assert answered(0, "root", "t", version) == answered(0, "root", "s", version)
            for key in rng.sample(keys, 3):
                assert grants("get", "t", key, version).out == grants("get", "s", key, version).out
        old, new = [json.loads(answered(0, "log", name, "--json")) for name in "st"]
        names = ("version", "root", "grants", "added", "removed", "changed", "message")
        assert [[v[k] for k in names] for v in old] == [[v[k] for k in names] for v in new]
        if oldest:
            refused(18, "keeps versions %d to 14" % oldest, "root", "t", oldest - 1)
        # The same again, as small as it may be.
        used = json.loads(answered(0, "stat", "t", "--json"))["used"]
        answered(0, "grow", "t", used) if oldest == 0 else None
        untouched("t", 17, "too few for versions %d to 14" % oldest, "grow", "t", used - 1)
    untouched("s", 11, "a store has 1 to 16,384", "grow", "s", LARGEST + 1)
    bad = bytearray(read("s"))
    bad[HEADER + 60] ^= 1
    untouched(write("bad", bytes(bad)), 13, "bad is damaged", "grow", "bad", 900)
    # All versions there can be, none of them with a record: no loop over them.
    write("wide", store_bytes(50, 2**32 - 1))
    assert answered(0, "grow", "wide", 60) == "wide: 60 slots, 60 free; versions 0 to 4294967295 with their roots as they were\n"
    assert read("wide") == store_bytes(60, 2**32 - 1)
    # More grants in the oldest kept version than one batch makes.
    answered(0, "format", "large", LARGEST)
    answered(0, "apply", "large", write("many", many(1500)), "--split")
    answered(0, "prune", "large", 2)
    root = answered(0, "root", "large")
    answered(0, "grow", "large", 9000)
    assert answered(0, "root", "large", 2) == root
