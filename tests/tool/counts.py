"""How many grants a version has, the grant at a position, pages of a list, and stores of the form without counts."""

import json

from common import *
from book import market, digest


@test
def how_many_and_which():
    s = desk()
    for version, keys in ((0, []), (1, [A, B, C, D]), (2, [A, C, D])):
        assert answered(0, "count", s, version) == "%d\n" % len(keys)
        assert json.loads(answered(0, "count", s, version, "--json")) == {"version": version, "count": len(keys)}
        for position, key in enumerate(keys):
            held = answered(0, "get", s, key, version).strip()
            assert answered(0, "at", s, position, version) == "%s %s\n" % (key, held)
            told = json.loads(answered(0, "at", s, position, version, "--json"))
            assert told == {"version": version, "position": position, "key": key, "value": held, "key_name": None, "value_name": None}
        has = "has %d grants: their positions are 0 to %d." % (len(keys), len(keys) - 1) if keys else "holds no grant."
        for position in (len(keys), 2**32, 2**64 - 1):
            refused(30, "refused with 20: the position isn't below the number of grants. Version %d of %s %s" % (version, s, has), "at", s, position, version)
    assert answered(0, "count", s) == "3\n" and answered(0, "at", s, 2).startswith(D)
    told = json.loads(answered(30, "at", s, 9, "--json"))
    assert (told["refused"], told["status"]) == (20, 30) and "positions are 0 to 2" in told["message"], told
    for wrong in ("-1", "x", "", "1.0", "+1", "0x1", 2**64, "1e3", "½"):
        refused(2, "POSITION is a number from 0 to 18446744073709551615", "at", s, "--", wrong)
    refused(2, "there is no option -1", "at", s, -1)
    refused(2, "POSITION is missing", "at", s)
    refused(2, "one word too many", "at", s, 0, 1, 2)
    refused(2, "VERSION is a number", "count", s, "x")
    refused(18, "keeps versions 0 to 2", "count", s, 3)
    refused(18, "keeps versions 0 to 2", "at", s, 0, 3)
    assert answered(0, "count", "-", input=read(s)) == b"3\n"
    # Names are the book's; --at takes its dates.
    m = market()
    told = json.loads(answered(0, "at", m, 1, 2, "--json"))
    assert (told["key"], told["key_name"], told["value_name"]) == (digest("chords sonata"), "chords sonata", "write"), told
    assert answered(0, "at", m, 1, 2) == '%s %s  "chords sonata" = "write"\n' % (digest("chords sonata"), digest("write"))
    assert answered(0, "count", m, "--at", "2026-05-05") == "4\n"
    refused(2, "both say which version", "count", m, 1, "--at", "2026-05-05")


@test
def a_page_of_a_long_list():
    answered(0, "format", "s", 4000)
    answered(0, "apply", "s", "-", input=many(300))
    whole = json.loads(answered(0, "list", "s", "--json"))
    assert whole["count"] == 300 and [g["position"] for g in whole["grants"]] == list(range(300))
    pages = []
    for first in range(0, 300, 70):
        page = json.loads(answered(0, "list", "s", "--from", first, "--most", 70, "--json"))
        assert page["count"] == 300 and page["root"] == whole["root"]
        pages += page["grants"]
    assert pages == whole["grants"]
    lines = answered(0, "list", "s", "--from", 98, "--most", 3).splitlines()
    assert lines[0].startswith("version 1 (") and "): positions 98 to 100 of 300 grants, root %s" % whole["root"] in lines[0], lines
    assert [line.split()[0] for line in lines[1:]] == ["98", "99", "100"] and lines[1].startswith("   98  %s.." % whole["grants"][98]["key"][:8]), lines
    assert "): position 299 of 300 grants, root " in answered(0, "list", "s", "--from", 299)
    assert answered(0, "list", "s", "--most=2", "--csv").splitlines()[1:] == ["%s,%s,," % (g["key"], g["value"]) for g in whole["grants"][:2]]
    for past in (300, 2**64 - 1):
        assert "): no position from %d on, 300 grants, root " % past in answered(1, "list", "s", "--from", past, "--most", 5)
        assert json.loads(answered(1, "list", "s", "--from", past, "--json"))["grants"] == []
    assert answered(1, "list", "s", 0, "--from", 0) == "version 0: no position from 0 on, 0 grants, root %s\n" % ZERO
    for words, sentence in (
        (("--most", 0), "--most wants 1 or more"),
        (("--from", "x"), "--from is a number from 0"),
        (("--from", -1), "--from is a number from 0"),
        (("--most", 2**64), "--most is a number from 0"),
        (("--from", 1, "--match", "a"), "choose one"),
        (("--from",), "--from wants N after it"),
    ):
        refused(2, sentence, "list", "s", *words)
    refused(18, "keeps versions 0 to 1", "list", "s", 2, "--from", 0)
    # A page is read where the rest of the store is lost: position 0 can't be, the others can.
    s = desk("t")
    bad = bytearray(read(s))
    bad[slot(2)] = bytes(SLOT)
    write("bad", bytes(bad))
    refused(13, "bad is damaged", "list", "bad")
    assert answered(0, "list", "bad", "--from", 1, "--full").splitlines()[1:] == ["  1  %s = %s" % (C, value(5)), "  2  %s = %s" % (D, value(4))]
    refused(27, "wants the record of version 1 at place 00, which is lost", "list", "bad", "--most", 1)


@test
def wrong_counts():
    # Version 1's root is in slot 6, with 3 and 1 below it; 1 is in slot 5.
    good = read(desk())

    def counted(slot_, left, right):
        bad = bytearray(good)
        bad[size(slot_) + 120 : size(slot_) + 128] = number(left, 4) + number(right, 4)
        write("bad", bytes(bad))
        refused(13, "No record is missing, but", "check", "bad")
        assert "slot %d: it counts %d grant" % (slot_, left) in answered(13, "check", "bad")
        untouched("bad", 13, "bad is damaged", "apply", "bad", "/dev/null")

    most = 2**32 - 1
    counted(6, most, most)
    assert answered(0, "count", "bad", 1) == "%d\n" % (2 * most)
    left_over = "On the way to position 8589934589 of version 1 of bad, the counts lead to the leaf at place 1 with 4294967294 positions left over: take another copy"
    untouched("bad", 13, left_over, "at", "bad", 2 * most - 1, 1)
    refused(30, "positions are 0 to 8589934589.", "at", "bad", 2 * most, 1)
    assert answered(0, "at", "bad", 0, 1).startswith(A)
    # No more is read than there is, and nothing waits for thousands of millions of positions.
    refused(13, "with 1 position left over", "list", "bad", 1, "--from", 0)
    counted(6, 0, 0)
    assert answered(0, "count", "bad", 1) == "0\n"
    refused(30, "holds no grant", "at", "bad", 0, 1)
    why = "in the tree of 1, the record at the empty place counts 0 below its left child, where there are 3"
    assert "can't be rescued: " + why in answered(0, "rescue", "bad")
    untouched("bad", 13, why, "rescue", "bad", "out", "--latest", 1)
    # A child that isn't there: two keys that begin with 00.
    answered(0, "format", "t", 20)
    answered(0, "apply", "t", "-", input="+ %s %s\n+ %s %s\n" % (A, value(1), "20" + A[2:], value(2)))
    good = read("t")
    counted(root_slot("t", 1), 1, 1)
    refused(13, "the counts lead to place 1, where the record above has no child", "at", "bad", 1)
    assert answered(0, "at", "bad", 0).startswith(A) and answered(0, "count", "bad") == "2\n"
    assert "counts 1 below its left child, where there are 2" in answered(0, "rescue", "bad")
    # The root itself, and a leaf in the wrong place.
    good = read("desk.grants")
    bad = bytearray(good)
    bad[size(9) + 4] = 9
    write("bad", bytes(bad))
    for words in (("count", "bad"), ("at", "bad", 99), ("list", "bad", "--from", 0)):
        refused(13, "Version 2 of bad wants the root of version 2, which is spoilt, in slot 9", *words)
    assert json.loads(answered(0, "stat", "bad", "--json"))["grants"] is None and "grants    -\n" in answered(0, "stat", "bad")
    bad = bytearray(good)
    bad[size(5) + 48] = 0
    write("bad", bytes(bad))
    refused(13, "the key of the leaf at place 1 doesn't begin with its place", "at", "bad", 2)


@test
def a_store_of_the_old_form():
    """One of 20 slots, and one of 16, whose size a store of 15 slots has today."""

    def old(capacity):
        head = number(HEADER, 4) + number(1, 2) + bytes(2) + number(capacity, 4) + bytes(12)
        return head + bytes(OLD_SLOT * capacity)

    for capacity, status in ((20, 11), (16, 12), (1, 11), (LARGEST, 12)):
        write("old", old(capacity))
        sentence = "old is a store of the old form (slots of 120 bytes); `grants move` brings it over."
        write("batch", FOUR)
        for words in (
            ("check", "old"),
            ("apply", "old", "batch"),
            ("import", "old", "batch", "--no-end"),
            ("prune", "old", 0),
            ("grow", "old", 30),
            ("rescue", "old"),
            ("rescue", "old", "out", "--latest", 1),
            ("root", "old"),
            ("get", "old", A),
            ("count", "old"),
            ("at", "old", 0),
            ("prove", "old", A),
            ("prove", "old", A, B, "--version", 0),
            ("list", "old"),
            ("list", "old", "--from", 0),
            ("diff", "old", 0),
            ("history", "old", A),
            ("log", "old"),
            ("export", "old"),
            ("show", "old"),
            ("report", "old"),
        ):
            untouched("old", status, sentence, *words)
    told = json.loads(answered(12, "check", "old", "--json"))
    assert told["refused"] == 2 and told["message"].endswith(sentence), told
    # Cut short, or with another kind, it is no such store.
    write("old", old(20)[:-1])
    refused(11, "is it the right file, and whole?", "check", "old")
    write("old", store_bytes(15))
    answered(0, "check", "old")
    assert store_bytes(15)[HEADER:] == old(16)[HEADER:]
