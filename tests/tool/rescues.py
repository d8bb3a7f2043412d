"""Rescue from a damaged store."""

import json
import os
import random

from common import *


def changed(name, to, *changes):
    """A copy of a store with the slots given other bytes."""
    s = bytearray(read(name))
    for where, content in changes:
        s[where] = content
    return write(to, bytes(s))


def five(name="five.grants"):
    """The desk's five versions: slots 0 to 6 are of version 1, 7 to 9 of 2, 10 of 3, 11 and 12 of 4, 13 of 5."""
    desk(name)
    for batch in ("", "- %s\n" % A, "- %s\n" % D):
        answered(0, "apply", name, "-", input=batch)
    return name


@test
def rescue_gives_back_a_sound_store():
    whole = five()
    root = answered(0, "root", whole, 5).strip()
    out = answered(0, "rescue", whole, "same.grants", "--latest", 5, "--oldest", 1, "--root", root)
    assert "same.grants: versions 1 to 5 came back, 5 publishings" in out and "14 as they were, 0 with another" in out, out
    assert "no earlier: 1 is the oldest asked for" in out and "It is the root that was given." in out, out
    # oldest was 0 there, and version 0 has no root record.
    assert read("same.grants")[HEADER:] == read(whole)[HEADER:]
    # The header lost, a leaf of version 1 that 2 retired lost, a retired-since changed: versions 2 to 5.
    lost = next(i for i in range(7) if fields(i, read(whole))[2] == 2)
    third = root_slot(whole, 3)
    damaged = changed(whole, "damaged.grants", (slice(0, HEADER), b"\xff" * HEADER), (slot(lost), bytes(SLOT)), (slice(size(third) + 44, size(third) + 48), number(5, 4)))
    before = read(damaged)
    out = answered(0, "rescue", damaged, "out.grants", "--latest", 5)
    assert "out.grants: versions 2 to 5 came back, 4 publishings" in out, out
    assert "no earlier: version 1 can't be rescued: in the tree of 1, the record of version 1 at place" in out and "is lost" in out, out
    assert "Compare it with the root that was signed" in out and root in out, out
    assert "1 with another retired-since" in out and "only in versions before the run: slot " in out, out
    answered(0, "check", "out.grants")
    assert read(damaged) == before
    for version in (2, 3, 4, 5):
        assert answered(0, "root", "out.grants", version) == answered(0, "root", whole, version)
        lists = [answered(0, "list", name, version, "--csv") for name in ("out.grants", whole)]
        assert lists[0] == lists[1]
    told = json.loads(answered(0, "rescue", damaged, "other.grants", "--latest", 5, "--json"))
    assert (told["first"], told["latest"], told["root"], told["root_compared"]) == (2, 5, root, False), told
    assert told["same"] + told["other"] == 14 - 1 - told["out"] and len(told["left_out"]) == told["out"], told
    assert [p["first"] for p in told["publishings"]] == [2, 3, 4, 5] and told["publishings"][3]["root"] == root, told
    # What goes on from there is as before.
    answered(0, "apply", "out.grants", "-", input="+ %s %s\n" % (A, value(9)))
    assert read("other.grants") != read("out.grants")


@test
def rescue_says_why_slots_were_left_out():
    whole = five()
    fifth, second, s = root_slot(whole, 5), root_slot(whole, 2), read(whole)
    newer = bytearray(s[slot(fifth)])
    newer[40:44] = number(9, 4)
    stranger = bytearray(s[slot(fifth)])
    stranger[6:8] = number(3, 2)
    damaged = changed(whole, "damaged.grants", (slot(second), bytes(SLOT)), (slot(15), b"\x07" * SLOT), (slot(16), s[slot(fifth)]), (slot(17), bytes(newer)), (slot(18), bytes(stranger)))
    out = answered(0, "rescue", damaged, "out.grants", "--latest", 5)
    for line in ("versions 3 to 5 came back, 3 publishings", "the newest root record not above version 2, that of 1, is retired since 2", "off form: slot 15", "a second copy: slot 16", "newer than latest: slot 17", "of no tree: slot 18"):
        assert line in out, (line, out)
    assert "only in versions before the run: slot " in out, out
    told = json.loads(answered(0, "rescue", damaged, "two.grants", "--latest", 5, "--json"))
    assert {"slot": 15, "why": "off form"} in told["left_out"] and told["newest_root_record"] == 5, told
    # Between two publishings, and after the last: the newest root record covers them.
    out = answered(0, "rescue", whole, "later.grants", "--latest", 8)
    assert "Warning: the newest root record is of version 5. Versions 6 to 8 read as that one" in out, out
    refused(28, "is at version 8", "apply", "later.grants", "-", "--number", 8, input="")
    out = answered(0, "rescue", whole, "third.grants", "--latest", 4, "--oldest", 3)
    assert "versions 3 to 4 came back" in out and "no earlier: 3 is the oldest asked for" in out and "Warning" not in out, out


@test
def rescue_refuses():
    whole = five()
    root = answered(0, "root", whole, 5).strip()
    refused(4, "this is not what was signed, and nothing was written", "rescue", whole, "out.grants", "--latest", 4, "--root", root)
    refused(12, "--oldest 6 is above --latest 5", "rescue", whole, "out.grants", "--latest", 5, "--oldest", 6)
    refused(13, "version 0 can't be rescued: no root record", "rescue", whole, "out.grants", "--latest", 0)
    damaged = changed(whole, "damaged.grants", (slot(root_slot(whole, 5)), bytes(SLOT)))
    refused(13, "that of 4, is retired since 5", "rescue", damaged, "out.grants", "--latest", 5)
    refused(11, "has %d bytes" % (size(20) - 1), "rescue", write("short", read(whole)[:-1]), "out.grants", "--latest", 5)
    refused(2, "OUT is missing", "rescue", whole, "--latest", 5)
    refused(2, "must be a file", "rescue", whole, "-", "--latest", 5)
    refused(22, "64 hex digits", "rescue", whole, "out.grants", "--latest", 5, "--root", "00")
    assert not os.path.exists("out.grants")
    # Never over what it reads, by whatever name, nor over what is there.
    os.symlink(whole, "link.grants")
    os.link(whole, "second-name.grants")
    before = read(whole)
    for name in (whole, "link.grants", "second-name.grants"):
        refused(2, "is read by this command", "rescue", whole, name, "--latest", 5, "--force")
    write("there.grants", "here first")
    refused(3, "is there already and was left alone", "rescue", whole, "there.grants", "--latest", 5)
    assert read("there.grants") == b"here first" and read(whole) == before
    answered(0, "rescue", whole, "there.grants", "--latest", 5, "--force", "--root", root)
    answered(0, "check", "there.grants")
    # The newer root lost and the retired-since of the older one damaged upwards: withdrawn grants come back, and the signed root shows it.
    since = size(root_slot(whole, 4)) + 44
    trap = changed(damaged, "trap.grants", (slice(since, since + 4), number(0, 4)))
    out = answered(0, "rescue", trap, "trapped.grants", "--latest", 5)
    assert "Warning: the newest root record is of version 4" in out and "Compare it with the root that was signed" in out, out
    answered(0, "get", "trapped.grants", D, 5)
    refused(4, "not what was signed", "rescue", trap, "guarded.grants", "--latest", 5, "--root", root)
    assert not os.path.exists("guarded.grants")


@test
def rescue_lists_root_records():
    whole = five()
    out = answered(0, "rescue", whole)
    assert out.startswith("5 root records\n") and out.count("can be rescued") == 5, out
    for version in range(1, 6):
        assert "\n%d  %s  can be rescued" % (version, answered(0, "root", whole, version).strip()) in out, out
    assert "grants rescue %s OUT --latest 5 --root HEX" % whole in out, out
    refused(2, "--latest is missing", "rescue", whole, "out.grants")
    assert not os.path.exists("out.grants")
    # What the list says of each is what the library does.
    rng = random.Random(8)
    s = read(whole)
    yes = no = 0
    for n in range(40):
        d = bytearray(s)
        for _ in range(rng.randint(1, 3)):
            i, how = rng.randrange(14), rng.randrange(4)
            at = size(i)
            if how == 0:
                d[at : at + SLOT] = bytes(SLOT)
            elif how == 1:
                d[at + rng.randrange(SLOT)] ^= 1 << rng.randrange(8)
            elif how == 2:
                d[at + rng.choice((40, 44, 48, 84))] = rng.randrange(7)
            else:
                j = size(rng.randrange(20))
                d[j : j + SLOT] = d[at : at + SLOT]
        write("d.grants", bytes(d))
        for row in json.loads(answered(0, "rescue", "d.grants", "--json"))["roots"]:
            v = row["version"]
            ran = grants("rescue", "d.grants", "o.grants", "--latest", v, "--oldest", v, "--json", "--force")
            assert (ran.status == 0) == row["can_be_rescued"] == (row["why_not"] is None), (row, ran)
            assert ran.status in (0, 13), ran
            if ran.status == 0:
                yes += 1
                told = json.loads(ran.out)
                assert told["root"] == row["root"] and len(told["left_out"]) == told["out"], (row, told)
            else:
                no += 1
    assert yes > 40 and no > 40, (yes, no)
