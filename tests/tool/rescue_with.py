"""Rescue from two copies of one store: what is lost here and whole there."""

import json
import os
import random
import shutil

from common import *
from rescues import changed, five
from shelf import fresh, history, parts, publish_all, shelf


def told(*words, status=0):
    return json.loads(answered(status, *words, "--json"))


def used(name):
    s = read(name)
    return [i for i in range((len(s) - HEADER) // SLOT) if any(s[slot(i)])]


@test
def two_copies_make_one():
    whole = five()
    root = answered(0, "root", whole, 5).strip()
    everything = {v: answered(0, "list", whole, v, "--csv") for v in range(1, 6)}
    slots = used(whole)
    # Damaged in different slots, in every way that a slot can be; each alone has lost the latest version.
    rng = random.Random(3)
    for n in range(40):
        ours = rng.sample(slots, rng.randint(1, 6))
        theirs = [i for i in rng.sample(slots, rng.randint(0, 6)) if i not in ours]
        copies = []
        for name, lost in (("here.grants", ours), ("there.grants", theirs)):
            s = bytearray(read(whole))
            for i in lost:
                how = rng.randrange(4)
                at = size(i)
                if how == 0:
                    s[at : at + SLOT] = bytes(SLOT)
                elif how == 1:
                    s[at : at + SLOT] = b"\xff" * SLOT
                elif how == 2:
                    # In form and false: a byte of a hash, or of a value.
                    s[at + 90] ^= 0x10
                else:
                    # In form, and a count is wrong, which no hash shows; of a leaf the byte is off form.
                    s[at + 120] ^= 0x04
            copies.append(write(name, bytes(s)))
        was = [read(name) for name in copies]
        came = told("rescue", "here.grants", "out.grants", "--with", "there.grants", "--latest", 5, "--root", root, "--force")
        assert (came["first"], came["root"]) == (1, root), (ours, theirs, came)
        answered(0, "check", "out.grants")
        for version, listed in everything.items():
            assert answered(0, "list", "out.grants", version, "--csv") == listed
        # What was taken is where the other copy was whole.
        assert came["with"]["filled_up"] in ("damaged", "other")
        lost = ours if came["with"]["filled_up"] == "damaged" else theirs
        assert {t["slot"] for t in came["with"]["taken"]} <= set(lost) | set(range(slots[-1] + 1, 20)), (came, lost)
        alone = grants("rescue", "here.grants", "alone.grants", "--latest", 5, "--oldest", 0, "--json", "--force")
        if alone.status == 0:
            assert came["first"] <= json.loads(alone.out)["first"]
        # Neither copy was written.
        assert [read(name) for name in copies] == was
    text = answered(0, "rescue", changed(whole, "a.grants", (slot(slots[0]), bytes(SLOT))), "o2.grants", "--with", changed(whole, "b.grants", (slot(slots[1]), bytes(SLOT))), "--latest", 5)
    assert "from b.grants: 1 record, its slot %d; the rest is from a.grants, whose slots these are" % slots[0] in text, text
    assert "versions 1 to 5 came back" in text and "Compare it with the root" in text


@test
def what_another_copy_cannot_give():
    whole = five()
    root = answered(0, "root", whole, 5).strip()
    slots = used(whole)
    lost = changed(whole, "lost.grants", (slot(slots[0]), bytes(SLOT)))
    # Nothing is taken where it makes the run no longer; the same slot lost in both.
    out = answered(0, "rescue", whole, "o.grants", "--with", lost, "--latest", 5)
    assert "nothing was taken from lost.grants" in out and read("o.grants")[HEADER:] == read(whole)[HEADER:]
    again = changed(lost, "again.grants", (slot(slots[0]), bytes(SLOT)))
    both = told("rescue", lost, "o2.grants", "--with", again, "--latest", 5)
    alone = told("rescue", lost, "o3.grants", "--latest", 5)
    assert both["first"] == alone["first"] > 1 and both["with"]["taken"] == []
    last = root_slot(whole, 5)
    gone = [changed(whole, name, (slot(last), bytes(SLOT))) for name in ("g1.grants", "g2.grants")]
    refused(13, "version 5 can't be rescued", "rescue", gone[0], "o4.grants", "--with", gone[1], "--latest", 5)
    # The whole of it is from the other copy where nothing is left here.
    out = answered(0, "rescue", write("zeros.grants", bytes(size(20))), "o5.grants", "--with", whole, "--latest", 5, "--root", root)
    assert "all of it is from" in out or "from five.grants: 14 records" in out, out
    answered(0, "check", "o5.grants")
    # Copies of other sizes.
    answered(0, "rescue", whole, "small.grants", "--latest", 5)
    answered(0, "grow", "small.grants", 40)
    came = told("rescue", lost, "o6.grants", "--with", "small.grants", "--latest", 5, "--root", root)
    assert came["first"] == 1
    answered(0, "check", "o6.grants")
    # Never over what is read; never of another form; not of itself.
    before = read(lost), read(whole)
    refused(2, "is read by this command", "rescue", lost, whole, "--with", whole, "--latest", 5, "--force")
    refused(2, "is DAMAGED itself", "rescue", lost, "o7.grants", "--with", "./lost.grants", "--latest", 5)
    refused(11, "a rescue needs the whole file", "rescue", lost, "o7.grants", "--with", write("short", b"x" * 100), "--latest", 5)
    answered(0, "move", whole, "old.grants", "--to", "old")
    refused(11, "of the old form", "rescue", lost, "o7.grants", "--with", "old.grants", "--latest", 5)
    refused(3, "no such file", "rescue", lost, "o7.grants", "--with", "nothing", "--latest", 5)
    assert (read(lost), read(whole)) == before and not os.path.exists("o7.grants")


@test
def an_older_copy_and_a_hostile_one():
    desk("older.grants")
    shutil.copy("older.grants", "five.grants")
    for batch in ("", "- %s\n" % A, "- %s\n" % D):
        answered(0, "apply", "five.grants", "-", input=batch)
    roots = {v: answered(0, "root", "five.grants", v).strip() for v in range(1, 6)}
    slots = used("five.grants")
    s = read("five.grants")
    # The older copy, of versions 1 and 2, has what was lost of them; versions since keep their roots, and withdrawn grants stay withdrawn.
    for i in [i for i in slots if fields(i, s)[1] <= 2]:
        here = changed("five.grants", "here.grants", (slot(i), bytes(SLOT)))
        came = told("rescue", here, "o.grants", "--with", "older.grants", "--latest", 5, "--force")
        assert (came["first"], came["root"]) == (1, roots[5]), (i, came)
        for version, root in roots.items():
            assert answered(0, "root", "o.grants", version).strip() == root
    # The other way round: the older one is what is rescued, and the newer one adds the later versions.
    came = told("rescue", "older.grants", "o.grants", "--with", "five.grants", "--latest", 5, "--root", roots[5], "--force")
    assert came["first"] == 1 and came["root"] == roots[5], came
    # A newer root that is lost in both: the older copy doesn't make withdrawn grants seem in force where the signed root is given.
    third, fourth, fifth = (root_slot("five.grants", v) for v in (3, 4, 5))
    here = changed("five.grants", "here.grants", (slot(fifth), bytes(SLOT)), (slot(fourth), bytes(SLOT)))
    ran = grants("rescue", here, "o2.grants", "--with", "older.grants", "--latest", 5, "--root", roots[5])
    assert ran.status in (4, 13) and not os.path.exists("o2.grants"), ran
    # A hostile copy: another history under the same numbers, all of it sound.
    answered(0, "format", "hostile.grants", 20)
    for n in range(5):
        answered(0, "apply", "hostile.grants", "-", input="+ %s %s\n" % (A, value(66 + n)))
    lost = changed("five.grants", "lost.grants", (slot(slots[0]), bytes(SLOT)))
    alone = told("rescue", lost, "o3.grants", "--latest", 5)
    came = told("rescue", lost, "o4.grants", "--with", "hostile.grants", "--latest", 5)
    assert came["root"] == roots[5] == alone["root"], came
    for version in range(alone["first"], 6):
        assert answered(0, "root", "o4.grants", version).strip() == roots[version]
    # What it adds before is said to be its word alone, version by version.
    forged = [v for v in range(came["first"], alone["first"]) if answered(0, "root", "o4.grants", v).strip() != roots[v]]
    assert set(forged) <= set(came["with"]["by_other"]), (forged, came)
    # Where the latest root itself is lost here, only the signed one guards; and it does.
    here = changed("five.grants", "here.grants", (slot(fifth), bytes(SLOT)))
    ran = grants("rescue", here, "o5.grants", "--with", "hostile.grants", "--latest", 5, "--root", roots[5])
    assert ran.status in (4, 13) and not os.path.exists("o5.grants"), ran
    text = answered(0, "rescue", here, "o6.grants", "--with", "hostile.grants", "--latest", 5)
    assert "by a root record that hostile.grants alone has" in text, text
    # The list says where the two have other roots.
    text = answered(0, "rescue", lost, "--with", "hostile.grants")
    assert text.count(" has another root for it") == 5, text
    rows = told("rescue", lost, "--with", "older.grants")["roots"]
    assert all(row["other_root"] is None and row["can_be_rescued"] for row in rows), rows
    # Any bytes at all: what comes back is sound and has the roots that were here.
    rng = random.Random(9)
    for n in range(25):
        d = bytearray(s)
        for _ in range(30):
            i, j = size(rng.randrange(20)), size(rng.randrange(20))
            if rng.random() < 0.5:
                d[i : i + SLOT] = d[j : j + SLOT]
            d[i + rng.choice((6, 40, 44, 48, 50, 84, 90, 120, 124))] ^= 1 << rng.randrange(8)
        write("noise.grants", bytes(d))
        came = told("rescue", lost, "o7.grants", "--with", "noise.grants", "--latest", 5, "--force")
        assert came["first"] <= alone["first"] and came["root"] == roots[5], came
        answered(0, "check", "o7.grants")
        for version in range(alone["first"], 6):
            assert answered(0, "root", "o7.grants", version).strip() == roots[version]


@test
def two_copies_of_a_shelf():
    publish_all(shelf(), history(21))
    listed = told("list", "m")["grants"]
    root = answered(0, "root", "m").strip()
    full = [f for f in parts("m") if not f.endswith("-0")]
    for here, there in (([full[0]], [full[1]]), (["list", full[0]], [full[2]]), ([full[1]], ["list"]), (full[:2], full[2:])):
        for name, lost in (("w", here), ("v", there)):
            shutil.rmtree(name, ignore_errors=True)
            shutil.copytree("m", name)
            for f in lost:
                os.remove("%s/%s" % (name, f))
        shutil.rmtree("r", ignore_errors=True)
        came = told("rescue", "w", "r", "--with", "v", "--latest", 13, "--root", root)
        assert came["root"] == root and not came["list_rebuilt"], came
        answered(0, "check", "r")
        assert told("list", "r")["grants"] == listed
    # One part with a slot lost in each; and the lists too.
    for name, n in (("w", 0), ("v", 1)):
        shutil.rmtree(name, ignore_errors=True)
        shutil.copytree("m", name)
        for f in (full[0], "list"):
            s = read("m/" + f)
            lost = [i for i in range(128) if any(s[slot(i)]) and fields(i, s)[2] == 0][n]
            write("%s/%s" % (name, f), s[: size(lost)] + bytes(SLOT) + s[size(lost + 1) :])
    shutil.rmtree("r", ignore_errors=True)
    assert grants("rescue", "w", "r", "--latest", 13).status == 13
    assert told("rescue", "w", "r", "--with", "v", "--latest", 13, "--root", root)["root"] == root
    answered(0, "check", "r")
    assert told("list", "r")["grants"] == listed
    # Both lists are lost: the parts of both.
    for name, f in (("w", full[0]), ("v", full[1])):
        shutil.rmtree(name, ignore_errors=True)
        shutil.copytree("m", name)
        os.remove(name + "/list"), os.remove("%s/%s" % (name, f))
    shutil.rmtree("r", ignore_errors=True)
    came = told("rescue", "w", "r", "--with", "v", "--latest", 13, "--root", root)
    assert came["list_rebuilt"] and told("list", "r")["grants"] == listed
    refused(2, "is no shelf", "rescue", "w", "r2", "--with", "m/list", "--latest", 13)
