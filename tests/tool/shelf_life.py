"""What is done with a shelf as with a store: shown, moved over and back, made afresh, its proofs in the pocket and held against it; and rescued where its list is lost."""

import json
import os
import random
import re
import shutil
import subprocess

from common import *
from shelf import SMALL, calls, fresh, history, key, parts, publish_all, shelf, state, told


def files(name):
    return {f: read(os.path.join(name, f)) for f in sorted(os.listdir(name))}


def leaves(tree):
    return [(r["key"], r["value"]) for r in tree["records"] if "key" in r]


@test
def a_shelf_is_shown():
    batches = history(11)
    publish_all(shelf(), batches)
    for version, now in ((3, batches[0][1]), (4, batches[0][1]), (13, batches[-1][1])):
        (tree,) = told("show", "m", version)
        assert (tree["root"], tree["grants"]) == (answered(0, "root", "m", version).strip(), len(now))
        # The list's leaves are the parts' roots, and the parts' leaves are the grants.
        assert [(k, v) for k, v in leaves(tree)] == [(bytes([p["part"] << 5]).hex() + "00" * 31, p["root"]) for p in tree["parts"]]
        held = [leaf for part in tree["parts"] for leaf in leaves(part)]
        assert sorted(held) == sorted(now.items()), held
        text = answered(0, "show", "m", version, "--full")
        lines = text.splitlines()
        assert lines[0].startswith("version %d" % version) and ("%d parts" % len(tree["parts"])) in lines[0], lines[0]
        assert len(lines) == 1 + len(tree["records"]) + sum(len(p["records"]) for p in tree["parts"])
        assert all("leaf %s = %s" % kv in text for kv in now.items())
        assert all("part %03x, root %s" % (p["part"], p["root"]) in text for p in tree["parts"])
    # Each record once, whatever versions it stands in; an arrow to each record but for the list's root, which each version has one to.
    graph = answered(0, "show", "m", 3, 9, 13, "--dot")
    boxes = [line.split()[0] for line in graph.splitlines() if "shape=" in line and "plaintext" not in line]
    assert len(boxes) == len(set(boxes)) and graph.count("shape=folder") >= len(tree["parts"])
    arrows = {line.split()[2].rstrip(";") for line in graph.splitlines() if " -> " in line and "invis" not in line and not line.strip().startswith("v")}
    roots = {line.split()[2] for line in graph.splitlines() if line.strip().startswith("v") and "style=bold" in line}
    assert arrows | roots == set(boxes) and len(roots) == 3, (arrows ^ set(boxes), roots)
    assert "version 0: 0 grants" in answered(0, "show", "m", 0)
    # A part that isn't the one that the list names is not drawn.
    fresh("m")
    part = next(name for name in parts("w") if not name.endswith("-0"))
    os.remove("w/" + part)
    refused(13, "part %s is lost" % part[5:8], "show", "w")
    refused(18, "keeps versions 0 to 13", "show", "m", 14)


@test
def a_shelf_is_moved_over_and_back():
    batches = history(12)
    publish_all(shelf("m/"), batches)
    before = files("m")
    root = answered(0, "root", "m").strip()
    would = told("move", "m", "--to", "old", "--dry-run")
    assert not would["written"] and files("m") == before and not os.path.exists("m.old"), would
    refused(11, "of the new form already", "move", "m", "--to", "new")
    moved = told("move", "m/", "--to", "old")
    assert moved == dict(would, written=True) and moved["kept"] == "m.old" and moved["parts"] == len(parts("m.old")), moved
    assert files("m.old") == before and answered(0, "root", "m.old").strip() == root
    # No part is of the form of today, and none has its name; the book and the bits stay.
    now = files("m")
    assert parts("m") == [] and {"old" + f[4:] for f in parts("m.old")} == {f for f in now if f.startswith("old-")}
    assert (now["shelf"], now["list.book"]) == (before["shelf"], before["list.book"])
    assert moved["bytes"] == sum(len(b) for f, b in now.items() if f == "list" or f.startswith("old-"))
    for words in (("get", key(3)), ("check",), ("list",), ("apply", "/dev/null"), ("prune", 9), ("grow", 200), ("show",), ("log",), ("prove", key(3))):
        refused(12, "m is a shelf of the old form", words[0], "m", *words[1:])
    assert files("m") == now
    stat, was = told("stat", "m"), told("stat", "m.old")
    assert stat == dict(was, form="old shelf", bytes=moved["bytes"]), (stat, was)
    refused(12, "of the old form already", "move", "m", "--to", "old")
    refused(3, "is there already, where m would be kept", "move", "m", "--to", "new")
    # Into another folder, with its book; and back in its place: the very bytes.
    told("move", "m", "n/", "--to", "new")
    assert files("n") == before and files("m") == now
    refused(3, "is there already and was left alone", "move", "m", "n", "--to", "new")
    over = told("move", "m", "--to", "new", "--no-keep")
    assert over["kept"] is None and files("m") == before and state("m") == root
    told("move", "n", "o", "--to", "old")
    assert files("o") == now
    # A part of the old form that is damaged is not moved.
    name = next(f for f in now if f.startswith("old-") and not f.endswith("-0"))
    spoilt = bytearray(now[name])
    used = next(i for i in range(128) if any(spoilt[HEADER + i * OLD_SLOT : HEADER + (i + 1) * OLD_SLOT]))
    spoilt[HEADER + used * OLD_SLOT + 90] ^= 1
    write("o/" + name, bytes(spoilt))
    refused(13, "part %s" % name[4:7], "move", "o", "--to", "new")
    refused(13, "part %s" % name[4:7], "move", "o", "p", "--to", "new")
    os.remove("o/" + name)
    refused(13, "is lost", "move", "o", "--to", "new")
    assert not os.path.exists("p") and [f for f in os.listdir(".") if f.startswith(".")] == []


def form(name):
    return told("stat", name)["form"]


@test
def a_move_of_a_shelf_is_stopped():
    publish_all(shelf(), history(13)[:3])
    root = state("m")
    move = ("move", "w", "--to", "old", "--no-keep")
    back = ("move", "w", "--to", "new", "--no-keep")
    fresh("m")
    number = calls(move)
    assert number > 15
    rng = random.Random(5)
    seen = set()
    for at in sorted(rng.sample(range(1, number + 1), 10)):
        for kind in ("kill", "half", "fail"):
            fresh("m")
            ran = grants(*move, env={"LD_PRELOAD": FAULT, "FAULT": kind, "FAULT_AT": str(at)})
            # It is of one form or of the other, whole.
            left = form("w")
            seen.add(left)
            if left == "shelf":
                assert state("w") == root, ran
                answered(0, *move)
            assert told(*back)["publishings"] == 4 and state("w") == root, ran
            assert [f for f in os.listdir("w") if f.startswith((".", "old-"))] == [], os.listdir("w")
    assert seen == {"shelf", "old shelf"}, seen
    # Kept beside, all or nothing too.
    keeps = ("move", "w", "--to", "old")
    fresh("m")
    number = calls(keeps)
    for at in sorted(rng.sample(range(1, number + 1), 8)):
        shutil.rmtree("w.old", ignore_errors=True)
        fresh("m")
        grants(*keeps, env={"LD_PRELOAD": FAULT, "FAULT": "kill", "FAULT_AT": str(at)})
        if os.path.exists("w.old"):
            assert state("w.old") == root
        assert form("w") == "shelf" or os.path.exists("w.old")


@test
def a_shelf_is_made_afresh():
    batches = history(14)
    publish_all(shelf(), batches)
    refused(3, "is there already and was left alone: a shelf is made in a folder that isn't there yet; --force makes one that is there afresh", "format", "m", *SMALL)
    refused(31, "13 bits", "format", "m", "--bits", 13, "--force")
    refused(11, "1 to 16,384", "format", "m", "--bits", 3, "--slots", 0, "--force")
    refused(11, "1 to 16,384", "format", "m", "--bits", 3, "--list-slots", 16385, "--force")
    root = state("m")
    # A folder that is no shelf is left alone.
    os.mkdir("photos")
    write("photos/list", b"mine")
    refused(3, "no shelf: it has no file 'shelf'", "format", "photos", *SMALL, "--force")
    os.remove("photos/list")
    write("photos/one", b"mine")
    refused(3, "is there already and was left alone", "format", "photos", *SMALL, "--force")
    afresh = ("format", "w", "--bits", 5, "--slots", 64, "--list-slots", 256, "--force")
    fresh("m")
    assert told(*afresh) == {"bits": 5, "parts": 32, "slots": 64, "list_slots": 256}
    assert sorted(os.listdir("w")) == ["list", "list.book", "shelf"] and b"fresh" not in read("w/shelf")
    assert b"\nfresh " in read("w/list.book")
    stat = told("stat", "w")
    assert (stat["bits"], stat["slots"], stat["latest"], stat["grants"], stat["list_free"]) == (5, 64, 0, 0, 256), stat
    publish_all("w", batches)
    assert [v["book"] for v in told("log", "w")] == [None] + ["agrees"] * 6
    # Stopped at any point, it is the shelf that it was or the empty one, with its bits; and the next writer ends what was begun.
    fresh("m")
    number = calls(afresh)
    with open("../calls.log") as f:
        settings = [at for at, line in enumerate(f, 1) if line.startswith("rename ") and line.endswith("/.shelf.grants-new\n")]
    assert len(settings) == 2, settings
    rng = random.Random(6)
    seen = set()
    for at in sorted({*rng.sample(range(1, number + 1), min(11, number)), settings[0]}):
        for kind in ("kill", "fail"):
            fresh("m")
            ran = grants(*afresh, env={"LD_PRELOAD": FAULT, "FAULT": kind, "FAULT_AT": str(at)})
            answered(0, "check", "w")
            stat = told("stat", "w")
            whole = (stat["bits"], stat["slots"], stat["latest"])
            assert whole in ((3, 128, 13), (5, 64, 0)), ran
            seen.add(whole)
            answered(0, "apply", "w", "-", "--number", 90, input="+ %s %s\n" % (key(3), value(9)))
            stat = told("stat", "w")
            assert (stat["bits"], stat["slots"]) == whole[:2] and b"fresh" not in read("w/shelf"), (ran, stat)
            assert [f for f in os.listdir("w") if f.startswith(".")] == [], os.listdir("w")
            answered(0, "check", "w")
    assert len(seen) == 2
    assert state("m") == root
    # One whose list is lost, and one of the same bits that is empty.
    fresh("m")
    os.remove("w/list")
    told(*afresh)
    answered(0, "check", "w")
    told("format", "w", "--bits", 2, "--slots", 64, "--list-slots", 64, "--force")
    assert told("stat", "w")["bits"] == 2
    answered(0, "apply", "w", "-", input="+ %s %s\n" % (key(3), value(9)))
    answered(0, "check", "w")


@test
def a_shelf_s_proofs_in_the_pocket_and_held_against_it():
    publish_all(shelf(), history(15))
    near, nearer = "ff" * 4 + "00" * 28, "ff" * 4 + "40" + "00" * 27
    far = "00" * 5 + "80" + "00" * 26
    answered(0, "apply", "m", "-", input="".join("+ %s %s\n" % (k, value(7)) for k in (near, nearer, far, "00" * 32)))
    root = answered(0, "root", "m").strip()
    version = told("stat", "m")["latest"]
    answered(0, "root", "m", "--out", "root.txt", "--not-after", "2100-01-01")
    # Within 32 steps for each leaf it is the same proof; else neither side takes it.
    for k in (near, nearer, key(3), key(60)):
        ran = grants("prove", "m", k, "--pocket")
        if ran.status == 0:
            assert ran.out == answered(0, "prove", "m", k)
            write("p", ran.out)
            whole = grants("verify", root, k, "p", "--bits", 3)
            short = grants("verify", "root.txt", k, "p", "--pocket")
            assert (whole.status, whole.out) == (short.status, short.out) and whole.status in (0, 1), (whole, short)
    assert grants("prove", "m", key(3), "--pocket").status == 0
    refused(29, "more than 32 steps", "prove", "m", far, "--pocket")
    write("p", answered(0, "prove", "m", far))
    assert answered(0, "verify", root, far, "p", "--bits", 3).startswith("present")
    refused(29, "more than 32 steps", "verify", root, far, "p", "--bits", 3, "--pocket")
    refused(29, "more than 32 steps", "verify", ZERO, far, "p", "--bits", 3, "--pocket")
    refused(31, "at most 12 bits", "verify", root, far, "p", "--bits", 13, "--pocket")
    refused(20, "is no proof", "verify", root, far, "p", "--pocket")
    # Held against the shelf, a proof tells the truth: of a key that is there, that isn't, of a part that isn't in the list.
    publish_all(shelf("few"), [("+ %s %s\n" % (A, value(1)), {})])
    for name, k, status in (("m", near, 0), ("m", key(60), 1), ("few", A, 0), ("few", "ff" * 32, 1), ("few", "01" * 32, 1)):
        own, latest = answered(0, "root", name).strip(), told("stat", name)["latest"]
        write("p", answered(0, "prove", name, k))
        words = ("verify", own, k, "p", "--bits", 3, "--against", name, "--version", latest)
        assert "tells the truth about version %d" % latest in answered(status, *words)
        found = told(*words, status=status)
        assert found["truth"] and found["message"] is None and found["present"] == (status == 0), found
    answered(1, *words, "--out", "finding")
    assert b"# the proof says: absent" in read("finding")
    refused(2, "is not the root of version 0", "verify", own, k, "p", "--bits", 3, "--against", name, "--version", 0)
    refused(2, "goes with --version", "verify", own, k, "p", "--bits", 3, "--against", name)
    answered(0, "format", "s", 60)
    refused(2, "the proof is of a shelf of 3 bits, and s is a store", "verify", own, k, "p", "--bits", 3, "--against", "s", "--version", 0)
    shelf("m4", "--bits", 4, "--slots", 64, "--list-slots", 64)
    refused(2, "and m4 is a shelf of 4 bits", "verify", own, k, "p", "--bits", 3, "--against", "m4", "--version", 0)
    # A part that isn't the one that the list names says nothing.
    fresh("m")
    own, latest = answered(0, "root", "w").strip(), version
    write("p", answered(0, "prove", "w", near))
    part = next(f for f in parts("w") if f.startswith("part-007"))
    os.remove("w/" + part)
    refused(13, "part 007 is lost", "verify", own, near, "p", "--bits", 3, "--against", "w", "--version", latest)


def early_slots(name):
    """The slots of a part in w whose records only versions before its last publishing have."""
    bytes_ = read("w/" + name)
    latest = int(name.split("-")[2])
    return [i for i in range(128) if not name.endswith("-0") and 0 < fields(i, bytes_)[2] <= latest]


@test
def what_a_damaged_shelf_misses():
    publish_all(shelf(), history(17))
    listed = told("list", "m")["grants"]
    for name in [f for f in parts("m") if not f.endswith("-0")][:2] + ["list"]:
        what = "the list of w" if name == "list" else "part %s of w" % name[5:8]
        bytes_ = read("m/" + name)
        latest = told("stat", "m")["latest"]
        for i in [i for i in range(128) if any(bytes_[slot(i)]) and fields(i, bytes_)[2] == 0][:6]:
            for spoilt in (bytes(SLOT), b"\xff" * 4 + bytes_[slot(i)][4:]):
                fresh("m")
                write("w/" + name, bytes_[: size(i)] + spoilt + bytes_[size(i + 1) :])
                refused(13, "%s is damaged" % what, "check", "w")
                # Every record that a kept version wants is listed, as of a store.
                lines = grants("check", "w").out.splitlines()
                assert lines and all("lost" in line or "slot %d" % i in line for line in lines), lines
                assert json.loads(grants("check", "w", "--json").out)["missing"], name
                # A read that meets it says which record it is, and the other parts answer.
                ran = [grants("prove", "w", g["key"]) for g in listed]
                assert all(r.status in (0, 13, 27) for r in ran)
                met = [r for r in ran if r.status in (13, 27)]
                assert all(what in r.err for r in met) and any("wants the " in r.err for r in met), (what, met)
                assert name == "list" or len(met) < len(ran)


@test
def a_list_is_made_of_the_parts():
    batches = history(16)
    publish_all(shelf(), batches)
    listed = told("list", "m")["grants"]
    roots = {2 * n + 3: answered(0, "root", "m", 2 * n + 3).strip() for n in range(6)}
    log = told("log", "m")
    fresh("m")
    os.remove("w/list")
    refused(3, "it has no file 'list'", "check", "w")
    # The roots that the list had, in each publishing that changed a part.
    found = told("rescue", "w")
    assert found["parts"] == len(parts("m")) and found["first"] == 0
    assert {r["version"]: r["root"] for r in found["roots"]} == roots and all(r["can_be_rescued"] for r in found["roots"])
    text = answered(0, "rescue", "w")
    assert all(root in text for root in roots.values()) and "leaves no trace" in text and "--latest 13" in text
    refused(2, "--latest is missing", "rescue", "w", "r")
    # The whole of it comes back, each version with its root.
    came = told("rescue", "w", "r", "--latest", 13, "--root", roots[13])
    assert came["list_rebuilt"] and came["root_compared"] and (came["first"], came["root"]) == (0, roots[13]), came
    answered(0, "check", "r")
    assert told("list", "r")["grants"] == listed
    for version, root in roots.items():
        assert answered(0, "root", "r", version).strip() == root
    shutil.copy("m/list.book", "r/list.book")
    assert [(v["version"], v["root"], v["book"]) for v in told("log", "r")] == [(v["version"], v["root"], v["book"]) for v in log]
    answered(0, "apply", "r", "-", input="+ %s %s\n" % (key(3), value(98)))
    # An older version; one without the root, which is then to be compared.
    assert "leaves no trace" in answered(0, "rescue", "w", "r5", "--latest", 8)
    assert answered(0, "root", "r5", 8).strip() == roots[7] and told("stat", "r5")["latest"] == 8
    refused(4, "not what was signed", "rescue", "w", "r6", "--latest", 13, "--root", roots[11])
    refused(12, "is above --latest", "rescue", "w", "r6", "--latest", 3, "--oldest", 9)
    # A list that is there and spoilt: by its parts where that is said.
    fresh("m")
    write("w/list", bytes(len(read("w/list"))))
    refused(13, "--parts-alone makes another list", "rescue", "w", "r6", "--latest", 13)
    assert told("rescue", "w", "r7", "--latest", 13, "--parts-alone", "--oldest", 5)["first"] == 5
    assert answered(0, "root", "r7", 9).strip() == roots[9]
    # A part that is lost is seen by the root alone.
    fresh("m")
    os.remove("w/list")
    name, early = next((f, old) for f, old in ((f, early_slots(f)) for f in parts("w")) if old)
    whole = read("w/" + name)
    os.remove("w/" + name)
    refused(4, "not what was signed", "rescue", "w", "r6", "--latest", 13, "--root", roots[13])
    # One that is damaged comes back from then on that it is whole, and where it never is, nothing does.
    write("w/" + name, whole[: size(early[0])] + bytes(SLOT) + whole[size(early[0]) + SLOT :])
    came = told("rescue", "w", "r8", "--latest", 13, "--root", roots[13])
    assert 0 < came["first"] <= 13, came
    answered(0, "check", "r8")
    assert told("list", "r8")["grants"] == listed
    write("w/" + name, bytes(len(whole)))
    refused(13, "part %s is lost" % name[5:8], "rescue", "w", "r9", "--latest", 13)
    assert "can't be rescued: part %s" % name[5:8] in answered(0, "rescue", "w")
    # What a writer left beside: a newer file has the versions before too.
    fresh("m")
    answered(0, "apply", "w", "-", "--number", 20, input="+ %s %s\n" % (listed[0]["key"], value(77)))
    newer = (set(parts("w")) - set(parts("m"))).pop()
    left = read("w/" + newer)
    fresh("m")
    os.remove("w/list")
    write("w/" + newer, left)
    assert answered(0, "root", "m").strip() == told("rescue", "w", "ra", "--latest", 13)["root"]
    # Two that are as new and say other things: no list says which one counts, unless a root does.
    fresh("m")
    answered(0, "apply", "w", "-", "--number", 20, input="- %s\n" % listed[0]["key"])
    other = (set(parts("w")) - set(parts("m"))).pop()
    assert other != newer and other[:8] == newer[:8]
    os.remove("w/list")
    write("w/" + newer, left)
    refused(13, "two files of part %s" % newer[5:8], "rescue", "w", "rb", "--latest", 20)
    # The bits are lost too.
    fresh("m")
    os.remove("w/list"), os.remove("w/shelf")
    refused(3, "", "rescue", "w", "rc", "--latest", 13)
    assert told("rescue", "w", "rc", "--latest", 13, "--bits", 3)["root"] == roots[13]
    ran = grants("rescue", "w", "rd", "--latest", 13, "--bits", 2)
    assert ran.status == 13 and not os.path.exists("rd"), ran
    write("w/shelf", "bits x\n")
    refused(3, "where you say its bits", "rescue", "w", "rd", "--latest", 13)
    refused(2, "is for a shelf", "rescue", "m/list", "--parts-alone")
    # Pruned and with an empty part: from the first version that all parts have.
    fresh("m")
    answered(0, "prune", "w", 8)
    answered(0, "check", "w")
    os.remove("w/list")
    came = told("rescue", "w", "re", "--latest", 13, "--root", roots[13])
    assert came["first"] == 8 and answered(0, "root", "re", 8).strip() == roots[7], came
    assert [f for f in os.listdir(".") if f.startswith(".")] == []


@test
def a_terminal_is_told_how_many_parts_are_done():
    publish_all(shelf(), history(19))
    number = calls(("check", "m"))
    ours, theirs = os.openpty()
    # It is held up near its end until the bar was seen.
    held = dict(os.environ, LD_PRELOAD=FAULT, FAULT="run", FAULT_AT=str(number - 4), FAULT_RUN="until [ -e seen ]; do sleep .05; done")
    run = subprocess.Popen([TOOL, "check", "m"], stdout=subprocess.PIPE, stderr=theirs, text=True, env=held)
    os.close(theirs)
    said = b""
    while not re.search(rb"check: \[#+ *\] \d of %d parts, \d+ s" % len(parts("m")), said):
        said += os.read(ours, 1000)
    write("seen", "")
    out, _ = run.communicate(timeout=60)
    said += os.read(ours, 1000)
    assert run.returncode == 0 and out == "m is sound, versions 0 to 13\n" and said.endswith(b"\r\x1b[K"), (out, said)


@test
def a_shelf_is_moved_while_it_is_read():
    publish_all(shelf(), history(18))
    root = state("m")
    seen = set()
    for to in ("old", "new") * 3:
        moving = subprocess.Popen([TOOL, "move", "m", "--to", to, "--no-keep"], stdout=subprocess.DEVNULL, stderr=subprocess.DEVNULL)
        while moving.poll() is None:
            ran = grants("check", "m")
            # Whole, or of the old form, or told that it was written meanwhile: never called damaged.
            assert ran.status == 0 or "of the old form" in ran.err or "written while it was read" in ran.err, ran
            seen.add(ran.status)
        assert moving.wait() == 0
    assert state("m") == root and seen, seen
