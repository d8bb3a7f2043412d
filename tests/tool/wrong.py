"""What it says when something is wrong, and that nothing is lost then."""

import json
import os
import random
import re
import shutil
import stat
import subprocess

from common import *


@test
def the_command_line_is_wrong():
    s = desk()
    refused(2, "`grants --help` lists them")
    refused(2, "there is no command \"frobnicate\"", "frobnicate")
    refused(2, "STORE is missing. Usage: grants get STORE KEY [VERSION]", "get")
    refused(2, "KEY is missing", "get", s)
    refused(2, "one word too many", "get", s, A, 1, 2)
    refused(2, "there is no option --frob", "get", s, A, "--frob")
    refused(2, "--json takes no value", "get", s, A, "--json=1")
    refused(2, "--out wants FILE", "prove", s, A, "--out")
    refused(2, "'g' is no hex digit", "get", s, "g" * 64)
    refused(2, "VERSION is a number from 0", "get", s, A, "x")
    refused(2, "VERSION is a number from 0", "get", s, A, 2**32)
    refused(2, "CAPACITY is a number", "format", "t", "many")
    refused(2, "--last wants 1 or more", "log", s, "--last", 0)
    refused(2, "there is no option -1", "prune", s, "-1")
    for words in (("frobnicate", "--json"), ("get", "--json"), ("check", "none", "--json"), ("get", s, "g", "--json")):
        ran = grants(*words)
        told = json.loads(ran.out)
        assert told["refused"] is None and told["status"] == ran.status and "grants: %s\n" % told["message"] == ran.err, ran
    assert not os.path.exists("t")


@test
def a_key_or_root_of_another_length():
    s = desk()
    for key in (A[:-1], A + "0", A[:-2], "", A + "00"):
        refused(22, "Write it as 64 hex digits", "get", s, key)
        refused(22, "Write it as 64 hex digits", "prove", s, key)
        refused(22, "Write it as 64 hex digits", "verify", ZERO, key, "/dev/null")
        refused(22, "Write it as 64 hex digits", "verify", key, A, "/dev/null")
    refused(22, "The key has 63 hex digits", "get", s, A[:-1])
    # 12 comes first in the rules' order, whatever the store is.
    refused(22, "refused with 12", "get", write("bad", b"x"), A[:-2])


@test
def bad_files():
    good = read(desk())
    for name, content, status, sentence in (
        ("empty", b"", 11, "empty has 0 bytes"),
        ("short", good[:-1], 11, "short has 2583 bytes"),
        ("long", good + b"\0", 11, "is it the right file, and whole?"),
        ("huge", bytes(size(LARGEST + 1)), 11, "more than 2097176 bytes"),
        ("noise", bytes((i * 7 + 3) % 256 for i in range(size(20))), 12, "no grant store"),
        ("zeros", bytes(size(20)), 12, "refused with 2"),
        ("text", b"hello\n", 11, "text has 6 bytes"),
    ):
        write(name, content)
        for words in (
            ("check", name),
            ("root", name),
            ("get", name, A),
            ("count", name),
            ("at", name, 0),
            ("list", name, "--from", 0),
            ("prove", name, A),
            ("log", name),
            ("show", name),
            ("stat", name),
            ("apply", name, "/dev/null"),
            ("prune", name, 0),
        ):
            untouched(name, status, sentence, *words)
    told = grants("check", "short", "--json")
    assert told.status == 11 and json.loads(told.out)["refused"] == 1, told


@test
def damaged_stores():
    good = bytearray(read(desk()))
    for at in (HEADER + 8, HEADER + 44, HEADER + 90, size(6) + 60, size(9) + 48, size(9) + 120, size(9) + 127, size(15)):
        bad = bytearray(good)
        bad[at] ^= 1
        write("bad", bytes(bad))
        for words in (("check", "bad"), ("log", "bad"), ("show", "bad"), ("apply", "bad", "/dev/null"), ("prune", "bad", 1)):
            untouched("bad", 13, "bad is damaged: take another copy", *words)
        answered(0, "stat", "bad")


@test
def which_record_is_missing():
    # Version 1: 010 in slot 0, 011 in 1, 00 in 2, 01 in 3, 0 in 4, 1 in 5, the root in 6. Version 2: leaf 01 in 7, 0 in 8, the root in 9.
    good = read(desk())

    def harmed(*harms):
        bad = bytearray(good)
        for slot, at, byte in harms:
            start = size(slot)
            if at is None:
                bad[start : start + SLOT] = bytes(SLOT)
            else:
                bad[start + at] = byte
        write("bad", bytes(bad))

    def check(*lines):
        told = answered(13, "check", "bad")
        assert told == "".join(line + "\n" for line in lines), told
        listed = json.loads(answered(13, "check", "bad", "--json"))
        assert listed["refused"] == 3 and len(listed["missing"]) == len(lines), listed
        return listed["missing"]

    spoilt = "the record of version 1 at place 010 is spoilt, in slot 0; version 1 wants it"
    harmed((0, 4, 9))
    assert check(spoilt) == [{"place": "010", "version": 1, "slot": 0, "wanted_in": 1}]
    wanted = "refused with 3: the record in slot 0 is spoilt. Version 1 of bad wants the record of version 1 at place 010, which is spoilt, in slot 0: take another copy"
    untouched("bad", 13, wanted, "get", "bad", B, 1)
    untouched("bad", 13, wanted, "prove", "bad", B, 1)
    # The neighbour of a key that isn't there is met by the proof alone.
    between = "20" + "00" * 31
    assert answered(1, "get", "bad", between, 1) == "absent\n"
    untouched("bad", 13, wanted, "prove", "bad", between, 1)
    told = json.loads(answered(13, "get", "bad", B, 1, "--json"))
    assert (told["refused"], told["status"], told["missing"]) == (3, 13, [{"place": "010", "version": 1, "slot": 0, "wanted_in": 1}]), told
    assert answered(0, "get", "bad", A) == value(1) + "\n"

    harmed((3, None, 0))
    check("the record of version 1 at place 01 is lost, in no slot; version 1 wants it")
    untouched("bad", 27, "refused with 17: a record is lost", "get", "bad", C, 1)
    untouched("bad", 27, "Version 1 of bad wants the record of version 1 at place 01, which is lost, in no slot: take another copy", "prove", "bad", C, 1)
    told = json.loads(answered(27, "prove", "bad", C, 1, "--json"))
    assert (told["refused"], told["missing"]) == (17, [{"place": "01", "version": 1, "slot": None, "wanted_in": 1}]), told

    # 00 and 1 stand in both versions: the newest that wants them is said. All that is missing is listed, once, the newest version's first.
    harmed((2, 0, 1), (5, None, 0), (7, 40, 9), (0, None, 0))
    check(
        "the record of version 1 at place 00 is spoilt, in slot 2; version 2 wants it",
        "the record of version 2 at place 01 is lost, in no slot; version 2 wants it",
        "the record of version 1 at place 1 is lost, in no slot; version 2 wants it",
        "the record of version 1 at place 010 is lost, in no slot; version 1 wants it",
    )
    # The roots: spoilt, every read of the version is refused; lost, it reads as empty, and the check says what that is.
    harmed((9, 5, 1))
    missing = check("the root of version 2 is spoilt, in slot 9")
    assert missing == [{"place": "", "version": None, "slot": 9, "wanted_in": 2}], missing
    for words in (("root", "bad"), ("get", "bad", A), ("prove", "bad", A)):
        untouched("bad", 13, "Version 2 of bad wants the root of version 2, which is spoilt, in slot 9: take another copy", *words)
    assert "sound" not in answered(0, "stat", "bad")
    harmed((9, None, 0))
    check("the root of version 2 is lost, in no slot")
    assert answered(1, "get", "bad", A) == "absent\n"
    refused(24, "refused with 14", "prove", "bad", A)
    # Nothing is missing, and the store isn't sound all the same.
    harmed((5, 80, 9))
    whys = ["its hash is not the one in slot %d, the record above it" % above for above in (6, 9)]
    assert answered(13, "check", "bad").splitlines() == ["slot 5: " + why for why in whys]
    refused(13, "No record is missing, but 2 things are wrong, listed on standard output, the first in slot 5", "check", "bad")
    told = json.loads(answered(13, "check", "bad", "--json"))
    assert (told["missing"], told["wrong"]) == ([], [{"slot": 5, "why": why} for why in whys]), told
    # Versions are not counted through: thousands of millions lie between these.
    answered(0, "apply", "desk.grants", "-", "--number", 2**32 - 1, input="- %s\n" % A)
    bad = bytearray(read("desk.grants"))
    bad[size(9) + 4] = 9
    write("bad", bytes(bad))
    assert answered(13, "check", "bad") == "the root of version 4294967294 is spoilt, in slot 9\n"
    untouched("bad", 13, "Version 4000000000 of bad wants the root of version 4000000000, which is spoilt, in slot 9", "root", "bad", 4000000000)


@test
def check_says_where():
    good = read(desk())
    # Kind, bit count, bits, version, retired since, key or left child, value or right child, counts: where they begin and how long they are.
    parts = [(4, 1), (6, 1), (8, 1), (40, 4), (44, 4), (48, 36), (84, 28), (120, 8)]
    rng = random.Random(3)
    seen = set()
    for i in [*range(10), 12]:
        for at, length in parts:
            bad = bytearray(good)
            bad[size(i) + at + rng.randrange(length)] = rng.choice([0, 1, 2, 3, 7, 128, 255])
            write("bad", bytes(bad))
            told = json.loads(grants("check", "bad", "--json").out)
            if "sound" in told:
                continue
            # Whatever part of whatever slot is damaged, that slot is named, or the record that was in it.
            assert told["status"] == 13 and bool(told["missing"]) != bool(told["wrong"]), told
            slots = [one["slot"] for one in told["missing"]]
            assert None in slots or i in slots or any(re.search(r"slot %d\b" % i, "slot %d: %s" % (w["slot"], w["why"])) for w in told["wrong"]), (i, at, told)
            seen |= {re.sub(r"\d+", "N", w["why"]) for w in told["wrong"]}

    def harmed(*changes):
        bad = bytearray(good)
        for at, content in changes:
            bad[at : at + len(content)] = content
        write("bad", bytes(bad))
        return answered(13, "check", "bad")

    # Each rule, and the slot that breaks it. Slot 5 is the leaf 1 of both versions, 6 and 9 are their roots.
    assert harmed((size(12), good[slot(5)])) == "slot 12: its version and place are those of slot 5\n"
    assert harmed((size(12) + 9, b"\1")) == "slot 12: its bytes are no record\n"
    refused(13, "No record is missing, but one is wrong: slot 12: its bytes are no record. Nothing was changed.", "check", "bad")
    assert "slot 9: it is a root of version 2, and so is that in slot 6\n" in harmed((size(6) + 44, number(0, 4)))
    assert "slot 6: it is retired since 9, and the latest version is 2" in harmed((size(6) + 44, number(9, 4)))
    assert "slot 5: it is of version 1, and retired since 1\n" in harmed((size(5) + 44, number(1, 4)))
    assert "slot 6: it counts 2 grants below its left side, where there are 3" in harmed((size(6) + 120, number(2, 4)))
    stray = bytearray(good[slot(5)])
    stray[6:8], stray[8] = number(3, 2), 0x80
    assert "slot 12: by its lifetime it is in versions 1 to 2, and it is in no tree" in harmed((size(12), bytes(stray)))
    assert len(seen) >= 6, seen


@test
def other_things_than_files():
    os.mkdir("folder")
    for words in (("check", "folder"), ("get", "folder", A), ("show", "folder"), ("stat", "folder")):
        refused(3, "cannot read folder: it is a directory", *words)
    for words in (("apply", "folder", "/dev/null"), ("prune", "folder", 1), ("format", "folder", 5, "--force")):
        refused(3, "it is a directory", *words)
    refused(3, "is there already", "format", "folder", 5)
    assert os.listdir(".") == ["folder"] and os.listdir("folder") == []
    for words in (("check", "none"), ("apply", "none", "/dev/null"), ("prune", "none", 1)):
        refused(3, "there is no such file", *words)
    refused(3, "cannot write", "format", "none/s", 5)
    write("plain", "x")
    refused(3, "cannot", "check", "plain/s")
    refused(11, "more than 2097176 bytes", "check", "/dev/zero")
    assert sorted(os.listdir(".")) == ["folder", "plain"]


@test
def format_loses_nothing():
    s = desk()
    untouched(s, 3, "is there already and was left alone", "format", s, 20)
    untouched(s, 11, "0 slots were asked for", "format", s, 0, "--force")
    refused(11, "a store has 1 to 16,384", "format", "t", LARGEST + 1)
    refused(11, "4294967295 slots", "format", "t", 2**32 - 1)
    assert not os.path.exists("t")
    answered(0, "format", s, 1, "--force")
    assert read(s) == store_bytes(1)
    assert json.loads(answered(0, "format", "t", LARGEST, "--json")) == {"capacity": LARGEST, "bytes": size(LARGEST)}
    untouched(s, 17, "grants grow", "apply", s, write("b", FOUR))


@test
def a_read_only_file():
    s = desk()
    os.chmod(s, 0o444)
    for words in (("apply", s, "/dev/null"), ("prune", s, 1), ("format", s, 5, "--force")):
        untouched(s, 3, "it is read-only (chmod u+w allows it); it is as it was", *words)
    answered(0, "check", s)


@test
def a_folder_that_may_not_be_written():
    if os.getuid() != 0:
        return
    s = desk()
    os.chmod(".", 0o755)
    shutil.copy(TOOL, "tool")

    def other():
        os.setuid(65534)

    try:
        subprocess.run(["true"], preexec_fn=other, check=True)
    except subprocess.SubprocessError:
        print("  no other user can be had here: what a user may not write is not tested")
        return
    before = read(s)
    for words in (["apply", s, "/dev/null"], ["format", "t", "5"]):
        done = subprocess.run(["./tool"] + words, capture_output=True, text=True, preexec_fn=other)
        assert done.returncode == 3 and "permission denied" in done.stderr, done
    os.chmod(s, 0o600)
    done = subprocess.run(["./tool", "check", s], capture_output=True, text=True, preexec_fn=other)
    assert done.returncode == 3 and "cannot read" in done.stderr, done
    assert read(s) == before and sorted(os.listdir(".")) == [s, s + ".book", "tool"]


@test
def links_and_modes_are_kept():
    s = desk()
    os.chmod(s, 0o640)
    os.mkdir("elsewhere")
    os.symlink("../" + s, "elsewhere/link")
    answered(0, "apply", "elsewhere/link", "-", input="")
    assert os.path.islink("elsewhere/link") and answered(0, "root", s, 3) == answered(0, "root", s, 2)
    assert stat.S_IMODE(os.stat(s).st_mode) == 0o640
    assert os.listdir("elsewhere") == ["link"]
    os.symlink("nowhere", "dangling")
    refused(3, "is there already", "format", "dangling", 5)
    refused(3, "cannot write dangling", "format", "dangling", 5, "--force")
    assert not os.path.exists("nowhere")


@test
def the_answer_can_not_be_written():
    s = desk()
    with open("/dev/full", "w") as full:
        refused(3, "cannot write the answer to standard output", "root", s, stdout=full)
        refused(3, "the store is changed all the same", "apply", s, "-", stdout=full)
        deaf = subprocess.run([TOOL, "check", "none"], stderr=full)
        assert deaf.returncode == 3, deaf
    assert json.loads(answered(0, "stat", s, "--json"))["latest"] == 3
    piped = subprocess.run("'%s' log %s | head -n 1" % (TOOL, s), shell=True, capture_output=True, text=True)
    assert piped.returncode == 0 and piped.stderr == "", piped


@test
def help_is_there():
    out = answered(0, "--help")
    names = [line.split()[0] for line in out.splitlines() if line.startswith("  ")]
    assert set("format check apply prune root get count at prove verify log show stat list history export import grow name".split()) <= set(names), names
    assert answered(0, "help") == answered(0, "-h") == out
    for name in names:
        told = answered(0, name, "--help")
        assert "usage: grants %s " % name in told and "--json" in told and "exit status" in told
        assert told == answered(0, "help", name) == answered(0, name, "-h")
    assert answered(0, "--version").startswith("grants ")


@test
def every_refusal_has_its_row():
    """The table of docs/TOOL.md has each number of the header but those that it says don't occur."""
    numbers = {int(n) for n in re.findall(r"^ \*  +(\d+)  ", read(os.path.join(TOP, "include/grants.h")).decode(), re.M)}
    page = read(os.path.join(TOP, "docs/TOOL.md")).decode()
    rows = [(int(n), int(status)) for n, status in re.findall(r"^\| (\d+) \| (\d+) \| ", page, re.M)]
    assert "\n9 and 16 don't occur" in page and numbers - {9, 16} == {n for n, _ in rows} and all(status == 10 + n for n, status in rows), (numbers, rows)


@test
def any_bytes_and_words():
    """Noise, and good files with noise in them: always one of the statuses, never a file changed that the command refused."""
    rng = random.Random(9)
    good = read(desk())
    answered(0, "prove", "desk.grants", B, "--out", "proof")
    proof, batch = read("proof"), record(A, value(9)) + record(B) + record(D, value(8))
    root = answered(0, "root", "desk.grants").strip()

    def noisy(content):
        changed = bytearray(content)
        for _ in range(rng.choice((0, 1, 1, 3))):
            changed[rng.randrange(len(changed))] = rng.choice((0, 1, 255, rng.randrange(256)))
        if rng.random() < 0.2:
            del changed[rng.randrange(len(changed)) :]
        return bytes(changed)

    seen = set()
    book = read("desk.grants.book") + ('name %s "chords"\n' % A).encode()
    for _ in range(350):
        before = noisy(good)
        write("s", before)
        write("s.book", noisy(book))
        write("p", noisy(proof))
        write("b", noisy(batch) if rng.random() < 0.6 else noisy((FOUR + '- "a" # b\n').encode()))
        version = rng.choice(("0", "1", "2", "3", "4294967295", "x"))
        key = rng.choice((A, B, C, "ff" * 32, A[:-1], "zz", "chords", '"any"', '"', ""))
        words = rng.choice(
            (
                ["check", "s"],
                ["apply", "s", "b"],
                ["apply", "s", "b", "--split"],
                ["apply", "s", "b", "--dry-run"],
                ["import", "s", "b"],
                ["prune", "s", version],
                ["grow", "s", "30"],
                ["root", "s", version],
                ["get", "s", key, version],
                ["get", "s", key, "--at", "2026-05-03"],
                ["count", "s", version],
                ["at", "s", rng.choice(("0", "2", "3", "18446744073709551615", "x", ""))],
                ["list", "s", "--from", "1", "--most", "2"],
                ["prove", "s", key],
                ["verify", root, key, "p"],
                ["verify", "p", key, "p"],
                ["log", "s"],
                ["list", "s", "--csv"],
                ["list", "s", version, "--json"],
                ["export", "s"],
                ["history", "s", key],
                ["name", "s"],
                ["name", "s", key],
                ["show", "s", "--dot"],
                ["show", "s", version],
                ["stat", "s", "--json"],
            )
        )
        done = subprocess.run([TOOL] + words, capture_output=True, timeout=60)
        assert done.returncode in (0, 1, 2, 3, 4, 5, *range(11, 25), 27, 28, 30), (words, done)
        silent = all(line.startswith(BESIDE) for line in done.stderr.decode().splitlines())
        assert b"panicked" not in done.stderr and (done.returncode in (0, 1)) == silent, (words, done)
        if done.returncode != 0 or words[0] not in ("apply", "import", "prune", "grow"):
            assert read("s") == before, words
        seen.add(done.returncode)
    assert {0, 1, 2, 3, 11, 12, 13, 14, 18, 20, 21, 22} <= seen, seen
