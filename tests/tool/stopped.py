"""A file that can't be written, a process that is killed."""

import json
import os
import random
import resource
import signal
import subprocess
import time

from common import *


def limited(bytes_, ignored):
    def before():
        resource.setrlimit(resource.RLIMIT_FSIZE, (bytes_, bytes_))
        signal.signal(signal.SIGXFSZ, signal.SIG_IGN if ignored else signal.SIG_DFL)

    return {"preexec_fn": before, "restore_signals": False}


@test
def a_file_may_not_grow():
    s = desk()
    for bytes_ in (0, 1, HEADER, 1000, size(20) - 1):
        untouched(s, 3, "is as it was", "apply", s, "/dev/null", **limited(bytes_, True))
        refused(3, "was not made", "format", "t", 20, **limited(bytes_, True))
        # The tool doesn't leave it to its caller to ignore the signal.
        untouched(s, 3, "it would be larger than files may be here; it is as it was", "apply", s, "/dev/null", **limited(bytes_, False))
    answered(0, "apply", s, "/dev/null", **limited(size(20), False))
    assert sorted(os.listdir(".")) == [s, s + ".book"]


@test
def a_full_disk():
    os.mkdir("disk")
    mounted = subprocess.run(["mount", "-t", "tmpfs", "-o", "size=64k", "tmpfs", "disk"], capture_output=True)
    if mounted.returncode != 0:
        print("  no file system can be mounted here; a_file_may_not_grow stands for a full disk")
        return
    try:
        before = read(desk("s", 300))
        s = write("disk/s", before)
        # Room for the store of 36 kB, none for a second one beside it.
        for words in (("apply", s, "/dev/null"), ("prune", s, 1), ("format", s, 300, "--force"), ("format", "disk/t", 300)):
            refused(3, "the disk is full", *words)
            assert read(s) == before and os.listdir("disk") == ["s"]
        answered(0, "check", s)
        refused(3, "the disk is full", "format", "disk/u", LARGEST)
        refused(3, "cannot write disk/proof", "prove", s, A, "--out", "disk/proof", **limited(0, True))
    finally:
        subprocess.run(["umount", "disk"], check=True)


def outcomes(s, words, before, after, env, **more):
    """A run with something going wrong in it leaves the old store or the new one, and the next run is not hindered."""
    write(s, before)
    write(s + ".book", booked)
    ran = grants(*words, env=dict(env, LD_PRELOAD=FAULT), **more)
    left = read(s)
    assert left in (before, after), "neither the old store nor the new one\n%r" % ran
    assert read(s + ".book").startswith(booked), "the book lost a line"
    answered(0, "check", s)
    grants(*words)
    assert read(s) == (after if left == before else read(s))
    assert sorted(os.listdir(".")) == around, os.listdir(".")
    return ran, left == after


around, booked = [], b"# a book\n"


def calls_of(s, words, before):
    """The calls by which the command reads and writes files, in order."""
    write(s, before)
    write(s + ".book", booked)
    log = os.path.abspath("../calls.log")
    if os.path.exists(log):
        os.remove(log)
    answered(0, *words, env={"LD_PRELOAD": FAULT, "FAULT_LOG": log})
    with open(log) as f:
        return [line.split(" ", 1) for line in f.read().splitlines()]


def faulty(kind):
    global booked
    s = desk()
    booked = read(s + ".book")
    write("b", "+ %s %s\n" % ("ee" * 32, value(7)))
    before = read(s)
    for words in (("apply", s, "b"), ("prune", s, 2)):
        calls = calls_of(s, words, before)
        after = read(s)
        assert len(calls) > 10 and before != after
        around[:] = sorted(os.listdir("."))
        seen = []
        names = [name for name, _ in calls]
        # From the first read of the store to its rename what went wrong leaves the old one.
        for at in range(1, len(calls) + 1):
            ran, done = outcomes(s, words, before, after, {"FAULT": kind, "FAULT_AT": str(at)})
            seen.append(done)
            name = calls[at - 1][0]
            if kind == "fail":
                # Keeping the owner is the one thing that may fail without a word, and a file beside that can't be removed waits for the next writer.
                assert ran.status == (0 if name in ("chown", "unlink") else 3), "%s %r" % (name, ran)
            else:
                assert ran.status == -signal.SIGKILL, ran
        # The old store up to the rename, the new one from there on.
        turn = names.index("rename")
        if kind != "fail":
            assert seen == [i > turn for i in range(len(calls))], seen


@test
def killed_at_every_call():
    faulty("kill")


@test
def killed_in_the_middle_of_a_write():
    faulty("half")


@test
def every_call_fails_once():
    faulty("fail")


@test
def written_beside_synced_renamed_synced():
    global booked
    s = desk()
    booked = read(s + ".book")
    calls = calls_of(s, ("apply", s, "/dev/null"), read(s))
    beside, folder = os.path.abspath(".desk.grants.grants-new"), os.getcwd()
    order = [c for c in calls if c[0] in ("flock", "write", "fsync", "rename")][:-1]
    book = beside.replace(".grants-new", ".book.grants-new")
    assert order == [
        ["flock", os.path.abspath(s)],
        *[[call, name] for name in (beside, book) for call in ("flock", "write", "fsync", "rename")],
    ][:5] + [["fsync", folder]] + [[call, book] for call in ("flock", "write", "fsync", "rename")] + [["fsync", folder]], calls


@test
def a_fresh_store_is_made_or_not():
    write("../empty", "")
    calls = calls_of("../empty", ("format", "t", 20), b"")
    for at in range(1, len(calls) + 1):
        if os.path.exists("t"):
            os.remove("t")
        ran = grants("format", "t", 20, env={"LD_PRELOAD": FAULT, "FAULT": "kill", "FAULT_AT": str(at)})
        assert ran.status == -signal.SIGKILL
        assert not os.path.exists("t") or read("t") == store_bytes(20)
        grants("format", "t", 20)
        assert read("t") == store_bytes(20)
        # What was left beside it goes with the next writing.
        answered(0, "prune", "t", 0)
        assert read("t") == store_bytes(20) and os.listdir(".") == ["t"]


@test
def a_leftover_is_written_over():
    s = desk()
    beside = ".desk.grants.grants-new"
    write(beside, b"x" * 5000)
    answered(0, "apply", s, "/dev/null")
    assert os.path.getsize(s) == size(20) and sorted(os.listdir(".")) == [s, s + ".book"]
    answered(0, "check", s)
    # What else may stand there is not touched, and stepped around.
    write("mine", "dear")
    os.symlink("mine", beside)
    answered(0, "apply", s, "/dev/null")
    os.remove(beside)
    os.mkdir(beside)
    answered(0, "apply", s, "/dev/null")
    assert read("mine") == b"dear" and os.listdir(beside) == []


@test
def killed_after_any_time():
    """A store of 2 MB, so that writing it takes a while; killed after delays that go from before the start to past the end."""
    answered(0, "format", "s", LARGEST)
    answered(0, "apply", "s", "-", input=many(50))
    write("b", "+ %s %s\n" % ("ee" * 32, value(7)))
    before = read("s")
    start = time.time()
    answered(0, "apply", "s", "b")
    whole = time.time() - start
    after = read("s")
    rng = random.Random(5)
    seen = {True: 0, False: 0}
    for _ in range(150):
        write("s", before)
        whole *= killed_within(whole, rng, "apply", "s", "b")
        left = read("s")
        assert left in (before, after), "neither the old store nor the new one"
        seen[left == after] += 1
    answered(0, "apply", "s", "b")
    assert sorted(os.listdir(".")) == ["b", "s", "s.book"]
    assert seen[False] > 0, seen


@test
def many_writers_and_readers():
    answered(0, "format", "s", 500)
    writers = []
    for n in range(4):
        loop = "for i in 1 2 3 4 5 6 7 8 9 10; do '%s' apply s - </dev/null || exit 1; done" % TOOL
        writers.append(subprocess.Popen(["bash", "-c", loop], stdout=subprocess.DEVNULL, stderr=subprocess.DEVNULL))
    looks = 0
    while any(w.poll() is None for w in writers):
        answered(0, "check", "s")
        looks += 1
    assert all(w.wait() == 0 for w in writers)
    assert json.loads(answered(0, "stat", "s", "--json"))["latest"] == 40, "a version was lost"
    assert looks > 0 and sorted(os.listdir(".")) == ["s", "s.book"]
    told = json.loads(answered(0, "log", "s", "--json"))
    assert [v["book"] for v in told] == [None] + ["agrees"] * 40, "a line of the book was lost"
