"""What the output can do to the status, what is not written, and who waits."""

import fcntl
import json
import os
import re
import shutil
import stat
import subprocess
import time

from common import *
from stopped import limited


@test
def a_closed_pipe_makes_no_status_0():
    s = desk()
    root = answered(0, "root", s).strip()
    answered(0, "prove", s, B, "--out", "absent")
    answered(0, "prove", s, A, "--out", "present")
    write("bad", bytes(size(20)))
    cases = (
        (21, "verify %s %s present --json" % (ZERO, A)),
        (21, "verify %s %s present" % (ZERO, A)),
        (20, "verify %s %s %s --json" % (root, A, s)),
        (1, "verify %s %s absent" % (root, B)),
        (1, "verify %s %s absent --json" % (root, B)),
        (1, "get %s %s" % (s, B)),
        (12, "check bad --json"),
        (2, "get %s zz --json" % s),
        (3, "check none --json"),
        (0, "get %s %s" % (s, A)),
    )
    lines = "".join("(sleep .2; '%s' %s 2>/dev/null) | true; echo ${PIPESTATUS[0]}\n" % (TOOL, words) for _, words in cases)
    came = subprocess.run(["bash", "-c", lines], capture_output=True, text=True, timeout=60)
    assert came.stdout.split() == [str(status) for status, _ in cases], came
    # Nor does a full disk, or standard output that is closed.
    for status, words in cases[:9]:
        with open("/dev/full", "w") as full:
            done = subprocess.run([TOOL] + words.split(), stdout=full, stderr=subprocess.DEVNULL, timeout=60)
        assert done.returncode == (3 if status in (0, 1) else status), (words, done)
        closed = subprocess.run("exec '%s' %s >&- 2>&-" % (TOOL, words), shell=True, timeout=60)
        assert closed.returncode in (status, 3), (words, closed)


@test
def only_regular_files_are_written():
    s = desk()
    os.mkfifo("fifo")
    for words in (("apply", "fifo", "/dev/null"), ("prune", "fifo", 1), ("format", "fifo", 5, "--force"), ("grow", "fifo", 9)):
        done = subprocess.run([TOOL] + [str(w) for w in words], capture_output=True, text=True, timeout=30)
        assert done.returncode == 3 and "it is a fifo" in done.stderr, done
    # A dangling link where the new file goes is not followed.
    os.symlink("elsewhere", ".desk.grants.grants-new")
    answered(0, "apply", s, "/dev/null")
    assert not os.path.exists("elsewhere"), "the link was followed"
    os.remove(".desk.grants.grants-new")
    # Nor is one at the book, and none of these is waited for.
    os.remove(s + ".book")
    for make in (lambda name: os.symlink("elsewhere", name), os.mkfifo, os.mkdir):
        make(s + ".book")
        untouched(s, 3, "cannot read %s.book: it is a" % s, "apply", s, "/dev/null")
        refused(3, "cannot read %s.book: it is a" % s, "log", s)
        os.rmdir(s + ".book") if os.path.isdir(s + ".book") else os.remove(s + ".book")
    os.symlink("elsewhere", "book")
    untouched(s, 3, "cannot write book: it is a symbolic link", "apply", s, "/dev/null", "--book", "book")
    assert not os.path.exists("elsewhere")
    # Nor at an output file.
    os.symlink("elsewhere", "out")
    refused(3, "is there already", "prove", s, A, "--out", "out")
    answered(0, "prove", s, A, "--out", "out", "--force")
    assert not os.path.islink("out") and not os.path.exists("elsewhere")
    try:
        os.mknod("null", 0o666 | stat.S_IFCHR, os.makedev(1, 3))
    except PermissionError:
        print("  no device can be made here: that one is not replaced is not tested")
        return
    for words in (("format", "null", 5, "--force"), ("apply", "null", "/dev/null")):
        refused(3, "it is a device", *words)
    refused(3, "it is a device", "prove", s, A, "--out", "null", "--force")
    assert stat.S_ISCHR(os.stat("null").st_mode)


def as_user(user):
    def other():
        os.setgroups([])
        os.setgid(65534)
        os.setuid(user)

    return other


@test
def two_users_write_one_store():
    if os.getuid() != 0:
        print("  no other user can be had here: two writers of two users are not tested")
        return
    os.chmod(".", 0o777)
    os.chmod("..", 0o755)
    shutil.copy(TOOL, "../tool")
    shutil.copy(FAULT, "../fault.so")
    os.chmod("../fault.so", 0o755)
    desk("s", 200)
    os.chmod("s", 0o666)
    os.path.exists("s.book") and os.chmod("s.book", 0o666)

    def run(user, *words, env=None):
        full = dict(os.environ, **(env or {}))
        return subprocess.run(["../tool"] + list(words), capture_output=True, text=True, preexec_fn=as_user(user), env=full, timeout=60)

    # One user's writer is killed at each call in turn: the other's next one is not hindered.
    for at in range(1, 90):
        killed = run(1001, "apply", "s", "/dev/null", env={"LD_PRELOAD": "../fault.so", "FAULT": "kill", "FAULT_AT": str(at)})
        if killed.returncode == 0:
            break
        done = run(1002, "apply", "s", "/dev/null")
        assert done.returncode == 0, (at, done)
        assert stat.S_IMODE(os.stat("s").st_mode) == 0o666
    assert killed.returncode == 0 and at > 10, killed
    # In a folder where only the owner may remove a file, what is left is stepped around.
    os.chmod(".", 0o1777)
    os.chown("s", 1002, -1)
    os.path.exists("s.book") and os.chown("s.book", 1002, -1)
    write(".s.grants-new", "left")
    os.chown(".s.grants-new", 1001, -1)
    done = run(1002, "apply", "s", "/dev/null")
    assert done.returncode == 0 and read(".s.grants-new") == b"left", done
    # Who may not write the store is told so.
    os.chmod("s", 0o644)
    done = run(1001, "apply", "s", "/dev/null")
    assert done.returncode == 3 and "permission denied" in done.stderr, done


@test
def a_terminal_is_told_how_long_it_takes():
    s = desk()
    holder = os.open(s, os.O_RDONLY)
    fcntl.flock(holder, fcntl.LOCK_EX)
    ours, theirs = os.openpty()
    both = [subprocess.Popen([TOOL, "apply", s, "/dev/null"], stdout=subprocess.PIPE, stderr=err, text=True) for err in (theirs, subprocess.PIPE)]
    os.close(theirs)
    said = b""
    # On busy cores a second may be passed over, so the numbers are not.
    while len(re.findall(rb"apply: \d+ s", said)) < 2:
        said += os.read(ours, 1000)
    os.close(holder)
    (out, _), (_, plain) = [run.communicate(timeout=60) for run in both]
    # The line is gone before the answer, and where standard error is no terminal there is none.
    said += os.read(ours, 1000)
    seconds = [int(n) for n in re.findall(rb"apply: (\d+) s", said)]
    assert seconds[0] >= 2 and seconds == sorted(seconds) and said.endswith(b"\r\x1b[K") and out.startswith("version "), (said, out)
    assert all(line.startswith("grants: ") for line in plain.splitlines()) and "\r" not in plain, plain


@test
def a_writer_waits_and_says_so():
    s = desk()
    holder = open(s, "rb")
    fcntl.flock(holder, fcntl.LOCK_EX)
    start = time.time()
    untouched(s, 3, "is being written by process", "apply", s, "/dev/null", "--wait", 0)
    assert time.time() - start < 30
    told = "process %d of user" % os.getpid()
    untouched(s, 3, told, "prune", s, 1, "--wait", 0)
    waiting = subprocess.Popen([TOOL, "apply", s, "/dev/null"], stdout=subprocess.PIPE, stderr=subprocess.PIPE, text=True)
    said = waiting.stderr.readline()
    assert said.startswith("grants: waiting for process %d of user" % os.getpid()) and waiting.poll() is None, said
    holder.close()
    out, err = waiting.communicate(timeout=60)
    assert waiting.returncode == 0 and out.startswith("version 3") and err == "", (out, err)
    refused(2, "SECONDS is a number", "apply", s, "/dev/null", "--wait", "soon")


@test
def forty_at_once():
    """Of many that make a store one does; of many that write it none is lost, nor what they say."""

    def together(commands):
        runs = [subprocess.Popen([TOOL] + words, stdout=subprocess.PIPE, stderr=subprocess.PIPE, text=True) for words in commands]
        return [(*run.communicate(timeout=120), run.returncode) for run in runs]

    for _ in range(3):
        ended = together([["format", "s", str(300 + i)] for i in range(12)])
        assert sorted(status for _, _, status in ended) == [0] + [3] * 11, ended
        assert all("is there already" in err for _, err, status in ended if status), ended
        assert os.listdir(".") == ["s"]
        os.remove("s")
    answered(0, "format", "s", 300)
    ended = together([["apply", "s", "/dev/null", "--message", str(i)] for i in range(40)])
    assert all(status == 0 for _, _, status in ended), ended
    told = json.loads(answered(0, "log", "s", "--json"))
    assert sorted(v["message"] for v in told[1:]) == sorted(str(i) for i in range(40))
    assert sorted(os.listdir(".")) == ["s", "s.book"]


@test
def output_files_are_whole_and_not_lost():
    s = desk()
    root = answered(0, "root", s).strip()
    write("proof", "dear")
    untouched("proof", 3, "--force replaces it", "prove", s, A, "--out", "proof")
    answered(0, "prove", s, A, "--out", "proof", "--force")
    assert answered(0, "verify", root, A, "proof").startswith("present")
    before, around_ = read("proof"), sorted(os.listdir("."))
    for at in range(1, 30):
        for kind in ("kill", "half"):
            ran = grants("prove", s, B, "--out", "proof", "--force", env={"LD_PRELOAD": FAULT, "FAULT": kind, "FAULT_AT": str(at)})
            assert read("proof") == before or answered(1, "verify", root, B, "proof")
            answered(0, "prove", s, A, "--out", "proof", "--force")
            assert sorted(os.listdir(".")) == around_, os.listdir(".")
        if ran.status == 0:
            break
    assert at > 5
    untouched("proof", 3, "larger than files may be", "prove", s, A, "--out", "proof", "--force", **limited(10, False))
    # Bytes that are no UTF-8 name a file all the same.
    name = b"p\xff\n"
    done = subprocess.run([TOOL, "prove", s, A, b"--out=" + name], capture_output=True, timeout=60)
    assert done.returncode == 0 and b"\xff" not in done.stdout and done.stdout.count(b"\n") == 1, done
    assert name in os.listdir(b".")


@test
def names_of_stores():
    longest = "n" * 255
    answered(0, "format", longest, 5)
    answered(0, "apply", longest, "/dev/null")
    assert sorted(os.listdir(".")) == [longest]
    refused(3, "the name is longer", "format", "n" * 256, 5)
    for words in (("format", "new/", 5), ("apply", longest + "/", "/dev/null"), ("format", longest + "/", 5, "--force")):
        refused(3, "a name that ends in / is a directory's", *words)
    assert sorted(os.listdir(".")) == [longest]
    # What a terminal would obey is shown, and paths are as they were given.
    odd = "red\x1b[31m\nnew\u202e"
    assert answered(0, "format", odd, 5) == "red\\u{1b}[31m\\nnew\\u{202e}: 5 free slots, 664 bytes\n"
    refused(3, "red\\u{1b}[31m\\nnew\\u{202e} is there already", "format", odd, 5)
    refused(2, "there is no command", "\x1b[31m")
    refused(2, "one word too many", "check", odd, "\x1b]0;x\x07")
    os.mkdir("folder")
    write("folder/plain", "x")
    os.symlink("folder/plain", "link")
    refused(11, "link has 1 byte", "apply", "link", "/dev/null")
    refused(3, "cannot write ./folder/none", "format", "./folder/none/x", 5)
    refused(3, "cannot write ../here/folder: it is a directory", "apply", "../here/folder", "/dev/null")
    os.chmod("folder/plain", 0o444)
    refused(3, "cannot write ./link: it is read-only", "apply", "./link", "/dev/null")


@test
def small_words():
    assert answered(0, "format", "one", 1) == "one: 1 free slot, 152 bytes\n"
    s = desk()
    refused(2, "VERSION is a number", "get", s, A, "+1")
    refused(2, "CAPACITY is a number", "format", "t", "+5")
    refused(2, "VERSION is a number", "get", s, A, "")
    # A mark of the byte order is no part of a batch.
    answered(0, "apply", s, "-", input="\ufeff+ %s %s\n" % (A, value(9)))
    assert answered(0, "get", s, A) == value(9) + "\n"
    # --json before the command, with --help, and as a word after --.
    assert json.loads(answered(0, "--json", "root", s)) == json.loads(answered(0, "root", s, "--json"))
    for words in (("--help",), ("help", "get"), ("get", "--help"), ("--version",)):
        told = json.loads(answered(0, *words, "--json"))
        assert list(told.values()) == [answered(0, *words)[:-1]], told
        assert answered(0, "--json", *words) == answered(0, *words, "--json")
    answered(0, "format", "--", "--json", 5)
    assert answered(0, "root", "--", "--json") == ZERO + "\n"
    refused(3, "cannot read --force", "check", "--", "--force")
    ran = grants("--json", "get", s, "zz")
    assert ran.status == 2 and json.loads(ran.out)["status"] == 2


@test
def a_doubled_key_at_a_seam():
    answered(0, "format", "s", LARGEST)
    keys = ["%08x" % n + "00" * 28 for n in range(1500)]
    records = [record(k, value(1)) for k in keys]
    doubled = b"".join(records[:1024] + records[1023:])
    untouched("s", 15, "name each key once", "apply", "s", write("b", doubled), "--split")
    falling = b"".join(records[1:1025] + records[:1] + records[1025:])
    untouched("s", 15, "name each key once", "apply", "s", write("b", falling), "--split")
    answered(0, "apply", "s", write("b", b"".join(records)), "--split")
