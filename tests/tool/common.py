"""What the tests of the tool share: running it, what a run must say, stores and batches to try it on."""

import os
import random
import subprocess
import sys
import time

TOOL, FAULT, README = [os.path.abspath(p) for p in sys.argv[1:4]]
TOP = os.path.dirname(README)
os.environ["GRANTS_AUTHOR"] = "mira"

ZERO = "00" * 32
LARGEST = 16384
# The bytes of a header, of a slot, and of a slot of the old form.
HEADER, SLOT, OLD_SLOT = 24, 128, 120
A, B, C, D = ["%02x" % first + "00" * 31 for first in (0x00, 0x40, 0x60, 0x80)]


def value(n):
    return "%02x" % n * 32


FOUR = "".join("+ %s %s\n" % (k, value(n)) for k, n in ((A, 1), (B, 2), (C, 3), (D, 4)))
WITHDRAW = "- %s\n+ %s %s\n" % (B, C, value(5))

# How the lines begin that are said beside an answer.
BESIDE = ("grants: by ", "grants: no change: ", "grants: note: ")

tests = []


def test(function):
    tests.append(function)
    return function


class Ran:
    """What a run gave; it prints itself where a test of it fails."""

    def __init__(self, words, done):
        self.words, self.status = words, done.returncode
        self.out, self.err = done.stdout, done.stderr

    def __repr__(self):
        return "grants %s: status %s\n%s%s" % (" ".join(self.words), self.status, self.out, self.err)


def grants(*words, input="", env=None, **more):
    words = [str(w) for w in words]
    full = dict(os.environ, **(env or {}))
    more.setdefault("stdout", subprocess.PIPE)
    binary = isinstance(input, bytes)
    done = subprocess.run([TOOL] + words, input=input, stderr=subprocess.PIPE, text=not binary, env=full, timeout=60, **more)
    return Ran(words, done)


def answered(status, *words, **more):
    """The output of a run that must end with this status; one that fails must say why, and one that doesn't must be silent beside."""
    ran = grants(*words, **more)
    assert ran.status == status, "status %s was expected\n%r" % (status, ran)
    if status in (0, 1):
        said = ran.err if isinstance(ran.err, str) else ran.err.decode()
        # What an answer takes from the book is said beside it, and which records change nothing; nothing else.
        assert all(line.startswith(BESIDE) for line in said.splitlines()), ran
    else:
        assert ran.err.startswith("grants: ") and ran.err.count("\n") == 1, ran
        assert "panicked" not in ran.err, ran
    return ran.out


def refused(status, sentence, *words, **more):
    """The run fails with this status and this among its words."""
    ran = grants(*words, **more)
    assert ran.status == status and sentence in ran.err, "%r\n%s and %r were expected" % (ran, status, sentence)
    assert ran.err.startswith("grants: ") and ran.err.count("\n") == 1, ran


def read(path):
    with open(path, "rb") as f:
        return f.read()


def write(path, content):
    with open(path, "wb") as f:
        f.write(content if isinstance(content, bytes) else content.encode())
    return path


def desk(name="desk.grants", capacity=20):
    """A store with two versions."""
    answered(0, "format", name, capacity)
    answered(0, "apply", name, "-", input=FOUR)
    answered(0, "apply", name, "-", input=WITHDRAW)
    return name


def number(n, size):
    return n.to_bytes(size, "little")


def record(key, insert=None):
    if insert is None:
        return number(40, 4) + number(2, 2) + bytes(2) + bytes.fromhex(key) + bytes(32)
    return number(72, 4) + number(1, 2) + bytes(2) + bytes.fromhex(key) + bytes.fromhex(insert)


def size(capacity):
    return HEADER + SLOT * capacity


def store_bytes(capacity, latest=0):
    head = number(HEADER, 4) + number(4, 2) + bytes(2) + number(capacity, 4) + number(0, 4) + number(latest, 4) + bytes(4)
    return head + bytes(SLOT * capacity)


def slot(i):
    return slice(size(i), size(i + 1))


def fields(i, s):
    """Bit count, version and retired-since of a slot."""
    one = s[slot(i)]
    return [int.from_bytes(one[a:b], "little") for a, b in ((6, 8), (40, 44), (44, 48))]


def root_slot(name, version):
    s = read(name)
    return next(i for i in range((len(s) - HEADER) // SLOT) if fields(i, s)[:2] == [0, version])


def many(count, seed=1):
    rng = random.Random(seed)
    return "".join("+ %s %s\n" % (rng.randbytes(32).hex(), rng.randbytes(32).hex()) for _ in range(count))


def killed_within(seconds, rng, *words):
    """Kills a run after a part of this time. The answer is by what to lengthen the time for the next one: what was slow once may be fast the next time, and kills shall fall before the end and after it."""
    run = subprocess.Popen([TOOL] + [str(w) for w in words], stdout=subprocess.DEVNULL, stderr=subprocess.DEVNULL)
    time.sleep(rng.random() * seconds)
    ended = run.poll() is not None
    run.kill()
    run.wait()
    return 0.8 if ended else 1.1


def untouched(path, status, sentence, *words, **more):
    """The run fails so, leaves the file as it was, and leaves nothing beside it."""
    before, around = read(path), sorted(os.listdir("."))
    refused(status, sentence, *words, **more)
    assert read(path) == before, "the file was changed"
    assert sorted(os.listdir(".")) == around, "something was left: %s" % os.listdir(".")
