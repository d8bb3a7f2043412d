"""Lines 'NOW HEX' from standard input, each a statement that comes at a time: what is read of it, and what an editor makes of it. An empty line is another
editor. With COUNT SEED: writes such lines, hostile ones by hand and then as many changed at random. With a file: whether what came of the lines by hand is what
stands here."""

import random
import sys

ROOT = "f5d7fa76ae94b01bee4e95b0ccc514710956389b2bc39eeef16634ae3be0ea87"
NOW = 1778500000


def lines(version="2", root=ROOT, published="2026-05-10T10:00:00Z", made="2026-05-10T10:30:00Z", not_after="2026-06-10T23:59:59Z", bits=None):
    text = "the root of a grant store\nversion %s\nroot %s\n" % (version, root)
    text += "bits %s\n" % bits if bits is not None else ""
    text += "published %s\n" % published if published is not None else ""
    text += "made %s\n" % made if made is not None else ""
    return (text + ("not-after %s\n" % not_after if not_after is not None else "")).encode("latin-1", "surrogateescape")


GOOD = [
    lines(),
    lines(published=None),
    lines(not_after=None),
    lines(published=None, not_after=None),
    lines("0", "00" * 32),
    lines("4294967295"),
    lines(made="2000-02-29T23:59:59Z"),
    lines(made="2024-02-29T00:00:00Z", published="1969-12-31T23:59:59Z"),
    lines(made="0000-01-01T00:00:00Z"),
    lines(made="0000-02-29T00:00:00Z", published="0001-03-01T00:00:00Z"),
    lines(made="9999-12-31T23:59:59Z", not_after="9999-12-31T23:59:59Z"),
    lines(bits="0"),
    lines(bits="8", published=None),
    lines(bits="12", not_after=None),
]
BAD = [lines(v) for v in ["", "-1", "+1", "01", "00", "1 ", " 1", "4294967296", "42949672950", "9" * 99, "1e3", "0x1", "1.0", "\xb2", "١".encode().decode("latin-1"), "1\0", "1\r", "2\nversion 3"]]
BAD += [lines(bits=b) for b in ["", "13", "19", "20", "100", "00", "08", "012", "-1", "+1", " 8", "8 ", "8\r", "1\n2", "x", "\xb2", "8\nbits 8"]]
BAD += [lines(root=r) for r in ["", ROOT[:-1], ROOT + "0", ROOT.upper(), ROOT[:-1] + "g", "0x" + ROOT[2:], ROOT + " ", " " + ROOT, ROOT[:32] + "\n" + ROOT[32:], "\0" * 64]]
for _date in ["", "2026-05-10", "2026-05-10T10:00Z", "2026-05-10T10:00:00", "2026-05-10 10:00:00Z", "2026-05-10T10:00:00z", "2026-05-10t10:00:00Z", "2026-5-10T10:00:00Z",
              "2026-02-29T10:00:00Z", "1900-02-29T10:00:00Z", "2026-02-30T10:00:00Z", "2026-04-31T10:00:00Z", "2026-00-10T10:00:00Z", "2026-13-10T10:00:00Z", "2026-05-00T10:00:00Z", "2026-05-32T10:00:00Z",
              "2026-05-10T24:00:00Z", "2026-05-10T10:60:00Z", "2026-05-10T10:00:60Z", "2026-05-10T10:00:00+00:00", "2026-05-10T10:00:00.000Z", "+002026-05-10T10:00:00Z", "-026-05-10T10:00:00Z", "12026-05-10T10:00:00Z",
              "2026-05-10T10:00:00Z ", "2026-05-10T10:00:00Z\r", "2026-05-10T10:00:00Z\0", "2026/05/10T10:00:00Z", "99999999999999999999", "2O26-05-10T10:00:00Z"]:
    BAD += [lines(made=_date), lines(published=_date), lines(not_after=_date)]
_all = lines().split(b"\n")[:-1]
BAD += [b"\n".join(_all[:i] + _all[i + 1 :]) + b"\n" for i in (0, 1, 2, 4)]
BAD += [b"\n".join(_all[:i] + [_all[i]] + _all[i:]) + b"\n" for i in range(6)]
BAD += [b"\n".join(_all[:i] + [_all[i + 1], _all[i]] + _all[i + 2 :]) + b"\n" for i in range(5)]
BAD += [lines()[:n] for n in (0, 1, 25, 26, 34, 35, 40, 41, 106, 107, len(lines()) - 1)]
BAD += [lines() + it for it in (b"\n", b" ", b"\0", b"made 2026-05-10T10:30:00Z\n", b"\xff", lines())]
BAD += [b"\xef\xbb\xbf" + lines(), b"\n" + lines(), b" " + lines(), lines().replace(b"\n", b"\r\n"), lines().replace(b"\n", b"\r"), lines().replace(b" ", b"\t"), lines().replace(b"root ", b"root  "), lines().upper(), lines().decode().encode("utf-16"),
        lines().replace(b"not-after", b"not_after"), lines().replace(b"not-after", b"Not-After"), lines().replace(b"the root", b"The root"), b"\0" * 400, b"\xff" * 400, b"9" * 30000, b"the root of a grant store\nversion " + b"1" * 30000]


def changed(chance):
    """A statement, or two of them spliced, with a few bytes changed, left out or put in."""
    text = bytearray(chance.choice(GOOD))
    if chance.random() < 0.3:
        other = chance.choice(GOOD)
        text = text[: chance.randrange(len(text))] + other[chance.randrange(len(other)) :]
    for _ in range(chance.choice([0, 1, 1, 1, 2, 5])):
        at = chance.randrange(len(text) + 1)
        what = chance.randrange(3)
        byte = chance.choice(b"0123456789abcdefTZ:- \n\r\0\xff" + bytes([chance.randrange(256)]))
        if what == 0:
            text[at : at + 1] = bytes([byte])
        elif what == 1:
            text[at:at] = bytes([byte])
        else:
            del text[at : at + chance.choice([1, 1, 4, 20])]
    return bytes(text)


def fresh(chance):
    """A statement in form, of few versions, roots and days, so that an editor meets all that there is."""
    date = lambda: "2026-05-%02dT%02d:00:00Z" % (chance.randrange(9, 14), chance.randrange(24))  # noqa: E731
    return lines(str(chance.randrange(4)), chance.choice(["00", "11", "22"]) * 32, chance.choice([None, date()]), date(), chance.choice([None, date(), date(), date()]), chance.choice([None, None, "8", "12"]))


def write(count, seed):
    chance = random.Random(seed)
    print("".join("%d %s\n\n" % (NOW, text.hex()) for text in GOOD), end="")
    print("".join("%d %s\n" % (NOW, text.hex()) for text in BAD))
    for i in range(count):
        now = 1778284800 + chance.randrange(5 * 86400)
        print("%d %s" % (now, (fresh if chance.random() < 0.5 else changed)(chance).hex()))
        if chance.random() < 0.1:
            print()


# What is read of GOOD: version, published, made, not-after, bits, worked out by `date -u -d`.
READ = [
    (2, 1778407200, 1778409000, 1781135999),
    (2, "none", 1778409000, 1781135999),
    (2, 1778407200, 1778409000, "none"),
    (2, "none", 1778409000, "none"),
    (0, 1778407200, 1778409000, 1781135999),
    (4294967295, 1778407200, 1778409000, 1781135999),
    (2, 1778407200, 951868799, 1781135999),
    (2, -1, 1709164800, 1781135999),
    (2, 1778407200, -62167219200, 1781135999),
    (2, -62130499200, -62162121600, 1781135999),
    (2, 1778407200, 253402300799, 253402300799),
    (2, 1778407200, 1778409000, 1781135999, 0),
    (2, "none", 1778409000, 1781135999, 8),
    (2, 1778407200, 1778409000, "none", 12),
]


def held(path):
    with open(path) as f:
        came = f.read().split("\n")
    assert len(GOOD) == len(READ)
    for i, (version, published, made, not_after, *bits) in enumerate(READ):
        root = "00" * 32 if version == 0 else ROOT
        wanted = "%d %s %s %s %d %s: " % (version, root, bits[0] if bits else "none", published, made, not_after)
        assert came[2 * i].startswith(wanted) and came[2 * i + 1] == "", (came[2 * i], wanted)
    by_hand = came[2 * len(GOOD) :][: len(BAD)]
    assert by_hand == ["-"] * len(BAD), [BAD[i] for i, it in enumerate(by_hand) if it != "-"]
    said = {line.split(": ")[1].split(",")[0] for line in came if ": " in line}
    assert len(said) == 5, said
    print("%d statements by hand, %d in all" % (len(GOOD) + len(BAD), len([line for line in came if line])))


def main():
    if len(sys.argv) == 3:
        write(int(sys.argv[1]), int(sys.argv[2]))
        return
    if len(sys.argv) == 2:
        held(sys.argv[1])
        return
    from grants import Seen, Statement

    seen = Seen()
    for line in sys.stdin:
        if line == "\n":
            seen = Seen()
            print()
            continue
        now, text = line.rstrip("\n").split(" ")
        try:
            read = Statement.read(bytes.fromhex(text))
        except ValueError:
            print("-")
            continue
        verdict = seen.judge(read, int(now))
        seen = seen.after(read, int(now))
        bits, published, not_after = ("none" if it is None else it for it in (read.bits, read.published, read.not_after))
        print("%d %s %s %s %d %s: %s, %d %d" % (read.version, read.root.hex(), bits, published, read.made, not_after, verdict.value, seen.version, seen.time))


main()
