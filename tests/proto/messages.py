"""Every message that the library wrote or was given, held to a protobuf library that isn't ours.

messages.py CALLS: the calls that tests/compare wrote down (tests/compare/src/record.rs). What grants_ics23_write wrote is parsed and gives the same bytes again.
grants_ics23_read accepts exactly the bytes that parse, have no unknown field, are what the library writes of them, and say what document 02 lets a message
say. protoc, with docs/ics23/ics23.proto, decodes messages to text and encodes that text to the same bytes. Ends with a count."""

import json
import subprocess
import sys

from google.protobuf import json_format, message

import ics23_pb2 as proto

passed = failed = 0


def held(what, right):
    global passed, failed
    if right:
        passed += 1
    else:
        failed += 1
        if failed < 20:
            print("%s: failed" % what)


def calls(name):
    """Each call: its name, what it was lent and what stood there afterwards, and the number it returned."""
    data = open(name, "rb").read()
    at = 0

    def take(n):
        nonlocal at
        at += n
        return data[at - n : at]

    def number(n=4):
        return int.from_bytes(take(n), "little")

    while at < len(data):
        called, lent = take(number(1)).decode(), []
        for _ in range(number(1)):
            letter = take(1)
            if letter == b"n":
                lent.append(number())
            elif letter == b"l":
                lent.append(number(8))
            else:
                length = number()
                before = take(length)
                lent.append(before if letter == b"r" else (before, take(length)))
        yield called, lent, number(8)


LEAF = proto.LeafOp(hash=1, prehash_key=1, prehash_value=1, length=0, prefix=b"\1")


def step(op):
    sides = (op.prefix == b"\0" and len(op.suffix) == 32) or (op.prefix[:1] == b"\0" and len(op.prefix) == 33 and op.suffix == b"")
    return op.hash == 1 and sides


def shows(e):
    return 1 <= len(e.key) <= 256 and 1 <= len(e.value) <= 4096 and e.HasField("leaf") and e.leaf == LEAF and len(e.path) <= 256 and all(map(step, e.path))


def says(m):
    """What document 02, 2026-02, lets a message say."""
    if m.WhichOneof("proof") == "exist":
        return shows(m.exist)
    if m.WhichOneof("proof") != "nonexist":
        return False
    n = m.nonexist
    sides = [e for name, e in (("left", n.left), ("right", n.right)) if n.HasField(name)]
    return 1 <= len(n.key) <= 256 and len(sides) > 0 and all(map(shows, sides))


def one_encoding(data):
    """Whether bytes are the one encoding of a message that document 02 knows."""
    m = proto.CommitmentProof()
    try:
        m.ParseFromString(data)
    except message.DecodeError:
        return False
    m.DiscardUnknownFields()
    return m.SerializeToString() == data and says(m)


def by_protoc(data):
    words = ["protoc", "--proto_path=docs/ics23"]
    kind = "cosmos.ics23.v1.CommitmentProof"
    text = subprocess.run(words + ["--decode=" + kind, "ics23.proto"], input=data, capture_output=True, check=True).stdout
    back = subprocess.run(words + ["--encode=" + kind, "ics23.proto"], input=text, capture_output=True, check=True).stdout
    return text.startswith((b"exist {", b"nonexist {")) and back == data


seen = {"written": 0, "taken": 0, "not taken": 0}
texts = []
for name, lent, answer in calls(sys.argv[1]):
    if name == "ics23_write" and answer == 0:
        data = lent[6][1][: int.from_bytes(lent[7][1], "little")]
        held("a message written", one_encoding(data))
        seen["written"] += 1
        if seen["written"] % 40 == 1:
            texts.append(data)
    elif name == "ics23_read" and answer in (0, 9, 10):
        held("a message read, answer %d: %s" % (answer, lent[0][:60].hex()), one_encoding(lent[0]) == (answer != 10))
        seen["not taken" if answer == 10 else "taken"] += 1
for data in texts:
    held("protoc", by_protoc(data))
spec = json_format.ParseDict(json.load(open("docs/ics23/proofspec.json")), proto.ProofSpec())
held("the ProofSpec", spec.SerializeToString() == open("docs/ics23/proofspec.bin", "rb").read())
for name in ("viola.present.bin", "flute.absent.bin"):
    held(name, one_encoding(open("docs/ics23/" + name, "rb").read()))
held("every kind of call", all(n > 400 for n in seen.values()) and len(texts) > 20)
print("%s, %d by protoc" % (", ".join("%d %s" % (n, what) for what, n in seen.items()), len(texts)))
print("%d passed, %d failed" % (passed, failed))
sys.exit(failed != 0)
