"""What the requests of later landings bring to the tool: moving, figures, the pocket profile, what a forged proof would cost, messages for partners."""

import json
import os

from common import *
from book import market


@test
def what_a_forged_proof_would_cost():
    s = desk()
    root = answered(0, "root", s).strip()
    for key, found in ((A, value(1)), (B, None)):
        status, shown = (0, "present %s" % found) if found else (1, "absent")
        answered(0, "prove", s, key, "--out", "proof", "--force")
        against = ("verify", root, key, "proof", "--against", s, "--version", 2)
        first, paragraph = answered(status, *against).splitlines()
        assert first == shown and paragraph.startswith("The proof tells the truth about version 2: "), paragraph
        told = json.loads(answered(status, *against, "--json"))
        assert (told["truth"], told["message"], told["other"], told["value"]) == (True, None, None, found), told
        # The text has no line for sha256sum: nothing is found.
        answered(status, *against, "--out", "finding", "--force")
        text = read("finding").decode()
        assert "# the proof says: %s\n" % shown in text and all(line.startswith("#") for line in text.splitlines()), text
        assert answered(status, *against, "--out", "-") == text
        refused(2, "both write standard output", *against, "--out", "-", "--json")
        refused(3, "--force replaces it", *against, "--out", "finding")
        refused(2, "is read by this command", *against, "--out", s, "--force")
    refused(2, "is not the root of version 1", "verify", root, B, "proof", "--against", s, "--version", 1)
    refused(21, "not to be trusted", "verify", root, A, "proof", "--against", s, "--version", 2)
    refused(18, "keeps versions", "verify", root, B, "proof", "--against", s, "--version", 9)
    refused(2, "--against STORE goes with --version", "verify", root, B, "proof", "--against", s)
    refused(2, "--version goes with --against", "verify", root, B, "proof", "--version", 2)
    refused(2, "--out goes with --against", "verify", root, B, "proof", "--out", "other")
    refused(2, "--against takes one key", "verify", root, A, B, "proof", "--against", s, "--version", 2)
    # A store that isn't sound, though its root is the one that was signed.
    with open(s, "rb") as f:
        bytes_ = bytearray(f.read())
    bytes_[24 + 80] ^= 1
    with open("bad", "wb") as f:
        f.write(bytes_)
    refused(13, "refused with 3", "verify", root, B, "proof", "--against", "bad", "--version", 2)


@test
def a_store_goes_over_and_back():
    """In its own file, which is kept, and into another one; every root as it was."""
    m = market()
    with open(m, "rb") as f:
        new = f.read()
    roots = [answered(0, "root", m, version) for version in (1, 2)]
    assert answered(0, "stat", m).startswith("form      new, slots of 128 bytes\n")
    # Nothing is written in a dry run, nor where it is already so.
    told = json.loads(answered(0, "move", m, "--to", "old", "--dry-run", "--json"))
    assert (told["form"], told["written"], told["kept"]) == ("old", False, m + ".old"), told
    untouched(m, 11, "is a store of the new form already", "move", m, "--to", "new")
    assert not os.path.exists(m + ".old")
    answered(0, "move", m, "--to", "old")
    with open(m, "rb") as f:
        old = f.read()
    with open(m + ".old", "rb") as f:
        assert f.read() == new
    capacity = (len(new) - HEADER) // SLOT
    assert len(old) == HEADER + OLD_SLOT * capacity and old[4] == 1
    assert "old, slots of 120 bytes (grants move brings it over)" in answered(0, "stat", m)
    assert json.loads(answered(0, "stat", m, "--json"))["form"] == "old"
    # What is kept is not written over.
    untouched(m, 3, "move it away, or say --no-keep", "move", m, "--to", "new")
    answered(0, "move", m, "out", "--to", "new")
    with open("out", "rb") as f:
        assert f.read() == new
    with open(m + ".book", "rb") as f, open("out.book", "rb") as g:
        assert f.read() == g.read()
    answered(0, "move", m, "--to", "new", "--no-keep")
    with open(m, "rb") as f:
        assert f.read() == new
    assert roots == [answered(0, "root", m, version) for version in (1, 2)]
    # A damaged one is refused, and stays.
    write("bad", old[:HEADER + 50] + bytes([old[HEADER + 50] ^ 1]) + old[HEADER + 51:])
    untouched("bad", 13, "is a store of the old form, and damaged", "move", "bad", "--to", "new")
    refused(2, "--to is missing", "move", m)
    refused(2, "a store is moved to", "move", m, "--to", "older")


@test
def report_of_a_range():
    answered(0, "format", "r", 60)
    answered(0, "apply", "r", "-", "--date", "2026-01-05", input=FOUR)
    answered(0, "apply", "r", "-", "--number", 5, "--date", "2026-02-05", input=WITHDRAW)
    out = answered(0, "report", "r").splitlines()
    assert [line.split() for line in out[1:4]] == [
        ["0", "0", "0", "0", "0", "-"],
        ["1", "to", "4", "2026-01-05", "00:00", "4", "3", "7", "3", "2.25"],
        ["5", "2026-02-05", "00:00", "3", "2", "5", "2", "1.67"],
    ]
    # Seven records, and a leaf, an inner node and a root more; 4 times 7 and 5.
    assert out[4:] == ["versions 0 to 5: 10 distinct records, 33 over all versions"]
    told = json.loads(answered(0, "report", "r", "--from", 4, "--json"))
    assert (told["first"], told["last"], told["distinct_records"], told["records"]) == (4, 5, 10, 12)
    assert told["versions"][0] == {"version": 4, "grants": 4, "inner_nodes": 3, "longest_path": 3, "path_sum": 9}
    assert answered(0, "report", "r", "--from", 1, "--to", 2, "--csv").splitlines()[1:] == ["1,4,3,3,9", "2,4,3,3,9"]
    assert "versions 1 to 5" in answered(0, "report", "r", "--from", "2026-01-05")
    refused(2, "choose one", "report", "r", "--csv", "--json")
    refused(2, "--from", "report", "r", "--from", "spring")
    refused(18, "The range was 3 to 6", "report", "r", "--from", 3, "--to", 6)
    refused(18, "1 to 1024 versions", "report", "r", "--from", 5, "--to", 4)
    answered(0, "report", "r", "--svg", "picture")
    picture = read("picture").decode()
    assert picture.startswith("<svg") and "by date" in picture and picture.count("<path d=") >= 4
    refused(3, "picture", "report", "r", "--svg", "picture")
    answered(0, "report", "r", "--svg", "picture", "--force", "--no-book")
    assert "by version" in read("picture").decode()
    # More numbers than a range has: the last 1,024.
    answered(0, "apply", "r", "/dev/null", "--number", 5000)
    assert answered(0, "report", "r").splitlines()[-1].startswith("versions 3977 to 5000: ")


@test
def proofs_of_the_pocket_profile():
    answered(0, "format", "p", 60)
    far = "0000000000" + "80" + 26 * "00"
    answered(0, "apply", "p", "-", "--no-book", input="+ %s %s\n+ %s %s\n" % (64 * "0", value(1), far, value(2)))
    refused(29, "32 steps", "prove", "p", far, "--pocket")
    answered(0, "prove", "p", far, "--out", "long")
    root = answered(0, "root", "p").split()[0]
    answered(0, "verify", root, far, "long")
    refused(29, "32 steps", "verify", root, far, "long", "--pocket")
    refused(29, "32 steps", "verify", 64 * "1", far, "long", "--pocket")
    s = desk()
    assert answered(0, "prove", s, A, "--pocket") == answered(0, "prove", s, A)
    answered(0, "prove", s, A, "--out", "short", "--pocket")
    assert answered(0, "verify", answered(0, "root", s).split()[0], A, "short", "--pocket").startswith("present ")
    refused(2, "--pocket is for one key", "prove", s, A, B, "--version", 1, "--pocket")


@test
def messages_for_partners():
    answered(0, "format", "s", 20)
    write("batch", '+ "oboe" "may read"\n+ "viola" "may write"\n')
    answered(0, "apply", "s", "batch")
    root = answered(0, "root", "s").strip()
    docs = os.path.join(os.path.dirname(os.path.abspath(__file__)), "../../docs/ics23")
    # The messages of docs/PARTNERS.md, by names of the book and by a name between double quotes.
    assert answered(0, "prove", "s", "viola", "--ics23", "--out", "viola").startswith("viola: a message of 70 bytes, present in version 1")
    answered(0, "prove", "s", '"flute"', "--ics23", "--out", "flute")
    for name, kind in (("viola", "present"), ("flute", "absent")):
        assert read(name) == read("%s/%s.%s.bin" % (docs, name, kind)), name
    shown = answered(0, "verify", root, "viola", "--ics23").split(" ", 3)
    assert shown[0] == '"viola"' and shown[1] == "present" and shown[3] == '"may write"\n', shown
    assert answered(1, "verify", root, "flute", "--ics23") == '"flute" absent\n'
    assert answered(1, "verify", root, '"flute"', "flute", "--ics23") == '"flute" absent\n'
    refused(21, "not to be trusted", "verify", root, '"oboe"', "flute", "--ics23")
    refused(21, "not to be trusted", "verify", 64 * "1", "viola", "--ics23")
    told = json.loads(answered(0, "verify", root, "viola", "--ics23", "--json"))
    assert bytes.fromhex(told["raw_key"]) == b"viola" and bytes.fromhex(told["raw_value"]) == b"may write" and told["present"], told
    told = json.loads(answered(1, "verify", root, "flute", "--ics23", "--json"))
    assert told["raw_value"] is None and told["value"] is None and not told["present"], told
    # Hex digits, and standard input and output.
    digits = answered(0, "prove", "s", "viola", "--ics23")
    assert bytes.fromhex(digits.strip()) == read("viola")
    assert answered(0, "verify", root, "-", "--ics23", input=digits).startswith('"viola" present ')
    # As text.
    text = answered(0, "ics23", "show", "viola")
    assert text.startswith('exist\n  key    5 bytes, "viola"\n  value  9 bytes, "may write"\n') and "prefix 00d8ed" in text, text
    text = answered(0, "ics23", "show", "flute")
    assert text.startswith('nonexist\n  key    5 bytes, "flute"\n  left\n    key    4 bytes, "oboe"\n') and "\n  right\n" in text and "prefix 00, suffix fd8b" in text, text
    told = json.loads(answered(0, "ics23", "show", "flute", "--json"))["nonexist"]
    assert [bytes.fromhex(told[side]["key"]) for side in ("left", "right")] == [b"oboe", b"viola"] and told["left"]["path"][0]["prefix"] == "00", told
    # A byte over, a bit, a proof of ours.
    write("over", read("viola") + b"\0")
    write("bent", read("viola")[:30] + b"\2" + read("viola")[31:])
    answered(0, "prove", "s", "viola", "--out", "own")
    for name in ("over", "bent", "own"):
        refused(20, "no ICS 23 message", "verify", root, name, "--ics23")
        refused(20, "no ICS 23 message", "ics23", "show", name)
    # Without a book the names are not known; files give them.
    refused(2, "no raw value is known", "prove", "s", '"viola"', "--ics23", "--no-book")
    write("value", "may write")
    answered(0, "prove", "s", '"viola"', "--ics23", "--no-book", "--raw-value", "value", "--out", "again")
    assert read("again") == read("viola")
    for name in ("oboe", "may read"):
        write(name, name)
    refused(2, "no raw key is known that hashes to c52c4fb8", "prove", "s", "c52c4fb88926f84bcbc39459fb74792f00032309d52aa2f242741702958003cc", "--ics23")
    raw = ["--raw-key", "oboe", "--raw-value", "may read", "--raw-value", "value", "--raw-key", "viola.key"]
    write("viola.key", "viola")
    answered(0, "prove", "s", '"flute"', "--ics23", "--no-book", *raw, "--out", "again", "--force")
    assert read("again") == read("flute")
    # A raw key that no message takes: 257 bytes.
    write("long", "x" * 257)
    answered(0, "format", "t", 20)
    answered(0, "apply", "t", "-", "--no-book", input='+ "%s" "may write"\n' % ("x" * 257))
    refused(25, "1 to 256 bytes", "prove", "t", '"%s"' % ("x" * 257), "--ics23", "--no-book", "--raw-value", "value")
    refused(2, "--ics23 is for one key", "prove", "s", "oboe", "viola", "--version", 1, "--ics23")
    refused(2, "--raw-key goes with --ics23", "prove", "s", "oboe", "--raw-key", "oboe")
    refused(2, "--pocket does not go with --ics23", "prove", "s", "oboe", "--ics23", "--pocket")
    refused(2, "--against does not go with --ics23", "verify", root, "viola", "--ics23", "--against", "s")
    refused(2, "ics23 show FILE", "ics23", "list", "viola")
    refused(24, "32 zero bytes", "prove", "s", "viola", 0, "--ics23")
