"""What the tool answers: the example of the rules, reads, proofs, batches, trees."""

import json
import os
import random
import shutil

from common import *


@test
def the_example_of_the_rules():
    answered(0, "format", "s", 20)
    made = [
        (FOUR, (1, 7)),
        (WITHDRAW, (2, 3)),
        ("", (3, 1)),
        ("- %s\n" % A, (4, 2)),
        ("- %s\n" % D, (5, 1)),
        ("- %s\n" % C, (6, 0)),
    ]
    for batch, (version, new) in made:
        out = json.loads(answered(0, "apply", "s", "-", "--json", input=batch))["published"]
        assert [(p["version"], p["new_records"]) for p in out] == [(version, new)]
        assert out[0]["root"] == answered(0, "root", "s").strip()
    assert answered(0, "root", "s").strip() == ZERO
    assert answered(0, "prune", "s", 4) == "10 records freed, versions 4 to 6 kept\n"
    out = answered(0, "apply", "s", "-", input="+ %s %s" % (D[:-1] + "1", value(6)))
    assert out.startswith("version 7, 1 new record, root ")
    assert answered(0, "prune", "s", 4).startswith("0 records freed")
    untouched("s", 18, "keeps versions 4 to 7", "prune", "s", 8)
    assert answered(0, "check", "s") == "s is sound, versions 4 to 7\n"


@test
def get_and_root():
    s = desk()
    assert answered(0, "get", s, C) == value(5) + "\n"
    assert answered(0, "get", s, C, 1) == value(3) + "\n"
    assert answered(1, "get", s, B) == "absent\n"
    assert answered(1, "get", s, A, 0) == "absent\n"
    assert answered(0, "get", s, C.upper(), "--json") == '{"version":2,"key":"%s","value":"%s"}\n' % (C, value(5))
    assert answered(1, "get", s, B, "--json") == '{"version":2,"key":"%s","value":null}\n' % B
    assert answered(0, "root", s, 0) == ZERO + "\n"
    assert answered(0, "root", s) == answered(0, "root", s, 2) != answered(0, "root", s, 1)
    refused(18, "keeps versions 0 to 2", "get", s, A, 3)


@test
def proofs_are_made_and_checked():
    s = desk()
    root = answered(0, "root", s).strip()
    for key, found in ((A, value(1)), (B, None), (C, value(5)), (D, value(4)), ("ff" * 32, None)):
        status, shown = (0, "present %s\n" % found) if found else (1, "absent\n")
        out = answered(0, "prove", s, key, "--out", "proof", "--force")
        assert out == "proof: %d bytes, %s in version 2\n" % (os.path.getsize("proof"), shown.split()[0])
        assert answered(status, "verify", root, key, "proof") == shown
        # As hex, and through a pipe.
        hexed = answered(0, "prove", s, key)
        assert bytes.fromhex(hexed) == read("proof")
        assert answered(status, "verify", root, key, "-", input=hexed) == shown
        raw = grants("prove", s, key, "--out", "-", input=b"").out
        assert raw == read("proof")
        assert grants("verify", root, key, "-", input=raw).status == status
        told = json.loads(answered(status, "verify", root, key, "proof", "--json"))
        assert (told["present"], told["value"]) == (found is not None, found)
        told = json.loads(answered(0, "prove", s, key, "--json"))
        assert (told["root"], told["value"], told["proof"]) == (root, found, hexed.strip())
        # Against another version's root, and of another key.
        old = answered(0, "root", s, 1).strip()
        refused(21, "not to be trusted", "verify", old, key, "proof")
        refused(21, "refused with 11", "verify", root, "ab" * 32, "proof")


@test
def palettes():
    s = desk()
    root = answered(0, "root", s).strip()
    # The proofs of several keys are those of each, in the order asked, repeats too.
    asked = [C, B, A, C]
    each = [bytes.fromhex(answered(0, "prove", s, key)) for key in asked]
    assert answered(0, "prove", s, *asked, "--version", 2, "--out", "proofs") == "proofs: 4 proofs, %d bytes in version 2\n" % len(b"".join(each))
    assert read("proofs") == b"".join(each)
    told = json.loads(answered(0, "prove", s, *asked, "--version", 2, "--json"))
    assert [row["length"] for row in told["proofs"]] == [len(proof) for proof in each]
    # 0 only if all are present, 1 if all are accepted and some absent, else the first refusal with its key.
    lines = ["%s present %s" % (C, value(5)), "%s absent" % B, "%s present %s" % (A, value(1)), "%s present %s" % (C, value(5))]
    assert answered(1, "verify", root, *asked, "proofs") == "\n".join(lines) + "\n"
    answered(0, "prove", s, A, D, "--version", 2, "--out", "two")
    answered(0, "verify", root, A, D, "two")
    refused(21, "The proof for key 2, %s" % C, "verify", root, A, C, "two")
    refused(20, "more than 2 proofs", "verify", root, C, B, "proofs")
    refused(20, "The proof for key 3", "verify", root, A, D, A, "two")
    refused(2, "several keys want --version", "prove", s, A, B, C)
    refused(22, "257 keys were asked for", "prove", s, *[A] * 257, "--version", 2)
    refused(22, "Key 2 has 31 bytes", "prove", s, A, B[2:], "--version", 2)
    refused(18, "keeps versions", "prove", s, A, B, "--version", 9)


@test
def empty_versions():
    """2026-03: a version without a grant has no proof; its root of zeros is what an editor goes by."""
    sentence = "refused with 14: the version is empty, so there is no proof. The version's root is 32 zero bytes: signed, it is itself the proof"
    s = desk()
    answered(0, "apply", s, "-", input="".join("- %s\n" % key for key in sorted((A, B, C, D))))
    for version in ([0], [3], []):
        assert answered(0, "root", s, *version).strip() == "00" * 32
        assert answered(1, "get", s, B, *version) == "absent\n"
        for key in (A, "ab" * 32):
            refused(24, sentence, "prove", s, key, *version)
            refused(24, sentence, "prove", s, key, *version, "--out", "none")
            assert not os.path.exists("none")
    refused(18, "refused with 8", "prove", s, B, 4)
    # What stood for it before is off form, whatever the root; a proof of another version fails under the zero root.
    answered(0, "prove", s, B, 2, "--out", "absent")
    refused(21, "refused with 11", "verify", "00" * 32, B, "absent")
    for root in ("00" * 32, answered(0, "root", s, 2).strip()):
        for key in (B, "ab" * 32):
            refused(20, "refused with 10", "verify", root, key, write("bad", number(40, 4) + number(17, 2) + number(0, 2) + bytes.fromhex(B)))


@test
def proofs_off_form():
    s = desk()
    root = answered(0, "root", s).strip()
    answered(0, "prove", s, B, "--out", "proof")
    good = read("proof")
    for bad in (b"", good[:-1], good + b"\0", b"\xff" * 100, good.hex()[:-1].encode(), bytes(40)):
        refused(20, "refused with 10", "verify", root, B, write("bad", bad))
    refused(3, "there is no such file", "verify", root, B, "none")
    refused(3, "it is a directory", "verify", root, B, ".")


@test
def batches_as_text():
    answered(0, "format", "s", 100)
    text = "# a comment\n\n  + %s   %s # another\r\n\t- %s\n" % (D.upper(), value(1), A)
    answered(0, "apply", "s", write("b", text))
    assert answered(0, "get", "s", D) == value(1) + "\n"
    # Out of order: it sorts.
    lines = FOUR.splitlines(True)
    answered(0, "apply", "s", "-", input="".join(reversed(lines)))
    answered(0, "format", "t", 100)
    answered(0, "apply", "t", "-", input=FOUR)
    assert answered(0, "root", "s") == answered(0, "root", "t")


@test
def batches_in_binary():
    binary = record(A, value(1)) + record(B) + record(C, value(3))
    answered(0, "format", "s", 100)
    answered(0, "apply", "s", write("b", binary))
    assert answered(0, "get", "s", C) == value(3) + "\n"
    assert grants("apply", "s", "-", "--json", input=binary).status == 0
    untouched("s", 15, "the batch's keys aren't strictly ascending", "apply", "s", write("b", record(C) + record(A)))
    untouched("s", 15, "the batch's keys aren't strictly ascending", "apply", "s", write("b", record(A) + record(A)))
    for bad in (binary[:-1], binary + b"\0", b"\0" * 72, record(A)[:-1] + b"\1"):
        untouched("s", 14, "72 bytes", "apply", "s", write("b", bad))
    untouched("s", 14, "refused with 4", "apply", "s", write("b", FOUR), "--binary")


@test
def batches_that_are_wrong():
    s = desk()
    for text, sentence in (
        ("+ %s\n" % A, "Line 1 of the batch: it is neither '+ KEY VALUE' nor '- KEY'"),
        ("\n* %s\n" % A, "Line 2"),
        ("- %s %s\n" % (A, A), "Line 1"),
        ("+ %s %s\n" % (A[:-1], value(1)), "the key is wrong (63 hex digits, not 64)"),
        ("+ %s %s\n" % (A, value(1) + "00"), "the value is wrong (66 hex digits, not 64)"),
        ("- %s\n" % ("g" + A[1:]), "'g' is no hex digit"),
        ("hello", "Line 1"),
    ):
        untouched(s, 14, sentence, "apply", s, write("b", text))
    untouched(s, 14, "neither text nor binary", "apply", s, write("b", b"\xff\xfe"))
    untouched(s, 15, "in line 1 and again in line 3", "apply", s, write("b", "- %s\n- %s\n+ %s %s\n" % (A, B, A, value(1))))
    write("b", "")
    untouched(s, 3, "there is no such file", "apply", s, "none")
    untouched(s, 3, "it is a directory", "apply", s, "/")


@test
def a_batch_too_long_and_its_split():
    answered(0, "format", "s", LARGEST)
    answered(0, "apply", "s", write("b", many(1024)))
    write("c", many(2500, 2))
    untouched("s", 14, "--split to publish it as 3 versions", "apply", "s", "c")
    untouched("s", 14, "This one has 1025", "apply", "s", write("d", many(1025, 3)))
    published = json.loads(answered(0, "apply", "s", "c", "--split", "--json"))["published"]
    assert [p["version"] for p in published] == [2, 3, 4]
    told = json.loads(answered(0, "log", "s", "--json"))
    assert [v["grants"] for v in told] == [0, 1024, 2048, 3072, 3524], told
    assert [v["root"] for v in told][2:] == [p["root"] for p in published]
    # Too little room for the last part: no part is published.
    answered(0, "format", "t", 4000)
    untouched("t", 17, "grants grow", "apply", "t", "c", "--split")
    # Binary records are cut where they stand.
    sorted_lines = sorted(line.split() for line in many(1100, 4).splitlines())
    write("e", b"".join(record(k, v) for _, k, v in sorted_lines))
    untouched("s", 14, "This one has 1100", "apply", "s", "e")
    assert answered(0, "apply", "s", "e", "--split").count("version") == 2
    # A short batch with --split is one version, and so is an empty one.
    assert answered(0, "apply", "t", "-", "--split", input=FOUR).count("version ") == 1
    assert answered(0, "apply", "t", "-", "--split", input="").count("version ") == 1
    assert answered(0, "apply", "t", "-", "--split", "--binary", input="").count("version ") == 1


@test
def log_show_and_get_agree():
    rng = random.Random(7)
    keys = [rng.randbytes(32).hex() for _ in range(40)]
    answered(0, "format", "s", 2000)
    for _ in range(12):
        some = rng.sample(keys, 9)
        text = "".join("- %s\n" % k if rng.random() < 0.4 else "+ %s %s\n" % (k, rng.randbytes(32).hex()) for k in some)
        answered(0, "apply", "s", "-", input=text)
    answered(0, "prune", "s", 3)
    told = json.loads(answered(0, "log", "s", "--json"))
    lines = [line.split() for line in answered(0, "log", "s", "--full").splitlines()[1:]]
    assert [v["version"] for v in told] == list(range(3, 13))
    for entry, line in zip(told, lines):
        columns = [entry[k] for k in ("version", "grants", "added", "removed", "changed", "records", "new", "root")]
        assert line[:1] + line[3:10] == ["-" if c is None else str(c) for c in columns], (entry, line)
    assert told[0]["added"] is None and told[0]["book"] == "agrees"
    trees = json.loads(answered(0, "show", "s", "--json", *range(3, 13)))
    before = None
    for entry, tree in zip(told, trees):
        leaves = {r["key"]: r["value"] for r in tree["records"] if "key" in r}
        grants_ = json.loads(answered(0, "list", "s", entry["version"], "--json"))["grants"]
        assert [(g["key"], g["value"]) for g in grants_] == sorted(leaves.items())
        if before is not None:
            both = before.keys() & leaves.keys()
            changed = sum(before[k] != leaves[k] for k in both)
            assert [entry["added"], entry["removed"], entry["changed"]] == [len(leaves) - len(both), len(before) - len(both), changed]
        before = leaves
        assert (entry["grants"], entry["records"]) == (len(leaves), len(tree["records"])) == (tree["grants"], len(tree["records"]))
        assert entry["root"] == tree["root"] == answered(0, "root", "s", entry["version"]).strip()
        for key in rng.sample(keys, 6):
            out = answered(0 if key in leaves else 1, "get", "s", key, entry["version"]).strip()
            assert out == leaves.get(key, "absent")
        text = answered(0, "show", "s", entry["version"], "--full")
        assert all("leaf %s = %s" % grant in text for grant in leaves.items()), text
        assert text.count("\n") == 1 + entry["records"]
    assert answered(0, "log", "s", "--last", 2).splitlines()[1:] == answered(0, "log", "s").splitlines()[-2:]
    assert answered(0, "log", "s", "--last=99") == answered(0, "log", "s")
    refused(18, "keeps versions 3 to 12", "show", "s", 2)


@test
def show_draws_a_tree():
    s = desk()
    out = answered(0, "show", s, 1)
    assert out.split("\n")[1:] == [
        "  inner 3 + 1  (version 1, slot 6)",
        "  ├─0 inner 1 + 2  (version 1, slot 4)",
        "  │   ├─0 leaf 00000000..0000 = 01010101..0101  (version 1, slot 2)",
        "  │   └─1 inner 1 + 1  (version 1, slot 3)",
        "  │       ├─0 leaf 40000000..0000 = 02020202..0202  (version 1, slot 0)",
        "  │       └─1 leaf 60000000..0000 = 03030303..0303  (version 1, slot 1)",
        "  └─1 leaf 80000000..0000 = 04040404..0404  (version 1, slot 5)",
        "",
    ], out
    assert answered(0, "show", s, 0) == "version 0: 0 grants, 0 records, root %s\n" % ZERO
    graph = answered(0, "show", s, 1, 2, "--dot")
    assert graph.startswith("digraph grants {") and graph.endswith("}\n")
    assert all(graph.count("  s%d [" % slot) == 1 for slot in range(10)), graph
    # The longest path there is: two keys that differ in the last bit.
    answered(0, "format", "t", 300)
    answered(0, "apply", "t", "-", input="+ %s %s\n+ %s %s\n" % (A, value(1), A[:-1] + "1", value(2)))
    assert answered(0, "show", "t").count("\n") == 1 + 258
    refused(2, "named twice", "show", s, 1, 1)
    refused(2, "--json", "show", s, "--dot", "--json")


@test
def show_draws_a_picture_where_dot_is():
    s = desk()
    if shutil.which("dot"):
        answered(0, "show", s, 1, 2, "--svg", "tree.svg")
        assert b"</svg>" in read("tree.svg")
        assert grants("show", s, 1, 2, "--svg", "-", input=b"").out == read("tree.svg")
    refused(3, "`dot` is not installed", "show", s, "--svg", "t.svg", env={"PATH": "/nonexistent"})
    untouched(s, 2, "would be lost", "show", s, "--svg", s) if shutil.which("dot") else None
    untouched(s, 2, "would be lost", "prove", s, A, "--out", s)


@test
def stat_tells_sizes():
    s = desk()
    told = json.loads(answered(0, "stat", s, "--json"))
    assert told == {"form": "new", "capacity": 20, "used": 10, "free": 10, "oldest": 0, "latest": 2, "kept": 3, "publishings": 3, "grants": 3, "bytes": size(20), "publishings_left": 3}
    out = answered(0, "stat", s)
    assert out.startswith("form      new, slots of 128 bytes\ncapacity  20 slots\nused      10\nfree      10\nkept      0 to 2, 3 versions\ngrants    3 in version 2\nbytes     2584\nleft      about 3 publishings, "), out
    answered(0, "format", "one", 1)
    assert answered(0, "stat", "one") == "form      new, slots of 128 bytes\ncapacity  1 slot\nused      0\nfree      1\nkept      0 to 0, 1 version\ngrants    0 in version 0\nbytes     152\n"
    # All versions there can be, in a store that is sound: no loop over them.
    write("wide", store_bytes(50, 2**32 - 1))
    assert json.loads(answered(0, "stat", "wide", "--json"))["kept"] == 2**32
    assert answered(0, "log", "wide", "--last", 2, "--full").count(ZERO) == 2
    answered(0, "check", "wide")
    untouched("wide", 28, "no number is above that", "apply", "wide", "/dev/null")
    untouched("wide", 28, "no number is above that", "apply", "wide", "/dev/null", "--number", 2**32 - 1)
    answered(0, "prune", "wide", 2**32 - 1)


@test
def a_store_on_standard_input():
    s = desk()
    raw = read(s)
    for words in (("check", "-"), ("root", "-"), ("get", "-", C), ("prove", "-", B), ("log", "-"), ("show", "-"), ("stat", "-")):
        ran = grants(*words, input=raw)
        assert ran.status == 0, ran
        named = grants(*[s if w == "-" else w for w in words], *(["--book", "/dev/null"] if words[0] == "log" else []))
        assert ran.out.decode().replace("- is sound", s + " is sound") == named.out
    for words in (("apply", "-", "-"), ("prune", "-", 1), ("format", "-", 20)):
        refused(2, "must be a file", *words)
