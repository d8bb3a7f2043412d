"""A shelf: a folder where a store was a file. What it answers is held against a store with the same grants, a writer is stopped at any point, and its files are spoilt in
every way that a folder can be."""

import fcntl
import json
import os
import random
import shutil
import signal
import subprocess
import time

from common import *

SMALL = ("--bits", 3, "--slots", 128, "--list-slots", 128)


def key(n):
    """Keys of all parts, some of which come together."""
    return bytes([n * 37 % 256]).hex() + "%062x" % n


def asked(keys):
    return "".join("+ %s %s\n" % (k, value(1)) for k in keys)


def shelf(name="m", *more):
    answered(0, "format", name, *(more or SMALL))
    return name


def history(seed, versions=6, keys=40):
    """Batches as text that change a few keys each, with the grants after each."""
    rng = random.Random(seed)
    now, batches = {}, []
    for n in range(versions):
        lines = []
        for k in rng.sample(range(keys), 12 if n == 0 else 5):
            if key(k) in now and rng.random() < 0.4:
                del now[key(k)]
                lines.append("- %s\n" % key(k))
            else:
                now[key(k)] = value(rng.randrange(1, 99))
                lines.append("+ %s %s\n" % (key(k), now[key(k)]))
        batches.append(("".join(lines), dict(now)))
    return batches


def publish_all(name, batches):
    for n, (batch, _) in enumerate(batches):
        answered(0, "apply", name, "-", "--number", 2 * n + 3, "--date", "2026-05-%02d" % (n + 1), input=batch)


def parts(name):
    return sorted(f for f in os.listdir(name) if f.startswith("part-"))


def told(*words, status=0):
    return json.loads(answered(status, *words, "--json"))


@test
def a_shelf_answers_as_a_store():
    batches = history(1)
    shelf("m/")
    answered(0, "format", "s", 600)
    publish_all("m", batches)
    publish_all("s", batches)
    for version in (0, 3, 4, 5, 9, 13):
        a, b = told("list", "m", version, status=0 if version else 1), told("list", "s", version, status=0 if version else 1)
        assert a["grants"] == b["grants"] and a["count"] == b["count"], (a, b)
        assert answered(0, "count", "m", version) == answered(0, "count", "s", version)
        for n in range(0, 40, 7):
            ran = [grants("get", name, key(n), version) for name in ("m", "s")]
            assert (ran[0].status, ran[0].out) == (ran[1].status, ran[1].out), ran
    for words in (("diff", 3, 9), ("diff", 13, 4), ("diff",), ("history", key(3)), ("history", key(38)), ("at", 4, 9), ("list", 9, "--from", 3, "--most", 4), ("list", "--at", "2026-05-03")):
        ran = [grants(words[0], name, *words[1:], "--json") for name in ("m", "s")]
        texts = [json.loads(one.out) for one in ran]
        for text in texts:
            if isinstance(text, dict):
                text.pop("root", None)
        assert ran[0].status == ran[1].status and texts[0] == texts[1], ran
    logs = [told("log", name) for name in ("m", "s")]
    for row in logs[0] + logs[1]:
        for own in ("root", "records", "new"):
            row.pop(own)
    assert logs[0] == logs[1], logs
    reports = [told("report", name) for name in ("m", "s")]
    leaves = [[v["grants"] for v in report["versions"]] for report in reports]
    assert leaves[0] == leaves[1] and max(leaves[0]) > 0, leaves
    export = answered(0, "export", "m").splitlines()
    assert export[1:] == answered(0, "export", "s").splitlines()[1:]
    # The last list again, and then another one, brought by an import.
    write("list", "\n".join(export) + "\n")
    assert "holds these grants already" in answered(0, "import", "m", "list")
    write("list", many(300))
    for name in ("m2", "s2"):
        answered(0, "format", name, *(SMALL if name == "m2" else (2000,)))
        answered(0, "import", name, "list", "--no-end")
    assert answered(0, "export", "m2").splitlines()[1:] == answered(0, "export", "s2").splitlines()[1:]
    # Pruned alike.
    for name in ("m", "s"):
        assert "versions 8 to 13 kept" in answered(0, "prune", name, 8)
        refused(18, "keeps versions 8 to 13", "get", name, key(3), 7)
    assert told("list", "m", 8)["grants"] == told("list", "s", 8)["grants"]
    answered(0, "check", "m")
    assert told("stat", "m")["grants"] == told("stat", "s")["grants"]
    # Nothing is written among its files but by a writer.
    refused(2, "among the files of a shelf", "prove", "m", key(3), "--out", "m/list", "--force")
    refused(2, "among the files of a shelf", "root", "m", "--out", "m/root.txt")
    # A lost line of the book.
    os.remove("m/list.book")
    answered(0, "note", "m", 13, "--date", "2026-05-06", "--message", "again")
    assert told("log", "m")[-1]["message"] == "again"
    for line in ("name", "chords"), ("name", "lyrics", "ab" * 32):
        answered(0, line[0], "m", *line[1:])
    assert "chords" in answered(0, "name", "m") and os.path.exists("m/list.book")


@test
def the_commands_of_docs_scale():
    with open(os.path.join(TOP, "docs/SCALE.md")) as f:
        block = f.read().split("```sh\n")[1].split("```")[0]
    write("list", '+ "lyrics sonata" "read"\nend 1\n')
    env = dict(os.environ, PATH=os.path.dirname(TOOL) + ":" + os.environ["PATH"])
    done = subprocess.run(["bash", "-euc", block], capture_output=True, text=True, env=env, timeout=60)
    assert done.returncode == 0 and done.stdout.splitlines()[-1].startswith("present ") and done.stderr == "", (block, done)


@test
def a_shelf_s_proofs():
    batches = history(2)
    publish_all(shelf(), batches)
    for version, now in ((3, batches[0][1]), (13, batches[-1][1])):
        root = answered(0, "root", "m", version).strip()
        asked = [key(n) for n in range(40)]
        for k in asked:
            answered(0, "prove", "m", k, version, "--out", "p", "--force")
            shown = "present %s\n" % now[k] if k in now else "absent\n"
            assert answered(0 if k in now else 1, "verify", root, k, "p", "--bits", 3) == shown
        answered(0, "prove", "m", *asked, "--version", version, "--out", "p", "--force")
        lines = answered(1, "verify", root, *asked, "p", "--bits", 3).splitlines()
        assert lines == ["%s %s" % (k, "present " + now[k] if k in now else "absent") for k in asked]
        write("p", read("p")[:-1])
        refused(20, "The proof for key 40", "verify", root, *asked, "p", "--bits", 3)
        write("p", read("p") + bytes(1) + read("p"))
        refused(20, "has more than 40 proofs", "verify", root, *asked, "p", "--bits", 3)
    # The bits are signed with the root.
    answered(0, "root", "m", "--out", "root.txt", "--not-after", "2100-01-01")
    present = next(iter(batches[-1][1]))
    answered(0, "prove", "m", present, "--out", "p", "--force")
    assert b"\nbits 3\n" in read("root.txt") and answered(0, "verify", "root.txt", present, "p").startswith("present")
    refused(2, "a shelf of 3 bits", "verify", "root.txt", present, "p", "--bits", 4)
    refused(31, "at most 12 bits", "verify", answered(0, "root", "m").strip(), present, "p", "--bits", 13)
    refused(2, "the SHA-256 of nothing that is known", "prove", "m", present, "--ics23")
    # Without them the proof is none.
    refused(20, "is no proof", "verify", answered(0, "root", "m").strip(), present, "p")
    # An empty version has no proof: its root is one.
    refused(24, "32 zero bytes", "prove", "m", present, 0)


def spoilt_proofs(proof, cut):
    """Proofs that show nothing, made of one whose first record has so many bytes."""
    first, second = proof[:cut], proof[cut:]
    yield from (first, second, second + first, first + first, second + second, proof + second, proof + b"\0", first + second[:-1], b"", first[:4])
    for at in (0, 4, 5, 6, 8, 39, 40, 71, cut - 1, cut, cut + 4, cut + 8, cut + 40, len(proof) - 1):
        yield proof[:at] + bytes([proof[at] ^ 1]) + proof[at + 1 :]


@test
def hostile_proofs_of_a_shelf():
    publish_all(shelf(), history(3))
    grants_ = told("list", "m")["grants"]
    root = answered(0, "root", "m").strip()
    known = grants_[0]["key"]
    answered(0, "prove", "m", known, "--out", "p")
    proof = read("p")
    cut = int.from_bytes(proof[:4], "little")
    for wrong in spoilt_proofs(proof, cut):
        write("q", wrong)
        ran = grants("verify", root, known, "q", "--bits", 3)
        assert ran.status in (20, 21), ran
    # A part's proof with another part's list record, another version's, another key's.
    other = next(g["key"] for g in grants_ if g["key"][0] != known[0])
    answered(0, "prove", "m", other, "--out", "o")
    theirs = read("o")
    their_cut = int.from_bytes(theirs[:4], "little")
    for wrong in (theirs[:their_cut] + proof[cut:], proof[:cut] + theirs[their_cut:], theirs):
        write("q", wrong)
        refused(21, "not to be trusted", "verify", root, known, "q", "--bits", 3)
    for bits in (0, 1, 2, 4, 5, 12):
        ran = grants("verify", root, known, "p", "--bits", bits)
        assert ran.status in (0, 21) and (ran.status == 21 or known in answered(0, "list", "m", "--full")), ran


def state(name):
    """What a reader sees, and whether it is whole."""
    answered(0, "check", name)
    return answered(0, "root", name).strip()


def calls(words):
    log = os.path.abspath("../calls.log")
    if os.path.exists(log):
        os.remove(log)
    answered(0, *words, env={"LD_PRELOAD": FAULT, "FAULT_LOG": log})
    with open(log) as f:
        return len(f.read().splitlines())


def fresh(name):
    shutil.rmtree("w", ignore_errors=True)
    shutil.copytree(name, "w")


def stopped(words, kind, seed, trials):
    """Stopped at random points, the old shelf is left or the new one, and the next writer cleans up."""
    fresh("m")
    before = state("w")
    number = calls(words)
    after = state("w")
    assert number > 15
    rng = random.Random(seed)
    seen = set()
    for at in sorted(rng.sample(range(1, number + 1), trials)):
        fresh("m")
        ran = grants(*words, env={"LD_PRELOAD": FAULT, "FAULT": kind, "FAULT_AT": str(at)})
        left = state("w")
        assert left in (before, after), "neither the old shelf nor the new one\n%r" % ran
        seen.add(left == after)
        if kind == "fail":
            assert ran.status in (0, 3), ran
        again = grants(*words)
        assert again.status in (0, 18, 28), again
        answered(0, "apply", "w", "/dev/null", "--number", 90)
        assert [f for f in os.listdir("w") if f.startswith(".")] == [], os.listdir("w")
        assert len(parts("w")) == len({f.split("-")[1] for f in parts("w")}), parts("w")
    return seen


@test
def a_shelf_s_writer_is_stopped():
    batches = history(4)
    publish_all(shelf(), batches[:4])
    write("b", batches[4][0])
    apply = ("apply", "w", "b", "--number", 50)
    for seed, kind in enumerate(("kill", "half", "fail")):
        seen = stopped(apply, kind, seed, 9)
        assert False in seen, kind
        stopped(("prune", "w", 7), kind, seed + 10, 5)
        stopped(("grow", "w", 200), kind, seed + 20, 4)


@test
def a_shelf_s_writer_is_killed_after_any_time():
    shelf("m", "--bits", 4, "--slots", 1024, "--list-slots", 256)
    write("list", many(900))
    answered(0, "import", "m", "list", "--no-end")
    write("b", many(60, seed=9))
    fresh("m")
    before, start = state("w"), time.time()
    answered(0, "apply", "w", "b")
    whole, after = time.time() - start, state("w")
    rng, seen = random.Random(8), set()
    for _ in range(20):
        fresh("m")
        whole *= killed_within(whole, rng, "apply", "w", "b")
        left = state("w")
        assert left in (before, after), "neither the old shelf nor the new one"
        seen.add(left == before)
    assert True in seen
    # A shelf that was being made is there whole, or not at all.
    for _ in range(8):
        shutil.rmtree("n", ignore_errors=True)
        killed_within(whole, rng, "shelf", "m", "n", "--bits", 3)
        if os.path.exists("n"):
            answered(0, "check", "n")
    shutil.rmtree("n", ignore_errors=True)
    answered(0, "shelf", "m", "n", "--bits", 3)
    assert [f for f in os.listdir(".") if f.startswith(".")] == []


@test
def two_writers_and_readers_of_a_shelf():
    shelf()
    writers = []
    for n in range(2):
        loop = "for i in 1 2 3 4 5 6; do printf '+ %%02x%s %s\\n' $((i * 40 + %d)) | '%s' apply m - || exit 1; done" % ("00" * 31, value(7), n, TOOL)
        writers.append(subprocess.Popen(["bash", "-c", loop], stdout=subprocess.DEVNULL, stderr=subprocess.DEVNULL))
    looks = 0
    while any(w.poll() is None for w in writers):
        # A reader has one shelf or the next, and never waits; it may be told that the shelf was written meanwhile.
        ran = grants("check", "m")
        assert ran.status == 0 or "written while it was read" in ran.err, ran
        looks += 1
    assert all(w.wait() == 0 for w in writers) and looks > 0
    stat = told("stat", "m")
    assert (stat["latest"], stat["grants"]) == (12, 12), stat
    assert [v["book"] for v in told("log", "m")] == [None] + ["agrees"] * 12
    # A writer that is waited for no longer.
    with open("m/list", "rb") as holder:
        fcntl.flock(holder, fcntl.LOCK_EX)
        refused(3, "is being written by process %d" % os.getpid(), "apply", "m", "/dev/null", "--wait", 0)
        answered(0, "check", "m")


def written_between(words, writer, trials, rng):
    """Whatever call the writer falls before, w is answered as it was before or as it is after, at once and without a word beside it."""
    fresh("m")
    number = calls(words)
    wanted = [grants(*words).out]
    subprocess.run(["sh", "-c", writer], check=True)
    wanted.append(grants(*words).out)
    for at in rng.sample(range(1, number + 1), min(trials, number)):
        fresh("m")
        ran = grants(*words, env={"LD_PRELOAD": FAULT, "FAULT": "run", "FAULT_AT": str(at), "FAULT_RUN": writer})
        assert ran.out in wanted and ran.status in (0, 1) and ran.err == "", (at, number, writer, ran, wanted)


@test
def a_shelf_is_written_between_any_two_calls_of_a_reader():
    batches = history(8)
    publish_all(shelf(), batches)
    known = told("list", "m")["grants"][0]["key"]
    write("b", "- %s\n" % known)
    publish = "'%s' apply w b --date 2026-05-09 >/dev/null" % TOOL
    writers = (publish, publish + " && '%s' prune w 14 >/dev/null" % TOOL, "'%s' prune w 13 >/dev/null" % TOOL)
    rng = random.Random(4)
    for words in (("get", known), ("prove", known), ("list", "--full"), ("check",), ("log",), ("report",), ("history", known), ("diff", "--stat")):
        for writer in writers:
            written_between((words[0], "w", *words[1:]), writer, 4, rng)


@test
def a_store_is_written_between_any_two_calls_of_a_reader():
    os.mkdir("m")
    for n in range(3):
        n or answered(0, "format", "m/s", 100)
        answered(0, "apply", "m/s", "-", "--date", "2026-05-0%d" % (n + 1), input="+ %s %s\n" % (A, value(n + 1)))
    write("b", "- %s\n" % A)
    publish = "'%s' apply w/s b --date 2026-05-09 >/dev/null" % TOOL
    for words in (("log",), ("list", "--full"), ("history", A), ("report",)):
        written_between((words[0], "w/s", *words[1:]), publish, 99, random.Random(1))


@test
def a_shelf_s_files_are_spoilt():
    batches = history(5)
    publish_all(shelf(), batches[:3])
    shutil.copytree("m", "older")
    publish = ("apply", "m", "-", "--number", 60)
    answered(0, *publish, input=batches[3][0])
    changed = sorted(set(parts("m")) - set(parts("older")))
    kept = sorted(set(parts("m")) & set(parts("older")))
    assert changed and kept
    listed = told("list", "m")["grants"]

    def spoil(change, sentence, part):
        fresh("m")
        change()
        refused(13, sentence, "check", "w")
        # What is read through that part is refused, and nothing is built on it; other parts answer.
        here = [g for g in listed if int(g["key"][:2], 16) >> 5 == int(part[5:8], 16)]
        there = [g for g in listed if g not in here]
        if here:
            refused(13, "is no whole shelf", "get", "w", here[0]["key"])
            refused(13, "is no whole shelf", "prove", "w", here[0]["key"])
            root = read("w/list")
            refused(13, "", "apply", "w", "-", input="- %s\n" % here[0]["key"])
            assert read("w/list") == root
        assert there and answered(0, "get", "w", there[0]["key"]).strip() == there[0]["value"]

    one = next(name for name in changed if not name.endswith("-0"))
    old = next(name for name in parts("older") if name[:8] == one[:8])
    # Lost; an older one in its place, under its own name and under the newer one's; another part's.
    spoil(lambda: os.remove("w/" + one), "is lost", one)
    spoil(lambda: os.rename("w/" + one, "w/" + old) or shutil.copy("older/" + old, "w/" + old), "another root", one)
    spoil(lambda: shutil.copy("older/" + old, "w/" + one), "another root", one)
    spoil(lambda: shutil.copy("m/" + kept[0], "w/" + one), "", one)
    # A newer part than the list: not the one that is named.
    fresh("m")
    answered(0, "apply", "w", "-", input="+ %s %s\n" % (listed[0]["key"], value(77)))
    newer = (set(parts("w")) - set(parts("m"))).pop()
    bytes_ = read("w/" + newer)
    mine = next(name for name in parts("m") if name[:8] == newer[:8])
    fresh("m")
    write("w/" + mine, bytes_)
    refused(13, "another root", "check", "w")
    # It reads as the list says, for it has that version too; nothing is built on it.
    assert answered(0, "get", "w", listed[0]["key"]).strip() == listed[0]["value"]
    refused(13, "another root", "apply", "w", "-", input="- %s\n" % listed[0]["key"])
    # Beside the right one it is what a writer left: no one uses it, and the next writer removes it.
    fresh("m")
    write("w/" + newer, bytes_)
    assert state("w") == state("m") and newer in os.listdir("w")
    answered(0, "apply", "w", "/dev/null")
    assert newer not in os.listdir("w") and len(parts("w")) == len(parts("m"))
    # A part that isn't sound.
    def damage():
        spoilt = bytearray(read("w/" + one))
        used = next(i for i in range(128) if any(spoilt[slot(i)]))
        spoilt[size(used) + 100] ^= 1
        write("w/" + one, bytes(spoilt))
    fresh("m")
    damage()
    refused(13, "part %s of w" % one[5:8], "check", "w")
    # Other bits than those that it was made with; no bits; no list.
    for bits, sentence in ((2, ""), (5, "")):
        fresh("m")
        write("w/shelf", "bits %d\nslots 128\n" % bits)
        refused(13, sentence, "check", "w")
    for text in ("bits 13\nslots 128\n", "slots 128\n", "bits x\nslots 1\n", ""):
        write("w/shelf", text)
        refused(3, "no shelf", "check", "w")
    os.remove("w/shelf")
    refused(3, "no shelf: it has no file 'shelf'", "get", "w", A)
    fresh("m")
    os.remove("w/list")
    refused(3, "no shelf: it has no file 'list'", "check", "w")
    # A name that says something else.
    fresh("m")
    wrong = kept[0].rsplit("-", 1)[0] + "-99"
    os.rename("w/" + kept[0], "w/" + wrong)
    refused(13, "not what its name says", "check", "w")
    # How many grants there were is counted by the names, so no publishing goes by one that is wrong.
    part_key = "%02x" % (int(kept[0][5:8], 16) << 5) + "77" * 31
    refused(13, "not what its name says", "apply", "w", "-", input="+ %s %s\n" % (part_key, value(1)))
    assert read("w/list") == read("m/list")


@test
def any_bytes_in_a_shelf():
    """Files that are lost, spoilt, or under other names: always one of the statuses, the list as it was where a writer refuses, and what is made of it sound."""
    batches = history(9)
    publish_all(shelf(), batches)
    rng = random.Random(10)
    known = sorted(batches[-1][1])
    seen = set()

    def harm(path):
        content = bytearray(read(path))
        for _ in range(rng.choice((1, 1, 4))):
            content[rng.randrange(len(content))] = rng.choice((0, 1, 255, rng.randrange(256)))
        write(path, bytes(content))

    for _ in range(150):
        fresh("m")
        shutil.rmtree("o", ignore_errors=True)
        for name in sorted(os.listdir("w")):
            turn, words = rng.random(), name.split("-")
            if turn < 0.06:
                harm("w/" + name)
            elif turn < 0.09:
                os.remove("w/" + name)
            elif turn < 0.14 and len(words) == 5:
                words[rng.randrange(1, 5)] = rng.choice(("000", "005", "fff", "0", "7", "13", "4294967295", "18446744073709551615"))
                os.rename("w/" + name, "w/" + "-".join(words))
        k, version = rng.choice(known), rng.choice(("0", "5", "13", "99"))
        write("b", "- %s\n+ %s %s\n" % (k, key(39), value(9)) if k != key(39) else "")
        words = rng.choice(
            (
                ["check", "w"],
                ["apply", "w", "b"],
                ["import", "w", "b", "--dry-run"],
                ["prune", "w", version],
                ["grow", "w", "200"],
                ["get", "w", k, version],
                ["prove", "w", k],
                ["list", "w", version],
                ["log", "w"],
                ["diff", "w", "5"],
                ["stat", "w", "--json"],
                ["show", "w"],
                ["report", "w"],
                ["move", "w", "--to", "old", "--no-keep"],
                ["shelf", "w", "o", "--bits", "2"],
                ["rescue", "w"],
                ["rescue", "w", "o", "--latest", "13"],
                ["rescue", "w", "o", "--latest", "13", "--parts-alone"],
                ["format", "w", *map(str, SMALL), "--force"],
            )
        )
        before = os.path.exists("w/list") and read("w/list")
        ran = grants(*words)
        assert ran.status in (0, 1, 2, 3, 4, 5, *range(11, 32)) and "panicked" not in ran.err, ran
        assert ran.status in (0, 1) or ran.err.startswith("grants: "), ran
        if ran.status != 0:
            assert before == (os.path.exists("w/list") and read("w/list")), ran
        if os.path.exists("o"):
            answered(0, "check", "o")
        seen.add((words[0], ran.status == 0))
    assert len(seen) > 25, seen


@test
def a_shelf_takes_as_much_as_it_says():
    shelf("m", "--bits", 1, "--slots", 8192, "--list-slots", 64)
    rng = random.Random(7)
    some = ["%02x%s" % (n % 2 * 128, rng.randbytes(31).hex()) for n in range(1500)]
    low = ["00" + rng.randbytes(31).hex() for _ in range(2200)]
    # 750 records go to each part: one publishing.
    assert answered(0, "apply", "m", "-", input=asked(some)).startswith("version 1, ")
    refused(14, "it takes 2 publishings", "apply", "m", "-", input=asked(low[:1300]))
    assert told("stat", "m")["latest"] == 1
    tried = answered(0, "apply", "m", "-", "--split", "--dry-run", input=asked(low[:1300])).splitlines()
    assert tried[0].startswith("would be version 2, ") and tried[1].startswith("would be version 3, "), tried
    refused(28, "as many numbers", "apply", "m", "-", "--split", "--number", 2, input=asked(low[:1300]))
    assert answered(0, "apply", "m", "-", "--split", "--number", 9, input=asked(low[:1300])).splitlines()[1].startswith("version 9, ")
    assert told("stat", "m")["grants"] == 2800 and answered(0, "count", "m", 8) == "2524\n"
    # Held back, refused: nothing is left of it.
    before = sorted(os.listdir("m"))
    refused(5, "more than a tenth", "apply", "m", "-", input="".join("- %s\n" % k for k in low[:400]))
    refused(5, "was expected", "apply", "m", "-", "--expect-root", ZERO, input="- %s\n" % low[0])
    refused(17, "part 000 of m", "apply", "m", "-", input=asked(low[1300:]))
    refused(28, "at version 9", "apply", "m", "-", "--number", 9, input="")
    write("b", record(A, value(1)) + b"\0")
    refused(14, "72 bytes", "apply", "m", "b")
    write("b", record(D, value(1)) + record(A, value(1)))
    refused(15, "Sort binary records", "apply", "m", "b")
    write("b", record(A, value(1)) + record(D, value(1)) + record(B, value(1)))
    refused(15, "Sort binary records", "apply", "m", "b")
    assert sorted(os.listdir("m")) == before
    # How many slots it takes, how many are there, and only what would help.
    shelf("few", "--bits", 1, "--slots", 5, "--list-slots", 60)
    for batch, takes, free in ((asked([A, B, C, D]), 6, 5), ("- %s\n" % A, 2, 0)):
        refused(17, "It takes %d new records, and part 000 of few has %d free slots. To make room, give the parts more slots (grants grow few %d, or more). few is as it was." % (takes, free, 6 if free else 8), "apply", "few", "-", input=batch)
        answered(0, "grow", "few", 6 if free else 8)
        answered(0, "apply", "few", "-", input=batch)
    refused(17, "prune versions that no one asks for any more (grants prune frees up to 3 slots), or give the parts", "apply", "few", "-", input="- %s\n" % B)
    answered(0, "prune", "few", 2)
    answered(0, "apply", "few", "-", input="- %s\n" % B)
    # What changes nothing touches no part.
    ran = grants("apply", "m", "-", input="- %s\n+ %s %s\n" % ("7f" * 32, low[0], value(1)))
    assert ran.status == 0 and "0 parts changed" in ran.out and ran.err.count("no change") == 2, ran
    # More slots; other bits.
    answered(0, "grow", "m", 16384)
    assert told("stat", "m")["slots"] == 16384
    answered(0, "apply", "m", "-", input=asked(low[1300:]))
    answered(0, "shelf", "m", "n/", "--bits", 2)
    assert answered(0, "export", "n").splitlines()[1:] == answered(0, "export", "m").splitlines()[1:]
    answered(0, "check", "m")


@test
def how_many_publishings_a_shelf_has_room_for():
    shelf("m", "--bits", 2, "--slots", 256, "--list-slots", 64)
    assert told("stat", "m")["publishings_left"] is None
    write("list", many(60))
    answered(0, "import", "m", "list", "--no-end")
    # Each changes one key, all of one part: that part is full before the list is, or the list before the part.
    one = next(line.split()[1] for line in read("list").decode().splitlines())
    for name, full in (("m", "the list"), ("n", "part 00%d" % (int(one[0], 16) >> 2))):
        if name == "n":
            answered(0, "shelf", "m", "n", "--bits", 2, "--slots", 400, "--list-slots", 4096)
        for n in range(11):
            answered(0, "apply", name, "-", input="+ %s %s\n" % (one, value(n + 1)))
        left = told("stat", name)["publishings_left"]
        assert answered(0, "stat", name).splitlines()[-1] == "left      about %d publishings, if they go as the last ones did; then %s is full" % (left, full)
        for made in range(left + 2):
            ran = grants("apply", name, "-", input="+ %s %s\n" % (one, value(made + 20)))
            if ran.status != 0:
                break
        assert ran.status == 17 and full in ran.err and made == left > 3, (made, left, ran)


@test
def a_store_becomes_a_shelf():
    answered(0, "format", "s", 2000)
    publish_all("s", history(6))
    answered(0, "name", "s", "chords")
    for bits in (0, 2, 5):
        name = "m%d" % bits
        answered(0, "shelf", "s", name, "--bits", bits, "--slots", 300, "--list-slots", 300)
        for version in (0, 3, 8, 13):
            a, b = (told("list", n, version, status=0 if version else 1) for n in (name, "s"))
            assert a["grants"] == b["grants"]
            assert (a["book"], a["time"]) == (b["book"], b["time"])
        answered(0, "check", name)
    assert "chords" in answered(0, "name", "m2")
    # Of a shelf one with other bits, the oldest versions pruned.
    answered(0, "prune", "m5", 6)
    answered(0, "shelf", "m5", "again/", "--bits", 3, "--slots", 300, "--list-slots", 300)
    assert told("list", "again", 6)["grants"] == told("list", "s", 6)["grants"]
    assert told("log", "again")[0]["version"] == 6
    # The list's root is a function of the grants alone.
    shelf("once", "--bits", 3, "--slots", 300, "--list-slots", 300)
    write("list", answered(0, "export", "s"))
    answered(0, "import", "once", "list")
    assert answered(0, "root", "once") == answered(0, "root", "again")
    # What can't be, and leaves nothing.
    refused(17, "take more bits, or more slots", "shelf", "s", "n", "--bits", 0, "--slots", 5)
    refused(31, "13 bits", "shelf", "s", "n", "--bits", 13)
    refused(11, "a store has 1 to 16,384", "format", "n", "--bits", 3, "--slots", 16385)
    refused(3, "is there already", "shelf", "s", "m2", "--bits", 2)
    refused(2, "--bits B is missing", "shelf", "s", "n")
    refused(2, "goes with --bits", "format", "n", 20, "--slots", 30)
    refused(3, "--bits with --force makes it afresh", "format", "m2", 20, "--force")
    assert not os.path.exists("n") and [f for f in os.listdir(".") if f.startswith(".")] == []


@test
def what_is_whole_of_a_shelf_comes_back():
    # One part is empty in between, and one at the end.
    batches = history(42)
    publish_all(shelf(), batches)
    roots = {version: answered(0, "root", "m", version).strip() for version in (3, 9, 13)}
    listed = told("list", "m")["grants"]
    # The list's first bytes are lost, and a file that a writer left lies there.
    fresh("m")
    write("w/list", bytes(24) + read("w/list")[24:])
    refused(12, "the list of w", "check", "w")
    assert roots[13] in answered(0, "rescue", "w")
    refused(4, "not what was signed", "rescue", "w", "r", "--latest", 13, "--root", ZERO)
    assert not os.path.exists("r")
    # Every part is whole, so each publishing comes back, also where a part was empty then or is empty now.
    came = told("rescue", "w", "r/", "--latest", 13, "--root", roots[13])
    assert came["first"] == 3 and came["root"] == roots[13] and came["root_compared"], came
    assert came["parts"] == len(parts("m")) and [f for f in parts("m") if f.endswith("-0")], came
    assert told("list", "r")["grants"] == listed and all(answered(0, "root", "r", v).strip() == root for v, root in roots.items())
    answered(0, "check", "r")
    answered(0, "apply", "r", "-", input="+ %s %s\n" % (key(3), value(98)))
    # A part lost a record that only old versions want: the run begins later.
    fresh("m")
    name = max((n for n in parts("w") if not n.endswith("-0")), key=lambda n: int(n.split("-")[2]))
    bytes_ = bytearray(read("w/" + name))
    old = [i for i in range(128) if 0 < fields(i, bytes_)[2] <= int(name.split("-")[2])]
    bytes_[slot(old[0])] = bytes(SLOT)
    write("w/" + name, bytes(bytes_))
    refused(13, "part %s" % name[5:8], "check", "w")
    came = told("rescue", "w", "r2", "--latest", 13, "--root", roots[13])
    assert 3 < came["first"] <= 13, came
    answered(0, "check", "r2")
    assert told("list", "r2")["grants"] == listed
    # A part that is lost: no version comes back that names it.
    fresh("m")
    os.remove("w/" + name)
    refused(13, "part %s is lost" % name[5:8], "rescue", "w", "r3", "--latest", 13)
    refused(12, "is above --latest", "rescue", "w", "r3", "--latest", 3, "--oldest", 9)
    refused(3, "is there already", "rescue", "m", "r", "--latest", 13)
    assert not os.path.exists("r3") and [f for f in os.listdir(".") if f.startswith(".")] == []
