#!/usr/bin/env python3
"""Lists the places in src/ that docs/DESIGN-PASS.md counts, point by point.

usage: python3 tools/design_places.py [POINT] [--at COMMIT] [--only-counts]

Run at the top of the repository; --at reads a commit in place of the files. Each line is `POINT KIND file: what`.
"""
import collections
import difflib
import io
import itertools
import re
import subprocess
import sys
import tarfile

CONSTANTS = (
    "WRONG_SIZE|WRONG_HEADER|NOT_SOUND|BAD_BATCH|BAD_ORDER|FEW_SLOTS|NOT_KEPT|NO_ROOM|NOT_IN_FORM|NOT_HOLDING|NOT_32_BYTES|"
    "TOO_MANY_VISITS|EMPTY_VERSION|NOT_RAW|WRONG_INDEX|LOST|NOT_ABOVE|OUTSIDE_POCKET|PAST_NUMBER|TOO_MANY_BITS"
)


def sources(commit):
    """The text of each source file by its path."""
    tar = subprocess.run(["git", "archive", commit, "crates"], capture_output=True, check=True).stdout if commit else None
    if tar is None:
        names = subprocess.run(["git", "ls-files", "-co", "--exclude-standard", "crates/*/src/*.rt"], capture_output=True, text=True, check=True).stdout.split()
        return {name: open(name, encoding="utf-8").read() for name in sorted(set(names)) if _is(name)}
    out = {}
    with tarfile.open(fileobj=io.BytesIO(tar)) as it:
        for member in it.getmembers():
            if member.isfile() and re.fullmatch(r"crates/\w+/src/\w+\.rt", member.name):
                out[member.name] = it.extractfile(member).read().decode()
    return dict(sorted(out.items()))


def _is(name):
    try:
        open(name, encoding="utf-8").close()
        return True
    except FileNotFoundError:
        return False


def bare(text):
    """The text without comments."""
    return re.sub(r"//[^\n]*", "", text)


def functions(text):
    """Each function: its name, its head (parameters, result, clauses) and its body."""
    for m in re.finditer(r"\bfn (\w+)", text):
        depth, i, body = 0, m.end(), None
        while i < len(text):
            ch = text[i]
            if ch == ";" and depth == 0:
                break
            if ch == "{":
                if depth == 0 and (text[:i].rstrip(" ").endswith("\n") or not re.search(r"\b(requires|ensures)\b", text[m.start() : i])):
                    start = i
                    d = 0
                    while True:
                        d += {"{": 1, "}": -1}.get(text[i], 0)
                        i += 1
                        if d == 0:
                            break
                    body = text[start:i]
                    break
                d = 0
                while True:
                    d += {"{": 1, "}": -1}.get(text[i], 0)
                    i += 1
                    if d == 0:
                        break
                continue
            if ch == "(":
                depth += 1
            elif ch == ")":
                depth -= 1
            i += 1
        if body:
            yield m.group(1), text[m.start() : start], body


def point1(files):
    for name, text in files.items():
        for m in re.finditer(r"\benum (\w+) \{(.*?)\n\}", text, re.S):
            variants = re.findall(r"^    (\w+)(\([^)]*\)| \{.*?\n    \}| \{[^}]*\})?,", m.group(2), re.M | re.S)
            full = [v for v, held in variants if held]
            if any(v == "Refused" for v, _ in variants):
                yield "refusal-enum", name, m.group(1)
            elif len(variants) == 2 and len(full) == 1:
                yield "option-enum", name, m.group(1)
            elif len(variants) == 3 and not full:
                yield "three-way-enum", name, m.group(1)
        for m in re.finditer(r"\bstruct (\w+) \{(.*?)\n\}", text, re.S):
            if re.search(r"\b(found|there|leaf): bool", m.group(2)) and m.group(2).count(":") > 1:
                yield "flag-with-value", name, m.group(1)
        for line in text.split("\n"):
            if re.search(rf"\b({CONSTANTS})\b|\bRefusal::\w+\.number\(\)", line) and not re.match(r"\s*(use|pub use)\b", line):
                yield "refusal-number", name, line.strip()
            if re.search(r"\bkind: u(8|16|32|64)\b", line):
                yield "number-for-kind", name, line.strip()


def point2(files):
    funcs = []
    for name, text in files.items():
        for fn, _, body in functions(text):
            words = re.findall(r"\w+|[^\w\s]", body)
            if len(words) >= 40:
                funcs.append((name, fn, words, collections.Counter(words)))
    for a, b in itertools.combinations(funcs, 2):
        low, high = sorted((len(a[2]), len(b[2])))
        if low < 0.85 * high or sum((a[3] & b[3]).values()) < 0.85 * high:
            continue
        if difflib.SequenceMatcher(None, a[2], b[2], autojunk=False).ratio() >= 0.9:
            yield "twins", a[0], f"{a[1]} and {b[0]}: {b[1]}"


def point3(files):
    for name, text in files.items():
        for fn, _, body in functions(text):
            for m in re.finditer(r"(?<!\w)(while|loop)\b[^{]*\{", body):
                by_index = re.search(r"\b\w+ \+= 1;|\b(\w+) = \1 \+ 1;|\b\w+ -= 1;", body)
                yield "loop-by-index" if by_index else "loop-other", name, f"{fn}: {' '.join(m.group(0).split())}"


def point4(files):
    for name, text in files.items():
        for fn, head, body in functions(text):
            flat = " ".join(body.split())
            if re.fullmatch(r"\{ \w+ as \w+ \}", flat):
                yield "conversion", name, fn
            if re.match(r"(same|equal|before|is_zero|no_hash)(_\w+)?$", fn):
                yield "comparison", name, fn
            if re.search(r"(\w+)\[(\w+)\] = \w+\[\2( \+ \w+)?\];|(\w+)\[\w+ \+ (\w+)\] = \w+\[\5\];", flat):
                yield "copy", name, fn


def point5(files):
    facts, groups = collections.defaultdict(set), collections.defaultdict(set)
    for name, text in files.items():
        for fn, head, _ in functions(text):
            for m in re.finditer(r"requires(?: \w+)? \{ (.*?) \}\n", head, re.S):
                for fact in re.split(r" × ", m.group(1)):
                    facts[fact.strip("() ").replace(".old", ".now")].add((name, fn))
            params = re.search(r"\((.*?)\)\s*(->|requires|ensures|$)", head, re.S)
            names = [" ".join(p.split()) for p in (params.group(1).split(",") if params else []) if ":" in p]
            for pair in itertools.combinations(names, 2):
                groups[pair].add((name, fn))
    for fact, where in sorted(facts.items(), key=lambda it: -len(it[1])):
        if len(where) >= 3:
            yield "fact", f"{len(where)} functions", fact
    for pair, where in sorted(groups.items(), key=lambda it: -len(it[1])):
        if len(where) >= 20:
            yield "parameters", f"{len(where)} functions", ", ".join(pair)


def point6(files):
    for name, text in files.items():
        for fn, head, _ in functions(text):
            if re.search(r"\[u\d+; \d+\],\s*(many|n): usize", head):
                yield "buffer-with-length", name, fn


def point7(files):
    for name, text in files.items():
        for fn, head, body in functions(text):
            if re.search(r"\bwhich: u|\bstep: u|: fn\(", head):
                yield "switch", name, fn
            for m in re.finditer(r"match (\w+) \{\s*0 =>", body):
                yield "switch", name, f"{fn}: match {m.group(1)}"


def main():
    args = sys.argv[1:]
    commit = args[args.index("--at") + 1] if "--at" in args else None
    points = [a for a in args if a.isdigit() and len(a) == 1] or list("1234567")
    files = sources(commit)
    files = {name: bare(text) for name, text in files.items()}
    for point in points:
        counts = collections.Counter()
        for kind, where, what in globals()["point" + point](files):
            counts[kind] += 1
            if "--only-counts" not in args:
                print(point, kind, f"{where}: {what}")
        for kind, n in sorted(counts.items()):
            print(f"point {point}: {kind} {n}")
        if not counts:
            print(f"point {point}: none")


main()
