#!/usr/bin/env python3
"""Brings the repository's own definitions and lemmas to snake case.

usage: python3 tools/snake_names.py [--check]        at the top of the repository, once, after port.py

Types and modules keep their upper camel case, and names that begin with a capital are left. Every other name that specs/ or proofs/ declares, that is a definition, a
lemma, a constructor or a field, and that has a hump or a dash, gets underscores: `countIn` is `count_in`, `filter-append` is `filter_append`. A renaming is made wherever
the word stands: in .antt and .rt files, in must-fail edits, and between backquotes in comments and pages. It is one to one: where the new spelling is taken, a lemma gets
`_lem` after its name, and what is taken even so keeps its spelling; both are printed. Names that come from the kit's libraries, and names that the check makes (in
`Proof.antt`, and fields after a state), are left. --check writes nothing.
"""

import collections
import glob
import os
import re
import subprocess
import sys

WORD = re.compile(r"[A-Za-z_][A-Za-z0-9_'₀-₉-]*[A-Za-z0-9_'₀-₉]|[A-Za-z_]")
HEAD = re.compile(r"^( *)((?:(?:abbrev|unfoldable|opaque|pub) )*)([^\s(){}.;,@\"«»`\[\]\\:◌]+)(?: \{\S+\})* :(?: |$)", re.M)
USE = re.compile(r"^\s*(?:ghost )?(?:pub )?use ([^\s{;]+?)(?:\.\{([^}]*)\}|\.([^.\s;{]+))?(?: as (\S+?))?;?\s*$", re.M)
# What a walk of the older form made: states, goals and their parts.
MADE = re.compile(r"^(?:.*-(?:requires|result|holds|less|again|test|init|smaller|preserved)(?:-\d+)?|.*-from-.*|at-loop.*|in-loop.*|after-.*|(?:then|else)\d.*|(?:invariant|decreases)-.*)$")


def files(*endings):
    out = []
    for folder in ("specs", "proofs"):
        out += glob.glob(f"crates/*/{folder}/**/*.antt", recursive=True)
    return sorted(out)


def snake(word):
    word = re.sub(r"(?<=[a-z0-9'₀-₉])([A-Z]+)(?=[A-Z][a-z])", lambda m: "_" + m[1], word)
    word = re.sub(r"(?<=[a-z0-9'₀-₉])([A-Z])", r"_\1", word)
    head = word.replace("-", "_")
    return re.sub(r"_+", "_", head).lower()


def words(text):
    return WORD.findall(text)


def main():
    check = "--check" in sys.argv
    own = set(open("crates.txt").read().split()) | set(os.listdir("crates"))
    declared, lemmas, foreign, fields, bare_lemmas, used = set(), set(), set(), set(), set(), collections.Counter()
    texts = {p: open(p, encoding="utf-8").read() for p in files()}
    sources = sorted(glob.glob("crates/*/src/**/*.rt", recursive=True))
    texts.update({p: open(p, encoding="utf-8").read() for p in sources})
    for p, t in texts.items():
        for m in USE.finditer(t):
            path = m[1].split(".")
            if not (path[0] == "Rattle" and len(path) > 1 and path[1] in own):
                for leaf in (m[2] or m[3] or "").split(","):
                    foreign.update(leaf.split(" as ")[0].split())
        if p.endswith(".antt"):
            bare = re.sub(r"\.[^\s(){}.;,]+", "", t) if os.path.basename(p) == "Proof.antt" else t
            used.update(words(re.sub(r"(?m)^(?:pub )?use \S+?(?=\.\{|$| as )|(?<!\S)--(?= |$).*", "", bare)))
            if os.path.basename(p) == "Proof.antt":
                continue
            for m in HEAD.finditer(t):
                name = m[3]
                if m[1] and m[2].strip() == "pub":
                    fields.add(name)
                if "/proofs/" in p:
                    bare_lemmas.add(name)
                if name[0].islower() and (re.search(r"[A-Z]", name) or "-" in name):
                    declared.add(name)
                    if "/proofs/" in p:
                        lemmas.add(name)
        else:
            # A parameter or a field hides a definition of its name in a clause; a function of the name doesn't.
            used.update(re.findall(r"(\w+): ", re.sub(r"//.*", "", t)))
    declared -= foreign
    declared = {n for n in declared if WORD.fullmatch(n)}
    # Chosen by hand, where the plain spelling is a field's.
    table, taken = {"valueIn": "value_inside"}, set(used) | foreign
    assert "value_inside" not in taken
    declared.discard("valueIn")
    kept, lems = [], []
    # Definitions of specs/ first, then lemmas.
    for name in sorted(declared, key=lambda n: (n in lemmas, "-" in n, n)):
        to = snake(name)
        if to in taken:
            if to + "_lem" not in taken and name in lemmas:
                to += "_lem"
                lems.append(f"{name} -> {to}")
            elif to in bare_lemmas and name not in lemmas:
                # A definition comes before a lemma of its name.
                table[to] = to + "_lem"
                lems.append(f"{to} -> {to}_lem")
            else:
                kept.append(name)
                continue
        table[name] = to
        taken.add(to)
    print(f"{len(declared)} names, {len(table)} renamed, {len(lems)} with _lem, {len(kept)} kept")
    print("kept:", " ".join(kept))
    print("lem:", "; ".join(lems))

    def turned(text):
        return WORD.sub(lambda m: table.get(m[0], m[0]) if not re.search(r"use Rattle\.[^{]*\.$", text[: m.start()]) else m[0], text)

    def walk(text):
        """A walk's line: what stands after `tie.` is made, and so is what stands after a dot, but for fields."""
        def one(m):
            before = text[: m.start()]
            if before.endswith("tie.") or before.endswith(".") and m[0] not in fields:
                return m[0]
            return table.get(m[0], m[0])
        return WORD.sub(one, text)

    def in_comment(text):
        return re.sub(r"`[^`\n]*`", lambda m: turned(m[0]), text)

    def antt(text, turn):
        out = []
        for line in text.split("\n"):
            at = re.search(r"(?:^|(?<=\s))--(?= |$)", line)
            if at:
                out.append(turn(line[: at.start()]) + in_comment(line[at.start() :]))
            else:
                out.append(turn(line))
        return "\n".join(out)

    def turned_code(text):
        """No lemma stands in a source, and functions there may have the name of one."""
        return WORD.sub(lambda m: table.get(m[0], m[0]) if re.search(r"[A-Z-]", m[0]) else m[0], text)

    def rattle(text):
        out = []
        for line in text.split("\n"):
            at = line.find("//")
            out.append(turned_code(line[:at]) + in_comment(line[at:]) if at >= 0 else turned_code(line))
        return "\n".join(out)

    changed = 0
    todo = dict(texts)
    for p in sorted(glob.glob("crates/*/must-fail/*.edit")):
        todo[p] = open(p, encoding="utf-8").read()
    pages = ["README.md", "CHANGELOG.md", "CONTRIBUTING.md", "SECURITY.md"] + sorted(glob.glob("docs/**/*.md", recursive=True)) + sorted(glob.glob("crates/*/README.md"))
    for p in pages:
        if os.path.isfile(p):
            todo[p] = open(p, encoding="utf-8").read()
    for p, t in todo.items():
        if p.endswith(".antt"):
            new = antt(t, walk if os.path.basename(p) == "Proof.antt" else turned)
        elif p.endswith(".rt"):
            new = rattle(t)
        elif p.endswith(".edit"):
            new = "\n".join(turned(l) if l.startswith(("old:", "new:")) else l for l in t.split("\n"))
        else:
            new = in_comment(t)
        if new != t:
            changed += 1
            if not check:
                with open(p, "w", encoding="utf-8") as f:
                    f.write(new)
    print(f"{changed} files")


main()
