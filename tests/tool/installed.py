"""A root that is signed, and what is installed."""

import os
import shutil
import subprocess

from common import *
from book import market


@test
def a_root_to_be_signed():
    m = market()
    answered(0, "root", m, "--out", "root", "--not-after", "2999-01-01", "--date", "2026-05-11")
    root = answered(0, "root", m).strip()
    text = "the root of a grant store\nversion 2\nroot %s\npublished 2026-05-10T10:00:00Z\nmade 2026-05-11T00:00:00Z\nnot-after 2999-01-01T23:59:59Z\n" % root
    assert read("root").decode() == text == answered(0, "root", m, "--out", "-", "--not-after", "2999-01-01", "--date", "2026-05-11")
    answered(0, "prove", m, "chords sonata", "--out", "p")
    assert answered(0, "verify", "root", '"chords sonata"', "p").startswith("present")
    assert answered(0, "verify", "root", '"chords sonata"', "p", "--least", 2).startswith("present")
    refused(4, "that of version 2, older than 3", "verify", "root", '"chords sonata"', "p", "--least", 3)
    refused(2, "--least goes with a ROOT that is a file", "verify", root, '"chords sonata"', "p", "--least", 2)
    untouched("root", 3, "--force replaces it", "root", m, "--out", "root")
    answered(0, "root", m, 1, "--out", "root", "--force", "--not-after", "2026-05-12")
    refused(4, "is past its date, 2026-05-12T23:59:59Z", "verify", "root", '"chords sonata"', "p")
    write("root", text.replace("version 2", "version 2\nversion 3"))
    for spoiled in (text + "x", text[:-1], text.replace("root of", "roof of"), text.replace("not-after", "not after"), "", "\0"):
        write("root", spoiled)
        refused(2, "neither 64 hex digits nor a file", "verify", "root", '"chords sonata"', "p")
    refused(2, "--not-after goes with --out", "root", m, "--not-after", "2026-05-12")
    refused(2, "is no hex digit", "verify", "none", A, "p")


@test
def the_signing_recipes():
    """The blocks of docs/SIGNING.md, as far as their programs are here."""
    market()
    answered(0, "prove", "market", "chords sonata", "--out", "proof")
    with open(os.path.join(TOP, "docs/SIGNING.md")) as f:
        blocks = [block.split("```")[0] for block in f.read().split("```sh\n")[1:]]
    env = dict(os.environ, PATH=os.path.dirname(TOOL) + ":" + os.environ["PATH"])

    def tried(script):
        """What the editor would see, in a folder of its own."""
        shutil.rmtree("desk", ignore_errors=True)
        os.mkdir("desk")
        for name in ("market", "market.book", "proof"):
            shutil.copy(name, "desk")
        return subprocess.run(["bash", "-euc", script], capture_output=True, text=True, env=env, timeout=60, cwd="desk")

    ran = 0
    for program in ("ssh-keygen", "openssl", "minisign"):
        (block,) = [block for block in blocks if program + " " in block]
        if not shutil.which(program):
            print("  %s is not here: its recipe is not tried" % program)
            continue
        done = tried(block)
        assert done.returncode == 0 and "present " in done.stdout, (block, done)
        # Another statement under the same signature.
        changed = block.replace("# the editor\n", "sed -i 's/^version.*/version 9/' root.txt\n")
        assert changed != block and "present " not in tried(changed).stdout, changed
        ran += 1
    assert ran >= 2


@test
def installed_for_others():
    prefix = os.path.abspath("prefix")
    make = ["make", "--no-print-directory", "-C", TOP, "PREFIX=" + prefix]
    out = subprocess.run(make + ["install"], capture_output=True, text=True, timeout=600)
    assert out.returncode == 0 and out.stdout.startswith("installed below %s for %s: grants " % (prefix, os.uname().machine)), out
    assert ("its proofs checked" in out.stdout) != ("without its proofs" in out.stdout), out
    env = dict(os.environ, PKG_CONFIG_PATH=prefix + "/lib/pkgconfig", LD_LIBRARY_PATH=prefix + "/lib")
    held = read(os.path.join(TOP, "examples/editor.out"))
    for how, name in (("-lgrants", "shared"), ("-l:libgrants.a", "static")):
        line = "cc -std=c99 -Wall -Werror '%s/examples/editor.c' $(pkg-config --cflags --libs grants | sed s/-lgrants/%s/) -o %s" % (TOP, how, name)
        subprocess.run(line, shell=True, env=env, check=True)
        assert subprocess.run(["./" + name], env=env, capture_output=True, check=True).stdout == held
    needed = subprocess.run(["readelf", "-d", "shared"], capture_output=True, text=True).stdout
    assert "libgrants.so.0" in needed, needed
    assert subprocess.run([prefix + "/bin/grants", "--version"], capture_output=True, text=True).stdout in out.stdout
    page = read(prefix + "/share/man/man1/grants.1").decode()
    for name in ("format", "verify", "history"):
        assert ".SS grants %s " % name in page
    for head in ("EXAMPLES", "FILES", "ENVIRONMENT", "EXIT STATUS"):
        assert page.count("\n.SH %s\n" % head) == 1, head
    if shutil.which("man") and shutil.which("groff"):
        shown = subprocess.run(["man", "--warnings", "-l", prefix + "/share/man/man1/grants.1"], capture_output=True, text=True, env=dict(env, MANWIDTH="120", LC_ALL="C.UTF-8"))
        assert shown.returncode == 0 and shown.stderr == "" and "the value of a key in a version" in shown.stdout, shown
    completion = prefix + "/share/bash-completion/completions/grants"
    script = "set -eu; . '%s'; COMP_WORDS=(grants hi) COMP_CWORD=1; _grants; echo ${COMPREPLY[@]}; COMP_WORDS=(grants get s --a) COMP_CWORD=3; _grants; echo ${COMPREPLY[@]}; COMP_WORDS=(grants --json hi) COMP_CWORD=2; _grants; echo ${COMPREPLY[@]}; COMP_WORDS=(grants --json get s --a) COMP_CWORD=4; _grants; echo ${COMPREPLY[@]}"
    done = subprocess.run(["bash", "-c", script % completion], capture_output=True, text=True)
    assert done.stdout == "history\n--at\n" * 2, done
    if shutil.which("zsh"):
        subprocess.run(["zsh", "-n", prefix + "/share/zsh/site-functions/_grants"], check=True)
    subprocess.run(make + ["uninstall"], check=True, capture_output=True)
    left = [name for _, _, names in os.walk(prefix) for name in names]
    assert left == [], left


@test
def built_without_proofs():
    """A checkout in which nothing is proved yet: the library and the tool are there at once, and say what they are worth."""
    for name in ("crates", "crates.txt", "rust", "tests", "include", "Makefile"):
        at = os.path.join(TOP, name)
        # What `rt` made of a crate stands in its out/.
        shutil.copytree(at, name, ignore=shutil.ignore_patterns("out")) if os.path.isdir(at) else shutil.copy(at, name)
    # Not optimised, which is quicker: how fast it is, is not asked here.
    env = {name: value for name, value in os.environ.items() if name != "GRANTS_LIB_DIR"} | {"CARGO_PROFILE_RELEASE_OPT_LEVEL": "0"}

    def made(what):
        done = subprocess.run(["make", "--no-print-directory", what], capture_output=True, text=True, env=env, timeout=900)
        assert done.returncode == 0, done
        assert "Compiled without proofs" in done.stderr and done.stderr.count("\n") == 1, done
        return done.stdout.splitlines()

    machine = os.uname().machine
    last = "target/native/libgrants.a: for %s, compiled without its proofs (`make test` checks them)" % machine
    told = made("lib")
    # The library for this machine and for x86-64, and the proof check alone.
    assert last in told and len(told) == (2 if machine == "x86_64" else 3), told
    assert told[-1].startswith("target/native/libverify.a: for %s, the proof check alone" % machine), told
    assert all(os.path.exists(line.split(":")[0]) for line in told)
    assert read("target/native/libgrants.proofs").splitlines()[-1] == b"not proved"
    subprocess.run(["cc", "-Iinclude", TOP + "/examples/editor.c", "target/native/libgrants.a", "-o", "editor"], check=True)
    assert subprocess.run(["./editor"], capture_output=True).stdout == read(TOP + "/examples/editor.out")
    if shutil.which("cargo"):
        assert made("tool")[-1].startswith("target/bin/grants: grants ")
        version = subprocess.run(["target/bin/grants", "--version"], capture_output=True, text=True).stdout
        assert "(library: compiled without its proofs (`make test` checks them))" in version, version
