"""The command line tool as a person or a script meets it. Arguments: the tool, fault.so, the README, then names of tests where not all are
to run, or --write-tour, which puts what the tour's commands print into the README. The last line counts what passed."""

import difflib
import os
import shutil
import subprocess
import sys
import tempfile
import traceback

from common import *

# Their tests, in this order.
import answers
import wrong
import stopped
import files
import book
import counts
import installed
import rescues
import publishing
import later
import shelf
import shelf_life
import rescue_with
import table

LONG = ("built_without_proofs",)


def toured(text):
    """The README with what the blocks of its tour print now, all of them pasted into one shell."""
    head, tour = text.split("## A tour", 1)
    tour, rest = tour.split("\n## ", 1)
    parts = tour.split("```")
    blocks = [i for i, part in enumerate(parts) if part.startswith("sh\n") and "/path/to" not in part]
    script = "".join("%s\nprintf '\\0'\n" % parts[i][3:] for i in blocks)
    path = os.path.dirname(TOOL) + ":" + os.environ["PATH"]
    run = subprocess.run(["bash"], input=script, text=True, stdout=subprocess.PIPE, stderr=subprocess.STDOUT, env=dict(os.environ, PATH=path))
    came = run.stdout.split("\0")
    assert len(came) == len(blocks) + 1 and len(blocks) > 5, "%d blocks of %d were run" % (len(came) - 1, len(blocks))
    for i, out in zip(blocks, came):
        if parts[i + 2 : i + 3] and parts[i + 2].startswith("text\n") and parts[i + 1].strip() == "":
            parts[i + 2] = "text\n" + out
        else:
            assert out == "", "this prints something:\n%s\n%s" % (parts[i], out)
    return head + "## A tour" + "```".join(parts) + "\n## " + rest


@test
def the_readme_s_tour():
    with open(README) as f:
        text = f.read()
    came = toured(text)
    difference = "\n".join(difflib.unified_diff(text.splitlines(), came.splitlines(), "the README says", "what came", lineterm=""))
    assert came == text, difference
    # The picture in docs/ is drawn from this store.
    assert read(os.path.join(os.path.dirname(README), "docs/tree.dot")) == read("tree.dot"), "docs/tree.dot is another graph"


def write_tour():
    """Puts what the tour's commands print into the README, and draws the picture."""
    with open(README) as f:
        text = f.read()
    os.chdir(tempfile.mkdtemp(prefix="grants-tour-"))
    came = toured(text)
    with open(README, "w") as f:
        f.write(came)
    docs = os.path.join(os.path.dirname(README), "docs")
    shutil.copy("tree.dot", docs)
    subprocess.run(["dot", "-Tsvg", "tree.dot", "-o", os.path.join(docs, "tree.svg")], check=True)


def passes(function, top):
    """Runs one test in a folder of its own; where it fails, says why."""
    folder = os.path.join(top, function.__name__, "here")
    os.makedirs(folder)
    os.chdir(folder)
    try:
        function()
        return True
    except Exception:
        sys.stdout.write("%s failed\n%s" % (function.__name__, traceback.format_exc()))
        return False
    finally:
        sys.stdout.flush()
        os.chdir("/")


def work(jobs, results, chosen, top):
    """Takes tests by their numbers, a byte each, until there are no more, and gives a byte for each that ended."""
    while number := os.read(jobs, 1):
        os.write(results, b"\1" if passes(chosen[number[0]], top) else b"\0")


def main():
    os.umask(0o022)
    top = tempfile.mkdtemp(prefix="grants-tool-")
    os.chmod(top, 0o755)
    only = sys.argv[4:]
    if only == ["--write-tour"]:
        return write_tour()
    chosen = [function for function in tests if not only or function.__name__ in only]
    # What takes long begins first, and as many run at once as there are cores: each is a folder and processes of its own.
    chosen.sort(key=lambda function: function.__name__ not in LONG)
    jobs, results = os.pipe(), os.pipe()
    os.write(jobs[1], bytes(range(len(chosen))))
    os.close(jobs[1])
    workers = []
    for _ in range(min(len(chosen), len(os.sched_getaffinity(0)))):
        worker = os.fork()
        if worker == 0:
            os.close(results[0])
            work(jobs[0], results[1], chosen, top)
            os._exit(0)
        workers.append(worker)
    os.close(results[1])
    with os.fdopen(results[0], "rb") as ended:
        passed = ended.read().count(b"\1")
    for worker in workers:
        os.waitpid(worker, 0)
    shutil.rmtree(top)
    # A test that ended without a word failed too.
    print("%d passed, %d failed" % (passed, len(chosen) - passed))
    sys.exit(passed != len(chosen))


main()
