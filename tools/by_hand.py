#!/usr/bin/env python3
"""Tries the wrong bodies of crates: those that the gate tries, in must-fail/, and the others, in by-hand/.

    tools/by_hand.py [--jobs N] [--libraries FOLDER] CRATE ..
    tools/by_hand.py [--jobs N] [--libraries FOLDER] --since COMMIT

With --since they are those of all crates that have changed since the commit. Each edit is tried by the gate's own code, over
the libraries that a gate has left in crates/*/out, or over those of the tree FOLDER, so that no crate below is proved again.
A crate is checked once as it is; then its edits are tried over what that check has proved, side by side: N at a time, or as
many as there are processors and memory for. Of each crate that stands as it is committed, docs/PROOFS.md gets a line in its
table of wrong bodies. The status is 1 where one was not refused.
"""
import argparse
import importlib.machinery
import importlib.util
import os
import pathlib
import re
import shutil
import subprocess
import sys
import tempfile
import time
from concurrent.futures import ThreadPoolExecutor, as_completed

TOP = pathlib.Path(__file__).resolve().parent.parent
PAGE = TOP / "docs" / "PROOFS.md"
HEAD = "| Crate | Edits | Tried at | Refused |\n|---|---|---|---|\n"
FLAGS = ["--jobs", "1"]
# most checks take less
MEMORY = 3_000_000_000


def gate():
    """The code of rt."""
    path = shutil.which("rt") or sys.exit("there is no rt")
    loader = importlib.machinery.SourceFileLoader("rt", os.path.realpath(path))
    made = importlib.util.module_from_spec(importlib.util.spec_from_loader("rt", loader))
    loader.exec_module(made)
    return made


def git(*words):
    """What git prints, or nothing where it fails."""
    ran = subprocess.run(["git", *words], cwd=TOP, stdout=subprocess.PIPE, stderr=subprocess.DEVNULL, text=True)
    return "" if ran.returncode else ran.stdout


def edits_of(name):
    """The edits of a crate, the gate's first."""
    return [it for part in ("must-fail", "by-hand") for it in sorted((TOP / "crates" / name / part).glob("*.edit"))]


def changed_since(commit):
    """The crates with edits in which a file is not that of the commit."""
    if not git("rev-parse", "--verify", f"{commit}^{{commit}}"):
        sys.exit(f"there is no commit {commit}")
    files = git("diff", "--name-only", commit, "--", "crates").split("\n")
    names = {it.split("/")[1] for it in files if it.count("/") > 1}
    return sorted(it for it in names if edits_of(it))


def crates_over(rt, libraries):
    """The crates by name, each with its library in that tree."""
    crates = rt.rtlib.crates_below(str(TOP))
    for crate in crates:
        crate.rlib = f"{libraries}/crates/{crate.name}/out/rlib/{crate.name}.rlib"
    return {it.name: it for it in crates}


def why_unproved(rt, crate, kept):
    """Why the crate as it is can't be checked into this folder, or nothing."""
    missing = [it.name for it in crate.below() if not os.path.exists(it.rlib)]
    if missing:
        return f"there is no library of {', '.join(missing)}: prove them first, or give --libraries"
    ran = rt.checked(crate, {}, FLAGS, str(kept))
    return f"it is not proved as it is: {ran.stdout[-500:]}" if ran.returncode else None


def is_refused(rt, crate, edit, kept):
    """Tries an edit over what that folder has, and one that was not refused so again from nothing; says what became of it."""
    begun = time.time()
    with tempfile.TemporaryDirectory(prefix="by-hand-") as room:
        shutil.copytree(kept, f"{room}/kept")
        refused, text = rt.must_fail(crate, str(edit), FLAGS, f"{room}/kept")
    if not refused:
        refused, text = rt.must_fail(crate, str(edit), FLAGS)
    print(f"{text} ({time.time() - begun:.0f} s)", flush=True)
    return refused


def tried(rt, crates, jobs):
    """By each crate's name its edits that were not refused, or nothing where it is not proved."""
    left = {}
    with tempfile.TemporaryDirectory(prefix="by-hand-") as room, ThreadPoolExecutor(jobs) as pool:
        room = pathlib.Path(room)
        proofs = {pool.submit(why_unproved, rt, it, room / it.name): it for it in crates}
        trials = {}
        for proof in as_completed(proofs):
            crate, why = proofs[proof], proof.result()
            left[crate.name] = None if why else []
            print(f"{crate.name}: {why or 'proved as it is'}", flush=True)
            for edit in [] if why else edits_of(crate.name):
                trials[pool.submit(is_refused, rt, crate, edit, room / crate.name)] = crate.name, edit.stem
        for trial in as_completed(trials):
            name, edit = trials[trial]
            left[name] += [] if trial.result() else [edit]
    return left


def line_of(name, left):
    """The line of a crate in the table, by its edits that were not refused."""
    refused = "all" if not left else f"all but {', '.join(f'`{it}`' for it in sorted(left))}"
    return f"| `{name}` | {len(edits_of(name))} | {git('rev-parse', '--short', 'HEAD').strip()} | {refused} |\n"


def write_down(lines):
    """Writes these crates' lines into the table, in the place of those that they had, by name."""
    before, head, behind = PAGE.read_text(encoding="utf-8").partition(HEAD)
    if not head:
        sys.exit(f"{PAGE} has no table of wrong bodies")
    rows = re.match(r"(\|.*\n)*", behind)[0]
    of_crates = {it.split("`")[1]: it for it in rows.splitlines(keepends=True)} | lines
    text = before + head + "".join(of_crates[it] for it in sorted(of_crates)) + behind[len(rows) :]
    PAGE.write_text(text, encoding="utf-8")


def asked():
    """What the words ask for, with the names of the crates."""
    words = argparse.ArgumentParser(description=__doc__, formatter_class=argparse.RawDescriptionHelpFormatter)
    words.add_argument("names", nargs="*", metavar="CRATE")
    words.add_argument("--since", metavar="COMMIT", help="all crates that have changed since then")
    words.add_argument("--libraries", metavar="FOLDER", type=pathlib.Path, default=TOP, help="a tree with libraries")
    words.add_argument("--jobs", metavar="N", type=int, help="how many checks run side by side")
    words = words.parse_args()
    if not (words.names or words.since):
        sys.exit("which crates? see --help")
    words.names += changed_since(words.since) if words.since else []
    bare = [it for it in words.names if not edits_of(it)]
    if bare:
        sys.exit(f"no edits: {', '.join(bare)}")
    return words


def main():
    words, rt = asked(), gate()
    # (begun here, and not by the first of several threads)
    rt.rtlib.guarded()
    os.environ.pop(rt.rtlib.ALLOW_C, None)
    crates = crates_over(rt, words.libraries.resolve())
    jobs = words.jobs or max(1, min(rt.processors(), rt.free() // MEMORY))
    # the longest first
    names = sorted({*words.names}, key=lambda it: -crates[it].count(rb"\n"))
    left = tried(rt, [crates[it] for it in names], jobs)
    told = [it for it in names if left[it] is not None and not git("status", "--porcelain", f"crates/{it}")]
    write_down({it: line_of(it, left[it]) for it in told})
    for it in names:
        if it not in told:
            print(f"{it} gets no line: it is not proved, or has changes that are not committed")
    return 1 if any(it is None or it for it in left.values()) else 0


if __name__ == "__main__":
    sys.exit(main())
