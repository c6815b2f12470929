#!/usr/bin/env python3
"""Tells what a gate takes: the processor minutes of each crate, and the time by the clock.

    tools/gate_cost.py [--of PID] [--to FILE]

It runs `rt ci` at the top of the repository, or looks at one that runs, and reads twice a second from /proc how long each prover
below it has worked. Behind the end, and each minute into FILE, it prints a line for each crate, the dearest first: its proof or
build, its edits with the check that they begin with, and its tests; then the sums. What an earlier run has kept is not proved,
and not counted. The status is that of `rt ci`.
"""
import argparse
import os
import pathlib
import subprocess
import sys
import time
from collections import defaultdict

TOP = pathlib.Path(__file__).resolve().parent.parent
TICKS = os.sysconf("SC_CLK_TCK")
KINDS = ("proof", "edits", "tests")


def processes():
    """Of each process its number, that of its parent, and the seconds that it has worked."""
    for name in os.listdir("/proc"):
        if name.isdigit():
            try:
                fields = pathlib.Path(f"/proc/{name}/stat").read_text().rpartition(")")[2].split()
            except OSError:
                continue
            yield int(name), int(fields[1]), (int(fields[11]) + int(fields[12])) / TICKS


def below(top):
    """The processes that a process has begun, and those that they have."""
    found = [*processes()]
    parents = {it: parent for it, parent, _ in found}
    for it, _, worked in found:
        above = parents.get(it, 0)
        while above not in (top, 0, 1):
            above = parents.get(above, 0)
        if above == top:
            yield it, worked


def job_of(process):
    """The crate that a prover works on, and why; nothing of another process."""
    try:
        words = pathlib.Path(f"/proc/{process}/cmdline").read_bytes().decode(errors="replace").split("\0")
        folder = os.readlink(f"/proc/{process}/cwd")
    except OSError:
        return None
    if not words[0].endswith("/rattle") or "--crate-name" not in words[:-1]:
        return None
    kind = "edits" if "/rt-edit" in folder else "tests" if "--test" in words else "proof"
    return words[words.index("--crate-name") + 1], kind


def table(jobs, seconds, clock):
    """The lines to print."""
    spent = defaultdict(lambda: dict.fromkeys(KINDS, 0.0))
    for process, (crate, kind) in jobs.items():
        spent[crate][kind] += seconds[process] / 60
    lines = [f"{'crate':<20}" + "".join(f"{it:>8}" for it in (*KINDS, "all"))]
    for crate, of in sorted(spent.items(), key=lambda it: -sum(it[1].values())):
        lines.append(f"{crate:<20}" + "".join(f"{it:8.1f}" for it in (*of.values(), sum(of.values()))))
    sums = [sum(of[kind] for of in spent.values()) for kind in KINDS]
    lines.append(f"{'sum':<20}" + "".join(f"{it:8.1f}" for it in (*sums, sum(sums))))
    lines.append(f"{clock / 60:.1f} minutes by the clock, {len(os.sched_getaffinity(0))} processors")
    return "\n".join(lines)


def main():
    words = argparse.ArgumentParser(description=__doc__, formatter_class=argparse.RawDescriptionHelpFormatter)
    words.add_argument("--of", type=int, help="the process of a gate that runs")
    words.add_argument("--to", type=pathlib.Path, help="a file for what is known so far")
    words = words.parse_args()
    gate = None if words.of else subprocess.Popen(["rt", "ci"], cwd=TOP)
    top = words.of or gate.pid
    begun, told = time.time(), 0
    jobs, seconds = {}, {}
    while (gate.poll() is None) if gate else os.path.exists(f"/proc/{top}"):
        for process, worked in below(top):
            job = job_of(process)
            if job:
                jobs[process], seconds[process] = job, worked
        if words.to and time.time() - told > 60:
            told = time.time()
            words.to.write_text(table(jobs, seconds, told - begun) + "\n")
        time.sleep(0.5)
    text = table(jobs, seconds, time.time() - begun)
    if words.to:
        words.to.write_text(text + "\n")
    print(text)
    return gate.returncode if gate else 0


if __name__ == "__main__":
    sys.exit(main())
