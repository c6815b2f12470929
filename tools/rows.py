#!/usr/bin/env python3
"""Plays the files of rows against the built program, from outside, as a client would, and prints each row that differs.

  tools/rows.py                       all files of rows/ but dear.rows, which takes minutes
  tools/rows.py FILE..                these
  tools/rows.py FILE 'title'          of a file the conversation, or the script, of this title, or the line that has this text
  tools/rows.py --batch 'SELECT 1'    prints the lines of the reply to a batch; of several, one behind another

The last line is `N passed, M failed`; the status is 1 where a row failed. docs/ROWS.md has the forms of the files."""
import argparse
import os
import sys
from concurrent.futures import ThreadPoolExecutor

import dist
from worked import answers, scripts, talks, texts, words
from worked.book import Book
from worked.server import replies_to
from worked.tokens import Tokens, replies_of
from worked.wire import Unread, batch

# What tools/queries.py and tools/fuzz.py take from here.
__all__ = ["Book", "Tokens", "Unread", "batch", "replies_of"]

TOP = os.path.dirname(os.path.dirname(os.path.abspath(__file__)))
AT_ONCE = 4

# Played by its name alone: batches of a million statements, queries of millions of pairs.
DEAR = "dear.rows"


class Job:
    """What is played at once: so many rows of a file, which differ in what `play` yields."""

    def __init__(self, path, rows, play, what):
        self.path, self.rows, self.play, self.what = path, rows, play, what

    def failures(self, program):
        """The rows that differ, each once, by their lines."""
        return list(self.play(program, self.what))


def is_asked(title, text):
    return title in (None, text)


def jobs_of(path, title):
    kind = os.path.splitext(path)[1]
    if kind == ".rows":
        for chain in talks.chains_of(Book(path).conversations):
            if any(is_asked(title, conversation.title) for conversation in chain):
                yield Job(path, sum(conversation.rows() for conversation in chain), talks.play, chain)
    elif kind == ".steps":
        for script in scripts.scripts_of(path):
            if is_asked(title, script.title):
                yield Job(path, 1, scripts.play, script)
    elif kind == ".words":
        for run in words.runs_of(path):
            if is_asked(title, run.title()):
                yield Job(path, 1, words.play, run)
    elif kind == ".texts":
        asks = [ask for ask in texts.asks_in(path) if is_asked(title, ask.text)]
        for chunk in texts.chunks(asks):
            yield Job(path, len(chunk), texts.play, chunk)
    elif kind == ".answers":
        lines = [line for line in answers.lines_in(path) if line.wanted is None or is_asked(title, line.text)]
        yield Job(path, len(lines), answers.play, lines)
    else:
        sys.exit(f"{path} is no file of rows")


def play_all(program, jobs):
    """How many rows agree and differ, for each file. What takes long begins first."""
    counts = {}
    with ThreadPoolExecutor(AT_ONCE) as pool:
        for job, failures in zip(jobs, pool.map(lambda job: job.failures(program), jobs)):
            for number, title, wanted, given in failures:
                print(f"{job.path}:{number}: {title}\n  wanted {wanted}\n  given  {given}")
            failed = min(job.rows, len({(number, title) for number, title, _wanted, _given in failures}))
            passed, other = counts.get(job.path, (0, 0))
            counts[job.path] = passed + job.rows - failed, other + failed
    return counts


def all_files():
    folder = os.path.join(TOP, "rows")
    return [os.path.relpath(os.path.join(folder, name)) for name in sorted(os.listdir(folder)) if name != DEAR]


def main():
    asked = argparse.ArgumentParser(description=__doc__, formatter_class=argparse.RawDescriptionHelpFormatter)
    asked.add_argument("--bin", default=dist.current() or dist.BUILT, help="the program, without it that of these sources")
    asked.add_argument("--batch", action="append", default=[], metavar="TEXT", help="prints the reply to it")
    asked.add_argument("files", nargs="*", metavar="FILE")
    said = asked.parse_args()
    if not os.path.exists(said.bin):
        sys.exit(f"{said.bin} is not there: ./tsqld builds it")
    if said.batch:
        for lines in replies_to(said.bin, said.batch):
            print("\n".join(lines))
        return
    title = said.files.pop() if len(said.files) == 2 and not os.path.exists(said.files[1]) else None
    jobs = [job for path in said.files or all_files() for job in jobs_of(path, title)]
    jobs.sort(key=lambda job: "dear" not in job.path)
    counts = play_all(os.path.abspath(said.bin), jobs)
    for path, (passed, failed) in counts.items():
        if said.files or failed:
            print(f"{path}: {passed} passed, {failed} failed")
    failed = sum(failed for _passed, failed in counts.values())
    print(f"{sum(passed for passed, _failed in counts.values())} passed, {failed} failed")
    sys.exit(failed > 0 or not jobs)


if __name__ == "__main__":
    main()
