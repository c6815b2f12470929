"""Plays scripts of engine steps (*.steps)."""
import subprocess
from itertools import zip_longest

from worked.server import PATIENCE


class Script:
    """A script, the lines that it is to print, and the status with which it ends."""

    def __init__(self, number, title):
        self.number, self.title, self.input, self.wanted, self.status = number, title, b"", [], 0

    def put(self, form, end):
        """A line, with what ends it: a text, or one that is repeated or has zeros in front."""
        if form.startswith(("*", "+")):
            count, _, text = form[1:].partition(" ")
            front, text = ("0" * int(count), text) if form[0] == "+" else ("", text)
            lines = [text] * (int(count) if form[0] == "*" else 1)
        else:
            front, lines = "", [form[1:]]
        for text in lines:
            self.input += (front + text).encode() + end

    def want(self, count, text):
        self.wanted += [text] * count
        if text.startswith("bad line "):
            self.status = 5


def scripts_of(path):
    """The scripts of a file. docs/ROWS.md has its form."""
    scripts = []
    with open(path, encoding="utf-8") as file:
        for number, line in enumerate(file, 1):
            line = line.rstrip("\n")
            if line.startswith("# "):
                scripts.append(Script(number, line[2:]))
            elif line.startswith("? "):
                scripts.append(Script(number, line))
                scripts[-1].put(line[1:], b"\n")
                scripts[-1].want(1, "bad line 1")
            elif line.startswith((">", "~")):
                scripts[-1].put(line[1:], b"\n" if line[0] == ">" else b"")
            elif line.startswith("*"):
                count, _, text = line[1:].partition(" ")
                scripts[-1].want(int(count), text)
            elif line and not line.startswith("-- "):
                scripts[-1].want(1, line)
    return scripts


def play(program, script):
    """The first line that differs, or the status."""
    try:
        run = subprocess.run([program, "steps"], input=script.input, stdout=subprocess.PIPE, timeout=PATIENCE, check=False)
    except subprocess.TimeoutExpired:
        yield script.number, script.title, "an end", f"no end within {PATIENCE} seconds"
        return
    given = run.stdout.decode("utf-8", "replace").split("\n")
    for wanted, line in zip_longest([*script.wanted, ""], given, fillvalue="nothing"):
        if line != wanted:
            yield script.number, script.title, wanted, line
            return
    if run.returncode != script.status:
        yield script.number, script.title, f"status {script.status}", f"status {run.returncode}"
