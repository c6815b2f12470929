"""Plays what statements answer on tables that are given (*.answers)."""
import re

from worked.server import replies_to
from worked.texts import lines_of, plain
from worked.tokens import units_line
from worked.wire import Unread

ROW = re.compile(r"\((?:[^()']|'(?:[^']|'')*')*\)")


# What stands before the type of a column that has no name.
NAMELESS = re.compile(r"(^|, ) (?=(?:TINYINT|SMALLINT|INT|BIGINT|BIT|NVARCHAR\(\d+\))(?:, |$))")


def spelled(wanted):
    """What is wanted, with all of its pieces. A unit may stand by its number."""
    return units_line(plain(wanted)).replace("\\u005C", "\\")


class Line:
    """A text, and what is wanted of it; a text for which nothing is wanted makes what the lines behind it need."""

    def __init__(self, number, line):
        text, mark, wanted = line.partition(" => ")
        self.number, self.text, self.wanted = number, plain(text), spelled(wanted) if mark else None

    def sent(self):
        """The batches by which it is tried. What a write leaves is looked at, and undone."""
        if self.wanted is None or not self.wanted.startswith(("ok", "leaves ")):
            return [self.text]
        look = f"SELECT * FROM {self.wanted.split()[1].rstrip(':')}" if self.wanted.startswith("leaves ") else ""
        return ["BEGIN TRAN", self.text, look, "WHILE @@TRANCOUNT > 0 ROLLBACK"]


def errors_of(given):
    return [line for line in given if line.startswith("ERROR ")]


def rows_of(given):
    """The last table of a reply: its columns, and its rows."""
    heads = [at for at, line in enumerate(given) if line.startswith("COL(")]
    if not heads:
        return "", []
    table = given[heads[-1] :]
    return NAMELESS.sub(r"\1", table[0][4:-1]), [line[3:] for line in table if line.startswith("ROW(")]


def told(wanted, given):
    """What a reply says, in the words in which it is wanted."""
    errors = errors_of(given)
    if wanted.startswith("error ") or errors:
        return told_error(wanted, errors)
    if wanted.startswith("prints "):
        return "prints " + " ".join(line.partition(": ")[2] for line in given if line.startswith("INFO "))
    columns, rows = rows_of(given)
    said = " ".join(rows) or "none"
    if wanted == "none" or wanted.startswith("("):
        return said
    if wanted.endswith(": none") or ROW.search(wanted.partition(": ")[2]):
        return f"{columns}: {said}"
    return columns


def told_error(wanted, errors):
    if not errors:
        return "no error"
    number, name = errors[0].split()[1], wanted.partition(" ")[2].partition(" ")[2]
    text = errors[0].partition(": ")[2]
    if name and (f"'{name}'" in text or f'"{name}"' in text):
        return f"error {number} {name}"
    return f"error {number}: {text}" if name else f"error {number}"


def judge(line, replies):
    """What is wrong with the replies to the batches of a line, or None."""
    reply = replies[0] if len(replies) == 1 else replies[1]
    if line.wanted is None or line.wanted == "ok":
        found = errors_of(reply)
        return found[0] if found else None
    if line.wanted.startswith("leaves "):
        table, _, wanted = line.wanted[7:].partition(": ")
        given = " ".join(errors_of(reply)) or told(wanted, replies[2])
        return None if given == wanted else f"leaves {table}: {given}"
    given = told(line.wanted, reply)
    return None if given == line.wanted else given


def lines_in(path):
    return [Line(number, line) for number, line in lines_of(path)]


def play(program, lines):
    """The lines of a file that differ. All are tried on one connection, in their order."""
    batches = [line.sent() for line in lines]
    try:
        replies = replies_to(program, [text for texts in batches for text in texts])
    except Unread as fault:
        replies = [[f"ERROR {fault}"]]
    at = 0
    for line, texts in zip(lines, batches):
        own, at = replies[at : at + len(texts)], at + len(texts)
        wrong = judge(line, own) if len(own) == len(texts) else "no reply"
        if wrong:
            yield line.number, line.text[:100], (line.wanted or "no error")[:300], wrong[:300]
