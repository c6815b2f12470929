"""Plays texts that read, or are refused (*.texts)."""
import re

from worked.server import replies_to
from worked.tokens import units_line
from worked.wire import Unread, expanded

# What a letter behind `~` stands for.
CONTROLS = {"n": "\n", "r": "\r", "t": "\t", "f": "\f", "v": "\v", "0": "\0", "(": "{", ")": "}"}

# The errors by which a text is refused before anything of it is done.
REFUSALS = {
    "102": "Incorrect syntax near '{}'.",
    "137": 'Must declare the scalar variable "{}".',
    "49009": "Nesting is too deep.",
    "49013": "Variable '{}' is declared twice.",
}

# With what a text begins that stands in no batch with others.
DEFINITION = re.compile(r"(\s|--[^\n]*\n|/\*.*?\*/)*CREATE\s+(PROC|PROCEDURE|TRIGGER)\b", re.IGNORECASE | re.DOTALL)

# So many texts, and units of them, are sent on one connection.
MOST, MOST_UNITS = 200, 1000000


class Ask:
    """A batch that is sent, and what is wanted of it. A definition that reads is made, on a connection of its own."""

    def __init__(self, number, text, wanted):
        self.number, self.text, self.wanted = number, text, wanted
        self.is_alone = wanted == "reads" and DEFINITION.match(text) is not None


def plain(text):
    """The text that a line writes."""
    out, units = "", iter(expanded(text))
    for unit in units:
        letter = next(units, "") if unit == "~" else ""
        out += CONTROLS.get(letter, letter) if letter else unit
    return out


def swapped(text):
    """The text with small letters and capitals exchanged, but for the `N` of a text in quotes."""
    others = text.swapcase()
    return "".join(
        one if one in "Nn" and text[at + 1 : at + 2] == "'" else other for at, (one, other) in enumerate(zip(text, others))
    )


def asks_of(number, line):
    """The batches by which a line is tried: its text as it is spelled, and in the other case, or as the body of a procedure."""
    asked, _, wanted = line.partition(" => ")
    question, mark, text = asked.partition(": ")
    if not mark or question not in ("spelled", "body"):
        question, text = "", asked
    text, wanted = plain(text), plain(wanted)
    yield Ask(number, text, wanted)
    if question == "body":
        yield Ask(number, "CREATE PROC p AS " + text, wanted)
    elif not question:
        yield Ask(number, swapped(text), refusal_swapped(wanted))


def refusal_swapped(wanted):
    said, near, spelled = wanted.partition(" near ")
    return said + near + swapped(spelled)


def sent(ask):
    """A text that reads is not run: it stands behind a RETURN, but for one that stands alone, as a definition does."""
    return "RETURN; " + ask.text if ask.wanted == "reads" and not ask.is_alone else ask.text


def reply_of(refusal):
    """The reply by which a text is refused. The text of an error has no more than 2,000 units."""
    said, _, near = refusal.partition(" near ")
    number, _, line = said.partition(" line ")
    text = units_line(REFUSALS[number].format(near), 2000)
    return [f"ERROR {number} class 15 state 1 line {line}: {text}", "DONE(02,0,0)"]


def judge(ask, given):
    """What is wrong with a reply, or None."""
    if ask.wanted != "reads":
        is_right = given == reply_of(ask.wanted)
    elif ask.is_alone:
        is_right = not any(line.startswith("ERROR ") and line.split()[1] in REFUSALS for line in given)
    else:
        is_right = given == ["DONE(00,0,0)"]
    return None if is_right else " ".join(given)


def chunks(asks):
    """The batches of each connection: one that stands alone has its own."""
    chunk = []
    for ask in asks:
        if ask.is_alone:
            yield [ask]
        else:
            chunk.append(ask)
        if len(chunk) == MOST or sum(len(it.text) for it in chunk) > MOST_UNITS:
            yield chunk
            chunk = []
    if chunk:
        yield chunk


def lines_of(path):
    with open(path, encoding="utf-8") as file:
        for number, line in enumerate(file, 1):
            if line.strip("\n") and not line.startswith("#"):
                yield number, line.rstrip("\n")


def asks_in(path):
    return [ask for number, line in lines_of(path) for ask in asks_of(number, line)]


def play(program, chunk):
    """The lines that differ."""
    try:
        replies = replies_to(program, [sent(ask) for ask in chunk])
    except Unread as fault:
        replies = [[str(fault)]]
    for at, ask in enumerate(chunk):
        wrong = judge(ask, replies[at]) if at < len(replies) else "no reply"
        if wrong:
            yield ask.number, units_line(ask.text, 100), units_line(ask.wanted, 200), wrong[:300]
