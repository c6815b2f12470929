"""The lexemes of a text: words, quoted names, variables, numbers, texts and signs, each with the line at which it
stands."""
import re
from typing import NamedTuple, Union

LEXEME = re.compile(
    r"[\t\n\r ]+|--[^\n]*"
    r"|(?P<text>N?'(?:[^']|'')*')"
    r"|(?P<number>[0-9]+)"
    r"|(?P<variable>@@?[A-Za-z0-9_@$#]+)"
    r"|(?P<name>\[(?:[^\]]|\]\])*(?:[^\] ]|\]\])\]|\"(?:[^\"]|\"\")*(?:[^\" ]|\"\")\")"
    r"|(?P<word>[A-Za-z_][A-Za-z0-9_@$#]*)"
    r"|(?P<sign><>|!=|<=|>=|[(),.;+\-*/%=<>])"
)

LARGEST_NUMBER = 2**63 - 1


class Unread(Exception):
    """A text that the model does not read."""


class Lexeme(NamedTuple):
    """`kind` is text, number, variable, name (a quoted one), word, sign or end."""

    kind: str
    value: Union[str, int]
    line: int


def value_of(kind, spelled):
    if kind == "number":
        if int(spelled) > LARGEST_NUMBER:
            raise Unread(f"the number {spelled}")
        return int(spelled)
    if kind == "text":
        return spelled[spelled.index("'") + 1 : -1].replace("''", "'")
    if kind == "name":
        end = spelled[-1]
        return spelled[1:-1].replace(end + end, end)
    return spelled


def lexemes_of(text):
    found, at, line = [], 0, 1
    while at < len(text):
        match = LEXEME.match(text, at)
        if not match:
            raise Unread(f"line {line}: {text[at : at + 20]!r}")
        spelled, kind = match[0], match.lastgroup
        if kind:
            found.append(Lexeme(kind, value_of(kind, spelled), line))
        line += spelled.count("\n")
        at = match.end()
    return found
