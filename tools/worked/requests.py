"""Transaction manager requests as the files of rows write them: `begin 4 name`, `commit name, begin`, `save name`."""
import struct
from typing import NamedTuple, Optional

from worked.wire import ALL_HEADERS, Unread, expanded, message, unescape

NUMBERS = {"begin": 5, "commit": 7, "rollback": 8, "save": 9}


class New(NamedTuple):
    """A transaction that is to begin: its level, and the units of its name as bytes."""

    level: int
    name: bytes


class Request(NamedTuple):
    """`new` is what begins, alone or behind a commit or a rollback."""

    what: str
    name: bytes
    new: Optional[New]


def name_of(words):
    return unescape(" ".join(words))


def new_of(words):
    return New(int(words[0]) if words else 0, name_of(words[1:]))


def request_of(text):
    first, _, behind = expanded(text).partition(", ")
    (what, *words), anew = first.split(), behind.split()
    if what not in NUMBERS or (anew and (anew[0] != "begin" or what not in ("commit", "rollback"))):
        raise Unread(f"`{text}` is no request")
    if what == "begin":
        return Request(what, b"", new_of(words))
    return Request(what, name_of(words), new_of(anew[1:]) if anew else None)


def name_bytes(name):
    """A name behind the number of its bytes."""
    return bytes([len(name)]) + name


def new_bytes(new):
    return bytes([new.level]) + name_bytes(new.name)


def transaction(text):
    """The message of a request."""
    request = request_of(text)
    data = struct.pack("<H", NUMBERS[request.what])
    if request.what != "begin":
        data += name_bytes(request.name)
    if request.what in ("commit", "rollback"):
        data += bytes([request.new is not None])
    if request.new:
        data += new_bytes(request.new)
    return message(0x0E, ALL_HEADERS + data)
