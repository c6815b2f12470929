"""Bytes as a client sends them, and as the files of rows write them."""
import re
import struct

ALL_HEADERS = bytes.fromhex("16000000120000000200000000000000000001000000")
WORD = re.compile(r"'([^']*)'|(\S+)")
UNIT = re.compile(r"(\\u[0-9A-Fa-f]{4})")

# The most data that a packet has.
MOST_DATA = 65527


class Unread(Exception):
    """A line that can't be read, or bytes that are no reply."""


def packet(kind, status, data):
    return struct.pack(">BBHHBB", kind, status, len(data) + 8, 0, 1, 0) + data


def message(kind, data):
    """A message with this payload, in as few packets as there can be."""
    parts = [data[at : at + MOST_DATA] for at in range(0, max(1, len(data)), MOST_DATA)]
    return b"".join(packet(kind, part is parts[-1], part) for part in parts)


def batch(text):
    """A SQL batch with this text."""
    return message(1, ALL_HEADERS + text.encode("utf-16-le", "surrogatepass"))


def login(user, password):
    """A LOGIN7 of this user and password, and nothing else."""
    hidden = bytes((byte << 4 & 0xF0 | byte >> 4) ^ 0xA5 for byte in password.encode("utf-16-le"))
    names = user.encode("utf-16-le") + hidden
    end = 94 + len(names)
    fixed = struct.pack("<IIIIII", end, 0x74000004, 4096, 0, 0, 0) + bytes(12)
    own = struct.pack("<HHHHHH", 94, 0, 94, len(user), 94 + 2 * len(user), len(password))
    rest = (fixed + own + struct.pack("<HH", end, 0) * 6).ljust(94, b"\0")
    return packet(0x10, 1, rest + names)


def unescape(text):
    """The bytes in UTF-16LE of a text in which a unit may stand by its number."""
    out = b""
    for piece in UNIT.split(text):
        if UNIT.fullmatch(piece):
            out += struct.pack("<H", int(piece[2:], 16))
        else:
            out += piece.encode("utf-16-le")
    return out


def split(words, mark):
    lists = [[]]
    for word in words:
        if word == (mark, False):
            lists.append([])
        else:
            lists[-1].append(word)
    return lists


def parts_of(names, words):
    out = b""
    for word, is_text in words:
        if is_text:
            out += unescape(word)
        elif "*" in word:
            digits, count = word.split("*")
            out += bytes.fromhex(digits) * int(count)
        elif len(word) == 2:
            out += bytes.fromhex(word)
        elif word in names:
            out += names[word]
        else:
            raise Unread(f"no bytes are named {word}")
    return out


def changed(names, data, change):
    """The bytes with others in place of those from a place up to another: `40..44 86 00 02 00`."""
    start, end = (int(place) for place in change[0][0].split(".."))
    if end > len(data) or start > end:
        raise Unread("a change lies within the bytes")
    return data[:start] + parts_of(names, change[1:]) + data[end:]


def item_of(names, words):
    head, size = None, None
    if words and not words[0][1] and words[0][0].endswith(":"):
        head, words = words[0][0].rstrip(":"), words[1:]
    elif len(words) > 2 and words[1] == ("by", False):
        head, size, words = words[0][0], int(words[2][0].rstrip(":")), words[3:]
    first, *changes = split(words, "/")
    data = parts_of(names, first)
    for change in changes:
        data = changed(names, data, change)
    if head is None:
        return data
    kind, _, status = head.partition(".")
    kind = int(kind, 16)
    if size is None:
        return packet(kind, int(status or "01", 16), data)
    pieces = [data[at : at + size] for at in range(0, len(data), size)]
    return b"".join(packet(kind, at == len(pieces) - 1, piece) for at, piece in enumerate(pieces))


def bytes_of(names, line):
    """The bytes that a line writes by items, with `+` between them."""
    words = [(text or word, not word) for text, word in WORD.findall(line)]
    return b"".join(item_of(names, item) for item in split(words, "+"))


# A piece with how often it stands, as `{(|128}`; `#` in it is the number of each, from 0 on.
PIECES = re.compile(r"\{([^{}|]*)\|(\d+)\}")


def expanded(text):
    """A text with all of its pieces."""

    def pieces(found):
        piece, count = found[1], int(found[2])
        if "#" not in piece:
            return piece * count
        return "".join(piece.replace("#", str(number)) for number in range(count))

    return PIECES.sub(pieces, text)
