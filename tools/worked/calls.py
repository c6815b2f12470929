"""Calls by RPC as the files of rows write them: `sp_executesql N'SELECT @a', N'@a INT', @a INT = 5 OUT`."""
import re
import struct

from worked.wire import ALL_HEADERS, Unread, expanded, message, unescape

# A name, a text with doubled quotes in it, a number, or a sign.
LEXEME = re.compile(r"\s*(?:(N?)'((?:[^']|'')*)'|(#?[@\w.\[\]]+(?:\((?:\d+|MAX[\d/=]*)\))?)|(-?\d+)|(=|,))")
WHOLE = {"TINYINT": (1, "<B"), "SMALLINT": (2, "<h"), "INT": (4, "<i"), "BIGINT": (8, "<q")}
SIZED = re.compile(r"(N?(?:VAR)?CHAR)\((\d+)\)")
CHUNKS = re.compile(r"(N?VARCHAR)\(MAX(?:/(\d+))?(?:=(\d+))?\)")
TAGS = {"NVARCHAR": 0xE7, "VARCHAR": 0xA7, "NCHAR": 0xEF, "CHAR": 0xAF}
LONG = {"NTEXT": 0x63, "TEXT": 0x23}
COLLATION = bytes.fromhex("0904000200")
OUTPUT, DEFAULT = 1, 2


def lexemes_of(text):
    lexemes, at = [], 0
    while text[at:].strip():
        found = LEXEME.match(text, at)
        if not found:
            raise Unread(f"no part of a call begins at `{text[at:]}`")
        national, quoted, word, number, sign = found.groups()
        at = found.end()
        if quoted is not None:
            lexemes.append(("text", unescape(quoted.replace("''", "'"))))
        else:
            lexemes.append(("word", word or number or sign))
    return lexemes


def arguments_of(lexemes):
    """The lexemes of each argument."""
    if not lexemes:
        return []
    lists = [[]]
    for lexeme in lexemes:
        if lexeme == ("word", ","):
            lists.append([])
        else:
            lists[-1].append(lexeme)
    return lists


def units(data):
    return len(data) // 2


def kind_of(lexeme):
    """The type that a value has by itself: a text's, or the least of INT and BIGINT that has it."""
    what, value = lexeme
    if what == "text":
        return f"NVARCHAR({max(1, units(value))})"
    return "INT" if value == "NULL" or -(2**31) <= int(value) < 2**31 else "BIGINT"


def typed(kind, lexeme):
    """The bytes of a type and of a value, as the type has it."""
    what, value = lexeme
    is_null = lexeme == ("word", "NULL")
    if kind in WHOLE or kind == "BIT":
        size, form = WHOLE.get(kind, (1, "<B"))
        head = bytes([0x68 if kind == "BIT" else 0x26, size])
        return head + (b"\0" if is_null else bytes([size]) + struct.pack(form, int(value)))
    if what != "text" and not is_null:
        raise Unread(f"{value} is no value of {kind}")
    wide = kind.startswith("N")
    data = b"" if is_null else value if wide else value.decode("utf-16-le").encode("latin-1")
    if kind in LONG:
        head = struct.pack("<BI", LONG[kind], len(data)) + COLLATION
        return head + (b"\xff" * 4 if is_null else struct.pack("<I", len(data)) + data)
    found = CHUNKS.fullmatch(kind)
    if found:
        return struct.pack("<BH", TAGS[found[1]], 0xFFFF) + COLLATION + chunks(data, is_null, found[2], found[3])
    found = SIZED.fullmatch(kind)
    if not found:
        raise Unread(f"{kind} is no type")
    size = int(found[2])
    head = struct.pack("<BH", TAGS[found[1]], 2 * size if wide else size) + COLLATION
    return head + (b"\xff\xff" if is_null else struct.pack("<H", len(data)) + data)


def chunks(data, is_null, by, told):
    """A text of MAX: its length, told or not, and its bytes in chunks."""
    if is_null:
        return b"\xff" * 8
    head = struct.pack("<Q", int(told)) if told else b"\xfe" + b"\xff" * 7
    by = int(by or len(data) or 1)
    parts = [data[at : at + by] for at in range(0, len(data), by)]
    return head + b"".join(struct.pack("<I", len(part)) + part for part in parts) + bytes(4)


def is_kind(word):
    return word in LONG or SIZED.fullmatch(word) or CHUNKS.fullmatch(word)


def argument(lexemes):
    """The bytes of an argument: `[@name] [TYPE] [=] [value] [OUT] [DEFAULT]`; without a value it is NULL."""
    words, name, status = list(lexemes), "", 0
    while words and words[-1] in (("word", "OUT"), ("word", "DEFAULT")):
        status |= OUTPUT if words.pop() == ("word", "OUT") else DEFAULT
    if words and words[0][0] == "word" and words[0][1].startswith("@"):
        name = words.pop(0)[1]
    kind = None
    if words and words[0][0] == "word" and (words[0][1] in (*WHOLE, "BIT") or is_kind(words[0][1])):
        kind = words.pop(0)[1]
    if words and words[0] == ("word", "="):
        words.pop(0)
    value = words.pop(0) if words else ("word", "NULL")
    if words:
        raise Unread(f"`{words[0][1]}` stands behind a value")
    spelled = name.encode("utf-16-le")
    return bytes([units(spelled)]) + spelled + bytes([status]) + typed(kind or kind_of(value), value)


def target(lexeme):
    """The bytes of a procedure: `#10`, its number, or its name, also as a text."""
    what, value = lexeme
    if what == "word" and value.startswith("#"):
        return struct.pack("<HH", 0xFFFF, int(value[1:]))
    name = value if what == "text" else value.encode("utf-16-le")
    return struct.pack("<H", units(name)) + name


def call(text):
    """The message of a call."""
    first, *rest = lexemes_of(expanded(text))
    data = ALL_HEADERS + target(first) + b"\0\0" + b"".join(argument(one) for one in arguments_of(rest))
    return message(3, data)
