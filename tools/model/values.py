"""Kinds and values: a whole number or a bit is an int, a text a str, and NULL is None. docs/VALUES.md has the
rules."""
import re
from typing import NamedTuple

RANGES = {
    "TINYINT": (0, 255),
    "SMALLINT": (-(2**15), 2**15 - 1),
    "INT": (-(2**31), 2**31 - 1),
    "BIGINT": (-(2**63), 2**63 - 1),
}
RANKS = ("NVARCHAR", "BIT", "TINYINT", "SMALLINT", "INT", "BIGINT")
LONGEST = 4000


class Failure(Exception):
    """Why a statement fails: the number of an error, and the name that its text has, if it has one."""

    def __init__(self, number, name=""):
        super().__init__(number, name)
        self.number, self.name = number, name


class Kind(NamedTuple):
    """A type; of a text with its size."""

    name: str
    size: int = 0

    def __str__(self):
        return f"NVARCHAR({self.size})" if self.is_text() else self.name

    def is_text(self):
        return self.name == "NVARCHAR"

    def family(self):
        """Numbers, bits or texts."""
        return self.name if self.name in ("BIT", "NVARCHAR") else "number"

    def rank(self):
        return RANKS.index(self.name), self.size


BIT, TINYINT, SMALLINT, INT, BIGINT = (Kind(name) for name in RANKS[1:])


def text_kind(size):
    return Kind("NVARCHAR", min(max(size, 1), LONGEST))


def higher(left, right):
    """The higher of two kinds; a lone NULL, which has none, takes that of what it stands beside."""
    if left is None or right is None:
        return left or right
    return max(left, right, key=Kind.rank)


# ---- conversions


def converted(value, kind):
    """A value as one of this kind, as CAST and assignments make it."""
    if value is None:
        return None
    if kind.is_text():
        return text_of(value, kind.size)
    if isinstance(value, str):
        return number_of(value, kind)
    if kind == BIT:
        return int(value != 0)
    if not holds(kind, value):
        raise Failure(220 if kind in (TINYINT, SMALLINT) else 8115)
    return value


def stored(value, kind):
    """The same for a column, which cuts no text."""
    if isinstance(value, str) and kind.is_text() and len(value) > kind.size:
        raise Failure(49006)
    return converted(value, kind)


def holds(kind, number):
    least, most = RANGES[kind.name]
    return least <= number <= most


def text_of(value, size):
    if isinstance(value, str):
        return value[:size]
    if len(str(value)) > size:
        raise Failure(8115)
    return str(value)


def number_of(text, kind):
    """What a text spells; blanks alone are 0."""
    if kind == BIT and text.lower() in ("true", "false"):
        return int(text.lower() == "true")
    spelled = re.fullmatch(r" *(|[+-]?[0-9]+) *", text)
    if not spelled:
        raise Failure(8114 if kind == BIGINT else 245)
    number = int(spelled[1] or 0)
    if kind == BIT:
        return int(number != 0)
    if not holds(kind, number):
        raise Failure({TINYINT: 244, SMALLINT: 244, INT: 248, BIGINT: 8115}[kind])
    return number


# ---- order


def padded(left, right):
    """Two values as they are compared, the shorter text padded with spaces."""
    if not isinstance(left, str):
        return left, right
    size = max(len(left), len(right))
    return left.ljust(size), right.ljust(size)


def key_of(value):
    """Equal for values that are one key or one class, and in their order; NULL is the lowest."""
    if value is None:
        return (0,)
    return (1, value.rstrip(" ") if isinstance(value, str) else value)


# ---- arithmetic


def computed(left, sign, right, kind):
    """What two values of this kind come to, neither of which is NULL."""
    if kind.is_text():
        return (left + right)[:LONGEST]
    if sign in "/%":
        number = divided(left, sign, right)
    else:
        number = {"+": left + right, "-": left - right, "*": left * right}[sign]
    if not holds(kind, number):
        raise Failure(8115)
    return number


def divided(left, sign, right):
    """The quotient truncated toward zero, or what it leaves."""
    if right == 0:
        raise Failure(8134)
    quotient = abs(left) // abs(right)
    if (left < 0) != (right < 0):
        quotient = -quotient
    return quotient if sign == "/" else left - quotient * right


# ---- as the files of rows write them


def escaped(text):
    """A text, of which what is not plain stands by its numbers."""
    return "".join(unit if " " <= unit <= "~" and unit != "\\" else by_number(unit) for unit in text)


def by_number(letter):
    units = letter.encode("utf-16-be", "surrogatepass").hex().upper()
    return "".join(f"\\u{units[at : at + 4]}" for at in range(0, len(units), 4))


def printed(value):
    if value is None:
        return "NULL"
    return "'" + escaped(value).replace("'", "''") + "'" if isinstance(value, str) else str(value)
