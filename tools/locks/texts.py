"""The few forms of text that are read."""
import re

COMPARISON = re.compile(r"(.+?) (<>|<=|>=|=|<|>) (.+)")
TURNED = {"<": ">", ">": "<", "<=": ">=", ">=": "<=", "=": "=", "<>": "<>"}
HOLDS = {
    "=": lambda a, b: a == b, "<>": lambda a, b: a != b,
    "<": lambda a, b: a < b, ">": lambda a, b: a > b, "<=": lambda a, b: a <= b, ">=": lambda a, b: a >= b,
}  # fmt: skip


class Unread(Exception):
    """A text that is not covered."""


def rank(value):
    """Where a value of a key stands: NULL is the least, and spaces at the end of a text say nothing."""
    if value is None:
        return (0,)
    if isinstance(value, int):
        return 1, value
    if value and min(value) < " ":
        raise Unread(value)
    return 2, value.rstrip(" ")


def parts_of(text, sign):
    """What stands between signs that are in no parentheses."""
    found, depth, part = [], 0, ""
    for letter in text:
        depth += (letter == "(") - (letter == ")")
        if letter == sign and depth == 0:
            found.append(part.strip())
            part = ""
        else:
            part += letter
    return [*found, part.strip()]


def names_in(text):
    return [name.strip() for name in text.split(",")]


def value_of(text, row):
    """A literal, a column, or the sum, difference or product of such; NULL where one is."""
    literal = re.fullmatch(r"N?'([^']*)'", text)
    if literal:
        return literal[1]
    if not re.fullmatch(r"-?\w+(?: [-+*] -?\w+)*", text):
        raise Unread(text)
    values = [operand(word, row) for word in re.split(r" [-+*] ", text)]
    for sign in re.findall(r" ([-+*]) ", text):
        first, second, *rest = values
        made = None if None in (first, second) else {"+": first + second, "-": first - second, "*": first * second}[sign]
        values = [made, *rest]
    return values[0]


def operand(word, row):
    if word == "NULL":
        return None
    if re.fullmatch(r"-?\d+", word):
        return int(word)
    if word not in row:
        raise Unread(word)
    return row[word]


class Condition:
    """A WHERE: comparisons that are joined by AND."""

    def __init__(self, text, kinds):
        self.tests, self.kinds = [], kinds
        for test in re.split(r" AND ", text) if text else []:
            found = COMPARISON.fullmatch(test)
            if not found or "(" in test or "NULL" in test or " OR " in test:
                raise Unread(test)
            self.tests.append(found.groups())

    def holds(self, row):
        for first, sign, second in self.tests:
            pair = value_of(first, row), value_of(second, row)
            if None in pair:
                return False
            if isinstance(pair[0], int) != isinstance(pair[1], int):
                raise Unread("a comparison of two kinds")
            if not HOLDS[sign](*map(rank, pair)):
                return False
        return True

    def of_column(self, column):
        """The tests of a column by a literal: their signs and values."""
        for first, sign, second in self.tests:
            if second == column:
                first, sign, second = second, TURNED[sign], first
            if first == column and re.fullmatch(r"-?\d+|N?'[^']*'", second):
                value = value_of(second, {})
                if isinstance(value, int) != (self.kinds[column] == "INT"):
                    raise Unread("a comparison of two kinds")
                yield sign, value

    def range_of(self, key):
        """Where the rows stand that may meet it, by the first test of each kind of each column of the key: the start, the stop, and
        whether that is one whole key."""
        start, stop = (), ()
        for column in key:
            tests = list(self.of_column(column))
            same = [rank(value) for sign, value in tests if sign == "="]
            if not same:
                low = next(((rank(value), sign == ">") for sign, value in tests if sign in (">", ">=")), None)
                high = next((rank(value) for sign, value in tests if sign in ("<", "<=")), None)
                is_past, start = bool(low and low[1]), (*start, low[0]) if low else start
                stop = (*stop, high) if high else stop
                is_one = len(start) == len(key) and start == stop and not is_past
                return ((start, is_past) if start else None), stop or None, is_one
            start, stop = (*start, same[0]), (*stop, same[0])
        return (start, False), stop, True
