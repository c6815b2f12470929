"""Tables, and which rows their index parts have."""
import re

from locks.texts import Unread, names_in, parts_of, rank


def key_of(values):
    return tuple(rank(value) for value in values)


class Constraint:
    """A UNIQUE, or a FOREIGN KEY with its parent."""

    def __init__(self, name, columns, parent=None):
        self.name, self.columns, self.parent = name, columns, parent

    def values(self, row):
        return [row[column] for column in self.columns]


class Table:
    """What a CREATE TABLE says. Part 0 has its rows, the others index rows."""

    def __init__(self, name, text):
        self.name, self.kinds, self.key, self.uniques, self.foreigns = name, {}, [], [], []
        for item in parts_of(text, ","):
            if not self.read_constraint(item):
                self.read_column(item)

    def read_constraint(self, item):
        found = re.fullmatch(r"(?:CONSTRAINT (\w+) )?(UNIQUE|PRIMARY KEY|FOREIGN KEY) \(([^()]*)\)(?: REFERENCES (\w+) \([^()]*\))?", item)
        if found:
            name, kind, columns, parent = found.groups()
            self.add(kind, name, names_in(columns), parent)
        return found

    def read_column(self, item):
        found = re.fullmatch(r"(\w+) (INT|NVARCHAR\(\d+\))((?: NOT NULL| NULL| PRIMARY KEY| UNIQUE| REFERENCES \w+(?: \(\w+\))?)*)", item)
        if not found:
            raise Unread(item)
        name, kind, said = found.groups()
        self.kinds[name] = kind
        for word in re.findall(r"PRIMARY KEY|UNIQUE|REFERENCES \w+", said):
            parent = word.removeprefix("REFERENCES ")
            self.add(word if parent == word else "FOREIGN KEY", None, [name], parent)

    def add(self, kind, name, columns, parent):
        if kind == "PRIMARY KEY":
            self.key, self.key_name = columns, name or f"PK_{self.name}"
        elif kind == "UNIQUE":
            self.uniques.append(Constraint(name or f"UQ_{self.name}_{len(self.uniques) + 1}", columns))
        else:
            self.foreigns.append(Constraint(name or f"FK_{self.name}_{len(self.foreigns) + 1}", columns, parent))

    def row(self, values):
        """A row of these values, in the order of its columns."""
        values = list(values)
        if len(values) != len(self.kinds) or not all(map(is_value_of, self.kinds.values(), values)):
            raise Unread(f"a row of {self.name}")
        row = dict(zip(self.kinds, values))
        if None in (row[column] for column in self.key):
            raise Unread("a NULL in a key")
        return row

    def own_key(self, row):
        return key_of(row[column] for column in self.key)

    def index_parts(self):
        """Each with its constraint: those of UNIQUE, and behind them those of FOREIGN KEY."""
        return [((self.name, number), of) for number, of in enumerate([*self.uniques, *self.foreigns], 1)]

    def index_row(self, of, row):
        return (*of.values(row), *(row[column] for column in self.key))


def is_value_of(kind, value):
    if value is None:
        return True
    if isinstance(value, int):
        return kind == "INT" and -(2**31) <= value < 2**31
    return kind != "INT" and len(value) <= int(kind[9:-1])
