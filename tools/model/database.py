"""What a database holds, and the transaction that takes it back."""
from dataclasses import dataclass, field
from typing import Optional

from .trees import Table
from .values import key_of


def key_in(table, row):
    """The key at which a row of a table stands."""
    return tuple(key_of(row[table.place(name)]) for name in table.key)


class Database:
    """`objects` has the definition of each table, procedure and trigger by its name, `rows` those of each table by
    their keys."""

    def __init__(self, objects=None, rows=None):
        self.objects, self.rows = objects or {}, rows or {}

    def copy(self):
        return Database(dict(self.objects), {name: dict(rows) for name, rows in self.rows.items()})

    def put(self, definition):
        self.objects[definition.name] = definition
        if isinstance(definition, Table):
            self.rows[definition.name] = {}

    def take(self, name):
        del self.objects[name]
        self.rows.pop(name, None)

    def definitions(self, kind):
        """Those of one kind, in the order of their names."""
        return [self.objects[name] for name in sorted(self.objects) if isinstance(self.objects[name], kind)]

    def rows_of(self, name):
        """In the order of their keys."""
        rows = self.rows[name]
        return [rows[key] for key in sorted(rows)]


@dataclass
class Transaction:
    """`number` is what BEGIN tells of it; a statement's own has none. While that asks alone its count is 0, and 1 at
    first while its triggers run."""

    base: Database
    is_own: bool
    number: int = 0
    name: Optional[str] = None
    count: int = 0
    is_doomed: bool = False
    savepoints: list = field(default_factory=list)
    marks: dict = field(default_factory=dict)
    last_mark: int = 0

    def mark(self, database):
        self.last_mark += 1
        self.marks[self.last_mark] = database.copy()
        return self.last_mark

    def has_mark(self, mark):
        """Whether no return to an earlier one has dropped it."""
        return mark in self.marks

    def back_to(self, mark):
        """The database as it was at a mark, which stays; those behind it go."""
        self.marks = {other: kept for other, kept in self.marks.items() if other <= mark}
        self.savepoints = [(name, other) for name, other in self.savepoints if other <= mark]
        return self.marks[mark].copy()

    def savepoint(self, name):
        """The mark of the latest savepoint of a name, or None."""
        return next((mark for other, mark in reversed(self.savepoints) if other == name), None)
