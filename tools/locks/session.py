"""A session: what its batches ask, and the lines of their replies."""
import re

from locks.engine import Fell, TimedOut
from locks.tables import Table, key_of
from locks.texts import Condition, Unread, names_in, parts_of, value_of

# The command of a DONE.
COMMANDS = {"SELECT": "C1", "INSERT": "C3", "DELETE": "C4", "UPDATE": "C5"}


class Failure(Exception):
    """An error that ends its statement."""

    def __init__(self, number, text, of_class):
        super().__init__(number)
        self.line = f"ERROR {number} class {of_class} state 1 line 1: {text}"


def duplicate(name):
    return Failure(2627, f"Violation of constraint '{name}'. Duplicate key.", 14)


def conflict(name):
    return Failure(547, f"The statement conflicted with the constraint '{name}'.", 16)


class Session:
    def __init__(self, number, world):
        self.number, self.world, self.engine, self.tables = number, world, world.engine, world.tables
        self.is_patient, self.is_serializable, self.is_open, self.marks, self.begun = True, False, False, {}, 0
        self.lines = []

    def batch(self, text):
        """Its lines are in `lines`, when it has ended."""
        self.lines = []
        try:
            for statement in parts_of(text, ";"):
                yield from self.statement(statement)
        except Fell:
            self.lines.append("ERROR 1205 class 13 state 1 line 1: The transaction was chosen as the deadlock victim.")
            if self.is_open:
                self.lines.append(f"ENVCHANGE 10 with {self.begun}")
            self.end(False)
            self.lines.append("DONE(02,0,0)")
            return
        self.lines.append("DONE(00,0,0)")

    def end(self, is_commit):
        self.engine.end(self.number, is_commit)
        self.is_open, self.marks = False, {}

    # ---- statements

    def statement(self, text):
        for form, does in self.forms():
            found = re.fullmatch(form, text)
            if found:
                does(*found.groups())
                return
        command = text.split(" ", 1)[0]
        if command not in COMMANDS:
            raise Unread(text)
        try:
            count = yield from self.asks(command, text)
        except (Failure, TimedOut) as fault:
            failure = fault if isinstance(fault, Failure) else Failure(1222, "Lock request time out period exceeded.", 16)
            self.leave(False)
            self.lines += [failure.line, f"DONE(03,{COMMANDS[command]},0)"]
            return
        self.leave(True)
        self.lines.append(f"DONE(11,{COMMANDS[command]},{count})")

    def leave(self, is_done):
        """A statement ends, and with it a transaction of its own."""
        self.engine.relax(self.number)
        if not self.is_open:
            self.end(is_done)

    def forms(self):
        return (
            (r"SET LOCK_TIMEOUT (-1|0)", self.set_patience),
            (r"SET TRANSACTION ISOLATION LEVEL (SERIALIZABLE|READ COMMITTED)", self.set_level),
            (r"CREATE TABLE (\w+) \((.*)\)", self.create),
            (r"DROP TABLE (\w+)", self.drop),
            (r"BEGIN TRAN(?:SACTION)?", self.begin),
            (r"COMMIT(?: TRAN)?", self.commit),
            (r"ROLLBACK(?: TRAN)?", self.roll_back),
            (r"SAVE TRAN (\w+)", self.save),
            (r"ROLLBACK TRAN (\w+)", self.back_to),
        )

    def set_patience(self, timeout):
        self.is_patient = timeout == "-1"

    def set_level(self, level):
        self.is_serializable = level == "SERIALIZABLE"

    def create(self, name, columns):
        self.alone("CREATE TABLE")
        if name in (*self.tables, "objects"):
            raise Unread(name)
        self.tables[name] = Table(name, columns)

    def drop(self, name):
        self.alone("DROP TABLE")
        table = self.table(name)
        del self.tables[name]
        for part in [(name, 0), *(part for part, _of in table.index_parts())]:
            self.engine.parts.pop(part, None)

    def alone(self, form):
        if not self.world.is_quiet():
            raise Unread(f"{form} beside an open transaction")

    def begin(self):
        if self.is_open:
            raise Unread("BEGIN in a transaction")
        self.begun += 1
        self.is_open = True
        self.lines.append(f"ENVCHANGE 8 with {self.begun}")

    def commit(self):
        self.closed(9, True)

    def roll_back(self):
        self.closed(10, False)

    def closed(self, change, is_commit):
        if not self.is_open:
            raise Unread("outside a transaction")
        self.end(is_commit)
        self.lines.append(f"ENVCHANGE {change} with {self.begun}")

    def save(self, name):
        if not self.is_open or name in self.marks:
            raise Unread(f"SAVE TRAN {name}")
        self.marks[name] = self.engine.marked(self.number)

    def back_to(self, name):
        """Later savepoints are gone."""
        if name not in self.marks:
            raise Unread(name)
        self.engine.back_to(self.number, self.marks[name])
        kept = list(self.marks)
        for later in kept[kept.index(name) + 1 :]:
            del self.marks[later]

    def table(self, name):
        if name not in self.tables:
            raise Unread(name)
        return self.tables[name]

    def asks(self, command, text):
        """What a query or a write asks; how many rows its DONE tells."""
        found = re.fullmatch(FORMS[command], text)
        if not found:
            raise Unread(text)
        name, said, where = found["table"], found["said"], found.groupdict().get("where")
        table = self.table(name)
        if command == "INSERT":
            rows = [table.row(values) for values in values_in(said)]
            return (yield from self.writes(table, [(None, row) for row in rows]))
        rows = yield from self.reads(table, Condition(where, table.kinds), "S" if command == "SELECT" else "U")
        if command == "SELECT":
            return self.answers(table, said, rows)
        if command == "DELETE":
            return (yield from self.writes(table, [(row, None) for row in rows]))
        sets = [re.fullmatch(r"(\w+) = (.*)", one).groups() for one in parts_of(said, ",")]
        made = [{**row, **{to: value_of(of, row) for to, of in sets}} for row in rows]
        return (yield from self.writes(table, [(row, table.row(new.values())) for row, new in zip(rows, made)]))

    def answers(self, table, said, rows):
        """The lines of a query."""
        one = re.fullmatch(r"COUNT\(\*\)|SUM\((\w+)\)", said)
        if one:
            values = [row[one[1]] for row in rows if row[one[1]] is not None] if one[1] else None
            kinds, rows = [" INT"], [[len(rows) if values is None else sum(values) if values else None]]
        else:
            columns = names_in(said)
            if not set(columns) <= set(table.kinds):
                raise Unread(said)
            kinds, rows = [f"{name} {table.kinds[name]}" for name in columns], [[row[name] for name in columns] for row in rows]
        self.lines.append(f"COL({', '.join(kinds)})")
        self.lines += [f"ROW({', '.join(map(shown, row))})" for row in rows]
        return len(rows)

    # ---- reads

    def reads(self, table, condition, lock):
        """The rows of a table that meet a condition."""
        start, stop, is_one = condition.range_of(table.key)
        rows = yield from self.range_rows((table.name, 0), start, stop, is_one, ("S" if self.is_serializable else "N", lock))
        return [row for row in rows if condition.holds(row)]

    def range_rows(self, part, start, stop, is_one, mode):
        rows = []
        while True:
            found = yield from self.engine.fetch(self.number, part, start, stop, mode, self.is_patient)
            if found and found[1] is not None:
                rows.append(found[1])
            if not found or is_one:
                return rows
            start = found[0], True

    def rows_from(self, part, values, is_one=False):
        """Those that begin with these values, of which the range is held."""
        key = key_of(values)
        return (yield from self.range_rows(part, (key, False), key, is_one, ("S", "S")))

    # ---- writes

    def writes(self, table, changes):
        """Rows become others: each is the row as it was and as it is to be, or None."""
        own, index = own_changes(table, changes), index_changes(table, changes)
        for part, key, _row, is_new in index:
            if not is_new:
                yield from self.engine.fetch(self.number, part, (key, False), key, ("S", "U"), self.is_patient)
        mark = self.engine.marked(self.number)
        try:
            for part, key, row, is_new in [*own, *index]:
                if not is_new:
                    yield from self.engine.change(self.number, part, key, row, self.is_patient)
                elif not (yield from self.engine.insert(self.number, part, key, row, self.is_patient)) and part[1] == 0:
                    raise duplicate(table.key_name)
            yield from self.checks(table, own)
        except (Failure, TimedOut):
            self.engine.back_to(self.number, mark)
            raise
        return len(changes)

    def checks(self, table, own):
        written = [row for _part, _key, row, _is_new in own if row is not None]
        for row in written:
            for number, unique in enumerate(table.uniques, 1):
                if len((yield from self.rows_from((table.name, number), unique.values(row)))) > 1:
                    raise duplicate(unique.name)
        for row in written:
            for foreign in table.foreigns:
                values = foreign.values(row)
                if None not in values and not (yield from self.rows_from((foreign.parent, 0), values, True)):
                    raise conflict(foreign.name)
        again = {key for _part, key, _row, is_new in own if is_new}
        for _part, key, row, _is_new in own:
            if row is None and key not in again:
                yield from self.checks_children(table, key)

    def checks_children(self, table, key):
        for _name, child in sorted(self.tables.items()):
            for part, of in child.index_parts():
                if of.parent == table.name and (yield from self.range_rows(part, (key, False), key, False, ("S", "S"))):
                    raise conflict(of.name)


def own_changes(table, changes):
    """All erasures, and then what is written; each is a part, a key, a row or None, and whether it is inserted."""
    part, erased, written = (table.name, 0), [], []
    for old, new in changes:
        is_same = old is not None and new is not None and table.own_key(old) == table.own_key(new)
        if old is not None and not is_same:
            erased.append((part, table.own_key(old), None, False))
        if new is not None:
            written.append((part, table.own_key(new), new, not is_same))
    return erased + written


def index_changes(table, changes):
    """Those of index rows, part by part."""
    found = []
    for part, of in table.index_parts():
        erased, written = [], []
        for old, new in changes:
            rows = [None if row is None else table.index_row(of, row) for row in (old, new)]
            keys = [None if row is None else key_of(row) for row in rows]
            if rows[0] == rows[1]:
                continue
            if keys[0] is not None and keys[0] != keys[1]:
                erased.append((part, keys[0], None, False))
            if keys[1] is not None:
                written.append((part, keys[1], rows[1], keys[0] != keys[1]))
        found += erased + written
    return found


def values_in(said):
    """The rows of VALUES."""
    for row in parts_of(said, ","):
        if not row.startswith("("):
            raise Unread(said)
        yield [value_of(value, {}) for value in parts_of(row[1:-1], ",")]


def shown(value):
    return "NULL" if value is None else f"'{value}'" if isinstance(value, str) else str(value)


FORMS = {
    "SELECT": r"SELECT (?P<said>[\w, ]+|COUNT\(\*\)|SUM\(\w+\)) FROM (?P<table>\w+)(?: WHERE (?P<where>.*))?",
    "INSERT": r"INSERT (?:INTO )?(?P<table>\w+) VALUES (?P<said>.*)",
    "UPDATE": r"UPDATE (?P<table>\w+) SET (?P<said>.*?)(?: WHERE (?P<where>.*))?",
    "DELETE": r"DELETE (?:FROM )?(?P<table>\w+)(?P<said>)(?: WHERE (?P<where>.*))?",
}
