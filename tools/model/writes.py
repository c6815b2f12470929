"""INSERT, UPDATE and DELETE with their checks and triggers, CREATE and DROP."""
from dataclasses import dataclass, replace
from typing import Optional

from . import trees
from .calls import DEPTH_LIMIT, run_body
from .database import key_in
from .errors import raised_by
from .session import CATALOG, END, ON, Exit, Fired, Way, meaning_of
from .values import Failure, key_of, stored

EVENTS = {trees.Insert: "INSERT", trees.Update: "UPDATE", trees.Delete: "DELETE"}


@dataclass
class Planned:
    """What a write takes away and puts there."""

    table: trees.Table
    erased: list
    written: list

    def told(self):
        """How many rows its DONE tells."""
        return len(self.written or self.erased)


# ---- what is planned


def plan(scope, statement):
    """What a write changes, of which no row is wrong by itself."""
    table = scope.tables[statement.table]
    planned = PLANS[type(statement)](scope, table, statement)
    for row in planned.written:
        for column, value in zip(table.columns, row):
            if value is None and (column.is_required or column.name in table.key):
                raise Failure(515, column.name)
    rows_of = scope.among([(reference_to(statement), table)])
    for row in planned.written:
        for number, check in enumerate(table.checks, 1):
            if rows_of.at((row,)).truth(check) is False:
                raise Failure(547, f"CK_{table.name}_{number}")
    return planned


def reference_to(statement):
    return trees.Reference("CROSS", statement.table, statement.table)


def place_in(table, name):
    place = table.place(name)
    if place is None:
        raise Failure(207, name)
    return place


def plan_insert(scope, table, statement):
    names = statement.columns or [column.name for column in table.columns]
    places = [place_in(table, name) for name in names]
    rows = given_rows(scope, statement.source, len(places))
    return Planned(table, [], [row_with(table, places, row) for row in rows])


def given_rows(scope, source, count):
    """The rows of an INSERT, each of so many values. Those of VALUES are evaluated as they are asked for, so that
    each is stored before the next is looked at."""
    if isinstance(source, trees.Query):
        if len(scope.columns(source)) != count:
            raise Failure(213)
        return scope.rows_of(source)
    for row in source:
        if len(row) != count:
            raise Failure(213)
        for expr in row:
            scope.kind(expr)
    scope = scope.answering(source)
    return ((scope.value(expr) for expr in row) for row in source)


def row_with(table, places, values):
    """A row with these values at these places, and NULL elsewhere."""
    row = [None] * len(table.columns)
    for place, value in zip(places, values):
        row[place] = stored(value, table.columns[place].kind)
    return tuple(row)


def meant(scope, table, statement):
    """The rows that an UPDATE or a DELETE is of, each with its scope."""
    reference = reference_to(statement)
    scope = scope.among([(reference, table)])
    scope.check(statement.where)
    scope = scope.answering(statement)
    rows = scope.rows_read(reference, table, statement.where)
    return [(row, scope.at((row,))) for row in rows if scope.at((row,)).holds(statement.where)]


def plan_update(scope, table, statement):
    places = [place_in(table, name) for name, _ in statement.sets]
    for _, expr in statement.sets:
        scope.among([(reference_to(statement), table)]).kind(expr)
    rows = meant(scope, table, statement)
    written = []
    for row, at in rows:
        new = list(row)
        for place, (_, expr) in zip(places, statement.sets):
            new[place] = stored(at.value(expr), table.columns[place].kind)
        written.append(tuple(new))
    return Planned(table, [row for row, _ in rows], written)


def plan_delete(scope, table, statement):
    return Planned(table, [row for row, _ in meant(scope, table, statement)], [])


PLANS = {trees.Insert: plan_insert, trees.Update: plan_update, trees.Delete: plan_delete}

# ---- what is changed


def apply(database, planned):
    """The changes, and the checks beside other rows."""
    table, rows = planned.table, database.rows[planned.table.name]
    for row in planned.erased:
        del rows[key_in(table, row)]
    for row in planned.written:
        if key_in(table, row) in rows:
            raise Failure(2627, f"PK_{table.name}")
        rows[key_in(table, row)] = row
    for row in planned.written:
        check_parents(database, table, row)
    for row in planned.erased:
        if key_in(table, row) not in rows:
            check_children(database, table, key_in(table, row))


def parent_key(table, foreign, row):
    """The key that a row refers to, or None."""
    value = row[table.place(foreign.column)]
    return None if value is None else (key_of(value),)


def check_parents(database, table, row):
    """Each row that this one refers to is there."""
    for number, foreign in enumerate(table.foreigns, 1):
        key = parent_key(table, foreign, row)
        if key is not None and key not in database.rows[foreign.parent]:
            raise Failure(547, f"FK_{table.name}_{number}")


def check_children(database, table, key):
    """No row refers to one that is gone."""
    for child in database.definitions(trees.Table):
        rows = database.rows_of(child.name)
        for number, foreign in enumerate(child.foreigns, 1):
            if foreign.parent == table.name and any(parent_key(child, foreign, row) == key for row in rows):
                raise Failure(547, f"FK_{child.name}_{number}")


def fired_by(session, around, statement):
    """The triggers that a write fires, in the order of their names; none is fired by its own statements."""
    own = around.procedure if around.fired else None
    return [
        trigger
        for trigger in session.database.definitions(trees.Trigger)
        if trigger.table == statement.table and EVENTS[type(statement)] in trigger.events and trigger.name != own
    ]


# ---- a write


@dataclass
class Stop:
    """Why the triggers of a write did not all run: an error of the write itself, or how one of them was left."""

    failure: Optional[Failure] = None
    exit: Optional[Exit] = None


@meaning_of(trees.Insert, trees.Update, trees.Delete)
def write(session, around, statement):
    is_own = session.transaction is None and session.asks(around, statement, trees.tables_in(statement))
    if is_own:
        session.begin(is_own=True)
    try:
        planned = plan(session.scope(around, statement), statement)
        no_count, triggers = session.options.no_count, fired_by(session, around, statement)
        mark = changed(session, planned)
    except Failure:
        if is_own:
            session.roll_back()
        raise
    stop = fire(session, around, planned, triggers, mark, is_own)
    if stop is None:
        session.counted(around, statement, planned.told(), no_count)
        return session.succeeds(statement, planned.told())
    if stop.failure:
        raise stop.failure
    session.row_count = 0
    return stop.exit


def changed(session, planned):
    """The mark behind which the changes were made; where one is refused they are taken back."""
    mark = session.transaction.mark(session.database)
    try:
        apply(session.database, planned)
    except Failure:
        session.database = session.transaction.back_to(mark)
        raise
    return mark


def fire(session, around, planned, triggers, mark, is_own):
    """Runs the triggers within the write's transaction, and ends that where it is the write's own. Where they have
    ended it, nothing more is done: another that they have begun stays open."""
    worked_in = session.transaction
    stop = run_triggers(session, around, planned, triggers) if triggers else None
    if session.transaction is not worked_in:
        return stop
    if stop and worked_in.has_mark(mark):
        session.database = worked_in.back_to(mark)
    if is_own and stop:
        session.roll_back()
    elif is_own:
        session.commit()
    return stop


def run_triggers(session, around, planned, triggers):
    """One after another; the first that stops them is the last."""
    session.transaction.count = session.transaction.count or 1
    if around.depth >= DEPTH_LIMIT:
        return Stop(failure=Failure(217))
    table = planned.table
    in_order = [sorted(rows, key=lambda row: key_in(table, row)) for rows in (planned.erased, planned.written)]
    fired = Fired(table, *in_order)
    for trigger in triggers:
        stop = run_trigger(session, around, trigger, fired)
        if stop:
            return stop
    return None


def run_trigger(session, around, trigger, fired):
    options = replace(session.options, xact_abort=True)
    exit, _ = run_body(session, around.within_body(trigger.name, fired), trigger.body, {}, options)
    if exit.way in (Way.RAISE, Way.RAISE_UP):
        return Stop(exit=Exit(Way.RAISE, exit.of))
    if exit == END:
        return Stop(exit=END)
    if not session.count():
        return Stop(failure=Failure(3609))
    return Stop(failure=Failure(3616)) if session.is_doomed() else None


# ---- CREATE and DROP


def put(session, definition):
    if definition.name == CATALOG or definition.name in session.database.objects:
        raise Failure(2714, definition.name)
    session.database.put(definition)


@meaning_of(trees.CreateTable)
def create_table(session, around, statement):
    with session.own(True):
        session.scope(around, statement)
        put(session, statement.table)
    return session.succeeds(statement)


@meaning_of(trees.Drop)
def drop(session, around, statement):
    name = statement.name
    with session.own(session.asks(around, statement, [name])):
        if not isinstance(session.found(around, statement, name), statement.kind):
            raise Failure(3701, name)
        if statement.kind is trees.Table:
            take_triggers(session.database, name)
        session.database.take(name)
    return session.succeeds(statement)


def take_triggers(database, name):
    """A table goes with its triggers, where no other refers to it."""
    for table in database.definitions(trees.Table):
        if table.name != name and any(foreign.parent == name for foreign in table.foreigns):
            raise Failure(3726, name)
    for trigger in database.definitions(trees.Trigger):
        if trigger.table == name:
            database.take(trigger.name)


@meaning_of(trees.Procedure, trees.Trigger)
def define(session, around, definition):
    """A batch that is a definition."""
    session.row_count = 0
    try:
        with session.own(True):
            check_definition(session, definition)
            put(session, definition)
    except Failure as failure:
        return session.strike(around, "0", raised_by(failure, "", definition.line))
    session.error = 0
    return ON


def check_definition(session, definition):
    if isinstance(definition, trees.Trigger):
        if not isinstance(session.database.objects.get(definition.table), trees.Table):
            raise Failure(208, definition.table)
    elif any(of.kind.is_text() and not 1 <= of.kind.size <= 4000 for of in definition.parameters):
        raise Failure(49007)
