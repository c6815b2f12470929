"""What statements do that write no table: queries, control, messages, variables, options, transactions and
cursors."""
from dataclasses import dataclass, replace
from typing import Optional

from . import trees
from .errors import RAISERROR, SERVER, THROW, Raised
from .session import AGAIN, LEAVE, ON, Exit, Way, meaning_of
from .values import INT, Failure, converted, printed, text_kind

ANY_TEXT = text_kind(4000)


# ---- SELECT


@meaning_of(trees.Select)
def select(session, around, statement):
    if statement.query.is_assigning():
        return select_into(session, around, statement)
    with session.working(around, statement) as scope:
        columns, rows = scope.columns(statement.query), scope.rows_of(statement.query)
    session.lines.append("COL(" + ", ".join(f"{name} {kind}" for name, kind in columns) + ")")
    session.lines += ["ROW(" + ", ".join(map(printed, row)) + ")" for row in rows]
    session.counted(around, statement, len(rows), session.options.no_count)
    return session.succeeds(statement, len(rows))


def select_into(session, around, statement):
    """Each row assigns in turn; all rows are evaluated with the variables as they were."""
    names = [item.variable for item in statement.query.items]
    with session.working(around, statement) as scope:
        scope.columns(statement.query)
        rows = scope.rows_of(statement.query)
        for row in rows:
            session.assign(zip(names, row))
    return session.succeeds(statement, len(rows))


# ---- control


def decides(session, around, statement):
    """Whether its test is true."""
    with session.working(around, statement) as scope:
        scope.check(statement.test)
        is_true = scope.answering(statement.test).holds(statement.test)
    session.error = 0
    return is_true


@meaning_of(trees.If)
def if_(session, around, statement):
    if decides(session, around, statement):
        return session.run(around, statement.body)
    return session.run(around, statement.otherwise) if statement.otherwise else ON


@meaning_of(trees.While)
def while_(session, around, statement):
    while decides(session, around, statement):
        exit = session.run(around, statement.body)
        if exit == LEAVE:
            return ON
        if exit not in (ON, AGAIN):
            return exit
        session.spend(1)
    return ON


@meaning_of(trees.Break)
def break_(session, _around, _statement):
    session.error = 0
    return LEAVE


@meaning_of(trees.Continue)
def continue_(session, _around, _statement):
    session.error = 0
    return AGAIN


@meaning_of(trees.Block)
def block(session, around, statement):
    return session.run_all(around, statement.body)


@meaning_of(trees.Try)
def try_(session, around, statement):
    exit = session.run_all(around.within_try(), statement.body)
    if exit.way != Way.RAISE:
        return exit
    return session.run_all(around.within_catch(exit.of), statement.handler)


@meaning_of(trees.Return)
def return_(session, around, statement):
    """Its status is 0 where there is no value, or NULL."""
    given = [] if statement.status is None else [statement.status]
    values = [converted(value, INT) for value in session.values(around, statement, given)]
    session.succeeds(statement)
    return Exit(Way.RETURN, values[0] or 0 if values else 0)


# ---- messages


@meaning_of(trees.Print)
def print_(session, around, statement):
    (value,) = session.values(around, statement, [statement.of])
    raised = Raised(0, 0, 1, text_in(value), around.procedure, statement.line, RAISERROR)
    return message(session, around, statement, raised)


@meaning_of(trees.RaiseError)
def raiserror(session, around, statement):
    text, severity, state = session.values(around, statement, statement.arguments)
    text, severity, state = text_in(text), number_between(0, 18, severity), number_between(0, 255, state)
    raised = Raised(50000, severity, state, text, around.procedure, statement.line, RAISERROR)
    return message(session, around, statement, raised)


def message(session, around, statement, raised):
    """Up to class 10 it is no error."""
    if raised.severity > 10:
        return session.raises(around, statement, raised)
    session.tell("INFO", raised)
    return session.succeeds(statement)


@meaning_of(trees.Throw)
def throw(session, around, statement):
    """Without arguments it raises the error of the CATCH around again."""
    if statement.arguments:
        number, text, state = session.values(around, statement, statement.arguments)
        number, text, state = number_between(50000, 2**31 - 1, number), text_in(text), number_between(0, 255, state)
        raised = Raised(number, 16, state, text, around.procedure, statement.line, THROW)
    else:
        raised = replace(around.caught, by=THROW)
    return session.raises(around, statement, raised)


def text_in(value):
    """A value as a text, empty where it is NULL."""
    return converted(value, ANY_TEXT) or ""


def number_between(least, most, value):
    number = converted(value, INT) if isinstance(value, str) else value
    if number is None or not least <= number <= most:
        raise Failure(49004)
    return number


# ---- variables and options


@meaning_of(trees.Declare)
def declare(session, around, statement):
    given = [one for one in statement.declarations if one.initial is not None]
    values = session.values(around, statement, [one.initial for one in given])
    session.assign(zip([one.name for one in given], values))
    return session.succeeds(statement)


@meaning_of(trees.SetVariable)
def set_variable(session, around, statement):
    session.assign(zip([statement.name], session.values(around, statement, [statement.of])))
    return session.succeeds(statement)


@meaning_of(trees.SetOption)
def set_option(session, _around, statement):
    name = {"XACT_ABORT": "xact_abort", "NOCOUNT": "no_count", "IMPLICIT_TRANSACTIONS": "implicit"}[statement.option]
    session.options = replace(session.options, **{name: statement.is_on})
    return session.succeeds(statement)


@meaning_of(trees.SetOther)
def set_other(session, _around, statement):
    if not statement.is_known:
        raise Failure(49004)
    return session.succeeds(statement)


# ---- transactions


@meaning_of(trees.BeginTransaction)
def begin_transaction(session, _around, statement):
    if session.transaction:
        session.transaction.count += 1
        return session.succeeds(statement)
    session.begin_told(statement.name)
    return session.succeeds(statement)


@meaning_of(trees.Commit)
def commit(session, _around, statement):
    if not session.transaction:
        raise Failure(3902)
    if session.transaction.count > 1:
        session.transaction.count -= 1
        return session.succeeds(statement)
    session.tell_end(9, session.transaction)
    session.commit()
    return session.succeeds(statement)


@meaning_of(trees.Rollback)
def rollback(session, _around, statement):
    """To the latest savepoint of its name; of all where it has none, or the name is that of the outermost
    transaction."""
    open_one = session.transaction
    if not open_one:
        raise Failure(3903)
    mark = None if statement.name is None else open_one.savepoint(statement.name)
    if mark is not None:
        if open_one.is_doomed:
            raise Failure(3931)
        session.database = open_one.back_to(mark)
    elif statement.name in (None, open_one.name):
        session.roll_back_told()
    else:
        raise Failure(6401, statement.name)
    return session.succeeds(statement)


@meaning_of(trees.Save)
def save(session, _around, statement):
    if not session.transaction:
        raise Failure(49005)
    mark = session.transaction.mark(session.database)
    session.transaction.savepoints.append((statement.name, mark))
    return session.succeeds(statement)


# ---- cursors


@dataclass
class Cursor:
    """`rows` are those that are still to come, None where it is not open; each has as many values as there are
    columns."""

    query: trees.Query
    columns: int = 0
    rows: Optional[list] = None


def cursor_of(session, name, is_open=None):
    """The cursor of a name, which has to be open, or may be either."""
    if name not in session.cursors:
        raise Failure(16916, name)
    cursor = session.cursors[name]
    if is_open and cursor.rows is None:
        raise Failure(16917)
    return cursor


@meaning_of(trees.DeclareCursor)
def declare_cursor(session, _around, statement):
    if statement.name in session.cursors:
        raise Failure(16915, statement.name)
    session.cursors[statement.name] = Cursor(statement.query)
    return session.succeeds(statement)


@meaning_of(trees.OpenCursor)
def open_cursor(session, around, statement):
    cursor = cursor_of(session, statement.name)
    if cursor.rows is not None:
        raise Failure(16905)
    with session.working(around, trees.Select(cursor.query)) as scope:
        columns = scope.columns(cursor.query)
        if cursor.query.is_assigning():
            raise Failure(49007)
        rows = scope.rows_of(cursor.query)
    cursor.columns, cursor.rows = len(columns), rows
    return session.succeeds(statement)


@meaning_of(trees.Fetch)
def fetch(session, _around, statement):
    """A row whose values can't be assigned is gone; past the last one nothing is assigned."""
    cursor = cursor_of(session, statement.name, is_open=True)
    if len(statement.variables) != cursor.columns:
        raise Failure(49012)
    if not cursor.rows:
        session.fetch_status = -1
        return session.succeeds(statement)
    session.assign(zip(statement.variables, cursor.rows.pop(0)))
    session.fetch_status = 0
    return session.succeeds(statement, 1)


@meaning_of(trees.CloseCursor)
def close_cursor(session, _around, statement):
    cursor_of(session, statement.name, is_open=True).rows = None
    return session.succeeds(statement)


@meaning_of(trees.Deallocate)
def deallocate(session, _around, statement):
    cursor_of(session, statement.name)
    del session.cursors[statement.name]
    return session.succeeds(statement)


# ---- the database


@meaning_of(trees.Use)
def use(session, around, statement):
    """There is one database, by two names; it is told by the first."""
    if statement.name not in ("main", "master"):
        raise Failure(911, statement.name)
    session.lines.append("ENVCHANGE 1 new 'main' old 'main'")
    text = "Changed database context to 'main'."
    session.tell("INFO", Raised(5701, 0, 1, text, around.procedure, statement.line, SERVER))
    return session.succeeds(statement)
