"""What a text consists of, as trees. The parts of each stand in the order of the text."""
from dataclasses import dataclass, fields, is_dataclass
from typing import Optional, Union

from .values import Kind


class TableName(str):
    """A name that is looked up as that of a table."""


# ---- expressions


@dataclass
class Number:
    value: int


@dataclass
class Text:
    value: str


@dataclass
class Null:
    pass


@dataclass
class Variable:
    name: str


@dataclass
class System:
    """`@@NAME`, or a function without arguments: its name, in capitals."""

    name: str


@dataclass
class ColumnName:
    reference: Optional[str]
    name: str


@dataclass
class Negative:
    of: "Expr"


@dataclass
class Computed:
    left: "Expr"
    sign: str
    right: "Expr"


@dataclass
class Cast:
    of: "Expr"
    kind: Kind


@dataclass
class Length:
    """LEN of a text."""

    of: "Expr"


@dataclass
class Aggregate:
    """COUNT(*) is of nothing."""

    function: str
    of: Optional["Expr"]


@dataclass
class Inner:
    """A query that stands as a value."""

    query: "Query"


Expr = Union[Number, Text, Null, Variable, System, ColumnName, Negative, Computed, Cast, Length, Aggregate, Inner]

# ---- tests


@dataclass
class Or:
    left: "Test"
    right: "Test"


@dataclass
class And:
    left: "Test"
    right: "Test"


@dataclass
class Not:
    test: "Test"


@dataclass
class Exists:
    query: "Query"


@dataclass
class IsNull:
    of: Expr


@dataclass
class Compared:
    left: Expr
    sign: str
    right: Expr


Test = Union[Or, And, Not, Exists, IsNull, Compared]

# ---- queries


@dataclass
class Star:
    pass


@dataclass
class Item:
    of: Expr
    name: str


@dataclass
class Assignment:
    """An item that assigns a variable."""

    variable: str
    of: Expr


@dataclass
class Reference:
    """A table of FROM. `kind` is CROSS, INNER or LEFT, how it is joined to what stands before it."""

    kind: str
    table: TableName
    name: str
    on: Optional[Test] = None


@dataclass
class Order:
    of: Expr
    is_descending: bool


@dataclass
class Query:
    items: list
    references: list
    where: Optional[Test]
    groups: list
    orders: list

    def is_assigning(self):
        return isinstance(self.items[0], Assignment)


# ---- statements


class Statement:
    """`line` is that of its first word."""

    line = 0


@dataclass
class Select(Statement):
    query: Query


@dataclass
class Insert(Statement):
    """`source` is a query, or a list of rows."""

    table: TableName
    columns: Optional[list]
    source: Union[Query, list]


@dataclass
class Update(Statement):
    """`sets` are pairs of a column's name and an expression."""

    table: TableName
    sets: list
    where: Optional[Test]


@dataclass
class Delete(Statement):
    table: TableName
    where: Optional[Test]


@dataclass
class CreateTable(Statement):
    table: "Table"


@dataclass
class Drop(Statement):
    """`kind` is the class of the definition."""

    kind: type
    name: str


@dataclass
class If(Statement):
    test: Test
    body: Statement
    otherwise: Optional[Statement]


@dataclass
class While(Statement):
    test: Test
    body: Statement


@dataclass
class Break(Statement):
    pass


@dataclass
class Continue(Statement):
    pass


@dataclass
class Block(Statement):
    body: list


@dataclass
class Try(Statement):
    body: list
    handler: list


@dataclass
class Print(Statement):
    of: Expr


@dataclass
class RaiseError(Statement):
    """Its text, class and state."""

    arguments: list


@dataclass
class Throw(Statement):
    """Its number, text and state; none where it raises an error again."""

    arguments: list


@dataclass
class Return(Statement):
    status: Optional[Expr]


@dataclass
class Declaration:
    name: str
    kind: Kind
    initial: Optional[Expr]


@dataclass
class Declare(Statement):
    declarations: list


@dataclass
class SetVariable(Statement):
    name: str
    of: Expr


@dataclass
class SetOption(Statement):
    """`option` is XACT_ABORT or NOCOUNT."""

    option: str
    is_on: bool


@dataclass
class SetOther(Statement):
    """Another option: whether its setting is known."""

    is_known: bool


@dataclass
class BeginTransaction(Statement):
    name: Optional[str]


@dataclass
class Commit(Statement):
    pass


@dataclass
class Rollback(Statement):
    name: Optional[str]


@dataclass
class Save(Statement):
    name: str


@dataclass
class DeclareCursor(Statement):
    name: str
    query: Query


@dataclass
class OpenCursor(Statement):
    name: str


@dataclass
class Fetch(Statement):
    name: str
    variables: list


@dataclass
class CloseCursor(Statement):
    name: str


@dataclass
class Deallocate(Statement):
    name: str


@dataclass
class Use(Statement):
    name: str


@dataclass
class Argument:
    """Of a call. `value` is a Variable, or a constant: a number, a text or None."""

    parameter: Optional[str]
    value: Union[Variable, int, str, None]
    is_output: bool


@dataclass
class Execute(Statement):
    """`status` is the variable that gets the procedure's status."""

    status: Optional[str]
    name: str
    arguments: list


# ---- definitions


@dataclass
class Column:
    name: str
    kind: Kind
    is_required: bool


@dataclass
class Foreign:
    """A column that refers to a table by its key."""

    column: str
    parent: TableName


@dataclass
class Table:
    name: str
    columns: list
    key: list
    checks: list
    foreigns: list

    def place(self, name):
        """Where the column of this name stands, or None."""
        return next((place for place, column in enumerate(self.columns) if column.name == name), None)


@dataclass
class Parameter:
    name: str
    kind: Kind
    is_output: bool


@dataclass
class Procedure:
    name: str
    parameters: list
    body: list
    line = 0


@dataclass
class Trigger:
    """`events` are INSERT, UPDATE and DELETE, those that it is for."""

    name: str
    table: str
    events: list
    body: list
    line = 0


# ---- what stands in a tree


def parts_of(tree):
    """What stands directly in a tree, but for the statements that a statement holds."""
    if is_dataclass(tree):
        parts = [getattr(tree, field.name) for field in fields(tree)]
    else:
        parts = tree if isinstance(tree, (list, tuple)) else []
    return [part for part in parts if not isinstance(part, Statement)]


def tables_in(tree):
    """The tables that a tree names, in the order of the text, each once."""
    if isinstance(tree, TableName):
        return [tree]
    found = [name for part in parts_of(tree) for name in tables_in(part)]
    if isinstance(tree, Table):
        found = [name for name in found if name != tree.name]
    return list(dict.fromkeys(found))


def inner_in(tree):
    """The inner queries that stand in a tree, in the order of the text, without those that stand in one of them."""
    if isinstance(tree, (Inner, Exists)):
        return [tree]
    return [inner for part in parts_of(tree) for inner in inner_in(part)]


def has_aggregate(tree):
    """Whether an aggregate stands in a tree; those of an inner query are its own."""
    if isinstance(tree, Aggregate):
        return True
    return not isinstance(tree, (Inner, Exists)) and any(map(has_aggregate, parts_of(tree)))


def declarations_in(statements):
    """The variables that statements declare, with their kinds, also those of a DECLARE that is never reached."""
    for statement in statements:
        if isinstance(statement, Declare):
            yield from ((one.name, one.kind) for one in statement.declarations)
        elif isinstance(statement, If):
            yield from declarations_in([statement.body])
            yield from declarations_in([statement.otherwise])
        elif isinstance(statement, While):
            yield from declarations_in([statement.body])
        elif isinstance(statement, Block):
            yield from declarations_in(statement.body)
        elif isinstance(statement, Try):
            yield from declarations_in(statement.body + statement.handler)
