"""EXEC: what a call runs, and what it gives back. And how the body of a procedure or trigger runs."""
from . import trees
from .errors import S, raised_by
from .session import END, Exit, Variable, Way, meaning_of, variables_of
from .values import Failure, converted

DEPTH_LIMIT = 32


def run_body(session, around, body, variables, options):
    """How a body is left, and its variables. Those around it, and the options, come back behind it."""
    outer = session.variables, session.options
    session.variables, session.options = {**variables, **variables_of(body)}, options
    exit = session.run_all(around, body)
    inner = session.variables
    session.variables, session.options = outer
    return exit, inner


@meaning_of(trees.Execute)
def execute(session, around, statement):
    with session.own(session.asks(around, statement, [statement.name])):
        procedure, arguments, variables = found_call(session, around, statement)
    count = session.count()
    inside = around.within_body(procedure.name, None)
    exit, inner = run_body(session, inside, procedure.body, variables, session.options)
    if exit.way in (Way.RAISE, Way.RAISE_UP):
        session.row_count = 0
        return Exit(Way.RAISE, exit.of)
    if exit == END:
        session.row_count = 0
        return END
    status = exit.of if exit.way == Way.RETURN else 0
    give_back(session, statement, procedure, arguments, inner, status)
    ended = [f"RETURNSTATUS {status}", "PROC(01,0,0)"]
    if not session.is_even(count):
        return uneven(session, around, statement, ended)
    session.lines += ended
    return session.succeeds(statement)


def found_call(session, around, statement):
    """The procedure, its arguments in the order of its parameters, and its variables with their values."""
    procedure = session.found(around, statement, statement.name)
    if not isinstance(procedure, trees.Procedure):
        raise Failure(2812, statement.name)
    if around.depth >= DEPTH_LIMIT:
        raise Failure(217)
    arguments = matched(procedure.parameters, statement.arguments)
    variables = {}
    for parameter, argument in zip(procedure.parameters, arguments):
        value = converted(argument_value(session, argument), parameter.kind)
        variables[parameter.name] = Variable(parameter.kind, value)
    return procedure, arguments, variables


def argument_value(session, argument):
    is_variable = isinstance(argument.value, trees.Variable)
    return session.variable(argument.value.name).value if is_variable else argument.value


def matched(parameters, arguments):
    """The arguments in the order of the parameters. One with a name is for that parameter, another for that at its
    own place."""
    names = [parameter.name for parameter in parameters]
    found = {}
    for place, argument in enumerate(arguments):
        name = argument.parameter or (names[place] if place < len(names) else None)
        if name not in names or name in found or not may_be_for(argument, parameters[names.index(name)]):
            raise Failure(49012)
        found[name] = argument
    if len(found) < len(names):
        raise Failure(49012)
    return [found[name] for name in names]


def may_be_for(argument, parameter):
    """OUTPUT stands only on a variable, for a parameter that is OUTPUT."""
    return not argument.is_output or (parameter.is_output and isinstance(argument.value, trees.Variable))


def give_back(session, statement, procedure, arguments, inner, status):
    """The status, and then the OUTPUT variables in the order of the parameters: all of them, or none."""
    sets = [(statement.status, status)] if statement.status else []
    for parameter, argument in zip(procedure.parameters, arguments):
        if argument.is_output:
            sets.append((argument.value.name, inner[parameter.name].value))
    session.assign(sets)


def uneven(session, around, statement, ended):
    """A procedure has ended with another @@TRANCOUNT than it began with: told in front of its end, or by nothing
    where a TRY catches it."""
    raised = raised_by(Failure(266), around.procedure, statement.line)
    session.row_count, session.error = 0, raised.number
    if around.catches(raised):
        session.lines += ended
        return session.caught(raised)
    session.tell("ERROR", raised)
    if raised.ends(session.options.xact_abort) == S:
        session.lines += ended
    return session.ended_by(raised)
