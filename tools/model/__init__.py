"""A model of the language, written from its documents (docs/LANGUAGE.md, docs/language) and from the definitions of
crates/batch_meaning/specs, by hand and apart from the server. It knows nothing of the server's code: what both answer
alike, two readings of the same rules have come to.

    session = model.Session()
    session.batch("SELECT 1 AS one")    # the lines of the reply, as the files of rows write them

It covers, whole: procedures and calls, triggers, transactions with their savepoints, own transactions of a statement,
errors with what they end and which TRY catches them, RAISERROR and THROW, the options, @@ROWCOUNT, @@ERROR,
@@TRANCOUNT, @@FETCH_STATUS and the functions of an error, variables, IF, WHILE and blocks, cursors, the refusals 137
and 49013 of a text, transaction manager requests, and calls by RPC with the statements that they prepare. In part:
tables with a PRIMARY KEY, NOT NULL, and CHECK and REFERENCES of a column; INSERT, UPDATE and DELETE; queries of joins,
WHERE, GROUP BY and ORDER BY with tests of AND, OR, NOT, EXISTS, IS NULL and comparisons, and COUNT, SUM, MIN and MAX.

A text that holds anything else raises Unread: comments in /* */, DISTINCT, TOP, HAVING, CASE, IN, BETWEEN, functions but LEN,
tests in parentheses, constraints of a table but its key. So does a text that the grammar refuses, since the model
can't tell one from the other, and a batch of more than 20,000 statements and pairs of rows. There is one session, and
so no lock is waited for. The limits of definitions, names, nesting, bytes and memory are left out, and so is the
refusal of a column that is neither aggregated nor grouped.

Read it in this order: `lexemes` and `trees` (what a text consists of), `phrases` and `reader` (text to trees),
`values` (kinds and conversions), `errors` (their table), `database` (what a transaction takes back), `session` (what
a session keeps, and where an error goes), `answers` (queries and expressions); then what statements do: `statements`,
`writes`, `calls`; and last `requests` and `drivers`, what drivers send, by `payloads`, the bytes of calls."""
from . import calls, requests, statements, writes  # each tells the session what its statements mean
from .drivers import Calls
from .lexemes import Unread
from .payloads import Refused
from .session import Session
