"""A second reading of the locks of two sessions, and of what their statements ask of the engine for constraints.

It was written from docs/ENGINE.md, docs/WRITES.md and docs/CONSTRAINTS.md, apart from the server. `engine` has the entries,
the locks and the waits; `tables` a CREATE TABLE, and which index rows a row has; `session` what a batch asks, as a generator
that yields where it waits; `world` two sessions beside one another.

It covers tables of INT and NVARCHAR columns with PRIMARY KEY, UNIQUE and FOREIGN KEY; INSERT of values, UPDATE and DELETE
with a WHERE that joins comparisons by AND, SELECT of columns or of a COUNT or a SUM, from one table; BEGIN, SAVE, COMMIT and
ROLLBACK of a transaction; SET of LOCK_TIMEOUT and of the isolation level. It has no CHECK and no NOT NULL but of keys, no
triggers, and no reads of definitions: tables are created before the other session begins. Of two that have done as much in a
circle the greater number falls; there are no priorities. What it doesn't read is `Unread`."""
from locks.world import Unread, World

__all__ = ["Unread", "World"]
