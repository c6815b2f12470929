# Parameters, prepared statements and transactions by pyodbc, with its defaults.
import pyodbc

create, procedure = open("drivers.sql").read().split("\ngo\n")


def show(*values):
    print(*("NULL" if value is None else int(value) if isinstance(value, bool) else value or "''" for value in values))


def tried(text, *values):
    try:
        run.execute(text, *values)
    except pyodbc.IntegrityError as error:
        print(error)


db = pyodbc.connect("DRIVER=FreeTDS;SERVERNAME=tsqld;UID=sa;PWD=A")
run = db.cursor()
run.execute(create)
run.execute(procedure)
insert = "INSERT INTO parts VALUES (?, ?, ?, ?)"
run.execute(insert, 1, 2**40, True, "bolt")
print(run.rowcount, "added")
run.executemany(insert, [(2, None, False, ""), (3, 7, None, None), (4, 8, True, "Žé€")])
db.commit()
for row in run.execute("SELECT id, weight, sold, name FROM parts WHERE id >= ? AND id < ? ORDER BY id", 1, 5):
    show(*row)
tried(insert, 2, 1, True, "again")
tried(insert, 5, -1, True, "light")
run.execute(insert, 5, 9, True, "gone")
db.rollback()
for number in (1, 4):
    print(run.execute("SELECT name FROM parts WHERE id = ?", number).fetchval())
call = "DECLARE @n INT, @status INT; EXEC @status = add_part ?, ?, @n OUTPUT; SELECT @status, @n"
show(*run.execute(call, 5, "nut").fetchone())
print("long", run.execute("SELECT LEN(?)", "x" * 4000).fetchval())
db.commit()
