# Parameters and transactions by pymssql, which writes parameters into the text; its arguments are host and port.
import sys

import pymssql

create, procedure = open("drivers.sql").read().split("\ngo\n")


def show(*values):
    print(*("NULL" if value is None else int(value) if isinstance(value, bool) else value or "''" for value in values))


def tried(text, values):
    try:
        run.execute(text, values)
    except pymssql.Error as error:
        print(error)


db = pymssql.connect(server=sys.argv[1], port=sys.argv[2], user="sa", password="A")
run = db.cursor()
run.execute(create)
run.execute(procedure)
insert = "INSERT INTO parts VALUES (%s, %s, %s, %s)"
run.execute(insert, (1, 2**40, True, "bolt"))
print(run.rowcount, "added")
run.executemany(insert, [(2, None, False, ""), (3, 7, None, None), (4, 8, True, "Žé€")])
db.commit()
run.execute("SELECT id, weight, sold, name FROM parts WHERE id >= %s AND id < %s ORDER BY id", (1, 5))
for row in run.fetchall():
    show(*row)
tried(insert, (2, 1, True, "again"))
tried(insert, (5, -1, True, "light"))
run.execute(insert, (5, 9, True, "gone"))
db.rollback()
for number in (1, 4):
    run.execute("SELECT name FROM parts WHERE id = %s", number)
    print(run.fetchone()[0])
told = run.callproc("add_part", (5, "nut", pymssql.output(int)))
show(run.returnvalue, told[2])
run.execute("SELECT LEN(%s)", "x" * 4000)
print("long", run.fetchone()[0])
tried("SELECT LEN(%s)", "x" * 4001)
