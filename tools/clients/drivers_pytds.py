# Parameters, transactions and a pool by pytds; its arguments are host and port.
import sys

import pytds

create, procedure = open("drivers.sql").read().split("\ngo\n")


def show(*values):
    print(*("NULL" if value is None else int(value) if isinstance(value, bool) else value or "''" for value in values))


def tried(text, values):
    try:
        run.execute(text, values)
    except pytds.Error as error:
        print(error)


def connect():
    return pytds.connect(sys.argv[1], port=int(sys.argv[2]), user="sa", password="A", pooling=True)


db = connect()
run = db.cursor()
run.execute(create)
run.execute(procedure)
insert = "INSERT INTO parts VALUES (%s, %s, %s, %s)"
run.execute(insert, (1, 2**40, True, "bolt"))
print(run.rowcount, "added")
run.executemany(insert, [(2, None, False, ""), (3, 7, None, None), (4, 8, True, "Žé€")])
db.commit()
run.execute("SELECT id, weight, sold, name FROM parts WHERE id >= %s AND id < %s ORDER BY id", (1, 5))
for row in run.fetchall():
    show(*row)
tried(insert, (2, 1, True, "again"))
tried(insert, (5, -1, True, "light"))
run.execute(insert, (5, 9, True, "gone"))
db.rollback()
for number in (1, 4):
    print(run.execute_scalar("SELECT name FROM parts WHERE id = %s", (number,)))
told = run.callproc("add_part", (5, "nut", pytds.output(param_type=int)))
show(run.get_proc_return_status(), told[2])
print("long", run.execute_scalar("SELECT LEN(%s)", ("x" * 4000,)))
try:
    run.execute("SELECT LEN(%s)", ("x" * 4001,))
except pytds.Error as error:
    print(error)
db.commit()
run.execute(insert, (6, 9, True, "gone"))
db.close()  # into the pool, from where it comes anew
db = connect()
print("parts", db.cursor().execute_scalar("SELECT COUNT(*) FROM parts"))
db.close()
