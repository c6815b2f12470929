# Runs the batches of orders.sql by pyodbc.
import pyodbc

batches = open("orders.sql").read().split("\ngo\n")
create, fill, totals, procedure, call, status, wrong, cursor = batches[:8]

db = pyodbc.connect("DRIVER=FreeTDS;SERVERNAME=tsqld;UID=sa;PWD=A")
run = db.cursor()
run.execute(create)
run.execute(fill)
for customer, total in run.execute(totals):
    print(customer, "NULL" if total is None else total)
run.execute(procedure)
print(run.execute(call).fetchval())
print(*run.execute(status).fetchone())
for insert in wrong.split(";"):
    try:
        run.execute(insert)
    except pyodbc.IntegrityError as error:
        print(error)
print(run.execute(cursor).fetchval())
db.commit()
