# Beside its other, with LOCK_TIMEOUT 0 and then in a deadlock, by pyodbc; its argument is 1 or 2.
import sys

import pyodbc

me = int(sys.argv[1])
db = pyodbc.connect("DRIVER=FreeTDS;SERVERNAME=tsqld;UID=sa;PWD=A")
run = db.cursor()
run.execute(f"INSERT INTO seat VALUES ({me})")
run.execute("SET LOCK_TIMEOUT 0")
try:
    while True:  # until the other has its row
        run.execute(f"SELECT id FROM seat WHERE id = {3 - me}").fetchall()
except pyodbc.Error as error:
    print(error)
run.execute("SET LOCK_TIMEOUT -1")
try:
    run.execute(f"INSERT INTO seat VALUES ({3 - me})")
    db.commit()
    print("committed")
except pyodbc.Error as error:
    print(error)
