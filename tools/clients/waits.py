# Beside its other in a deadlock, by parameters, and again behind it; its arguments are pyodbc, pymssql or pytds, host, port and
# 1 or 2.
import importlib
import sys

driver, host, port, number = sys.argv[1:]
module = importlib.import_module(driver)
connect = {
    "pyodbc": lambda: module.connect("DRIVER=FreeTDS;SERVERNAME=tsqld;UID=sa;PWD=A"),
    "pymssql": lambda: module.connect(server=host, port=port, user="sa", password="A"),
    "pytds": lambda: module.connect(host, port=int(port), user="sa", password="A"),
}
me = int(number)
other = 3 - me
mark = "?" if driver == "pyodbc" else "%s"
add = f"UPDATE stock SET amount = amount + {mark} WHERE id = {mark}"
find = f"SELECT amount FROM stock WHERE id = {mark}"
db = connect[driver]()
run = db.cursor()
run.execute(add, (10, me))
run.execute("SET LOCK_TIMEOUT 0")
try:
    while True:  # until the other has its row
        run.execute(find, (other,))
        run.fetchall()
except module.Error as error:
    print(error)
run.execute("SET LOCK_TIMEOUT -1")
try:
    run.execute(add, (10, other))
    db.commit()
except module.Error as error:
    print(error)
    if driver == "pymssql":
        run.execute("BEGIN TRANSACTION")  # its rollback is an error behind 1205
    else:
        db.rollback()
    run.execute(add, (10, other))  # as soon as the other has committed
    run.execute(add, (10, me))
    db.commit()
print("committed")
