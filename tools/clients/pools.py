# A connection that was given back to the pool and is taken again, by pyodbc, whose pool is that of unixODBC, or pytds; its
# arguments are that, host and port.
import importlib
import sys

driver, host, port = sys.argv[1:]
module = importlib.import_module(driver)
mark = "?" if driver == "pyodbc" else "%s"
add = f"INSERT INTO shelf VALUES ({mark})"


def connect(pooled=True):
    if driver == "pyodbc":  # another name of the application is another pool
        return module.connect(f"DRIVER=FreeTDS;SERVERNAME=tsqld;UID=sa;PWD=A;APP={'pool' if pooled else 'beside'}")
    return module.connect(host, port=int(port), user="sa", password="A", pooling=pooled)


def taken_again(what):
    """Gives what was taken back, takes it again, and tells how many rows there are."""
    global db, run
    db.close()
    db = connect()
    run = db.cursor()
    run.execute(f"SELECT COUNT(*) FROM shelf WHERE id > {mark}", (0,))
    print(what, run.fetchone()[0])


db = connect()
run = db.cursor()
run.execute("DECLARE mark CURSOR STATIC FOR SELECT id FROM shelf")
db.commit()
run.execute(add, (2,))
taken_again("open")
db.close()
beside = connect(False)
beside.cursor().execute("SET LOCK_TIMEOUT 0")
beside.cursor().execute(add, (2,))
beside.commit()
print("free")
db = connect()
run = db.cursor()
try:
    run.execute(add, (1,))
except module.IntegrityError as error:
    print(error)
taken_again("failed")
run.execute(f"SELECT id FROM shelf WHERE id > {mark}", (0,))
run.fetchone()
taken_again("unread")
try:
    run.execute("DEALLOCATE mark")
    print("the same session")
except module.Error as error:
    print(error)
