# Beside its other in a deadlock, by statements of SQLAlchemy, and again behind it; its arguments are host, port, the driver and
# 1 or 2.
import sys
from urllib.parse import quote_plus

from sqlalchemy import create_engine, exc, text

host, port, driver, number = sys.argv[1:]
me = int(number)
other = 3 - me
by_odbc = quote_plus("DRIVER=FreeTDS;SERVERNAME=tsqld;UID=sa;PWD=A")
server = f"sa:A@{host}:{port}/" if driver == "pymssql" else f"?odbc_connect={by_odbc}"
engine = create_engine(f"mssql+{driver}://{server}")


def add(db, place):
    db.execute(text("UPDATE stock SET amount = amount + :more WHERE id = :id"), {"more": 10, "id": place})


def falls():
    """Whether the transaction falls in the deadlock; else it is committed."""
    with engine.connect() as db:
        begun = db.begin()
        add(db, me)
        db.execute(text("SET LOCK_TIMEOUT 0"))
        try:
            while True:  # until the other has its row
                db.execute(text("SELECT amount FROM stock WHERE id = :id"), {"id": other}).all()
        except exc.DBAPIError as error:
            print(error.orig)
        db.execute(text("SET LOCK_TIMEOUT -1"))
        try:
            add(db, other)
            begun.commit()
            return False
        except exc.DBAPIError as error:
            print(error.orig)
            db.invalidate()  # pymssql's rollback is an error behind 1205
            return True


if falls():
    with engine.begin() as db:
        add(db, other)  # as soon as the other has committed
        add(db, me)
print("committed")
