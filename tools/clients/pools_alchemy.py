# A connection that was given back to the pool of SQLAlchemy and is taken again; its arguments are host, port and the driver.
import sys
from urllib.parse import quote_plus

from sqlalchemy import create_engine, exc, pool, text

host, port, driver = sys.argv[1:]
by_odbc = quote_plus("DRIVER=FreeTDS;SERVERNAME=tsqld;UID=sa;PWD=A")
server = f"mssql+{driver}://" + (f"sa:A@{host}:{port}/" if driver == "pymssql" else f"?odbc_connect={by_odbc}")
engine = create_engine(server, future=True, pool_size=1, max_overflow=0)
beside = create_engine(server, future=True, poolclass=pool.NullPool)
add = text("INSERT INTO shelf VALUES (:id)")


def again(what):
    """Takes the one connection of the pool, tells how many rows there are, and gives it back."""
    with engine.connect() as db:
        print(what, db.scalar(text("SELECT COUNT(*) FROM shelf WHERE id > :id"), {"id": 0}))


with engine.begin() as db:
    db.execute(text("DECLARE mark CURSOR STATIC FOR SELECT id FROM shelf"))
db = engine.connect()
db.execute(add, {"id": 2})
db.close()
again("open")
with beside.begin() as other:
    other.execute(text("SET LOCK_TIMEOUT 0"))
    other.execute(add, {"id": 2})
print("free")
try:
    with engine.begin() as db:
        db.execute(add, {"id": 1})
except exc.IntegrityError as error:
    print(error.orig)
again("failed")
db = engine.connect()
db.execute(text("SELECT id FROM shelf WHERE id > :id"), {"id": 0}).fetchone()
db.close()
again("unread")
with engine.begin() as db:
    db.execute(text("DEALLOCATE mark"))
print("the same session")
