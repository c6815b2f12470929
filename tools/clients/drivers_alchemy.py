# Statements and objects of SQLAlchemy, with its defaults; its arguments are host, port and the driver, pyodbc or pymssql.
import sys
from urllib.parse import quote_plus

from sqlalchemy import BigInteger, Boolean, CheckConstraint, Column, Integer, Unicode
from sqlalchemy import create_engine, exc, func, insert, select, text
from sqlalchemy.orm import Session, declarative_base

_table, procedure = open("drivers.sql").read().split("\ngo\n")
host, port, driver = sys.argv[1:]
by_odbc = quote_plus("DRIVER=FreeTDS;SERVERNAME=tsqld;UID=sa;PWD=A")
server = f"sa:A@{host}:{port}/" if driver == "pymssql" else f"?odbc_connect={by_odbc}"


class Part(declarative_base()):
    __tablename__ = "parts"
    __table_args__ = (CheckConstraint("weight > 0"),)
    id = Column(Integer, primary_key=True, autoincrement=False)
    weight = Column(BigInteger)
    sold = Column(Boolean)
    name = Column(Unicode(20))


def show(*values):
    print(*("NULL" if value is None else int(value) if isinstance(value, bool) else value or "''" for value in values))


def tried(**values):
    try:
        with db.begin_nested():
            db.execute(insert(Part).values(**values))
    except exc.IntegrityError as error:
        print(error.orig)


engine = create_engine(f"mssql+{driver}://{server}")
Part.metadata.create_all(engine, checkfirst=False)
with Session(engine) as db:
    db.execute(text(procedure))
    print(db.execute(insert(Part).values(id=1, weight=2**40, sold=True, name="bolt")).rowcount, "added")
    db.add_all([Part(id=2, sold=False, name=""), Part(id=3, weight=7), Part(id=4, weight=8, sold=True, name="Žé€")])
    db.commit()
    for part in db.scalars(select(Part).where(Part.id >= 1, Part.id < 5).order_by(Part.id)):
        show(part.id, part.weight, part.sold, part.name)
    tried(id=2, weight=1, sold=True, name="again")
    tried(id=5, weight=-1, sold=True, name="light")
    db.get(Part, 4).name = "gone"
    db.flush()
    db.rollback()
    for number in (1, 4):
        print(db.get(Part, number).name)
    call = "DECLARE @n INT, @status INT; EXEC @status = add_part :id, :name, @n OUTPUT; SELECT @status, @n"
    show(*db.execute(text(call), {"id": 5, "name": "nut"}).one())
    print("long", db.scalar(select(func.len("x" * 4000))))
    db.get(Part, 3).weight = 70
    db.delete(db.get(Part, 2))
    db.commit()
    print(db.scalar(select(func.count()).select_from(Part)), "left, the last:")
    show(*db.execute(select(Part.name, Part.weight).order_by(Part.id.desc()).limit(1)).one())
