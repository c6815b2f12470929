import pyodbc

db = pyodbc.connect("DRIVER=FreeTDS;SERVERNAME=tsqld;UID=sa;PWD=A")
run = db.cursor()
run.execute("CREATE TABLE parts (id INT NOT NULL PRIMARY KEY, name NVARCHAR(20))")
run.executemany("INSERT INTO parts VALUES (?, ?)", [(1, "bolt"), (2, None)])
db.commit()
for number, name in run.execute("SELECT id, name FROM parts WHERE id < ?", 3):
    print(number, name or "NULL")
