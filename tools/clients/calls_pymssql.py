# Calls a procedure with an OUTPUT parameter by pymssql; its arguments are host and port.
import sys

import pymssql

db = pymssql.connect(server=sys.argv[1], port=sys.argv[2], user="sa", password="A")
run = db.cursor()
run.execute("CREATE TABLE parts (id INT NOT NULL PRIMARY KEY, name NVARCHAR(20))")
run.execute(
    "CREATE PROCEDURE add_part @id INT, @name NVARCHAR(20), @count INT OUTPUT AS BEGIN"
    " INSERT INTO parts VALUES (@id, @name); SELECT @count = COUNT(*) FROM parts; RETURN 7 END"
)
for number in (1, 2):
    print(run.callproc("add_part", (number, f"part {number}", pymssql.output(int))))
run.execute("SELECT id, name FROM parts")
print(run.fetchall())
try:
    run.callproc("add_part", (1, "again", pymssql.output(int)))
except Exception as error:
    print(error)
db.commit()
