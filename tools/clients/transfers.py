# Ten transfers between four accounts, and one of more than there is, by pyodbc; its argument is the client's number.
import sys

import pyodbc

me = int(sys.argv[1])
db = pyodbc.connect("DRIVER=FreeTDS;SERVERNAME=tsqld;UID=sa;PWD=A")
run = db.cursor()
run.execute("SET XACT_ABORT ON")
done = fell = 0
while done < 11:
    amount = 1 if done < 10 else 1000
    try:
        run.execute(f"UPDATE account SET balance = balance + {amount} WHERE id = {1 + (me + done) % 4}")
        run.execute(f"UPDATE account SET balance = balance - {amount} WHERE id = {1 + (me + done + 1) % 4}")
        db.commit()
        done += 1
    except pyodbc.IntegrityError as error:
        print(f"{done} transfers, fell {fell}\n{error}")
        break
    except pyodbc.ProgrammingError as error:
        if "(1205)" not in str(error):
            raise
        db.rollback()
        fell += 1  # again
