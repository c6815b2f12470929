// Ten transfers between four accounts, and one of more than there is, by go-mssqldb; its arguments are host, port and the
// client's number.
package main

import (
	"context"
	"database/sql"
	"fmt"
	"os"
	"strconv"

	mssql "github.com/denisenkom/go-mssqldb"
)

const transfer = `UPDATE account SET balance = balance + %d WHERE id = %d
UPDATE account SET balance = balance - %d WHERE id = %d`

func must(err error) {
	if err != nil {
		panic(err)
	}
}

func main() {
	me, err := strconv.Atoi(os.Args[3])
	must(err)
	ctx := context.Background()
	db, err := sql.Open("mssql", "server="+os.Args[1]+";port="+os.Args[2]+";user id=sa;password=A")
	must(err)
	c, err := db.Conn(ctx)
	must(err)
	_, err = c.ExecContext(ctx, "SET XACT_ABORT ON")
	must(err)
	done, fell, amount := 0, 0, 1
	for done < 11 {
		if done == 10 {
			amount = 1000
		}
		tx, err := c.BeginTx(ctx, nil)
		must(err)
		_, err = tx.ExecContext(ctx, fmt.Sprintf(transfer, amount, 1+(me+done)%4, amount, 1+(me+done+1)%4))
		if err == nil {
			err = tx.Commit()
		} else {
			tx.Rollback() // that of a victim is refused: nothing is open
		}
		if e, is := err.(mssql.Error); is && e.Number == 1205 {
			fell++ // again
			continue
		}
		if err != nil {
			fmt.Printf("%d transfers, fell %d\n%v\n", done, fell, err)
			break
		}
		done++
	}
}
