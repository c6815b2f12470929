// Beside its other, with LOCK_TIMEOUT 0 and then in a deadlock, by go-mssqldb; its arguments are host, port and 1 or 2.
package main

import (
	"context"
	"database/sql"
	"fmt"
	"os"
	"strconv"

	_ "github.com/denisenkom/go-mssqldb"
)

func must(err error) {
	if err != nil {
		panic(err)
	}
}

func main() {
	me, err := strconv.Atoi(os.Args[3])
	must(err)
	ctx := context.Background()
	db, err := sql.Open("mssql", "server="+os.Args[1]+";port="+os.Args[2]+";user id=sa;password=A")
	must(err)
	tx, err := db.BeginTx(ctx, nil)
	must(err)
	_, err = tx.ExecContext(ctx, fmt.Sprintf("INSERT INTO seat VALUES (%d)", me))
	must(err)
	_, err = tx.ExecContext(ctx, "SET LOCK_TIMEOUT 0")
	must(err)
	for err == nil { // until the other has its row
		var n int
		err = tx.QueryRowContext(ctx, fmt.Sprintf("SELECT COUNT(*) FROM seat WHERE id = %d", 3-me)).Scan(&n)
	}
	fmt.Println(err)
	_, err = tx.ExecContext(ctx, "SET LOCK_TIMEOUT -1")
	must(err)
	_, err = tx.ExecContext(ctx, fmt.Sprintf("INSERT INTO seat VALUES (%d)", 3-me))
	if err == nil {
		must(tx.Commit())
		fmt.Println("committed")
	} else {
		fmt.Println(err)
	}
}
