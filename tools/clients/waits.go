// Beside its other in a deadlock, by parameters of go-mssqldb, and again behind it; its arguments are host, port and 1 or 2.
package main

import (
	"database/sql"
	"fmt"
	"os"
	"strconv"

	_ "github.com/denisenkom/go-mssqldb"
)

const add = "UPDATE stock SET amount = amount + ? WHERE id = ?"

func must(err error) {
	if err != nil {
		panic(err)
	}
}

func begin(db *sql.DB, first int) *sql.Tx {
	tx, err := db.Begin()
	must(err)
	_, err = tx.Exec(add, 10, first)
	must(err)
	return tx
}

func main() {
	me, err := strconv.Atoi(os.Args[3])
	must(err)
	other := 3 - me
	db, err := sql.Open("mssql", "server="+os.Args[1]+";port="+os.Args[2]+";user id=sa;password=A")
	must(err)
	tx := begin(db, me)
	_, err = tx.Exec("SET LOCK_TIMEOUT 0")
	must(err)
	for err == nil { // until the other has its row
		var amount int
		err = tx.QueryRow("SELECT amount FROM stock WHERE id = ?", other).Scan(&amount)
	}
	fmt.Println(err)
	_, err = tx.Exec("SET LOCK_TIMEOUT -1")
	must(err)
	_, err = tx.Exec(add, 10, other)
	if err != nil {
		fmt.Println(err)
		tx.Rollback()
		tx = begin(db, other) // as soon as the other has committed
		_, err = tx.Exec(add, 10, me)
		must(err)
	}
	must(tx.Commit())
	fmt.Println("committed")
}
