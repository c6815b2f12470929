// A connection that was given back to the pool of database/sql and is taken again; its arguments are host and port.
package main

import (
	"database/sql"
	"fmt"
	"os"

	_ "github.com/denisenkom/go-mssqldb"
)

const add = "INSERT INTO shelf VALUES (?)"

func must(err error) {
	if err != nil {
		panic(err)
	}
}

func open() *sql.DB {
	db, err := sql.Open("mssql", "server="+os.Args[1]+";port="+os.Args[2]+";user id=sa;password=A")
	must(err)
	db.SetMaxOpenConns(1)
	return db
}

// Takes the one connection of the pool again, tells how many rows there are, and gives it back.
func again(db *sql.DB, what string) {
	var count int
	must(db.QueryRow("SELECT COUNT(*) FROM shelf WHERE id > ?", 0).Scan(&count))
	fmt.Println(what, count)
}

func main() {
	db, beside := open(), open()
	_, err := db.Exec("DECLARE mark CURSOR STATIC FOR SELECT id FROM shelf")
	must(err)
	tx, err := db.Begin()
	must(err)
	_, err = tx.Exec(add, 2)
	must(err)
	must(tx.Rollback()) // which gives the connection back
	again(db, "open")
	_, err = beside.Exec("SET LOCK_TIMEOUT 0")
	must(err)
	_, err = beside.Exec(add, 2)
	must(err)
	fmt.Println("free")
	_, err = db.Exec(add, 1)
	fmt.Println(err)
	again(db, "failed")
	rows, err := db.Query("SELECT id FROM shelf WHERE id > ?", 0)
	must(err)
	rows.Next()
	must(rows.Close())
	again(db, "unread")
	_, err = db.Exec("DEALLOCATE mark")
	must(err)
	fmt.Println("the same session")
}
