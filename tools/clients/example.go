package main

import (
	"database/sql"
	"fmt"
	"os"

	_ "github.com/denisenkom/go-mssqldb"
)

func must(err error) {
	if err != nil {
		panic(err)
	}
}

func main() {
	db, err := sql.Open("mssql", "server="+os.Args[1]+";port="+os.Args[2]+";user id=sa;password=A")
	must(err)
	_, err = db.Exec("CREATE TABLE parts (id INT NOT NULL PRIMARY KEY, name NVARCHAR(20))")
	must(err)
	tx, err := db.Begin()
	must(err)
	_, err = tx.Exec("INSERT INTO parts VALUES (?, ?), (?, ?)", 1, "bolt", 2, nil)
	must(err)
	must(tx.Commit())
	rows, err := db.Query("SELECT id, name FROM parts WHERE id < ?", 3)
	must(err)
	for rows.Next() {
		var number int
		name := sql.NullString{}
		must(rows.Scan(&number, &name))
		if !name.Valid {
			name.String = "NULL"
		}
		fmt.Println(number, name.String)
	}
}
