// Inserts and selects with parameters by go-mssqldb, which sends them by calls of sp_executesql; its arguments are host and port.
package main

import (
	"database/sql"
	"fmt"
	"os"

	_ "github.com/denisenkom/go-mssqldb"
)

func must(err error) {
	if err != nil {
		panic(err)
	}
}

func main() {
	db, err := sql.Open("mssql", "server="+os.Args[1]+";port="+os.Args[2]+";user id=sa;password=A")
	must(err)
	_, err = db.Exec("CREATE TABLE parts (id INT NOT NULL PRIMARY KEY, weight BIGINT, sold BIT, name NVARCHAR(20))")
	must(err)
	add, err := db.Prepare("INSERT INTO parts VALUES (?, ?, ?, ?)")
	must(err)
	for _, row := range [][]interface{}{{1, int64(1) << 40, true, "bolt"}, {2, nil, false, "nut"}, {3, 7, nil, nil}} {
		done, err := add.Exec(row...)
		must(err)
		count, err := done.RowsAffected()
		must(err)
		fmt.Println("added", count)
	}
	_, err = add.Exec(2, 1, true, "again")
	fmt.Println(err)
	rows, err := db.Query("SELECT id, weight, sold, name FROM parts WHERE id >= ? AND id < ? ORDER BY id", 1, 4)
	must(err)
	for rows.Next() {
		var id int
		var weight sql.NullInt64
		var sold sql.NullBool
		var name sql.NullString
		must(rows.Scan(&id, &weight, &sold, &name))
		fmt.Println(id, weight, sold, name)
	}
	must(rows.Err())
	var found int
	must(db.QueryRow("SELECT COUNT(*) FROM parts WHERE name = ?", "nut").Scan(&found))
	fmt.Println("found", found)
}
