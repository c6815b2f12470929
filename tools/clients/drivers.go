// Parameters, prepared statements and transactions by go-mssqldb; its arguments are host and port.
package main

import (
	"database/sql"
	"fmt"
	"os"
	"strings"

	_ "github.com/denisenkom/go-mssqldb"
)

func must(err error) {
	if err != nil {
		panic(err)
	}
}

func shown(valid bool, value interface{}) string {
	if !valid {
		return "NULL"
	}
	if value == "" {
		return "''"
	}
	return fmt.Sprint(value)
}

func main() {
	file, err := os.ReadFile("drivers.sql")
	must(err)
	db, err := sql.Open("mssql", "server="+os.Args[1]+";port="+os.Args[2]+";user id=sa;password=A")
	must(err)
	db.SetMaxOpenConns(1)
	for _, text := range strings.Split(string(file), "\ngo\n") {
		_, err = db.Exec(text)
		must(err)
	}
	insert := "INSERT INTO parts VALUES (?, ?, ?, ?)"
	done, err := db.Exec(insert, 1, int64(1)<<40, true, "bolt")
	must(err)
	count, err := done.RowsAffected()
	must(err)
	fmt.Println(count, "added")
	tx, err := db.Begin()
	must(err)
	add, err := tx.Prepare(insert)
	must(err)
	for _, row := range [][]interface{}{{2, nil, false, ""}, {3, 7, nil, nil}, {4, 8, true, "Žé€"}} {
		_, err = add.Exec(row...)
		must(err)
	}
	must(tx.Commit())
	rows, err := db.Query("SELECT id, weight, sold, name FROM parts WHERE id >= ? AND id < ? ORDER BY id", 1, 5)
	must(err)
	for rows.Next() {
		var id int
		var weight, sold sql.NullInt64
		var name sql.NullString
		var is sql.NullBool
		must(rows.Scan(&id, &weight, &is, &name))
		sold.Valid = is.Valid
		if is.Bool {
			sold.Int64 = 1
		}
		fmt.Println(id, shown(weight.Valid, weight.Int64), shown(sold.Valid, sold.Int64), shown(name.Valid, name.String))
	}
	must(rows.Err())
	_, err = db.Exec(insert, 2, 1, true, "again")
	fmt.Println(err)
	_, err = db.Exec(insert, 5, -1, true, "light")
	fmt.Println(err)
	tx, err = db.Begin()
	must(err)
	_, err = tx.Exec(insert, 5, 9, true, "gone")
	must(err)
	must(tx.Rollback())
	find, err := db.Prepare("SELECT name FROM parts WHERE id = ?")
	must(err)
	for _, number := range []int{1, 4} {
		var name string
		must(find.QueryRow(number).Scan(&name))
		fmt.Println(name)
	}
	must(find.Close())
	var status, parts, long int
	call := "DECLARE @n INT, @status INT; EXEC @status = add_part ?, ?, @n OUTPUT; SELECT @status, @n"
	must(db.QueryRow(call, 5, "nut").Scan(&status, &parts))
	fmt.Println(status, parts)
	must(db.QueryRow("SELECT LEN(?)", strings.Repeat("x", 4000)).Scan(&long))
	fmt.Println("long", long)
	fmt.Println(db.QueryRow("SELECT LEN(?)", strings.Repeat("x", 4001)).Scan(&long))
}
