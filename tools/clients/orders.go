// Runs the batches of orders.sql by go-mssqldb; its arguments are host and port.
package main

import (
	"database/sql"
	"fmt"
	"os"
	"strings"

	_ "github.com/denisenkom/go-mssqldb"
)

func must(err error) {
	if err != nil {
		panic(err)
	}
}

func main() {
	text, err := os.ReadFile("orders.sql")
	must(err)
	b := strings.Split(string(text), "\ngo\n")
	create, fill, totals, procedure, call, status, wrong, cursor := b[0], b[1], b[2], b[3], b[4], b[5], b[6], b[7]

	db, err := sql.Open("mssql", "server="+os.Args[1]+";port="+os.Args[2]+";user id=sa;password=A")
	must(err)
	_, err = db.Exec(create)
	must(err)
	_, err = db.Exec(fill)
	must(err)
	rows, err := db.Query(totals)
	must(err)
	for rows.Next() {
		var customer string
		var total sql.NullInt64
		must(rows.Scan(&customer, &total))
		if total.Valid {
			fmt.Println(customer, total.Int64)
		} else {
			fmt.Println(customer, "NULL")
		}
	}
	must(rows.Err())
	_, err = db.Exec(procedure)
	must(err)
	var line, code, digits int
	must(db.QueryRow(call).Scan(&line))
	fmt.Println(line)
	must(db.QueryRow(status).Scan(&line, &code))
	fmt.Println(line, code)
	for _, insert := range strings.Split(wrong, ";") {
		_, err = db.Exec(insert)
		fmt.Println(err)
	}
	must(db.QueryRow(cursor).Scan(&digits))
	fmt.Println(digits)
}
