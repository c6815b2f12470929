// Transfers of one by four workers over a pool; its arguments are host and port.
package main

import (
	"context"
	"database/sql"
	"fmt"
	"os"
	"sync"

	mssql "github.com/denisenkom/go-mssqldb"
)

func must(err error) {
	if err != nil {
		panic(err)
	}
}

func transfer(ctx context.Context, db *sql.DB, worker int) {
	c, err := db.Conn(ctx)
	must(err)
	for n := 0; n < 25; {
		_, err := c.ExecContext(ctx, fmt.Sprintf(`BEGIN TRANSACTION
	UPDATE account SET balance = balance - 1 WHERE id = %d
	UPDATE account SET balance = balance + 1 WHERE id = %d
	COMMIT`, (worker+n)%4, (worker+n+1+worker%2)%4))
		if e, is := err.(mssql.Error); is && e.Number == 1205 {
			continue // the victim of a deadlock: again
		}
		must(err)
		n++
	}
	must(c.Close())
}

func main() {
	ctx := context.Background()
	db, err := sql.Open("mssql", "server="+os.Args[1]+";port="+os.Args[2]+";user id=sa;password=A")
	must(err)
	_, err = db.Exec("CREATE TABLE account (id INT NOT NULL PRIMARY KEY, balance INT NOT NULL)")
	must(err)
	_, err = db.Exec("INSERT INTO account VALUES (0, 100), (1, 100), (2, 100), (3, 100)")
	must(err)
	var workers sync.WaitGroup
	for worker := 0; worker < 4; worker++ {
		workers.Add(1)
		go func(worker int) {
			defer workers.Done()
			transfer(ctx, db, worker)
		}(worker)
	}
	workers.Wait()
	var sum, count int
	must(db.QueryRow("SELECT SUM(balance), COUNT(*) FROM account").Scan(&sum, &count))
	fmt.Println(sum, count)
}
