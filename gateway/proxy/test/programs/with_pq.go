// lib/pq on rows from a number on: with_pq FIRST HOST PORT DATABASE. Prints what it gets.
package main

import (
	"database/sql"
	"fmt"
	"log"
	"os"
	"strconv"
	"sync"

	"github.com/lib/pq"
)

const (
	take  = "UPDATE stock SET pieces = pieces - $1 WHERE id = $2"
	order = "INSERT INTO orders (item, pieces) VALUES ($1, $2)"
)

// executor is a database or a transaction.
type executor interface {
	Exec(query string, values ...interface{}) (sql.Result, error)
}

func must(err error) {
	if err != nil {
		log.Fatal(err)
	}
}

// run runs a statement that has to succeed, and returns its count.
func run(it executor, query string, values ...interface{}) int64 {
	result, err := it.Exec(query, values...)
	must(err)
	count, err := result.RowsAffected()
	must(err)
	return count
}

// refused prints an error, which has to come.
func refused(what string, it executor, query string, values ...interface{}) {
	if _, err := it.Exec(query, values...); err != nil {
		told, _ := err.(*pq.Error)
		fmt.Println(what, told.Code, told.Table, told.Constraint)
		return
	}
	fmt.Println(what, "not refused")
}

// stock prints the rows.
func stock(what string, it *sql.DB, first int) {
	for _, query := range []string{
		"SELECT id, title, pieces FROM stock WHERE id BETWEEN $1 AND $2 ORDER BY id",
		"SELECT id - id, item::text, pieces FROM orders WHERE item BETWEEN $1 AND $2 ORDER BY id",
	} {
		rows, err := it.Query(query, first, first+99)
		must(err)
		for rows.Next() {
			var id, pieces int
			var title string
			must(rows.Scan(&id, &title, &pieces))
			fmt.Println(what, id, title, pieces)
		}
		must(rows.Close())
	}
}

func main() {
	first, err := strconv.Atoi(os.Args[1])
	must(err)
	it, err := sql.Open("postgres", fmt.Sprintf("host=%s port=%s dbname=%s user=clerk sslmode=disable", os.Args[2], os.Args[3], os.Args[4]))
	must(err)
	one, two, three := first+1, first+2, first+3
	fmt.Println("one", run(it, take, 2, one), run(it, take, -1, one), run(it, take, 1, first+98))
	refused("too many", it, take, 1000, one)
	fmt.Println("literal", run(it, fmt.Sprintf("UPDATE stock SET pieces = pieces - 1 WHERE id = %d", one)))
	prepared, err := it.Prepare(take)
	must(err)
	for use := 0; use < 4; use++ {
		_, err := prepared.Exec(1, one)
		must(err)
	}
	block, err := it.Begin()
	must(err)
	run(block, order, one, 1)
	run(block, take, 1, one)
	run(block, "SAVEPOINT a")
	run(block, order, two, 1000)
	refused("in a savepoint", block, take, 1000, two)
	run(block, "ROLLBACK TO a")
	run(block, order, two, 2)
	run(block, take, 2, two)
	must(block.Commit())
	block, err = it.Begin()
	must(err)
	run(block, take, 1, two)
	must(block.Rollback())
	block, err = it.Begin()
	must(err)
	refused("in a block", block, take, 1000, two)
	fmt.Println("commit", block.Commit())
	var wait sync.WaitGroup
	for turn := 0; turn < 20; turn++ {
		wait.Add(1)
		go func() {
			defer wait.Done()
			block, err := it.Begin()
			must(err)
			run(block, order, three, 1)
			run(block, take, 1, three)
			must(block.Commit())
		}()
	}
	wait.Wait()
	fmt.Println("any", run(it, "UPDATE stock SET pieces = pieces - 1 WHERE id = ANY($1)", pq.Array([]int{one, three})))
	run(it, fmt.Sprintf("BEGIN; INSERT INTO orders (item, pieces) VALUES (%d, 1); UPDATE stock SET pieces = pieces - 1 WHERE id = %d; COMMIT", one, one))
	stock("all", it, first)
}
