/* Serves the scripts of bench/stores by C SQLite, and answers each line as the program does: tables LAYOUT [FILE] < SCRIPT

   The table of a script is T (ID, N). It is kept, in memory or in a file, by one of these layouts:

   table     as the script has it: a table of two columns, whose key is SQLite's own number of a row
   cells     as the store of the program has it: a row of CELL for each value, whose key is an index
   keyed     the same, in a table WITHOUT ROWID, whose key is its tree

   Each line of the script is one prepared statement: nothing is looked at before it. An UPDATE stands in a transaction, which the next COMMIT ends;
   any other statement is a transaction by itself. In a file a transaction is synced once, to a log, before it is answered: by `journal_mode` WAL and
   `synchronous` FULL, as the program's own store does it. */
#include <malloc.h>
#include <sqlite3.h>
#include <stdio.h>
#include <stdlib.h>
#include <string.h>

#define CELL "CREATE TABLE CELL (TAB INTEGER NOT NULL, K ANY NOT NULL, C INTEGER NOT NULL, V ANY NOT NULL, PRIMARY KEY (TAB, K, C)) STRICT"

/* How a layout makes a table, and what it makes of each statement: ?1 is the key, ?2 a number. A SELECT shows the last columns of its
   answer; `shown` is their number. */
struct layout {
    const char *name, *create, *insert, *update, *select, *select_all, *delete, *drop;
    int shown;
};

#define OF_CELLS                                                                                                                                       \
    .insert = "INSERT INTO CELL VALUES (1, ?1, 1, ?1), (1, ?1, 2, ?2)", .update = "UPDATE CELL SET V = V + ?2 WHERE TAB = 1 AND K = ?1 AND C = 2",     \
    .select = "SELECT C, V FROM CELL WHERE TAB = 1 AND K = ?1 ORDER BY C", .select_all = "SELECT K, C, V FROM CELL WHERE TAB = 1 ORDER BY K, C",       \
    .delete = "DELETE FROM CELL WHERE TAB = 1 AND K = ?1", .drop = "DELETE FROM CELL WHERE TAB = 1", .shown = 1

static const struct layout LAYOUTS[] = {
    {.name = "table",
     .create = "CREATE TABLE T (ID INTEGER PRIMARY KEY, N INTEGER NOT NULL) STRICT",
     .insert = "INSERT INTO T VALUES (?1, ?2)",
     .update = "UPDATE T SET N = N + ?2 WHERE ID = ?1",
     .select = "SELECT ID, N FROM T WHERE ID = ?1",
     .select_all = "SELECT ID, N FROM T ORDER BY ID",
     .delete = "DELETE FROM T WHERE ID = ?1",
     .drop = "DROP TABLE T",
     .shown = 2},
    {.name = "cells", .create = CELL, OF_CELLS},
    {.name = "keyed", .create = CELL ", WITHOUT ROWID", OF_CELLS},
};

static const struct layout *layout;
static sqlite3 *store;
static struct { sqlite3_stmt *begin, *commit, *insert, *update, *select, *select_all, *delete, *drop; } prepared;
/* How many UPDATEs were done, and how many of them are in the transaction that is open. */
static long updates, held;

static void fail(void) {
    fprintf(stderr, "tables: %s\n", store ? sqlite3_errmsg(store) : "wrong arguments");
    exit(2);
}

static void execute(const char *text) {
    if (sqlite3_exec(store, text, NULL, NULL, NULL) != SQLITE_OK) fail();
}

static sqlite3_stmt *prepare(const char *text) {
    sqlite3_stmt *statement = NULL;
    if (sqlite3_prepare_v3(store, text, -1, SQLITE_PREPARE_PERSISTENT, &statement, NULL) != SQLITE_OK) fail();
    return statement;
}

/* Runs a statement that writes, with as many of a key and a number as it names. Returns whether nothing that stands refuses it. */
static int run(sqlite3_stmt *statement, sqlite3_int64 key, sqlite3_int64 number) {
    int names = sqlite3_bind_parameter_count(statement);
    if (names > 0) sqlite3_bind_int64(statement, 1, key);
    if (names > 1) sqlite3_bind_int64(statement, 2, number);
    int status = sqlite3_step(statement);
    if (status != SQLITE_DONE && status != SQLITE_CONSTRAINT) fail();
    sqlite3_reset(statement);
    return status == SQLITE_DONE;
}

static void reply(const char *text) { printf("bank.1> %s\n", text); }

/* Prepares what is done with the table. */
static void prepare_all(void) {
    prepared.begin = prepare("BEGIN");
    prepared.commit = prepare("COMMIT");
    prepared.insert = prepare(layout->insert);
    prepared.update = prepare(layout->update);
    prepared.select = prepare(layout->select);
    prepared.select_all = prepare(layout->select_all);
    prepared.delete = prepare(layout->delete);
    prepared.drop = prepare(layout->drop);
}

/* Makes the table. */
static void make(void) {
    execute(layout->create);
    prepare_all();
    reply("OK created T");
}

/* Whether the file has the table. */
static int has_table(void) {
    sqlite3_stmt *tables = prepare("SELECT name FROM sqlite_schema");
    int status = sqlite3_step(tables);
    if (status != SQLITE_ROW && status != SQLITE_DONE) fail();
    sqlite3_finalize(tables);
    return status == SQLITE_ROW;
}

/* Shows the rows that a SELECT answers, two values in each. */
static void show(sqlite3_stmt *statement) {
    long values = 0;
    int columns = sqlite3_column_count(statement), status;
    reply("ID | N");
    while ((status = sqlite3_step(statement)) == SQLITE_ROW)
        for (int column = columns - layout->shown; column < columns; column++)
            printf(values++ % 2 ? " | %lld\n" : "bank.1> %lld", sqlite3_column_int64(statement, column));
    if (status != SQLITE_DONE) fail();
    sqlite3_reset(statement);
    printf("bank.1> OK rows %ld\n", values / 2);
}

/* Changes a row by a statement, or refuses one that isn't there. Returns whether it was. */
static int change(sqlite3_stmt *statement, sqlite3_int64 key, sqlite3_int64 number) {
    run(statement, key, number);
    if (sqlite3_changes(store)) return 1;
    reply("ERR 31 no such row");
    return 0;
}

/* Does an UPDATE, in the transaction that is open or in a new one. */
static void take(sqlite3_int64 key, sqlite3_int64 number) {
    if (sqlite3_get_autocommit(store)) run(prepared.begin, 0, 0);
    if (!change(prepared.update, key, number)) return;
    updates++;
    held++;
    printf("bank.1> OK reserved %ld\n", updates);
}

/* Ends the transaction, if one is open. */
static void end(void) {
    if (!sqlite3_get_autocommit(store)) run(prepared.commit, 0, 0);
    printf("bank.1> OK committed %ld\n", held);
    held = 0;
}

/* The number that stands behind a mark in a statement. */
static sqlite3_int64 number_behind(const char *text, const char *mark) {
    const char *found = strstr(text, mark);
    if (!found) fail();
    return strtoll(found + strlen(mark), NULL, 10);
}

/* Serves a statement. */
static void serve(const char *text) {
    if (!strncmp(text, "INSERT", 6)) {
        reply(run(prepared.insert, number_behind(text, "("), number_behind(text, ", ")) ? "OK inserted" : "ERR 30 row exists");
    } else if (!strncmp(text, "UPDATE", 6)) {
        take(number_behind(text, "ID = "), number_behind(text, "N + "));
    } else if (!strncmp(text, "COMMIT", 6)) {
        end();
    } else if (!strncmp(text, "SELECT", 6) && strstr(text, "WHERE")) {
        sqlite3_bind_int64(prepared.select, 1, number_behind(text, "ID = "));
        show(prepared.select);
    } else if (!strncmp(text, "SELECT", 6)) {
        show(prepared.select_all);
    } else if (!strncmp(text, "DELETE", 6)) {
        if (change(prepared.delete, number_behind(text, "ID = "), 0)) reply("OK deleted");
    } else if (!strncmp(text, "DROP", 4)) {
        run(prepared.drop, 0, 0);
        reply("OK dropped T");
    } else if (!strncmp(text, "CREATE", 6)) {
        make();
    }
}

int main(int argc, char **argv) {
    for (size_t i = 0; i < sizeof LAYOUTS / sizeof *LAYOUTS; i++)
        if (argc > 1 && !strcmp(argv[1], LAYOUTS[i].name)) layout = &LAYOUTS[i];
    if (!layout || argc > 3) fail();
    /* One thread, no counting of memory, and none given back to the system after each transaction: the fastest that it goes. */
    if (sqlite3_config(SQLITE_CONFIG_SINGLETHREAD) || sqlite3_config(SQLITE_CONFIG_MEMSTATUS, 0) || !mallopt(M_TRIM_THRESHOLD, 1 << 26)) fail();
    if (sqlite3_open(argc > 2 ? argv[2] : ":memory:", &store) != SQLITE_OK) fail();
    /* One process has the file, and keeps its pages, as the program does. */
    if (argc > 2) execute("PRAGMA locking_mode = EXCLUSIVE; PRAGMA journal_mode = WAL; PRAGMA synchronous = FULL; PRAGMA cache_size = -262144");
    if (has_table()) prepare_all();
    static char line[4096];
    while (fgets(line, sizeof line, stdin)) {
        const char *text = strstr(line, ": ");
        if (text) {
            serve(text + 2);
        } else {
            puts("script> ERR 12 line");
            fflush(stdout);
        }
    }
    for (sqlite3_stmt *statement; (statement = sqlite3_next_stmt(store, NULL));) sqlite3_finalize(statement);
    return fflush(stdout) || sqlite3_close(store) != SQLITE_OK ? 2 : 0;
}
