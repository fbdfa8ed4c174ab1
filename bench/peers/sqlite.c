/* Serves the scripts of bench/generate by C SQLite in memory, and answers each line: sqlite sum|kept|plain < SCRIPT

   A RESERVABLE column of a row is a number of its own, between a floor and a ceiling. What a session holds is a row of `pending` for each
   number that it changes. The three ways differ in how a reservation is judged:

   sum     by SUM over the falls, or over the rises, that are pending on the number
   kept    by two sums that stand beside the amount, and are kept with each change of `pending`
   plain   not at all: an UPDATE changes the amount at once, and COMMIT and ROLLBACK do nothing */
#include <malloc.h>
#include <sqlite3.h>
#include <stdio.h>
#include <stdlib.h>
#include <string.h>

/* The statements of a way; what it hasn't is NULL. ?1 is the session, ?2 the reservation's id, ?3 the number, ?4 the change. A COMMIT or a
   ROLLBACK does its statement for each change that the session holds, and then forgets them. */
static const struct way {
    const char *name, *index, *fall, *rise, *note, *commit, *rollback, *forget;
} WAYS[] = {
    {.name = "sum",
     .index = "CREATE INDEX of_number ON pending (number, change)",
     .fall = "INSERT INTO pending SELECT ?1, ?3, ?2, ?4 FROM numbers WHERE id = ?3"
             " AND amount + ?4 + (SELECT coalesce(sum(change), 0) FROM pending WHERE number = ?3 AND change < 0) >= floor",
     .rise = "INSERT INTO pending SELECT ?1, ?3, ?2, ?4 FROM numbers WHERE id = ?3"
             " AND amount + ?4 + (SELECT coalesce(sum(change), 0) FROM pending WHERE number = ?3 AND change > 0) <= ceiling",
     .commit = "UPDATE numbers SET amount = amount + ?4 WHERE id = ?3",
     .forget = "DELETE FROM pending WHERE session = ?1"},
    {.name = "kept",
     .fall = "UPDATE numbers SET falls = falls + ?4 WHERE id = ?3 AND amount + falls + ?4 >= floor",
     .rise = "UPDATE numbers SET rises = rises + ?4 WHERE id = ?3 AND amount + rises + ?4 <= ceiling",
     .note = "INSERT INTO pending VALUES (?1, ?3, ?2, ?4)",
     .commit = "UPDATE numbers SET amount = amount + ?4, falls = falls - min(?4, 0), rises = rises - max(?4, 0) WHERE id = ?3",
     .rollback = "UPDATE numbers SET falls = falls - min(?4, 0), rises = rises - max(?4, 0) WHERE id = ?3",
     .forget = "DELETE FROM pending WHERE session = ?1"},
    {.name = "plain",
     .fall = "UPDATE numbers SET amount = amount + ?4 WHERE id = ?3 AND amount + ?4 >= floor",
     .rise = "UPDATE numbers SET amount = amount + ?4 WHERE id = ?3 AND amount + ?4 <= ceiling"},
};

static sqlite3 *store;

static void fail(void) {
    fprintf(stderr, "sqlite: %s\n", store ? sqlite3_errmsg(store) : "wrong arguments");
    exit(2);
}

static sqlite3_stmt *prepare(const char *text) {
    sqlite3_stmt *statement = NULL;
    if (text && sqlite3_prepare_v3(store, text, -1, SQLITE_PREPARE_PERSISTENT, &statement, NULL) != SQLITE_OK) fail();
    return statement;
}

/* Runs a statement, if there is one, with as many of the values as it names. */
static void run(sqlite3_stmt *statement, const sqlite3_int64 *values) {
    if (!statement) return;
    int count = sqlite3_bind_parameter_count(statement);
    for (int i = 0; i < count; i++) sqlite3_bind_int64(statement, i + 1, values[i]);
    if (sqlite3_step(statement) != SQLITE_DONE) fail();
    sqlite3_reset(statement);
}

int main(int argc, char **argv) {
    const struct way *way = NULL;
    for (int i = 0; i < 3; i++)
        if (argc == 2 && !strcmp(argv[1], WAYS[i].name)) way = &WAYS[i];
    if (!way) fail();
    /* One thread, no counting of memory, and none given back to the system after each transaction: the fastest that it goes. */
    if (sqlite3_config(SQLITE_CONFIG_SINGLETHREAD) || sqlite3_config(SQLITE_CONFIG_MEMSTATUS, 0) || !mallopt(M_TRIM_THRESHOLD, 1 << 26)) fail();
    if (sqlite3_open(":memory:", &store) != SQLITE_OK) fail();
    const char *schema = "CREATE TABLE numbers (id INTEGER PRIMARY KEY, amount INTEGER NOT NULL, falls INTEGER NOT NULL DEFAULT 0,"
                         " rises INTEGER NOT NULL DEFAULT 0, floor INTEGER NOT NULL DEFAULT 0, ceiling INTEGER NOT NULL DEFAULT 900000000000000);"
                         "CREATE TABLE pending (session INTEGER, number INTEGER, id INTEGER, change INTEGER NOT NULL,"
                         " PRIMARY KEY (session, number, id)) WITHOUT ROWID;";
    if (sqlite3_exec(store, schema, NULL, NULL, NULL) != SQLITE_OK) fail();
    if (way->index && sqlite3_exec(store, way->index, NULL, NULL, NULL) != SQLITE_OK) fail();
    sqlite3_stmt *begin = prepare("BEGIN"), *keep = prepare("COMMIT"), *undo = prepare("ROLLBACK");
    sqlite3_stmt *insert = prepare("INSERT INTO numbers (id, amount) VALUES (?1, ?2)");
    sqlite3_stmt *fall = prepare(way->fall), *rise = prepare(way->rise), *note = prepare(way->note);
    sqlite3_stmt *commit = prepare(way->commit), *rollback = prepare(way->rollback), *forget = prepare(way->forget);
    sqlite3_stmt *held = prepare("SELECT number, change FROM pending WHERE session = ?1");
    static char line[8192];
    sqlite3_int64 next = 1;
    while (fgets(line, sizeof line, stdin)) {
        char *text;
        sqlite3_int64 session = strtoll(line + strlen("bank."), &text, 10);
        text += strlen(": ");
        if (*text == 'I') {
            char *at = strchr(text, '(');
            sqlite3_int64 key = strtoll(at + 1, &at, 10);
            run(begin, NULL);
            for (int column = 0; *at == ',' && at[2] != '\''; column++) {
                sqlite3_int64 amount = strtoll(at + 1, &at, 10);
                run(insert, (sqlite3_int64[4]){16 * key + column, amount});
            }
            run(keep, NULL);
            printf("bank.%lld> OK inserted\n", session);
        } else if (*text == 'U') {
            sqlite3_int64 columns[10], changes[10];
            int count = 0, granted = 1;
            char *at = strstr(text, " SET ") + strlen(" SET ");
            for (;; at += strlen(", ")) {
                columns[count] = *at == 'C' ? at[1] - '0' : 0;
                at = strchr(strchr(at, '=') + 2, ' ') + 1;
                char sign = *at;
                sqlite3_int64 change = strtoll(at + 2, &at, 10);
                changes[count++] = sign == '-' ? -change : change;
                if (*at != ',') break;
            }
            sqlite3_int64 key = strtoll(strchr(at, '=') + 1, NULL, 10);
            int together = count > 1 || note;
            if (together) run(begin, NULL);
            for (int i = 0; granted && i < count; i++) {
                sqlite3_int64 values[4] = {session, next, 16 * key + columns[i], changes[i]};
                run(changes[i] < 0 ? fall : rise, values);
                granted = sqlite3_changes(store) == 1;
                if (granted) run(note, values);
            }
            if (together) run(granted ? keep : undo, NULL);
            if (granted)
                printf("bank.%lld> OK reserved %lld\n", session, next++);
            else
                printf("bank.%lld> ERR 41\n", session);
        } else if (!strncmp(text, "COMMIT", 6) || *text == 'R') {
            sqlite3_stmt *end = *text == 'C' ? commit : rollback;
            if (end) {
                run(begin, NULL);
                sqlite3_bind_int64(held, 1, session);
                while (sqlite3_step(held) == SQLITE_ROW)
                    run(end, (sqlite3_int64[4]){session, 0, sqlite3_column_int64(held, 0), sqlite3_column_int64(held, 1)});
                sqlite3_reset(held);
            }
            run(forget, &session);
            if (end) run(keep, NULL);
            printf("bank.%lld> OK %s\n", session, *text == 'C' ? "committed" : "rolled back");
        }
    }
    return fflush(stdout) ? 2 : 0;
}
