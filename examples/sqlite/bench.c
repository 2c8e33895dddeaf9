// Times SQL on a table of blink.so, on one over a map that connections may share, and on a rowid table, in a database in memory: processor
// nanoseconds an operation, medians of several rounds, in each of which all tables are made anew. Run: bench [ROWS [ROUNDS]], beside blink.so
#include <sqlite3.h>
#include <stdint.h>
#include <stdio.h>
#include <stdlib.h>
#include <time.h>

enum { WORKS = 8, TABLES = 3, MOST_ROUNDS = 99 };

static const char *const tables[TABLES] = {
    "CREATE VIRTUAL TABLE t USING blink", "CREATE VIRTUAL TABLE t USING blink(bench)",
    "CREATE TABLE t(key INTEGER PRIMARY KEY, pointer INTEGER NOT NULL)",
};

static const char *const names[WORKS] = {
    "An insertion, all in one transaction", "A row by its key", "A row of a range of 1,000, added up",
    "The 10 rows below a key, descending, a query", "A row joined to one of another table by its key", "A row's pointer changed",
    "A row deleted and brought back by ROLLBACK", "A row deleted",
};

static int64_t rows = 200000;
static uint64_t state;

static uint64_t below(uint64_t n) {
    state = state * 6364136223846793005u + 1442695040888963407u;
    return (state >> 33) % n;
}

// The keys, far apart and in no order.
static int64_t key_of(int64_t number) { return (int64_t)((uint64_t)number * 0x9E3779B97F4A7C15u >> 24); }

static double now(void) {
    struct timespec time;
    clock_gettime(CLOCK_PROCESS_CPUTIME_ID, &time);
    return (double)time.tv_sec * 1e9 + (double)time.tv_nsec;
}

static void expect(sqlite3 *db, int holds) {
    if (!holds) exit(fprintf(stderr, "bench: %s\n", sqlite3_errmsg(db)));
}

static void run(sqlite3 *db, const char *sql) { expect(db, sqlite3_exec(db, sql, NULL, NULL, NULL) == SQLITE_OK); }

static sqlite3_stmt *prepared(sqlite3 *db, const char *sql) {
    sqlite3_stmt *statement;
    expect(db, sqlite3_prepare_v2(db, sql, -1, &statement, NULL) == SQLITE_OK);
    return statement;
}

// Runs a statement with one or two numbers, and adds up its first column.
static int64_t sum(sqlite3 *db, sqlite3_stmt *statement, int64_t one, int64_t other) {
    int64_t total = 0;
    int status;
    sqlite3_bind_int64(statement, 1, one);
    if (sqlite3_bind_parameter_count(statement) > 1) sqlite3_bind_int64(statement, 2, other);
    while ((status = sqlite3_step(statement)) == SQLITE_ROW) total += sqlite3_column_int64(statement, 0);
    expect(db, status == SQLITE_DONE);
    sqlite3_reset(statement);
    return total;
}

// Does all at a new table. It returns a sum of what the queries told, which has to be that of the other table.
static int64_t work(sqlite3 *db, const char *create, double *times) {
    state = 99;
    int64_t total = 0, width = (int64_t)((uint64_t)1 << 40) / rows * 1000;
    sqlite3_stmt *statements[WORKS] = {0};
    run(db, create);
    run(db, "CREATE TABLE u(id INTEGER PRIMARY KEY, k INTEGER)");
    statements[0] = prepared(db, "INSERT INTO t VALUES (?, ?)");
    statements[1] = prepared(db, "SELECT pointer FROM t WHERE key = ?");
    statements[2] = prepared(db, "SELECT sum(pointer) FROM t WHERE key BETWEEN ? AND ?");
    statements[3] = prepared(db, "SELECT pointer FROM t WHERE key < ? ORDER BY key DESC LIMIT 10");
    statements[4] = prepared(db, "SELECT sum(pointer) FROM u CROSS JOIN t ON t.key = u.k WHERE u.id > ?");
    statements[5] = prepared(db, "UPDATE t SET pointer = ?2 WHERE key = ?1");
    statements[6] = statements[7] = prepared(db, "DELETE FROM t WHERE key = ?");
    sqlite3_stmt *joined = prepared(db, "INSERT INTO u VALUES (?, ?)");
    run(db, "BEGIN");
    for (int64_t i = 1; i <= rows; i++) sum(db, joined, i, key_of((int64_t)below((uint64_t)rows) + 1));
    run(db, "COMMIT");
    sqlite3_finalize(joined);
    for (int what = 0; what < WORKS; what++) {
        int64_t calls = what == 2 ? rows / 500 : what == 3 ? rows / 5 : what == 4 ? 1 : what == 7 ? rows / 2 : rows;
        state = (uint64_t)what + 1;
        double begun = now();
        if (what != 4) run(db, "BEGIN");
        for (int64_t i = 1; i <= calls; i++) {
            // an insertion and a deletion take each key once
            int64_t key = key_of(what == 0 || what >= 6 ? i : (int64_t)below((uint64_t)rows) + 1);
            total += sum(db, statements[what], what == 4 ? 0 : key, what == 2 ? key + width : i);
        }
        if (what != 4) run(db, what == 6 ? "ROLLBACK" : "COMMIT");
        times[what] = (now() - begun) / (double)(what == 2 ? calls * 1000 : what == 4 ? rows : calls);
    }
    for (int what = 0; what < WORKS - 1; what++) sqlite3_finalize(statements[what]);
    sqlite3_stmt *left = prepared(db, "SELECT pointer FROM t WHERE key > ?");
    total += sum(db, left, -1, 0);
    sqlite3_finalize(left);
    run(db, "DROP TABLE t");
    run(db, "DROP TABLE u");
    return total;
}

static int ascend(const void *a, const void *b) {
    double x = *(const double *)a, y = *(const double *)b;
    return (x > y) - (x < y);
}

int main(int argc, char **argv) {
    if (argc > 1) rows = atoll(argv[1]);
    int rounds = argc > 2 ? atoi(argv[2]) : 5;
    if (rows < 1000 || rounds < 1 || rounds > MOST_ROUNDS) return 1;
    sqlite3 *db;
    char *error = NULL;
    static double times[TABLES][WORKS][MOST_ROUNDS], one[WORKS];
    if (sqlite3_open(":memory:", &db) != SQLITE_OK) return 1;
    sqlite3_db_config(db, SQLITE_DBCONFIG_ENABLE_LOAD_EXTENSION, 1, NULL);
    if (sqlite3_load_extension(db, "./blink", NULL, &error) != SQLITE_OK) exit(fprintf(stderr, "bench: %s\n", error));
    for (int round = 0; round < rounds; round++) {
        int64_t totals[TABLES];
        for (int which = 0; which < TABLES; which++) {
            totals[which] = work(db, tables[which], one);
            for (int what = 0; what < WORKS; what++) times[which][what][round] = one[what];
        }
        if (totals[0] != totals[1] || totals[0] != totals[2]) exit(fprintf(stderr, "bench: the tables have told different sums\n"));
    }
    printf("%lld rows, processor nanoseconds|blink|blink, a shared map|rowid table\n|---|---|---|---|\n", (long long)rows);
    for (int what = 0; what < WORKS; what++) {
        for (int which = 0; which < TABLES; which++) qsort(times[which][what], (size_t)rounds, sizeof(double), ascend);
        printf("%s|%.0f|%.0f|%.0f\n", names[what], times[0][what][rounds / 2], times[1][what][rounds / 2], times[2][what][rounds / 2]);
    }
    sqlite3_close(db);
}
