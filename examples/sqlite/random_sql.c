// Runs random SQL on a table of blink.so and on a rowid table, each in a database of its own, and compares statuses, changes and rows; then
// what no random statement does; then the same SQL by four threads, whose connections share a map, each at keys of its own. Run: random_sql
// [STATEMENTS [SEED]], beside blink.so
#include <pthread.h>
#include <sqlite3.h>
#include <stdarg.h>
#include <stdint.h>
#include <stdio.h>
#include <stdlib.h>
#include <string.h>
#include <time.h>

enum { MOST = 1 << 20, THREADS = 4 };

static _Thread_local sqlite3 *blink, *plain;
static _Thread_local uint64_t state;
// A thread's keys are those that are `lane` modulo `lanes`, a power of 2.
static _Thread_local int lanes = 1, lane;

static uint64_t below(uint64_t n) {
    state = state * 6364136223846793005u + 1442695040888963407u;
    return (state >> 33) % n;
}

// A text that is written piece by piece.
struct text {
    char at[MOST];
    size_t length;
};

static void add(struct text *text, const char *format, ...) {
    va_list list;
    va_start(list, format);
    text->length += (size_t)vsnprintf(text->at + text->length, MOST - text->length, format, list);
    va_end(list);
    if (text->length >= MOST) exit(fprintf(stderr, "random_sql: a text is too long\n"));
}

// Runs a statement, and tells its status, its changes and its rows.
static void run(sqlite3 *db, const char *sql, struct text *told) {
    sqlite3_stmt *statement = NULL;
    told->length = 0;
    int status = sqlite3_prepare_v2(db, sql, -1, &statement, NULL);
    while (status == SQLITE_OK && (status = sqlite3_step(statement)) == SQLITE_ROW) {
        for (int i = 0; i < sqlite3_column_count(statement); i++) {
            const unsigned char *value = sqlite3_column_text(statement, i);
            add(told, "%s|", value ? (const char *)value : "NULL");
        }
        add(told, "\n");
        status = SQLITE_OK;
    }
    int reads = statement && sqlite3_stmt_readonly(statement);
    sqlite3_finalize(statement);
    int changes = reads || status != SQLITE_DONE ? 0 : sqlite3_changes(db);
    add(told, "status %d, changes %d, autocommit %d\n", status & 255, changes, sqlite3_get_autocommit(db));
}

static void both(const char *sql) {
    static _Thread_local struct text one, other;
    run(blink, sql, &one);
    run(plain, sql, &other);
    if (!strcmp(one.at, other.at)) return;
    fprintf(stderr, "random_sql: %s\nblink:\n%srowid table:\n%s", sql, one.at, other.at);
    exit(1);
}

// A statement of blink's alone, which has to tell this.
static void is(const char *sql, const char *expected) {
    static _Thread_local struct text told;
    run(blink, sql, &told);
    if (!strncmp(told.at, expected, strlen(expected))) return;
    fprintf(stderr, "random_sql: %s\n%sin place of:\n%s", sql, told.at, expected);
    exit(1);
}

// A query whose plan has to be one walk of the index, with this number and these letters, and nothing that sorts.
static void plans(const char *sql, const char *walk) {
    static _Thread_local struct text told;
    run(blink, sql, &told);
    if (strstr(told.at, walk) && !strstr(told.at, "B-TREE")) return;
    fprintf(stderr, "random_sql: %s\n%sin place of:\n%s\n", sql, told.at, walk);
    exit(1);
}

static void key(struct text *sql) {
    long long some = (long long)below(3) * lanes;
    if (below(20) == 0) add(sql, "%lld", (below(2) ? INT64_MIN + some : INT64_MAX - lanes + 1 - some) + lane);
    else add(sql, "%d", ((int)below(400) - 50) * lanes + lane);
}

static void bound(struct text *sql) {
    static const char *const odd[] = {"12.5", "-0.5", "200.0", "'17'", "'abc'", "NULL", "1e300", "-1e300", "x'00'", "9.3e18", "'12.25'", "''"};
    if (below(8) == 0) add(sql, "%s", odd[below(12)]);
    else key(sql);
}

// The thread's own keys, as a condition.
static void own(struct text *sql, const char *word, const char *table) { add(sql, " %s (%skey & %d) = %d", word, table, lanes - 1, lane); }

// A condition; in order for updates of keys, whose rows have to be met in ascending order.
static void where(struct text *sql, const char *table, int in_order) {
    static const char *const order[] = {"<", "<=", ">", ">=", "=", "<>", "IS"};
    uint64_t kind = below(in_order ? 6 : 10);
    if (lanes > 1) own(sql, "WHERE", table);
    if (kind == 0) return;
    add(sql, lanes > 1 ? " AND (" : " WHERE (");
    switch (kind) {
    case 1: add(sql, "%skey %s ", table, order[below(5)]), bound(sql); break;
    case 2: add(sql, "%skey BETWEEN ", table), bound(sql), add(sql, " AND "), bound(sql); break;
    case 3: add(sql, "%skey >= ", table), bound(sql), add(sql, " AND %skey < ", table), bound(sql); break;
    case 4: add(sql, "%skey > ", table), bound(sql), add(sql, " AND %spointer %% 3 = 1", table); break;
    case 5: add(sql, "%srowid = ", table), bound(sql); break;
    case 6: add(sql, "%skey IN (", table), key(sql), add(sql, ","), bound(sql), add(sql, ","), key(sql), add(sql, ")"); break;
    case 7: add(sql, "%skey = ", table), key(sql), add(sql, " OR %skey > ", table), key(sql); break;
    case 8: add(sql, "%spointer < ", table), bound(sql), add(sql, " AND %skey %s ", table, order[below(7)]), bound(sql); break;
    case 9:
        add(sql, "%skey > ", table), bound(sql), add(sql, " AND %skey >= ", table), bound(sql);
        add(sql, " AND %skey <= ", table), bound(sql);
        break;
    }
    add(sql, ")");
}

static void limit(struct text *sql) {
    if (below(2)) add(sql, " LIMIT %d", (int)below(30));
    else return;
    if (below(2)) add(sql, " OFFSET %d", (int)below(30));
}

// A key some way off. It is an integer, since of other keys a rowid table undoes not all that the statement has done.
static void moved(struct text *sql) {
    int far = (int)below(40) - 20;
    add(sql, "key + %d * CASE WHEN key > 9000000000000000000 THEN -9 WHEN key < -9000000000000000000 THEN 9 ELSE %d END", lanes, far);
}

static const char *conflict(void) {
    static const char *const words[] = {"", "", " OR ABORT", " OR FAIL", " OR IGNORE", " OR ROLLBACK"};
    return words[below(6)];
}

// Many rows at once, so that pages are split, also under a savepoint that is rolled back.
static void many(struct text *sql) {
    add(sql, "WITH RECURSIVE n(i) AS (SELECT 0 UNION ALL SELECT i + 1 FROM n WHERE i < %d) INSERT OR IGNORE INTO t SELECT %d + i * %d, i FROM n",
        (int)below(600), (int)below(400) * lanes + lane, ((int)below(9) - 4) * lanes);
}

static void statement(struct text *sql) {
    const char *order = below(2) ? "DESC" : "ASC";
    sql->length = 0;
    if (below(60) == 0) return many(sql);
    switch (below(26)) {
    case 0: case 1: add(sql, "SELECT key, pointer FROM t"), where(sql, "", 0), add(sql, " ORDER BY key %s", order), limit(sql); break;
    case 2: add(sql, "SELECT rowid, * FROM t"), where(sql, "", 0), add(sql, " ORDER BY pointer %s, key", order), limit(sql); break;
    case 3: add(sql, "SELECT count(*), min(key), max(key), total(pointer), total(key) FROM t"), where(sql, "", 0); break;
    case 4:
        add(sql, "SELECT t.key, t.pointer, other FROM t JOIN u ON u.key = t.key");
        where(sql, "t.", 0), add(sql, " ORDER BY t.key %s", order);
        break;
    case 5:
        add(sql, "SELECT u.key, other, t.pointer FROM u LEFT JOIN t ON t.key = u.other");
        where(sql, "t.", 0), add(sql, " ORDER BY u.key %s", order);
        break;
    case 6:
        add(sql, "SELECT a.key, b.key FROM t a JOIN t b ON b.key = a.pointer %% 300");
        own(sql, "AND", "b."), where(sql, "a.", 0), add(sql, " ORDER BY a.key %s, b.key", order);
        break;
    case 7:
        add(sql, "SELECT key, (SELECT pointer FROM t WHERE t.key = u.key"), own(sql, "AND", "t."), add(sql, "), (SELECT key FROM t WHERE t.key < u.key");
        own(sql, "AND", "t."), add(sql, " ORDER BY key DESC LIMIT 1), (SELECT key FROM t WHERE t.key > u.other"), own(sql, "AND", "t.");
        add(sql, " ORDER BY key LIMIT 1) FROM u ORDER BY key %s", order);
        break;
    case 8: add(sql, "SELECT pointer %% 5, count(*), max(key) FROM t"), where(sql, "", 0), add(sql, " GROUP BY 1 ORDER BY 1 %s", order); break;
    case 9: case 10: case 11: case 12:
        add(sql, "INSERT%s INTO t VALUES ", below(4) ? conflict() : " OR REPLACE");
        for (int i = 0, n = 1 + (int)below(below(3) ? 3 : 60); i < n; i++) add(sql, i ? ", (" : "("), key(sql), add(sql, ", %d)", (int)below(1000));
        break;
    case 13: // above the greatest key there is none, where a rowid table takes a random one; and a new key is anybody's
        if (lanes > 1) add(sql, "SELECT 1");
        else add(sql, "INSERT INTO t(pointer) SELECT %d WHERE NOT EXISTS (SELECT 1 FROM t WHERE key = 9223372036854775807)", (int)below(1000));
        break;
    case 14:
        add(sql, "INSERT%s INTO t VALUES (coalesce(", conflict());
        lanes > 1 ? key(sql) : bound(sql), add(sql, ", 9), %s)", below(5) ? "7" : "NULL");
        break;
    case 15:
        add(sql, "INSERT%s INTO t SELECT ", below(3) ? conflict() : " OR REPLACE");
        moved(sql), add(sql, ", pointer + 1 FROM t"), where(sql, "", 1);
        break;
    case 16: case 17: add(sql, "UPDATE%s t SET pointer = pointer + %d", conflict(), (int)below(9)), where(sql, "", 0); break;
    case 18: add(sql, "UPDATE%s t SET key = ", conflict()), moved(sql), where(sql, "", 1); break;
    case 19: add(sql, "UPDATE OR REPLACE t SET key = "), key(sql), add(sql, ", pointer = 5 WHERE key = "), key(sql); break;
    case 20: add(sql, "UPDATE%s t SET %s = ", conflict(), below(2) ? "rowid" : "key"), key(sql), add(sql, " WHERE key = "), key(sql); break;
    case 21:
        add(sql, "DELETE FROM t"), where(sql, "", 0);
        if (below(3)) add(sql, " %s key %% 5 = 1", strstr(sql->at, "WHERE") ? "AND" : "WHERE");
        break;
    case 22: add(sql, below(2) ? "BEGIN" : "COMMIT"); break;
    case 23: add(sql, below(3) ? "SAVEPOINT s%d" : "ROLLBACK", (int)below(3)); break;
    case 24: add(sql, "ROLLBACK TO s%d", (int)below(3)); break;
    case 25: add(sql, below(4) ? "RELEASE s%d" : "UPDATE u SET other = other + 1", (int)below(3)); break;
    }
}

// Of a walk under way: what is deleted before it comes there it doesn't meet, and what is inserted there it does.
static void walks(const char *order, int step) {
    sqlite3_stmt *walk;
    char sql[200];
    int met = 0;
    is("DELETE FROM t", "");
    is("WITH RECURSIVE n(i) AS (SELECT 1 UNION ALL SELECT i + 1 FROM n WHERE i < 1000) INSERT INTO t SELECT i * 10, i FROM n", "");
    snprintf(sql, sizeof sql, "SELECT key FROM t ORDER BY key %s", order);
    if (sqlite3_prepare_v2(blink, sql, -1, &walk, NULL) != SQLITE_OK) exit(fprintf(stderr, "random_sql: %s\n", sqlite3_errmsg(blink)));
    while (sqlite3_step(walk) == SQLITE_ROW) {
        long there = (long)sqlite3_column_int64(walk, 0);
        met++;
        if (there % 10) continue;
        snprintf(sql, sizeof sql, "DELETE FROM t WHERE key = %ld", there + step);
        is(sql, "");
        snprintf(sql, sizeof sql, "INSERT INTO t VALUES (%ld, 1)", there + step / 10);
        is(sql, "");
    }
    sqlite3_finalize(walk);
    // every second of the thousand, and behind each of these the inserted one
    if (met != 1000) exit(fprintf(stderr, "random_sql: a walk %s met %d rows\n", order, met));
}

// A query of a large table's end, which has to tell this. It may take few steps of SQLite's machine and little time of the processor, by far
// less than a walk over all rows.
static void is_quick(const char *sql, const char *expected) {
    enum { TIMES = 100 };
    sqlite3_stmt *statement;
    clock_t begun = clock();
    for (int i = 0; i < TIMES; i++) is(sql, expected);
    clock_t took = clock() - begun;
    if (sqlite3_prepare_v2(blink, sql, -1, &statement, NULL) != SQLITE_OK) exit(fprintf(stderr, "random_sql: %s\n", sqlite3_errmsg(blink)));
    while (sqlite3_step(statement) == SQLITE_ROW) continue;
    int steps = sqlite3_stmt_status(statement, SQLITE_STMTSTATUS_VM_STEP, 0);
    sqlite3_finalize(statement);
    if (steps < 100 && took < CLOCKS_PER_SEC) return;
    exit(fprintf(stderr, "random_sql: %s\n%d steps, and %d times in %ld us\n", sql, steps, TIMES, (long)(took / (CLOCKS_PER_SEC / 1000000))));
}

// Both ends of 100,000 rows, and what is next to a key between.
static void reads_ends(const char *create) {
    is(create, "status 101");
    is("WITH RECURSIVE n(i) AS (SELECT 1 UNION ALL SELECT i + 1 FROM n WHERE i < 100000) INSERT INTO e SELECT i * 7, i FROM n", "");
    is_quick("SELECT max(key) FROM e", "700000|");
    is_quick("SELECT min(key) FROM e", "7|");
    is_quick("SELECT pointer FROM e ORDER BY key DESC LIMIT 3", "100000|\n99999|\n99998|\nstatus 101");
    is_quick("SELECT pointer FROM e WHERE key < 350000 ORDER BY key DESC LIMIT 2", "49999|\n49998|\nstatus 101");
    is_quick("SELECT max(key) FROM e WHERE key <= 350000", "350000|");
    is_quick("SELECT key FROM e WHERE key > 350000 ORDER BY key LIMIT 1", "350007|");
    is("DELETE FROM e WHERE key > 7", "");
    is_quick("SELECT max(key) FROM e", "7|");
    is("DROP TABLE e", "status 101");
}

// Opens both databases, with a table of this module each, and runs as many statements.
static void compares(const char *module, int statements) {
    static _Thread_local struct text sql;
    char *error = NULL, create[100];
    if (sqlite3_open(":memory:", &blink) != SQLITE_OK || sqlite3_open(":memory:", &plain) != SQLITE_OK) exit(1);
    sqlite3_db_config(blink, SQLITE_DBCONFIG_ENABLE_LOAD_EXTENSION, 1, NULL);
    if (sqlite3_load_extension(blink, "./blink", NULL, &error) != SQLITE_OK) exit(fprintf(stderr, "random_sql: %s\n", error));
    snprintf(create, sizeof create, "CREATE VIRTUAL TABLE t USING %s", module);
    is(create, "status 101");
    sqlite3_exec(plain, "CREATE TABLE t(key INTEGER PRIMARY KEY, pointer INTEGER NOT NULL)", NULL, NULL, NULL);
    both("CREATE TABLE u(key INTEGER PRIMARY KEY, other INTEGER)");
    both("WITH RECURSIVE n(i) AS (SELECT 0 UNION ALL SELECT i + 1 FROM n WHERE i < 60) INSERT INTO u SELECT i * 7 - 60, i * 5 FROM n");
    for (int i = 0; i < statements; i++) {
        statement(&sql);
        both(sql.at);
        if (i % 8) continue;
        sql.length = 0;
        add(&sql, "SELECT * FROM t"), own(&sql, "WHERE", ""), add(&sql, " ORDER BY key");
        both(sql.at);
    }
    if (!sqlite3_get_autocommit(blink)) both("COMMIT");
}

static void closes(void) {
    if (sqlite3_close(blink) != SQLITE_OK || sqlite3_close(plain) != SQLITE_OK) exit(fprintf(stderr, "random_sql: a statement is left\n"));
}

// What no random statement does, at a table of the connection's own.
static void does_the_rest(void) {
    // equality, ranges and both orders are the index's: nothing is sorted
    plans("EXPLAIN QUERY PLAN SELECT * FROM t WHERE key = 5", "VIRTUAL TABLE INDEX 0:=|");
    plans("EXPLAIN QUERY PLAN SELECT * FROM t WHERE key >= 5 ORDER BY key", "VIRTUAL TABLE INDEX 0:g|");
    plans("EXPLAIN QUERY PLAN SELECT * FROM t WHERE rowid < 5 ORDER BY key DESC", "VIRTUAL TABLE INDEX 1:<|");
    plans("EXPLAIN QUERY PLAN SELECT * FROM u CROSS JOIN t ON t.key = u.other", "VIRTUAL TABLE INDEX 0:=|");
    reads_ends("CREATE VIRTUAL TABLE e USING blink");
    reads_ends("CREATE VIRTUAL TABLE e USING blink(ends)");
    walks("ASC", 10);
    walks("DESC", -10);
    // the schema is read anew, and the rows are there; a table whose creation is undone leaves none to its name
    is("DELETE FROM t WHERE key > 50", "");
    is("BEGIN", "");
    is("CREATE VIRTUAL TABLE temp.v USING blink", "status 101");
    is("INSERT INTO v SELECT * FROM t", "");
    is("ROLLBACK", "");
    is("SELECT count(*) FROM v", "status 1,");
    is("CREATE VIRTUAL TABLE temp.v USING blink", "status 101");
    is("SELECT count(*) FROM v", "0|");
    is("INSERT INTO v VALUES (1, 2)", "status 101, changes 1");
    is("ALTER TABLE v RENAME TO w", "status 101");
    is("BEGIN", "");
    is("CREATE TABLE other(a)", "");
    is("ROLLBACK", "");
    is("SELECT * FROM w", "1|2|\nstatus 101");
    is("DROP TABLE w", "status 101");
    is("SELECT group_concat(key) FROM t", "19,20,39,40|"); // what the walk down has left
    is("CREATE VIRTUAL TABLE v USING blink(a, b)", "status 1,");
    is("INSERT INTO t VALUES (5.5, 1)", "status 20,");
    is("INSERT INTO t VALUES (70, 'many')", "status 20,");
}

static int statements_each;
static uint64_t seed = 1;

static void *shares(void *at) {
    lanes = THREADS, lane = (int)(intptr_t)at, state = seed * THREADS + (uint64_t)lane;
    compares("blink(market)", statements_each);
    closes();
    return NULL;
}

int main(int argc, char **argv) {
    int statements = argc > 1 ? atoi(argv[1]) : 20000;
    pthread_t threads[THREADS];
    if (argc > 2) seed = strtoull(argv[2], NULL, 10);
    state = seed;
    compares("blink", statements);
    does_the_rest();
    closes();
    statements_each = statements / THREADS;
    for (intptr_t i = 0; i < THREADS; i++)
        if (pthread_create(&threads[i], NULL, shares, (void *)i)) return 1;
    for (int i = 0; i < THREADS; i++) pthread_join(threads[i], NULL);
    printf("%d statements: each as of a rowid table\n", statements);
}
