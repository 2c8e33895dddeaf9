// A virtual table of SQLite over libblink. `CREATE VIRTUAL TABLE t USING blink` makes a table that is used as one of
// (key INTEGER PRIMARY KEY, pointer INTEGER NOT NULL), whose rows are the entries of an index. Equality and ranges of keys, and both orders,
// are the index's. A change is undone by ROLLBACK, by ROLLBACK TO a savepoint, and where its statement fails.
//
// The rows are in memory, and are the connection's: another one has rows of its own, and a database in a file comes back with none. A dropped
// table stays empty if the drop is rolled back. `make -C examples/sqlite` builds blink.so, and `.load ./blink` loads it.
//
// `USING blink(NAME)` makes a table over a map instead, which all connections of the process share by this name, each by a session, as long as
// one of them has it. A connection waits for another only while the map grows. There is no isolation: each sees the others' changes at once, of
// two that change a row at once the later one wins, and a rollback undoes what nobody has changed since.
#include "blink.h"
#include <limits.h>
#include <sqlite3ext.h>
#include <string.h>
SQLITE_EXTENSION_INIT1

enum { FAN = 32, PART = 256, FIRST_PART = 16 };

// What a key mapped to before and after a change, where it was there.
struct undo {
    uint64_t key, before, after;
    bool there_before, there_after;
};

// A map that connections share.
struct shared {
    struct shared *next;
    char *name;
    blink_map map;
    uint64_t count; // of rows
    int users;
};

// The maps of the process; SQLite's first mutex for applications guards the list.
static struct shared *all_shared;

// The rows of a table. The connection has them, since SQLite frees its own object of a table whenever it reads the schema anew.
struct rows {
    struct rows *next;
    char *database, *name;
    blink_index index;     // its own rows, or
    struct shared *shared; // those that it shares, and its session
    blink_session session;
    uint64_t count, changes; // how many there are, and how often this connection has changed one
    struct undo *log;        // the changes of the transaction, and of each savepoint how many were made before it
    size_t logged, log_room, *marks, marked, mark_room;
    int users; // how many of SQLite's objects name them
    bool dropped;
};

struct connection {
    sqlite3 *db;
    struct rows *all;
};

struct table {
    sqlite3_vtab base;
    struct connection *home;
    struct rows *rows;
};

// A walk over the keys from `lo` to `hi`, part by part, up or down. The row is that at `at`. Behind the part it goes on from `lo`, or down
// from `hi`.
struct cursor {
    sqlite3_vtab_cursor base;
    blink_entry part[PART];
    size_t at, filled, want;
    uint64_t lo, hi, changes;
    bool descending, last_part, ended;
};

// Keys are signed in SQL, and the order has to be the index's.
static uint64_t key_of(sqlite3_int64 value) { return (uint64_t)value ^ (uint64_t)1 << 63; }
static sqlite3_int64 value_of(uint64_t key) { return (sqlite3_int64)(key ^ (uint64_t)1 << 63); }

static int status_of(int code) {
    if (code == BLINK_DONE) return SQLITE_OK;
    return code == BLINK_INDEX_TOO_LARGE || code == BLINK_MAP_TOO_LARGE || code == BLINK_NO_SESSION ? SQLITE_FULL : SQLITE_NOMEM;
}

// ---- An index or a session. ----

static bool finds(struct rows *rows, uint64_t key, uint64_t *pointer) {
    blink_answer answer;
    if (!rows->shared) return blink_index_get(&rows->index, key, pointer);
    // nothing is refused, since no operation is under way between two calls
    if (blink_session_get(&rows->session, key, &answer) != BLINK_DONE || answer.kind != BLINK_FOUND) return false;
    *pointer = answer.pointer;
    return true;
}

// Reads the first entries with keys from `lo` to `hi`, or where it descends the last ones, the greatest first, as many as `want`.
static blink_scanned reads(struct rows *rows, uint64_t lo, uint64_t hi, bool descending, blink_entry *part, size_t want) {
    blink_scanned scanned = {0, 0, 0};
    // none is refused, since no operation is under way between two calls
    if (rows->shared && descending) (void)blink_session_scan_back(&rows->session, lo, hi, part, want, &scanned);
    else if (rows->shared) (void)blink_session_scan(&rows->session, lo, hi, part, want, &scanned);
    else if (descending) (void)blink_index_scan_back(&rows->index, lo, hi, part, want, &scanned);
    else (void)blink_index_scan(&rows->index, lo, hi, part, want, &scanned);
    return scanned;
}

enum change { INSERT, DELETE, REPLACE, EXCHANGE, DELETE_EXACT };

static int changes_map(blink_session *session, enum change change, uint64_t key, uint64_t expected, uint64_t pointer, blink_answer *answer) {
    switch (change) {
    case INSERT: return blink_session_insert(session, key, pointer, answer);
    case DELETE: return blink_session_remove(session, key, answer);
    case REPLACE: return blink_session_replace(session, key, pointer, answer);
    case EXCHANGE: return blink_session_compare_exchange(session, key, expected, pointer, answer);
    default: return blink_session_compare_remove(session, key, expected, answer);
    }
}

static int changes_index(blink_index *index, enum change change, uint64_t key, uint64_t expected, uint64_t pointer, blink_answer *answer) {
    switch (change) {
    case INSERT: return blink_index_insert(index, key, pointer, answer);
    case DELETE: return blink_index_remove(index, key, answer), BLINK_DONE;
    case REPLACE: return blink_index_replace(index, key, pointer, answer), BLINK_DONE;
    case EXCHANGE: return blink_index_compare_exchange(index, key, expected, pointer, answer), BLINK_DONE;
    default: return blink_index_compare_remove(index, key, expected, answer), BLINK_DONE;
    }
}

// Makes a change, and counts rows.
static int changes(struct rows *rows, enum change change, uint64_t key, uint64_t expected, uint64_t pointer, blink_answer *answer) {
    int code = rows->shared ? changes_map(&rows->session, change, key, expected, pointer, answer)
                            : changes_index(&rows->index, change, key, expected, pointer, answer);
    if (code != BLINK_DONE) return status_of(code);
    uint64_t *count = rows->shared ? &rows->shared->count : &rows->count;
    if (answer->kind == BLINK_INSERTED) __atomic_fetch_add(count, 1, __ATOMIC_RELAXED);
    if (answer->kind == BLINK_REMOVED) __atomic_fetch_sub(count, 1, __ATOMIC_RELAXED);
    rows->changes++;
    return SQLITE_OK;
}

// ---- Maps that are shared. ----

static struct shared *new_shared(const char *name) {
    struct shared *shared = sqlite3_malloc(sizeof *shared);
    blink_index index = {NULL};
    if (!shared) return NULL;
    *shared = (struct shared){.name = sqlite3_mprintf("%s", name)};
    bool made = shared->name && blink_index_new(FAN, &index) == BLINK_DONE && blink_map_open(&index, &shared->map) == BLINK_DONE;
    if (index.at) blink_index_free(index);
    if (!made) return sqlite3_free(shared->name), sqlite3_free(shared), NULL;
    shared->next = all_shared;
    return all_shared = shared;
}

static void leave_shared(struct shared *shared) {
    sqlite3_mutex *mutex = sqlite3_mutex_alloc(SQLITE_MUTEX_STATIC_APP1);
    sqlite3_mutex_enter(mutex);
    if (!--shared->users) {
        struct shared **at = &all_shared;
        while (*at != shared) at = &(*at)->next;
        *at = shared->next;
        blink_map_free(shared->map);
        sqlite3_free(shared->name), sqlite3_free(shared);
    }
    sqlite3_mutex_leave(mutex);
}

// Joins the map of this name, which is made where no connection has it.
static int join_shared(struct rows *rows, const char *name) {
    sqlite3_mutex *mutex = sqlite3_mutex_alloc(SQLITE_MUTEX_STATIC_APP1);
    sqlite3_mutex_enter(mutex);
    struct shared *shared = all_shared;
    while (shared && strcmp(shared->name, name)) shared = shared->next;
    if (!shared) shared = new_shared(name);
    if (shared) shared->users++;
    int status = shared ? status_of(blink_map_join(&shared->map, &rows->session)) : SQLITE_NOMEM;
    sqlite3_mutex_leave(mutex);
    if (status == SQLITE_OK) rows->shared = shared;
    else if (shared) leave_shared(shared);
    return status;
}

// ---- Rows, and the objects of tables. ----

static void free_rows(struct rows *rows) {
    if (rows->index.at) blink_index_free(rows->index);
    if (rows->session.at) blink_session_free(rows->session);
    if (rows->shared) leave_shared(rows->shared);
    sqlite3_free(rows->database), sqlite3_free(rows->name);
    sqlite3_free(rows->log), sqlite3_free(rows->marks), sqlite3_free(rows);
}

static struct rows **place_of(struct connection *home, const char *database, const char *name) {
    struct rows **at = &home->all;
    while (*at && (strcmp((*at)->database, database) || sqlite3_stricmp((*at)->name, name))) at = &(*at)->next;
    return at;
}

// Takes rows out of the connection. They are freed once no object names them.
static void drop(struct rows **at) {
    struct rows *rows = *at;
    *at = rows->next;
    rows->dropped = true;
    if (!rows->users) free_rows(rows);
}

// Makes rows of the connection's own, or, by a name, of a map that is shared.
static int new_rows(struct connection *home, const char *database, const char *name, const char *shared, struct rows **out) {
    struct rows *rows = sqlite3_malloc(sizeof *rows);
    if (!rows) return SQLITE_NOMEM;
    *rows = (struct rows){.database = sqlite3_mprintf("%s", database), .name = sqlite3_mprintf("%s", name)};
    int status = !rows->database || !rows->name ? SQLITE_NOMEM
                 : shared                       ? join_shared(rows, shared)
                                                : status_of(blink_index_new(FAN, &rows->index));
    if (status != SQLITE_OK) return free_rows(rows), status;
    rows->next = home->all;
    home->all = *out = rows;
    return SQLITE_OK;
}

static int opens(sqlite3 *db, void *aux, int argc, const char *const *argv, sqlite3_vtab **out, char **error, bool anew) {
    struct connection *home = aux;
    if (argc > 4) return *error = sqlite3_mprintf("blink takes one name"), SQLITE_ERROR;
    // no key is NULL, which SQLite wants to know before it takes min(key) from the first row
    int status = sqlite3_declare_vtab(db, "CREATE TABLE x(key INTEGER PRIMARY KEY NOT NULL, pointer INTEGER NOT NULL)");
    // a refused change has changed nothing
    if (status == SQLITE_OK) status = sqlite3_vtab_config(db, SQLITE_VTAB_CONSTRAINT_SUPPORT, 1);
    if (status != SQLITE_OK) return status;
    struct rows **at = place_of(home, argv[1], argv[2]), *rows = *at;
    if (anew && rows) drop(at); // of a table whose creation was rolled back
    if (anew || !rows) status = new_rows(home, argv[1], argv[2], argc > 3 ? argv[3] : NULL, &rows);
    if (status != SQLITE_OK) return status;
    struct table *table = sqlite3_malloc(sizeof *table);
    if (!table) return SQLITE_NOMEM;
    *table = (struct table){.home = home, .rows = rows};
    rows->users++;
    *out = &table->base;
    return SQLITE_OK;
}

static int create(sqlite3 *db, void *aux, int argc, const char *const *argv, sqlite3_vtab **out, char **error) {
    return opens(db, aux, argc, argv, out, error, true);
}

static int reconnect(sqlite3 *db, void *aux, int argc, const char *const *argv, sqlite3_vtab **out, char **error) {
    return opens(db, aux, argc, argv, out, error, false);
}

static int disconnect(sqlite3_vtab *vtab) {
    struct rows *rows = ((struct table *)vtab)->rows;
    rows->users--;
    if (rows->dropped && !rows->users) free_rows(rows);
    sqlite3_free(vtab);
    return SQLITE_OK;
}

static int destroy(sqlite3_vtab *vtab) {
    struct table *table = (struct table *)vtab;
    if (!table->rows->dropped) drop(place_of(table->home, table->rows->database, table->rows->name));
    return disconnect(vtab);
}

static int rename_to(sqlite3_vtab *vtab, const char *name) {
    char *copy = sqlite3_mprintf("%s", name);
    if (!copy) return SQLITE_NOMEM;
    struct rows *rows = ((struct table *)vtab)->rows;
    sqlite3_free(rows->name);
    rows->name = copy;
    return SQLITE_OK;
}

// ---- Reading. ----

// Says which constraints on the key are used: a letter each in idxStr, in the order of the values. SQLite compares once more, so that they
// may let more through. idxNum is 1 where the walk descends.
static int best_index(sqlite3_vtab *vtab, sqlite3_index_info *info) {
    struct rows *rows = ((struct table *)vtab)->rows;
    uint64_t count = rows->shared ? __atomic_load_n(&rows->shared->count, __ATOMIC_RELAXED) : rows->count;
    char letters[64];
    int used = 0;
    bool equal = false, above = false, below = false;
    for (int i = 0; i < info->nConstraint && used < 60; i++) {
        if (!info->aConstraint[i].usable || info->aConstraint[i].iColumn > 0) continue;
        switch (info->aConstraint[i].op) {
        case SQLITE_INDEX_CONSTRAINT_EQ: letters[used] = '=', equal = true; break;
        case SQLITE_INDEX_CONSTRAINT_GT: letters[used] = '>', above = true; break;
        case SQLITE_INDEX_CONSTRAINT_GE: letters[used] = 'g', above = true; break;
        case SQLITE_INDEX_CONSTRAINT_LT: letters[used] = '<', below = true; break;
        case SQLITE_INDEX_CONSTRAINT_LE: letters[used] = 'l', below = true; break;
        default: continue;
        }
        info->aConstraintUsage[i].argvIndex = ++used;
    }
    letters[used] = 0;
    if (used && !(info->idxStr = sqlite3_mprintf("%s", letters))) return SQLITE_NOMEM;
    info->needToFreeIdxStr = used > 0;
    if (info->nOrderBy == 1 && info->aOrderBy[0].iColumn <= 0) {
        info->orderByConsumed = 1;
        info->idxNum = info->aOrderBy[0].desc;
    }
    info->estimatedRows = (sqlite3_int64)(equal ? 1 : count / (above ? 4 : 1) / (below ? 4 : 1) + 1);
    info->estimatedCost = 5 + (double)info->estimatedRows;
    if (equal) info->idxFlags = SQLITE_INDEX_SCAN_UNIQUE;
    return SQLITE_OK;
}

static int open_cursor(sqlite3_vtab *vtab, sqlite3_vtab_cursor **out) {
    (void)vtab;
    struct cursor *cursor = sqlite3_malloc(sizeof *cursor);
    if (!cursor) return SQLITE_NOMEM;
    memset(cursor, 0, sizeof *cursor);
    *out = &cursor->base;
    return SQLITE_OK;
}

static int close_cursor(sqlite3_vtab_cursor *base) {
    sqlite3_free(base);
    return SQLITE_OK;
}

static struct rows *rows_of(struct cursor *cursor) { return ((struct table *)cursor->base.pVtab)->rows; }

// Reads the next part of the walk.
static void fill(struct cursor *cursor) {
    struct rows *rows = rows_of(cursor);
    blink_scanned scanned = reads(rows, cursor->lo, cursor->hi, cursor->descending, cursor->part, cursor->want);
    cursor->changes = rows->changes;
    cursor->at = 0, cursor->filled = scanned.filled, cursor->ended = !scanned.filled, cursor->last_part = !scanned.more;
    if (scanned.more) *(cursor->descending ? &cursor->hi : &cursor->lo) = scanned.next;
    if (cursor->want < PART) cursor->want *= 4;
}

// A value as a bound of integer keys: false where nothing can be said of it, since it is text or a blob. Of a real number these are the
// integers around it, and NULL is in no order with anything, which `none` tells.
static bool bounds_of(sqlite3_value *value, sqlite3_int64 *low, sqlite3_int64 *high, bool *none) {
    switch (sqlite3_value_numeric_type(value)) {
    case SQLITE_INTEGER: *low = *high = sqlite3_value_int64(value); return true;
    case SQLITE_FLOAT: {
        double real = sqlite3_value_double(value);
        if (real < -9223372036854775807.0 || real >= 9223372036854775807.0) {
            *low = *high = real < 0 ? LLONG_MIN : LLONG_MAX;
            return true;
        }
        *low = (sqlite3_int64)real - (real < 0), *high = (sqlite3_int64)real + (real > 0);
        return true;
    }
    case SQLITE_NULL: *none = true; return true;
    default: return false;
    }
}

static int filter(sqlite3_vtab_cursor *base, int descending, const char *letters, int argc, sqlite3_value **argv) {
    struct cursor *cursor = (struct cursor *)base;
    struct rows *rows = rows_of(cursor);
    sqlite3_int64 lo = LLONG_MIN, hi = LLONG_MAX, low, high;
    bool none = false;
    for (int i = 0; i < argc; i++) {
        if (!bounds_of(argv[i], &low, &high, &none) || none) continue;
        if (strchr("=>g", letters[i]) && low > lo) lo = low;
        if (strchr("=<l", letters[i]) && high < hi) hi = high;
    }
    cursor->lo = key_of(lo), cursor->hi = key_of(hi), cursor->descending = descending;
    cursor->ended = none || lo > hi;
    if (cursor->ended) return SQLITE_OK;
    if (lo == hi) {
        cursor->part[0].key = cursor->lo;
        cursor->ended = !finds(rows, cursor->lo, &cursor->part[0].pointer);
        cursor->at = 0, cursor->filled = 1, cursor->last_part = true, cursor->changes = rows->changes;
        return SQLITE_OK;
    }
    cursor->want = FIRST_PART;
    fill(cursor);
    return SQLITE_OK;
}

// Goes on to the next row. Where this connection has changed rows meanwhile it reads them anew, from behind this one.
static int next(sqlite3_vtab_cursor *base) {
    struct cursor *cursor = (struct cursor *)base;
    uint64_t key = cursor->part[cursor->at].key;
    if (cursor->changes != rows_of(cursor)->changes) {
        cursor->ended = key == (cursor->descending ? cursor->lo : cursor->hi);
        if (cursor->ended) return SQLITE_OK;
        if (cursor->descending) cursor->hi = key - 1;
        else cursor->lo = key + 1;
        fill(cursor);
    } else if (cursor->at + 1 < cursor->filled) {
        cursor->at++;
    } else if (cursor->last_part) {
        cursor->ended = true;
    } else {
        fill(cursor);
    }
    return SQLITE_OK;
}

static int eof(sqlite3_vtab_cursor *base) { return ((struct cursor *)base)->ended; }

static int column(sqlite3_vtab_cursor *base, sqlite3_context *context, int number) {
    struct cursor *cursor = (struct cursor *)base;
    blink_entry row = cursor->part[cursor->at];
    sqlite3_result_int64(context, number == 1 ? (sqlite3_int64)row.pointer : value_of(row.key));
    return SQLITE_OK;
}

static int rowid(sqlite3_vtab_cursor *base, sqlite3_int64 *out) {
    struct cursor *cursor = (struct cursor *)base;
    *out = value_of(cursor->part[cursor->at].key);
    return SQLITE_OK;
}

// ---- Changing. ----

// Makes room for two more changes in the log.
static bool can_log(struct rows *rows) {
    if (rows->logged + 2 <= rows->log_room) return true;
    size_t room = rows->log_room * 2 + 64;
    struct undo *log = sqlite3_realloc64(rows->log, room * sizeof *log);
    if (!log) return false;
    rows->log = log, rows->log_room = room;
    return true;
}

static int removes(struct rows *rows, uint64_t key) {
    blink_answer answer;
    int status = changes(rows, DELETE, key, 0, 0, &answer);
    if (status == SQLITE_OK && answer.kind == BLINK_REMOVED)
        rows->log[rows->logged++] = (struct undo){.key = key, .there_before = true, .before = answer.pointer};
    return status;
}

// Replaces a key's pointer, and says whether the key was there.
static int replaces(struct rows *rows, uint64_t key, uint64_t pointer, bool *there) {
    blink_answer answer;
    int status = changes(rows, REPLACE, key, 0, pointer, &answer);
    *there = status == SQLITE_OK && answer.kind == BLINK_REPLACED;
    if (*there) rows->log[rows->logged++] = (struct undo){key, answer.pointer, pointer, true, true};
    return status;
}

// Inserts a key. Where it is there it is replaced, or the insertion is SQLITE_CONSTRAINT. Of an index it leaves page numbers for an insertion
// that undoes a deletion.
static int inserts(struct rows *rows, uint64_t key, uint64_t pointer, bool may_replace) {
    blink_answer answer;
    if (!rows->shared && 1 + blink_index_pages(&rows->index) + 2 * 22 > 1048576) return SQLITE_FULL;
    for (;;) {
        bool there;
        int status = changes(rows, INSERT, key, 0, pointer, &answer);
        if (status != SQLITE_OK) return status;
        if (answer.kind == BLINK_INSERTED) break;
        if (!may_replace) return SQLITE_CONSTRAINT;
        status = replaces(rows, key, pointer, &there);
        if (status != SQLITE_OK || there) return status;
    }
    rows->log[rows->logged++] = (struct undo){.key = key, .there_after = true, .after = pointer};
    return SQLITE_OK;
}

// Undoes the changes of the log behind so many, the last one first. Of an index nothing is refused: of a deleted key the leaf has room, since
// its entries aren't more then than when the key was deleted, so nothing is split, and an insertion takes no memory. A map may be refused
// memory to grow.
static int undo(struct rows *rows, size_t left) {
    int status = SQLITE_OK;
    while (rows->logged > left) {
        struct undo last = rows->log[--rows->logged];
        blink_answer answer;
        enum change change = !last.there_before ? DELETE_EXACT : last.there_after ? EXCHANGE : INSERT;
        int refused = changes(rows, change, last.key, last.after, last.before, &answer);
        if (refused != SQLITE_OK) status = refused;
    }
    return status;
}

// Whether a value is an integer, or as good as one, by the rule that SQLite has for its own tables.
static bool is_integer(sqlite3_value *value, sqlite3_int64 *out) {
    int type = sqlite3_value_numeric_type(value);
    *out = sqlite3_value_int64(value);
    if (type == SQLITE_INTEGER) return true;
    return type == SQLITE_FLOAT && sqlite3_value_double(value) == (double)*out && *out > LLONG_MIN && *out < LLONG_MAX;
}

// The key that a row without one gets: the one above the greatest.
static int key_above_all(struct rows *rows, sqlite3_int64 *out) {
    blink_entry last;
    if (!reads(rows, 0, UINT64_MAX, true, &last, 1).filled) return *out = 1, SQLITE_OK;
    if (last.key == UINT64_MAX) return SQLITE_FULL;
    return *out = value_of(last.key + 1), SQLITE_OK;
}

static int refuses(struct table *table, const char *constraint, const char *column) {
    sqlite3_free(table->base.zErrMsg);
    table->base.zErrMsg = sqlite3_mprintf("%s constraint failed: %s.%s", constraint, table->rows->name, column);
    return SQLITE_CONSTRAINT;
}

// The key that a row is to have. It stands in argv[2], or, where it is given as the rowid, in argv[1].
static int wanted_key(struct rows *rows, sqlite3_value **argv, sqlite3_int64 *out) {
    bool is_new = sqlite3_value_type(argv[0]) == SQLITE_NULL;
    sqlite3_value *wanted = argv[2];
    if (is_new && sqlite3_value_type(wanted) == SQLITE_NULL) wanted = argv[1];
    if (!is_new && is_integer(wanted, out) && *out == sqlite3_value_int64(argv[0])) wanted = argv[1];
    if (is_new && sqlite3_value_type(wanted) == SQLITE_NULL) return key_above_all(rows, out);
    return is_integer(wanted, out) ? SQLITE_OK : SQLITE_MISMATCH;
}

// Carries out a deletion (argv[0] is the key), an insertion (it is NULL), or a change of the row.
static int update(sqlite3_vtab *vtab, int argc, sqlite3_value **argv, sqlite3_int64 *out) {
    struct table *table = (struct table *)vtab;
    struct rows *rows = table->rows;
    if (!can_log(rows)) return SQLITE_NOMEM;
    bool is_new = sqlite3_value_type(argv[0]) == SQLITE_NULL, was_there;
    uint64_t old = is_new ? 0 : key_of(sqlite3_value_int64(argv[0])), there;
    if (argc == 1) return removes(rows, old);

    sqlite3_int64 value, pointer;
    int status = wanted_key(rows, argv, &value);
    if (status != SQLITE_OK) return status;
    if (sqlite3_value_type(argv[3]) == SQLITE_NULL) return refuses(table, "NOT NULL", "pointer");
    if (!is_integer(argv[3], &pointer)) return SQLITE_MISMATCH;
    uint64_t key = key_of(value);
    if (!is_new && key == old) return replaces(rows, key, (uint64_t)pointer, &was_there);
    // of a row that this statement has replaced nothing is left to be changed
    if (!is_new && !finds(rows, old, &there)) return SQLITE_OK;
    status = inserts(rows, key, (uint64_t)pointer, sqlite3_vtab_on_conflict(table->home->db) == SQLITE_REPLACE);
    if (status == SQLITE_CONSTRAINT) return refuses(table, "UNIQUE", "key");
    if (status == SQLITE_OK && !is_new) status = removes(rows, old);
    if (is_new) *out = value;
    return status;
}

// ---- Transactions. ----

static int begin(sqlite3_vtab *vtab) {
    struct rows *rows = ((struct table *)vtab)->rows;
    rows->logged = rows->marked = 0;
    return SQLITE_OK;
}

// The changes stay. Pages never merge by themselves, so where they have become few entries each they are packed; without memory they aren't.
static int commit(sqlite3_vtab *vtab) {
    struct rows *rows = ((struct table *)vtab)->rows;
    if (!rows->shared && blink_index_pages(&rows->index) > 1000 + rows->count / 4) (void)blink_index_compact(&rows->index);
    return begin(vtab);
}

static int rollback(sqlite3_vtab *vtab) {
    int status = undo(((struct table *)vtab)->rows, 0);
    begin(vtab);
    return status;
}

// A savepoint's mark. Those that were opened before the table was changed at all aren't told, and have 0.
static int savepoint(sqlite3_vtab *vtab, int number) {
    struct rows *rows = ((struct table *)vtab)->rows;
    size_t at = (size_t)number;
    if (at >= rows->mark_room) {
        size_t *marks = sqlite3_realloc64(rows->marks, (at + 8) * sizeof *marks);
        if (!marks) return SQLITE_NOMEM;
        rows->marks = marks, rows->mark_room = at + 8;
    }
    while (rows->marked < at) rows->marks[rows->marked++] = 0;
    rows->marks[at] = rows->logged;
    rows->marked = at + 1;
    return SQLITE_OK;
}

static int release(sqlite3_vtab *vtab, int number) {
    struct rows *rows = ((struct table *)vtab)->rows;
    if (rows->marked > (size_t)number) rows->marked = (size_t)number;
    return SQLITE_OK;
}

// The savepoint -1 is one that began the transaction.
static int rollback_to(sqlite3_vtab *vtab, int number) {
    struct rows *rows = ((struct table *)vtab)->rows;
    if (number < 0) return rows->marked = 0, undo(rows, 0);
    if (rows->marked <= (size_t)number) return SQLITE_OK;
    rows->marked = (size_t)number + 1;
    return undo(rows, rows->marks[number]);
}

static const sqlite3_module module = {
    .iVersion = 2, .xCreate = create, .xConnect = reconnect, .xBestIndex = best_index, .xDisconnect = disconnect, .xDestroy = destroy,
    .xOpen = open_cursor, .xClose = close_cursor, .xFilter = filter, .xNext = next, .xEof = eof, .xColumn = column, .xRowid = rowid,
    .xUpdate = update, .xBegin = begin, .xCommit = commit, .xRollback = rollback, .xRename = rename_to, .xSavepoint = savepoint,
    .xRelease = release, .xRollbackTo = rollback_to,
};

// The connection is closed. None of its tables is open by then.
static void leave(void *aux) {
    struct connection *home = aux;
    while (home->all) drop(&home->all);
    sqlite3_free(home);
}

int sqlite3_blink_init(sqlite3 *db, char **error, const sqlite3_api_routines *api) {
    SQLITE_EXTENSION_INIT2(api);
    (void)error;
    struct connection *home = sqlite3_malloc(sizeof *home);
    if (!home) return SQLITE_NOMEM;
    *home = (struct connection){.db = db};
    return sqlite3_create_module_v2(db, "blink", &module, home, leave);
}
