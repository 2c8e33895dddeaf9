/*
 * blink.h: a proved B-link tree index, and a map that threads share without a global lock, for C and C++.
 *
 * Link with libblink.a or libblink.so, which ./libblink builds. What the comment of a function says of its results, and of what
 * it changes, is proved in crates/blink_c, unless it says "tested". Inline functions are made of the others, some of which blink_bindings.h
 * declares, and are tested alone. Of all functions it is tested alone that memory is refused only where malloc or realloc gives none, that an
 * operation gets on by blink_session_advance, and that what is freed is free. What follows is what the caller keeps.
 *
 * Verbs. The calls have the same names for an index, a reader and a session, where one has them, and in C++ and Rust: get; insert, which leaves
 * a present key as it is; put, which inserts or replaces; replace; compare_exchange; remove; compare_remove; scan; first, last, next, prev,
 * at_least and at_most, which give one entry; pop_first and pop_last; len and count. A call of a session waits where it has to. A thread that
 * mustn't wait takes the call whose name has _try at its end, which takes `tries`: blink_bindings.h.
 *
 * Processor. Both are for Linux on x86-64-v2, which has popcnt and SSE 4.2. A processor without these ends the program by SIGILL.
 *
 * Handles. blink_index, blink_reader, blink_map and blink_session are handles. A handle begins as {NULL}, and is then empty. A function
 * with a parameter `out` takes the place of an empty handle, and fills it if it returns BLINK_DONE. All other functions take a full one. A
 * handle is freed once, by its free function. A close of a map leaves the handle, which blink_map_free frees. blink_index_share and blink_reader_unshare, if they return BLINK_DONE, leave the handle empty that they
 * take, and then it isn't freed.
 *
 * Misuse. A call out of order is refused, and its comment says by which code: while an operation is under way (BLINK_PENDING) or none is
 * (BLINK_IDLE), and a close before all is freed (BLINK_SESSION_MISSING). Undefined, of every call, as a wild pointer is, since nothing
 * looks for it: an empty handle, a freed one or a copy of a freed one, where a full one is asked for; a full one as `out`; a handle of
 * another type, which takes a cast; one handle as two parameters; two calls at once by one handle; and NULL for a handle, an array or a
 * result.
 *
 * Threads. One call at a time uses a handle, also one that takes it as const, which leaves what the handle has as it was. Several threads
 * at once may call blink_map_join, blink_map_share and blink_map_room with one handle of a map, which wait for each other. Any thread may
 * use a handle; one gives it to another by what orders memory between the two: a lock, a start or join of a thread, or an atomic that one
 * stores with release order, at least, and the other loads with acquire order. Different handles may be used by different threads at the
 * same time, also readers of one index; or sessions of one map, and the map itself. No call waits for another thread, but those three, one
 * that renews a map, and the calls of sessions without _try. None may be called from a signal handler, or in a forked child of a process with
 * threads. Tested: what a thread wrote before a call of a session that stores a pointer is seen by whoever gets this pointer from a call of
 * another one, by a get, a scan, a snapshot or a change. So a pointer may be the address of a record, which isn't changed from then on but
 * by what orders memory itself.
 *
 * No call has a cancellation point, so a thread that may be cancelled, but not at any time, ends behind its call. One that ends within a
 * call, cancelled at any time or by a jump out of a signal handler, leaves its handle as if it were never freed, and may leave a page
 * latched: then a change that wants this page gets on no more, and a map doesn't close.
 *
 * Arrays. A pointer and the number of its elements follow one another. The pointer isn't NULL, also where that number is 0, and
 * no two arrays or results of one call overlap.
 *
 * Memory comes from malloc, realloc and free. A call that is refused for want of it leaves what was there as it was, except that
 * blink_index_apply has carried out the operations before, and a session may have seen more.
 */
#ifndef BLINK_H
#define BLINK_H

#include <sched.h>
#include <stdbool.h>
#include <stddef.h>
#include <stdint.h>
#include <string.h>

#ifdef __cplusplus
extern "C" {
#endif

/* The version: of this header, as text and as three numbers, and as text that of the library that the program runs with. The first number is
 * that of libblink.so.0: programs are linked anew where it differs. */
#define BLINK_VERSION "0.1.0"
#define BLINK_VERSION_MAJOR 0
#define BLINK_VERSION_MINOR 1
#define BLINK_VERSION_PATCH 0
const char *blink_version(void);

typedef struct { void *at; } blink_index;
typedef struct { void *at; } blink_reader;
typedef struct { void *at; } blink_map;
typedef struct { void *at; } blink_session;

/* A key with its record pointer. */
typedef struct { uint64_t key, pointer; } blink_entry;

/* An operation. BLINK_GET and BLINK_REMOVE don't read the pointer. The changes that compare have one number more, so they have functions
 * alone: blink_index_compare_exchange, blink_index_compare_remove and those of a session. */
typedef struct { uint64_t kind, key, pointer; } blink_operation;

/* An answer. The pointer is 0 where the answer tells none. */
typedef struct { uint64_t kind, pointer; } blink_answer;

/* How far a scan came. It filled so many places of its array, from the first on. `more` is 1 if the array was full before the end of the
 * range: then another scan goes on from the key `next`, which is its `lo`, or backwards its `hi`. At the end of the range both are 0. So
 * all entries of a range come by
 *
 *     for (blink_scanned s = {0, 1, lo}; s.more;) {
 *         blink_index_scan(&index, s.next, hi, entries, places, &s);
 *         // entries[0] to entries[s.filled - 1]
 *     }
 *
 * with one place at least; and so of a reader and a session; and backwards by `s = {0, 1, hi}` and
 * blink_index_scan_back(&index, lo, s.next, ..). */
typedef struct { uint64_t filled, more, next; } blink_scanned;

/* What became of a snapshot. `taken` is 1 if it was taken, and then `there` is the number of its entries; else both are 0. */
typedef struct { uint64_t taken, there; } blink_taken;

/* What a session has of its map's page numbers and rows, until its handle is freed; then the next session at its place has them.
 * `pages` are the page numbers that it has drawn and not used, and `unwritten` the rows that it has drawn and not written. `free`
 * rows have come back, and may be written again. `taken_out` rows were replaced by changes of its own, and `waiting` rows wait
 * until no call reads them. */
typedef struct { uint64_t pages, unwritten, free, taken_out, waiting; } blink_reserve;

/* The kinds of operations. */
enum {
    BLINK_GET = 0,     /* looks the key up */
    BLINK_INSERT = 1,  /* maps the key to the pointer, unless the key is there */
    BLINK_REMOVE = 2,  /* takes the key away, if it is there */
    BLINK_REPLACE = 3  /* maps the key to the pointer, if the key is there */
};

/* The kinds of answers. */
enum {
    BLINK_ABSENT = 0,   /* of each but insert and put: the key isn't there, and nothing changed */
    BLINK_FOUND = 1,    /* of get: the key maps to the pointer */
    BLINK_INSERTED = 2, /* of insert and put: the key wasn't there, and maps to the pointer now */
    BLINK_EXISTS = 3,   /* of insert: the key maps to this pointer, and nothing changed; of compare_exchange and compare_remove:
                         * the same, and this isn't the expected pointer */
    BLINK_REMOVED = 4,  /* of remove and compare_remove: the key mapped to this pointer, and is no longer there */
    BLINK_REPLACED = 5  /* of replace, put and compare_exchange: the key mapped to this pointer, and maps to the new one now */
};

/* What a call returns: BLINK_DONE, or why it is refused. A refused call changes nothing but where its comment says so. A code has one
 * meaning, the same in every release, and all calls that are refused for want of memory have one code. */
enum {
    BLINK_DONE = 0,
    BLINK_TOO_MANY = 1,            /* more than BLINK_BATCH_LIMIT operations */
    BLINK_WRONG_LENGTH = 3,        /* two arrays that have to be equally long aren't */
    BLINK_UNKNOWN_OPERATION = 11,  /* the kind of an operation is none of the four */
    BLINK_INDEX_TOO_LARGE = 32,    /* 1 + pages + 22 for each insertion is above 1,048,576 */
    BLINK_BAD_FAN = 40,            /* the fan isn't from 4 to 32 */
    BLINK_NO_MEMORY = 41,          /* malloc or realloc gave no memory */
    BLINK_NOT_ASCENDING = 42,      /* a key of the entries isn't above the one before */
    BLINK_SHARED = 43,             /* the index has another reader */
    BLINK_PENDING = 90,            /* the session has an operation under way */
    BLINK_IDLE = 91,               /* the session has no operation under way */
    BLINK_MAP_TOO_LARGE = 101,     /* the index's pages and the page numbers of the room are above 1,048,575 */
    BLINK_BAD_SESSIONS = 102,      /* there are to be no sessions, or more than 256 */
    BLINK_NO_SESSION = 103,          /* each place for a session was taken, or the map is closed */
    BLINK_FULL = 105,              /* the map's room is fixed, and the session has too few rows or page numbers in all, and the pool too; or
                                    * the map was to be renewed */
    BLINK_SESSION_MISSING = 106,   /* the handle of a session, or another handle of the map, isn't freed */
    BLINK_ROWS_BUSY = 107,         /* the session has enough rows and page numbers in all, but some rows are on their way back */
    BLINK_MAP_CLOSED = 108,        /* the map is closed, or a close of it has begun */
    BLINK_RENEWING = 109           /* the map is being renewed, or can't be, since a session is held or in a call */
};

/* The greatest number of operations that run at once. */
#define BLINK_BATCH_LIMIT 8192

/* A good number of `tries`, for a call that may come back before an operation has ended. The calls of sessions that wait, and those of
 * blink.hpp and blink.py, take so many steps in vain before they yield. A step in vain reads a word of memory, and a yield is a call of the
 * kernel. */
#define BLINK_TRIES 100

/* The most tries of a change of a map that waits: each time that the map couldn't be renewed it has ten times as many, up to these. */
#define BLINK_MOST_TRIES 1000000

/* How often a thread that waits yields before it sleeps. A yield lets no thread of lesser priority run, which may be the one that holds
 * this one up. */
#define BLINK_YIELDS 100

#include "blink_bindings.h"

/* Tells ThreadSanitizer, where it is on, what "Threads" says of pointers: of the calls that blink_bindings.h declares, and so of all below. */
#if defined(__SANITIZE_THREAD__)
#include "blink_tsan.h"
#elif defined(__has_feature)
#if __has_feature(thread_sanitizer)
#include "blink_tsan.h"
#endif
#endif

/* The text of a code, in a few words without a full stop. A number that is no code has one too. */
static inline const char *blink_message(int code) {
    switch (code) {
    case BLINK_DONE: return "done";
    case BLINK_TOO_MANY: return "too many operations";
    case BLINK_WRONG_LENGTH: return "two arrays of different lengths";
    case BLINK_UNKNOWN_OPERATION: return "unknown operation";
    case BLINK_INDEX_TOO_LARGE: return "the index is too large";
    case BLINK_BAD_FAN: return "the fan isn't from 4 to 32";
    case BLINK_NO_MEMORY: return "out of memory";
    case BLINK_NOT_ASCENDING: return "the keys don't ascend";
    case BLINK_SHARED: return "the index has another reader";
    case BLINK_PENDING: return "an operation is under way";
    case BLINK_IDLE: return "no operation is under way";
    case BLINK_MAP_TOO_LARGE: return "the map is too large";
    case BLINK_BAD_SESSIONS: return "a map has 1 to 256 sessions";
    case BLINK_NO_SESSION: return "no place for a session, or the map is closed";
    case BLINK_FULL: return "the map is full: close it, compact the index, open a larger map";
    case BLINK_SESSION_MISSING: return "a session or another handle isn't freed";
    case BLINK_ROWS_BUSY: return "rows are on their way back: try again";
    case BLINK_MAP_CLOSED: return "the map is closed, or a close of it has begun";
    case BLINK_RENEWING: return "the map is being renewed, or a session is held or in a call: try again";
    default: return "unknown code";
    }
}

/* ---- Keys of other types, in the order of their values. ---- */

/* The key of a signed number, and the number of such a key: the least number has key 0, and -1 the key just below that of 0. */
static inline uint64_t blink_key_of_int64(int64_t value) {
    return (uint64_t)value ^ (UINT64_C(1) << 63);
}

static inline int64_t blink_int64_of_key(uint64_t key) {
    return (int64_t)(key ^ (UINT64_C(1) << 63));
}

/* The key of a double, and the double of such a key. -0.0 comes just before 0.0, and NaNs are at both ends, by their sign. Of negative
 * doubles the greater bits are the lesser value. */
static inline uint64_t blink_key_of_double(double value) {
    uint64_t bits;
    memcpy(&bits, &value, sizeof bits);
    return bits >> 63 ? ~bits : bits | (UINT64_C(1) << 63);
}

static inline double blink_double_of_key(uint64_t key) {
    uint64_t bits = key >> 63 ? key ^ (UINT64_C(1) << 63) : ~key;
    double value;
    memcpy(&value, &bits, sizeof value);
    return value;
}

/* The key of two numbers, in the order of the first and then of the second: of a value and a row's number, say, so that several rows may
 * have one value. All rows of a value have the keys from blink_key_of_pair(value, 0) to blink_key_of_pair(value, UINT32_MAX). */
static inline uint64_t blink_key_of_pair(uint32_t first, uint32_t second) {
    return (uint64_t)first << 32 | second;
}

/* ---- The index: a map from keys to record pointers. ---- */

/* Makes an index without an entry, whose pages have at most `fan` entries, 4 to 32. Take 32: a page takes 560 bytes by any fan, so a fan
 * of 16 needs twice the memory. Refused: BLINK_BAD_FAN, for every other fan; BLINK_NO_MEMORY. */
int blink_index_new(uint8_t fan, blink_index *out);

/* Makes an index of entries in any order, sorted or not. Of two with one key the first stays. It has at most 1 page and 22 for
 * each entry. Refused: BLINK_BAD_FAN; then BLINK_NO_MEMORY, or BLINK_INDEX_TOO_LARGE, only if 2 and 22 for each entry are
 * above 1,048,576. */
int blink_index_from_entries(uint8_t fan, const blink_entry *entries, size_t count, blink_index *out);

/* Makes an index of entries whose keys strictly ascend, in as few pages as any tree of these entries has: each leaf but the last is
 * full. Refused, looked for in this order: BLINK_BAD_FAN; BLINK_NOT_ASCENDING, and `bad_place` is the first place, counted from 0,
 * whose key isn't above the one before; BLINK_INDEX_TOO_LARGE, exactly if the entries need more than 1,048,575 pages;
 * BLINK_NO_MEMORY. Without BLINK_NOT_ASCENDING, `bad_place` stays as it was. */
int blink_index_from_sorted(uint8_t fan, const blink_entry *entries, size_t count, blink_index *out, size_t *bad_place);

/* Makes a copy, page by page. Refused: BLINK_NO_MEMORY. */
int blink_index_copy(const blink_index *index, blink_index *out);

/* Runs operations one after another, and gives the answer of each at its place. It works on a copy of the index, which then takes
 * its place: so run many at once. Refused, looked for in this order: BLINK_WRONG_LENGTH, if there aren't as many places for
 * answers as operations; BLINK_TOO_MANY; BLINK_UNKNOWN_OPERATION; then BLINK_INDEX_TOO_LARGE or BLINK_NO_MEMORY. Then the
 * index and the answers are as they were. Otherwise the index has at most 22 pages more for each insertion. */
int blink_index_run(blink_index *index, const blink_operation *operations, size_t count, blink_answer *answers,
                    size_t places);

/* Adds a key with its pointer in place, unless the key is there: BLINK_INSERTED, or BLINK_EXISTS. It asks for memory only where the
 * key's leaf is split, before anything changes. Refused: BLINK_INDEX_TOO_LARGE, exactly if 1 + pages + 22 is above 1,048,576;
 * BLINK_NO_MEMORY. Then the index and the answer are as they were. Otherwise the index has at most 22 pages more. */
int blink_index_insert(blink_index *index, uint64_t key, uint64_t pointer, blink_answer *answer);

/* Removes a key with its pointer in place: BLINK_REMOVED, or BLINK_ABSENT. It is never refused. Where more leaves are empty then than the
 * entries fill, it packs the index as blink_index_compact does, so that scans walk few empty leaves. That takes the time of as many
 * removals as emptied them. Where memory for it is refused, the leaves stay, and a later removal tries again. */
void blink_index_remove(blink_index *index, uint64_t key, blink_answer *answer);

/* Replaces the pointer of a key in place: BLINK_REPLACED, or BLINK_ABSENT. It takes no memory. */
void blink_index_replace(blink_index *index, uint64_t key, uint64_t pointer, blink_answer *answer);

/* Maps a key to the pointer in place, whether the key is there or not: BLINK_REPLACED and the pointer that was there, or BLINK_INSERTED. Only
 * an absent key takes memory. Refused: as blink_index_insert. */
static inline int blink_index_put(blink_index *index, uint64_t key, uint64_t pointer, blink_answer *answer) {
    blink_answer replaced = {0, 0};
    blink_index_replace(index, key, pointer, &replaced);
    if (replaced.kind == BLINK_ABSENT) return blink_index_insert(index, key, pointer, answer);
    *answer = replaced;
    return BLINK_DONE;
}

/* Replaces the pointer of a key in place, if it is `expected`: BLINK_REPLACED, and `expected`; BLINK_EXISTS, and the other pointer that
 * the key maps to; or BLINK_ABSENT. It takes no memory. */
void blink_index_compare_exchange(blink_index *index, uint64_t key, uint64_t expected, uint64_t pointer, blink_answer *answer);

/* Removes a key with its pointer in place, if that is `expected`: BLINK_REMOVED, and `expected`; BLINK_EXISTS, and the other
 * pointer that the key maps to; or BLINK_ABSENT. It packs the index as blink_index_remove does. */
void blink_index_compare_remove(blink_index *index, uint64_t key, uint64_t expected, blink_answer *answer);

/* Packs the entries into as few pages as any tree of these entries has, in place: each leaf but the last is full then, so that an
 * insertion splits it. It takes memory for all new pages, before the old ones are freed. Refused: BLINK_NO_MEMORY, and then the
 * index is as it was. */
int blink_index_compact(blink_index *index);

/* Looks a key up: true, and its record pointer; or false, and `pointer` stays as it was. */
bool blink_index_get(const blink_index *index, uint64_t key, uint64_t *pointer);

/* Gives the entries with keys from `lo` to `hi`, both included, in ascending order, as many as there are places, and tells how far it
 * came; `next` is the key of the first entry for which there was no place. The other places stay as they were. Where `lo` is above `hi`
 * there are none, here as in each scan and snapshot below. It looks at no further entry, so the first `n` entries from a key on cost what
 * they are. It is never refused. */
int blink_index_scan(const blink_index *index, uint64_t lo, uint64_t hi, blink_entry *entries, size_t places, blink_scanned *scanned);

/* The same in descending order. */
int blink_index_scan_back(const blink_index *index, uint64_t lo, uint64_t hi, blink_entry *entries, size_t places, blink_scanned *scanned);

/* Returns the number of the entries with keys from `lo` to `hi`, both included. It walks their leaves. */
size_t blink_index_count(const blink_index *index, uint64_t lo, uint64_t hi);

/* Gives the entry with the least key: true; or false, if there is no entry, and `entry` stays as it was. */
bool blink_index_first(const blink_index *index, blink_entry *entry);

/* The same for the entry with the greatest key. */
bool blink_index_last(const blink_index *index, blink_entry *entry);

/* The same for the entry with the least key above this one. */
bool blink_index_next(const blink_index *index, uint64_t key, blink_entry *entry);

/* The same for the entry with the greatest key below this one. */
bool blink_index_prev(const blink_index *index, uint64_t key, blink_entry *entry);

/* The same for the entry with the least key from this one on. */
bool blink_index_at_least(const blink_index *index, uint64_t key, blink_entry *entry);

/* The same for the entry with the greatest key up to this one. */
bool blink_index_at_most(const blink_index *index, uint64_t key, blink_entry *entry);

/* Takes the entry with the least key away, and gives it: true; or false, if there is no entry, and `entry` stays as it was. It packs the
 * index as blink_index_remove does. */
static inline bool blink_index_pop_first(blink_index *index, blink_entry *entry) {
    blink_answer removed;
    if (!blink_index_first(index, entry)) return false;
    blink_index_remove(index, entry->key, &removed);
    return true;
}

/* The same of the entry with the greatest key. */
static inline bool blink_index_pop_last(blink_index *index, blink_entry *entry) {
    blink_answer removed;
    if (!blink_index_last(index, entry)) return false;
    blink_index_remove(index, entry->key, &removed);
    return true;
}

/* The number of entries, which the index keeps. */
size_t blink_index_len(const blink_index *index);

/* The number of pages, at least 1. */
uint32_t blink_index_pages(const blink_index *index);

/* Frees the index. */
void blink_index_free(blink_index index);

/* ---- Readers: an index that threads read at the same time. ----
 *
 * An index that is shared is only read. Each thread has a reader of its own, which answers as the index did when it was shared: no call
 * of any reader changes that. Readers join, read and are freed each in their own thread, and none waits for another. The last one gives
 * the index back, to be changed again. A map is opened over an index, not over a reader. Threads that read while others
 * change have a map.
 */

/* Makes the index one that is only read, and gives its first reader. The handle `index` is empty then. No entry is copied: it takes
 * memory for the handle and for an index without an entry. Refused: BLINK_NO_MEMORY, and then `index` is as it was. */
int blink_index_share(blink_index *index, blink_reader *out);

/* Gives one more reader of the same index, for another thread. No entry is copied: it takes memory for the handle and for an index
 * without an entry. Refused: BLINK_NO_MEMORY. */
int blink_reader_join(const blink_reader *reader, blink_reader *out);

/* Gives the index back, as it was when it was shared, if no other reader has it. The handle `reader` is empty then. No entry is copied,
 * and it takes no memory. Refused: BLINK_SHARED, and then the reader is as it was. Tested: it is BLINK_SHARED if another reader of the
 * index isn't freed, and in no other case. */
int blink_reader_unshare(blink_reader *reader, blink_index *out);

/* Read the index. Each gives, returns and refuses what the call of the index does that has the same name, as blink_index_get. */
bool blink_reader_get(const blink_reader *reader, uint64_t key, uint64_t *pointer);
int blink_reader_scan(const blink_reader *reader, uint64_t lo, uint64_t hi, blink_entry *entries, size_t places, blink_scanned *scanned);
int blink_reader_scan_back(const blink_reader *reader, uint64_t lo, uint64_t hi, blink_entry *entries, size_t places, blink_scanned *scanned);
size_t blink_reader_count(const blink_reader *reader, uint64_t lo, uint64_t hi);
bool blink_reader_first(const blink_reader *reader, blink_entry *entry);
bool blink_reader_last(const blink_reader *reader, blink_entry *entry);
bool blink_reader_next(const blink_reader *reader, uint64_t key, blink_entry *entry);
bool blink_reader_prev(const blink_reader *reader, uint64_t key, blink_entry *entry);
bool blink_reader_at_least(const blink_reader *reader, uint64_t key, blink_entry *entry);
bool blink_reader_at_most(const blink_reader *reader, uint64_t key, blink_entry *entry);
size_t blink_reader_len(const blink_reader *reader);

/* Frees the reader. Tested: the last one frees the index. */
void blink_reader_free(blink_reader reader);

/* ---- The map: entries that threads change together at any key. It grows. ----
 *
 * A thread joins a map, and has a session then. By its session it looks any key up, changes it, and scans ranges. There is one list of changes
 * of all keys. Each call answers as on the entries after a part of the list, which goes on from
 * all that the session had seen; a change of its own follows there at once, and then the session has seen both. A session never un-
 * sees a change that it has seen. Tested: a call sees every change of a call that ended before it began. In the end every handle of
 * a session is freed, the map is closed to an index, and blink_map_free frees its handle.
 *
 * Nobody tells a map how much room it is to have. It is one map after another: a change that finds no room renews it. All sessions are
 * gathered, the entries are copied into another map with more room, and all go on there. The list of changes goes on through all renewals.
 * So a map has places for 256 sessions, and its room is for those that make changes.
 *
 * A renewal takes the time of a copy of all entries, and memory for both maps. Searches go on meanwhile: one waits only while the sessions
 * are gathered, before the copy and after, or if its session is with the renewal, which is that of the change that renews, or of some thread
 * where blink_map_renew does. Changes wait for all of it. Once the entries are copied, a renewal looks up to a million times for each
 * session that is in a search. A change that finds the map full waits while a session is held (blink_session_hold), has an operation under way,
 * or is in a call. Who wants no pause opens a map with a fixed room (blink_map_open_with_room): it is never renewed.
 *
 * blink_map_open and blink_map_open_with_room, blink_map_share, blink_map_join, blink_map_renew, blink_map_close, blink_session_snapshot and
 * changes that renew the map take memory.
 *
 * From the opening to the close, each code to be looked at:
 *
 *     blink_map_open(&index, &map);
 *         in each thread, whose session begins as {NULL}:
 *             blink_map_join(&map, &session);
 *             blink_session_put(&session, key, pointer, &answer);
 *             blink_session_free(session);
 *     blink_map_close(&map, &closed);
 *     blink_map_free(map);
 *
 * examples/c/session_cache.c is a whole program.
 */

/* Opens a map over the index, which stays as it is, with places for 256 sessions. While it opens, it takes twice the memory that the
 * map has then. Refused: BLINK_MAP_TOO_LARGE, if the index leaves too few of the 1,048,575 page numbers; BLINK_NO_MEMORY. */
int blink_map_open(const blink_index *index, blink_map *out);

/* Opens a map as blink_map_open does, which has so many page numbers and rows for its first changes; blink_room_for works them out. Where a
 * change finds too few left, the map is renewed, and grows as any other. But if its room is `fixed`, it has places for `sessions` sessions, and
 * is never renewed, so no call waits for a copy: such a change is refused with BLINK_FULL, and all other calls go on.
 *
 * A split of a page takes one of `pages` page numbers, and every write of a whole page one of `rows` rows. Most changes are
 * appended to the row of their page, and take none. An insertion has to have 22 numbers and 44 rows when it begins; any other change has
 * to have one row.
 * Sessions draw both from the map's pool, at most 64 numbers and 1,024 rows at once; what one draws no other gets, before its place is
 * taken again. One that has fewer than 22 numbers draws others, and keeps those that it had, which it uses first. So no number is lost:
 * when all is full, each session has at most 21 left, and the pool as many. Splits by one session take 19,979 of 20,000 numbers, 979 of
 * 1,000, and 179 of 200 (measured).
 * Half of the rows are for `sessions` sessions, in equal parts, of 44 at least and 4,096 at most; a new page keeps one of the others. Tested: a
 * row that a write replaces comes back to its session, once each call that was in progress has ended. So two rows for each page number, and a
 * few hundred for each session, are enough for all changes as long as the page numbers last. While a thread is held up inside a call no
 * row comes back, and a change waits for one. Refused: BLINK_BAD_SESSIONS, if `sessions`
 * is 0 or more than 256; BLINK_MAP_TOO_LARGE, if the index's pages and `pages` are above 1,048,575; BLINK_NO_MEMORY. */
int blink_map_open_with_room(const blink_index *index, uint32_t pages, uint32_t rows, uint32_t sessions, bool fixed, blink_map *out);

/* Stores the page numbers and rows that are enough for so many insertions of absent keys into a map over this index, whatever their keys
 * and their order, by so many sessions, and for any number of other changes. Each leaf of the index may be full and split once; after that
 * a leaf splits again once half of a page has been inserted into it. Random keys take about two thirds of these page numbers. Beside them,
 * each session gets 86, since it may have drawn so many and not used them. With their rows they take 0.3 MB, whether the session is there or
 * not. What is too large, blink_map_open_with_room refuses. */
static inline void blink_room_for(const blink_index *index, uint32_t insertions, uint32_t sessions, uint32_t *pages, uint32_t *rows) {
    uint64_t half = (blink_index_fan(index) + 1u) / 2; /* so many insertions fill the half that a split leaves */
    uint64_t leaves = blink_index_pages(index) + insertions / half;
    /* the levels above, a new root for each level, and what sessions have drawn and not used */
    uint64_t most_pages = leaves * half / (half - 1) + 21 + 86 * (uint64_t)sessions;
    uint64_t most_rows = 2 * most_pages + 300 * (uint64_t)sessions;
    *pages = most_pages < UINT32_MAX ? (uint32_t)most_pages : UINT32_MAX;
    *rows = most_rows < UINT32_MAX ? (uint32_t)most_rows : UINT32_MAX;
}

/* The body of the next three calls: it takes the pointer out of the handle, and other threads wait until it is back. */
#define BLINK_TAKES(call)                                                                                      \
    blink_map taken;                                                                                           \
    uint32_t pauses = 0;                                                                                       \
    int code;                                                                                                  \
    while ((taken.at = __atomic_exchange_n(&map->at, (void *)0, __ATOMIC_ACQUIRE)) == 0) blink_pause(&pauses); \
    code = call;                                                                                               \
    __atomic_store_n(&map->at, taken.at, __ATOMIC_RELEASE);                                                    \
    return code

/* Gives one more handle of the map. It takes memory for the handle alone. Refused: BLINK_MAP_CLOSED, if a close of the map has begun;
 * BLINK_NO_MEMORY. */
static inline int blink_map_share(blink_map *map, blink_map *out) {
    BLINK_TAKES(blink_map_share_alone(&taken, out));
}

/* Gives a session. It takes memory for the handle alone. Refused: BLINK_NO_SESSION; BLINK_NO_MEMORY. Tested: it is BLINK_NO_SESSION
 * if a close of the map has begun; otherwise only if each place was taken. */
static inline int blink_map_join(blink_map *map, blink_session *out) {
    BLINK_TAKES(blink_map_join_alone(&taken, out));
}

/* Stores how many page numbers and rows the map's pool has left, for a look: sessions may draw at any time, and the map may be renewed. It
 * looks `looks` times for a session that is in no call, and not held. Tested: it stores what there is. Refused: BLINK_RENEWING, if it found
 * no such session, or the map was being renewed; BLINK_MAP_CLOSED, if a close of the map has begun; then both stay as they were. */
static inline int blink_map_room(blink_map *map, uint32_t looks, uint64_t *pages, uint64_t *rows) {
    BLINK_TAKES(blink_map_room_alone(&taken, looks, pages, rows));
}

#undef BLINK_TAKES

/* Renews the map in good time, which spares other threads the renewal, and not the pause of their changes. It looks `looks` times for each
 * session that is held or in a call. It copies by a session that nobody has, or else by one whose searches wait meanwhile. No other call uses
 * the handle meanwhile: who renews by a thread of its own shares the map before. Refused:
 * BLINK_RENEWING, if one was at each look, or another thread was renewing the map; BLINK_MAP_TOO_LARGE; BLINK_NO_MEMORY; BLINK_MAP_CLOSED.
 * Then the map goes on with the room that it has left. If the room of an open map is fixed, the call is refused with BLINK_FULL, and with
 * nothing else; no other map is refused with it. */
int blink_map_renew(blink_map *map, uint32_t looks);

/* Closes the map, and gives an index of its entries in as few pages as they need, in an empty handle: that of the index which the map was
 * opened over is full until it is freed. The new one has the entries that the map was opened with, after all changes of the list. The handle
 * of the map stays, and is still to be freed. Refused: BLINK_MAP_CLOSED, exactly if the map is closed; BLINK_SESSION_MISSING;
 * BLINK_NO_MEMORY; BLINK_MAP_TOO_LARGE; BLINK_RENEWING, only if a session was lost in the midst of an operation (blink_session_free). But for
 * BLINK_MAP_CLOSED the map stays, with all its entries, and the call may be made again; no session may join any more after the last three.
 * Tested: it is BLINK_SESSION_MISSING if the handle of a session, or another handle of the map, isn't freed, and in no other case. */
int blink_map_close(blink_map *map, blink_index *out);

/* Frees the handle. The handles of sessions, and others of the map, may still be used, and are still to be freed. */
void blink_map_free(blink_map map);

/* ---- Sessions: calls that wait. ----
 *
 * Each goes on until it has ended. It lets other threads run (blink_pause) and tries again where another thread has the page that a change
 * wants, where the session's rows are on their way back, where the map is renewed, and where a session that is held or in a call keeps it
 * from being renewed. So none returns BLINK_ROWS_BUSY or BLINK_RENEWING. Each is refused with BLINK_PENDING if an operation of the session is
 * under way, which only a call with _try can have left; then nothing changes. They are made of the calls with _try, and are no exports.
 */

/* The body of each call below that reads: it is made until the map isn't being renewed. */
#define BLINK_WAITS(call)                                         \
    uint32_t pauses = 0;                                          \
    int code;                                                     \
    while ((code = call) == BLINK_RENEWING) blink_pause(&pauses); \
    return code

/* Looks any key up: the answer is BLINK_FOUND or BLINK_ABSENT, after the changes that the session has seen by the end of the call. It returns
 * BLINK_DONE in both cases, so `answer` has to be looked at. */
static inline int blink_session_get(blink_session *session, uint64_t key, blink_answer *answer) {
    BLINK_WAITS(blink_session_get_try(session, key, BLINK_TRIES, answer));
}

/* Gives the entries whose keys are from `lo` to `hi`, both included, in ascending order, as many as there are places; other places
 * stay as they were. It reads leaf after leaf, from the left, each at one time: what it says of a key is what the changes up to some
 * time in the call leave of it, and of a greater key those up to that time or a later one. A key that is there throughout the
 * call is reported, and one that isn't there throughout isn't. The session has seen the changes up to these times then. A walk in parts
 * calls again from `next` as long as `more` is 1; without a place it gets nowhere. It takes no memory. */
static inline int blink_session_scan(blink_session *session, uint64_t lo, uint64_t hi, blink_entry *entries, size_t places,
                                     blink_scanned *scanned) {
    BLINK_WAITS(blink_session_scan_try(session, lo, hi, BLINK_TRIES, entries, places, scanned));
}

/* The same in descending order: of a lesser key it says what the changes up to a later time leave. */
static inline int blink_session_scan_back(blink_session *session, uint64_t lo, uint64_t hi, blink_entry *entries, size_t places,
                                          blink_scanned *scanned) {
    BLINK_WAITS(blink_session_scan_back_try(session, lo, hi, BLINK_TRIES, entries, places, scanned));
}

/* Takes a snapshot: the entries whose keys are from `lo` to `hi`, both included, in ascending order, as all of them were at one time in
 * the call. They are what the changes that the session has seen then leave of each of these keys. The array gets as many as there are
 * places, and `taken` says how many there are; other places stay as they were. If some leaf of the range was changed at each of `tries`
 * tries, there is no snapshot, and the places stay as they were: try again, or scan. It takes memory for the entries and 16 bytes for each
 * leaf, and frees it again. Refused: BLINK_NO_MEMORY, and then the session may have seen more. */
static inline int blink_session_snapshot(blink_session *session, uint64_t lo, uint64_t hi, uint32_t tries, blink_entry *entries,
                                         size_t places, blink_taken *taken) {
    BLINK_WAITS(blink_session_snapshot_try(session, lo, hi, tries, entries, places, taken));
}

/* Holds the session for the calls that follow, so that they find no renewal, until it is let go. The map is neither renewed nor closed
 * meanwhile, so hold it for a few calls, and let it go before the thread waits for anything. A change of this session that finds the map
 * full lets it go itself, and so does one that goes on: it is held again by the next change. */
static inline int blink_session_hold(blink_session *session) {
    BLINK_WAITS(blink_session_hold_try(session, BLINK_TRIES));
}

void blink_session_let_go(blink_session *session);

/* Tells what the session has of page numbers and rows in the map that it is in just now, for a look; blink_map_room tells what the pool has
 * left. Where the room is fixed, that shows how near its end is. The session is held for the call. If it is refused, `reserve` stays as it
 * was. */
static inline int blink_session_reserve(blink_session *session, blink_reserve *reserve) {
    BLINK_WAITS(blink_session_reserve_try(session, BLINK_TRIES, reserve));
}

#undef BLINK_WAITS

/* The body of the six calls below: a scan of one place, or of no key where there is none on that side. */
#define BLINK_NEAR(scan, there_are, lo, hi)                                                       \
    blink_scanned scanned = {0, 0, 0};                                                            \
    int code = scan(session, (there_are) ? (lo) : 1, (there_are) ? (hi) : 0, entry, 1, &scanned); \
    if (code == BLINK_DONE) *found = scanned.filled == 1;                                         \
    return code

/* Gives the entry with the least key, as a scan reports it first: `found` is true then; or false, if it reports none, and `entry` stays as it
 * was. If the call is refused, both do. Emptied leaves stay in the tree, and the call walks those before the entry. */
static inline int blink_session_first(blink_session *session, blink_entry *entry, bool *found) {
    BLINK_NEAR(blink_session_scan, true, 0, UINT64_MAX);
}

/* The same for the entry with the greatest key, as a backward scan reports it first. It goes down to each emptied leaf behind the entry. */
static inline int blink_session_last(blink_session *session, blink_entry *entry, bool *found) {
    BLINK_NEAR(blink_session_scan_back, true, 0, UINT64_MAX);
}

/* The same as blink_session_first for the entry with the least key above this one. */
static inline int blink_session_next(blink_session *session, uint64_t key, blink_entry *entry, bool *found) {
    BLINK_NEAR(blink_session_scan, key < UINT64_MAX, key + 1, UINT64_MAX);
}

/* The same as blink_session_last for the entry with the greatest key below this one. */
static inline int blink_session_prev(blink_session *session, uint64_t key, blink_entry *entry, bool *found) {
    BLINK_NEAR(blink_session_scan_back, key > 0, 0, key - 1);
}

/* The same as blink_session_first for the entry with the least key from this one on. */
static inline int blink_session_at_least(blink_session *session, uint64_t key, blink_entry *entry, bool *found) {
    BLINK_NEAR(blink_session_scan, true, key, UINT64_MAX);
}

/* The same as blink_session_last for the entry with the greatest key up to this one. */
static inline int blink_session_at_most(blink_session *session, uint64_t key, blink_entry *entry, bool *found) {
    BLINK_NEAR(blink_session_scan_back, true, 0, key);
}

#undef BLINK_NEAR

/* Stores how many entries a scan of the keys from `lo` to `hi`, both included, reports. If it is refused, `count` stays as it was. */
static inline int blink_session_count(blink_session *session, uint64_t lo, uint64_t hi, size_t *count) {
    blink_entry part[64];
    blink_scanned scanned = {0, 1, 0};
    size_t counted = 0;
    for (scanned.next = lo; scanned.more; counted += (size_t)scanned.filled) {
        int code = blink_session_scan(session, scanned.next, hi, part, 64, &scanned);
        if (code != BLINK_DONE) return code;
    }
    *count = counted;
    return BLINK_DONE;
}

/* The body of each change below, by a session that has no operation under way: it begins until it has ended. Where the map couldn't be renewed
 * it has ten times as many tries then, up to BLINK_MOST_TRIES, so that a renewal outlasts a call of a thread that was preempted. */
#define BLINK_WAITS(begins)                                                                                                     \
    blink_scanned none;                                                                                                         \
    blink_entry nowhere;                                                                                                        \
    uint32_t tries = BLINK_TRIES, pauses = 0, rests;                                                                            \
    int code = blink_session_scan(session, 1, 0, &nowhere, 0, &none);                                                           \
    if (code != BLINK_DONE) return code;                                                                                        \
    for (;; blink_pause(&pauses)) {                                                                                             \
        code = begins;                                                                                                          \
        for (rests = 0; code == BLINK_PENDING; code = blink_session_advance(session, BLINK_TRIES, answer)) blink_pause(&rests); \
        if (code != BLINK_ROWS_BUSY && code != BLINK_RENEWING) return code;                                                     \
        if (code == BLINK_RENEWING && tries < BLINK_MOST_TRIES) tries *= 10;                                                    \
    }

/* The changes. Each answers as that of an index, and no other session changes the key between a test and the change. Where the map is full they
 * renew it, unless its room is fixed, and take memory then. Refused: BLINK_MAP_TOO_LARGE; BLINK_NO_MEMORY; BLINK_FULL, only if the map's room
 * is fixed. The operation isn't made then. Tested: an insertion into a fixed map is refused with BLINK_FULL only if its key is absent:
 * otherwise it is BLINK_EXISTS all the same. */
static inline int blink_session_insert(blink_session *session, uint64_t key, uint64_t pointer, blink_answer *answer) {
    BLINK_WAITS(blink_session_insert_try(session, key, pointer, tries, answer))
}

/* Maps any key to the pointer, whether the key is there or not: BLINK_REPLACED and the pointer that was there, or BLINK_INSERTED. It replaces,
 * and where the key is absent it inserts; it begins anew where another session has inserted the key between. */
static inline int blink_session_put(blink_session *session, uint64_t key, uint64_t pointer, blink_answer *answer) {
    BLINK_WAITS(blink_session_put_try(session, key, pointer, tries, answer))
}

static inline int blink_session_replace(blink_session *session, uint64_t key, uint64_t pointer, blink_answer *answer) {
    BLINK_WAITS(blink_session_replace_try(session, key, pointer, tries, answer))
}

static inline int blink_session_compare_exchange(blink_session *session, uint64_t key, uint64_t expected, uint64_t pointer,
                                                 blink_answer *answer) {
    BLINK_WAITS(blink_session_compare_exchange_try(session, key, expected, pointer, tries, answer))
}

static inline int blink_session_remove(blink_session *session, uint64_t key, blink_answer *answer) {
    BLINK_WAITS(blink_session_remove_try(session, key, tries, answer))
}

static inline int blink_session_compare_remove(blink_session *session, uint64_t key, uint64_t expected, blink_answer *answer) {
    BLINK_WAITS(blink_session_compare_remove_try(session, key, expected, tries, answer))
}

#undef BLINK_WAITS

/* The body of the two calls below: it takes the entry away that `end` names, one after another until no other session was faster. */
#define BLINK_POPS(end)                                                                      \
    blink_entry there = {0, 0};                                                              \
    blink_answer answer = {0, 0};                                                            \
    bool some = false;                                                                       \
    do {                                                                                     \
        int code = end(session, &there, &some);                                              \
        if (code == BLINK_DONE && some)                                                      \
            code = blink_session_compare_remove(session, there.key, there.pointer, &answer); \
        if (code != BLINK_DONE) return code;                                                 \
    } while (some && answer.kind != BLINK_REMOVED);                                          \
    if (some) *entry = there;                                                                \
    *found = some;                                                                           \
    return BLINK_DONE

/* Takes the entry with the least key away, and gives it: `found` is true then; or false, if a scan found none, and `entry` stays as it was. Of
 * two sessions that take entries at once, each gets its own. A lesser key that another session inserts meanwhile may be passed over. Refused: as
 * blink_session_remove; then nothing is taken away, and both stay as they were. */
static inline int blink_session_pop_first(blink_session *session, blink_entry *entry, bool *found) {
    BLINK_POPS(blink_session_first);
}

/* The same of the entry with the greatest key. */
static inline int blink_session_pop_last(blink_session *session, blink_entry *entry, bool *found) {
    BLINK_POPS(blink_session_last);
}

#undef BLINK_POPS

/* Frees the handle. Tested: a session leaves its map by it, and its place can be taken again. An operation or a put under way goes on to
 * its end before; only a put may be left undone, where the map has no room for its other half. If it still waits for other sessions
 * after 1,000 tries, the session is lost, and the map can be neither renewed nor closed any more. */
void blink_session_free(blink_session session);

/* ---- Objects behind pointers: when may one be freed? ----
 *
 * Who finds a pointer reads the object there after the call, and meanwhile another thread may take the pointer out of the map. So each
 * thread that reads objects has a guard, and holds it from before a get until it has done with what it found, for as many calls as it
 * likes. A thread that has taken pointers out, by a change that removes or replaces them, notes which guards are held, and frees
 * the objects once all these are past. Held guards hold nobody up but who waits for them: the calls on the map go on. A guard begins as
 * {0}, and one thread at a time uses it. The guards of a map's readers stand in one array. Tested: an object that was freed so isn't
 * read any more. It is so since stores and loads of the map and of guards are sequentially consistent, and a get sees each change of a
 * call that ended before it began.
 */

/* A guard, as large as a line of the cache (64 bytes), so that the turns of two guards never stand on one line. */
typedef struct { uint64_t turn, apart[7]; } blink_guard;

/* Holds the guard, which is free. */
static inline void blink_guard_hold(blink_guard *guard) { __atomic_store_n(&guard->turn, guard->turn + 1, __ATOMIC_SEQ_CST); }

/* Lets go of the guard, which is held. */
static inline void blink_guard_release(blink_guard *guard) { __atomic_store_n(&guard->turn, guard->turn + 1, __ATOMIC_RELEASE); }

/* Notes which of the guards are held, once pointers have been taken out. `turns` has a place for each guard. */
static inline void blink_guards_note(const blink_guard *guards, size_t count, uint64_t *turns) {
    for (size_t place = 0; place < count; place++) turns[place] = __atomic_load_n(&guards[place].turn, __ATOMIC_SEQ_CST);
}

/* Whether each guard that was held when these turns were noted is past: it was let go then, also if it is held again. A thread that holds
 * one of them waits for itself in vain. */
static inline bool blink_guards_are_past(const blink_guard *guards, size_t count, const uint64_t *turns) {
    for (size_t place = 0; place < count; place++)
        if (turns[place] % 2 == 1 && __atomic_load_n(&guards[place].turn, __ATOMIC_ACQUIRE) == turns[place]) return false;
    return true;
}

#ifdef __cplusplus
}
#endif

#endif
