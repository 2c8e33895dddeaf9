// Calls every export: what it gives, each refusal by its code and its text, eight threads at one map and at one index, and memory that is refused at each request in turn. An argument leaves out what helgrind can't judge. Link with -Wl,--wrap=malloc,--wrap=realloc.
#include "blink.h"
#include <pthread.h>
#include <sched.h>
#include <stdio.h>
#include <stdlib.h>
#include <string.h>

#define CHECK(holds) ((holds) ? (void)0 : fail(#holds, __LINE__))

static void fail(const char *what, int line) {
    fprintf(stderr, "test.c:%d: not so: %s\n", line, what);
    exit(1);
}

// The request for memory that is refused, counted down to 0; negative for none.
static long refused_at = -1;

void *__real_malloc(size_t size);
void *__real_realloc(void *at, size_t size);
void *__wrap_malloc(size_t size) { return refused_at >= 0 && refused_at-- == 0 ? NULL : __real_malloc(size); }
void *__wrap_realloc(void *at, size_t size) { return refused_at >= 0 && refused_at-- == 0 ? NULL : __real_realloc(at, size); }

// Each code has a text of its own, and no other number has one.
static void tells_each_code(void) {
    static const int codes[] = {BLINK_DONE, BLINK_TOO_MANY, BLINK_WRONG_LENGTH, BLINK_UNKNOWN_OPERATION, BLINK_INDEX_TOO_LARGE,
                                BLINK_BAD_FAN, BLINK_NO_MEMORY, BLINK_NOT_ASCENDING, BLINK_SHARED, BLINK_PENDING,
                                BLINK_IDLE, BLINK_MAP_TOO_LARGE, BLINK_BAD_SESSIONS, BLINK_MAP_CLOSED,
                                BLINK_NO_SESSION, BLINK_FULL, BLINK_SESSION_MISSING, BLINK_ROWS_BUSY, BLINK_RENEWING};
    const char *unknown = blink_message(-1);
    size_t count = sizeof codes / sizeof codes[0], told = 0;
    for (int code = -1000; code <= 1000; code++) told += strcmp(blink_message(code), unknown) != 0;
    CHECK(told == count);
    for (size_t one = 0; one < count; one++) {
        CHECK(blink_message(codes[one])[0] != 0);
        for (size_t other = 0; other < one; other++) CHECK(strcmp(blink_message(codes[one]), blink_message(codes[other])) != 0);
    }
    CHECK(strcmp(blink_message(BLINK_NO_MEMORY), "out of memory") == 0);
}

static blink_index index_of(uint8_t fan, const blink_entry *entries, size_t count) {
    blink_index index = {NULL};
    CHECK(blink_index_from_entries(fan, entries, count, &index) == BLINK_DONE);
    return index;
}

static const blink_entry five[] = {{5, 50}, {1, 10}, {3, 30}, {2, 20}, {4, 40}, {3, 99}};

static void makes_an_index(void) {
    blink_index index = {NULL};
    for (unsigned fan = 0; fan < 256; fan++) {
        int code = blink_index_new((uint8_t)fan, &index);
        CHECK(code == (fan < 4 || fan > 32 ? BLINK_BAD_FAN : BLINK_DONE));
        if (code == BLINK_DONE) {
            CHECK(blink_index_fan(&index) == fan && blink_index_pages(&index) == 1 && blink_index_len(&index) == 0);
            blink_index_free(index);
        }
    }
    CHECK(blink_index_from_entries(33, five, 6, &index) == BLINK_BAD_FAN);
    // unsorted, and a key twice: the first entry stays
    index = index_of(4, five, 6);
    CHECK(blink_index_len(&index) == 5 && blink_index_pages(&index) == 3);
    const char *text = "1 3 - 18446744073709551615 - 3:1 18446744073709551615:2\n0 1 - 3 2 1:10 2:20 3:30\n"
                       "0 2 3 18446744073709551615 - 4:40 5:50\n";
    uint8_t dump[200];
    size_t bytes = 0;
    memset(dump, '.', sizeof dump);
    CHECK(blink_index_dump(&index, dump, strlen(text) - 1, &bytes) == BLINK_DONE);
    CHECK(bytes == strlen(text) && dump[0] == '.');
    CHECK(blink_index_dump(&index, dump, bytes, &bytes) == BLINK_DONE && memcmp(dump, text, bytes) == 0 && dump[bytes] == '.');
    blink_index copy = {NULL};
    CHECK(blink_index_copy(&index, &copy) == BLINK_DONE);
    blink_index_free(index);
    CHECK(blink_index_len(&copy) == 5);
    blink_index_free(copy);
}

// Ten entries in as few pages as they need: three leaves of fan 4, and the root. Seven of them are deleted, which leaves the pages as
// they are; then the other three are packed into one.
static void packs_an_index(void) {
    blink_entry ten[10];
    for (size_t place = 0; place < 10; place++) ten[place] = (blink_entry){place + 1, 10 * (place + 1)};
    blink_index index = {NULL};
    size_t bad_place = 77;
    CHECK(blink_index_from_sorted(3, ten, 10, &index, &bad_place) == BLINK_BAD_FAN && bad_place == 77);
    refused_at = 0;
    CHECK(blink_index_from_sorted(4, ten, 10, &index, &bad_place) == BLINK_NO_MEMORY && bad_place == 77);
    refused_at = -1;
    ten[6].key = ten[5].key;
    CHECK(blink_index_from_sorted(4, ten, 10, &index, &bad_place) == BLINK_NOT_ASCENDING && bad_place == 6);
    ten[6].key = 7;
    bad_place = 77;
    CHECK(blink_index_from_sorted(4, ten, 10, &index, &bad_place) == BLINK_DONE && bad_place == 77);
    CHECK(blink_index_fan(&index) == 4 && blink_index_len(&index) == 10 && blink_index_pages(&index) == 4);
    blink_answer answer = {9, 9};
    for (uint64_t key = 1; key <= 7; key++) {
        blink_index_remove(&index, key, &answer);
        CHECK(answer.kind == BLINK_REMOVED && answer.pointer == 10 * key);
    }
    CHECK(blink_index_len(&index) == 3 && blink_index_pages(&index) == 4);
    refused_at = 0;
    CHECK(blink_index_compact(&index) == BLINK_NO_MEMORY && blink_index_pages(&index) == 4);
    refused_at = -1;
    CHECK(blink_index_compact(&index) == BLINK_DONE && blink_index_len(&index) == 3 && blink_index_pages(&index) == 1);
    uint64_t pointer = 7;
    CHECK(blink_index_get(&index, 8, &pointer) && pointer == 80 && !blink_index_get(&index, 7, &pointer));
    blink_index_free(index);
}

static void looks_up(void) {
    blink_index index = index_of(4, five, 6);
    uint64_t pointer = 7;
    CHECK(!blink_index_get(&index, 6, &pointer) && pointer == 7);
    CHECK(blink_index_get(&index, 3, &pointer) && pointer == 30);
    uint64_t keys[] = {9, 5, 1};
    blink_answer answers[3] = {{8, 8}, {8, 8}, {8, 8}};
    CHECK(blink_index_get_many(&index, keys, 3, answers, 2) == BLINK_WRONG_LENGTH && answers[0].kind == 8);
    CHECK(blink_index_get_many(&index, keys, 3, answers, 3) == BLINK_DONE);
    CHECK(answers[0].kind == BLINK_ABSENT && answers[0].pointer == 0);
    CHECK(answers[1].kind == BLINK_FOUND && answers[1].pointer == 50 && answers[2].pointer == 10);
    blink_entry entries[8];
    blink_scanned it = {9, 9, 9};
    memset(entries, 0, sizeof entries);
    CHECK(blink_index_scan(&index, 2, 4, entries, 2, &it) == BLINK_DONE && it.filled == 2 && it.more == 1 && it.next == 4);
    CHECK(entries[0].key == 2 && entries[1].key == 3 && entries[1].pointer == 30 && entries[2].key == 0);
    CHECK(blink_index_scan(&index, 2, 3, entries, 2, &it) == BLINK_DONE && it.filled == 2 && it.more == 0 && it.next == 0);
    CHECK(blink_index_scan(&index, 0, UINT64_MAX, entries, 8, &it) == BLINK_DONE && it.filled == 5 && it.more == 0 && entries[4].pointer == 50);
    CHECK(blink_index_scan(&index, 4, 2, entries, 8, &it) == BLINK_DONE && it.filled == 0 && it.more == 0);
    CHECK(blink_index_scan(&index, 0, UINT64_MAX, entries, 0, &it) == BLINK_DONE && it.filled == 0 && it.more == 1 && it.next == 1);
    memset(entries, 0, sizeof entries);
    CHECK(blink_index_scan_back(&index, 2, 4, entries, 2, &it) == BLINK_DONE && it.filled == 2 && it.more == 1 && it.next == 2);
    CHECK(entries[0].key == 4 && entries[1].key == 3 && entries[1].pointer == 30 && entries[2].key == 0);
    CHECK(blink_index_scan_back(&index, 3, 4, entries, 2, &it) == BLINK_DONE && it.filled == 2 && it.more == 0 && it.next == 0);
    CHECK(blink_index_scan_back(&index, 4, 2, entries, 8, &it) == BLINK_DONE && it.filled == 0 && it.more == 0);
    CHECK(blink_index_count(&index, 2, 4) == 3 && blink_index_count(&index, 0, UINT64_MAX) == 5 && blink_index_count(&index, 4, 2) == 0);
    blink_index_free(index);
}

// All entries of a range come part by part, in both directions, however many places a part has.
static void scans_in_parts(void) {
    enum { MANY = 1000, FROM = 100, TO = 1900 };
    static blink_entry all[MANY], part[300];
    for (uint64_t i = 0; i < MANY; i++) all[i] = (blink_entry){2 * i, i};
    blink_index index = index_of(8, all, MANY);
    for (size_t places = 1; places <= 300; places += places < 20 ? 1 : 40) {
        uint64_t place = FROM / 2;
        for (blink_scanned it = {0, 1, FROM}; it.more;) {
            CHECK(blink_index_scan(&index, it.next, TO, part, places, &it) == BLINK_DONE && it.filled <= places);
            for (uint64_t i = 0; i < it.filled; i++) CHECK(part[i].key == 2 * place && part[i].pointer == place), place++;
            CHECK(it.more ? it.next == 2 * place && it.filled == places : it.next == 0);
        }
        CHECK(place == TO / 2 + 1);
        for (blink_scanned it = {0, 1, TO}; it.more;) {
            CHECK(blink_index_scan_back(&index, FROM, it.next, part, places, &it) == BLINK_DONE && it.filled <= places);
            for (uint64_t i = 0; i < it.filled; i++) place--, CHECK(part[i].key == 2 * place && part[i].pointer == place);
            CHECK(it.more ? it.next == 2 * place - 2 && it.filled == places : it.next == 0);
        }
        CHECK(place == FROM / 2);
    }
    CHECK(blink_index_count(&index, FROM, TO) == 901 && blink_index_count(&index, 0, UINT64_MAX) == MANY);
    blink_index_free(index);
}

static void changes_in_place(void) {
    blink_index index = index_of(4, five, 6);
    blink_answer answer = {9, 9};
    CHECK(blink_index_insert(&index, 6, 60, &answer) == BLINK_DONE && answer.kind == BLINK_INSERTED && answer.pointer == 0);
    CHECK(blink_index_insert(&index, 6, 61, &answer) == BLINK_DONE && answer.kind == BLINK_EXISTS && answer.pointer == 60);
    blink_index_replace(&index, 6, 62, &answer);
    CHECK(answer.kind == BLINK_REPLACED && answer.pointer == 60);
    blink_index_replace(&index, 9, 90, &answer);
    CHECK(answer.kind == BLINK_ABSENT && answer.pointer == 0);
    CHECK(blink_index_put(&index, 9, 90, &answer) == BLINK_DONE && answer.kind == BLINK_INSERTED && answer.pointer == 0);
    CHECK(blink_index_put(&index, 9, 91, &answer) == BLINK_DONE && answer.kind == BLINK_REPLACED && answer.pointer == 90);
    blink_index_compare_remove(&index, 9, 91, &answer);
    CHECK(answer.kind == BLINK_REMOVED && answer.pointer == 91);
    blink_index_compare_exchange(&index, 6, 62, 63, &answer);
    CHECK(answer.kind == BLINK_REPLACED && answer.pointer == 62);
    blink_index_compare_exchange(&index, 6, 62, 64, &answer);
    CHECK(answer.kind == BLINK_EXISTS && answer.pointer == 63);
    blink_index_compare_exchange(&index, 9, 90, 91, &answer);
    CHECK(answer.kind == BLINK_ABSENT && answer.pointer == 0);
    blink_index_compare_exchange(&index, 6, 63, 62, &answer);
    CHECK(answer.kind == BLINK_REPLACED && answer.pointer == 63);
    blink_index_compare_remove(&index, 1, 11, &answer);
    CHECK(answer.kind == BLINK_EXISTS && answer.pointer == 10);
    blink_index_compare_remove(&index, 9, 90, &answer);
    CHECK(answer.kind == BLINK_ABSENT && answer.pointer == 0);
    CHECK(blink_index_insert(&index, 8, 80, &answer) == BLINK_DONE && answer.kind == BLINK_INSERTED);
    blink_index_compare_remove(&index, 8, 80, &answer);
    CHECK(answer.kind == BLINK_REMOVED && answer.pointer == 80);
    blink_index_remove(&index, 1, &answer);
    CHECK(answer.kind == BLINK_REMOVED && answer.pointer == 10);
    blink_index_remove(&index, 1, &answer);
    CHECK(answer.kind == BLINK_ABSENT);
    blink_entry entry = {9, 9};
    CHECK(blink_index_first(&index, &entry) && entry.key == 2 && entry.pointer == 20);
    CHECK(blink_index_last(&index, &entry) && entry.key == 6 && entry.pointer == 62);
    CHECK(blink_index_next(&index, 3, &entry) && entry.key == 4 && entry.pointer == 40);
    CHECK(!blink_index_next(&index, 6, &entry) && entry.key == 4);
    CHECK(blink_index_prev(&index, 4, &entry) && entry.key == 3 && entry.pointer == 30);
    CHECK(!blink_index_prev(&index, 2, &entry) && entry.key == 3);
    CHECK(blink_index_at_least(&index, 4, &entry) && entry.key == 4);
    CHECK(!blink_index_at_least(&index, 7, &entry) && entry.key == 4);
    CHECK(blink_index_at_most(&index, UINT64_MAX, &entry) && entry.key == 6 && entry.pointer == 62);
    CHECK(!blink_index_at_most(&index, 1, &entry) && entry.key == 6);
    // the third operation is of no kind, so two are carried out
    blink_operation all[] = {{BLINK_INSERT, 7, 70}, {BLINK_GET, 7, 0}, {4, 0, 0}, {BLINK_REMOVE, 7, 0}};
    blink_answer given[4] = {{9, 9}, {9, 9}, {9, 9}, {9, 9}};
    size_t carried_out = 9;
    CHECK(blink_index_apply(&index, all, 4, given, 3, &carried_out) == BLINK_WRONG_LENGTH && carried_out == 0);
    CHECK(blink_index_apply(&index, all, 4, given, 4, &carried_out) == BLINK_UNKNOWN_OPERATION && carried_out == 2);
    CHECK(given[0].kind == BLINK_INSERTED && given[1].pointer == 70 && given[2].kind == 9 && given[3].kind == 9);
    CHECK(blink_index_apply(&index, all, 2, given, 2, &carried_out) == BLINK_DONE && carried_out == 2);
    CHECK(given[0].kind == BLINK_EXISTS && blink_index_len(&index) == 6);
    // from both ends: the keys are 2 to 7
    CHECK(blink_index_pop_first(&index, &entry) && entry.key == 2 && entry.pointer == 20);
    CHECK(blink_index_pop_last(&index, &entry) && entry.key == 7 && entry.pointer == 70);
    CHECK(blink_index_len(&index) == 4 && blink_index_first(&index, &entry) && entry.key == 3 && blink_index_last(&index, &entry) && entry.key == 6);
    for (uint64_t key = 3; key < 7; key++) CHECK(blink_index_pop_first(&index, &entry) && entry.key == key);
    CHECK(!blink_index_pop_first(&index, &entry) && !blink_index_pop_last(&index, &entry) && entry.key == 6 && blink_index_len(&index) == 0);
    blink_index_free(index);
    CHECK(blink_index_new(4, &index) == BLINK_DONE);
    CHECK(!blink_index_first(&index, &entry) && !blink_index_last(&index, &entry) && !blink_index_next(&index, 0, &entry));
    blink_index_free(index);
}

// Ascending insertions, each with memory refused first: it is asked for once at most, and then the index is as it was.
static void changes_nothing_without_memory(void) {
    static uint8_t before[20000], after[20000];
    size_t bytes_before = 0, bytes_after = 0;
    blink_index index = {NULL};
    CHECK(blink_index_new(4, &index) == BLINK_DONE);
    unsigned refused = 0;
    for (uint64_t key = 1; key <= 300; key++) {
        blink_answer answer = {9, 9};
        CHECK(blink_index_dump(&index, before, sizeof before, &bytes_before) == BLINK_DONE && bytes_before <= sizeof before);
        refused_at = 0;
        int code = blink_index_insert(&index, key, key, &answer);
        refused_at = -1;
        if (code == BLINK_DONE)
            continue;
        refused++;
        CHECK(code == BLINK_NO_MEMORY && answer.kind == 9);
        CHECK(blink_index_dump(&index, after, sizeof after, &bytes_after) == BLINK_DONE);
        CHECK(bytes_after == bytes_before && memcmp(before, after, bytes_before) == 0);
        refused_at = 0;
        CHECK(blink_index_put(&index, key, key, &answer) == BLINK_NO_MEMORY && answer.kind == 9);
        refused_at = 0;
        CHECK(blink_index_put(&index, key - 1, key - 1, &answer) == BLINK_DONE && answer.kind == BLINK_REPLACED && refused_at == 0);
        answer.kind = 9;
        refused_at = 1;
        CHECK(blink_index_insert(&index, key, key, &answer) == BLINK_DONE && answer.kind == BLINK_INSERTED);
        refused_at = -1;
    }
    CHECK(refused > 1 && blink_index_len(&index) == 300);
    blink_index_free(index);
}

static void runs_batches(void) {
    blink_index index = index_of(4, five, 6);
    blink_operation all[] = {{BLINK_INSERT, 7, 70}, {BLINK_INSERT, 7, 71}, {BLINK_GET, 7, 0},     {BLINK_REPLACE, 7, 72},
                             {BLINK_REMOVE, 7, 0},  {BLINK_REMOVE, 7, 0},  {BLINK_REPLACE, 7, 73}, {BLINK_GET, 5, 0}};
    blink_answer given[8] = {{9, 9}};
    CHECK(blink_index_run(&index, all, 8, given, 7) == BLINK_WRONG_LENGTH);
    all[7].kind = 4;
    CHECK(blink_index_run(&index, all, 8, given, 8) == BLINK_UNKNOWN_OPERATION && given[0].kind == 9);
    all[7].kind = BLINK_GET;
    static blink_operation many[BLINK_BATCH_LIMIT + 1];
    static blink_answer places[BLINK_BATCH_LIMIT + 1];
    CHECK(blink_index_run(&index, many, BLINK_BATCH_LIMIT + 1, places, BLINK_BATCH_LIMIT + 1) == BLINK_TOO_MANY);
    CHECK(blink_index_run(&index, many, BLINK_BATCH_LIMIT, places, BLINK_BATCH_LIMIT) == BLINK_DONE);
    CHECK(blink_index_run(&index, all, 8, given, 8) == BLINK_DONE);
    blink_answer expected[] = {{BLINK_INSERTED, 0}, {BLINK_EXISTS, 70}, {BLINK_FOUND, 70}, {BLINK_REPLACED, 70},
                               {BLINK_REMOVED, 72}, {BLINK_ABSENT, 0},  {BLINK_ABSENT, 0}, {BLINK_FOUND, 50}};
    CHECK(memcmp(given, expected, sizeof given) == 0);
    CHECK(blink_index_len(&index) == 5);
    blink_index_free(index);
}

enum { NONE = 100 }; // a pointer for the calls that take none

// An operation by a session, to its end.
static blink_answer changes(blink_session *session, uint64_t kind, uint64_t key, uint64_t pointer) {
    blink_answer answer = {9, 9};
    CHECK((kind == BLINK_GET     ? blink_session_get(session, key, &answer)
           : kind == BLINK_INSERT ? blink_session_insert(session, key, pointer, &answer)
           : kind == BLINK_REMOVE ? blink_session_remove(session, key, &answer)
                                  : blink_session_replace(session, key, pointer, &answer)) == BLINK_DONE);
    return answer;
}

static blink_answer puts_so(blink_session *session, uint64_t key, uint64_t pointer) {
    blink_answer answer = {9, 9};
    CHECK(blink_session_put(session, key, pointer, &answer) == BLINK_DONE);
    return answer;
}

static blink_answer exchanges(blink_session *session, uint64_t key, uint64_t expected, uint64_t pointer) {
    blink_answer answer = {9, 9};
    CHECK(blink_session_compare_exchange(session, key, expected, pointer, &answer) == BLINK_DONE);
    return answer;
}

static blink_answer removes(blink_session *session, uint64_t key, uint64_t expected) {
    blink_answer answer = {9, 9};
    CHECK(blink_session_compare_remove(session, key, expected, &answer) == BLINK_DONE);
    return answer;
}

static bool is(blink_answer answer, uint64_t kind, uint64_t pointer) { return answer.kind == kind && answer.pointer == pointer; }

// Takes the steps of the operation under way to its end.
static int finishes(blink_session *session, blink_answer *answer) {
    uint32_t pauses = 0;
    int code;
    while ((code = blink_session_advance(session, 1, answer)) == BLINK_PENDING) blink_pause(&pauses);
    return code;
}

static bool has(blink_session *session, blink_reserve expected) {
    blink_reserve it = {9, 9, 9, 9, 9};
    return blink_session_reserve_try(session, 1, &it) == BLINK_DONE && memcmp(&it, &expected, sizeof it) == 0;
}

static bool has_left(blink_map *map, uint64_t pages, uint64_t rows) {
    uint64_t pages_there = 9, rows_there = 9;
    return blink_map_room(map, 1, &pages_there, &rows_there) == BLINK_DONE && pages_there == pages && rows_there == rows;
}

static blink_map map_with_room(const blink_index *index, uint32_t pages, uint32_t rows, uint32_t sessions, bool fixed) {
    blink_map map = {NULL};
    CHECK(blink_map_open_with_room(index, pages, rows, sessions, fixed, &map) == BLINK_DONE);
    return map;
}

static blink_session session_of(blink_map *map) {
    blink_session session = {NULL};
    CHECK(blink_map_join(map, &session) == BLINK_DONE);
    return session;
}

// Closes the map, which is given up, and the index of so many entries stays.
static blink_index closed_with(blink_map map, size_t entries) {
    blink_index closed = {NULL};
    CHECK(blink_map_close(&map, &closed) == BLINK_DONE && blink_index_len(&closed) == entries);
    blink_map_free(map);
    return closed;
}

// Keys 1 to 5 map to 10 to 50. One session changes keys 2, 3, 6 and 7, and tells another; then both leave, and the map is closed.
static void changes_a_map(void) {
    blink_index index = index_of(4, five, 6), closed = {NULL};
    blink_map map = map_with_room(&index, 300, 600, 2, true);
    CHECK(has_left(&map, 300, 600));
    blink_session one = session_of(&map), other = session_of(&map);
    CHECK(is(changes(&one, BLINK_GET, 3, NONE), BLINK_FOUND, 30) && is(changes(&one, BLINK_GET, 6, NONE), BLINK_ABSENT, 0));
    CHECK(has(&one, (blink_reserve){0, 0, 0, 0, 0}));
    CHECK(is(changes(&one, BLINK_INSERT, 6, 60), BLINK_INSERTED, 0) && is(changes(&one, BLINK_INSERT, 6, 61), BLINK_EXISTS, 60));
    // of two sessions it has drawn 64 numbers, and a quarter of the pool's rows, and its insertion was appended to the leaf's row
    CHECK(has(&one, (blink_reserve){64, 150, 0, 0, 0}) && has_left(&map, 236, 450));
    CHECK(is(changes(&one, BLINK_REPLACE, 6, 62), BLINK_REPLACED, 60) && is(changes(&one, BLINK_REPLACE, 7, 70), BLINK_ABSENT, 0));
    CHECK(is(changes(&one, BLINK_REMOVE, 2, NONE), BLINK_REMOVED, 20) && is(changes(&one, BLINK_REMOVE, 2, NONE), BLINK_ABSENT, 0));
    CHECK(is(puts_so(&one, 7, 71), BLINK_INSERTED, 0) && is(puts_so(&one, 7, 72), BLINK_REPLACED, 71));
    CHECK(is(puts_so(&one, 3, 33), BLINK_REPLACED, 30) && is(changes(&one, BLINK_GET, 3, NONE), BLINK_FOUND, 33));
    CHECK(is(exchanges(&one, 7, 72, 73), BLINK_REPLACED, 72) && is(exchanges(&one, 7, 72, 74), BLINK_EXISTS, 73));
    CHECK(is(exchanges(&one, 7, 73, 72), BLINK_REPLACED, 73) && is(exchanges(&one, 9, 0, 90), BLINK_ABSENT, 0));
    CHECK(is(removes(&one, 4, 41), BLINK_EXISTS, 40) && is(removes(&one, 9, 90), BLINK_ABSENT, 0));
    CHECK(is(puts_so(&one, 8, 80), BLINK_INSERTED, 0) && is(removes(&one, 8, 80), BLINK_REMOVED, 80));
    CHECK(is(changes(&other, BLINK_GET, 7, NONE), BLINK_FOUND, 72) && is(changes(&other, BLINK_GET, 2, NONE), BLINK_ABSENT, 0));
    CHECK(is(changes(&other, BLINK_REMOVE, 6, NONE), BLINK_REMOVED, 62));
    // a snapshot that is refused memory, and a scan into no place, leave the session at rest: the map closes
    blink_entry range[2];
    blink_taken taken = {9, 9};
    blink_scanned scanned = {9, 9, 9};
    refused_at = 0;
    CHECK(blink_session_snapshot_try(&one, 0, 9, 1, range, 2, &taken) == BLINK_NO_MEMORY && taken.taken == 9);
    refused_at = -1;
    CHECK(blink_session_scan_try(&other, 0, 9, 1, range, 0, &scanned) == BLINK_DONE && scanned.filled == 0);
    blink_session_free(one), blink_session_free(other);
    CHECK(blink_map_close(&map, &closed) == BLINK_DONE);
    // a closed map has no session, no second handle, no room, no renewal and no second index
    blink_index again = {NULL};
    blink_map second = {NULL};
    uint64_t rows = 9, pages = 9, pointer;
    one.at = NULL;
    CHECK(blink_map_close(&map, &again) == BLINK_MAP_CLOSED && again.at == NULL);
    CHECK(blink_map_join(&map, &one) == BLINK_NO_SESSION && blink_map_share(&map, &second) == BLINK_MAP_CLOSED && second.at == NULL);
    CHECK(blink_map_room(&map, 1, &pages, &rows) == BLINK_MAP_CLOSED && rows == 9 && pages == 9);
    CHECK(blink_map_renew(&map, 1) == BLINK_MAP_CLOSED);
    blink_map_free(map);
    CHECK(blink_index_len(&closed) == 5 && blink_index_fan(&closed) == 4 && blink_index_len(&index) == 5);
    CHECK(blink_index_get(&closed, 3, &pointer) && pointer == 33 && blink_index_get(&closed, 7, &pointer) && pointer == 72);
    CHECK(blink_index_get(&closed, 5, &pointer) && pointer == 50 && !blink_index_get(&closed, 2, &pointer));
    blink_index_free(closed);
    blink_index_free(index);
}

// The room for 1,000 insertions, as it is worked out by hand; and 1,000 descending keys fit into it.
static void has_room_for_its_insertions(void) {
    blink_index index = index_of(4, five, 0);
    uint32_t pages = 0, rows = 0;
    // two insertions fill a half page of four again: 1 + 500 leaves, as many pages above them, 21, and 86 for each session
    blink_room_for(&index, 1000, 2, &pages, &rows);
    CHECK(pages == 1195 && rows == 2990);
    blink_room_for(&index, UINT32_MAX, 256, &pages, &rows);
    CHECK(pages == UINT32_MAX && rows == UINT32_MAX);
    blink_room_for(&index, 1000, 1, &pages, &rows);
    blink_map map = map_with_room(&index, pages, rows, 1, true);
    blink_session session = session_of(&map);
    for (uint64_t key = 1000; key > 0; key--) CHECK(is(changes(&session, BLINK_INSERT, key, key), BLINK_INSERTED, 0));
    blink_session_free(session);
    blink_index_free(closed_with(map, 1000));
    blink_index_free(index);
}

// A change that meets no other session ends at its first call: of 1,600,000 changes of one session none comes back pending. 200,000 puts
// among them insert, and as many replace.
static void changes_end_at_once(void) {
    blink_index index = index_of(4, five, 6);
    blink_map map = {NULL};
    uint64_t done = 0;
    CHECK(blink_map_open(&index, &map) == BLINK_DONE);
    blink_session one = session_of(&map);
    for (uint64_t turn = 0; turn < 200000; turn++) {
        blink_answer put = {9, 9}, again = {9, 9}, other = {9, 9}, gone = {9, 9}, back = {9, 9};
        blink_answer same = {9, 9}, new = {9, 9}, over = {9, 9};
        done += blink_session_replace_try(&one, 3, turn, 1, &put) == BLINK_DONE && put.kind == BLINK_REPLACED;
        done += blink_session_compare_exchange_try(&one, 3, turn, 30, 1, &again) == BLINK_DONE && is(again, BLINK_REPLACED, turn);
        done += blink_session_remove_try(&one, 5, 1, &gone) == BLINK_DONE && is(gone, BLINK_REMOVED, 50);
        done += blink_session_insert_try(&one, 5, 50, 1, &back) == BLINK_DONE && is(back, BLINK_INSERTED, 0);
        done += blink_session_compare_remove_try(&one, 5, 50, 1, &same) == BLINK_DONE && is(same, BLINK_REMOVED, 50);
        done += blink_session_put_try(&one, 5, turn, 1, &new) == BLINK_DONE && is(new, BLINK_INSERTED, 0);
        done += blink_session_put_try(&one, 5, 50, 1, &over) == BLINK_DONE && is(over, BLINK_REPLACED, turn);
        done += blink_session_compare_remove_try(&one, 5, turn + 51, 1, &other) == BLINK_DONE && is(other, BLINK_EXISTS, 50);
    }
    CHECK(done == 1600000);
    blink_session_free(one);
    blink_index_free(closed_with(map, 5));
    blink_index_free(index);
}

// Whether a map isn't opened with this room, whether it is fixed or not.
static bool refuses_room(const blink_index *index, uint32_t pages, uint32_t sessions, int code) {
    blink_map map = {NULL};
    return blink_map_open_with_room(index, pages, 44, sessions, false, &map) == code && map.at == NULL &&
           blink_map_open_with_room(index, pages, 44, sessions, true, &map) == code && map.at == NULL;
}

static void refuses_at_a_map(void) {
    blink_index index = index_of(4, five, 6), closed = {NULL};
    blink_session none = {NULL};
    blink_answer answer = {9, 9};
    // 3 pages and 1,048,572 numbers are as many as there may be; the sessions are looked at first
    CHECK(refuses_room(&index, 1048573, 0, BLINK_BAD_SESSIONS) && refuses_room(&index, 0, 257, BLINK_BAD_SESSIONS));
    CHECK(refuses_room(&index, 1048573, 256, BLINK_MAP_TOO_LARGE) && refuses_room(&index, 1048573, 1, BLINK_MAP_TOO_LARGE));
    blink_map map = map_with_room(&index, 22, 46, 2, true), other = map_with_room(&index, 0, 0, 256, true);
    blink_session one = session_of(&map), two = session_of(&map), foreign = session_of(&other);
    CHECK(blink_map_join(&map, &none) == BLINK_NO_SESSION && none.at == NULL);
    CHECK(blink_session_advance(&one, 1, &answer) == BLINK_IDLE && answer.kind == 9);
    // the first session draws 44 rows and all 22 numbers, so there are 2 rows for the second, and no number
    CHECK(is(changes(&one, BLINK_INSERT, 6, 60), BLINK_INSERTED, 0));
    CHECK(blink_session_insert_try(&two, 7, 70, 100, &answer) == BLINK_FULL && blink_session_put_try(&two, 7, 70, 100, &answer) == BLINK_FULL);
    CHECK(answer.kind == 9 && is(changes(&two, BLINK_GET, 3, NONE), BLINK_FOUND, 30));
    // a key that is there needs no room for an insertion
    CHECK(is(changes(&two, BLINK_INSERT, 3, 33), BLINK_EXISTS, 30) && is(puts_so(&two, 3, 33), BLINK_REPLACED, 30));
    CHECK(is(changes(&two, BLINK_REPLACE, 3, 31), BLINK_REPLACED, 33) && is(changes(&two, BLINK_REMOVE, 1, NONE), BLINK_REMOVED, 10));
    // a row that is written over comes back
    for (uint64_t pointer = 21; pointer < 1000; pointer++)
        CHECK(is(changes(&two, BLINK_REPLACE, 2, pointer), BLINK_REPLACED, pointer == 21 ? 20 : pointer - 1));
    CHECK(blink_session_remove_try(&foreign, 2, 100, &answer) == BLINK_FULL && blink_session_replace_try(&foreign, 2, 21, 100, &answer) == BLINK_FULL);
    CHECK(blink_session_compare_exchange_try(&foreign, 2, 20, 21, 100, &answer) == BLINK_FULL);
    CHECK(blink_session_compare_remove_try(&foreign, 2, 20, 100, &answer) == BLINK_FULL);
    CHECK(blink_session_remove(&foreign, 2, &answer) == BLINK_FULL && blink_session_put(&foreign, 2, 21, &answer) == BLINK_FULL);
    blink_entry it = {9, 9};
    bool found = true;
    CHECK(blink_session_pop_first(&foreign, &it, &found) == BLINK_FULL && blink_session_pop_last(&foreign, &it, &found) == BLINK_FULL);
    CHECK(it.key == 9 && it.pointer == 9 && found);
    CHECK(answer.kind == 9 && blink_map_renew(&other, 1) == BLINK_FULL);
    // the place of a session that is freed can be taken again, with what it has drawn
    blink_session_free(two);
    two = session_of(&map);
    CHECK(is(changes(&two, BLINK_REMOVE, 2, NONE), BLINK_REMOVED, 999));
    blink_session_free(two);
    // another handle of a map that isn't freed: the close is refused, and both handles stay
    blink_map again = {NULL};
    CHECK(blink_map_share(&map, &again) == BLINK_DONE);
    CHECK(blink_map_close(&map, &closed) == BLINK_SESSION_MISSING && closed.at == NULL);
    two = session_of(&again);
    CHECK(is(changes(&two, BLINK_GET, 6, NONE), BLINK_FOUND, 60));
    blink_session_free(two);
    blink_map_free(again);
    // a session that isn't freed: the close is refused, and succeeds once it is
    CHECK(blink_map_close(&map, &closed) == BLINK_SESSION_MISSING && closed.at == NULL);
    CHECK(is(changes(&one, BLINK_GET, 6, NONE), BLINK_FOUND, 60));
    blink_session_free(one);
    uint64_t pointer;
    closed = closed_with(map, 4);
    CHECK(blink_index_get(&closed, 6, &pointer) && pointer == 60);
    blink_index_free(closed);
    blink_map_free(other);
    CHECK(is(changes(&foreign, BLINK_GET, 2, NONE), BLINK_FOUND, 20));
    blink_session_free(foreign);
    blink_index_free(index);
}

// While a session is held, the map is neither renewed nor closed, and its calls go on. A session that tells another one, or is told, is held
// again afterwards.
static void holds_a_session(void) {
    blink_index index = index_of(4, five, 6), closed = {NULL};
    blink_map map = {NULL};
    uint64_t rows = 9, pages = 9;
    CHECK(blink_map_open(&index, &map) == BLINK_DONE);
    blink_session one = session_of(&map), other = session_of(&map);
    CHECK(blink_map_renew(&map, 1) == BLINK_DONE && blink_session_hold_try(&one, 1) == BLINK_DONE && blink_session_hold_try(&one, 1) == BLINK_DONE);
    CHECK(blink_map_renew(&map, 1) == BLINK_RENEWING && is(changes(&one, BLINK_GET, 3, NONE), BLINK_FOUND, 30));
    CHECK(is(puts_so(&one, 6, 60), BLINK_INSERTED, 0) && is(puts_so(&other, 7, 70), BLINK_INSERTED, 0));
    CHECK(blink_map_renew(&map, 1) == BLINK_RENEWING && blink_map_room(&map, 1, &pages, &rows) == BLINK_DONE && rows > 0 && pages > 0);
    blink_session_let_go(&one);
    CHECK(blink_map_renew(&map, 1) == BLINK_DONE && blink_session_hold(&other) == BLINK_DONE);
    CHECK(blink_map_renew(&map, 1) == BLINK_RENEWING && blink_map_close(&map, &closed) == BLINK_SESSION_MISSING);
    blink_session_let_go(&other), blink_session_let_go(&other);
    CHECK(blink_map_renew(&map, 1) == BLINK_DONE && is(changes(&one, BLINK_GET, 7, NONE), BLINK_FOUND, 70));
    // a session that is held may be freed
    CHECK(blink_session_hold_try(&one, 1) == BLINK_DONE);
    blink_session_free(one), blink_session_free(other);
    blink_index_free(closed_with(map, 7));
    // the room is looked up by a session that nobody holds
    map = map_with_room(&index, 300, 600, 1, true);
    one = session_of(&map);
    rows = pages = 9;
    CHECK(blink_session_hold_try(&one, 1) == BLINK_DONE && blink_map_room(&map, 1, &pages, &rows) == BLINK_RENEWING && rows == 9 && pages == 9);
    blink_session_let_go(&one);
    CHECK(has_left(&map, 300, 600));
    blink_session_free(one);
    blink_index_free(closed_with(map, 5));
    blink_index_free(index);
}

// The entries at the ends of a map and on each side of a key, how many there are, and what is taken from each end. A call that finds none
// leaves the entry as it was.
static void finds_what_is_near(void) {
    enum { MANY = 200 };
    blink_index index = index_of(4, five, 6);
    blink_map map = {NULL};
    blink_entry it = {9, 9};
    bool found = false;
    size_t count = 77;
    CHECK(blink_map_open(&index, &map) == BLINK_DONE);
    blink_session one = session_of(&map);
    CHECK(blink_session_first(&one, &it, &found) == BLINK_DONE && found && it.key == 1 && it.pointer == 10);
    CHECK(blink_session_last(&one, &it, &found) == BLINK_DONE && found && it.key == 5 && it.pointer == 50);
    CHECK(blink_session_next(&one, 2, &it, &found) == BLINK_DONE && found && it.key == 3 && it.pointer == 30);
    CHECK(blink_session_prev(&one, 2, &it, &found) == BLINK_DONE && found && it.key == 1 && it.pointer == 10);
    CHECK(blink_session_at_least(&one, 2, &it, &found) == BLINK_DONE && found && it.key == 2 && it.pointer == 20);
    CHECK(blink_session_at_most(&one, 9, &it, &found) == BLINK_DONE && found && it.key == 5 && it.pointer == 50);
    CHECK(blink_session_next(&one, 5, &it, &found) == BLINK_DONE && !found && it.key == 5);
    found = true;
    CHECK(blink_session_prev(&one, 1, &it, &found) == BLINK_DONE && !found && it.key == 5);
    found = true;
    CHECK(blink_session_at_least(&one, 6, &it, &found) == BLINK_DONE && !found && it.key == 5);
    found = true;
    CHECK(blink_session_at_most(&one, 0, &it, &found) == BLINK_DONE && !found && it.key == 5);
    // no key is above the greatest or below the least
    CHECK(is(changes(&one, BLINK_INSERT, UINT64_MAX, 7), BLINK_INSERTED, 0) && is(changes(&one, BLINK_INSERT, 0, 8), BLINK_INSERTED, 0));
    found = true;
    CHECK(blink_session_next(&one, UINT64_MAX, &it, &found) == BLINK_DONE && !found && it.key == 5);
    found = true;
    CHECK(blink_session_prev(&one, 0, &it, &found) == BLINK_DONE && !found && it.key == 5);
    CHECK(blink_session_next(&one, UINT64_MAX - 1, &it, &found) == BLINK_DONE && found && it.key == UINT64_MAX && it.pointer == 7);
    CHECK(blink_session_prev(&one, 1, &it, &found) == BLINK_DONE && found && it.key == 0 && it.pointer == 8);
    CHECK(blink_session_at_least(&one, UINT64_MAX, &it, &found) == BLINK_DONE && found && it.pointer == 7);
    CHECK(blink_session_at_most(&one, 0, &it, &found) == BLINK_DONE && found && it.pointer == 8);
    CHECK(blink_session_count(&one, 0, UINT64_MAX, &count) == BLINK_DONE && count == 7);
    CHECK(blink_session_count(&one, 2, 4, &count) == BLINK_DONE && count == 3);
    CHECK(blink_session_count(&one, 4, 2, &count) == BLINK_DONE && count == 0);
    CHECK(blink_session_pop_first(&one, &it, &found) == BLINK_DONE && found && it.key == 0 && it.pointer == 8);
    CHECK(blink_session_pop_last(&one, &it, &found) == BLINK_DONE && found && it.key == UINT64_MAX && it.pointer == 7);
    for (uint64_t key = 1; key < 6; key++) CHECK(blink_session_pop_first(&one, &it, &found) == BLINK_DONE && found && it.key == key);
    CHECK(blink_session_pop_first(&one, &it, &found) == BLINK_DONE && !found && it.key == 5);
    found = true;
    CHECK(blink_session_pop_last(&one, &it, &found) == BLINK_DONE && !found && it.key == 5);
    CHECK(blink_session_first(&one, &it, &found) == BLINK_DONE && !found && blink_session_last(&one, &it, &found) == BLINK_DONE && !found);
    CHECK(blink_session_count(&one, 0, UINT64_MAX, &count) == BLINK_DONE && count == 0);
    // a count reads 64 entries at a time
    for (uint64_t key = 0; key < MANY; key++) {
        CHECK(is(changes(&one, BLINK_INSERT, 3 * key, key), BLINK_INSERTED, 0));
        CHECK(blink_session_count(&one, 0, UINT64_MAX, &count) == BLINK_DONE && count == key + 1);
    }
    CHECK(blink_session_count(&one, 1, 3 * MANY - 4, &count) == BLINK_DONE && count == MANY - 2);
    blink_session_free(one);
    blink_index_free(closed_with(map, MANY));
    blink_index_free(index);
}

enum { POPPING = 4, POPPED = 8000 };
static unsigned char popped[POPPED];

// Takes entries from both ends by turns, until there is none.
static void *pops_by_turns(void *at) {
    blink_session *session = at;
    blink_entry it;
    bool found = true;
    for (int turn = 0; found; turn++) {
        CHECK((turn % 2 ? blink_session_pop_first(session, &it, &found) : blink_session_pop_last(session, &it, &found)) == BLINK_DONE);
        if (found) CHECK(it.pointer == it.key + 1 && __atomic_add_fetch(&popped[it.key], 1, __ATOMIC_RELAXED) == 1);
    }
    return NULL;
}

// Threads that pop at once: each entry is one thread's.
static void pops_by_threads(void) {
    static blink_entry entries[POPPED];
    for (uint64_t key = 0; key < POPPED; key++) entries[key] = (blink_entry){key, key + 1};
    blink_index index = index_of(32, entries, POPPED);
    blink_map map = {NULL};
    blink_session sessions[POPPING];
    pthread_t threads[POPPING];
    CHECK(blink_map_open(&index, &map) == BLINK_DONE);
    blink_index_free(index);
    for (int i = 0; i < POPPING; i++) sessions[i] = session_of(&map);
    for (int i = 0; i < POPPING; i++) CHECK(pthread_create(&threads[i], NULL, pops_by_turns, &sessions[i]) == 0);
    for (int i = 0; i < POPPING; i++) CHECK(pthread_join(threads[i], NULL) == 0);
    for (int i = 0; i < POPPING; i++) blink_session_free(sessions[i]);
    for (int key = 0; key < POPPED; key++) CHECK(popped[key] == 1);
    blink_index_free(closed_with(map, 0));
}

// A map has places for 256 sessions, and each of them can insert.
static void takes_each_place(void) {
    enum { PLACES = 256 };
    static blink_session sessions[PLACES + 1];
    blink_index index = index_of(4, five, 6);
    blink_map map = {NULL};
    CHECK(blink_map_open(&index, &map) == BLINK_DONE);
    for (int i = 0; i < PLACES; i++) sessions[i] = session_of(&map);
    CHECK(blink_map_join(&map, &sessions[PLACES]) == BLINK_NO_SESSION && sessions[PLACES].at == NULL);
    blink_session_free(sessions[7]);
    sessions[7] = session_of(&map);
    CHECK(blink_map_join(&map, &sessions[PLACES]) == BLINK_NO_SESSION);
    for (uint64_t i = 0; i < PLACES; i++) CHECK(is(changes(&sessions[i], BLINK_INSERT, 100 + i, i), BLINK_INSERTED, 0));
    for (int i = 0; i < PLACES; i++) blink_session_free(sessions[i]);
    blink_index_free(closed_with(map, 5 + PLACES));
    blink_index_free(index);
}

// A session that another thread uses to replace a key again and again, until it is told to stop.
typedef struct {
    blink_session *session;
    pthread_mutex_t lock;
    bool stops;
} replacer;

static void *replaces_five(void *at) {
    replacer *it = at;
    for (bool stops = false; !stops;) {
        for (int turn = 0; turn < 100; turn++) CHECK(is(changes(it->session, BLINK_REPLACE, 5, 50), BLINK_REPLACED, 50));
        pthread_mutex_lock(&it->lock);
        stops = it->stops;
        pthread_mutex_unlock(&it->lock);
    }
    return NULL;
}

// Puts an absent key, until a put comes back pending, since `other` has the page that it wants. Key 5 lies on this page. Nothing is under
// way by `other` then. No put without another thread's does so. Until then a put is made, or rows are on their way back, or it is refused
// with this code.
static void leaves_a_put_under_way(blink_session *one, blink_session *other, uint64_t key, uint64_t pointer, int refusal) {
    replacer it = {other, PTHREAD_MUTEX_INITIALIZER, false};
    pthread_t thread;
    blink_answer answer = {9, 9};
    int code = BLINK_DONE;
    CHECK(pthread_create(&thread, NULL, replaces_five, &it) == 0);
    for (long tries = 0; tries < 20000000 && code != BLINK_PENDING; tries++) {
        code = blink_session_put_try(one, key, pointer, 1, &answer);
        CHECK(code == BLINK_DONE || code == BLINK_PENDING || code == BLINK_ROWS_BUSY || code == refusal);
        if (code == BLINK_DONE) CHECK(is(answer, BLINK_INSERTED, 0) && is(changes(one, BLINK_REMOVE, key, NONE), BLINK_REMOVED, pointer));
    }
    pthread_mutex_lock(&it.lock);
    it.stops = true;
    pthread_mutex_unlock(&it.lock);
    CHECK(pthread_join(thread, NULL) == 0 && code == BLINK_PENDING);
}

// While a put is under way, nothing else can be done by its session, and the map isn't renewed.
static void refuses_under_way(bool fixed) {
    blink_index index = index_of(4, five, 6), closed = {NULL};
    blink_map map = map_with_room(&index, 300, 600, 2, fixed), apart = map_with_room(&index, 0, 0, 1, true);
    blink_session one = session_of(&map), other = session_of(&map), foreign = session_of(&apart);
    blink_answer answer = {9, 9};
    blink_entry range[2] = {{9, 9}, {9, 9}};
    blink_scanned scanned = {9, 9, 9};
    int unrenewed = fixed ? BLINK_FULL : BLINK_RENEWING;
    CHECK(blink_session_scan_back_try(&one, 0, 4, 1, range, 2, &scanned) == BLINK_DONE && scanned.filled == 2 && scanned.more == 1 && scanned.next == 2);
    CHECK(range[0].key == 4 && range[0].pointer == 40 && range[1].key == 3 && range[1].pointer == 30);
    CHECK(blink_session_scan_try(&one, 4, 9, 1, range, 2, &scanned) == BLINK_DONE && scanned.filled == 2 && scanned.more == 0);
    CHECK(range[0].key == 4 && range[0].pointer == 40 && range[1].key == 5 && range[1].pointer == 50);
    blink_taken snapshot = {9, 9};
    CHECK(blink_session_snapshot_try(&one, 5, 9, 1, range, 2, &snapshot) == BLINK_DONE && snapshot.taken == 1 && snapshot.there == 1);
    CHECK(range[0].key == 5 && range[0].pointer == 50 && range[1].key == 5);
    CHECK(blink_session_scan_try(&one, 4, 9, 1, range, 2, &scanned) == BLINK_DONE && scanned.filled == 2);
    leaves_a_put_under_way(&one, &other, 9, 99, unrenewed);
    CHECK(blink_session_snapshot_try(&one, 0, 9, 1, range, 2, &snapshot) == BLINK_PENDING && snapshot.there == 1);
    CHECK(blink_session_snapshot(&one, 0, 9, 1, range, 2, &snapshot) == BLINK_PENDING && snapshot.there == 1);
    CHECK(blink_session_scan_try(&one, 0, 9, 1, range, 2, &scanned) == BLINK_PENDING && range[0].key == 4 && scanned.filled == 2);
    CHECK(blink_session_scan(&one, 0, 9, range, 2, &scanned) == BLINK_PENDING && range[0].key == 4 && scanned.filled == 2);
    CHECK(blink_session_scan_back_try(&one, 0, 9, 1, range, 2, &scanned) == BLINK_PENDING && range[0].key == 4 && scanned.filled == 2);
    CHECK(blink_session_scan_back(&one, 0, 9, range, 2, &scanned) == BLINK_PENDING && range[0].key == 4 && scanned.filled == 2);
    CHECK(blink_session_get_try(&one, 3, 1, &answer) == BLINK_PENDING && blink_session_get(&one, 3, &answer) == BLINK_PENDING);
    CHECK(blink_session_insert_try(&one, 9, 90, 100, &answer) == BLINK_PENDING && blink_session_put_try(&one, 9, 90, 100, &answer) == BLINK_PENDING);
    CHECK(blink_session_remove_try(&one, 3, 100, &answer) == BLINK_PENDING && blink_session_replace_try(&one, 3, 34, 100, &answer) == BLINK_PENDING);
    CHECK(blink_session_compare_exchange_try(&one, 3, 30, 34, 100, &answer) == BLINK_PENDING);
    CHECK(blink_session_compare_remove_try(&one, 3, 30, 100, &answer) == BLINK_PENDING);
    CHECK(blink_session_insert(&one, 9, 90, &answer) == BLINK_PENDING && blink_session_put(&one, 9, 90, &answer) == BLINK_PENDING);
    CHECK(blink_session_remove(&one, 3, &answer) == BLINK_PENDING && blink_session_replace(&one, 3, 34, &answer) == BLINK_PENDING);
    CHECK(blink_session_compare_exchange(&one, 3, 30, 34, &answer) == BLINK_PENDING);
    CHECK(blink_session_compare_remove(&one, 3, 30, &answer) == BLINK_PENDING);
    blink_reserve stock = {9, 9, 9, 9, 9};
    CHECK(blink_session_reserve_try(&one, 1, &stock) == BLINK_PENDING && blink_session_reserve(&one, &stock) == BLINK_PENDING);
    CHECK(stock.pages == 9 && stock.waiting == 9);
    CHECK(blink_session_hold_try(&one, 1) == BLINK_PENDING && blink_session_hold(&one) == BLINK_PENDING);
    blink_entry it = {9, 9};
    bool found = true;
    size_t count = 77;
    CHECK(blink_session_first(&one, &it, &found) == BLINK_PENDING && blink_session_last(&one, &it, &found) == BLINK_PENDING);
    CHECK(blink_session_next(&one, 3, &it, &found) == BLINK_PENDING && blink_session_prev(&one, 3, &it, &found) == BLINK_PENDING);
    CHECK(blink_session_next(&one, UINT64_MAX, &it, &found) == BLINK_PENDING && blink_session_prev(&one, 0, &it, &found) == BLINK_PENDING);
    CHECK(blink_session_at_least(&one, 3, &it, &found) == BLINK_PENDING && blink_session_at_most(&one, 3, &it, &found) == BLINK_PENDING);
    CHECK(blink_session_pop_first(&one, &it, &found) == BLINK_PENDING && blink_session_pop_last(&one, &it, &found) == BLINK_PENDING);
    CHECK(blink_session_count(&one, 0, 9, &count) == BLINK_PENDING && count == 77 && it.key == 9 && it.pointer == 9 && found);
    CHECK(blink_map_renew(&map, 1) == unrenewed && blink_map_close(&map, &closed) == BLINK_SESSION_MISSING && closed.at == NULL);
    CHECK(answer.kind == 9 && is(changes(&other, BLINK_GET, 3, NONE), BLINK_FOUND, 30));
    CHECK(blink_session_advance(&one, 1, &answer) == BLINK_DONE && is(answer, BLINK_INSERTED, 0));
    CHECK(blink_session_advance(&one, 1, &answer) == BLINK_IDLE && is(changes(&one, BLINK_GET, 9, NONE), BLINK_FOUND, 99));
    CHECK(blink_map_renew(&map, 1) == (fixed ? BLINK_FULL : BLINK_DONE));
    // where another session inserts the key meanwhile, the put replaces it; where it removes it again, the put inserts
    leaves_a_put_under_way(&one, &other, 8, 80, unrenewed);
    CHECK(is(changes(&other, BLINK_INSERT, 8, 85), BLINK_INSERTED, 0));
    CHECK(finishes(&one, &answer) == BLINK_DONE && is(answer, BLINK_REPLACED, 85));
    CHECK(is(changes(&other, BLINK_REMOVE, 8, NONE), BLINK_REMOVED, 80));
    leaves_a_put_under_way(&one, &other, 8, 81, unrenewed);
    CHECK(is(changes(&other, BLINK_INSERT, 8, 85), BLINK_INSERTED, 0) && is(changes(&other, BLINK_REMOVE, 8, NONE), BLINK_REMOVED, 85));
    CHECK(finishes(&one, &answer) == BLINK_DONE && is(answer, BLINK_INSERTED, 0));
    CHECK(is(changes(&other, BLINK_GET, 8, NONE), BLINK_FOUND, 81));
    CHECK(finishes(&one, &answer) == BLINK_IDLE);
    // a session that is freed under way: the put is made, whichever half of it is under way, and its place can be taken again
    for (uint64_t turn = 0; turn < 20; turn++) {
        leaves_a_put_under_way(&one, &other, 7, 70 + turn, unrenewed);
        blink_session_free(one);
        one = session_of(&map);
        CHECK(is(changes(&one, BLINK_GET, 7, NONE), BLINK_FOUND, 70 + turn));
        CHECK(is(changes(&other, BLINK_REMOVE, 7, NONE), BLINK_REMOVED, 70 + turn));
    }
    // the same where another session has inserted the key meanwhile, so that the put's insertion gives way to a replacement
    leaves_a_put_under_way(&one, &other, 7, 70, unrenewed);
    CHECK(is(changes(&other, BLINK_INSERT, 7, 75), BLINK_INSERTED, 0));
    blink_session_free(one), blink_session_free(other), blink_session_free(foreign);
    blink_map_free(apart);
    uint64_t pointer;
    closed = closed_with(map, 8);
    CHECK(blink_index_get(&closed, 7, &pointer) && pointer == 70);
    CHECK(blink_index_get(&closed, 8, &pointer) && pointer == 81);
    blink_index_free(closed);
    blink_index_free(index);
}

// A put whose replacement is under way, and whose insertion finds no room then: it is refused as it goes on, and nothing is put. So it is
// where its session is freed.
static void refuses_the_other_half(void) {
    blink_index index = index_of(4, five, 6), closed;
    blink_map map = map_with_room(&index, 22, 46, 2, true);
    blink_session one = session_of(&map), two = session_of(&map);
    blink_answer answer = {9, 9};
    // the first session draws 44 rows and all 22 numbers, so there are 2 rows for the second, and no number
    CHECK(is(changes(&one, BLINK_INSERT, 6, 60), BLINK_INSERTED, 0));
    leaves_a_put_under_way(&two, &one, 9, 90, BLINK_FULL);
    CHECK(finishes(&two, &answer) == BLINK_FULL && answer.kind == 9);
    CHECK(blink_session_advance(&two, 1, &answer) == BLINK_IDLE && is(changes(&two, BLINK_GET, 9, NONE), BLINK_ABSENT, 0));
    leaves_a_put_under_way(&two, &one, 9, 90, BLINK_FULL);
    blink_session_free(two);
    CHECK(is(changes(&one, BLINK_INSERT, 5, 51), BLINK_EXISTS, 50));
    blink_session_free(one);
    uint64_t pointer;
    closed = closed_with(map, 6);
    CHECK(!blink_index_get(&closed, 9, &pointer));
    blink_index_free(closed);
    blink_index_free(index);
}

// A session lives on after its map, beside other maps.
static void outlives_its_map(void) {
    blink_index index = index_of(4, five, 6);
    blink_map map = map_with_room(&index, 0, 0, 2, true);
    blink_session session = session_of(&map);
    blink_map_free(map);
    for (int turn = 0; turn < 100; turn++) {
        map = map_with_room(&index, 0, 0, 2, turn % 2);
        blink_session other = session_of(&map);
        CHECK(is(changes(&session, BLINK_GET, 3, NONE), BLINK_FOUND, 30) && is(changes(&other, BLINK_GET, 3, NONE), BLINK_FOUND, 30));
        blink_session_free(other), blink_map_free(map);
    }
    blink_session_free(session);
    blink_index_free(index);
}

enum { SESSIONS = 8, TURNS = 4000, SHARED = 97 };

// What the threads of a map share: for each key how often it was inserted and wasn't deleted. Each has a handle of the map, and could
// join and leave without the lock; but helgrind knows locks, and not by what order a place is handed on.
static struct {
    blink_map maps[SESSIONS];
    pthread_mutex_t joins;
    long there[SHARED];
} room;

// Changes any key, and joins anew now and then. A pointer is its key, and in the upper half the thread that stored it.
static void *changes_any_key(void *at) {
    uint64_t self = (uint64_t)(uintptr_t)at, state = self;
    blink_map *map = &room.maps[self - 1];
    blink_session session = {NULL};
    blink_answer answer;
    for (uint64_t turn = 0; turn < TURNS; turn++) {
        if (turn % 500 == 0) {
            pthread_mutex_lock(&room.joins);
            if (turn) blink_session_free(session);
            session = session_of(map);
            pthread_mutex_unlock(&room.joins);
        }
        state = state * 6364136223846793005u + 1442695040888963407u;
        uint64_t key = (state >> 33) % SHARED, pointer = key | self << 32, kind = (state >> 20) % 5;
        if (kind < 4) answer = changes(&session, kind, key, pointer);
        else answer = puts_so(&session, key, pointer);
        CHECK(answer.pointer % (1ull << 32) == (answer.kind == BLINK_ABSENT || answer.kind == BLINK_INSERTED ? 0 : key));
        if (answer.kind == BLINK_INSERTED) __atomic_add_fetch(&room.there[key], 1, __ATOMIC_RELAXED);
        if (answer.kind == BLINK_REMOVED) __atomic_sub_fetch(&room.there[key], 1, __ATOMIC_RELAXED);
    }
    pthread_mutex_lock(&room.joins);
    blink_session_free(session);
    blink_map_free(*map);
    pthread_mutex_unlock(&room.joins);
    return NULL;
}

static void shares_a_map(void) {
    blink_index index = {NULL}, closed = {NULL};
    blink_map map = {NULL};
    pthread_t threads[SESSIONS];
    CHECK(blink_index_new(4, &index) == BLINK_DONE);
    CHECK(blink_map_open(&index, &map) == BLINK_DONE);
    pthread_mutex_init(&room.joins, NULL);
    for (uintptr_t i = 0; i < SESSIONS; i++) CHECK(blink_map_share(&map, &room.maps[i]) == BLINK_DONE);
    for (uintptr_t i = 0; i < SESSIONS; i++)
        CHECK(pthread_create(&threads[i], NULL, changes_any_key, (void *)(i + 1)) == 0);
    for (int i = 0; i < SESSIONS; i++) CHECK(pthread_join(threads[i], NULL) == 0);
    CHECK(blink_map_close(&map, &closed) == BLINK_DONE);
    blink_map_free(map);
    uint64_t pointer;
    for (uint64_t key = 0; key < SHARED; key++) {
        CHECK(room.there[key] == (blink_index_get(&closed, key, &pointer) ? 1 : 0));
        CHECK(room.there[key] == 0 || pointer % (1ull << 32) == key);
    }
    blink_index_free(closed);
    blink_index_free(index);
}

// Joins by the handle that all threads have, inserts a key of its own, and leaves, again and again.
static void *joins_again(void *at) {
    blink_map *map = at;
    for (int turn = 0; turn < 500; turn++) {
        blink_session session = session_of(map);
        blink_map again = {NULL};
        uint64_t rows = 0, pages = 0;
        int code = blink_map_room(map, BLINK_TRIES, &pages, &rows);
        CHECK((code == BLINK_DONE && rows <= 100000 && pages <= 3000) || (code == BLINK_RENEWING && rows == 0 && pages == 0));
        CHECK(blink_map_share(map, &again) == BLINK_DONE);
        blink_map_free(again);
        puts_so(&session, (uint64_t)turn, (uint64_t)turn);
        blink_session_free(session);
    }
    return NULL;
}

static void joins_at_once(void) {
    blink_index index = index_of(32, five, 0);
    blink_map map = map_with_room(&index, 3000, 100000, SESSIONS, true);
    pthread_t threads[SESSIONS];
    for (int i = 0; i < SESSIONS; i++) CHECK(pthread_create(&threads[i], NULL, joins_again, &map) == 0);
    for (int i = 0; i < SESSIONS; i++) CHECK(pthread_join(threads[i], NULL) == 0);
    blink_index_free(closed_with(map, 500));
    blink_index_free(index);
}

// A map with a room that is fixed or not. Its leaf has 4 entries, and there are rows for one split: the fifth insertion makes it.
static void opens_a_map_with_room(bool fixed) {
    blink_reserve reserve = {9, 9, 9, 9, 9};
    blink_index index = index_of(4, five, 0);
    blink_map map = map_with_room(&index, 200, 44, 1, fixed);
    blink_session session = session_of(&map), other = {NULL};
    blink_answer answer = {9, 9};
    CHECK(has(&session, (blink_reserve){0, 0, 0, 0, 0}) && has_left(&map, 200, 44));
    // a fixed map has the places of its room
    CHECK(blink_map_join(&map, &other) == (fixed ? BLINK_NO_SESSION : BLINK_DONE));
    for (uint64_t key = 1; key < 6; key++) CHECK(is(changes(&session, BLINK_INSERT, key, 10 * key), BLINK_INSERTED, 0));
    // it drew 64 page numbers, or 22 at least, and the 44 rows; the split and the new root took two numbers, and wrote three pages and the
    // prime block
    CHECK(blink_session_reserve(&session, &reserve) == BLINK_DONE && reserve.unwritten == 40);
    CHECK(fixed ? reserve.pages == 62 : reserve.pages >= 20 && reserve.pages <= 62);
    if (fixed) {
        CHECK(blink_session_insert(&session, 6, 60, &answer) == BLINK_FULL && answer.kind == 9);
    } else {
        // while another session is held, the map isn't renewed; while this one is, its change lets it go for that
        CHECK(blink_session_hold_try(&other, 1) == BLINK_DONE);
        CHECK(blink_session_insert_try(&session, 6, 60, 1, &answer) == BLINK_RENEWING && blink_session_put_try(&session, 6, 60, 1, &answer) == BLINK_RENEWING);
        CHECK(answer.kind == 9 && is(changes(&session, BLINK_GET, 6, NONE), BLINK_ABSENT, 0));
        blink_session_let_go(&other);
        CHECK(blink_session_hold_try(&session, 1) == BLINK_DONE && is(changes(&session, BLINK_INSERT, 6, 60), BLINK_INSERTED, 0));
        blink_session_let_go(&session);
        blink_session_free(other);
    }
    CHECK(is(changes(&session, BLINK_GET, 6, NONE), fixed ? BLINK_ABSENT : BLINK_FOUND, fixed ? 0 : 60));
    CHECK(blink_map_renew(&map, 1) == (fixed ? BLINK_FULL : BLINK_DONE));
    CHECK(is(changes(&session, BLINK_INSERT, 5, 51), BLINK_EXISTS, 50) && is(puts_so(&session, 5, 52), BLINK_REPLACED, 50));
    CHECK(is(changes(&session, BLINK_REMOVE, 1, NONE), BLINK_REMOVED, 10));
    CHECK(is(changes(&session, BLINK_GET, 5, NONE), BLINK_FOUND, 52) && is(changes(&session, BLINK_GET, 1, NONE), BLINK_ABSENT, 0));
    blink_session_free(session);
    blink_index_free(closed_with(map, fixed ? 4 : 5));
    blink_index_free(index);
}

static void *grows_from_nothing(void *at) {
    blink_map *map = at;
    blink_session session = session_of(map);
    uint64_t first = (uint64_t)(uintptr_t)session.at;
    for (uint64_t key = 0; key < 5000; key++) {
        puts_so(&session, key, first);
        CHECK(changes(&session, BLINK_GET, key, NONE).kind == BLINK_FOUND);
    }
    blink_session_free(session);
    blink_map_free(*map);
    return NULL;
}

// Two threads put each key into a map with room for one split, which has to be renewed often.
static void grows_by_threads(void) {
    blink_index index = index_of(4, five, 0);
    blink_map map = map_with_room(&index, 22, 44, 1, false), shares[2] = {{NULL}, {NULL}};
    pthread_t threads[2];
    blink_index_free(index);
    for (int it = 0; it < 2; it++) {
        CHECK(blink_map_share(&map, &shares[it]) == BLINK_DONE);
        CHECK(pthread_create(&threads[it], NULL, grows_from_nothing, &shares[it]) == 0);
    }
    for (int it = 0; it < 2; it++) CHECK(pthread_join(threads[it], NULL) == 0);
    blink_index_free(closed_with(map, 5000));
}

enum { READERS = 8, READ = 3000 };

// Reads all of a shared index: the keys 3, 6, 9 .. 9000, each with ten times itself.
static void *reads_all(void *at) {
    blink_reader *reader = at;
    blink_entry entry = {0, 0}, range[100];
    uint64_t pointer = 0, keys[] = {3, 4, 9000};
    blink_scanned it = {9, 9, 9};
    blink_answer answers[3];
    for (uint64_t key = 1; key <= 3 * READ; key++) {
        CHECK(blink_reader_get(reader, key, &pointer) == (key % 3 == 0));
        CHECK(pointer == 10 * (key - key % 3));
    }
    CHECK(blink_reader_get_many(reader, keys, 3, answers, 2) == BLINK_WRONG_LENGTH);
    CHECK(blink_reader_get_many(reader, keys, 3, answers, 3) == BLINK_DONE);
    CHECK(is(answers[0], BLINK_FOUND, 30) && is(answers[1], BLINK_ABSENT, 0) && is(answers[2], BLINK_FOUND, 90000));
    CHECK(blink_reader_first(reader, &entry) && entry.key == 3);
    for (uint64_t key = 6; key <= 3 * READ; key += 3)
        CHECK(blink_reader_next(reader, entry.key, &entry) && entry.key == key && entry.pointer == 10 * key);
    CHECK(!blink_reader_next(reader, entry.key, &entry) && entry.key == 3 * READ);
    CHECK(blink_reader_last(reader, &entry) && entry.key == 3 * READ && blink_reader_len(reader) == READ);
    CHECK(blink_reader_scan(reader, 10, 20, range, 2, &it) == BLINK_DONE && it.filled == 2 && it.more == 1 && it.next == 18);
    CHECK(range[0].key == 12 && range[1].pointer == 150 && blink_reader_count(reader, 10, 20) == 3);
    CHECK(blink_reader_scan(reader, 10, UINT64_MAX, range, 100, &it) == BLINK_DONE && it.filled == 100 && it.next == 312 && range[99].key == 309);
    CHECK(blink_reader_scan_back(reader, 10, 20, range, 2, &it) == BLINK_DONE && it.filled == 2 && it.more == 1 && it.next == 12);
    CHECK(range[0].key == 18 && range[1].pointer == 150);
    CHECK(blink_reader_scan_back(reader, 0, 310, range, 100, &it) == BLINK_DONE && it.filled == 100 && it.next == 9 && range[0].key == 309);
    CHECK(range[99].key == 12);
    CHECK(blink_reader_prev(reader, 12, &entry) && entry.key == 9 && blink_reader_at_most(reader, 14, &entry) && entry.key == 12);
    CHECK(blink_reader_at_least(reader, 13, &entry) && entry.key == 15 && !blink_reader_prev(reader, 3, &entry) && entry.key == 15);
    blink_reader_free(*reader);
    return NULL;
}

static void shares_an_index(void) {
    static blink_entry entries[READ];
    for (uint64_t place = 0; place < READ; place++) entries[place] = (blink_entry){3 * (place + 1), 30 * (place + 1)};
    blink_index index = {NULL};
    size_t bad_place = 0, bytes = 0;
    CHECK(blink_index_from_sorted(16, entries, READ, &index, &bad_place) == BLINK_DONE);
    uint32_t pages = blink_index_pages(&index);
    static uint8_t before[200000], after[200000];
    CHECK(blink_index_dump(&index, before, sizeof before, &bytes) == BLINK_DONE && bytes <= sizeof before);
    blink_reader reader = {NULL}, readers[READERS];
    CHECK(blink_index_share(&index, &reader) == BLINK_DONE && index.at == NULL);
    CHECK(blink_reader_pages(&reader) == pages && blink_reader_fan(&reader) == 16);
    for (int i = 0; i < READERS; i++) {
        readers[i].at = NULL;
        CHECK(blink_reader_join(i ? &readers[i - 1] : &reader, &readers[i]) == BLINK_DONE);
    }
    CHECK(blink_reader_unshare(&reader, &index) == BLINK_SHARED && index.at == NULL && reader.at != NULL);
    pthread_t threads[READERS];
    for (int i = 0; i < READERS; i++) CHECK(pthread_create(&threads[i], NULL, reads_all, &readers[i]) == 0);
    CHECK(blink_reader_len(&reader) == READ);
    for (int i = 0; i < READERS; i++) CHECK(pthread_join(threads[i], NULL) == 0);
    CHECK(blink_reader_dump(&reader, after, sizeof after, &bytes) == BLINK_DONE && memcmp(before, after, bytes) == 0);
    // the last reader: the index comes back without a request for memory, and can be changed and shared again
    refused_at = 0;
    CHECK(blink_reader_unshare(&reader, &index) == BLINK_DONE && reader.at == NULL && refused_at == 0);
    refused_at = -1;
    CHECK(blink_index_dump(&index, after, sizeof after, &bytes) == BLINK_DONE && memcmp(before, after, bytes) == 0);
    blink_answer answer;
    CHECK(blink_index_insert(&index, 4, 40, &answer) == BLINK_DONE && answer.kind == BLINK_INSERTED);
    CHECK(blink_index_share(&index, &reader) == BLINK_DONE && blink_reader_len(&reader) == READ + 1);
    uint64_t pointer = 0;
    CHECK(blink_reader_get(&reader, 4, &pointer) && pointer == 40);
    blink_reader_free(reader);
}

// Makes a call with each of its requests for memory refused in turn, until it is made. After each refusal `still` holds. Of the many requests
// for the places of 256 sessions, which are alike, every 31st is refused.
#define UNTIL_MADE(call, still)                                                             \
    for (long at = 0, code = BLINK_NO_MEMORY; code != BLINK_DONE; at += at < 60 ? 1 : 31) { \
        refused_at = at;                                                                    \
        code = call;                                                                        \
        refused_at = -1;                                                                    \
        CHECK(code == BLINK_DONE ? at > 0 : code == BLINK_NO_MEMORY && (still));            \
    }

// Each call of a map that takes memory. A refusal leaves the map as it was, so that the call can be made again.
static void needs_memory_for_a_map(bool fixed) {
    blink_index index = index_of(4, five, 6), closed = {NULL};
    blink_map map = {NULL}, other = {NULL};
    blink_session session = {NULL};
    blink_answer answer = {9, 9};
    blink_entry range[5];
    blink_taken taken = {9, 9};
    UNTIL_MADE(blink_map_open(&index, &other), other.at == NULL);
    blink_map_free(other);
    other.at = NULL;
    UNTIL_MADE(blink_map_open_with_room(&index, 22, 44, 1, fixed, &map), map.at == NULL);
    UNTIL_MADE(blink_map_share(&map, &other), other.at == NULL);
    blink_map_free(other);
    UNTIL_MADE(blink_map_join(&map, &session), session.at == NULL);
    UNTIL_MADE(blink_session_snapshot_try(&session, 0, 9, 1, range, 5, &taken), taken.taken == 9);
    CHECK(taken.taken == 1 && taken.there == 5 && range[4].pointer == 50);
    // key 8 splits the leaf of keys 4 to 7, which takes one of the 22 page numbers, so there is no room for key 9
    for (uint64_t key = 6; key < 9; key++) CHECK(is(changes(&session, BLINK_INSERT, key, 10 * key), BLINK_INSERTED, 0));
    if (fixed) {
        CHECK(blink_session_insert_try(&session, 9, 90, 1, &answer) == BLINK_FULL && blink_map_renew(&map, 1) == BLINK_FULL);
    } else {
        UNTIL_MADE(blink_session_insert_try(&session, 9, 90, 1, &answer), is(changes(&session, BLINK_GET, 9, NONE), BLINK_ABSENT, 0));
        UNTIL_MADE(blink_map_renew(&map, 1), is(changes(&session, BLINK_GET, 9, NONE), BLINK_FOUND, 90));
    }
    CHECK(is(changes(&session, BLINK_GET, 8, NONE), BLINK_FOUND, 80));
    blink_session_free(session);
    UNTIL_MADE(blink_map_close(&map, &closed), closed.at == NULL);
    CHECK(blink_index_len(&closed) == (fixed ? 8 : 9));
    blink_index_free(closed);
    blink_map_free(map);
    blink_index_free(index);
}

// One use of all that takes memory at readers: whether none was refused. A refusal leaves the index, or the reader, as it was.
static bool uses_readers(blink_index *index) {
    blink_reader reader = {NULL}, other = {NULL};
    size_t bytes = 0;
    uint8_t text[300];
    int code = blink_index_share(index, &reader);
    if (code != BLINK_DONE) return CHECK(code == BLINK_NO_MEMORY && reader.at == NULL && blink_index_len(index) == 6), false;
    bool dumped = (code = blink_reader_dump(&reader, text, sizeof text, &bytes)) == BLINK_DONE;
    CHECK(dumped || (code == BLINK_NO_MEMORY && bytes == 0));
    bool joined = (code = blink_reader_join(&reader, &other)) == BLINK_DONE;
    CHECK(joined || (code == BLINK_NO_MEMORY && other.at == NULL));
    if (joined) blink_reader_free(other);
    CHECK(blink_reader_unshare(&reader, index) == BLINK_DONE && blink_index_len(index) == 6);
    return dumped && joined;
}

// One use of everything else that takes memory, up to the first refusal: whether nothing was refused.
static bool uses_memory(void) {
    blink_index index = {NULL}, copy = {NULL};
    blink_operation operation = {BLINK_INSERT, 6, 60};
    blink_answer answer = {9, 9};
    uint8_t text[300];
    int code;
    size_t bytes;
    if ((code = blink_index_from_entries(4, five, 6, &index)) != BLINK_DONE) return CHECK(code == BLINK_NO_MEMORY), false;
    bool all = false;
    if ((code = blink_index_run(&index, &operation, 1, &answer, 1)) != BLINK_DONE)
        CHECK(code == BLINK_NO_MEMORY && answer.kind == 9 && blink_index_len(&index) == 5);
    else if ((code = blink_index_copy(&index, &copy)) != BLINK_DONE)
        CHECK(code == BLINK_NO_MEMORY);
    else if ((code = blink_index_dump(&copy, text, sizeof text, &bytes)) != BLINK_DONE)
        CHECK(code == BLINK_NO_MEMORY);
    else
        all = uses_readers(&copy);
    if (copy.at) blink_index_free(copy);
    blink_index_free(index);
    return all;
}

int main(int argc, char **argv) {
    (void)argv;
    tells_each_code();
    makes_an_index();
    packs_an_index();
    looks_up();
    scans_in_parts();
    changes_in_place();
    changes_nothing_without_memory();
    runs_batches();
    changes_a_map();
    has_room_for_its_insertions();
    changes_end_at_once();
    refuses_at_a_map();
    holds_a_session();
    finds_what_is_near();
    takes_each_place();
    refuses_under_way(true);
    refuses_under_way(false);
    refuses_the_other_half();
    outlives_its_map();
    shares_a_map();
    // by what order a place, or a session that a renewal takes, is handed on, helgrind doesn't know
    if (argc == 1) {
        joins_at_once();
        grows_by_threads();
        pops_by_threads();
    }
    opens_a_map_with_room(true);
    opens_a_map_with_room(false);
    shares_an_index();
    needs_memory_for_a_map(true);
    needs_memory_for_a_map(false);
    long requests = 0;
    do refused_at = requests++;
    while (!uses_memory());
    CHECK(requests > 20);
    refused_at = -1;
    puts("all as expected");
    return 0;
}
