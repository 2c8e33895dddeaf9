// Keys that aren't plain numbers: several rows with one value, and negative numbers and doubles in order. docs/KEYS.md says more of
// each, and what to do with keys that are wider than 64 bits. Run: keys
#include "blink.h"
#include <stdio.h>
#include <stdlib.h>

enum { ROWS = 5 };
static const uint32_t ages[ROWS] = {41, 30, 41, 9, 30};
static const int64_t balances[ROWS] = {-250, 1000, 0, 40, -3};
static const double scores[ROWS] = {0.5, -3.25, 12.0, -0.0, 1e-9};

static void expect(int code) {
    if (code != BLINK_DONE) exit(fprintf(stderr, "libblink: %s\n", blink_message(code)));
}

static void add(blink_index *index, uint64_t key, uint64_t row) {
    blink_answer answer;
    expect(blink_index_insert(index, key, row, &answer));
}

int main(void) {
    blink_index by_age = {NULL}, by_balance = {NULL}, by_score = {NULL};
    expect(blink_index_new(32, &by_age));
    expect(blink_index_new(32, &by_balance));
    expect(blink_index_new(32, &by_score));
    for (uint32_t row = 0; row < ROWS; row++) {
        // the key has the row too, so each row has a key of its own
        add(&by_age, blink_key_of_pair(ages[row], row), row);
        add(&by_balance, blink_key_of_int64(balances[row]), row);
        add(&by_score, blink_key_of_double(scores[row]), row);
    }
    blink_entry entries[ROWS];
    // there are as many places as rows, so one call gives all of a range
    blink_scanned it;
    blink_index_scan(&by_age, blink_key_of_pair(41, 0), blink_key_of_pair(41, UINT32_MAX), entries, ROWS, &it);
    printf("41 years old:");
    for (size_t i = 0; i < it.filled; i++) printf(" row %u", (unsigned)entries[i].pointer);
    blink_index_scan(&by_balance, 0, blink_key_of_int64(-1), entries, ROWS, &it);
    printf("\noverdrawn:");
    for (size_t i = 0; i < it.filled; i++) printf(" %lld", (long long)blink_int64_of_key(entries[i].key));
    blink_index_scan(&by_score, 0, UINT64_MAX, entries, ROWS, &it);
    printf("\nscores:");
    for (size_t i = 0; i < it.filled; i++) printf(" %g", blink_double_of_key(entries[i].key));
    printf("\n");
    blink_index_free(by_age);
    blink_index_free(by_balance);
    blink_index_free(by_score);
    return 0;
}
