// A market keeps the newest offer of each article in one map. A pointer is the address of an offer, which eight threads write, put, find and
// read without a lock of their own: an offer is written before it is put, and isn't changed then. Run: records; with the word `planted` a thread changes what it has put, which is a race.
#include "blink.h"
#include <pthread.h>
#include <stdio.h>
#include <stdlib.h>
#include <string.h>

enum { THREADS = 8, ARTICLES = 300, TURNS = 4000, PART = 20 };

struct offer {
    uint64_t article, price, sum;
};

struct worker {
    blink_session market;
    uint64_t random, written, read, taken;
    struct offer offers[2 * TURNS]; // those that the thread has written
};

static struct worker workers[THREADS];
static bool planted;

static void expect(bool holds, const char *what) {
    if (!holds) exit(fprintf(stderr, "records: %s\n", what));
}

static uint64_t below(struct worker *self, uint64_t n) {
    self->random = self->random * 6364136223846793005u + 1442695040888963407u;
    return (self->random >> 33) % n;
}

// An offer's address is what is stored, so it is written in full by then.
static uint64_t offer_for(struct worker *self, uint64_t article) {
    struct offer *offer = &self->offers[self->written++];
    offer->article = article, offer->price = below(self, 1000), offer->sum = article + offer->price;
    return (uint64_t)(uintptr_t)offer;
}

static void reads(struct worker *self, uint64_t article, uint64_t pointer) {
    const struct offer *offer = (const struct offer *)(uintptr_t)pointer;
    expect(offer->article == article && offer->sum == article + offer->price, "an offer isn't whole");
    self->read++;
}

// Reads the offer that the answer of a change tells.
static void reads_answer(struct worker *self, uint64_t article, int code, blink_answer answer) {
    expect(code == BLINK_DONE, "a change is refused");
    if (answer.kind != BLINK_ABSENT && answer.kind != BLINK_INSERTED) reads(self, article, answer.pointer);
}

static void one_turn(struct worker *self) {
    blink_session *market = &self->market;
    uint64_t article = below(self, ARTICLES), pointer;
    blink_answer answer;
    int code;
    blink_entry part[PART];
    blink_scanned scanned;
    blink_taken taken;
    switch (below(self, 6)) {
    case 0:
        pointer = offer_for(self, article);
        code = blink_session_put(market, article, pointer, &answer);
        reads_answer(self, article, code, answer);
        if (planted) ((struct offer *)(uintptr_t)pointer)->price++, ((struct offer *)(uintptr_t)pointer)->sum++;
        break;
    case 1:
        code = blink_session_remove(market, article, &answer);
        reads_answer(self, article, code, answer);
        break;
    case 2:
        expect(blink_session_get(market, article, &answer) == BLINK_DONE, "a find is refused");
        if (answer.kind != BLINK_FOUND) break;
        reads(self, article, answer.pointer);
        // a better one, if nobody has put another since
        pointer = answer.pointer;
        code = blink_session_compare_exchange(market, article, pointer, offer_for(self, article), &answer);
        reads_answer(self, article, code, answer);
        break;
    case 3:
        expect(blink_session_scan(market, article, article + PART, part, PART, &scanned) == BLINK_DONE, "a scan is refused");
        for (uint64_t i = 0; i < scanned.filled; i++) reads(self, part[i].key, part[i].pointer);
        break;
    case 4:
        expect(blink_session_snapshot(market, article, article + 3, 5, part, PART, &taken) == BLINK_DONE, "a snapshot is refused");
        for (uint64_t i = 0; i < taken.there; i++) reads(self, part[i].key, part[i].pointer);
        self->taken += taken.taken;
        break;
    case 5:
        expect(blink_session_get(market, article, &answer) == BLINK_DONE, "a find is refused");
        if (answer.kind == BLINK_FOUND) reads(self, article, answer.pointer);
        break;
    }
}

static void *trades(void *at) {
    for (int turn = 0; turn < TURNS; turn++) one_turn(at);
    return NULL;
}

static void in_threads(void) {
    pthread_t threads[THREADS];
    for (int i = 0; i < THREADS; i++) expect(!pthread_create(&threads[i], NULL, trades, &workers[i]), "no thread");
    for (int i = 0; i < THREADS; i++) pthread_join(threads[i], NULL);
}

int main(int argc, char **argv) {
    planted = argc > 1 && !strcmp(argv[1], "planted");
    blink_index index = {NULL}, closed = {NULL};
    blink_map map = {NULL};
    uint64_t read = 0;
    expect(blink_index_new(8, &index) == BLINK_DONE, "no index");
    expect(blink_map_open(&index, &map) == BLINK_DONE, "no map");
    for (int i = 0; i < THREADS; i++) {
        workers[i].random = (uint64_t)i + 1;
        expect(blink_map_join(&map, &workers[i].market) == BLINK_DONE, "no session");
    }
    in_threads();
    for (int i = 0; i < THREADS; i++) {
        blink_session_free(workers[i].market);
        expect(workers[i].taken > 0, "no snapshot was taken");
    }
    expect(blink_map_close(&map, &closed) == BLINK_DONE, "the map can't be closed");
    blink_map_free(map);
    blink_entry entry = {0, 0};
    for (bool there = blink_index_first(&closed, &entry); there; there = blink_index_next(&closed, entry.key, &entry))
        reads(&workers[0], entry.key, entry.pointer);
    blink_index_free(closed);
    blink_index_free(index);
    for (int i = 0; i < THREADS; i++) read += workers[i].read;
    printf("%llu offers read\n", (unsigned long long)read);
    puts("each offer was whole");
}
