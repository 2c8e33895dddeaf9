// Counts the words of a file by two threads at one map, each those of half of the file. Run: word_count FILE
#include "blink.h"
#include <ctype.h>
#include <pthread.h>
#include <stdio.h>
#include <stdlib.h>

enum { THREADS = 2, MOST = 1 << 16 };

static uint64_t words[MOST]; // the hash of each word of the file, in order
static uint32_t count;

static void expect(int code) {
    if (code != BLINK_DONE) exit(fprintf(stderr, "libblink: %s\n", blink_message(code)));
}

// FNV-1a. Two words with one hash would be counted as one.
static uint64_t hashed(uint64_t hash, int letter) { return (hash ^ (uint64_t)tolower(letter)) * 1099511628211u; }

static void read_words(FILE *file) {
    const uint64_t none = 14695981039346656037u;
    uint64_t hash = none;
    for (int letter; (letter = getc(file)) != EOF && count < MOST;) {
        if (isalpha(letter)) hash = hashed(hash, letter);
        else if (hash != none) words[count++] = hash, hash = none;
    }
}

struct worker {
    blink_session session;
    uint32_t first, end; // its words
};

// A key is a word's hash, and its pointer the number of times that the word was met. The other thread may count the same word.
static void count_word(blink_session *session, uint64_t word) {
    blink_answer met, answer;
    expect(blink_session_get(session, word, &met));
    for (;;) {
        if (met.kind == BLINK_ABSENT) expect(blink_session_insert(session, word, 1, &answer));
        else expect(blink_session_compare_exchange(session, word, met.pointer, met.pointer + 1, &answer));
        if (answer.kind == BLINK_INSERTED || answer.kind == BLINK_REPLACED) return;
        met = answer;
    }
}

static void *count_part(void *at) {
    struct worker *self = at;
    for (uint32_t i = self->first; i < self->end; i++) count_word(&self->session, words[i]);
    return NULL;
}

int main(int argc, char **argv) {
    struct worker workers[THREADS];
    pthread_t threads[THREADS];
    uint64_t the = 0;
    FILE *file = fopen(argc > 1 ? argv[1] : "word_count.c", "r");
    if (file) read_words(file);
    blink_index index = {NULL}, counted = {NULL};
    blink_map map = {NULL};
    expect(blink_index_new(32, &index));
    expect(blink_map_open(&index, &map));
    blink_index_free(index);
    for (uint32_t t = 0; t < THREADS; t++) {
        workers[t] = (struct worker){{NULL}, count / THREADS * t, t + 1 < THREADS ? count / THREADS * (t + 1) : count};
        expect(blink_map_join(&map, &workers[t].session));
    }
    for (int t = 0; t < THREADS; t++) pthread_create(&threads[t], NULL, count_part, &workers[t]);
    for (int t = 0; t < THREADS; t++) {
        pthread_join(threads[t], NULL);
        blink_session_free(workers[t].session);
    }
    expect(blink_map_close(&map, &counted));
    blink_map_free(map);
    blink_index_get(&counted, hashed(hashed(hashed(14695981039346656037u, 't'), 'h'), 'e'), &the);
    printf("%u words, %zu different, \"the\" %llu times\n", count, blink_index_len(&counted), (unsigned long long)the);
    blink_index_free(counted);
}
