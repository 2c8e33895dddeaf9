// A map of pointers to objects on the heap, which eight threads read, put and remove. An object that a put or a removal has taken out is
// freed once no thread can read it any more. Run: object_cache; or, built with -DTOO_EARLY and -fsanitize=address, to see what becomes of
// one that is freed at once.
#include "blink.h"
#include <pthread.h>
#include <stdio.h>
#include <stdlib.h>

enum { THREADS = 8, TURNS = 50000, KEYS = 200, BATCH = 64 };

struct object {
    uint64_t made_by, key;
};

// What a thread has taken out of the map, with the guards' turns afterwards.
struct batch {
    struct object *objects[BATCH];
    size_t count;
    uint64_t turns[THREADS];
};

// A thread, with its session. It fills one batch while the other waits.
struct worker {
    blink_session session;
    blink_guard *guard;
    struct batch batches[2], *filling, *waiting;
    uint64_t random, reads, freed;
};

static blink_guard guards[THREADS];

static void expect(int code) {
    if (code != BLINK_DONE) exit(fprintf(stderr, "libblink: %s\n", blink_message(code)));
}

// Frees the batch that waits, once all threads that could read its objects have let go of their guards.
static void free_waiting(struct worker *self) {
    while (!blink_guards_are_past(guards, THREADS, self->waiting->turns)) sched_yield();
    for (size_t i = 0; i < self->waiting->count; i++) free(self->waiting->objects[i]);
    self->freed += self->waiting->count;
    self->waiting->count = 0;
}

// The batch that was filled waits from now on.
static void note(struct worker *self) {
    struct batch *filled = self->filling;
    free_waiting(self);
    self->filling = self->waiting;
    self->waiting = filled;
    blink_guards_note(guards, THREADS, filled->turns);
}

// The map has no longer this object.
static void retire(struct worker *self, uint64_t pointer) {
    self->filling->objects[self->filling->count++] = (struct object *)(uintptr_t)pointer;
#ifdef TOO_EARLY
    free(self->filling->objects[--self->filling->count]);
#endif
    if (self->filling->count == BATCH) note(self);
}

static void read_object(struct worker *self, uint64_t key) {
    blink_answer there;
    blink_guard_hold(self->guard);
    expect(blink_session_get(&self->session, key, &there));
    if (there.kind == BLINK_FOUND) {
        struct object *object = (struct object *)(uintptr_t)there.pointer;
        if (object->key != key) exit(fprintf(stderr, "another object\n"));
        self->reads++;
    }
    blink_guard_release(self->guard);
}

static void put_object(struct worker *self, uint64_t key) {
    struct object *object = malloc(sizeof *object);
    blink_answer answer;
    if (!object) exit(1);
    *object = (struct object){(uint64_t)(self->guard - guards), key};
    expect(blink_session_put(&self->session, key, (uintptr_t)object, &answer));
    if (answer.kind == BLINK_REPLACED) retire(self, answer.pointer);
}

static void remove_object(struct worker *self, uint64_t key) {
    blink_answer answer;
    expect(blink_session_remove(&self->session, key, &answer));
    if (answer.kind == BLINK_REMOVED) retire(self, answer.pointer);
}

static void *work(void *at) {
    struct worker *self = at;
    for (int i = 0; i < TURNS; i++) {
        self->random = self->random * 6364136223846793005u + 1442695040888963407u;
        uint64_t key = (self->random >> 33) % KEYS, what = (self->random >> 20) % 8;
        if (what < 5) read_object(self, key);
        else if (what < 7) put_object(self, key);
        else remove_object(self, key);
    }
    note(self);
    free_waiting(self);
    return NULL;
}

int main(void) {
    static struct worker workers[THREADS];
    pthread_t threads[THREADS];
    blink_index index = {NULL};
    blink_map map = {NULL};
    expect(blink_index_new(32, &index));
    expect(blink_map_open(&index, &map));
    blink_index_free(index);
    for (int i = 0; i < THREADS; i++) {
        struct worker *it = &workers[i];
        it->guard = &guards[i], it->random = (uint64_t)i + 1;
        it->filling = &it->batches[0], it->waiting = &it->batches[1];
        expect(blink_map_join(&map, &it->session));
    }
    for (int i = 0; i < THREADS; i++) pthread_create(&threads[i], NULL, work, &workers[i]);
    uint64_t reads = 0, freed = 0;
    for (int i = 0; i < THREADS; i++) {
        pthread_join(threads[i], NULL);
        blink_session_free(workers[i].session);
        reads += workers[i].reads, freed += workers[i].freed;
    }
    index.at = NULL;
    expect(blink_map_close(&map, &index));
    blink_map_free(map);
    blink_entry left = {0, 0};
    uint64_t stay = 0;
    for (bool more = blink_index_first(&index, &left); more; more = blink_index_next(&index, left.key, &left), stay++)
        free((struct object *)(uintptr_t)left.pointer);
    blink_index_free(index);
    printf("%llu reads, %llu objects freed meanwhile, %llu at the end\n", (unsigned long long)reads, (unsigned long long)freed,
           (unsigned long long)stay);
}
