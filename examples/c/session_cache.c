// A service keeps in one map which users are logged in, and since when each was idle. Eight threads serve requests of any user. A
// request of a user who isn't there logs in; one of a user who was idle for too long logs out first. Run: session_cache
#include "blink.h"
#include <pthread.h>
#include <stdio.h>
#include <stdlib.h>

enum { THREADS = 8, REQUESTS = 25000, USERS = 10000, IDLE = 60000 };

// What one thread has done, and its session.
struct worker {
    blink_session cache;
    uint64_t random, pages, logins, logouts, expiries;
};

// Counts the requests of all threads.
static uint64_t clock_of_requests;

static void expect(int code) {
    if (code != BLINK_DONE) exit(fprintf(stderr, "libblink: %s\n", blink_message(code)));
}

static bool removes(blink_session *cache, uint64_t user) {
    blink_answer answer;
    expect(blink_session_remove(cache, user, &answer));
    return answer.kind == BLINK_REMOVED;
}

// A user's request for a page, at this time. The user may be served by other threads too.
static void show_page(struct worker *self, uint64_t user, uint64_t now) {
    blink_answer there, answer;
    expect(blink_session_get(&self->cache, user, &there));
    // of two threads that find it run out one removes it
    if (there.kind == BLINK_FOUND && there.pointer + IDLE < now && removes(&self->cache, user)) self->expiries++;
    expect(blink_session_put(&self->cache, user, now, &answer));
    if (answer.kind == BLINK_INSERTED) self->logins++;
    self->pages++;
}

// Serves requests of any user, as they come.
static void *serve(void *at) {
    struct worker *self = at;
    for (int i = 0; i < REQUESTS; i++) {
        self->random = self->random * 6364136223846793005u + 1442695040888963407u;
        uint64_t user = (self->random >> 33) % USERS, now = __atomic_fetch_add(&clock_of_requests, 1, __ATOMIC_RELAXED);
        if ((self->random >> 20) % 20) show_page(self, user, now);
        else if (removes(&self->cache, user)) self->logouts++;
    }
    return NULL;
}

int main(void) {
    blink_index index = {NULL};
    blink_map map = {NULL};
    struct worker workers[THREADS] = {0};
    pthread_t threads[THREADS];
    expect(blink_index_new(32, &index));
    expect(blink_map_open(&index, &map));
    blink_index_free(index);
    for (int i = 0; i < THREADS; i++) {
        workers[i].random = (uint64_t)i + 1;
        expect(blink_map_join(&map, &workers[i].cache));
    }
    for (int i = 0; i < THREADS; i++) pthread_create(&threads[i], NULL, serve, &workers[i]);
    uint64_t pages = 0, logins = 0, logouts = 0, expiries = 0;
    for (int i = 0; i < THREADS; i++) {
        pthread_join(threads[i], NULL);
        blink_session_free(workers[i].cache);
        pages += workers[i].pages, logins += workers[i].logins;
        logouts += workers[i].logouts, expiries += workers[i].expiries;
    }
    index.at = NULL;
    expect(blink_map_close(&map, &index));
    blink_map_free(map);
    uint64_t left = blink_index_len(&index);
    blink_index_free(index);
    printf("%llu pages shown, %llu logins, %llu logouts, %llu expiries, %llu users at the end\n", (unsigned long long)pages,
           (unsigned long long)logins, (unsigned long long)logouts, (unsigned long long)expiries, (unsigned long long)left);
    if (logins != logouts + expiries + left) exit(fprintf(stderr, "a login was lost\n"));
    printf("%llu requests: each login has ended, or is in the cache\n", (unsigned long long)clock_of_requests);
}
