/*
 * blink_tsan.h: what ThreadSanitizer has to be told of blink_bindings.h. blink.h includes this where that sanitizer is on.
 *
 * The library isn't compiled with the sanitizer. So it doesn't see that who gets a pointer from a map comes after who stored
 * it. The functions below tell it: they release a place of the pointer before the call that stores it, and acquire that place after a call
 * that gives it. There are 1,024 such places, by the pointer's bits; so in rare cases a race between two other records stays unseen. A call
 * by a pointer to a function is not told.
 */
#ifndef BLINK_TSAN_H
#define BLINK_TSAN_H

#include "blink.h"

#ifdef __cplusplus
extern "C" {
#endif

void __tsan_acquire(void *place);
void __tsan_release(void *place);

/* One array in a program, however many of its files include this. */
__attribute__((weak)) char blink_tsan_places[1024];

static inline char *blink_tsan_place(uint64_t pointer) { return &blink_tsan_places[pointer * 0x9E3779B97F4A7C15u >> 54]; }

static inline int blink_tsan_answered(int code, const blink_answer *answer) {
    if (code == BLINK_DONE) __tsan_acquire(blink_tsan_place(answer->pointer));
    return code;
}

static inline void blink_tsan_read(const blink_entry *entries, uint64_t count) {
    for (uint64_t i = 0; i < count; i++) __tsan_acquire(blink_tsan_place(entries[i].pointer));
}

/* A call that stores a pointer and answers; one that answers; and a scan. */
#define BLINK_TSAN_STORES(name, parameters, arguments)                                                                                     \
    static inline int blink_tsan_##name parameters {                                                                                       \
        __tsan_release(blink_tsan_place(pointer));                                                                                         \
        return blink_tsan_answered(blink_##name arguments, answer);                                                                        \
    }
#define BLINK_TSAN_ANSWERS(name, parameters, arguments)                                                                                    \
    static inline int blink_tsan_##name parameters { return blink_tsan_answered(blink_##name arguments, answer); }
#define BLINK_TSAN_SCANS(name)                                                                                                             \
    static inline int blink_tsan_##name(blink_session *it, uint64_t lo, uint64_t hi, uint32_t tries, blink_entry *entries, size_t places,  \
                                        blink_scanned *scanned) {                                                                          \
        int code = blink_##name(it, lo, hi, tries, entries, places, scanned);                                                              \
        if (code == BLINK_DONE) blink_tsan_read(entries, scanned->filled);                                                                 \
        return code;                                                                                                                       \
    }

BLINK_TSAN_STORES(session_insert_try, (blink_session *it, uint64_t key, uint64_t pointer, uint32_t tries, blink_answer *answer),
                  (it, key, pointer, tries, answer))
BLINK_TSAN_STORES(session_replace_try, (blink_session *it, uint64_t key, uint64_t pointer, uint32_t tries, blink_answer *answer),
                  (it, key, pointer, tries, answer))
BLINK_TSAN_STORES(session_put_try, (blink_session *it, uint64_t key, uint64_t pointer, uint32_t tries, blink_answer *answer),
                  (it, key, pointer, tries, answer))
BLINK_TSAN_STORES(session_compare_exchange_try,
                  (blink_session *it, uint64_t key, uint64_t expected, uint64_t pointer, uint32_t tries, blink_answer *answer),
                  (it, key, expected, pointer, tries, answer))
BLINK_TSAN_ANSWERS(session_remove_try, (blink_session *it, uint64_t key, uint32_t tries, blink_answer *answer), (it, key, tries, answer))
BLINK_TSAN_ANSWERS(session_compare_remove_try, (blink_session *it, uint64_t key, uint64_t expected, uint32_t tries, blink_answer *answer),
                   (it, key, expected, tries, answer))
BLINK_TSAN_ANSWERS(session_advance, (blink_session *it, uint32_t tries, blink_answer *answer), (it, tries, answer))
BLINK_TSAN_ANSWERS(session_get_try, (blink_session *it, uint64_t key, uint32_t tries, blink_answer *answer), (it, key, tries, answer))
BLINK_TSAN_SCANS(session_scan_try)
BLINK_TSAN_SCANS(session_scan_back_try)

static inline int blink_tsan_session_snapshot_try(blink_session *it, uint64_t lo, uint64_t hi, uint32_t tries, blink_entry *entries,
                                                  size_t places, blink_taken *taken) {
    int code = blink_session_snapshot_try(it, lo, hi, tries, entries, places, taken);
    if (code == BLINK_DONE) blink_tsan_read(entries, taken->there < places ? taken->there : places);
    return code;
}

#define blink_session_insert_try(...) blink_tsan_session_insert_try(__VA_ARGS__)
#define blink_session_replace_try(...) blink_tsan_session_replace_try(__VA_ARGS__)
#define blink_session_put_try(...) blink_tsan_session_put_try(__VA_ARGS__)
#define blink_session_compare_exchange_try(...) blink_tsan_session_compare_exchange_try(__VA_ARGS__)
#define blink_session_remove_try(...) blink_tsan_session_remove_try(__VA_ARGS__)
#define blink_session_compare_remove_try(...) blink_tsan_session_compare_remove_try(__VA_ARGS__)
#define blink_session_advance(...) blink_tsan_session_advance(__VA_ARGS__)
#define blink_session_get_try(...) blink_tsan_session_get_try(__VA_ARGS__)
#define blink_session_scan_try(...) blink_tsan_session_scan_try(__VA_ARGS__)
#define blink_session_scan_back_try(...) blink_tsan_session_scan_back_try(__VA_ARGS__)
#define blink_session_snapshot_try(...) blink_tsan_session_snapshot_try(__VA_ARGS__)

#ifdef __cplusplus
}
#endif

#endif
