/*
 * blink_bindings.h: what bindings of other languages need, and what a C program seldom does. blink.h includes it, and says what the words
 * mean and what the caller keeps.
 *
 * The inline functions of blink.h are made of the first two groups below. A binding can't call inline functions, so it calls these.
 */
#include "blink.h" /* its types, where this is included first */
#ifndef BLINK_BINDINGS_H
#define BLINK_BINDINGS_H

#ifdef __cplusplus
extern "C" {
#endif

/* ---- Calls of sessions that wait for nobody. ----
 *
 * For a thread that mustn't wait. Each is the call of blink.h that has the name without _try, and takes `tries` beside. While the map is
 * renewed it looks for its session `tries` times, at least once, and is refused with BLINK_RENEWING if it doesn't find it. It is refused with
 * BLINK_PENDING if an operation of the session is under way. Then nothing changes.
 */

int blink_session_get_try(blink_session *session, uint64_t key, uint32_t tries, blink_answer *answer);
int blink_session_scan_try(blink_session *session, uint64_t lo, uint64_t hi, uint32_t tries, blink_entry *entries, size_t places,
                           blink_scanned *scanned);
int blink_session_scan_back_try(blink_session *session, uint64_t lo, uint64_t hi, uint32_t tries, blink_entry *entries, size_t places,
                                blink_scanned *scanned);
int blink_session_snapshot_try(blink_session *session, uint64_t lo, uint64_t hi, uint32_t tries, blink_entry *entries, size_t places,
                               blink_taken *taken);
int blink_session_hold_try(blink_session *session, uint32_t tries);
int blink_session_reserve_try(blink_session *session, uint32_t tries, blink_reserve *reserve);

/* The changes. They return BLINK_DONE and the answer once the operation has ended, and BLINK_PENDING if it hasn't: then it goes on by
 * blink_session_advance. Until it has ended the session can do nothing else, and is held. Tested: it is BLINK_PENDING after `tries` steps in
 * vain, since another session has the page that it wants. Refused, beside what the call of blink.h is refused with: BLINK_PENDING, if an
 * operation was under way before, and then nothing changes; BLINK_RENEWING, if the map is being renewed, or is full and can't be renewed,
 * since a session is held or in a call; BLINK_ROWS_BUSY, if rows of the session are on their way back. The operation isn't made then, and may
 * be begun again. */
int blink_session_insert_try(blink_session *session, uint64_t key, uint64_t pointer, uint32_t tries, blink_answer *answer);
int blink_session_replace_try(blink_session *session, uint64_t key, uint64_t pointer, uint32_t tries, blink_answer *answer);
int blink_session_compare_exchange_try(blink_session *session, uint64_t key, uint64_t expected, uint64_t pointer, uint32_t tries,
                                       blink_answer *answer);
int blink_session_remove_try(blink_session *session, uint64_t key, uint32_t tries, blink_answer *answer);
int blink_session_compare_remove_try(blink_session *session, uint64_t key, uint64_t expected, uint32_t tries, blink_answer *answer);

/* A put is a replacement, and where the key is absent an insertion. It begins anew where another session has inserted the key between, and
 * comes back with BLINK_PENDING then too. So it may also be refused when it goes on, and has made no change then. */
int blink_session_put_try(blink_session *session, uint64_t key, uint64_t pointer, uint32_t tries, blink_answer *answer);

/* Takes the next steps of the operation or the put that is under way. It returns BLINK_DONE and the answer once that has ended, and
 * BLINK_PENDING if it hasn't: then it holds no page, so that no other session waits for it, and the thread may do something else,
 * yield or wait as it likes, and calls again. Refused: BLINK_IDLE, if nothing is under way; and of a put as blink_session_put_try, which has
 * then ended without a change. */
int blink_session_advance(blink_session *session, uint32_t tries, blink_answer *answer);

/* Lets other threads run, between two tries of a call that waits. `*pauses` is 0 at the first try, and is counted. The first BLINK_YIELDS
 * calls yield (sched_yield). Each later one sleeps for some 50 microseconds. It is no cancellation point. */
void blink_pause(uint32_t *pauses);

/* ---- Calls of a map by one thread. ----
 *
 * Those of blink.h that have the name without _alone, where no other call uses the handle `map` at the same time.
 */

int blink_map_share_alone(blink_map *map, blink_map *out);
int blink_map_join_alone(blink_map *map, blink_session *out);
int blink_map_room_alone(blink_map *map, uint32_t looks, uint64_t *pages, uint64_t *rows);

/* ---- Several operations by one call. ----
 *
 * They spare a binding that many crossings. In C a loop costs no more.
 */

/* Looks keys up, and gives the answer of each at its place, BLINK_FOUND or BLINK_ABSENT. Refused: BLINK_WRONG_LENGTH, exactly if
 * there aren't as many places as keys. */
int blink_index_get_many(const blink_index *index, const uint64_t *keys, size_t count, blink_answer *answers, size_t places);
int blink_reader_get_many(const blink_reader *reader, const uint64_t *keys, size_t count, blink_answer *answers, size_t places);

/* Carries operations out in place, one after another, up to the first that is refused, and gives the answer of each at its place. It
 * stores how many were carried out. The other places stay as they were. Refused: BLINK_WRONG_LENGTH, if there aren't as many places
 * for answers as operations, and then none is carried out; or, of the operation next to those carried out,
 * BLINK_UNKNOWN_OPERATION, BLINK_INDEX_TOO_LARGE or BLINK_NO_MEMORY. After a removal it packs the index as blink_index_remove
 * does. */
int blink_index_apply(blink_index *index, const blink_operation *operations, size_t count, blink_answer *answers,
                      size_t places, size_t *carried_out);

/* ---- Looks at the tree of an index or a reader. ---- */

/* The greatest number of entries in a page. */
uint8_t blink_index_fan(const blink_index *index);
uint8_t blink_reader_fan(const blink_reader *reader);

/* The number of pages, as blink_index_pages tells it. */
uint32_t blink_reader_pages(const blink_reader *reader);

/* Gives the tree as text, a line a page, if all of it fits, and stores how many bytes it has; it ends without a zero byte.
 * docs/FORMATS.md has the format. Refused: BLINK_NO_MEMORY; then `text` and `bytes` are as they were. */
int blink_index_dump(const blink_index *index, uint8_t *text, size_t places, size_t *bytes);
int blink_reader_dump(const blink_reader *reader, uint8_t *text, size_t places, size_t *bytes);

#ifdef __cplusplus
}
#endif

#endif
