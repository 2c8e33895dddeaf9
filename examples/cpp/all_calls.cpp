// Uses each type of blink.hpp: an index, readers in two threads, and maps that eight threads change. Run: all_calls
#include <blink.hpp>
#include <cstdio>
#include <cstdlib>
#include <thread>

#define CHECK(holds) ((holds) ? (void)0 : fail(#holds, __LINE__))

static void fail(const char *what, int line) {
    std::fprintf(stderr, "all_calls.cpp:%d: not so: %s\n", line, what);
    std::exit(1);
}

// Whether the call throws this code.
template <class Call> static bool refused(int code, Call call) {
    try {
        call();
    } catch (const blink::Error &error) {
        return error.code() == code;
    }
    return false;
}

static bool is(const blink::Answer &answer, std::uint64_t kind, std::uint64_t pointer) {
    return answer.kind == kind && answer.pointer == pointer;
}

static void uses_an_index() {
    blink::Index index(4);
    CHECK(index.len() == 0 && index.pages() == 1 && index.fan() == 4 && !index.first() && !index.last());
    CHECK(is(index.insert(5, 50), BLINK_INSERTED, 0) && is(index.insert(5, 51), BLINK_EXISTS, 50));
    CHECK(is(index.replace(5, 52), BLINK_REPLACED, 50) && is(index.compare_exchange(5, 50, 53), BLINK_EXISTS, 52));
    CHECK(is(index.compare_exchange(5, 52, 53), BLINK_REPLACED, 52) && is(index.compare_remove(5, 52), BLINK_EXISTS, 53));
    CHECK(index.get(5) == 53u && !index.get(6) && is(index.remove(6), BLINK_ABSENT, 0));
    CHECK(!index.put(6, 60) && index.put(6, 61) == 60u && index.get(6) == 61u && is(index.remove(6), BLINK_REMOVED, 61));
    for (std::uint64_t key = 1000; key < 2000; key++) index.insert(key, key);
    CHECK(index.len() == 1001 && index.scan(1500, 1999).size() == 500 && index.scan(1, 4).empty());
    CHECK(index.page(1990, 100).size() == 10 && index.page(0, 2)[1].key == 1000 && index.page(0, 0).empty());
    CHECK(index.scan_back(1, 1001)[2].key == 5 && index.page_back(1999, 2)[1].key == 1998 && index.page_back(4, 9).empty());
    CHECK(index.count(1500, 1999) == 500 && index.count(6, 999) == 0 && index.page(0, 600)[599].key == 1598);
    CHECK(index.prev(1000)->key == 5 && !index.prev(5) && index.at_least(6)->key == 1000 && index.at_most(999)->pointer == 53);
    CHECK(index.first()->key == 5 && index.last()->pointer == 1999 && index.next(5)->key == 1000 && !index.next(1999));
    auto answers = index.get_many({5, 6});
    CHECK(is(answers[0], BLINK_FOUND, 53) && is(answers[1], BLINK_ABSENT, 0) && index.get_many({}).empty());
    blink::Index copy = index.copy();
    CHECK(is(index.compare_remove(5, 53), BLINK_REMOVED, 53) && copy.get(5) == 53u);
    std::uint32_t before = copy.pages();
    copy.compact();
    CHECK(copy.pages() < before && copy.len() == 1001);
    answers = copy.run({{BLINK_GET, 5, 0}, {BLINK_REMOVE, 5, 0}});
    CHECK(is(answers[0], BLINK_FOUND, 53) && is(answers[1], BLINK_REMOVED, 53) && !copy.get(5));
    auto [some, code] = copy.apply({{BLINK_INSERT, 1, 10}, {9, 2, 20}});
    CHECK(some.size() == 1 && is(some[0], BLINK_INSERTED, 0) && code == BLINK_UNKNOWN_OPERATION);
    CHECK(refused(BLINK_BAD_FAN, [] { blink::Index(33); }));
    CHECK(refused(BLINK_NOT_ASCENDING, [] { blink::Index::from_sorted(4, {{2, 0}, {1, 0}}); }));
    CHECK(blink::Index::from_entries(4, {{2, 20}, {1, 10}, {2, 21}}).get(2) == 20u);
    CHECK(blink::Index::from_entries(4, {{2, 20}}).dump() == "0 1 - 18446744073709551615 - 2:20\n");
    copy = std::move(index); // what copy had is freed with index
    CHECK(copy.len() == 1000 && copy.pop_first()->key == 1000 && copy.pop_last()->pointer == 1999 && copy.len() == 998);
    CHECK(!blink::Index().pop_first() && !blink::Index().pop_last());
}

static void shares_an_index() {
    blink::Reader reader = blink::Index::from_sorted(32, {{1, 10}, {2, 20}}).share();
    std::vector<std::thread> threads;
    for (int i = 0; i < 2; i++)
        threads.emplace_back([own = reader.join()]() mutable { CHECK(own.get(2) == 20u && own.len() == 2); });
    for (auto &thread : threads) thread.join();
    threads.clear();
    {
        blink::Reader other = reader.join();
        CHECK(refused(BLINK_SHARED, [&] { reader.unshare(); }) && reader.get(1) == 10u);
    }
    blink::Index index = reader.unshare();
    CHECK(is(index.insert(3, 30), BLINK_INSERTED, 0));
}

// Runs this in so many threads, each with a session of its own.
template <class Work> static void in_threads(blink::Map &map, int count, Work work) {
    std::vector<std::thread> threads;
    for (int i = 0; i < count; i++) threads.emplace_back([work, session = map.join()]() mutable { work(session); });
    for (auto &thread : threads) thread.join();
}

// Eight threads add to the same hundred keys, each three hundred times a key: no addition is lost. The map has room for all that is done.
static void shares_a_map() {
    enum { THREADS = 8, KEYS = 100, TURNS = 300 };
    blink::Index index(16);
    blink::Room room = blink::Room::for_insertions(index, KEYS + 2000, THREADS);
    CHECK(room.pages == 1009 && room.rows == 2 * room.pages + 300 * THREADS && room.sessions == THREADS);
    blink::Map map(index, room, true);
    CHECK(map.room().pages == room.pages && map.room().rows == room.rows);
    in_threads(map, THREADS, [](blink::Session &session) {
        for (std::uint64_t turn = 0; turn < TURNS * KEYS; turn++) {
            std::uint64_t key = turn % KEYS;
            for (auto there = session.get(key);;) {
                blink::Answer answer = there ? session.compare_exchange(key, *there, *there + 1) : session.insert(key, 1);
                if (answer.kind == BLINK_REPLACED || answer.kind == BLINK_INSERTED) break;
                there = answer.pointer;
            }
        }
    });
    blink::Session one = map.join(), other = map.join();
    CHECK(one.put(5, 7) == THREADS * TURNS && !one.put(KEYS, 8) && is(one.replace(KEYS, 9), BLINK_REPLACED, 8));
    CHECK(other.get(5) == 7u && is(other.compare_remove(KEYS, 8), BLINK_EXISTS, 9) && is(other.remove(KEYS), BLINK_REMOVED, 9));
    CHECK(other.scan(0, 1000).size() == KEYS && other.scan(6, 6)[0].pointer == THREADS * TURNS && other.scan(200, 300).empty());
    CHECK(other.scan_back(0, 1000).size() == KEYS && other.scan_back(0, 6)[0].key == 6 && other.scan_back(200, 300).empty());
    for (std::uint64_t key = 1000; key < 2000; key++) CHECK(one.insert(key, key).kind == BLINK_INSERTED);
    CHECK(other.scan_back(0, 5000).size() == KEYS + 1000 && other.scan_back(0, 5000)[999].key == 1000);
    CHECK(other.count(0, 5000) == KEYS + 1000 && other.count(6, 999) == KEYS - 6 && other.count(200, 300) == 0 && other.count(3, 2) == 0);
    CHECK(other.first()->key == 0 && other.last()->pointer == 1999 && other.next(KEYS - 1)->key == 1000 && !other.next(1999));
    CHECK(other.prev(1000)->key == KEYS - 1 && !other.prev(0) && other.at_least(KEYS)->key == 1000 && !other.at_least(2000));
    CHECK(other.at_most(999)->key == KEYS - 1 && other.at_most(0)->key == 0);
    CHECK(other.page(1000, 600).size() == 600 && other.page(1000, 600)[599].key == 1599 && other.page(0, 0).empty());
    CHECK(other.page_back(1001, 2)[1].key == 1000 && other.page_back(5000, 5000).size() == KEYS + 1000);
    CHECK(other.snapshot(0, 5000, 10)->size() == KEYS + 1000 && !other.snapshot(0, 1, 0) && other.scan(0, 5000).size() == KEYS + 1000);
    CHECK(one.reserve().pages > 0 && map.room().rows > 0);
    {
        blink::Map same = map.share();
        blink::Session third = same.join();
        CHECK(third.get(6) == THREADS * TURNS);
        CHECK(refused(BLINK_NO_SESSION, [&] {
            std::vector<blink::Session> more;
            for (int i = 0; i < THREADS; i++) more.push_back(same.join());
        }));
    }
    { blink::Session gone = std::move(one), gone_too = std::move(other); }
    blink::Index closed = map.close();
    CHECK(closed.len() == KEYS + 1000 && closed.get(5) == 7u && index.len() == 0);
    for (std::uint64_t key = 6; key < KEYS; key++) CHECK(closed.get(key) == THREADS * TURNS);
    CHECK(refused(BLINK_MAP_CLOSED, [&] { map.room(); }));
}

// Eight threads insert ten thousand keys together into a map that nobody told its room: no insertion is refused, and none is lost.
static void lets_a_map_grow() {
    enum { THREADS = 8, KEYS = 10000 };
    blink::Index index(16);
    index.insert(1000000, 1);
    blink::Map map(index);
    in_threads(map, THREADS, [](blink::Session &session) {
        for (std::uint64_t key = 0; key < KEYS; key++) {
            auto kind = session.insert(key, key).kind;
            CHECK(kind == BLINK_INSERTED || kind == BLINK_EXISTS);
        }
    });
    blink::Session one = map.join(), other = map.join();
    CHECK(other.scan(0, KEYS).size() == KEYS && other.get(1000000) == 1u && !other.get(KEYS) && other.scan(7, 7)[0].pointer == 7);
    CHECK(other.scan_back(0, 2000000)[1].key == KEYS - 1 && other.snapshot(1, KEYS, 10)->size() == KEYS - 1);
    CHECK(is(one.compare_exchange(5, 6, 8), BLINK_EXISTS, 5) && is(one.compare_exchange(5, 5, 8), BLINK_REPLACED, 5));
    CHECK(is(one.compare_remove(5, 7), BLINK_EXISTS, 8) && is(one.compare_remove(5, 8), BLINK_REMOVED, 8) && is(one.remove(6), BLINK_REMOVED, 6));
    {
        blink::Session::Hold held(one);
        CHECK(one.get(7) == 7u && is(one.insert(5, 50), BLINK_INSERTED, 0) && one.pop_last()->key == 1000000 && !one.put(1000000, 1) && refused(BLINK_RENEWING, [&] { map.renew(); }));
        CHECK(refused(BLINK_RENEWING, [&] { map.renew(1); }));
    }
    map.renew();
    CHECK(other.get(5) == 50u && refused(BLINK_SESSION_MISSING, [&] { map.close(); }));
    { blink::Session gone = std::move(one), gone_too = std::move(other); }
    blink::Index closed = map.close();
    CHECK(closed.len() == KEYS && closed.get(1000000) == 1u && !closed.get(6) && index.len() == 1);
    {
        blink::Map none;
        blink::Session session = none.join();
        CHECK(!session.first() && !session.last() && !session.pop_first() && !session.pop_last() && session.count(0, KEYS) == 0);
    }
    CHECK(blink::Map(4).close().fan() == 4 && refused(BLINK_BAD_FAN, [] { blink::Map(3); }));
}

// A room of its user's choice. The leaf has 4 entries, and there are rows for one split, which the fifth insertion makes.
static void chooses_the_room_of_a_map(bool fixed) {
    blink::Index index(4);
    blink::Map map(index, blink::Room{200, 44, 1}, fixed);
    {
        blink::Session session = map.join();
        CHECK(session.reserve().pages == 0 && map.room().pages == 200 && map.room().rows == 44);
        for (std::uint64_t key = 1; key < 6; key++) CHECK(is(session.insert(key, 10 * key), BLINK_INSERTED, 0));
        CHECK(session.reserve().pages > 0);
        CHECK(fixed == refused(BLINK_FULL, [&] { session.insert(6, 60); }) && session.get(6).has_value() != fixed);
        CHECK(fixed == refused(BLINK_FULL, [&] { map.renew(); }));
        CHECK(session.put(5, 51) == 50u && is(session.remove(1), BLINK_REMOVED, 10) && session.get(5) == 51u);
        blink::Session::Hold held(session);
        CHECK(fixed == refused(BLINK_NO_SESSION, [&] { map.join(); }) && fixed == refused(BLINK_RENEWING, [&] { map.room(); }));
    }
    {
        blink::Session session = map.join();
        auto first = session.pop_first(), last = session.pop_last();
        CHECK(first->key == 2 && first->pointer == 20 && last->key == (fixed ? 5 : 6) && last->pointer == (fixed ? 51 : 60));
    }
    CHECK(map.close().len() == (fixed ? 2u : 3u));
    CHECK(refused(BLINK_MAP_TOO_LARGE, [&] { blink::Map(index, blink::Room{1048575, 44, 1}, fixed); }));
    CHECK(refused(BLINK_BAD_SESSIONS, [&] { blink::Map(index, blink::Room{200, 44, 257}, fixed); }));
}

int main() {
    uses_an_index();
    shares_an_index();
    shares_a_map();
    lets_a_map_grow();
    chooses_the_room_of_a_map(false);
    chooses_the_room_of_a_map(true);
    std::puts("all calls are as expected");
}
