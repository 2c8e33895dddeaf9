// blink.hpp: blink.h for C++17 and later. Each type has a handle, which it frees, and can be moved and not copied. What a call says of its
// results, and what it takes from its caller, blink.h says of the function that has the call's name, or blink_bindings.h.
//
// A refusal is thrown as blink::Error, with its code. A call of a session ends before it returns: it is a function of blink.h that
// waits. One call at a time uses an object, also to read, so no call is const; but several threads at once may call join, share
// and room of one Map, which wait for each other. An object that was moved from can be destroyed and assigned to, and nothing else; one that has
// closed or shared what it had is such an object too.
#ifndef BLINK_HPP
#define BLINK_HPP

#if __cplusplus < 201703L
#error "blink.hpp needs C++17 or later"
#endif

#include "blink.h"
#if BLINK_VERSION_MAJOR != 0
#error "blink.hpp is of version 0 and blink.h of another: take both from one release"
#endif
#include <algorithm>
#include <cstddef>
#include <cstdint>
#include <limits>
#include <optional>
#include <stdexcept>
#include <string>
#include <utility>
#include <vector>

namespace blink {

using Entry = blink_entry;
using Operation = blink_operation;
using Answer = blink_answer;
using Reserve = blink_reserve;
using Key = std::uint64_t;
using Pointer = std::uint64_t;

// Why a call was refused: one of the codes of blink.h.
class Error : public std::runtime_error {
public:
    explicit Error(int code) : std::runtime_error(blink_message(code)), code_(code) {}
    int code() const noexcept { return code_; }

private:
    int code_;
};

namespace detail {

inline void check(int code) {
    if (code != BLINK_DONE) throw Error(code);
}

// An array's place, which isn't NULL.
template <class T> T *place_of(std::vector<T> &array) {
    static T none;
    return array.empty() ? &none : array.data();
}
template <class T> const T *place_of(const std::vector<T> &array) { return place_of(const_cast<std::vector<T> &>(array)); }

// A handle, which is freed once.
template <class H, void (*Free)(H)> class Handle {
public:
    Handle() = default;
    Handle(Handle &&other) noexcept : it_(std::exchange(other.it_, H{nullptr})) {}
    Handle &operator=(Handle &&other) noexcept {
        std::swap(it_, other.it_);
        return *this;
    }
    ~Handle() {
        if (it_.at) Free(it_);
    }
    H *operator&() noexcept { return &it_; }
    H take() noexcept { return std::exchange(it_, H{nullptr}); }

private:
    H it_{nullptr};
};

inline std::optional<Pointer> pointer_of(const Answer &answer) {
    if (answer.kind == BLINK_ABSENT || answer.kind == BLINK_INSERTED) return std::nullopt;
    return answer.pointer;
}

// The first entries of a scan, part by part. It goes on from the key that a part tells: `next(key, places, size, end)` scans from there.
template <class Next> std::vector<Entry> parts(Key from, std::uint64_t most, Next next) {
    std::vector<Entry> entries, part(static_cast<std::size_t>(std::min<std::uint64_t>(most, 256)));
    for (blink_scanned end{0, 1, from}; end.more && entries.size() < most;) {
        std::size_t places = static_cast<std::size_t>(std::min<std::uint64_t>(most - entries.size(), part.size()));
        check(next(end.next, part.data(), places, &end));
        entries.insert(entries.end(), part.begin(), part.begin() + static_cast<std::ptrdiff_t>(end.filled));
    }
    return entries;
}

// The greatest key, and a number of entries that no range has.
constexpr std::uint64_t no_end = std::numeric_limits<std::uint64_t>::max();

// The first entries of a range, or the last, as many as `most` at most.
template <class H, class Scan> std::vector<Entry> scanned(H *handle, Scan scan, Key lo, Key hi, std::uint64_t most = no_end) {
    return parts(lo, most, [=](Key from, Entry *part, std::size_t places, blink_scanned *end) { return scan(handle, from, hi, part, places, end); });
}
template <class H, class Scan> std::vector<Entry> scanned_back(H *handle, Scan scan, Key lo, Key hi, std::uint64_t most = no_end) {
    return parts(hi, most, [=](Key from, Entry *part, std::size_t places, blink_scanned *end) { return scan(handle, lo, from, part, places, end); });
}

// All entries of a range at one time, or none where each try was in vain.
template <class H, class Snapshot>
std::optional<std::vector<Entry>> snapshot(H *handle, Snapshot snapshot, Key lo, Key hi, std::uint32_t tries) {
    std::vector<Entry> entries(256);
    for (;;) {
        blink_taken taken{0, 0};
        check(snapshot(handle, lo, hi, tries, place_of(entries), entries.size(), &taken));
        if (!taken.taken) return std::nullopt;
        bool fits = taken.there <= entries.size();
        entries.resize(taken.there);
        if (fits) return entries;
    }
}

// The calls of an index and of a reader that read.
template <class H> struct Calls;
template <> struct Calls<blink_index> {
    static constexpr auto get = blink_index_get;
    static constexpr auto get_many = blink_index_get_many;
    static constexpr auto scan = blink_index_scan;
    static constexpr auto scan_back = blink_index_scan_back;
    static constexpr auto count = blink_index_count;
    static constexpr auto first = blink_index_first;
    static constexpr auto last = blink_index_last;
    static constexpr auto next = blink_index_next;
    static constexpr auto prev = blink_index_prev;
    static constexpr auto at_least = blink_index_at_least;
    static constexpr auto at_most = blink_index_at_most;
    static constexpr auto len = blink_index_len;
    static constexpr auto pages = blink_index_pages;
    static constexpr auto fan = blink_index_fan;
    static constexpr auto dump = blink_index_dump;
    static constexpr auto free = blink_index_free;
};
template <> struct Calls<blink_reader> {
    static constexpr auto get = blink_reader_get;
    static constexpr auto get_many = blink_reader_get_many;
    static constexpr auto scan = blink_reader_scan;
    static constexpr auto scan_back = blink_reader_scan_back;
    static constexpr auto count = blink_reader_count;
    static constexpr auto first = blink_reader_first;
    static constexpr auto last = blink_reader_last;
    static constexpr auto next = blink_reader_next;
    static constexpr auto prev = blink_reader_prev;
    static constexpr auto at_least = blink_reader_at_least;
    static constexpr auto at_most = blink_reader_at_most;
    static constexpr auto len = blink_reader_len;
    static constexpr auto pages = blink_reader_pages;
    static constexpr auto fan = blink_reader_fan;
    static constexpr auto dump = blink_reader_dump;
    static constexpr auto free = blink_reader_free;
};

// What an index and a reader read.
template <class H> class Reads {
public:
    std::optional<Pointer> get(Key key) {
        Pointer pointer = 0;
        if (!Calls<H>::get(&handle_, key, &pointer)) return std::nullopt;
        return pointer;
    }
    std::vector<Answer> get_many(const std::vector<Key> &keys) {
        std::vector<Answer> answers(keys.size());
        check(Calls<H>::get_many(&handle_, place_of(keys), keys.size(), place_of(answers), answers.size()));
        return answers;
    }
    // The entries with keys from lo to hi, both included.
    std::vector<Entry> scan(Key lo, Key hi) { return scanned(handle(), Calls<H>::scan, lo, hi); }
    // The same from hi down to lo.
    std::vector<Entry> scan_back(Key lo, Key hi) { return scanned_back(handle(), Calls<H>::scan_back, lo, hi); }
    // The first n entries with keys from lo on, or all of these if they are fewer.
    std::vector<Entry> page(Key lo, std::uint64_t n) { return scanned(handle(), Calls<H>::scan, lo, no_end, n); }
    // The last n entries with keys up to hi, the greatest first, or all of these if they are fewer.
    std::vector<Entry> page_back(Key hi, std::uint64_t n) { return scanned_back(handle(), Calls<H>::scan_back, 0, hi, n); }
    // How many entries have keys from lo to hi, both included.
    std::size_t count(Key lo, Key hi) { return Calls<H>::count(&handle_, lo, hi); }
    std::optional<Entry> first() {
        Entry entry{0, 0};
        return Calls<H>::first(&handle_, &entry) ? std::optional(entry) : std::nullopt;
    }
    std::optional<Entry> last() {
        Entry entry{0, 0};
        return Calls<H>::last(&handle_, &entry) ? std::optional(entry) : std::nullopt;
    }
    // The entry with the least key above this one.
    std::optional<Entry> next(Key key) { return near(Calls<H>::next, key); }
    // The entry with the greatest key below this one.
    std::optional<Entry> prev(Key key) { return near(Calls<H>::prev, key); }
    // The entry with the least key from this one on.
    std::optional<Entry> at_least(Key key) { return near(Calls<H>::at_least, key); }
    // The entry with the greatest key up to this one.
    std::optional<Entry> at_most(Key key) { return near(Calls<H>::at_most, key); }
    std::size_t len() { return Calls<H>::len(&handle_); }
    std::uint32_t pages() { return Calls<H>::pages(&handle_); }
    unsigned fan() { return Calls<H>::fan(&handle_); }
    std::string dump() {
        std::vector<std::uint8_t> text;
        std::size_t bytes = 0;
        check(Calls<H>::dump(&handle_, place_of(text), 0, &bytes));
        text.resize(bytes);
        check(Calls<H>::dump(&handle_, place_of(text), text.size(), &bytes));
        return std::string(text.begin(), text.end());
    }
    H *handle() noexcept { return &handle_; }

protected:
    Handle<H, Calls<H>::free> handle_;

private:
    std::optional<Entry> near(bool (*call)(const H *, std::uint64_t, Entry *), Key key) {
        Entry entry{0, 0};
        return call(&handle_, key, &entry) ? std::optional(entry) : std::nullopt;
    }
};

} // namespace detail

class Reader;

// A map from keys to record pointers, for one thread at a time.
class Index : public detail::Reads<blink_index> {
public:
    explicit Index(std::uint8_t fan = 32) { detail::check(blink_index_new(fan, &handle_)); }
    // Of entries in any order; of two with one key the first stays.
    static Index from_entries(std::uint8_t fan, const std::vector<Entry> &entries) {
        Index index{Empty()};
        detail::check(blink_index_from_entries(fan, detail::place_of(entries), entries.size(), &index.handle_));
        return index;
    }
    // Of entries whose keys strictly ascend. Error BLINK_NOT_ASCENDING says no place; blink_index_from_sorted does.
    static Index from_sorted(std::uint8_t fan, const std::vector<Entry> &entries) {
        Index index{Empty()};
        std::size_t bad_place = 0;
        detail::check(blink_index_from_sorted(fan, detail::place_of(entries), entries.size(), &index.handle_, &bad_place));
        return index;
    }
    Index copy() {
        Index index{Empty()};
        detail::check(blink_index_copy(&handle_, &index.handle_));
        return index;
    }
    Answer insert(Key key, Pointer pointer) {
        Answer answer{0, 0};
        detail::check(blink_index_insert(&handle_, key, pointer, &answer));
        return answer;
    }
    // Maps the key to the pointer, and returns the one that was there.
    std::optional<Pointer> put(Key key, Pointer pointer) {
        Answer answer{0, 0};
        detail::check(blink_index_put(&handle_, key, pointer, &answer));
        return detail::pointer_of(answer);
    }
    Answer replace(Key key, Pointer pointer) {
        Answer answer{0, 0};
        blink_index_replace(&handle_, key, pointer, &answer);
        return answer;
    }
    Answer compare_exchange(Key key, Pointer expected, Pointer pointer) {
        Answer answer{0, 0};
        blink_index_compare_exchange(&handle_, key, expected, pointer, &answer);
        return answer;
    }
    Answer remove(Key key) {
        Answer answer{0, 0};
        blink_index_remove(&handle_, key, &answer);
        return answer;
    }
    Answer compare_remove(Key key, Pointer expected) {
        Answer answer{0, 0};
        blink_index_compare_remove(&handle_, key, expected, &answer);
        return answer;
    }
    // Takes the entry with the least key away, and returns it.
    std::optional<Entry> pop_first() {
        Entry entry{0, 0};
        return blink_index_pop_first(&handle_, &entry) ? std::optional(entry) : std::nullopt;
    }
    // The same of the entry with the greatest key.
    std::optional<Entry> pop_last() {
        Entry entry{0, 0};
        return blink_index_pop_last(&handle_, &entry) ? std::optional(entry) : std::nullopt;
    }
    // Runs operations on a copy, which then takes the index's place: all of them, or none.
    std::vector<Answer> run(const std::vector<Operation> &operations) {
        std::vector<Answer> answers(operations.size());
        detail::check(blink_index_run(&handle_, detail::place_of(operations), operations.size(), detail::place_of(answers), answers.size()));
        return answers;
    }
    // Carries operations out in place, up to the first that is refused: the answers of those carried out, and that one's code.
    std::pair<std::vector<Answer>, int> apply(const std::vector<Operation> &operations) {
        std::vector<Answer> answers(operations.size());
        std::size_t done = 0;
        int code = blink_index_apply(&handle_, detail::place_of(operations), operations.size(), detail::place_of(answers), answers.size(), &done);
        answers.resize(done);
        return {std::move(answers), code};
    }
    void compact() { detail::check(blink_index_compact(&handle_)); }
    // Makes it one that is only read. If that is refused it is as it was.
    Reader share();

private:
    friend class Reader;
    friend class Map;
    struct Empty {};
    explicit Index(Empty) {}
};

// Reads an index that other threads read at the same time, each by a reader of its own.
class Reader : public detail::Reads<blink_reader> {
public:
    Reader join() {
        Reader reader;
        detail::check(blink_reader_join(&handle_, &reader.handle_));
        return reader;
    }
    // Gives the index back. Error BLINK_SHARED leaves the reader as it was.
    Index unshare() {
        Index index{Index::Empty()};
        detail::check(blink_reader_unshare(&handle_, &index.handle_));
        return index;
    }

private:
    friend class Index;
    Reader() = default;
};

inline Reader Index::share() {
    Reader reader;
    detail::check(blink_index_share(&handle_, &reader.handle_));
    return reader;
}

// The right of one thread to read and change a map. Its calls wait while the map is renewed, and its changes renew it where it is full.
class Session {
public:
    // Holds a session as long as it lives, so that calls find no renewal: a few calls at most, since the map can't be renewed meanwhile.
    class Hold {
    public:
        explicit Hold(Session &session) : session_(&session) { detail::check(blink_session_hold(&session.handle_)); }
        Hold(const Hold &) = delete;
        Hold &operator=(const Hold &) = delete;
        ~Hold() { blink_session_let_go(&session_->handle_); }

    private:
        Session *session_;
    };
    std::optional<Pointer> get(Key key) {
        return detail::pointer_of(ended([=](auto *it, Answer *answer) { return blink_session_get(it, key, answer); }));
    }
    Answer insert(Key key, Pointer pointer) {
        return ended([=](auto *it, Answer *answer) { return blink_session_insert(it, key, pointer, answer); });
    }
    // Maps the key to the pointer, and returns the one that was there.
    std::optional<Pointer> put(Key key, Pointer pointer) {
        return detail::pointer_of(ended([=](auto *it, Answer *answer) { return blink_session_put(it, key, pointer, answer); }));
    }
    Answer replace(Key key, Pointer pointer) {
        return ended([=](auto *it, Answer *answer) { return blink_session_replace(it, key, pointer, answer); });
    }
    Answer compare_exchange(Key key, Pointer expected, Pointer pointer) {
        return ended([=](auto *it, Answer *answer) { return blink_session_compare_exchange(it, key, expected, pointer, answer); });
    }
    Answer remove(Key key) {
        return ended([=](auto *it, Answer *answer) { return blink_session_remove(it, key, answer); });
    }
    Answer compare_remove(Key key, Pointer expected) {
        return ended([=](auto *it, Answer *answer) { return blink_session_compare_remove(it, key, expected, answer); });
    }
    std::vector<Entry> scan(Key lo, Key hi) {
        return detail::scanned(&handle_, [](auto... all) { return blink_session_scan(all...); }, lo, hi);
    }
    // The same from the greatest key down.
    std::vector<Entry> scan_back(Key lo, Key hi) {
        return detail::scanned_back(&handle_, [](auto... all) { return blink_session_scan_back(all...); }, lo, hi);
    }
    // The first n entries with keys from lo on, or all of these if they are fewer. No others are read.
    std::vector<Entry> page(Key lo, std::uint64_t n) {
        return detail::scanned(&handle_, [](auto... all) { return blink_session_scan(all...); }, lo, detail::no_end, n);
    }
    // The last n entries with keys up to hi, the greatest first, in the same way.
    std::vector<Entry> page_back(Key hi, std::uint64_t n) {
        return detail::scanned_back(&handle_, [](auto... all) { return blink_session_scan_back(all...); }, 0, hi, n);
    }
    // How many entries a scan of the keys from lo to hi, both included, reports.
    std::size_t count(Key lo, Key hi) {
        std::size_t count = 0;
        detail::check(blink_session_count(&handle_, lo, hi, &count));
        return count;
    }
    std::optional<Entry> first() {
        return near([](auto... all) { return blink_session_first(all...); });
    }
    std::optional<Entry> last() {
        return near([](auto... all) { return blink_session_last(all...); });
    }
    // The entry with the least key above this one.
    std::optional<Entry> next(Key key) {
        return near([=](auto *it, auto... found) { return blink_session_next(it, key, found...); });
    }
    // The entry with the greatest key below this one.
    std::optional<Entry> prev(Key key) {
        return near([=](auto *it, auto... found) { return blink_session_prev(it, key, found...); });
    }
    // The entry with the least key from this one on.
    std::optional<Entry> at_least(Key key) {
        return near([=](auto *it, auto... found) { return blink_session_at_least(it, key, found...); });
    }
    // The entry with the greatest key up to this one.
    std::optional<Entry> at_most(Key key) {
        return near([=](auto *it, auto... found) { return blink_session_at_most(it, key, found...); });
    }
    // Takes the entry with the least key away, and returns it.
    std::optional<Entry> pop_first() {
        return near([](auto... all) { return blink_session_pop_first(all...); });
    }
    // The same of the entry with the greatest key.
    std::optional<Entry> pop_last() {
        return near([](auto... all) { return blink_session_pop_last(all...); });
    }
    std::optional<std::vector<Entry>> snapshot(Key lo, Key hi, std::uint32_t tries) {
        return detail::snapshot(&handle_, [](auto... all) { return blink_session_snapshot(all...); }, lo, hi, tries);
    }
    Reserve reserve() {
        Reserve reserve{0, 0, 0, 0, 0};
        detail::check(blink_session_reserve(&handle_, &reserve));
        return reserve;
    }
    blink_session *handle() noexcept { return &handle_; }

private:
    friend class Map;
    Session() = default;
    template <class Call> Answer ended(Call call) {
        Answer answer{0, 0};
        detail::check(call(&handle_, &answer));
        return answer;
    }
    // The entry that a call finds, if it finds one.
    template <class Call> std::optional<Entry> near(Call call) {
        Entry entry{0, 0};
        bool found = false;
        detail::check(call(&handle_, &entry, &found));
        return found ? std::optional(entry) : std::nullopt;
    }
    detail::Handle<blink_session, blink_session_free> handle_;
};

// What a map has beside its entries, for its first changes, and the sessions that are to make them; and what its pool has left of it.
struct Room {
    std::uint32_t pages, rows, sessions;
    // A room over this index that is enough for so many insertions of absent keys by so many sessions: what blink_room_for says.
    static Room for_insertions(Index &index, std::uint32_t insertions, std::uint32_t sessions) {
        Room room{0, 0, sessions};
        blink_room_for(index.handle(), insertions, sessions, &room.pages, &room.rows);
        return room;
    }
};
struct Left {
    std::uint64_t pages, rows;
};

// Entries that threads change together at any key, each by a session. Where the map is full it goes on in a larger one.
class Map {
public:
    // Without an entry.
    explicit Map(std::uint8_t fan = 32) {
        Index none(fan);
        detail::check(blink_map_open(&none.handle_, &handle_));
    }
    explicit Map(Index &index) { detail::check(blink_map_open(&index.handle_, &handle_)); }
    // Has this room for its first changes. If that is fixed, the map is never renewed, so no call waits for a copy, and a change that finds
    // it full has error BLINK_FULL.
    Map(Index &index, Room room, bool fixed = false) {
        detail::check(blink_map_open_with_room(&index.handle_, room.pages, room.rows, room.sessions, fixed, &handle_));
    }
    // One more object of the same map, for another thread to join by.
    Map share() {
        Map map{Empty()};
        detail::check(blink_map_share(&handle_, &map.handle_));
        return map;
    }
    Session join() {
        Session session;
        detail::check(blink_map_join(&handle_, &session.handle_));
        return session;
    }
    // Error BLINK_RENEWING, if each session is held or in a call, or the map is being renewed.
    Left room() {
        Left left{0, 0};
        detail::check(blink_map_room(&handle_, BLINK_TRIES, &left.pages, &left.rows));
        return left;
    }
    // Renews it in good time. Error BLINK_RENEWING, if a session is held or in a call at each of so many looks, leaves it as it was. No
    // other thread uses the object meanwhile.
    void renew(std::uint32_t looks = BLINK_TRIES) { detail::check(blink_map_renew(&handle_, looks)); }
    // Gives the index of all entries, once each session and each other object of the map is destroyed. A refused close may be called
    // again, and has lost nothing.
    Index close() {
        Index index{Index::Empty()};
        detail::check(blink_map_close(&handle_, &index.handle_));
        return index;
    }
    blink_map *handle() noexcept { return &handle_; }

private:
    struct Empty {};
    explicit Map(Empty) {}
    detail::Handle<blink_map, blink_map_free> handle_;
};

} // namespace blink

#endif
