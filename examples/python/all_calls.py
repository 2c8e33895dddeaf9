"""Uses each type of python/blink.py: an index, readers, and maps that threads change. It also compares what the module
declares with the headers of include, which are read from there or from the folder that is named. Run: all_calls.py [FOLDER]"""

import copy
import ctypes
import pathlib
import pickle
import re
import sys
import tempfile
import threading
import time
from collections.abc import Mapping, MutableMapping

top = pathlib.Path(__file__).resolve().parent.parent.parent
sys.path.insert(0, str(top / "python"))
import blink  # noqa: E402
from blink import ABSENT, EXISTS, FOUND, INSERTED, REMOVED, REPLACED  # noqa: E402

MOST = 2**64 - 1


def refuses(kind, call, *values):
    """The error of this kind that the call has to raise."""
    try:
        call(*values)
    except kind as error:
        return error
    raise AssertionError(f"{call} is not refused")


def compares_with_the_header(folder):
    text = "".join((folder / it).read_text() for it in ("blink.h", "blink_bindings.h"))
    text = re.sub(r"/\*.*?\*/", "", text, flags=re.S)
    numbers = {name: int(value) for name, value in re.findall(r"^    BLINK_(\w+) = (\d+)", text, re.M)}
    assert {name: numbers.get(name) for name in blink.CODES} == blink.CODES
    names = "GET INSERT REMOVE REPLACE ABSENT FOUND INSERTED EXISTS REMOVED REPLACED".split()
    assert all(getattr(blink, name) == numbers[name] for name in names)
    assert set(numbers) == set(blink.CODES) | set(names)
    prototypes = {
        name: (result.strip(), [re.sub(r"\bconst |\w+$", "", it.strip()).replace(" ", "") for it in parameters.split(",")])
        for result, name, parameters in re.findall(r"^((?:const )?\w+ \*?)(blink_\w+)\(([^)]*)\);", text, re.M)
    }
    c_names = {"c_ubyte": "uint8_t", "c_uint": "uint32_t", "c_ulong": "uint64_t", "c_bool": "bool", "c_int": "int", "_Handle": "handle"}

    def said(parameter):
        pointed = getattr(parameter, "_type_", None) if hasattr(parameter, "contents") else None
        name = (pointed or parameter).__name__
        return c_names.get(name, name) + ("*" if pointed else "")

    for name, result, *parameters in blink._declared():
        if name == "blink_version":
            continue
        there, wanted = prototypes[name]
        wanted = [re.sub(r"^blink_(index|reader|map|session)\b", "handle", it).replace("size_t", "uint64_t") for it in wanted]
        assert [said(it) for it in parameters] == wanted, name
        assert ("void" if result is None else said(result)) == there.replace("size_t", "uint64_t"), name
    version = re.search(r'^#define BLINK_VERSION "(.*)"$', text, re.M)[1]
    assert blink.version() == version, (blink.version(), version)
    assert ctypes.sizeof(ctypes.c_size_t) == 8


def refuses_an_older_processor():
    there = blink._CPUINFO
    with tempfile.TemporaryDirectory() as folder:
        blink._CPUINFO = f"{folder}/cpuinfo"
        assert blink._lacking() == []
        for flags, lacking in (("fpu sse2 pni ssse3 cx16 sse4_1", "popcnt, sse4_2"), ("fpu", "cx16, popcnt, sse4_1, sse4_2, ssse3")):
            pathlib.Path(blink._CPUINFO).write_text(f"processor\t: 0\nflags\t\t: {flags}\n\nprocessor\t: 1\n")
            told = str(refuses(ImportError, blink._load))
            assert told == f"libblink is compiled for x86-64-v2, and this processor lacks {lacking}"
    blink._CPUINFO = there


def does_what_the_module_says():
    lines = [line[4:] for line in blink.__doc__.splitlines() if line.startswith("    ")]
    exec("\n".join(lines), its := {"blink": blink})
    assert len(lines) == 9 and its["index"] == {8: 80, 9: 90, 10: 100}


def uses_an_index():
    index = blink.Index(fan=4)
    assert (len(index), index.pages(), index.fan(), index.first(), index.last()) == (0, 1, 4, None, None)
    assert index.insert(5, 50) == (INSERTED, None) and index.insert(5, 51) == (EXISTS, 50)
    assert index.replace(5, 52) == (REPLACED, 50) and index.compare_exchange(5, 50, 53) == (EXISTS, 52)
    assert index.compare_exchange(5, 52, 53) == (REPLACED, 52) and index.compare_remove(5, 52) == (EXISTS, 53)
    assert index.get(5) == 53 and 6 not in index and index.remove(6) == (ABSENT, None) and index.replace(6, 60) == (ABSENT, None)
    assert index.insert(6, 60).changed and not index.insert(6, 61).changed and index.compare_remove(6, 60) == (REMOVED, 60)
    assert index.compare_exchange(6, 60, 61) == (ABSENT, None) and index.compare_remove(6, 60) == (ABSENT, None)
    assert index.put(6, 60) is None and index.put(6, 61) == 60 and index.remove(6) == (REMOVED, 61)
    for key in range(1000, 2000):
        index.insert(key, MOST - key)
    assert len(index) == 1001 and index.scan(1998, MOST) == [(1998, MOST - 1998), (1999, MOST - 1999)] and index.scan(6, 7) == []
    assert len(index.page(0, 100)) == 100 and index.page(1999, MOST) == [(1999, MOST - 1999)] and index.page(0, 0) == []
    assert index.scan_back(1998, MOST) == [(1999, MOST - 1999), (1998, MOST - 1998)] and index.scan_back(6, 7) == []
    assert index.page_back(1000, 9) == [(1000, MOST - 1000), (5, 53)] and index.page_back(4, 9) == []
    assert index.count(1500, 1999) == 500 and index.count(6, 999) == 0 and index.page(0, 600)[-1] == (1598, MOST - 1598)
    assert index.count() == 1001 and len(index.scan()) == 1001 and index.scan_back()[1000] == (5, 53)
    assert index.prev(1000) == (5, 53) and index.prev(5) is None and index.at_least(6)[0] == 1000 and index.at_most(999) == (5, 53)
    assert index.first() == (5, 53) and index.last()[0] == 1999 and index.next(5)[0] == 1000 and index.next(1999) is None
    assert index.next(MOST) is None and index.prev(0) is None and index.at_most(4) is None and index.at_least(2000) is None
    assert index.get_many([5, 6]) == [53, None] and index.get_many([]) == []
    other = index.copy()
    pages = other.pages()
    other.compact()
    assert other.pages() < pages and len(other) == 1001
    assert other.run([(blink.GET, 5, 0), (blink.REMOVE, 5, 0)]) == [(FOUND, 53), (REMOVED, 53)] and 5 not in other and 5 in index
    assert refuses(blink.Error, index.run, [(9, 1, 1)]).name == "UNKNOWN_OPERATION"
    assert refuses(blink.Error, lambda: blink.Index(fan=33)).code == 40
    assert refuses(blink.Error, blink.Index.from_sorted, [(1, 0), (3, 0), (2, 0)]).place == 2
    # of two with one key the last stays, as in a dict
    assert blink.Index([(2, 20), (1, 10), (2, 21)], fan=4).scan() == [(1, 10), (2, 21)] and blink.Index({2: 20}).fan() == 32
    assert blink.Index([(2, 20)]).dump() == f"0 1 - {MOST} - 2:20\n"


def refuses_what_is_no_key():
    """What has no place in 64 bits isn't cut off, and nothing else is taken for a number."""
    index = blink.Index({5: 50})
    session = blink.Map(index).join()
    for it in index, session:
        for bad in -1, MOST + 1:
            for call in (it.get, it.__contains__, it.__getitem__, it.next, it.prev, it.at_least, it.at_most, it.remove, it.pop, it.scan, it.count,
                         it.irange, it.__delitem__):
                assert str(refuses(OverflowError, call, bad)) == f"{bad} is not from 0 to 2**64 - 1"
            for call in it.insert, it.put, it.replace, it.compare_remove, it.setdefault, it.__setitem__, it.scan, it.scan_back, it.count, it.page:
                refuses(OverflowError, call, bad, 0)
                refuses(OverflowError, call, 0, bad)
            refuses(OverflowError, it.compare_exchange, 5, bad, 0)
            refuses(OverflowError, it.compare_exchange, 5, 50, bad)
            refuses(OverflowError, it.__getitem__, slice(bad, None))
        refuses(OverflowError, it.__getitem__, slice(None, MOST + 2))
        for bad in "5", 5.0, None:
            for call in it.get, it.__contains__, it.__getitem__, it.remove, it.pop, it.scan, it.__delitem__:
                refuses(TypeError, call, bad)
            refuses(TypeError, it.insert, 5, bad)
            refuses(TypeError, it.put, bad, 5)
        assert it == {5: 50}
    refuses(OverflowError, blink.Index, {5: MOST + 1})
    refuses(TypeError, blink.Index, {5: "50"})
    refuses(OverflowError, lambda: blink.Index(fan=260))
    assert index.insert(MOST, MOST) == (INSERTED, None) and index.get(MOST) == MOST and index[MOST:] == [(MOST, MOST)]
    # a bool is an integer, as for a dict
    assert index.put(True, False) is None and index[1] == 0


def is_a_dict_in_order(it):
    """What a dict or a SortedDict does, by an index or a session without an entry."""
    assert isinstance(it, MutableMapping) and it == {} and len(it) == 0 and not it and list(it) == [] and it.first() is None
    refuses(KeyError, it.popitem)
    assert it.pop_first() is None and it.pop_last() is None
    for key in (3, 1, 2):
        it[key] = 10 * key
    it[2] = 21
    assert it[2] == 21 and it.get(4) is None and it.get(4, 40) == 40 and it.get(1, 40) == 10 and 1 in it and 4 not in it
    assert refuses(KeyError, it.__getitem__, 4).args == (4,) and refuses(KeyError, it.__delitem__, 4).args == (4,)
    assert list(it) == [1, 2, 3] and list(reversed(it)) == [3, 2, 1] and len(it) == 3 and it
    assert list(it.keys()) == [1, 2, 3] and list(it.values()) == [10, 21, 30] and list(it.items()) == [(1, 10), (2, 21), (3, 30)]
    assert list(reversed(it.keys())) == [3, 2, 1] and list(reversed(it.values())) == [30, 21, 10]
    assert list(reversed(it.items())) == [(3, 30), (2, 21), (1, 10)] and it.keys() & {2, 3, 4} == {2, 3}
    assert (2, 21) in it.items() and (2, 20) not in it.items() and (4, 0) not in it.items() and 21 in it.values() and 20 not in it.values()
    assert it == {1: 10, 2: 21, 3: 30} and {1: 10, 2: 21, 3: 30} == it and it != {1: 10, 2: 21} and it != [(1, 10), (2, 21), (3, 30)]
    assert dict(it) == {1: 10, 2: 21, 3: 30} and {**it} == dict(it) and repr(it) == f"{type(it).__name__}({{1: 10, 2: 21, 3: 30}})"
    refuses(TypeError, hash, it)
    # a slice has its start, and not its stop
    assert it[1:3] == [(1, 10), (2, 21)] and it[2:] == [(2, 21), (3, 30)] and it[:2] == [(1, 10)] and it[:] == it.scan() and it[3:1] == []
    assert it[0:0] == [] and it[: MOST + 1] == it.scan() and it[4:] == []
    refuses(ValueError, it.__getitem__, slice(1, 3, 2))
    refuses(TypeError, it.__delitem__, slice(1, 3))
    # both ends are in a range, unless it says otherwise
    assert list(it.irange(1, 2)) == [1, 2] and list(it.irange()) == [1, 2, 3] and list(it.irange(2)) == [2, 3] and list(it.irange(hi=2)) == [1, 2]
    assert list(it.irange(1, 3, inclusive=(False, True))) == [2, 3] and list(it.irange(1, 3, (True, False))) == [1, 2]
    assert list(it.irange(1, 3, (False, False))) == [2] and list(it.irange(1, 3, reverse=True)) == [3, 2, 1] and list(it.irange(2, 2)) == [2]
    assert list(it.irange(2, 2, (False, True))) == [] and list(it.irange(MOST, inclusive=(False, True))) == []
    assert list(it.irange(hi=0, inclusive=(True, False))) == [] and list(it.irange(3, 1)) == []
    assert it.first() == (1, 10) and it.last() == (3, 30) and it.next(1) == (2, 21) and it.prev(3) == (2, 21) and it.next(3) is None
    assert it.prev(1) is None and it.at_least(2) == (2, 21) and it.at_least(4) is None and it.at_most(9) == (3, 30) and it.at_most(0) is None
    assert it.next(MOST) is None and it.prev(0) is None and it.count() == 3 and it.count(2, 3) == 2 and it.count(3, 2) == 0
    assert it.setdefault(4, 40) == 40 and it.setdefault(4, 41) == 40 and it.pop(4) == 40 and it.pop(4, None) is None and it.pop(4, 7) == 7
    assert refuses(KeyError, it.pop, 4).args == (4,)
    it.update({3: 31, 5: 50})
    it.update([(6, 60)])
    del it[5]
    assert it == {1: 10, 2: 21, 3: 31, 6: 60} and it.popitem() == (6, 60) and it.pop_last() == (3, 31) and it.pop_first() == (1, 10)
    assert it.put(2, 22) == 21 and it.put(7, 70) is None and it.compare_exchange(7, 71, 72) == (EXISTS, 70)
    assert it.compare_remove(7, 71) == (EXISTS, 70) and it.compare_remove(7, 70) == (REMOVED, 70) and it == {2: 22}
    # parts of 16, 128 and 1,024 entries
    it.update((key, key + 1) for key in range(5000))
    assert list(it) == list(range(5000)) and list(reversed(it)) == list(range(4999, -1, -1)) and it.values().__len__() == 5000
    assert it.scan(10, 4000) == [(key, key + 1) for key in range(10, 4001)] and it[4990:][0] == (4990, 4991) and len(it) == it.count() == 5000
    assert repr(it).endswith("18: 19, 19: 20, ...})") and it.page(4998, 9) == [(4998, 4999), (4999, 5000)] and len(it.page_back(2000, 600)) == 600
    # a loop may change what it walks: it takes the odd keys away
    for key in it:
        if key % 2 == 1:
            del it[key]
    assert list(it) == list(range(0, 5000, 2)) and len(it) == 2500
    it.clear()
    assert len(it) == 0 and it == {} and it.insert(1, 10) == (INSERTED, None)


def is_closed_in_the_end():
    """A handle that is used after its end raises ValueError, and loses nothing of others."""
    index = blink.Index({1: 10, 2: 20})
    shared = blink.Map(index)
    session = shared.join()
    walks = [iter(session), iter(index), iter(session.items())]
    with session as same:
        assert same is session and session[1] == 10
    with index:
        reader = index.share()
    for it in (index, session):
        it.free()
        assert repr(it) == f"<closed {type(it).__name__}>"
        for call, *values in ((it.get, 1), (it.put, 1, 2), (len, it), (list, it), (bool, it), (it.pop_first,), (it.scan,), (it.clear,), (it.update, {1: 2}),
                              (it.__getitem__, slice(1, 2)), (next, it.irange()), (dict, it), (it.first,), (it.count,), (it.popitem,)):
            assert str(refuses(ValueError, call, *values)) == f"this {type(it).__name__} is closed"
    for walk in walks:
        refuses(ValueError, next, walk)
    refuses(ValueError, index.copy)
    refuses(ValueError, copy.copy, index)
    refuses(ValueError, blink.Map, index)
    refuses(ValueError, session.snapshot)
    assert reader == {1: 10, 2: 20} and repr(reader) == "Reader({1: 10, 2: 20})" and repr(shared) == "<open Map>"
    assert shared.close() == reader and repr(shared) == "<closed Map>"
    refuses(ValueError, shared.join)
    refuses(ValueError, shared.close)
    reader.free()
    refuses(ValueError, reader.get, 1)


def reads_while_another_thread_runs():
    """The interpreter's lock is free during a call: only then may another thread run here, since it is asked for by nobody else."""
    assert type(blink._library) is ctypes.CDLL
    index, gate, seen = blink.Index.from_sorted((key, key) for key in range(200_000)), threading.Lock(), []

    def runs():
        with gate:
            seen.append(len(seen))

    gate.acquire()
    thread = threading.Thread(target=runs)
    thread.start()
    interval, deadline = sys.getswitchinterval(), time.monotonic() + 60
    sys.setswitchinterval(1000)
    try:
        gate.release()
        while not seen and time.monotonic() < deadline:
            index.copy()
    finally:
        sys.setswitchinterval(interval)
    assert seen == [0]
    thread.join()


def shares_an_index():
    reader = blink.Index.from_sorted([(key, key * 10) for key in range(1000)]).share()

    def reads(own):
        with own:
            for key in range(1000):
                assert own.get(key) == own[key] == key * 10

    in_threads(reads, [reader.join() for _ in range(2)])
    other = reader.join()
    assert refuses(blink.Error, reader.unshare).name == "SHARED" and len(reader) == 1000
    assert isinstance(reader, Mapping) and not isinstance(reader, MutableMapping) and reader == {key: key * 10 for key in range(1000)}
    assert reader[998:] == [(998, 9980), (999, 9990)] and list(reader.irange(997, reverse=True)) == [999, 998, 997] and reader.get(1000, 7) == 7
    assert list(reversed(reader.values()))[:2] == [9990, 9980] and reader.get_many([1000, 1]) == [None, 10] and not hasattr(reader, "put")
    refuses(TypeError, blink.Map, reader)
    other.free()
    index = reader.unshare()
    refuses(ValueError, reader.get, 5)
    assert index.insert(1000, 1) == (INSERTED, None)


def in_threads(call, values):
    failed = []

    def run(value):
        try:
            call(value)
        except BaseException as error:  # noqa: BLE001
            failed.append(error)
            raise

    threads = [threading.Thread(target=run, args=(value,)) for value in values]
    for thread in threads:
        thread.start()
    for thread in threads:
        thread.join()
    assert not failed


def shares_a_map():
    """Eight threads add to the same ten keys, each a hundred times a key: no addition is lost."""
    index = blink.Index(fan=16)
    shared = blink.Map.with_room(index, pages=5000, rows=20000, sessions=8, fixed=True)
    assert shared.room() == (5000, 20000)

    def adds(session):
        with session:
            for turn in range(1000):
                key, done = turn % 10, False
                there = session.get(key)
                while not done:
                    answer = session.insert(key, 1) if there is None else session.compare_exchange(key, there, there + 1)
                    done, there = answer.kind in (INSERTED, REPLACED), answer.pointer

    in_threads(adds, [shared.join() for _ in range(8)])
    one, other = shared.join(), shared.join()
    assert one.scan(0, MOST) == [(key, 800) for key in range(10)]
    assert one.scan_back(0, MOST) == [(key, 800) for key in reversed(range(10))]
    assert one.put(5, 7) == 800 and one.put(10, 8) is None and one.replace(10, 9) == (REPLACED, 8)
    assert other.get(5) == 7 and other.compare_remove(10, 8) == (EXISTS, 9) and other.remove(10) == (REMOVED, 9)
    for key in range(1000, 2000):
        one.insert(key, key)
    assert len(other.snapshot(0, MOST)) == 1010 and other.snapshot(0, 1, tries=0) is None and len(other.scan(1500, 1999)) == 500
    assert len(other.scan_back(0, MOST)) == 1010 and other.scan_back(0, 1001)[:2] == [(1001, 1001), (1000, 1000)]
    assert other.page(1000, 2) == [(1000, 1000), (1001, 1001)] and len(other.page(0, 600)) == 600 and other.page(0, 0) == []
    assert other.page_back(1001, 2) == [(1001, 1001), (1000, 1000)] and len(other.page_back(MOST, 2000)) == 1010
    assert one.reserve().pages > 0 and shared.room()[1] > 0
    more = [shared.join() for _ in range(6)]
    assert refuses(blink.Error, shared.join).name == "NO_SESSION"
    for session in more + [one, other]:
        session.free()
    refuses(ValueError, one.get, 5)
    closed = shared.close()
    refuses(ValueError, shared.join)
    assert len(closed) == 1010 and closed.get(5) == 7 and len(index) == 0
    # as test.c of crates/blink_c/link has it: two insertions fill a half page of four again
    four = blink.Index(fan=4)
    assert blink.room_for(four, 1000, 2) == (1195, 2990, 2) and blink.room_for(four, 2**32 - 1, 256) == (2**32 - 1, 2**32 - 1, 256)


def ends_what_an_exception_interrupts():
    """An exception comes while a change waits, as of a signal's handler. The change is ended, and the session's next one is made."""

    class Interrupt(Exception):
        pass

    class Interrupts:
        """In place of the module that waiting calls sleep by."""

        def sleep(self, _seconds):
            blink.time = time
            raise Interrupt

    class Waits:
        """In place of the library: each put is under way first, and is made by the next steps."""

        under_way = None

        def __getattr__(self, name):
            return getattr(library, name)

        def blink_session_put_try(self, _handle, key, pointer, _tries, _answer):
            self.under_way = self.under_way or (key, pointer)
            return blink.CODES["PENDING"]

        def blink_session_advance(self, handle, tries, answer):
            if not self.under_way:
                return blink.CODES["IDLE"]
            (key, pointer), self.under_way = self.under_way, None
            return library.blink_session_put_try(handle, key, pointer, tries, answer)

    library, session = blink._library, blink.Map().join()
    blink._library, blink.time = Waits(), Interrupts()
    refuses(Interrupt, session.put, 3, 30)
    assert session.put(5, 50) is None and session.put(5, 51) == 50
    blink._library = library
    assert session.scan(0, MOST) == [(3, 30), (5, 51)]


def pops_by_threads():
    """Four threads take a thousand entries away, two from each end: each entry is one thread's."""
    shared = blink.Map(blink.Index((key, key + 1) for key in range(1000)))
    taken = [[] for _ in range(4)]

    def pops(place):
        with shared.join() as session:
            while entry := session.pop_first() if place % 2 else session.pop_last():
                taken[place].append(entry)

    in_threads(pops, range(4))
    assert sorted(entry for its in taken for entry in its) == [(key, key + 1) for key in range(1000)] and len(shared.close()) == 0


def walks_beside_a_writer():
    """A walk reports each key that is there throughout, while another thread inserts and removes keys between."""
    shared = blink.Map(blink.Index((key, key) for key in range(0, 20_000, 2)))
    ended = threading.Event()

    def writes(session):
        with session:
            while not ended.is_set():
                for key in range(1, 2000, 2):
                    session.put(key, key)
                for key in range(1, 2000, 2):
                    del session[key]

    writer = threading.Thread(target=writes, args=(shared.join(),))
    writer.start()
    try:
        with shared.join() as session:
            for walk in range(6):
                keys = list(reversed(session) if walk % 2 else session)
                assert keys == sorted(set(keys), reverse=walk % 2 == 1) and set(range(0, 20_000, 2)) <= set(keys)
                assert all(key == pointer for key, pointer in session.items()) and session.count(3000) == 8500
    finally:
        ended.set()
        writer.join()
    assert shared.close() == {key: key for key in range(0, 20_000, 2)}


def copies_an_index_alone():
    index = blink.Index({1: 10, 2: 20}, fan=4)
    for other in copy.copy(index), copy.deepcopy(index), index.copy():
        assert type(other) is blink.Index and other == index and other.fan() == 4
        other[1] = 11
        assert index[1] == 10
    refuses(TypeError, pickle.dumps, index)
    for it in (index.copy().share(), blink.Map(index), blink.Map(index).join()):
        refuses(TypeError, copy.copy, it)
        refuses(TypeError, copy.deepcopy, it)
        refuses(TypeError, pickle.dumps, it)


def lets_a_map_grow():
    """Four threads insert ten thousand keys together into a map of no room: no insertion is refused, and none is lost."""
    index = blink.Index([(MOST, 1)], fan=16)
    shared = blink.Map(index)

    def inserts(session):
        with session:
            for key in range(10_000):
                assert session.insert(key, key).kind in (INSERTED, EXISTS)

    in_threads(inserts, [shared.join() for _ in range(4)])
    one, other = shared.join(), shared.join()
    assert other.scan(0, 10_000) == [(key, key) for key in range(10_000)] and other.get(MOST) == 1 and other.get(10_000) is None
    assert other.scan_back(0, MOST)[:2] == [(MOST, 1), (9_999, 9_999)] and len(other.snapshot(1, 9_999)) == 9_999
    assert one.compare_exchange(5, 6, 8) == (EXISTS, 5) and one.compare_exchange(5, 5, 8) == (REPLACED, 5)
    assert one.compare_remove(5, 7) == (EXISTS, 8) and one.compare_remove(5, 8) == (REMOVED, 8) and one.remove(6) == (REMOVED, 6)
    with one.hold():
        assert one.get(7) == 7 and one.insert(5, 50) == (INSERTED, None)
        assert refuses(blink.Error, shared.renew).name == "RENEWING"
        assert refuses(blink.Error, shared.renew, 1).name == "RENEWING"
    shared.renew()
    assert other.get(5) == 50 and refuses(blink.Error, shared.close).name == "SESSION_MISSING"
    one.free()
    other.free()
    closed = shared.close()
    refuses(ValueError, shared.join)
    assert len(closed) == 10_000 and closed.get(MOST) == 1 and closed.get(6) is None and len(index) == 1
    refuses(TypeError, blink.Map, 4)


def chooses_the_room_of_a_map(fixed):
    """A room of its user's choice. The leaf has 4 entries, and there are rows for one split, which the fifth insertion makes."""
    index = blink.Index(fan=4)
    shared = blink.Map.with_room(index, 200, 44, 1, fixed)
    session = shared.join()
    assert session.reserve() == (0, 0, 0, 0, 0) and shared.room() == (200, 44)
    for key in range(1, 6):
        assert session.insert(key, 10 * key) == (INSERTED, None)
    assert session.reserve().pages > 0
    if fixed:
        assert refuses(blink.Error, session.insert, 6, 60).name == "FULL" and session.get(6) is None
        assert refuses(blink.Error, shared.renew).name == "FULL" and refuses(blink.Error, shared.join).name == "NO_SESSION"
        with session.hold():
            assert refuses(blink.Error, shared.room).name == "RENEWING"
    else:
        assert session.insert(6, 60) == (INSERTED, None) and session.get(6) == 60
        shared.renew()
    assert session.put(5, 51) == 50 and session.remove(1) == (REMOVED, 10) and session.get(5) == 51
    session.free()
    assert len(shared.close()) == (4 if fixed else 5)
    grows = blink.Map.with_room(index, *blink.room_for(index, 100, 1))
    grows.renew()
    assert len(grows.close()) == 0
    assert refuses(blink.Error, blink.Map.with_room, index, 2**20 - 1, 44, 1, fixed).name == "MAP_TOO_LARGE"
    assert refuses(blink.Error, blink.Map.with_room, index, 200, 44, 257, fixed).name == "BAD_SESSIONS"
    refuses(TypeError, blink.Map.with_room, 4, 200, 44, 1)


compares_with_the_header(pathlib.Path(sys.argv[1]) if len(sys.argv) > 1 else top / "include")
refuses_an_older_processor()
does_what_the_module_says()
uses_an_index()
refuses_what_is_no_key()
is_a_dict_in_order(blink.Index(fan=4))
is_a_dict_in_order(blink.Map().join())
is_closed_in_the_end()
reads_while_another_thread_runs()
shares_an_index()
shares_a_map()
pops_by_threads()
walks_beside_a_writer()
ends_what_an_exception_interrupts()
copies_an_index_alone()
lets_a_map_grow()
chooses_the_room_of_a_map(False)
chooses_the_room_of_a_map(True)
print("all calls are as expected")
