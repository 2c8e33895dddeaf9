"""blink.h for Python, by ctypes: ordered maps from keys to pointers, both integers from 0 to 2**64 - 1. Threads may share one.

An `Index` is a dict in key order, for one thread. A `Map` is changed by many threads, each by a `Session`, which is such a dict too. A
`Reader` is one that is only read. Index, session and reader have what `collections.abc` gives a mapping, and the calls of blink.h.

    index = blink.Index({7: 70, 9: 90})
    index[8] = 80
    assert list(index.items()) == [(7, 70), (8, 80), (9, 90)] and index[7:9] == [(7, 70), (8, 80)]
    assert list(index.irange(8, reverse=True)) == [9, 8] and index.at_least(3) == (7, 70)
    shared = blink.Map(index)
    with shared.join() as session:
        session[10] = 100
        assert session.insert(7, 71) == (blink.EXISTS, 70) and session.pop_first() == (7, 70)
    index = shared.close()

Order. Iteration, views, `scan` and `irange` go by ascending keys, and `reversed` by descending ones. `popitem` takes the last entry. `m[a:b]`
is the list of the entries with a <= key < b. No call takes an entry by its place, as `peekitem` of a SortedDict does.

Changes. `insert` changes nothing where the key is there, `replace` nothing where it is absent, and `put` and `m[k] = p` map it in either case.
`compare_exchange` and `compare_remove` change the key only if it maps to the expected pointer. Each is one change, also beside other threads.
`update` and `clear` of a session are many.

Walks. An iterator reads a part of the entries at a time, up to 1,024. So a loop may change what it walks, and sees of the rest what is there
when it is read. Beside writers a forward walk of a session may have gaps: read what only grows at its end backwards, or by a `snapshot`.

Cost. `len` of an index and of a reader is kept. That of a session counts by a walk over all entries, and so does `count`. Python asks for it in
`list(session)`, which walks twice so; `session.scan()` walks once. `bool` of any of them reads one entry.

Errors. A number outside 0 .. 2**64 - 1 raises OverflowError, and what is no integer TypeError, before anything is called. A refusal by the
library raises `Error`. What is closed raises ValueError, also in an iterator that was begun before. A change of a map ends before its call
does, also where an exception interrupts it.

Threads. An object has a lock, so that threads which use it at once wait for each other; so give each thread a session. The interpreter's
lock is released in each call of the library, so other threads run meanwhile. A signal handler uses no session that its thread is using.

This file is the whole module; copy it beside your program, or name its folder by PYTHONPATH. It loads libblink.so.0, which ./libblink
builds: from the folder that the environment names as BLINK_LIB_DIR, and from no other; or, where that isn't set, from the file's own
folder, from `out` of the repository that it stands in, from `lib` of the prefix that it is installed in, or from where the system looks.
"""

import contextlib
import ctypes
import enum
import operator
import os
import pathlib
import struct
import threading
import time
from collections.abc import ItemsView, KeysView, Mapping, MutableMapping, ValuesView
from typing import NamedTuple, Optional

# The version of this module. The library has the same first number.
__version__ = "0.1.0"

# What a call returns that may be refused, as blink.h declares it.
CODE = ctypes.c_int

# The operations of `Index.run`.
GET, INSERT, REMOVE, REPLACE = range(4)


class Kind(enum.IntEnum):
    """What an operation found or did, as the answers of blink.h."""

    ABSENT = 0
    FOUND = 1
    INSERTED = 2
    EXISTS = 3
    REMOVED = 4
    REPLACED = 5


ABSENT, FOUND, INSERTED, EXISTS, REMOVED, REPLACED = Kind

#: The codes of blink.h, by their names without BLINK_.
CODES = {
    "DONE": 0, "TOO_MANY": 1, "WRONG_LENGTH": 3, "UNKNOWN_OPERATION": 11, "INDEX_TOO_LARGE": 32, "BAD_FAN": 40,
    "NO_MEMORY": 41, "NOT_ASCENDING": 42, "SHARED": 43, "PENDING": 90, "IDLE": 91,
    "MAP_TOO_LARGE": 101, "BAD_SESSIONS": 102, "NO_SESSION": 103, "FULL": 105,
    "SESSION_MISSING": 106, "ROWS_BUSY": 107, "MAP_CLOSED": 108, "RENEWING": 109,
}
_NAMES = {number: name for name, number in CODES.items()}

# What the name alone doesn't tell, in the words of blink_message.
_MESSAGES = {
    "BAD_FAN": "the fan isn't from 4 to 32",
    "BAD_SESSIONS": "a map has 1 to 256 sessions",
    "NO_SESSION": "no place for a session, or the map is closed",
    "FULL": "the map is full: close it, compact the index, open a larger map",
    "SESSION_MISSING": "a session or another handle isn't freed",
}


class Answer(NamedTuple):
    """What a call found or did: a `Kind`, and the pointer that the key maps to or mapped to, or None where it is absent or was."""

    kind: Kind
    pointer: Optional[int]

    @property
    def changed(self):
        """Whether the call changed anything."""
        return self.kind in (INSERTED, REMOVED, REPLACED)


class Room(NamedTuple):
    """What a map has beside its entries, as `Map.with_room` takes it: page numbers, rows, and sessions."""

    pages: int
    rows: int
    sessions: int


class Reserve(NamedTuple):
    """What a session has of its map's page numbers and rows."""

    pages: int
    unwritten: int
    free: int
    taken_out: int
    waiting: int


# How many steps in vain an operation takes before its thread yields: BLINK_TRIES of blink.h, which says what they cost.
_TRIES = 100
# The most that a change of a map has which couldn't be renewed: BLINK_MOST_TRIES.
_MOST_TRIES = 1_000_000
# How often a thread that waits yields before it sleeps (BLINK_YIELDS), and for how many seconds it sleeps then.
_YIELDS = 100
_SLEEP = 50e-6


class Error(Exception):
    """A refusal: `code` is its number, and `name` the number's name in blink.h without BLINK_."""

    def __init__(self, code):
        self.code = code
        self.name = _NAMES.get(code, "?")
        text = _MESSAGES.get(self.name)
        super().__init__(f"libblink refused a call: {self.name} ({code})" + (f": {text}" if text else ""))


def _struct(name, *fields):
    return type(name, (ctypes.Structure,), {"_fields_": [(field, ctypes.c_uint64) for field in fields]})


_Entry = _struct("blink_entry", "key", "pointer")
_Operation = _struct("blink_operation", "kind", "key", "pointer")
_Answer = _struct("blink_answer", "kind", "pointer")
_Scanned = _struct("blink_scanned", "filled", "more", "next")
_Taken = _struct("blink_taken", "taken", "there")
_Reserve = _struct("blink_reserve", *Reserve._fields)


class _Handle(ctypes.Structure):
    _fields_ = [("at", ctypes.c_void_p)]


def _declared():
    """Each function with its result and its parameters."""
    u8, u32, u64, size, truth, handle = (
        ctypes.c_uint8, ctypes.c_uint32, ctypes.c_uint64, ctypes.c_size_t, ctypes.c_bool, ctypes.POINTER(_Handle))
    answer, entry, keys, sizes = map(ctypes.POINTER, (_Answer, _Entry, u64, size))
    operations, scanned, taken, reserve = map(ctypes.POINTER, (_Operation, _Scanned, _Taken, _Reserve))
    text = ctypes.POINTER(u8)
    yield "blink_version", ctypes.c_char_p
    for it in "index", "reader":
        yield f"blink_{it}_get", truth, handle, u64, keys
        yield f"blink_{it}_get_many", CODE, handle, keys, size, answer, size
        yield f"blink_{it}_scan", CODE, handle, u64, u64, entry, size, scanned
        yield f"blink_{it}_scan_back", CODE, handle, u64, u64, entry, size, scanned
        yield f"blink_{it}_count", size, handle, u64, u64
        yield f"blink_{it}_first", truth, handle, entry
        yield f"blink_{it}_last", truth, handle, entry
        yield f"blink_{it}_next", truth, handle, u64, entry
        yield f"blink_{it}_prev", truth, handle, u64, entry
        yield f"blink_{it}_at_least", truth, handle, u64, entry
        yield f"blink_{it}_at_most", truth, handle, u64, entry
        yield f"blink_{it}_len", size, handle
        yield f"blink_{it}_pages", u32, handle
        yield f"blink_{it}_fan", u8, handle
        yield f"blink_{it}_dump", CODE, handle, text, size, sizes
    yield "blink_index_new", CODE, u8, handle
    yield "blink_index_from_entries", CODE, u8, entry, size, handle
    yield "blink_index_from_sorted", CODE, u8, entry, size, handle, sizes
    yield "blink_index_copy", CODE, handle, handle
    yield "blink_index_run", CODE, handle, operations, size, answer, size
    yield "blink_index_insert", CODE, handle, u64, u64, answer
    yield "blink_index_remove", None, handle, u64, answer
    yield "blink_index_replace", None, handle, u64, u64, answer
    yield "blink_index_compare_exchange", None, handle, u64, u64, u64, answer
    yield "blink_index_compare_remove", None, handle, u64, u64, answer
    yield "blink_index_compact", CODE, handle
    yield "blink_index_share", CODE, handle, handle
    yield "blink_reader_join", CODE, handle, handle
    yield "blink_reader_unshare", CODE, handle, handle
    yield "blink_map_open", CODE, handle, handle
    yield "blink_map_open_with_room", CODE, handle, u32, u32, u32, truth, handle
    yield "blink_map_join_alone", CODE, handle, handle
    yield "blink_map_room_alone", CODE, handle, u32, keys, keys
    yield "blink_map_renew", CODE, handle, u32
    yield "blink_map_close", CODE, handle, handle
    yield "blink_session_get_try", CODE, handle, u64, u32, answer
    yield "blink_session_scan_try", CODE, handle, u64, u64, u32, entry, size, scanned
    yield "blink_session_scan_back_try", CODE, handle, u64, u64, u32, entry, size, scanned
    yield "blink_session_snapshot_try", CODE, handle, u64, u64, u32, entry, size, taken
    yield "blink_session_advance", CODE, handle, u32, answer
    for it in "insert", "replace", "compare_remove", "put":
        yield f"blink_session_{it}_try", CODE, handle, u64, u64, u32, answer
    yield "blink_session_remove_try", CODE, handle, u64, u32, answer
    yield "blink_session_compare_exchange_try", CODE, handle, u64, u64, u64, u32, answer
    yield "blink_session_hold_try", CODE, handle, u32
    yield "blink_session_let_go", None, handle
    yield "blink_session_reserve_try", CODE, handle, u32, reserve
    for it in "index", "reader", "map", "session":
        yield f"blink_{it}_free", None, _Handle


def _file():
    """What to load, where BLINK_LIB_DIR isn't set."""
    folder = pathlib.Path(__file__).resolve().parent
    files = [folder / "libblink.so.0", folder.parent / "out" / "libblink.so.0"]
    if folder.parts[-2:] == ("share", "blink"):
        for place in "lib", "lib64", "lib/*-linux-gnu":
            files += folder.parent.parent.glob(f"{place}/libblink.so.0")
    return next((str(file) for file in files if file.exists()), "libblink.so.0")


# What the library needs of a processor beside x86-64, in the words of Linux: it is compiled for x86-64-v2.
_NEEDED = {"cx16", "popcnt", "sse4_1", "sse4_2", "ssse3"}
_CPUINFO = "/proc/cpuinfo"


def _lacking():
    """What of that this processor lacks; nothing, where the system doesn't tell."""
    try:
        with open(_CPUINFO, encoding="utf-8", errors="replace") as lines:
            flags = next((line for line in lines if line.startswith("flags")), None)
    except OSError:
        return []
    return sorted(_NEEDED - set(flags.split())) if flags else []


def _load():
    # An instruction that it lacks would end the whole program.
    if lacking := _lacking():
        raise ImportError(f"libblink is compiled for x86-64-v2, and this processor lacks {', '.join(lacking)}")
    named = os.environ.get("BLINK_LIB_DIR")
    try:
        # Of the loaders of ctypes, PyDLL would keep the interpreter's lock during calls.
        library = ctypes.CDLL(os.path.join(named, "libblink.so.0") if named else _file())
    except OSError as error:
        hint = (f"BLINK_LIB_DIR names the folder {named}" if named else
                "run ./libblink in the repository, or name the library's folder by BLINK_LIB_DIR")
        raise ImportError(f"libblink.so.0 can't be loaded: {hint} ({error})") from None
    _compare_versions(library)
    for name, result, *parameters in _declared():
        function = getattr(library, name, None)
        if function is None:
            raise ImportError(f"{library._name} lacks {name}: take it and blink.py from one release")
        function.restype, function.argtypes = result, parameters
    return library


def _compare_versions(library):
    """Refuses a library whose calls may be others than those of this module."""
    library.blink_version.restype = ctypes.c_char_p
    there = library.blink_version().decode()
    if there.split(".")[0] != __version__.split(".")[0]:
        raise ImportError(f"{library._name} has version {there}, and blink.py {__version__}: take both from one release")


_library = _load()


def version():
    """The version of the library."""
    return _library.blink_version().decode()


def _check(code):
    if code != CODES["DONE"]:
        raise Error(code)


_MOST = 2**64 - 1


def _number(value, bits=64):
    """The number itself, since ctypes would cut off what has no place."""
    value = operator.index(value)
    if not 0 <= value < 1 << bits:
        raise OverflowError(f"{value} is not from 0 to 2**{bits} - 1")
    return value


def _numbers_of(values):
    values = [_number(value) for value in values]
    return (ctypes.c_uint64 * len(values))(*values), len(values)


def _entries_of(entries):
    entries = [(_number(key), _number(pointer)) for key, pointer in entries]
    return (_Entry * len(entries))(*entries), len(entries)


_PAIR = struct.Struct("=QQ")


def _pairs(entries, count):
    return list(_PAIR.iter_unpack(memoryview(entries)[:count]))


# The kinds whose answers tell no pointer.
_TELL_NONE = (ABSENT, INSERTED)
_KINDS = tuple(Kind)


def _answer(answer):
    kind = _KINDS[answer.kind]
    return Answer(kind, None if kind in _TELL_NONE else answer.pointer)


def _pauses():
    """Lets other threads run, each time that a call which waits asks for the next one. A yield lets no thread of lesser priority run."""
    for _ in range(_YIELDS):
        yield time.sleep(0)
    while True:
        yield time.sleep(_SLEEP)


class _Owner:
    """What has a handle. `_kind` is the word of its functions."""

    _kind = None
    _free = None
    # What a call has behind its keys: of a session the number of its tries, of others nothing; and what its name has at its end then.
    _tries = ()
    _try = ""

    def __init_subclass__(cls):
        if cls._kind:
            cls._free = getattr(_library, f"blink_{cls._kind}_free")

    def __init__(self):
        self._handle = _Handle()
        self._lock = threading.RLock()

    def _call(self, name, *values):
        """Calls a function of the handle, which has to be full, while no other thread does."""
        with self._lock:
            self._is_open()
            return getattr(_library, f"blink_{self._kind}_{name}")(self._handle, *values)

    def _waits(self, name, *values):
        """The same until the map isn't being renewed; of what is no session one call is enough."""
        with self._lock:
            pauses = _pauses()
            while (code := self._call(name + self._try, *values)) == CODES["RENEWING"]:
                next(pauses)
            return code

    def _is_open(self):
        if not self._handle.at:
            raise ValueError(f"this {type(self).__name__} is closed")

    def _take(self):
        with self._lock:
            self._is_open()
            handle, self._handle = self._handle, _Handle()
            return handle

    def free(self):
        """Frees it; a second time does nothing."""
        with self._lock:
            handle, self._handle = self._handle, _Handle()
        if handle.at:
            type(self)._free(handle)

    # A copy by its fields, as copy.copy and pickle make it, would free the handle once more.
    def __reduce__(self):
        raise TypeError(f"{type(self).__name__} can't be copied or pickled")

    def __del__(self):
        if hasattr(self, "_lock"):
            self.free()

    def __enter__(self):
        return self

    def __exit__(self, *_):
        self.free()

    def __repr__(self):
        return f"<{'open' if self._handle.at else 'closed'} {type(self).__name__}>"

    @classmethod
    def _filled(cls, fill):
        """An object whose handle `fill` fills."""
        it = cls.__new__(cls)
        _Owner.__init__(it)
        _check(fill(it._handle))
        return it


class _Keys(KeysView):
    def __reversed__(self):
        return reversed(self._mapping)


class _Items(ItemsView):
    def __iter__(self):
        return self._mapping._walk(0, _MOST)

    def __reversed__(self):
        return self._mapping._walk(0, _MOST, True)


class _Values(ValuesView):
    def __contains__(self, pointer):
        return any(it == pointer for it in self)

    def __iter__(self):
        return (pointer for _, pointer in self._mapping._walk(0, _MOST))

    def __reversed__(self):
        return (pointer for _, pointer in self._mapping._walk(0, _MOST, True))


# How many entries of a mapping `repr` shows.
_SHOWN = 20


class _Reads(_Owner, Mapping):
    """What reads entries, as a mapping in key order. `_get` gives the pointer of a key, or None."""

    def get(self, key, default=None):
        """The pointer of the key, or the default."""
        pointer = self._get(_number(key))
        return default if pointer is None else pointer

    def __contains__(self, key):
        return self._get(_number(key)) is not None

    def __getitem__(self, key):
        """The pointer of the key; or of a slice the entries from its start on and below its stop, as pairs."""
        if isinstance(key, slice):
            return self._slice(key)
        pointer = self._get(_number(key))
        if pointer is None:
            raise KeyError(key)
        return pointer

    def _slice(self, keys):
        if keys.step is not None:
            raise ValueError("a slice by keys has no step")
        lo = 0 if keys.start is None else _number(keys.start)
        # The stop itself is left out, so it may be 2**64.
        stop = _MOST + 1 if keys.stop is None or keys.stop == _MOST + 1 else _number(keys.stop)
        return self._scan(lo, stop - 1)

    def scan(self, lo=0, hi=_MOST):
        """The entries with keys from lo to hi, both included, as pairs."""
        return self._scan(_number(lo), _number(hi))

    def scan_back(self, lo=0, hi=_MOST):
        """The entries with keys from hi down to lo, both included, as pairs."""
        return self._scan(_number(lo), _number(hi), back=True)

    def page(self, lo, n):
        """The first n entries with keys from lo on, or all of these if they are fewer. No others are read."""
        return self._scan(_number(lo), _MOST, _number(n))

    def page_back(self, hi, n):
        """The last n entries with keys up to hi, the greatest first, in the same way."""
        return self._scan(0, _number(hi), _number(n), back=True)

    def irange(self, lo=None, hi=None, inclusive=(True, True), reverse=False):
        """Walks the keys from lo to hi. Each of the two is included unless `inclusive` says otherwise, and has no limit where it is None."""
        lo = 0 if lo is None else _number(lo) + (not inclusive[0])
        hi = _MOST if hi is None else _number(hi) - (not inclusive[1])
        return (key for key, _ in self._walk(lo, hi, reverse))

    def __iter__(self):
        return self.irange()

    def __reversed__(self):
        return self.irange(reverse=True)

    def keys(self):
        return _Keys(self)

    def items(self):
        return _Items(self)

    def values(self):
        return _Values(self)

    def count(self, lo=0, hi=_MOST):
        """How many entries have keys from lo to hi, both included. It walks them."""
        with self._lock:
            return sum(map(len, self._parts(_number(lo), _number(hi))))

    def first(self):
        """The entry with the least key, or None."""
        return self._least(0)

    def last(self):
        """The entry with the greatest key, or None."""
        return self._greatest(_MOST)

    def next(self, key):
        """The entry with the least key above this one, or None."""
        return self._least(_number(key) + 1)

    def prev(self, key):
        """The entry with the greatest key below this one, or None."""
        return self._greatest(_number(key) - 1)

    def at_least(self, key):
        """The entry with the least key from this one on, or None."""
        return self._least(_number(key))

    def at_most(self, key):
        """The entry with the greatest key up to this one, or None."""
        return self._greatest(_number(key))

    def _least(self, lo):
        return next(iter(self._scan(lo, _MOST, 1)), None)

    def _greatest(self, hi):
        return next(iter(self._scan(0, hi, 1, back=True)), None)

    def _scan(self, lo, hi, most=_MOST, back=False):
        """The first entries of a range, at most so many; backwards the last ones, the greatest first."""
        with self._lock:
            return [entry for part in self._parts(lo, hi, most, back) for entry in part]

    def _walk(self, lo, hi, back=False):
        """The same one by one. Between two parts others may use the object."""
        for part in self._parts(lo, hi, _MOST, back):
            yield from part

    def _parts(self, lo, hi, most=_MOST, back=False):
        """The same as lists. Each is read when it is asked for, from the key that the one before told; the first is short, for who breaks off."""
        self._is_open()
        places, end = 16, _Scanned(0, lo <= hi, hi if back else lo)
        while end.more and most:
            part = (_Entry * min(places, most))()
            if back:
                _check(self._waits("scan_back", lo, end.next, *self._tries, part, len(part), end))
            else:
                _check(self._waits("scan", end.next, hi, *self._tries, part, len(part), end))
            yield _pairs(part, end.filled)
            most -= end.filled
            places = min(8 * places, 1024)

    def __bool__(self):
        return self.first() is not None

    def __repr__(self):
        if not self._handle.at:
            return super().__repr__()
        entries = self.page(0, _SHOWN + 1)
        shown = [f"{key}: {pointer}" for key, pointer in entries[:_SHOWN]] + ["..."] * (len(entries) > _SHOWN)
        return f"{type(self).__name__}({{{', '.join(shown)}}})"


class _Changes(_Reads, MutableMapping):
    """What changes entries too. `_change` makes a change, and gives its answer."""

    def insert(self, key, pointer):
        """Maps the key to the pointer, unless the key is there: INSERTED, or EXISTS."""
        return self._change("insert", key, pointer)

    def replace(self, key, pointer):
        """Maps the key to the pointer, if the key is there: REPLACED and the pointer before, or ABSENT."""
        return self._change("replace", key, pointer)

    def remove(self, key):
        """Takes the key away: REMOVED and its pointer, or ABSENT."""
        return self._change("remove", key)

    def compare_exchange(self, key, expected, pointer):
        """Replaces the pointer of the key, if it is the expected one: REPLACED; EXISTS, and the other pointer; or ABSENT."""
        return self._change("compare_exchange", key, expected, pointer)

    def compare_remove(self, key, expected):
        """Takes the key away, if its pointer is the expected one: REMOVED; EXISTS, and the other pointer; or ABSENT."""
        return self._change("compare_remove", key, expected)

    def pop_first(self):
        """Takes the entry with the least key away, and returns it, or None. Of two sessions that do so at once each gets its own."""
        return self._pop(self.first)

    def pop_last(self):
        """Takes the entry with the greatest key away, in the same way."""
        return self._pop(self.last)

    def _pop(self, end):
        while (entry := end()) and self.compare_remove(*entry).kind != REMOVED:
            pass
        return entry

    def __setitem__(self, key, pointer):
        self.put(key, pointer)

    def __delitem__(self, key):
        self.pop(key)

    _REFUSED = object()

    def pop(self, key, default=_REFUSED):
        """Takes the key away, and returns its pointer; where it is absent the default, or it raises KeyError."""
        answer = self.remove(key)
        if answer.kind == REMOVED:
            return answer.pointer
        if default is self._REFUSED:
            raise KeyError(key)
        return default

    def popitem(self):
        """Takes the entry with the greatest key away, and returns it. Without an entry it raises KeyError."""
        entry = self.pop_last()
        if entry is None:
            raise KeyError(f"popitem(): this {type(self).__name__} is empty")
        return entry

    def setdefault(self, key, default):
        """Maps the key to the default, unless the key is there, and returns the pointer that it maps to then."""
        answer = self.insert(key, default)
        return _number(default) if answer.kind == INSERTED else answer.pointer


class _Stays(_Reads):
    """What reads while nobody changes the entries: an index and a reader."""

    def _get(self, key):
        pointer = ctypes.c_uint64()
        return pointer.value if self._call("get", key, pointer) else None

    def get_many(self, keys):
        """The pointer of each key, or None."""
        keys, count = _numbers_of(keys)
        answers = (_Answer * count)()
        _check(self._call("get_many", keys, count, answers, count))
        return [_answer(it).pointer for it in answers]

    def count(self, lo=0, hi=_MOST):
        """How many entries have keys from lo to hi, both included. It walks their leaves."""
        return self._call("count", _number(lo), _number(hi))

    def _entry(self, name, *values):
        entry = _Entry()
        return (entry.key, entry.pointer) if self._call(name, *values, entry) else None

    def first(self):
        """The entry with the least key, or None."""
        return self._entry("first")

    def last(self):
        """The entry with the greatest key, or None."""
        return self._entry("last")

    def next(self, key):
        """The entry with the least key above this one, or None."""
        return self._entry("next", _number(key))

    def prev(self, key):
        """The entry with the greatest key below this one, or None."""
        return self._entry("prev", _number(key))

    def at_least(self, key):
        """The entry with the least key from this one on, or None."""
        return self._entry("at_least", _number(key))

    def at_most(self, key):
        """The entry with the greatest key up to this one, or None."""
        return self._entry("at_most", _number(key))

    def __len__(self):
        """The number of entries, which is kept."""
        return self._call("len")

    def pages(self):
        """The number of pages, at least 1."""
        return self._call("pages")

    def fan(self):
        """The greatest number of entries in a page."""
        return self._call("fan")

    def dump(self):
        """The tree as text."""
        size = ctypes.c_size_t()
        with self._lock:
            _check(self._call("dump", (ctypes.c_uint8 * 0)(), 0, size))
            text = (ctypes.c_uint8 * size.value)()
            _check(self._call("dump", text, size.value, size))
        return bytes(text).decode()


class Index(_Stays, _Changes):
    """A dict in key order, for one thread at a time. It is made of a mapping or of pairs, in any order; of two with one key the last stays."""

    _kind = "index"

    def __init__(self, entries=(), *, fan=32):
        super().__init__()
        entries = list(entries.items() if isinstance(entries, Mapping) else entries)
        # The library keeps the first of two with one key.
        entries, count = _entries_of(reversed(entries))
        _check(_library.blink_index_from_entries(_number(fan, 8), entries, count, self._handle))

    @classmethod
    def from_sorted(cls, entries, *, fan=32):
        """Of pairs whose keys strictly ascend, in as few pages as these need. Error NOT_ASCENDING has the first bad place as `place`."""
        entries, count = _entries_of(entries)
        place = ctypes.c_size_t()
        try:
            return cls._filled(lambda out: _library.blink_index_from_sorted(_number(fan, 8), entries, count, out, place))
        except Error as error:
            if error.name == "NOT_ASCENDING":
                error.place = place.value
            raise

    def copy(self):
        """A copy, page by page. `copy.copy` and `copy.deepcopy` make one too."""
        return type(self)._filled(lambda out: self._call("copy", out))

    def __copy__(self):
        return self.copy()

    def __deepcopy__(self, _):
        return self.copy()

    def _change(self, name, *values):
        answer = _Answer()
        _check(self._call(name, *map(_number, values), answer) or 0)
        return _answer(answer)

    def put(self, key, pointer):
        """Maps the key to the pointer, and returns the pointer that was there, or None."""
        with self._lock:
            answer = self.replace(key, pointer)
            if answer.kind == ABSENT:
                self.insert(key, pointer)
            return answer.pointer

    def clear(self):
        """Takes all entries away."""
        with self._lock:
            other = type(self)._filled(lambda out: _library.blink_index_new(self.fan(), out))
            self._handle, other._handle = other._handle, self._handle
        other.free()

    def run(self, operations):
        """Runs operations, triples of a kind, a key and a pointer, on a copy, which then takes the index's place: all, or none."""
        operations = [tuple(map(_number, it)) for it in operations]
        count = len(operations)
        answers = (_Answer * count)()
        _check(self._call("run", (_Operation * count)(*operations), count, answers, count))
        return list(map(_answer, answers))

    def compact(self):
        """Packs the entries into as few pages as they need."""
        _check(self._call("compact"))

    def share(self):
        """Gives a reader; this object is closed then."""
        return Reader._filled(lambda out: self._call("share", out))


class Reader(_Stays):
    """Reads an index that other threads read at the same time, each by a reader of its own, which `join` gives."""

    _kind = "reader"

    def __init__(self):
        raise TypeError("Index.share and Reader.join give readers")

    def join(self):
        """One more reader of the same index, for another thread."""
        return Reader._filled(lambda out: self._call("join", out))

    def unshare(self):
        """Gives the index back; this object is closed then. Error SHARED, if another reader has the index, leaves it as it was."""
        return Index._filled(lambda out: self._call("unshare", out))


class Session(_Changes):
    """The right to read and change a map, for a thread. `Map.join` gives it; its place is free again once it is freed. Its calls wait while
    the map is renewed, and its changes renew it where it is full. A change has the lock throughout, so that nothing comes between two steps."""

    _kind = "session"
    _tries = (_TRIES,)
    _try = "_try"

    def __init__(self):
        raise TypeError("Map.join gives sessions")

    # Whether an operation may be under way: an exception, as of a signal's handler, came before its end.
    _under_way = False

    def _ends(self, change):
        """Makes a change. What an exception leaves under way is ended before it goes on, or before the next change."""
        with self._lock:
            if self._under_way:
                self._end()
            self._under_way = True
            try:
                code = change()
            except BaseException:
                self._end()
                raise
            self._under_way = False
            _check(code)

    def _end(self):
        answer, pauses = _Answer(), _pauses()
        while self._handle.at and self._call("advance", _TRIES, answer) == CODES["PENDING"]:
            next(pauses)
        self._under_way = False

    def _get(self, key):
        answer = _Answer()
        _check(self._waits("get", key, *self._tries, answer))
        return answer.pointer if answer.kind == FOUND else None

    def __len__(self):
        """The number of entries, by a walk over all of them."""
        return self.count()

    def snapshot(self, lo=0, hi=_MOST, tries=100):
        """The entries of a range as they all were at one time; None where others changed the range at each try."""
        places, lo, hi, tries = 256, _number(lo), _number(hi), _number(tries, 32)
        while True:
            entries, taken = (_Entry * places)(), _Taken()
            _check(self._waits("snapshot", lo, hi, tries, entries, places, taken))
            if not taken.taken:
                return None
            if taken.there <= places:
                return _pairs(entries, taken.there)
            places = taken.there

    def _change(self, name, *values):
        """As the functions of blink.h that wait: where the map can't be renewed, each new try looks ten times as often, up to _MOST_TRIES."""
        name, values, answer = name + self._try, [_number(value) for value in values], _Answer()

        def change():
            tries, pauses, code = _TRIES, _pauses(), self._call(name, *values, _TRIES, answer)
            while code in (CODES["PENDING"], CODES["ROWS_BUSY"], CODES["RENEWING"]):
                next(pauses)
                if code == CODES["PENDING"]:
                    code = self._call("advance", _TRIES, answer)
                else:
                    tries = min(10 * tries, _MOST_TRIES) if code == CODES["RENEWING"] else tries
                    code = self._call(name, *values, tries, answer)
            return code

        self._ends(change)
        return _answer(answer)

    def put(self, key, pointer):
        """Maps the key to the pointer, and returns the pointer that was there, or None."""
        return self._change("put", key, pointer).pointer

    def clear(self):
        """Takes away each key that a walk comes to. One that another session inserts meanwhile may stay."""
        for key in self:
            self.remove(key)

    def reserve(self):
        reserve = _Reserve()
        _check(self._waits("reserve", _TRIES, reserve))
        return Reserve(*(getattr(reserve, field) for field in Reserve._fields))

    @contextlib.contextmanager
    def hold(self):
        """Holds the session, so that its calls find no renewal: a few calls at most, since the map can't be renewed meanwhile."""
        with self._lock:
            _check(self._waits("hold", _TRIES))
            try:
                yield self
            finally:
                self._call("let_go")


class Map(_Owner):
    """The entries of an index, or none, which threads change together, each by a session. Where it is full it goes on in a larger one.
    It is no mapping itself: its sessions are."""

    _kind = "map"

    def __init__(self, index=None):
        super().__init__()
        _check(_opens(Index() if index is None else index, "map_open", self._handle))

    @classmethod
    def with_room(cls, index, pages, rows, sessions, fixed=False):
        """With this room for its first changes; `room_for` works out pages and rows. If that is fixed, the map is never renewed, so no call
        waits for a copy, and a change that finds it full has error FULL."""
        room = [_number(it, 32) for it in (pages, rows, sessions)]
        return cls._filled(lambda out: _opens(index, "map_open_with_room", *room, bool(fixed), out))

    def join(self):
        """A session, for a thread."""
        return Session._filled(lambda out: self._call("join_alone", out))

    def room(self):
        """What the pool has left: page numbers, and rows. Error RENEWING, if each session is held or in a call, or the map is being renewed."""
        pages, rows = ctypes.c_uint64(), ctypes.c_uint64()
        _check(self._call("room_alone", _TRIES, pages, rows))
        return pages.value, rows.value

    def renew(self, looks=_TRIES):
        """Renews it in good time. Error RENEWING, if a session is held or in a call at each of so many looks, leaves it as it was."""
        _check(self._call("renew", _number(looks, 32)))

    def close(self):
        """Gives the index of all entries, once each session is freed. A refused close may be called again, and has lost
        nothing."""
        index = Index._filled(lambda out: self._call("close", out))
        self.free()
        return index


def room_for(index, insertions, sessions):
    """A room that is enough for so many insertions of absent keys into a map over this index, as blink_room_for works it out."""
    insertions, sessions = _number(insertions, 32), _number(sessions, 32)
    half = (index.fan() + 1) // 2
    leaves = index.pages() + insertions // half
    pages = leaves * half // (half - 1) + 21 + 86 * sessions
    rows = 2 * pages + 300 * sessions
    most = 2**32 - 1
    return Room(min(pages, most), min(rows, most), sessions)


def _opens(index, call, *values):
    """Opens a map over an index. Returns the code."""
    if type(index) is not Index:
        raise TypeError("it is opened over an Index")
    with index._lock:
        index._is_open()
        return getattr(_library, f"blink_{call}")(index._handle, *values)
