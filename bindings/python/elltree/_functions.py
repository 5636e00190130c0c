"""The library by ctypes, where the compiled module _elltree is not there. This has the same names, and each does the same.

The cores take numbers as programs give them, and raise what is wrong with them.
"""

from __future__ import annotations

import ctypes
import os
from collections.abc import Callable, Mapping
from ctypes import POINTER, c_bool, c_char_p, c_int32, c_size_t, c_uint32, c_uint64, c_void_p
from typing import Any, SupportsIndex

from ._arguments import NUMBERS, OF_MAPS, OF_SLOTS, whole
from ._codes import IN_CALL, NO_ROOM, answer

_PairList = list[tuple[SupportsIndex, SupportsIndex]]


class Slot(ctypes.Structure):
    """What the library keeps of a handle. One that is all zeros holds nothing."""

    _fields_ = [("at", c_void_p), ("is_open", c_bool)]


class Pair(ctypes.Structure):
    """A key and its value."""

    _fields_ = [("key", c_uint64), ("value", c_uint64)]


class MapSettings(ctypes.Structure):
    """How a map is set up."""

    _fields_ = [("cards", c_uint64), ("renewal_percent", c_uint32), ("renewal_microseconds", c_uint32), ("calls", c_uint32)]


class MapCounters(ctypes.Structure):
    """What has happened to a map."""

    _fields_ = [
        ("sections", c_uint64),
        ("cards", c_uint64),
        ("renewals", c_uint64),
        ("early_renewals", c_uint64),
        ("renewal_nanoseconds", c_uint64),
        ("pause_nanoseconds", c_uint64),
        ("longest_nanoseconds", c_uint64),
    ]


# The types of what functions take, by the letters of the list.
_TYPES: dict[str, Any] = {
    **dict.fromkeys("kvac", c_uint64),
    **dict.fromkeys("th", c_uint32),
    "n": c_size_t,
    **dict.fromkeys("VWE", POINTER(c_uint64)),
    "N": POINTER(c_size_t),
    "S": POINTER(Slot),
    "M": c_void_p,
    "P": POINTER(Pair),
    "A": POINTER(c_void_p),
    "O": POINTER(MapSettings),
    "C": POINTER(MapCounters),
}
# What is made for a function to write a number to.
_PLACES: dict[str, Any] = {**dict.fromkeys("VWE", c_uint64), "N": c_size_t}


def _load() -> ctypes.CDLL:
    """Loads the library from ELLTREE_LIBRARY, or else the one in this package, or of the prefix that it is installed in, or that the system finds."""
    here = os.path.dirname(os.path.abspath(__file__))
    near = (os.path.join(here, it) for it in ("libelltree.so", "../../../../lib/libelltree.so.0"))
    return ctypes.CDLL(os.environ.get("ELLTREE_LIBRARY") or next(filter(os.path.exists, near), "libelltree.so.0"))


def _declared(prefix: str, of: Mapping[str, str]) -> dict[str, Callable[..., int]]:
    """Returns functions that answer with a code, by their names without the prefix."""
    functions: dict[str, Callable[..., int]] = {}
    for name, takes in of.items():
        function = getattr(_loaded, prefix + name)
        function.argtypes, function.restype = [_TYPES[letter] for letter in takes], c_int32
        functions[name] = function
    return functions


_loaded = _load()
slot_calls = _declared("elltree_slot_", OF_SLOTS)
map_calls = _declared("elltree_map_", OF_MAPS)

write_text = _loaded.elltree_code_text
write_text.argtypes, write_text.restype = [c_int32, c_char_p, c_size_t], c_size_t

# Room for the text of each code, and the 0 behind it.
_TEXT_ROOM = 64


def code_text(code: int) -> str:
    """Returns what a code says."""
    out = ctypes.create_string_buffer(_TEXT_ROOM)
    write_text(code, out, _TEXT_ROOM)
    return out.value.decode()


def _pair_array(pairs: _PairList) -> tuple[ctypes.Array[Pair], int]:
    """Returns an array of the pairs, and how many they are."""
    listed = [Pair(whole(key, *NUMBERS["k"]), whole(value, *NUMBERS["v"])) for key, value in pairs]
    return (Pair * max(1, len(listed)))(*listed), len(listed)


def _pairs_of(array: ctypes.Array[Pair], count: int) -> list[tuple[int, int]]:
    return [(pair.key, pair.value) for pair in array[:count]]


def _method(name: str, takes: str) -> Callable[..., object]:
    """Returns the method of a core that calls a function with this signature. Its arguments are the numbers that a program gives. It returns the
    numbers that the function writes, or None if that answers no. If it writes none, the method returns whether it answers yes."""
    kinds = [NUMBERS[letter] for letter in takes if letter in NUMBERS]
    places = [_PLACES[letter] for letter in takes if letter in _PLACES]
    behind = slice(1, 2) if "E" in takes else slice(len(kinds), None)

    def method(core: _Core, *given: SupportsIndex) -> object:
        args = [whole(number, bits, what) for number, (bits, what) in zip(given, kinds)]
        # A function that finds the value that it expects, which is the second number, need not write it.
        args[behind] = told = [place(*args[1:2]) for place in places]
        code = core._code(name, *args)
        is_yes = answer(code)
        if not told:
            return is_yes
        if "W" in takes:
            return told[0].value, is_yes
        if not code:
            return None
        return told[0].value if len(told) == 1 else (told[0].value, told[1].value)

    return method


class _Core:
    """What the library keeps of a handle or of a map, and the calls on it. A class of this has a method for each function of a list that takes and
    writes nothing but numbers."""

    __slots__ = ()

    def __init_subclass__(cls, of: Mapping[str, str]) -> None:
        for name, takes in of.items():
            if {*takes[1:]} <= {*NUMBERS, *_PLACES}:
                setattr(cls, name, _method(name, takes))

    def _code(self, name: str, *args: object) -> int:
        """Returns the code of a call of the library."""
        raise NotImplementedError

    def range(self, start: int, stop: int, room: int) -> tuple[list[tuple[int, int]], int]:
        """Returns the first pairs of a range, as many as there is room for, and where to go on."""
        count, following, out = c_size_t(), c_uint64(), (Pair * room)()
        answer(self._code("range", start, stop, out, room, count, following))
        return _pairs_of(out, count.value), following.value


class HandleCore(_Core, of=OF_SLOTS):
    """What the library keeps of a handle. It is in one call at a time."""

    __slots__ = ("_calls", "_slot")

    def __init__(self, start: _PairList, cards: SupportsIndex, handles: SupportsIndex | None) -> None:
        self._hold_nothing()
        given = (*_pair_array(start), whole(cards, *NUMBERS["c"]))
        if handles is None:
            answer(self._code("open", *given))
        else:
            answer(self._code("open_reusing", *given, whole(handles, *NUMBERS["h"])))

    def _hold_nothing(self) -> None:
        self._slot = Slot()
        # The calls that have not ended. The handle is in the first one, and the others are about to be refused.
        self._calls: dict[object, None] = {}

    def another(self) -> HandleCore:
        """Returns the core of another handle of the tree."""
        other = HandleCore.__new__(HandleCore)
        other._hold_nothing()
        answer(self._code("another", other._slot))
        return other

    def _code(self, name: str, *args: object) -> int:
        """Python raises the exception of a signal once a function of C has returned, not within one. So each call is an entry of a dict, and not a
        flag that is read and then set: an exception between the two would leave the handle in a call forever."""
        call = object()
        try:
            self._calls[call] = None
            return slot_calls[name](self._slot, *args) if list(self._calls)[0] is call else IN_CALL
        finally:
            self._calls.pop(call, None)

    def __del__(self, free: Callable[[Slot], int] = slot_calls["free"]) -> None:
        if hasattr(self, "_slot"):
            free(self._slot)


class MapCore(_Core, of=OF_MAPS):
    """What the library keeps of a map."""

    __slots__ = ("_at",)

    def __init__(self, start: _PairList, cards: int, renewal_percent: int, renewal_microseconds: int, calls: int) -> None:
        self._at = c_void_p()
        settings = MapSettings(cards, renewal_percent, renewal_microseconds, calls)
        answer(self._code("from_sorted", *_pair_array(start), settings, ctypes.sizeof(settings)))

    def _code(self, name: str, *args: object) -> int:
        return map_calls[name](self._at, *args)

    def pairs(self) -> list[tuple[int, int]]:
        """Returns all pairs as they are at one moment."""
        count, code = c_size_t(), int(NO_ROOM)
        self._code("len", count)
        while code == NO_ROOM:
            room = count.value + count.value // 8 + 1  # others may add some before the moment comes
            out = (Pair * room)()
            code = self._code("pairs", out, room, count)
        answer(code)
        return _pairs_of(out, count.value)

    def counts(self) -> dict[str, int]:
        """Returns what has happened to the map."""
        counts = MapCounters()
        answer(self._code("counts", counts, ctypes.sizeof(counts)))
        return {name: getattr(counts, name) for name, *_ in MapCounters._fields_}

    def __del__(self, free: Callable[[c_void_p], int] = map_calls["free"]) -> None:
        # Whoever is in a call has the core too, so that no call is under way.
        if hasattr(self, "_at"):
            free(self._at)


del MapCore.free  # type: ignore[attr-defined]  # Nothing else ends a map.
