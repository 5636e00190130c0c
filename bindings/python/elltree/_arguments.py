"""What calls take: the one list of the library's functions, and what programs give, checked and as the library takes it."""

from __future__ import annotations

import numbers
import operator
from collections.abc import Iterable, Mapping
from typing import SupportsIndex

KEY_MAX = 2**64 - 3

# The end of a range that has none: no key is so great.
NO_END = 2**64 - 1

# The functions of the library, by their names without elltree_slot_ or elltree_map_, and their signatures: a letter for each thing that they take.
# Small letters are numbers, and capital ones are pointers:
#   k, v, a, c, t, h a key, a value, an addend, the number of cards, the number of tries, the number of handles
#   n                how many items an array has, or how many bytes a struct
#   V, N             to a value or a key, and to a number of items, which the function writes unless it answers no
#   W                to a value that it writes whatever it answers
#   E                to the expected value, in place of which it writes the one that it found
#   S, M             to what the library keeps of a handle, and of a map
#   P, A, O, C       to pairs, to where a new map is written, to the settings and to the counters of a map
# From these _functions makes what ctypes has to know, and its methods. The methods of the compiled module have their signatures as __doc__.
OF_SLOTS = {
    "open": "SPnc",
    "open_reusing": "SPnch",
    "another": "SS",
    "free": "S",
    "find": "SkV",
    "look": "SkV",
    "insert": "Skvt",
    "put": "SkvtV",
    "delete": "Skt",
    "take": "SktV",
    "compare_exchange": "SkvvtV",
    "remove_if": "SkvtV",
    "fetch_add": "SkatV",
    "range": "SkkPnNV",
    "next_at_least": "SkVV",
    "last_at_most": "SkVV",
    "cards_left": "SV",
    "steps": "SV",
}
OF_MAPS = {
    "from_sorted": "APnOn",
    "free": "M",
    "get": "MkV",
    "insert": "Mkv",
    "put": "MkvV",
    "get_or_insert": "MkvW",
    "remove": "MkV",
    "delete": "Mk",
    "remove_if": "MkvV",
    "compare_exchange": "MkEv",
    "fetch_add": "MkaV",
    "pop_first": "MVV",
    "pop_last": "MVV",
    "range": "MkkPnNV",
    "next_at_least": "MkVV",
    "last_at_most": "MkVV",
    "len": "MN",
    "pairs": "MPnN",
    "renew": "M",
    "counts": "MCn",
}

# The numbers that programs give, by their letters: how many bits each has, and what it is called.
NUMBERS = {
    "k": (64, "a key"),
    "v": (64, "a value"),
    "E": (64, "a value"),
    "a": (64, "an addend"),
    "c": (64, "the number of cards"),
    "t": (32, "the number of tries"),
    "h": (32, "the number of handles"),
}

# Keys with their values. Those of a mapping may have any order.
Pairs = Mapping[int, int] | Iterable[tuple[SupportsIndex, SupportsIndex]]


def whole(number: SupportsIndex, bits: int, what: str) -> int:
    """Returns the number, if this number of bits holds it: ctypes would drop what is above them."""
    try:
        number = operator.index(number)
    except TypeError:
        raise TypeError(f"{what} has to be an int, not {type(number).__name__}") from None
    if not 0 <= number < 1 << bits:
        raise OverflowError(f"{what} has to be 0 to 2**{bits} - 1")
    return number


def as_key(key: SupportsIndex) -> int:
    return whole(key, *NUMBERS["k"])


def like_key(given: object) -> int:
    """Returns the key of a map that is equal to an object, as a dict would find it: that of an int, of what stands for one, or of a number such as
    1.0. If there is none, returns NO_END, which no map has as a key. What has no hash raises TypeError."""
    try:
        number = operator.index(given)  # type: ignore[arg-type]
    except TypeError:
        if hasattr(type(given), "__index__"):
            raise
        hash(given)  # raises where a dict would
        number = _equal_int(given)
    return number if 0 <= number <= KEY_MAX else NO_END


def _equal_int(given: object) -> int:
    """Returns the int that is equal to an object that is none, or NO_END."""
    if not isinstance(given, numbers.Number):
        return NO_END
    try:
        number = int(given.real if isinstance(given, complex) else given)  # type: ignore[call-overload]
    except (TypeError, ValueError, OverflowError):
        return NO_END
    return number if number == given else NO_END


def pair_list(pairs: Pairs) -> list[tuple[SupportsIndex, SupportsIndex]]:
    """Returns the pairs as a list of tuples: those of a mapping ascend by their keys."""
    return [(key, value) for key, value in (sorted(pairs.items()) if isinstance(pairs, Mapping) else pairs)]
