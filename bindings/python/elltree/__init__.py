"""An ordered map from 64-bit keys to 64-bit values for many threads.

    m = elltree.Map({2: 20})   # one map, which any thread uses at any time like a dict of numbers
    m[3] = 30
    m.insert(3, 31)      # False: the key is there
    m.fetch_add(2, 1)    # 20: the value that it had
    m.pop(3)             # 30
    list(m.items())      # [(2, 21)]: the pairs of all keys, ascending

A Map renews its cards by itself, while other threads go on. A program that counts cards itself, and never waits, has a Tree instead, and a handle of
it for each thread:

    tree = elltree.Tree({2: 20}, cards=100_000)
    with tree.handle() as handle:   # for one thread
        handle.insert(3, 30)        # True
        handle.compare_exchange(2, 20, 21)   # 20: the value that it had, and so it is 21 now
        list(handle.range())        # [(2, 21), (3, 30)]: the pairs of all keys, ascending
        handle.cards_left()         # 99998

A handle can be in one call at a time: a second call is refused meanwhile. If the exception of a signal, such as KeyboardInterrupt, interrupts a call,
the handle is free for the next one, but you can't tell whether the interrupted call took effect.

A number that does not fit into 64 bits raises OverflowError, and anything that is not an integer raises TypeError. Every other refusal raises
Refused, whose code is a Code. What a Map has from a dict finds such a key absent, as a dict does: `in`, get, [], pop and del.

The package needs Python 3.10 or later. If the headers of Python were there when it was installed, a compiled module in it contains the library. If
not, or if the environment variable ELLTREE_PURE or ELLTREE_LIBRARY is not empty, each call goes through ctypes, which takes many times as long. The
library is then the file named in ELLTREE_LIBRARY, or else libelltree.so in the package, as in a wheel, or else lib/libelltree.so.0 of the prefix in
which the package is installed, or else libelltree.so.0 as the system finds it.
"""

from ._arguments import KEY_MAX
from ._codes import (
    BAD_CARDS,
    BAD_KEY,
    BAD_START,
    BUSY,
    CLOSED,
    FORKED,
    IN_CALL,
    NO,
    NO_MEMORY,
    NO_ROOM,
    NO_TRIES,
    NULL,
    OPEN,
    OTHER_VALUE,
    SAME,
    SPENT,
    TOO_MANY_HANDLES,
    YES,
    Busy,
    Code,
    Refused,
    Spent,
    text,
)
from ._map import Map
from ._tree import Handle, Tree

__version__ = "0.3.0"

__all__ = [
    "BAD_CARDS",
    "BAD_KEY",
    "BAD_START",
    "BUSY",
    "CLOSED",
    "FORKED",
    "IN_CALL",
    "KEY_MAX",
    "NO",
    "NO_MEMORY",
    "NO_ROOM",
    "NO_TRIES",
    "NULL",
    "OPEN",
    "OTHER_VALUE",
    "SAME",
    "SPENT",
    "TOO_MANY_HANDLES",
    "YES",
    "Busy",
    "Code",
    "Handle",
    "Map",
    "Refused",
    "Spent",
    "Tree",
    "__version__",
    "text",
]

# Tracebacks and pickles name the package, and not the module in it.
for _public in (Busy, Code, Handle, Map, Refused, Spent, Tree):
    _public.__module__ = __name__
del _public
