"""Trees for programs that count cards themselves, and handles, a thread's way to a tree."""

from __future__ import annotations

import threading
import types
from typing import TYPE_CHECKING, NoReturn, SupportsIndex

from ._arguments import NUMBERS, Pairs, pair_list, whole
from ._codes import CLOSED, Refused
from ._library import HandleCore
from ._ordered import Ordered

if TYPE_CHECKING:
    from typing_extensions import Self


def _one_more(handles: SupportsIndex) -> int:
    """Returns one more than a number of handles."""
    return whole(handles, *NUMBERS["h"]) + 1


class Tree:
    """A tree with a fixed number of cards, for a program that counts its cards itself, or whose cards come back. A Map has no cards to count.

    The method handle makes a handle for each thread. All handles of a tree find and change the same keys, and none of them waits for another. All
    their finds and changes together answer as if they had been made one after the other. Each change takes a card, and so may a try that another
    thread hinders. No card is given back; cards_left of a handle tells how many are left. Then changes raise Spent, and a new tree of the pairs goes
    on: Tree(handle.range(), cards).

    In a tree with a number of handles, cards come back while it is open: once what a change took out of the tree is read by no call any more, its
    card serves another change. For n keys at a time and h handles, ask for 2 * n + 3 * h + 8 cards, and some more for those that come free while the
    oldest call goes on, and shortly before it. A thread that stands still in a call holds cards back until it goes on; a change that can take no card
    raises Spent, and may be made again.

    The tree ends once it and all its handles are dropped or closed. It can't be copied or pickled. A forked child of a program with threads may not
    use it or its handles, which nothing checks: only a Map refuses such calls.
    """

    __slots__ = ("_core", "_lock", "__weakref__")

    def __init__(self, start: Pairs = (), cards: SupportsIndex = 1_000_000, handles: SupportsIndex | None = None) -> None:
        """Opens a tree with this number of cards, in which the keys of start, a dict or pairs in ascending order, are present with their values.
        With a number of handles, up to 999,999, its cards come back, and it has so many handles at a time.

        With glibc, a tree of more than 300,000 cards and start keys together takes more than three times as long for each of them.
        """
        # The tree keeps its first handle.
        self._core = HandleCore(pair_list(start), cards, None if handles is None else _one_more(handles))
        self._lock = threading.Lock()

    def handle(self) -> Handle:
        """Makes a handle, for one thread. Any thread may call this at any time. A tree makes more than 1,300,000 handles, also counting those that
        were closed, and then refuses (TOO_MANY_HANDLES). So does one with a number of handles while it has so many: one that is closed makes room for
        another."""
        return Handle(self)

    def __reduce_ex__(self, _: SupportsIndex) -> NoReturn:
        raise TypeError("a tree is not copied or pickled: Tree(handle.range()) is another one with its pairs")


class Handle(Ordered):
    """A thread's access to a tree, which the tree's method handle makes. At the end of a with block it is closed. It can't be copied or pickled.

    A handle is in one call at a time: a second call is refused meanwhile (IN_CALL). A call that changes a key makes at most this number of tries, and
    raises Busy if other threads were in the way of each. It raises Spent if it needs a card and gets none.
    """

    __slots__ = ()

    def __init__(self, tree: Tree) -> None:
        with tree._lock:
            self._core = tree._core.another()

    def __reduce_ex__(self, _: SupportsIndex) -> NoReturn:
        raise TypeError("a handle is not copied or pickled: it is of one thread")

    def __repr__(self) -> str:
        try:
            return f"<elltree.Handle: cards_left={self.cards_left()}>"
        except Refused as why:
            return f"<elltree.Handle: {why}>"

    def find(self, key: SupportsIndex) -> int | None:
        """Returns the value of a key, or None if the key is absent."""
        return self._core.find(key)

    def look(self, key: SupportsIndex) -> int | None:
        """Returns the value of a key, or None if the key is absent, as it was at one moment of the call. A look makes fewer steps than a find, and
        has no place in the one order in which finds and changes answer."""
        return self._core.look(key)

    def insert(self, key: SupportsIndex, value: SupportsIndex, tries: SupportsIndex = 1000) -> bool:
        """Adds a key, and returns whether it was absent. A key that is present keeps its value."""
        return self._core.insert(key, value, tries)

    def put(self, key: SupportsIndex, value: SupportsIndex, tries: SupportsIndex = 1000) -> int | None:
        """Stores the value of a key, whether it is present or absent, in one atomic step. Returns the value that it had, or None if it was absent."""
        return self._core.put(key, value, tries)

    def delete(self, key: SupportsIndex, tries: SupportsIndex = 1000) -> bool:
        """Removes a key, and returns whether it was present."""
        return self._core.delete(key, tries)

    def take(self, key: SupportsIndex, tries: SupportsIndex = 1000) -> int | None:
        """Removes a key as delete does, and returns the value that it had, or None if it was absent. No other thread took that value."""
        return self._core.take(key, tries)

    def compare_exchange(self, key: SupportsIndex, current: SupportsIndex, new: SupportsIndex, tries: SupportsIndex = 1000) -> int | None:
        """Stores new as the value of a key if its value is current, in one atomic step. Returns the value that was found, or None if the key is
        absent: new was stored if and only if the value found is current."""
        return self._core.compare_exchange(key, current, new, tries)

    def remove_if(self, key: SupportsIndex, value: SupportsIndex, tries: SupportsIndex = 1000) -> int | None:
        """Removes a key if it has this value, in one atomic step. Returns the value that was found, or None if the key is absent: the key was removed
        if and only if the value found is this one."""
        return self._core.remove_if(key, value, tries)

    def fetch_add(self, key: SupportsIndex, addend: SupportsIndex, tries: SupportsIndex = 1000) -> int | None:
        """Adds to the value of a key in one atomic step. Returns the value that it had, or None if the key is absent: then it stays absent. A sum
        above 2**64 - 1 wraps around."""
        return self._core.fetch_add(key, addend, tries)

    def cards_left(self) -> int:
        """Returns how many cards of the tree are left, as it was at one moment of the call. Other handles may take some meanwhile, and the number
        never rises. In a tree whose cards come back it is no number of cards, but tells how many card numbers are left, of 4611686018427387903. Each
        change uses some."""
        return self._core.cards_left()

    def steps(self) -> int:
        """Returns how many atomic steps were made through the handle. In a tree whose cards come back, the steps that keep account of
        which cards are free are not counted."""
        return self._core.steps()

    def close(self) -> None:
        """Ends the handle. Nothing happens to a handle that is closed already."""
        try:
            self._core.free()
        except Refused as why:
            if why.code != CLOSED:
                raise

    def __enter__(self) -> Self:
        return self

    def __exit__(self, kind: type[BaseException] | None, why: BaseException | None, trace: types.TracebackType | None) -> None:
        try:
            self.close()
        except Refused:
            # What the block raised says more than that another call is on the handle.
            if kind is None:
                raise
