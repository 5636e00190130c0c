"""One map object that all threads share."""

from __future__ import annotations

import collections.abc
from collections.abc import Callable, Iterator
from typing import Any, NoReturn, SupportsIndex, TypeVar, overload

from ._arguments import KEY_MAX, NO_END, NUMBERS, Pairs, as_key, like_key, pair_list, whole
from ._codes import Refused
from ._library import MapCore
from ._ordered import Ordered

_Default = TypeVar("_Default")


class _Keys(collections.abc.KeysView[int]):
    """The keys of a map, in ascending order, or in descending order by reversed()."""

    __slots__ = ()

    _mapping: Map

    def __reversed__(self) -> Iterator[int]:
        return reversed(self._mapping)


class _Items(collections.abc.ItemsView[int, int]):
    """The pairs of a map, which are found a few at a time, so that a key that another thread takes away is no error."""

    __slots__ = ()

    _mapping: Map

    def __iter__(self) -> Iterator[tuple[int, int]]:
        return self._mapping.range()

    def __reversed__(self) -> Iterator[tuple[int, int]]:
        return self._mapping._backwards()


class _Values(collections.abc.ValuesView[int]):
    """The values of a map, which are found as its pairs are."""

    __slots__ = ()

    _mapping: Map

    def __contains__(self, value: object) -> bool:
        return any(there == value for there in self)

    def __iter__(self) -> Iterator[int]:
        return (value for _, value in self._mapping.range())

    def __reversed__(self) -> Iterator[int]:
        return (value for _, value in self._mapping._backwards())


class Map(Ordered, collections.abc.MutableMapping[int, int]):
    """A dict of numbers that all threads share. Keys are 0 to KEY_MAX, values are 0 to 2**64 - 1, and iterations go over the keys in ascending order.

    Any thread may make any call at any time. The calls that find or change a key answer as if they had been made one after the other. An iteration is
    not a snapshot, while pairs is: each key is shown as it was at some moment after the iteration began, and changes meanwhile are no error. The map
    renews its trees by itself, while other calls go on; counts tells how long they had to wait. This part is tested and not proved. A call that
    changes a key may wait for a thread that is stopped inside a call. Going back, by reversed, makes a search for each key.

    What a dict has answers as a dict does: to `in`, get, [], pop and del a key is absent that no map has, such as "1", None, -1 or 2**64, and 1.0 is
    the key 1. Calls that store a value take ints of 64 bits and what stands for one, as do the calls that no dict has: anything else raises
    TypeError or OverflowError, and a key above KEY_MAX raises Refused (BAD_KEY).

    A map can't be copied or pickled, and a forked child can't use it: calls are refused there (FORKED).
    """

    __slots__ = ()

    def __init__(
        self,
        start: Pairs = (),
        cards: SupportsIndex = 0,
        renewal_percent: SupportsIndex = 0,
        renewal_microseconds: SupportsIndex = 0,
        calls: SupportsIndex = 0,
    ) -> None:
        """Makes a map with the pairs of start, a dict or pairs in any order.

        cards is how many cards the new map has besides those of its pairs, and calls how many calls may be under way at once. What is 0 is left to
        the map. renewal_percent and renewal_microseconds have no effect any more.
        """
        self._core = MapCore(
            pair_list(dict(start)),
            whole(cards, *NUMBERS["c"]),
            whole(renewal_percent, 32, "renewal_percent"),
            whole(renewal_microseconds, 32, "renewal_microseconds"),
            whole(calls, 32, "calls"),
        )

    def __reduce_ex__(self, _: SupportsIndex) -> NoReturn:
        raise TypeError("a map is not copied or pickled: dict(map) is a copy of its pairs")

    @overload
    def get(self, key: object, default: None = None) -> int | None: ...

    @overload
    def get(self, key: object, default: _Default) -> int | _Default: ...

    def get(self, key: object, default: Any = None) -> Any:
        """Returns the value of the key, or the default if the key is absent."""
        value = self._found(key)
        return default if value is None else value

    def _found(self, key: Any) -> int | None:
        """Returns the value of the key that a dict would find, or None if there is none."""
        try:
            return self._core.get(key)
        except (TypeError, OverflowError):
            pass  # It is no key of 64 bits, but it may be equal to one.
        return self._core.get(like_key(key))

    def _taken(self, key: Any) -> int | None:
        """Removes the key that a dict would find, and returns the value that it had, or None if there is none."""
        key = like_key(key)
        return self._core.remove(key) if key <= KEY_MAX else None

    def __getitem__(self, key: object) -> int:
        value = self._found(key)
        if value is None:
            raise KeyError(key)
        return value

    def __contains__(self, key: object) -> bool:
        return self._found(key) is not None

    def __setitem__(self, key: SupportsIndex, value: SupportsIndex) -> None:
        self._core.put(key, value)

    def __delitem__(self, key: object) -> None:
        if self._taken(key) is None:
            raise KeyError(key)

    def __len__(self) -> int:
        """Returns how many keys are present. The number is exact if no change is under way, and otherwise the sum of the changes so far."""
        return self._core.len()

    def __iter__(self) -> Iterator[int]:
        return (key for key, _ in self.range())

    def __reversed__(self) -> Iterator[int]:
        return (key for key, _ in self._backwards())

    def _backwards(self) -> Iterator[tuple[int, int]]:
        """Returns a generator of all pairs in the descending order of their keys, which is worth as much as that of range."""
        pair = self.last()
        while pair is not None:
            yield pair
            pair = self.last_before(pair[0])

    def __repr__(self) -> str:
        try:
            return f"<elltree.Map of {len(self)} keys>"
        except Refused as why:
            return f"<elltree.Map: {why}>"

    def keys(self) -> collections.abc.KeysView[int]:
        """Returns a view of the keys, in ascending order."""
        return _Keys(self)

    def items(self) -> collections.abc.ItemsView[int, int]:
        """Returns a view of the pairs, in the ascending order of their keys."""
        return _Items(self)

    def values(self) -> collections.abc.ValuesView[int]:
        """Returns a view of the values, in the order of their keys."""
        return _Values(self)

    def insert(self, key: SupportsIndex, value: SupportsIndex) -> bool:
        """Adds a key, and returns whether it was absent. A key that is present keeps its value."""
        return self._core.insert(key, value)

    def get_or_insert(self, key: SupportsIndex, value: SupportsIndex) -> tuple[int, bool]:
        """Adds a key if it is absent, in one atomic step. Returns the value that the key has then, and whether it was added."""
        return self._core.get_or_insert(key, value)

    def put(self, key: SupportsIndex, value: SupportsIndex) -> int | None:
        """Stores the value of a key, whether it is present or absent, in one atomic step. Returns the value that it had, or None if it was absent."""
        return self._core.put(key, value)

    def delete(self, key: SupportsIndex) -> bool:
        """Removes a key, and returns whether it was present."""
        return self._core.delete(key)

    def remove(self, key: SupportsIndex) -> int | None:
        """Removes a key, and returns the value that it had, or None if it was absent. No other thread took that value."""
        return self._core.remove(key)

    def remove_if(self, key: SupportsIndex, value: SupportsIndex) -> int | None:
        """Removes a key if it has this value, in one atomic step. Returns the value that was found, or None if the key is absent: the key was removed
        if and only if the value found is this one."""
        return self._core.remove_if(key, value)

    @overload
    def pop(self, key: object) -> int: ...

    @overload
    def pop(self, key: object, default: _Default, /) -> int | _Default: ...

    def pop(self, key: object, *default: Any) -> Any:
        """Removes a key, and returns the value that it had, or the default if it was absent. Without a default an absent key raises KeyError."""
        if len(default) > 1:
            raise TypeError(f"pop takes one default, not {len(default)}")
        value = self._taken(key)
        if value is not None:
            return value
        if not default:
            raise KeyError(key)
        return default[0]

    def pop_first(self) -> tuple[int, int] | None:
        """Removes the smallest key, and returns it with the value that it had, or None if there is none. No other call returns this pair, so that
        threads that empty a map get each pair once. Each smaller key was absent at a moment of the call: so the key was the smallest one when it was
        removed, unless another thread has added a smaller one during the call. None means that each key was absent at a moment of the call, and not
        that the map was empty, unless nobody adds keys meanwhile."""
        return self._core.pop_first()

    def pop_last(self) -> tuple[int, int] | None:
        """Removes the greatest key, and returns it with the value that it had, or None, as pop_first does with the smallest one."""
        return self._core.pop_last()

    def popitem(self) -> tuple[int, int]:
        """Removes the smallest key, and returns it with the value that it had, as pop_first does, or raises KeyError if the map is empty. (A dict
        removes the item that was added last, which a map doesn't know.)"""
        pair = self.pop_first()
        if pair is None:
            raise KeyError("the map is empty")
        return pair

    def setdefault(self, key: SupportsIndex, default: SupportsIndex) -> int:
        """Returns the value of the key. If the key is absent, it is added with the default as its value, in one atomic step."""
        return self._core.get_or_insert(key, default)[0]

    def clear(self) -> None:
        """Removes all keys, one after the other."""
        for key in self:
            self.delete(key)

    def compare_exchange(self, key: SupportsIndex, current: SupportsIndex, new: SupportsIndex) -> int | None:
        """Stores new as the value of a key if its value is current, in one atomic step. Returns the value that was found, or None if the key is
        absent: new was stored if and only if the value found is current."""
        return self._core.compare_exchange(key, current, new)

    def fetch_add(self, key: SupportsIndex, addend: SupportsIndex) -> int | None:
        """Adds to the value of a key in one atomic step. Returns the value that it had, or None if the key is absent: then it stays absent. A sum
        above 2**64 - 1 wraps around."""
        return self._core.fetch_add(key, addend)

    def modify(self, key: SupportsIndex, f: Callable[[int], SupportsIndex]) -> int | None:
        """Stores f(value) in place of the value of a key, in one atomic step. Returns the value that it had, or None if the key is absent: then it
        stays absent. f is called again if another thread has changed the value meanwhile, and it may call the map. (update is that of a dict.)"""
        value = self._core.get(key)
        while value is not None:
            there = self.compare_exchange(key, value, f(value))
            if there == value:
                break
            value = there
        return value

    def next_after(self, key: SupportsIndex) -> tuple[int, int] | None:
        """Returns the smallest key that is present and above this one, with its value, or None, as next_at_least does."""
        return self._core.next_at_least(min(as_key(key) + 1, NO_END))

    def last_before(self, key: SupportsIndex) -> tuple[int, int] | None:
        """Returns the greatest key that is present and below this one, with its value, or None, as last_at_most does."""
        key = as_key(key)
        # None is below 0, nor is any from NO_END on.
        return self._core.last_at_most(key - 1) if key else self._core.next_at_least(NO_END)

    def first(self) -> tuple[int, int] | None:
        """Returns the smallest key that is present, with its value, or None, as next_at_least does."""
        return self._core.next_at_least(0)

    def last(self) -> tuple[int, int] | None:
        """Returns the greatest key that is present, with its value, or None, as last_at_most does."""
        return self._core.last_at_most(KEY_MAX)

    def pairs(self) -> list[tuple[int, int]]:
        """Returns a list of all pairs in the ascending order of their keys, as they are at one moment: a snapshot. Calls that change keys wait
        meanwhile."""
        return self._core.pairs()

    def renew(self) -> None:
        """Renews all sections now, one after the other: those that have more cards than their keys need give cards back, and those that have few, as
        they were only filled, get more."""
        self._core.renew()

    def counts(self) -> dict[str, int]:
        """Returns what has happened to the map so far: a dict with sections and cards, of which there are so many now; renewals; early_renewals,
        always 0, since no tree grows deep; renewal_nanoseconds, how long a processor was at work on them; pause_nanoseconds, the sum of the pauses in
        which calls waited for a renewal; and longest_nanoseconds, the longest."""
        return self._core.counts()
