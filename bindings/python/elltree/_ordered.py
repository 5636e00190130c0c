"""The keys in their order, of a tree or of a map."""

from __future__ import annotations

from collections.abc import Iterator
from typing import Any, SupportsIndex

from ._arguments import NO_END, as_key

# How many pairs of a range are asked for first, and at most: it doubles in between, so that a short range is cheap.
_FIRST_FILL = 8
_MOST_FILL = 256


class Ordered:
    """Goes over keys in their order."""

    __slots__ = ("_core", "__weakref__")

    # What the library keeps, a HandleCore or a MapCore.
    _core: Any

    def range(self, start: SupportsIndex = 0, stop: SupportsIndex | None = None) -> Iterator[tuple[int, int]]:
        """Returns a generator of the pairs whose keys are at least start and below stop, in ascending order. Without stop the range goes up to the
        last key.

        This is not a snapshot: each key is shown as it was at some moment after the first pair was asked for. A key that was present all along is
        among the pairs, a key that was absent all along is not, and each pair was there at some moment. The generator fetches a few pairs at a time,
        and other calls may come in between. A range that ends before it begins is empty.
        """
        return self._range(as_key(start), NO_END if stop is None else as_key(stop))

    def _range(self, start: int, stop: int) -> Iterator[tuple[int, int]]:
        room = _FIRST_FILL
        while start < stop:
            pairs, start = self._core.range(start, stop, room)
            yield from pairs
            room = min(2 * room, _MOST_FILL)

    def next_at_least(self, key: SupportsIndex) -> tuple[int, int] | None:
        """Returns the smallest key that is present and at least this one, with its value, or None. It was present at one moment of the call, and
        each key that was passed over was absent at one."""
        return self._core.next_at_least(key)

    def last_at_most(self, key: SupportsIndex) -> tuple[int, int] | None:
        """Returns the greatest key that is present and at most this one, with its value, or None. It was present at one moment of the call, and each
        key that was passed over was absent at one."""
        return self._core.last_at_most(key)
