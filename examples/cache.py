"""A cache of numbers that threads share: one map has the entries, and another one their keys by age, so that the oldest one makes room for a new one.

Run it by
    PYTHONPATH=PREFIX/share/elltree/python python3 cache.py
"""

from concurrent.futures import ThreadPoolExecutor

import elltree

STAMP, HITS, MISSES = range(3)


class Cache:
    """What a function returns (0 to 2**64 - 1) for the keys that were added last: `room` of them, and one more for each thread that is adding one.

    Any thread may make any call at any time. If memory is refused, elltree.Refused is raised, and the cache may keep an entry for good. A hit makes no
    entry younger.
    """

    def __init__(self, function, room):
        self._function = function
        self._room = room
        self._entries = elltree.Map()  # what the function has returned, by keys
        self._ages = elltree.Map()  # the keys of the entries, by the stamps that they got one after the other
        self._counts = elltree.Map({STAMP: 0, HITS: 0, MISSES: 0})

    def __len__(self):
        return len(self._entries)

    def __getitem__(self, key):
        value = self._entries.get(key)
        if value is not None:
            self._counts.fetch_add(HITS, 1)
            return value
        self._counts.fetch_add(MISSES, 1)
        value = self._function(key)
        self._add(key, value)
        return value

    def _add(self, key, value):
        """Adds an entry, unless another thread has added it meanwhile. If there was no room, the oldest one goes."""
        if not self._entries.insert(key, value):
            return
        stamp = self._counts.fetch_add(STAMP, 1)  # no other entry gets this one
        self._ages[stamp] = key
        if stamp >= self._room:
            while (oldest := self._ages.pop_first()) is None:
                pass  # It finds one in the end, since each thread pops no more than it has added.
            del self._entries[oldest[1]]  # No other thread pops this key, or adds it again before this.

    def keys_by_age(self):
        """Returns the keys, the oldest first, as they are at one moment."""
        return [key for _, key in self._ages.pairs()]

    def counts(self):
        """Returns how often an entry was there, and how often the function was called instead."""
        return self._counts[HITS], self._counts[MISSES]


def square(key):
    return key * key


def ask(cache, first):
    """Asks for 5,000 squares, and returns how many of them are right."""
    keys = [(first + 13 * n) % 250 for n in range(5_000)]
    return sum(cache[key] == key * key for key in keys)


def main():
    cache = Cache(square, 100)
    with ThreadPoolExecutor(4) as threads:
        # What a call raises in a thread is raised here.
        right = sum(threads.map(lambda first: ask(cache, first), range(4)))
    hits, misses = cache.counts()
    print(f"{right} of {hits + misses} answers are right; {len(cache)} entries")
    for key in range(1_000, 1_150):
        cache[key]
    keys = cache.keys_by_age()
    print(f"{len(keys)} keys, from {keys[0]} to {keys[-1]}")


if __name__ == "__main__":
    main()
