"""A Map of Python: each call of a dict and of its own beside a dict, also with keys that no map has; then threads that share one map, which another
thread renews all the time, with keys of their own and shared counters, iterations meanwhile, and values that are told once each, as are pairs that threads pop; and a
forked child, which is refused."""
import decimal
import fractions
import os
import random
import threading

import elltree

THREADS = 8
CALLS = 4000
KEYS = 50


def as_dict(faults):
    """One thread compares a map with a dict, call by call."""
    shared, plain, rng = elltree.Map({3: 30, 1: 10}, cards=200), {1: 10, 3: 30}, random.Random(7)
    calls = {
        "get": lambda m, key, value: m.get(key),
        "in": lambda m, key, value: key in m,
        "set": lambda m, key, value: m.__setitem__(key, value),
        "pop": lambda m, key, value: m.pop(key, None),
        "setdefault": lambda m, key, value: m.setdefault(key, value),
        "update": lambda m, key, value: m.update({key: value, key + 1: value}),
        "len": lambda m, key, value: len(m),
        "items": lambda m, key, value: sorted(m.items()),
        "keys": lambda m, key, value: sorted(m),
        "values": lambda m, key, value: sorted(m.values()),
    }
    for count in range(CALLS):
        if count % 100 == 0:
            shared.renew()
        name, key, value = rng.choice(list(calls)), rng.randrange(KEYS), rng.randrange(2**64)
        said, right = (calls[name](m, key, value) for m in (shared, plain))
        if said != right:
            faults.append(f"{name} {key}: {said}, and not {right}")
    faults += [] if shared == plain and list(reversed(shared)) == sorted(plain, reverse=True) else ["the map is not the dict"]
    shared.clear()
    faults += [] if not shared and list(shared) == [] and shared.counts()["renewals"] >= CALLS // 100 else ["the map is not clear"]


def raises(error, call, *args):
    try:
        call(*args)
    except error as found:
        return found
    raise AssertionError(f"no {error.__name__}")


def answers():
    m = elltree.Map({2: 20, 4: 40})
    assert (m.insert(2, 21), m.put(2, 22), m.put(3, 30), m.delete(3), m.delete(3)) == (False, 20, None, True, False)
    assert (m.compare_exchange(2, 1, 5), m.compare_exchange(2, 22, 5), m.compare_exchange(9, 1, 5), m[2]) == (22, 22, None, 5)
    assert (m.fetch_add(2, 2**64 - 1), m.fetch_add(9, 1), m.modify(2, lambda value: value + m[4]), m.modify(9, abs), m[2]) == (5, None, 4, None, 44)
    assert (m.first(), m.last(), m.next_after(2), m.last_before(4)) == ((2, 44), (4, 40), (4, 40), (2, 44))
    assert (m.last_before(0), m.next_at_least(5), m.last_at_most(3)) == (None, None, (2, 44))
    assert (list(m.range(3)), list(m.range(0, 3)), list(m.range(4, 2)), m.pairs()) == ([(4, 40)], [(2, 44)], [], [(2, 44), (4, 40)])
    assert (m.remove(4), m.remove(4), m.popitem(), m.get(2**70), -1 in m) == (40, None, (2, 44), None, False)
    assert (repr(elltree.Map()), repr(elltree.Map({1: 10, 2: 20}))) == ("<elltree.Map of 0 keys>", "<elltree.Map of 2 keys>")
    assert (20 in elltree.Map({1: 10, 2: 20}).values(), 30 in elltree.Map({1: 10, 2: 20}).values()) == (True, False)
    raises(KeyError, m.popitem)
    raises(KeyError, m.pop, 1)
    raises(KeyError, m.__getitem__, 1)
    raises(KeyError, m.__delitem__, 1)
    raises(OverflowError, m.put, -1, 0)
    for call in (m.insert, m.put, m.get_or_insert, m.setdefault, m.__setitem__):
        raises(TypeError, call, "1", 1)
        raises(TypeError, call, 1.0, 1)
        assert raises(elltree.Refused, call, elltree.KEY_MAX + 1, 0).code == elltree.BAD_KEY
    for call in (m.remove, m.delete, lambda key: m.remove_if(key, 0)):
        raises(TypeError, call, "1")
        raises(OverflowError, call, 2**64)
        assert raises(elltree.Refused, call, elltree.KEY_MAX + 1).code == elltree.BAD_KEY
    raises(OverflowError, m.put, 1, 2**64)
    raises(TypeError, m.__reduce_ex__, 4)
    assert not m


def composed():
    m = elltree.Map({2: 20, 4: 40, 6: 60})
    assert (m.get_or_insert(2, 21), m.get_or_insert(3, 30), m.setdefault(3, 31), m.setdefault(1, 10)) == ((20, False), (30, True), 30, 10)
    assert (list(reversed(m)), list(reversed(m.keys())), list(reversed(m.values()))) == ([6, 4, 3, 2, 1], [6, 4, 3, 2, 1], [60, 40, 30, 20, 10])
    assert (m.remove_if(5, 50), m.insert(5, 50), m.remove_if(5, 51), m[5], m.remove_if(5, 50), 5 in m) == (None, True, 50, 50, 50, False)
    assert list(reversed(m.items())) == [(6, 60), (4, 40), (3, 30), (2, 20), (1, 10)] == list(m.items())[::-1]
    assert (m.pop_first(), m.pop_last(), m.popitem(), m.popitem()) == ((1, 10), (6, 60), (2, 20), (3, 30))
    assert (m.pop_last(), m.pop_first(), m.pop_last()) == ((4, 40), None, None)
    assert (list(reversed(m)), list(reversed(m.items())), len(m)) == ([], [], 0)
    raises(KeyError, m.popitem)


def told(call, *args):
    """What a call answers, or its exception: of a KeyError also what it tells."""
    try:
        return call(*args)
    except Exception as why:
        return (type(why), why.args if isinstance(why, KeyError) else None)


def keys_of_other_types():
    """What a dict has answers as a dict does, if it is asked for something that is no key of a map."""
    asked = ["1", "", b"1", None, 1.0, 2.5, -1.0, 1e30, float("nan"), float("inf"), 1 + 0j, 1 + 1j, True, False]
    asked += [-1, 2**64, 2**64 - 1, elltree.KEY_MAX + 1, fractions.Fraction(2), fractions.Fraction(1, 2), object(), int, print]
    asked += [decimal.Decimal(1), decimal.Decimal("1.5"), decimal.Decimal("NaN"), decimal.Decimal("sNaN"), (), (1,), frozenset(), [], {}, set(), [1]]
    calls = {
        "in": lambda m, key: key in m,
        "get": lambda m, key: m.get(key),
        "get, default": lambda m, key: m.get(key, "default"),
        "[]": lambda m, key: m[key],
        "pop, default": lambda m, key: m.pop(key, None),
        "pop": lambda m, key: m.pop(key),
        "del": lambda m, key: m.__delitem__(key),
        "in keys": lambda m, key: key in m.keys(),
        "in items": lambda m, key: (key, 10) in m.items(),
    }
    for name, call in calls.items():
        for key in asked:
            shared, plain = elltree.Map({1: 10, 2: 20}), {1: 10, 2: 20}
            said, right = told(call, shared, key), told(call, plain, key)
            assert said == right and shared == plain, (name, key, said, right)


def work(number, m, faults, told):
    """Changes keys of its own beside a dict, and adds to counters; puts tokens under a shared key and takes them away."""
    rng, own = random.Random(number), {}
    for count in range(CALLS):
        key, value = 1000 + rng.randrange(KEYS) * THREADS + number, rng.randrange(2**40)
        if count % 3 == 0:
            if m.put(key, value) != own.get(key):
                faults.append(f"thread {number}: put {key}")
            own[key] = value
        elif count % 3 == 1:
            if m.delete(key) != (own.pop(key, None) is not None):
                faults.append(f"thread {number}: delete {key}")
        elif m.get(key) != own.get(key):
            faults.append(f"thread {number}: get {key}")
        m.fetch_add(count % 3, 1)
        if count % 50 == 0:
            told[number] += (m.put(500, count + 1) or 0) - (count + 1)
            told[number] += m.remove(500) or 0
            told_own = {key: value for key, value in m.range(1000) if key % THREADS == number}
            if told_own != own:
                faults.append(f"thread {number}: range")


def renew_until(m, is_over, faults):
    """Renews a map until this is over, and once at least."""
    while True:
        try:
            m.renew()
        except elltree.Refused as why:
            faults.append(f"renew: {why}")
        if is_over.is_set():
            return


def run_beside_renewals(m, working, faults):
    """Runs threads to their end, beside one that renews the map."""
    is_over = threading.Event()
    renewing = threading.Thread(target=renew_until, args=(m, is_over, faults))
    for thread in [renewing, *working]:
        thread.start()
    for thread in working:
        thread.join()
    is_over.set()
    renewing.join()


def threads(faults):
    m, told = elltree.Map({0: 0, 1: 0, 2: 0}, cards=2000), [0] * THREADS
    assert 1000 % THREADS == 0
    working = [threading.Thread(target=work, args=(number, m, faults, told)) for number in range(THREADS)]
    run_beside_renewals(m, working, faults)
    sums = [m[key] for key in range(3)]
    if sum(sums) != THREADS * CALLS or sum(told) + m.get(500, 0) != 0:
        faults.append(f"counters {sums}, tokens {sum(told)}")
    return m.counts()["renewals"]


def take(m, from_end, taken):
    while (pair := m.pop_last() if from_end else m.pop_first()) is not None:
        taken.append(pair)


def pops(faults):
    """Threads that empty a map from both ends get each pair once."""
    m, taken = elltree.Map({key: key * 3 for key in range(CALLS)}, cards=1000), [[] for _ in range(THREADS)]
    working = [threading.Thread(target=take, args=(m, number % 2, taken[number])) for number in range(THREADS)]
    run_beside_renewals(m, working, faults)
    if sorted(sum(taken, [])) != [(key, key * 3) for key in range(CALLS)] or m:
        faults.append("pairs were popped twice, or not at all")
    faults += ["pops are not in order" for number, pairs in enumerate(taken) if pairs != sorted(pairs, reverse=bool(number % 2))]


def refused_calls(m):
    """Returns how many of these calls on a map of the parent process are refused as such, and how many calls they are."""
    calls = [
        lambda: m.get(1),
        lambda: 1 in m,
        lambda: len(m),
        lambda: list(m),
        lambda: m.put(1, 11),
        lambda: m.insert(2, 20),
        lambda: m.get_or_insert(1, 11),
        lambda: m.remove(1),
        lambda: m.remove_if(1, 10),
        m.pop_first,
        m.pop_last,
        m.pairs,
        m.clear,
        m.renew,
        m.counts,
        lambda: m.modify(1, lambda value: value),
    ]
    refused = 0
    for call in calls:
        try:
            call()
        except elltree.Refused as why:
            refused += why.code == elltree.FORKED and repr(m) == f"<elltree.Map: {why}>"
    return refused, len(calls)


def fork():
    """Each call of a forked child on the map of its parent is refused, and the child ends well, with maps of its own."""
    m = elltree.Map({1: 10})
    child = os.fork()
    if child == 0:
        refused, calls = refused_calls(m)
        del m
        own = elltree.Map({1: 20})
        os._exit(0 if refused == calls and own.pop_first() == (1, 20) else 1)
    assert os.waitpid(child, 0)[1] == 0 and m[1] == 10


def main():
    faults = []
    answers()
    composed()
    keys_of_other_types()
    fork()
    as_dict(faults)
    pops(faults)
    renewals = threads(faults)
    print(f"{THREADS} threads, {renewals} renewals, {len(faults)} faults", *faults[:10], sep="\n")
    raise SystemExit(1 if faults or renewals < 3 else 0)


if __name__ == "__main__":
    main()
