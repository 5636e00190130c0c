"""Ranges in Python, of a tree and of a map. One thread first, which changes keys at random and compares ranges and the keys next to one with a dict.
Then threads that go over ranges beside others that insert, delete and exchange, each its own of the keys: each key of a range is to be told as it was
at a moment between the begin and the end of the range, by the begins and the ends of the changes. Then the edges, and what is refused. The binding is
found by PYTHONPATH."""

import itertools
import random
import sys
import threading
import time

import elltree

KEYS, CALLS, WRITERS, CHANGES, MAX = 20, 2000, 2, 4000, elltree.KEY_MAX

# Its next is one step of Python.
clock = itertools.count(1)


def down(keys, start, stop):
    """The pairs of a range by a search for each, from the last one to the first."""
    pairs = []
    while stop > start and (pair := keys.last_at_most(stop - 1)) is not None and pair[0] >= start:
        pairs.insert(0, pair)
        stop = pair[0]
    return pairs


def differences(keys, model, start, stop):
    pairs = sorted(model.items())
    wanted = [pair for pair in pairs if start <= pair[0] < stop]
    above = [pair for pair in pairs if pair[0] >= start] + [None]
    below = [None] + [pair for pair in pairs if pair[0] < start]
    here = start in model
    faults = (list(keys.range(start, stop)) != wanted) + (down(keys, start, stop) != wanted)
    faults += (keys.next_at_least(start), keys.last_at_most(start)) != (above[0], above[0] if here else below[-1])
    faults += list(keys.range()) != pairs or list(keys.range(start)) != above[:-1]
    if isinstance(keys, elltree.Map):
        faults += (keys.next_after(start), keys.last_before(start)) != (above[here], below[-1])
        faults += (keys.first(), keys.last()) != ((pairs + [None])[0], ([None] + pairs)[-1]) or list(keys.items()) != pairs
    return faults


def alone(keys):
    model, chance, faults = {}, random.Random(1), 0
    for number in range(CALLS):
        key = chance.choice([chance.randrange(300), MAX - chance.randrange(3)])
        if chance.randrange(3):
            faults += keys.put(key, number) != model.get(key)
            model[key] = number
        else:
            faults += keys.delete(key) != (model.pop(key, None) is not None)
        ends = [chance.choice([chance.randrange(300), MAX - chance.randrange(3), 2**64 - 1]) for _ in range(2)]
        faults += differences(keys, model, *ends)
    print(f"{CALLS} ranges of one thread, {len(model)} keys at the end, {faults} faults")
    return faults


def write(keys, changes, number, faults):
    """Changes keys that nobody else changes, so that each answer is certain."""
    chance = random.Random(number)
    for value in range(KEYS, KEYS + CHANGES):
        key = chance.randrange(number, KEYS, WRITERS)
        was, how, begun = changes[key][-1][2], chance.randrange(3), next(clock)
        if how == 0:
            left, said = value, keys.insert(key, value)
        elif how == 1:
            left, said = value, was is not None and keys.compare_exchange(key, was, value) == was
        else:
            left, said = None, keys.delete(key)
        if said:
            changes[key].append((begun, next(clock), left))
        faults[number] += said != ((was is None) == (how == 0))


def go_over(keys, scans, number, is_over):
    chance = random.Random(number)
    while not is_over.is_set():
        start = chance.randrange(KEYS)
        stop, begun = chance.randint(start, KEYS), next(clock)
        pairs = list(keys.range(start, stop)) if chance.randrange(2) else down(keys, start, stop)
        scans.append((begun, next(clock), start, stop, pairs))


def may_be(changes, told, begun, ended):
    """Whether a key was so at a moment between two: a change left it so that had begun before the later one, and the next had not ended before the
    other."""
    following = [change[1] for change in changes[1:]] + [ended]
    return any(change[2] == told and change[0] < ended and begun < end for change, end in zip(changes, following))


def untrue(changes, scan):
    begun, ended, start, stop, pairs = scan
    told = dict(pairs)
    faults = sum(not may_be(changes[key], told.get(key), begun, ended) for key in range(start, stop))
    return faults + (pairs != sorted(told.items()) or any(key not in range(start, stop) for key in told))


def beside_threads(readers, start, access):
    """Goes over the keys of a tree or of a map, to which each thread gets access."""
    changes = [[(0, 0, start.get(key))] for key in range(KEYS)]
    faults, scans, is_over = [0] * WRITERS, [[] for _ in range(readers)], threading.Event()
    writers = [threading.Thread(target=write, args=(access(), changes, n, faults)) for n in range(WRITERS)]
    threads = [threading.Thread(target=go_over, args=(access(), scans[n], n, is_over)) for n in range(readers)]
    for thread in threads:
        thread.start()
    while not all(scans):
        time.sleep(0.001)
    for thread in writers:
        thread.start()
    for thread in writers:
        thread.join()
    is_over.set()
    for thread in threads:
        thread.join()
    made = [scan for one in scans for scan in one]
    wrong = sum(faults) + sum(untrue(changes, scan) for scan in made[:: 1 + len(made) // 2000])
    print(f"{len(made)} ranges beside {WRITERS} threads, {wrong} faults")
    return wrong + (len(made) <= readers)


def renew_until(shared, is_over):
    while not is_over.is_set():
        shared.renew()
        time.sleep(0.001)


def beside_renewals(start, shared):
    """Goes over the keys of a map that a thread renews again and again."""
    is_over = threading.Event()
    renewing = threading.Thread(target=renew_until, args=(shared, is_over))
    renewing.start()
    faults = beside_threads(2, start, lambda: shared)
    while shared.counts()["renewals"] < 3:
        time.sleep(0.001)
    is_over.set()
    renewing.join()
    return faults


def raised(error, call, *args):
    """Whether a call does not raise an error: a refusal with a code, or another error of Python."""
    try:
        call(*args)
    except elltree.Refused as why:
        return why.code != error
    except (OverflowError, TypeError) as why:
        return type(why) is not error
    return True


def edges(keys):
    """Of a tree or of a map that has the least key and the greatest one."""
    both, top = [(0, 1), (MAX, 2)], 2**64 - 1
    faults = list(keys.range(0, top)) != both or list(keys.range(1, MAX)) != [] or list(keys.range(1, MAX + 1)) != both[1:]
    faults += list(keys.range(5, 2)) + list(keys.range(0, 0)) + list(keys.range(top, 0)) != []
    faults += (keys.next_at_least(MAX + 1), keys.next_at_least(MAX)) != (None, both[1])
    faults += (keys.last_at_most(top), keys.last_at_most(MAX - 1), keys.last_at_most(0)) != (both[1], both[0], both[0])
    faults += raised(OverflowError, keys.range, -1) + raised(OverflowError, keys.range, 0, 2**64) + raised(TypeError, keys.next_at_least, "1")
    begun = keys.range()
    return faults + (next(begun) != both[0] or keys.delete(MAX) is not True)  # other calls may come in between


def refusals():
    m, top = elltree.Map({0: 1, MAX: 2}), 2**64 - 1
    faults = (m.last_before(0), m.next_after(top), m.next_after(MAX), m.last_before(top), m.last_before(MAX)) != (None, None, None, (MAX, 2), (0, 1))
    handle = elltree.Tree(cards=9).handle()
    handle.close()
    for call in (lambda: list(handle.range()), lambda: handle.last_at_most(0), lambda: handle.next_at_least(1)):
        faults += raised(elltree.CLOSED, call)
    return faults


def example():
    """A range of a map, the keys around it, and all of it."""
    shared = elltree.Map({99: 1, 100: 2, 200: 3, 201: 4})
    for key, value in shared.range(100, 200):  # 100 is in it, and 200 is not
        print(key, value)
    print(shared.next_after(200), shared.last_before(99), dict(shared))


def main():
    example()
    sys.setswitchinterval(0.0001)  # else a thread may make all its calls before another one goes on
    start, least_and_greatest = {key: key for key in range(1, KEYS, 2)}, {0: 1, MAX: 2}
    tree, shared = elltree.Tree(start, cards=100_000), elltree.Map(start, cards=200)
    faults = alone(elltree.Tree(cards=100_000).handle()) + alone(elltree.Map(cards=200))
    faults += beside_threads(2, start, tree.handle) + beside_renewals(start, shared)
    faults += edges(elltree.Tree(least_and_greatest, cards=9).handle()) + edges(elltree.Map(least_and_greatest)) + refusals()
    print(f"{faults} faults, {shared.counts()['renewals']} renewals")
    sys.exit(faults != 0)


main()
