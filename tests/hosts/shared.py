"""Two threads of Python, and then four, that insert and delete the same few keys of a tree: of each key, the inserts that answered yes are as many as
the deletes that did, or one more where the key is present at the end, counting a start key as an insert. Then four threads add to counters in each
way that there is, and no addition is lost, and take tokens away, each once; what is answered of values in place; and what is refused. The binding is
found by PYTHONPATH."""

import random
import sys
import threading

import elltree

KEYS, CALLS, START, ADDITIONS = 5, 10000, {1: 11, 3: 33}, 2000


def work(handle, more, faults, number):
    chance = random.Random(number)
    for _ in range(CALLS):
        key, do = chance.randrange(KEYS), chance.randrange(3)
        if do == 0:
            more[key] += handle.insert(key, chance.getrandbits(40) * KEYS + key)
        elif do == 1:
            more[key] -= handle.delete(key)
        else:
            found = handle.find(key)
            faults[number] += found is not None and found != START.get(key) and found % KEYS != key


def run(number):
    tree = elltree.Tree(START, cards=400000)
    handles = [tree.handle() for _ in range(number)]
    more, faults = [[0] * KEYS for _ in handles], [0] * number
    threads = [threading.Thread(target=work, args=(handles[n], more[n], faults, n)) for n in range(number)]
    for thread in threads:
        thread.start()
    for thread in threads:
        thread.join()
    there = [sum(one[key] for one in more) + (key in START) for key in range(KEYS)]
    found = [handles[-1].look(key) is not None for key in range(KEYS)]
    print(f"{number} threads, {sum(there)} keys at the end")
    return sum(faults) + (there != found)


def add(tree, faults, tokens, number):
    """Adds to counters, stores values, and puts tokens under a key of which it and others take them away, each once."""
    with tree.handle() as handle:
        for count in range(ADDITIONS):
            handle.fetch_add(0, 1)
            value = handle.find(1)
            while (there := handle.compare_exchange(1, value, value + 1)) != value:
                value = there
            faults[number] += handle.put(2, number) is None or handle.look(2) is None
            tokens[number] += (handle.put(3, count + 1) or 0) - (count + 1)
            taken = handle.take(3) if count % 2 else handle.find(3)
            if count % 2 or taken is not None and handle.remove_if(3, taken) == taken:
                tokens[number] += taken or 0


def count(number):
    """Threads make their handles themselves, at the same time."""
    tree, faults, tokens = elltree.Tree({key: 0 for key in range(3)}, cards=400000), [0] * number, [0] * number
    threads = [threading.Thread(target=add, args=(tree, faults, tokens, n)) for n in range(number)]
    for thread in threads:
        thread.start()
    for thread in threads:
        thread.join()
    handle = tree.handle()
    sums = [handle.find(key) for key in range(2)]
    print(f"{number} threads, the sums {sums}")
    return sum(faults) + (sums != [number * ADDITIONS] * 2) + (sum(tokens) + (handle.find(3) or 0) != 0)


def answers():
    handle = elltree.Tree({2: 20}, cards=12).handle()
    said = [handle.compare_exchange(2, 19, 21), handle.compare_exchange(2, 20, 21), handle.compare_exchange(3, 19, 21)]
    said += [handle.put(2, 22), handle.put(3, 30), handle.fetch_add(3, 2**64 - 1), handle.fetch_add(4, 1), handle.find(3)]
    said += [handle.remove_if(3, 30), handle.remove_if(4, 30), handle.remove_if(3, 29), handle.find(3), handle.take(2), handle.take(2)]
    faults = said != [20, 20, None, 21, None, 30, None, 29, 29, None, 29, None, 22, None]
    faults += (handle.insert(5, 50), handle.insert(5, 51), handle.delete(5), handle.delete(5)) != (True, False, True, False)
    handle.close()
    return faults


def refused(code, call, *args):
    try:
        call(*args)
    except elltree.Refused as why:
        return why.code != code
    return 1


def refusals():
    tree, top = elltree.Tree(cards=1), elltree.KEY_MAX + 1
    first, second, faults = tree.handle(), tree.handle(), 0
    for call, more in (("insert", 1), ("put", 1), ("delete", 0), ("take", 0), ("fetch_add", 1), ("compare_exchange", 2), ("remove_if", 1)):
        args = [top] + [1] * more
        faults += refused(elltree.BAD_KEY, getattr(first, call), *args) + refused(elltree.NO_TRIES, getattr(first, call), *args, 0)
    faults += (first.find(top), first.look(top), first.next_at_least(top)) != (None,) * 3
    faults += second.insert(elltree.KEY_MAX, 7) is not True or first.find(elltree.KEY_MAX) != 7 or first.cards_left() != 0
    faults += refused(elltree.SPENT, first.put, 1, 1) + refused(elltree.SPENT, second.delete, elltree.KEY_MAX) + (second.delete(1) is not False)
    faults += refused(elltree.BAD_START, elltree.Tree, [(2, 0), (1, 0)]) + refused(elltree.BAD_START, elltree.Tree, [(2, 0), (2, 0)])
    faults += refused(elltree.BAD_KEY, elltree.Tree, {top: 1})
    faults += refused(elltree.BAD_CARDS, elltree.Tree, (), 0) + refused(elltree.BAD_CARDS, elltree.Tree, (), 1_000_001)
    first.close()
    for call, args in (("find", (1,)), ("put", (1, 1)), ("cards_left", ()), ("steps", ()), ("next_at_least", (0,)), ("last_at_most", (0,))):
        faults += refused(elltree.CLOSED, getattr(first, call), *args)
    return faults + (second.look(elltree.KEY_MAX) != 7)


def main():
    faults = run(2) + run(4) + count(4) + answers() + refusals()
    print(f"{faults} faults")
    sys.exit(faults != 0)


main()
