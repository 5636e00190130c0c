"""Four threads of Python on neighboring keys of one tree, each answer compared with a dict of the thread's own. Then four that spend all cards of a
tree, and go on in a new one of its pairs, over and over; each finds what it left. The binding is found by PYTHONPATH."""

import random
import sys
import threading

import elltree

KEYS, THREADS, CALLS, TREES = 400, 4, 10000, 8


def work(handle, own, plain, wrong, number):
    chance = random.Random(number)
    for _ in range(CALLS):
        key, do = chance.choice(own), chance.randrange(5)
        if do == 0:
            value = chance.getrandbits(64)
            wrong[number] += handle.insert(key, value) != (key not in plain)
            plain.setdefault(key, value)
        elif do == 1:
            wrong[number] += handle.delete(key) != (key in plain)
            plain.pop(key, None)
        elif do == 2:
            wrong[number] += handle.find(key) != plain.get(key)
        elif do == 3:
            value = chance.getrandbits(64)
            wrong[number] += handle.put(key, value) != plain.get(key)
            plain[key] = value
        else:
            wrong[number] += handle.look(key) != plain.get(key)


def differ(handle, plain):
    """Whether the keys of a tree are not those of the threads."""
    return dict(handle.range()) != {key: value for own in plain for key, value in own.items()}


def spend(handle, own, plain, chance, wrong, number):
    """Changes keys until all cards are given out."""
    while True:
        key, value = chance.choice(own), chance.getrandbits(64)
        try:
            wrong[number] += (handle.delete(key) if key in plain else handle.insert(key, value)) is not True
        except elltree.Spent:
            return
        if plain.pop(key, None) is None:
            plain[key] = value


def start_and_join(target, args):
    threads = [threading.Thread(target=target, args=it) for it in args]
    for thread in threads:
        thread.start()
    for thread in threads:
        thread.join()


def trees(owned):
    """Goes from one tree to the next one whenever all cards are given out."""
    plain, chances, wrong = [{} for _ in owned], [random.Random(number) for number in range(THREADS)], [0] * THREADS
    tree, faults = elltree.Tree(cards=2000), 0
    for _ in range(TREES):
        handles = [tree.handle() for _ in owned]
        start_and_join(spend, [(handles[n], owned[n], plain[n], chances[n], wrong, n) for n in range(THREADS)])
        faults += differ(handles[0], plain) or handles[1].cards_left() != 0
        tree = elltree.Tree(handles[2].range(), cards=2000)
        faults += differ(tree.handle(), plain) or tree.handle().cards_left() != 2000
    return sum(wrong) + faults


def main():
    start = {1: 11, 6: 66}
    tree = elltree.Tree(start, cards=200000)
    owned = [range(number, KEYS, THREADS) for number in range(THREADS)]
    plain = [{key: value for key, value in start.items() if key % THREADS == number} for number in range(THREADS)]
    wrong = [0] * THREADS
    start_and_join(work, [(tree.handle(), owned[n], plain[n], wrong, n) for n in range(THREADS)])
    faults = differ(tree.handle(), plain) + trees(owned)
    print(f"{sum(wrong)} wrong, {faults} faults")
    sys.exit(sum(wrong) + faults != 0)


main()
