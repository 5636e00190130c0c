"""Thousands of exceptions from signals at chance moments of calls, on a handle, on handles and trees that are made and end, and on a map. After each
of them each handle, the tree and the map take the next call, and no pair is lost. The binding is found by PYTHONPATH."""

import random
import signal
import sys
import warnings

import elltree

CUTS, PAIRS = 5000, [(key, key) for key in range(8)]


class Cut(Exception):
    """What the handler of a signal raises."""


def cut(*_):
    raise Cut


def arm(delay):
    signal.setitimer(signal.ITIMER_REAL, delay)


class Calls:
    """Calls that leave all pairs as they are. Those of a tree take no card, so that there are always some."""

    def __init__(self):
        self.tree = elltree.Tree(PAIRS, cards=9)
        self.handles = [self.tree.handle(), self.tree.handle()]
        self.map = elltree.Map(PAIRS)

    def on_a_handle(self):
        for handle in self.handles:
            handle.look(3)
            handle.find(2)
            handle.insert(3, 4)
            handle.compare_exchange(3, 4, 5)
            handle.next_at_least(1)

    def on_new_handles(self):
        with self.tree.handle() as reader:
            reader.look(1)
            reader.close()

    def on_new_trees(self):
        elltree.Tree(PAIRS, cards=9).handle().find(1)

    def on_a_map(self):
        self.map.put(3, 3)
        self.map.get(2)
        self.map.fetch_add(4, 0)
        self.map.pairs()

    def are_whole(self):
        """Whether each of them takes a call, and has what it had."""
        with self.tree.handle() as another:
            looks = [handle.look(1) for handle in (*self.handles, another)]
            return looks == [1, 1, 1] and list(another.range()) == self.map.pairs() == PAIRS and another.cards_left() == 9


def is_fine(check):
    """Whether a check passes, and no call of it is refused. If a signal comes late and cuts it off, it is made again."""
    while True:
        try:
            return check()
        except Cut:
            continue
        except elltree.Refused as why:
            print(why)
            return False


def faults_by(calls, step, chance):
    """Cuts these calls off by signals, until something is not whole any more: how often that is."""
    for number in range(CUTS):
        try:
            arm(chance.uniform(0.00001, 0.0002))
            for _ in range(200):
                step()
            arm(0)
        except Cut:
            pass
        except elltree.Refused as why:
            print(why)
        if not is_fine(calls.are_whole):
            print(f"{step.__name__}: after {number + 1} signals something is not whole")
            return 1
    return 0


def main():
    warnings.simplefilter("error")
    signal.signal(signal.SIGALRM, cut)
    # Python tells of an exception in a __del__, and goes on.
    sys.unraisablehook = lambda it: it.exc_type is Cut or print(it.exc_value)
    calls, chance, faults = Calls(), random.Random(1), 0
    for step in (calls.on_a_handle, calls.on_new_handles, calls.on_new_trees, calls.on_a_map):
        faults += faults_by(calls, step, chance)
    print(f"{CUTS} signals in calls of each kind, {faults} faults")
    sys.exit(faults != 0)


main()
