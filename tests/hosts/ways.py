"""The two ways in which Python calls the library, the compiled module and ctypes: the same calls, many of them wrong, are made in a process of each
and answer alike, exceptions and their texts too. The methods of the module have the signatures of the package's list. Then calls of each kind,
answered and refused, are made over and over, and no memory is lost and no object. The binding is found by PYTHONPATH."""

import decimal
import fractions
import gc
import os
import subprocess
import sys
import threading
import tracemalloc

import elltree
from elltree import _library
from elltree._arguments import NUMBERS as LETTERS
from elltree._arguments import OF_MAPS, OF_SLOTS

WARM, ROUNDS, CALLS = 30, 300, 40
MOST_LOST = 30_000  # bytes


class Index:
    """What stands for an int, or fails to."""

    def __init__(self, what):
        self.what = what

    def __repr__(self):
        return f"Index({self.what!r})"

    def __index__(self):
        if isinstance(self.what, Exception):
            raise self.what
        return self.what


class Whole(int):
    """An int of a class of its own."""


class Lists(dict):
    """A mapping whose pairs are lists."""

    def items(self):
        return [[key, value] for key, value in super().items()]


# Each is made anew for each call, since exceptions gather what they went through.
NUMBERS = {
    "0": lambda: 0,
    "1": lambda: 1,
    "2": lambda: 2,
    "KEY_MAX": lambda: elltree.KEY_MAX,
    "KEY_MAX + 1": lambda: elltree.KEY_MAX + 1,
    "2**64 - 1": lambda: 2**64 - 1,
    "2**64": lambda: 2**64,
    "2**32": lambda: 2**32,
    "-1": lambda: -1,
    "-2**70": lambda: -(2**70),
    "True": lambda: True,
    "Whole": lambda: Whole(2),
    "Index 1": lambda: Index(1),
    "Index -1": lambda: Index(-1),
    "Index 2**64": lambda: Index(2**64),
    "Index None": lambda: Index(None),
    "Index ValueError": lambda: Index(ValueError("no index")),
    "Index OverflowError": lambda: Index(OverflowError("no index")),
    "1.0": lambda: 1.0,
    "1.5": lambda: 1.5,
    "nan": lambda: float("nan"),
    "1e30": lambda: 1e30,
    "1+0j": lambda: 1 + 0j,
    "Decimal": lambda: decimal.Decimal(1),
    "Fraction": lambda: fractions.Fraction(1),
    "'1'": lambda: "1",
    "None": lambda: None,
    "[]": lambda: [],
}
PAIRS = [{}, {2: 20, 1: 10}, [(1, 10), (2, 20)], [(2, 20), (1, 10)], [(1, 10), (1, 11)], [[1, 10]], [(1,)], [(1, 2, 3)], [1], 5, None]
PAIRS += [[("1", 1)], [(1, -1)], [(elltree.KEY_MAX + 1, 0)], ["12"], [(Index(1), Index(2))], {1.5: 1}, Lists({2: 20, 1: 10})]


def told(call, *args, **named):
    """What a call answers, or what its exception says."""
    try:
        answer = call(*args, **named)
    except Exception as why:
        return f"{type(why).__module__}.{type(why).__name__}: {why}"
    return f"a {type(answer).__name__}" + ("" if isinstance(answer, (elltree.Handle, elltree.Map, elltree.Tree)) else f" {answer!r}")


def tell(what, *answers):
    print(what, *answers, sep="\t")


def numbers_of(kind, subject, calls):
    """Tells what each call says to each number in each of its places, the others being 1."""
    for name, places in calls.items():
        for place in range(places):
            for called, make in NUMBERS.items():
                args = [1] * places
                args[place] = make()
                tell(kind, name, place, called, told(getattr(subject, name), *args))
        tell(kind, name, told(getattr(subject, name), *[1] * (places + 4)), told(getattr(subject, name), nonsense=1))


def listed(of, kind):
    """The calls of the package's list that a class has, and how many numbers each takes."""
    return {name: sum(letter in LETTERS for letter in takes) for name, takes in of.items() if hasattr(kind, name) and name != "range"}


MORE_OF_MAPS = {"get": 2, "setdefault": 2, "pop": 2, "popitem": 0, "next_after": 1, "last_before": 1, "first": 0, "last": 0}
MORE_OF_MAPS |= {"__getitem__": 1, "__setitem__": 2, "__delitem__": 1, "__contains__": 1, "__len__": 0}


def tell_all():
    """Makes all calls, and prints what they say."""
    spent = elltree.Tree({1: 10}, cards=1).handle()
    spent.insert(2, 20)
    closed = elltree.Tree().handle()
    closed.close()
    for kind, subject in (("handle", elltree.Tree({1: 10, 2: 20}, cards=1000).handle()), ("spent", spent), ("closed", closed)):
        numbers_of(kind, subject, listed(OF_SLOTS, elltree.Handle))
        for called, make in NUMBERS.items():
            tell(kind, "range", called, told(lambda: list(subject.range(make()))), told(lambda: list(subject.range(0, make()))))
        tell(kind, "ends", told(repr, subject), told(subject.close), told(subject.close), told(repr, subject))
    for number, pairs in enumerate(PAIRS):
        tell("pairs", number, told(elltree.Tree, pairs, 9), told(elltree.Map, pairs))
    for called, make in NUMBERS.items():
        tell("tree", called, told(elltree.Tree, (), make()), told(elltree.Tree, make()), told(elltree.Handle, make()))
    numbers_of("map", elltree.Map({1: 10, 2: 20}), listed(OF_MAPS, elltree.Map) | MORE_OF_MAPS)
    m = elltree.Map({1: 10})
    for called, make in NUMBERS.items():
        tell("map", "modify", called, told(m.modify, make(), abs), told(m.modify, 1, lambda _: make()))
        tell("map", "range", called, told(lambda: list(m.range(make()))), told(lambda: list(m.range(0, make()))))
        tell("map", "settings", called, [told(elltree.Map, (), *[0] * place, make()) for place in range(4)])
    tell("map", m.counts(), told(m.get, 7, m), told(m.setdefault, 7, 70), told(repr, m), told(m.clear), told(len, m))
    for code in (*elltree.Code, 7, -99, 2**31 - 1, -(2**31)):
        tell("text", code, elltree.text(code), told(elltree.Refused, code))


def unlike_the_list():
    """The methods of the module whose signature is another than that of the list, or that only one of the two has."""
    if _library.compiled is None:
        return []
    faults = ["the module is there, and ctypes too"] if "elltree._functions" in sys.modules else []
    for core, of in ((_library.compiled.HandleCore, OF_SLOTS), (_library.compiled.MapCore, OF_MAPS)):
        methods = {name: method.__doc__ for name, method in vars(core).items() if not name.startswith("_") and name != "answer"}
        for name in sorted(methods.keys() | of.keys() - {"open", "open_reusing", "from_sorted", "free"}):
            if methods.get(name, "no method") not in (of.get(name, "nothing"), None):
                faults.append(f"{core.__name__}.{name} has {methods.get(name)}, and the list {of.get(name)}")
    return faults


def differing():
    """The first lines in which the two ways differ."""
    said = []
    for pure in ("", "1"):
        told_by = {**os.environ, "ELLTREE_PURE": pure}
        run = subprocess.run([sys.executable, __file__, "tell"], env=told_by, capture_output=True, text=True, check=False)
        if run.returncode:
            return [f"ELLTREE_PURE={pure} ends with {run.returncode}", *run.stderr.splitlines()[-5:]]
        said.append(run.stdout.splitlines())
    lines = [f"{one}\n  by ctypes: {other}" for one, other in zip(*said) if one != other]
    lines += [] if len(said[0]) == len(said[1]) > 2000 else [f"{len(said[0])} lines, and {len(said[1])}"]
    return lines[:20]


def use_handles():
    keys = range(CALLS)
    tree = elltree.Tree({key + 2**40: key + 2**50 for key in keys}, cards=500)
    first, second = tree.handle(), tree.handle()
    for key in keys:
        first.insert(key, key + 2**60)
        second.put(key, key + 2**61)
        second.fetch_add(key, 1)
        told(second.find, 1.5)
        told(second.put, key, 2**64)
        told(second.put, Index(ValueError()), 1)
        told(second.put, 2**64 - 1, 1)
        second.compare_exchange(key, 0, 1), second.remove_if(key, 0)
        second.look(key), second.find(key), second.next_at_least(key), second.last_at_most(key)
    list(first.range()), first.steps(), first.cards_left(), repr(first), first.take(2**40), first.delete(1)
    first.close()
    told(first.find, 1), told(elltree.Tree, [(1, 1), (2, None)]), told(elltree.Tree, [(2, 1), (1, 1)]), told(elltree.Tree, (), 0)
    elltree.Tree(cards=9)  # which is dropped, as is the second handle


def use_maps():
    m = elltree.Map({2**40 + key: 2**50 + key for key in range(CALLS)}, cards=50)
    for key in range(CALLS):
        m[2**41 + key] = 2**60
        m.get(key), m.get(2**41 + key, m), m.insert(2**41, 5), key in m, m.modify(2**41, lambda value: value + 1)
        told(m.__getitem__, key), told(m.put, key, -1), told(m.put, 2**64 - 1, 1), told(m.get, "1"), m.compare_exchange(2**41, 5, 2**62)
        m.fetch_add(2**41, 1), m.next_after(2**41), m.last(), m.pop(2**41 + key), m.setdefault(2**42, 2**60)
        m.get_or_insert(2**43 + key, 2**60), m.remove_if(2**43 + key, 2**61), m.remove_if(2**41, 2**60), m.pop_first(), m.pop_last()
        m.get(1.5), m.pop("1", None), 1.0 in m, told(m.get, []), told(m.pop, [])
    m.pairs(), list(m), m.counts(), m.renew(), len(m), repr(m), m.delete(2**42), told(elltree.Map, {elltree.KEY_MAX + 1: 1})


def resident():
    """How much memory the process has."""
    with open("/proc/self/statm", "rb") as file:
        return int(file.read().split()[1]) * os.sysconf("SC_PAGE_SIZE")


def held(cores):
    """How many objects there are, and how often those are held that all calls share. Python 3.12 and later don't count that of None and such."""
    gc.collect()
    shared = [*cores] if sys.version_info >= (3, 12) else [None, True, False, *cores]
    return [len(gc.get_objects()), *map(sys.getrefcount, shared)]


def lost(use):
    """What is lost by calls that are made over and over: memory of Python or of the process, and objects."""
    cores = [_library.HandleCore, _library.MapCore]
    for _ in range(WARM):
        use()
    tracemalloc.start()
    use()
    before, memory, process = held(cores), tracemalloc.get_traced_memory()[0], resident()
    for _ in range(ROUNDS):
        use()
    more = [after - it for after, it in zip(held(cores), before)]
    memory, process = tracemalloc.get_traced_memory()[0] - memory, resident() - process
    tracemalloc.stop()
    is_fine = memory < MOST_LOST and process < 2**23 and max(more) < ROUNDS // 3 and min(more) > -ROUNDS * CALLS // 4
    return [] if is_fine else [f"{use.__name__}: {memory} bytes are lost, {process} of the process, and objects are held {more}"]


def lets_others_run():
    """Whether another thread of Python runs while one renews a great map over and over, and makes a call on it."""
    m, done, steps, calls = elltree.Map({key: key for key in range(100_000)}), [], [0], [0]

    def go_on():
        while not done:
            steps[0] += 1

    def call():
        while not done:
            calls[0] += m[7] == 7

    threads = [threading.Thread(target=go_on), threading.Thread(target=call)]
    for thread in threads:
        thread.start()
    while m.counts()["renewal_nanoseconds"] < 10**8:
        m.renew()
    done.append(True)
    for thread in threads:
        thread.join()
    return [] if steps[0] > 100 and calls[0] else [f"{steps[0]} steps and {calls[0]} calls beside renewals"]


def main():
    if sys.argv[1:] == ["tell"]:
        tell_all()
        return
    way = "ctypes" if _library.compiled is None else "the compiled module"
    faults = unlike_the_list() + differing() + lost(use_handles) + lost(use_maps) + lets_others_run()
    print(*faults, f"by {way}, {len(faults)} faults", sep="\n")
    sys.exit(bool(faults))


main()
