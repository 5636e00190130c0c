"""The program in Python of docs/HANDLES.md for trees: two threads with a handle each."""

import threading

import elltree

tree = elltree.Tree({2: 20}, cards=100_000)  # pairs to start with, and cards


def work(value):
    with tree.handle() as handle:
        handle.insert(3, value)  # one of the threads adds the key
        handle.fetch_add(2, 1)  # and both of them count


threads = [threading.Thread(target=work, args=(value,)) for value in (30, 31)]
for thread in threads:
    thread.start()
for thread in threads:
    thread.join()
with tree.handle() as handle:
    print(list(handle.range()), handle.cards_left())
    try:
        handle.insert(elltree.KEY_MAX + 1, 0)
    except elltree.Refused as refused:
        print(refused, refused.code == elltree.BAD_KEY)
    assert handle.find(2) == 22 and handle.find(3) in (30, 31)
