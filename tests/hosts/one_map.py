"""The example of docs/MAP.md: threads that share one map."""
import threading

import elltree

stock = elltree.Map({1: 10, 2: 20})


def sell(item):
    stock.fetch_add(item, 2**64 - 1)  # one less
    stock.setdefault(3, 30)  # one of the threads adds the key


threads = [threading.Thread(target=sell, args=(1 + n % 2,)) for n in range(8)]
for thread in threads:
    thread.start()
for thread in threads:
    thread.join()
print(dict(stock), stock.pop(3), 3 in stock)
assert stock.pairs() == [(1, 6), (2, 16)]
