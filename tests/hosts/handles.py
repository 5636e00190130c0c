"""What a handle and a tree of Python are beside their calls: they are not copied, a handle may be closed at any time and is in one call at a time,
and what is no number is told. The binding is found by PYTHONPATH."""

import copy
import gc
import pickle
import sys
import threading
import time
import unittest
import warnings

import elltree

HELD = (elltree.Refused, "the handle holds nothing")


def text_of(call, *args, **named):
    """What the exception of a call says, and its class."""
    try:
        call(*args, **named)
    except Exception as why:
        return type(why), str(why)
    return None


class InCall(elltree.Handle):
    """A handle that is in another call whenever it is closed."""

    def close(self):
        raise elltree.Refused(elltree.IN_CALL)


class Handles(unittest.TestCase):
    def setUp(self):
        warnings.simplefilter("error")
        # An exception in a __del__.
        self.unraisable = []
        self.addCleanup(setattr, sys, "unraisablehook", sys.unraisablehook)
        sys.unraisablehook = self.unraisable.append
        self.tree = elltree.Tree({2: 20}, cards=9)
        self.handle = self.tree.handle()

    def tearDown(self):
        gc.collect()
        self.assertEqual(self.unraisable, [])

    def test_is_not_copied_or_pickled(self):
        for given, why in (
            (self.handle, "a handle is not copied or pickled: it is of one thread"),
            (self.tree, "a tree is not copied or pickled: Tree(handle.range()) is another one with its pairs"),
            (elltree.Map(), "a map is not copied or pickled: dict(map) is a copy of its pairs"),
        ):
            for copied in (copy.copy, copy.deepcopy, pickle.dumps):
                self.assertEqual(text_of(copied, given), (TypeError, why))
            self.assertEqual(text_of(copy.deepcopy, {"one": [given]}), (TypeError, why))
        self.assertEqual(self.handle.find(2), 20)

    def test_is_closed_more_than_once(self):
        with self.handle:
            self.handle.close()
            self.handle.close()
        self.assertEqual(text_of(self.handle.look, 1), HELD)

    def test_shows_what_it_has(self):
        self.assertEqual(repr(self.handle), "<elltree.Handle: cards_left=9>")
        self.handle.close()
        self.assertEqual(repr(self.handle), "<elltree.Handle: the handle holds nothing>")

    def test_does_not_hide_what_a_block_raises(self):
        for handle in (self.handle, InCall(self.tree)):
            with self.assertRaises(KeyError), handle:
                raise KeyError
        self.assertEqual(text_of(self.handle.look, 1), HELD)
        with self.assertRaises(elltree.Refused), InCall(self.tree):
            pass

    def test_keeps_its_tree(self):
        other = self.tree.handle()
        del self.tree
        self.handle.close()
        gc.collect()
        self.assertEqual((other.find(2), other.insert(3, 30), other.cards_left()), (20, True, 8))

    def test_says_nothing_of_one_that_is_half_made(self):
        class Half(elltree.Handle):
            def __init__(self, tree):
                super().__init__(tree)
                raise ValueError("half made")

        self.assertEqual(text_of(Half, self.tree), (ValueError, "half made"))
        for kind, *args in ((elltree.Tree, (), 0), (elltree.Tree, [1]), (elltree.Map, {-1: 1}), (elltree.Handle,), (elltree.Handle, 5)):
            self.assertIsNotNone(text_of(kind, *args))

    def test_is_refused_in_the_words_of_its_code(self):
        spent = elltree.Tree(cards=1).handle()
        spent.insert(1, 10)
        with self.assertRaises(elltree.Spent) as raised:
            spent.delete(1)
        self.assertIsInstance(raised.exception, elltree.Refused)
        for why, text in (
            (raised.exception, "no card is free for the change"),
            (elltree.Busy(), "something was in the way of each try"),
            (elltree.Refused(elltree.BAD_KEY), "a key is above 18446744073709551613"),
            (elltree.Refused(7), "no code of elltree"),
        ):
            again = pickle.loads(pickle.dumps(why))
            self.assertEqual((type(again), again.code, str(again), elltree.text(why.code)), (type(why), why.code, text, text))
        self.assertEqual((elltree.Busy().code, elltree.Spent().code), (elltree.BUSY, elltree.SPENT))

    def test_has_codes_by_name_and_by_number(self):
        for code in elltree.Code:
            self.assertIs(getattr(elltree, code.name), code)
            self.assertIs(elltree.Refused(int(code)).code, code)
            self.assertEqual((str(code), f"{code}", f"{code:+d}"), (str(code.value), str(code.value), f"{code.value:+d}"))
        self.assertEqual((elltree.BUSY, elltree.FORKED, {-6: 1}[elltree.BAD_KEY]), (-1, -18, 1))
        self.assertEqual({"__version__", "Tree", "Map", "Refused", "KEY_MAX"} - set(elltree.__all__), set())
        self.assertEqual([name for name in elltree.__all__ if not hasattr(elltree, name)], [])

    def test_tells_how_many_cards_are_left_and_steps_were_made(self):
        other = self.tree.handle()
        self.assertEqual((self.handle.cards_left(), other.cards_left()), (9, 9))
        self.assertEqual([other.insert(3, 30), other.insert(3, 31), self.handle.delete(2), self.handle.insert(2, 21)], [True, False, True, True])
        self.assertEqual((self.handle.cards_left(), other.cards_left()), (6, 6))
        before = self.handle.steps()
        self.handle.find(2)
        self.assertGreater(self.handle.steps(), before)
        for value in range(6):
            other.put(4, value)
        self.assertEqual((self.handle.cards_left(), other.cards_left()), (0, 0))
        with self.assertRaises(elltree.Spent):
            self.handle.delete(2)
        self.assertEqual((self.handle.find(2), list(self.handle.range())), (21, [(2, 21), (3, 30), (4, 5)]))

    def test_tells_what_is_no_number(self):
        handle = self.handle
        self.assertEqual(text_of(handle.find, 1.0), (TypeError, "a key has to be an int, not float"))
        self.assertEqual(text_of(handle.look, "1"), (TypeError, "a key has to be an int, not str"))
        self.assertEqual(text_of(handle.insert, 1, "1"), (TypeError, "a value has to be an int, not str"))
        self.assertEqual(text_of(handle.fetch_add, 1, None), (TypeError, "an addend has to be an int, not NoneType"))
        self.assertEqual(text_of(handle.insert, 1, 1, None), (TypeError, "the number of tries has to be an int, not NoneType"))
        self.assertEqual(text_of(elltree.Tree, (), 1e6), (TypeError, "the number of cards has to be an int, not float"))
        self.assertEqual(text_of(elltree.Tree, {2.5: 1}), (TypeError, "a key has to be an int, not float"))
        self.assertEqual(text_of(elltree.Tree, {1: 1.5}), (TypeError, "a value has to be an int, not float"))
        for key in (-1, 2**64):
            told = (OverflowError, "a key has to be 0 to 2**64 - 1")
            self.assertEqual([text_of(it, key) for it in (handle.find, handle.look, handle.delete, handle.range)], [told] * 4)
            self.assertEqual(text_of(elltree.Tree, {key: 1}), told)
        self.assertEqual(text_of(handle.delete, 1, 2**32), (OverflowError, "the number of tries has to be 0 to 2**32 - 1"))
        self.assertEqual((list(handle.range()), handle.cards_left()), ([(2, 20)], 9))

    def test_takes_what_stands_for_an_int(self):
        class One:
            def __index__(self):
                return 1

        self.assertEqual((self.handle.insert(One(), True), self.handle.find(True), self.handle.put(One(), 5, One())), (True, 1, 1))

    def test_takes_pairs_of_any_mapping(self):
        for start in ({7: 70, 5: 50}, elltree.Map({7: 70, 5: 50}), [(5, 50), (7, 70)], iter([(5, 50), (7, 70)])):
            with elltree.Tree(start, cards=9).handle() as handle:
                self.assertEqual(list(handle.range()), [(5, 50), (7, 70)])

    def test_is_in_one_call_at_a_time(self):
        """Threads make calls on one handle until one call is refused, as another is under way."""
        pairs, until, told = [(key, key) for key in range(1000)], time.monotonic() + 60, []
        handle = elltree.Tree(pairs, cards=9).handle()

        def go_over():
            while elltree.IN_CALL not in told and time.monotonic() < until:
                try:
                    told.append(list(handle.range()) == pairs)
                except elltree.Refused as why:
                    told.append(why.code)

        threads = [threading.Thread(target=go_over) for _ in range(4)]
        for thread in threads:
            thread.start()
        for thread in threads:
            thread.join()
        self.assertEqual((set(told) - {True}, handle.find(2)), ({elltree.IN_CALL}, 2))


unittest.main()
