#!/usr/bin/env python3
"""CPython's own tests of dicts and lists, of the package `test` of the Python that runs, over the store's: of no store; in a store, where each call is a
transaction; and in one transaction. After each test the store is opened again, and has to hold what was in memory.

Left out are the tests whose keys or values are of classes of their own, which a store refuses, and in a store those that look at the class of what they
made, which here is made by a subclass. In their places stand the tests of `Instead`."""

import functools
import unittest

from kept import Dict, List, MemoryHeap, form, sh, store_over
from test import list_tests, mapping_tests, seq_tests


class Current:
    """The store of the test that runs."""

    store = None


def stored(kind, *args, **named):
    made = kind(*args, **named)
    Current.store.root["made"].append(made)
    return made


class StoredDict(Dict):
    def __new__(cls, *args, **named):
        return stored(Dict, *args, **named)


class StoredList(List):
    def __new__(cls, *args, **named):
        return stored(List, *args, **named)


def refused(*names):
    """Those tests are left out: what they store is refused."""

    def left_out(kind):
        for name in names:
            setattr(kind, name, None)
        return kind

    return left_out


@refused("test_repr", "test_eq")
class Dicts(mapping_tests.TestHashMappingProtocol):
    type2test = Dict
    # (those of the hash protocol store objects with a bad hash)
    test_getitem = mapping_tests.TestMappingProtocol.test_getitem
    test_pop = mapping_tests.TestMappingProtocol.test_pop
    test_setdefault = mapping_tests.TestMappingProtocol.test_setdefault


@refused("test_contains_fake", "test_contains_order", "test_count", "test_index", "test_remove")
class Lists(list_tests.CommonTest):
    type2test = List


class Instead(unittest.TestCase):
    """What the tests that are left out try, with values that a store keeps."""

    dict_type, list_type = Dict, List

    def test_repr(self):
        made = self.dict_type()
        self.assertEqual(repr(made), "{}")
        made[1] = 2
        self.assertEqual(repr(made), "{1: 2}")
        made[1] = made
        self.assertEqual(repr(made), "{1: {...}}")

    def test_eq(self):
        self.assertEqual(self.dict_type(), self.dict_type())
        self.assertEqual(self.dict_type({1: 2}), self.dict_type({1: 2}))
        self.assertNotEqual(self.dict_type({1: 2}), self.dict_type({1: 3}))
        self.assertEqual(self.dict_type({1: [2, {3: 4}]}), {1.0: [2, {3: 4}]})
        self.assertNotEqual(self.dict_type(), [])

    def test_classes_of_their_own(self):
        class Own:
            def __eq__(self, other):
                return True

            def __hash__(self):
                return 1

        for kind in (Own, type("Text", (str,), {}), frozenset, complex, bytearray):
            made, items = self.dict_type({1: 2}), self.list_type([1, 2])
            self.assertRaises(TypeError, made.__setitem__, kind(), 1)
            self.assertRaises(TypeError, made.__setitem__, 1, kind())
            self.assertRaises(TypeError, made.__setitem__, 1, [1, (2, kind())])
            self.assertRaises(TypeError, made.setdefault, 3, kind())
            self.assertRaises(TypeError, made.update, {1: 4, 2: kind()})
            self.assertRaises(TypeError, items.append, kind())
            self.assertRaises(TypeError, items.__setitem__, slice(0, 1), [5, kind()])
            self.assertRaises(TypeError, items.extend, [5, kind()])
            self.assertEqual((made, items), ({1: 2}, [1, 2]))
        # (they may be looked for)
        self.assertIn(Own(), self.list_type([1]))
        self.assertEqual(self.list_type([1, 2]).index(Own()), 0)

    def test_unhashable_keys(self):
        made = self.dict_type()
        for key in ([], {}, (1, []), self.list_type()):
            self.assertRaises(TypeError, made.__setitem__, key, 1)
            self.assertRaises(TypeError, made.get, key)
        self.assertEqual(made, {})

    def test_count_and_index(self):
        items = self.list_type([-2, -1, 0, 0.0, 1, True, "a", (1, 2)])
        self.assertEqual([items.count(it) for it in (0, 1, "a", (1, 2), 9)], [2, 2, 1, 1, 0])
        self.assertEqual([items.index(it) for it in (0, 1, "a", (1, 2))], [2, 4, 6, 7])
        self.assertEqual(items.index(0, 3), 3)
        self.assertRaises(ValueError, items.index, 0, 4)
        self.assertRaises(TypeError, items.count)
        self.assertRaises(TypeError, items.index)

    def test_remove(self):
        items = self.list_type([0, 0.0, 1, "a"])
        items.remove(0)
        self.assertEqual(list(map(repr, items)), ["0.0", "1", "'a'"])
        items.remove("a")
        self.assertRaises(ValueError, items.remove, 9)
        self.assertRaises(TypeError, items.remove)
        self.assertEqual(items, [0, 1])


class InStore:
    """A test in a store."""

    together = False

    def setUp(self):
        super().setUp()
        self.heap = MemoryHeap()
        Current.store = store_over(self.heap)
        Current.store.root["made"] = []
        if self.together:
            self.within = Current.store.transaction()
            self.within.__enter__()

    def tearDown(self):
        if self.together:
            self.within.__exit__(None, None, None)
        wanted = form(Current.store.root)
        Current.store.close()
        with store_over(self.heap) as again:
            self.assertEqual(form(again.root), wanted)
        super().tearDown()


def ways(kind, types, left_out):
    """The test class, of no store and in both ways of a store."""
    for name, together in (("Calls", False), ("Together", True)):
        made = type(f"{kind.__name__}{name}", (InStore, kind), {**types, "together": together, **dict.fromkeys(left_out)})
        globals()[made.__name__] = made


ways(Dicts, {"type2test": StoredDict}, ["test_fromkeys"])
ways(Lists, {"type2test": StoredList}, ["test_free_after_iterating"])
ways(Instead, {"dict_type": StoredDict, "list_type": StoredList}, [])

if __name__ == "__main__":
    unittest.main()
