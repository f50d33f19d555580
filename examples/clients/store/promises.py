#!/usr/bin/env python3
"""What the page of the store promises, over the model of the heap, and at the end over a real one."""

import copy
import json
import os
import pathlib
import pickle
import random
import signal
import subprocess
import sys
import tempfile
import threading
import unittest
import unittest.mock

from kept import COMMAND, HERE, HERE_IN_PROCESS, Dict, List, MemoryHeap, Set, form, open_store, sh, store_over
from stable_heap.store import Closed, Full, StoreError, TooLarge, plain
from stable_heap.store.keeping import Keeper
from stable_heap.store.levels import Level
from stable_heap.store.planning import Plan

VALUES = [
    [None, True, False, 0, 1, -1, 2**58 - 1, 2**58, -(2**58), -(2**58) - 1, 2**900, -(2**901), 0.5, 0.1, -0.0, 1e308, 5e-324, float("inf"), -float("inf")],
    ["", "a", "abcdefg", "abcdefgh", "äöüß", "\ud800", "\0", "x" * 3_563, "x" * 3_564, "ä" * 20_000, b"", b"\0", b"1234567", b"12345678", bytes(9_000)],
    [(), (1,), (None,), ((), ("a text of many bytes",)), tuple(range(509)), tuple(range(510)), tuple(["more than seven"] * 600)],
]


class Model(unittest.TestCase):
    """A test over the model of the heap."""

    PAGES = 16_384

    def setUp(self):
        self.heap = MemoryHeap(pages=self.PAGES)
        self.store = store_over(self.heap, self.PAGES)

    def open_again(self):
        self.store.close()
        self.store = store_over(self.heap, self.PAGES)
        return self.store.root

    def stays(self):
        """What is found again is what was in memory."""
        wanted = form(self.store.root)
        self.assertEqual(form(self.open_again()), wanted)


class Values(Model):
    def test_values(self):
        self.store.root["values"] = VALUES
        self.assertEqual(form(plain(self.store.root)), form({"values": VALUES}))
        self.stays()
        self.assertEqual(form(plain(self.store.root)), form({"values": VALUES}))

    def test_keys(self):
        for value in (it for values in VALUES for it in values):
            self.store.root[value] = 1
        wanted = plain(self.store.root)
        self.stays()
        self.assertEqual(list(self.store.root), list(wanted))

    def test_nan_keeps_its_bits(self):
        import struct

        nan = struct.unpack("<d", bytes.fromhex("010000000000f87f"))[0]
        self.store.root["nan"] = nan
        self.assertEqual(struct.pack("<d", self.open_again()["nan"]), struct.pack("<d", nan))

    def test_drawn_ints_and_floats(self):
        rng = random.Random(1)
        values = [rng.choice([-1, 1]) * rng.getrandbits(rng.randint(1, 200)) for _ in range(500)]
        values += [rng.choice([-1, 1]) * rng.random() * 2.0 ** rng.randint(-300, 300) for _ in range(500)]
        self.store.root["values"] = values
        self.assertEqual(form(plain(self.open_again()["values"])), form(values))

    def test_refused_values_change_nothing(self):
        self.store.root["a"] = [1]
        deep = ()
        for _ in range(30):
            deep = (deep,)
        for value, error in ((object(), TypeError), ([1, {2: frozenset()}], TypeError), (deep, ValueError), ({1: 1j}, TypeError)):
            with self.assertRaises(error):
                self.store.root["b"] = value
            with self.assertRaises(error):
                self.store.root["a"].append(value)
        self.assertEqual(self.store.root, {"a": [1]})
        self.stays()

    def test_plain_ones_are_copied(self):
        mine = {"inner": [1]}
        mine["self"] = mine
        self.store.root["a"] = mine
        mine["inner"].append(2)
        self.assertEqual(self.store.root["a"]["inner"], [1])
        self.assertIs(self.store.root["a"]["self"], self.store.root["a"])

    def test_not_by_subclass(self):
        import heapq

        self.store.root["a"] = [3, 1, 2]
        self.assertRaises(TypeError, heapq.heappush, self.store.root["a"], 0)
        self.assertNotIsInstance(self.store.root, dict)

    def test_plain_json_pickle_copy(self):
        self.store.root["a"] = {"b": [1, (2, {"c": 3})]}
        wanted = {"a": {"b": [1, (2, {"c": 3})]}}
        self.assertEqual(plain(self.store.root), wanted)
        self.assertEqual(json.loads(json.dumps(self.store.root, default=plain)), {"a": {"b": [1, [2, {"c": 3}]]}})
        for made in (pickle.loads(pickle.dumps(self.store.root)), copy.deepcopy(self.store.root)):
            self.assertEqual((type(made), made), (dict, wanted))

    def test_sets(self):
        self.store.root["s"] = {1, 2, "three"}
        found = self.store.root["s"]
        found |= {4, 5}
        found.discard(1)
        found.remove(2)
        self.assertRaises(KeyError, found.remove, 2)
        self.assertRaises(TypeError, found.add, [])
        self.assertRaises(TypeError, found.add, List())
        self.assertEqual((found, found & {4, 9}, found | {6}, found - {4}, found ^ {4, 7}), ({4, 5, "three"}, {4}, {4, 5, 6, "three"}, {5, "three"}, {5, 7, "three"}))
        self.assertTrue(found.issuperset([4, 5]) and found > {4} and Set([4]).issubset(found) and found.isdisjoint({8}))
        self.assertEqual((found.union([8], [9]), found.intersection([4, 5, 6]), found.difference([4])), ({4, 5, "three", 8, 9}, {4, 5}, {5, "three"}))
        self.stays()


class Lists(Model):
    def test_drawn_at_the_ends_of_leaves(self):
        """One change of a long list at a time, at places where a leaf ends, and each read again from the heap."""
        rng = random.Random(5)
        mirror = list(range(150))
        self.store.root["a"] = mirror
        items = self.store.root["a"]
        for number in range(500):
            at = rng.choice([0, 31, 32, 33, 63, 64, 65, 96, len(mirror) // 2, len(mirror)]) % (len(mirror) or 1)
            change = rng.choice(["pop", "pop", "insert", "insert", "set", "append", "delete", "slice", "remove"])
            new = [number] * rng.randint(0, 40)
            for it in (items, mirror):
                if change == "append" or not it:
                    it.append(number)
                elif change == "insert":
                    it.insert(at, number)
                elif change == "pop":
                    it.pop(at)
                elif change == "set":
                    it[at] = number
                elif change == "delete":
                    del it[at : at + 3]
                elif change == "remove":
                    it.remove(it[at])
                else:
                    it[at : at + 2] = new
            items = self.open_again()["a"]
            self.assertEqual(items, mirror, (number, change, at))


class Identity(Model):
    def test_sharing_and_cycles(self):
        root = self.store.root
        root["a"] = shared = List([1])
        root["b"] = {"c": shared, "t": (0, (shared, "a text of many bytes"))}
        shared.append(root)
        self.assertIs(root["b"]["c"], shared)
        root = self.open_again()
        self.assertIs(root["b"]["c"], root["a"])
        self.assertIs(root["b"]["t"][1][0], root["a"])
        self.assertIs(root["a"][1], root)

    def test_moved(self):
        root = self.store.root
        root["a"], root["b"] = {"x": [1, 2]}, {}
        moved = root["a"].pop("x")
        moved.append(3)
        root["b"]["x"] = moved
        self.assertIs(root["b"]["x"], moved)
        self.stays()
        self.assertEqual(self.store.root, {"a": {}, "b": {"x": [1, 2, 3]}})

    def test_popped_is_kept_while_it_is_held(self):
        root = self.store.root
        root["a"] = {"inner": [1, [2]]}
        root = self.open_again()
        popped = root.pop("a")
        for _ in range(3):
            self.store.collect()
        # (it was not read before)
        self.assertEqual(popped, {"inner": [1, [2]]})
        inner = popped["inner"]
        del popped
        root["again"] = inner
        self.store.collect()
        self.stays()
        self.assertEqual(self.store.root, {"again": [1, [2]]})

    def test_let_go_is_freed(self):
        used = self.heap.used
        self.store.root["a"] = [["some text of length"] * 10 for _ in range(50)]
        self.open_again()["a"] = None
        del self.store.root["a"]
        self.store.collect()
        self.assertLess(self.heap.used, used + 60)

    def test_cycle_that_was_cut_off(self):
        root = self.store.root
        root["x"] = {}
        x = root["x"]
        x["y"] = {}
        y = x["y"]
        with self.store.transaction():
            del root["x"]
            y["up"] = x
        y["more"] = 1
        root["y"] = y
        self.store.collect()
        self.stays()
        self.assertIs(self.store.root["y"]["up"]["y"], self.store.root["y"])

    def test_lists_of_lists_reversed(self):
        self.store.root["a"] = [[number] for number in range(200)]
        items = self.store.root["a"]
        first = items[0]
        items.reverse()
        self.assertIs(items[-1], first)
        self.stays()
        items = self.store.root["a"]
        items.sort(key=lambda it: (it[0] % 7, it[0]))
        self.stays()

    def test_deep(self):
        here = self.store.root
        with self.store.transaction():
            for number in range(300):
                here["n"] = {"number": number}
                here = here["n"]
        here = self.open_again()
        for number in range(300):
            here = here["n"]
        self.assertEqual(here, {"number": 299})

    def test_two_stores(self):
        other = store_over(MemoryHeap())
        other.root["a"] = [1]
        self.assertRaises(ValueError, self.store.root.__setitem__, "a", other.root["a"])
        self.store.root["a"] = plain(other.root["a"])
        self.assertEqual(self.store.root, {"a": [1]})


class Transactions(Model):
    def test_abort(self):
        root = self.store.root
        root["a"] = {"b": [1, 2], "z": 1}
        inner, made = root["a"]["b"], List([7])
        with self.assertRaises(KeyError), self.store.transaction():
            inner.clear()
            root["a"]["c"] = made
            made.append(8)
            del root["a"]["b"]
            root.clear()
            raise KeyError
        self.assertEqual(root, {"a": {"b": [1, 2], "z": 1}})
        self.assertIs(root["a"]["b"], inner)
        self.assertEqual((list(root["a"]), made), (["b", "z"], [7]))
        self.stays()
        # (what came to the store in it is of no store again)
        other = store_over(MemoryHeap())
        other.root["made"] = made
        self.assertIs(other.root["made"], made)

    def test_nested_abort(self):
        root = self.store.root
        root["n"] = [0]
        with self.store.transaction():
            root["n"].append(1)
            with self.assertRaises(KeyError), self.store.transaction():
                root["n"].append(2)
                root["m"] = 1
                raise KeyError
            self.assertEqual(root, {"n": [0, 1]})
            with self.store.transaction():
                root["n"].append(3)
        self.assertEqual(root, {"n": [0, 1, 3]})
        self.stays()
        with self.assertRaises(KeyError), self.store.transaction():
            with self.store.transaction():
                self.store.root["n"].append(4)
            raise KeyError
        self.assertEqual(self.store.root, {"n": [0, 1, 3]})
        self.stays()

    def test_run(self):
        self.assertEqual(self.store.run(lambda: self.store.root.setdefault("a", 5)), 5)
        self.assertRaises(ZeroDivisionError, self.store.run, lambda: self.store.root.update(a=1 / 0))
        self.assertEqual(self.open_again(), {"a": 5})

    def test_one_transaction_is_one_commit(self):
        self.assertEqual(len(self.store.root), 0)
        commits = self.heap.commits
        with self.store.transaction():
            for number in range(100):
                self.store.root[number] = [number]
        self.assertEqual(self.heap.commits, commits + 1)
        with self.store.transaction():
            self.store.root[1] = self.store.root[1]
        self.assertEqual(self.heap.commits, commits + 1)

    def test_size_changed_while_iterating(self):
        self.store.root.update(a=1, b=2)
        with self.assertRaises(RuntimeError):
            for key in self.store.root:
                self.store.root[key + "more"] = 1

    def test_iterators_follow_an_abort(self):
        self.store.root["a"] = [1, 2, 3]
        items = self.store.root["a"]
        steps = iter(items)
        self.assertEqual(next(steps), 1)
        with self.assertRaises(KeyError), self.store.transaction():
            items.clear()
            raise KeyError
        self.assertEqual(list(steps), [2, 3])

    def test_closed(self):
        root = self.store.root
        root["a"] = [1]
        self.store.close()
        self.store.close()
        for call in (lambda: root["a"], lambda: len(root), lambda: root.update(b=1), lambda: list(root), self.store.transaction().__enter__, self.store.force):
            self.assertRaises(Closed, call)
        self.assertRaises(Closed, lambda: self.store.root)

    def test_something_else(self):
        heap = MemoryHeap()
        with sh.Heap(heap).transaction() as t:
            t.root.put(0, 7)
        self.assertRaises(StoreError, store_over, heap)

    def test_threads_add(self):
        self.store.root["n"] = 0

        def add():
            for _ in range(50):
                with self.store.transaction():
                    self.store.root["n"] += 1

        threads = [threading.Thread(target=add) for _ in range(8)]
        for thread in threads:
            thread.start()
        for thread in threads:
            thread.join()
        self.assertEqual(self.open_again()["n"], 400)

    def test_no_dirty_read(self):
        self.store.root.update(a=1, b=1)
        seen, go, ready = [], threading.Event(), threading.Event()

        def write():
            with self.store.transaction():
                self.store.root["a"] = 2
                ready.set()
                go.wait(0.2)
                self.store.root["b"] = 2

        def read():
            ready.wait()
            seen.append([self.store.root["a"], self.store.root["b"]])

        threads = [threading.Thread(target=write), threading.Thread(target=read)]
        for thread in threads:
            thread.start()
        for thread in threads:
            thread.join()
        self.assertEqual(seen, [[2, 2]])


class Interrupts(Model):
    """At the places that matter; `interrupted.py` comes to all."""

    def interrupted(self, kind, name):
        """A transaction in which that method is interrupted: what is found again."""
        self.store.root.update(money=1, kept=[1])
        with unittest.mock.patch.object(kind, name, side_effect=KeyboardInterrupt), self.assertRaises(KeyboardInterrupt):
            with self.store.transaction():
                self.store.root["money"] = 5
                self.store.root["new"] = {}
        self.assertRaises(Closed, lambda: self.store.root)
        self.assertEqual(self.heap.sessions, {})
        self.store = store_over(self.heap, self.PAGES)
        return plain(self.store.root)

    def test_behind_the_commit(self):
        for kind, name in ((Plan, "applied"), (Keeper, "wrote")):
            self.assertEqual(self.interrupted(kind, name), {"money": 5, "kept": [1], "new": {}})
            del self.store.root["new"]

    def test_before_its_reply(self):
        commit = sh.Transaction._commit

        def lost(transaction):
            commit(transaction)
            raise KeyboardInterrupt

        with unittest.mock.patch.object(sh.Transaction, "_commit", lost), self.assertRaises(KeyboardInterrupt):
            self.store.root["money"] = 5
        self.assertRaises(Closed, lambda: self.store.root)
        self.assertEqual(store_over(self.heap).root, {"money": 5})

    def test_before_the_commit(self):
        self.assertEqual(self.interrupted(Keeper, "expect"), {"money": 1, "kept": [1]})

    def test_while_it_is_taken_back(self):
        self.store.root["a"] = 1
        with unittest.mock.patch.object(Level, "restore", side_effect=KeyboardInterrupt), self.assertRaises(KeyboardInterrupt):
            with self.store.transaction():
                self.store.root["a"] = 2
                raise ValueError
        self.assertRaises(Closed, lambda: self.store.root)
        self.assertEqual(store_over(self.heap).root, {"a": 1})

    def test_in_the_midst_of_an_update(self):
        """The change of a list is done, and not noted; the transaction goes on."""
        self.store.root["a"] = list(range(50))
        items = self.store.root["a"]
        with self.store.transaction():
            with unittest.mock.patch("stable_heap.store.image.Splices.splice", side_effect=KeyboardInterrupt), self.assertRaises(KeyboardInterrupt):
                del items[3]
            items.append(50)
        self.assertEqual(len(items), 50)
        self.stays()

    def test_between_the_calls_of_a_with(self):
        self.store.root["a"] = 1
        with self.assertRaises(KeyboardInterrupt), self.store.transaction():
            self.store.root["a"] = 2
            raise KeyboardInterrupt
        self.assertEqual(self.store.root, {"a": 1})
        self.stays()


class Forced(Model):
    def test_by_the_next_durable_one(self):
        """Also where that one changes nothing."""
        for nothing in (lambda: self.store.root["a"], lambda: self.store.root.update(a=1)):
            with self.store.transaction(durable=False):
                self.store.root["a"] = 0
                self.store.root["a"] = 1
                self.store.root["b"] = [1]
            self.assertTrue(self.heap.unforced)
            with self.store.transaction(durable=False):
                nothing()
            self.assertTrue(self.heap.unforced)
            with self.store.transaction():
                nothing()
            self.assertFalse(self.heap.unforced)
        forces = self.heap.events
        with self.store.transaction():
            nothing()
        self.assertEqual(self.heap.events, forces)


class Room(Model):
    PAGES = 40

    def test_full_changes_nothing(self):
        self.store.root["a"] = ["some text of length"] * 100
        before = plain(self.store.root)
        for large in ("x" * 20_000, [["some text of length", number] for number in range(2_000)]):
            with self.assertRaises(Full) as full:
                self.store.root["b"] = large
            self.assertIn("store.grow(pages=..)", str(full.exception))
            self.assertEqual(self.store.root, before)
        self.store.root["c"] = 1
        self.stays()

    def test_delete_makes_room(self):
        self.store.root["a"] = "x" * 12_000
        with self.assertRaises(Full):
            self.store.root["b"] = "y" * 12_000
        del self.store.root["a"]
        self.store.root["b"] = "y" * 12_000
        self.stays()

    def test_log_is_full(self):
        self.heap.log_bytes = self.heap.log + 2_000
        with self.assertRaises(Full) as full:
            for number in range(1_000):
                self.store.root["n"] = number
        self.assertIn("store.compact()", str(full.exception))
        self.assertEqual(self.store.root["n"], number - 1)

    def test_a_full_log_is_read(self):
        """Many containers are read while the log has room for a few ends of transactions, also between commits that are refused."""
        self.store.root["rows"] = [[number] for number in range(200)]
        self.heap.log_bytes = self.heap.log + 60
        rows = self.open_again()["rows"]
        self.assertEqual([row[0] for row in rows[:150]], list(range(150)))
        with self.assertRaises(Full):
            rows[0][0] = "a text of many bytes"
        self.assertEqual([row[0] for row in rows], list(range(200)))

    def test_long_life(self):
        """Commits that write many times what the space has: it collects by itself, beside them."""
        rng = random.Random(3)
        mirror = {}
        for number in range(4_000):
            key = rng.randint(0, 40)
            if rng.random() < 0.7:
                self.store.root[key] = mirror[key] = [number, "some text of length"]
            elif key in mirror:
                del self.store.root[key], mirror[key]
        self.assertGreater(self.store.stats()["collections"], 10)
        self.assertEqual(self.heap.exhausted, 0)
        self.assertEqual(self.store.root, mirror)
        self.stays()
        self.assertGreater(self.heap.log, 20 * 8 * self.heap.space)


class Large(Model):
    def test_more_than_a_transaction_of_the_heap_takes(self):
        self.store.root["a"] = [1]
        with self.store.transaction():
            self.store.root["many"] = {f"key number {number}": [number, (self.store.root["a"], "text")] for number in range(2_500)}
            self.store.root["text"] = "ä" * 60_000
        self.assertIs(self.store.root["many"]["key number 7"][1][0], self.store.root["a"])
        self.stays()

    def test_cut_short_in_parts(self):
        """Wherever a commit that is made in parts is cut short, nothing of it is there, and its room is freed."""
        self.store.root["a"] = 1
        for part in (2, 3, 5, 400, 2_000):
            self.heap.refused = self.heap.events + part, "logfull", (1, 2, 3)
            with self.assertRaises(Full):
                self.store.root["many"] = [[number] for number in range(2_000)]
            self.assertEqual(self.store.root, {"a": 1})
            self.store.collect()
            self.assertLess(self.heap.used, 200)
            with self.assertRaises(Full):
                self.heap.refused = self.heap.events + part, "logfull", (1, 2, 3)
                self.store.root["many"] = [[number] for number in range(2_000)]
            self.stays()
        self.store.root["b"] = 2
        self.store.collect()
        self.assertLess(self.heap.used, 200)


class Program(unittest.TestCase):
    """Over a real heap."""

    def setUp(self):
        room = tempfile.TemporaryDirectory()
        self.addCleanup(room.cleanup)
        self.folder = pathlib.Path(room.name) / "store"

    def open(self, **named):
        store = open_store(self.folder, **{"pages": 20, "log_bytes": 131_072, **named})
        self.addCleanup(store.close)
        self.store = store
        return store

    def open_again(self):
        self.store.close()
        return self.open()

    def test_all_of_it(self):
        store = self.open()
        self.assertRaises(sh.InUse, self.open, wait=0)
        store.root["a"] = {"b": [1, (2, {3: "a text of many bytes"})], "big": 2**200, "set": {1, 2}}
        items = store.root["a"]["b"]
        store.root["me"] = store.root
        with self.assertRaises(KeyError), store.transaction():
            items.append(9)
            raise KeyError
        store.root["more"] = [[number] for number in range(40)]
        store.root["more"].reverse()
        with store.transaction(durable=False):
            del store.root["more"]
        store.force()
        store.collect()
        store.grow(pages=24, log_bytes=65_536)
        self.assertIs(store.root["a"]["b"], items)
        items.append(10)
        figures = store.stats()
        self.assertEqual((figures["pages"], figures["log_bytes"]), (24, 65_536))
        self.assertEqual(sorted(os.listdir(self.folder)), ["heap.img"])
        with self.assertRaises(Full):
            store.grow(pages=1)
        self.assertEqual(sorted(os.listdir(self.folder)), ["heap.img"])
        items.append(11)
        wanted = form(store.root)
        store.close()
        self.assertEqual(form(self.open().root), wanted)

    def test_growing_fails(self):
        """Each call that can fail before the files are exchanged leaves the old heap, and each one behind that closes the store."""
        self.open().root["a"] = [1, {"b": "a text of many bytes"}]
        wanted = form(self.open_again().root)
        for name, stays in (("os.replace", True), ("os.open", False), ("os.fsync", False)):
            store = self.open_again()
            items = store.root["a"]
            with unittest.mock.patch(name, side_effect=OSError("it failed")), self.assertRaises(OSError if stays else Closed):
                store.grow(pages=24)
            if stays:
                self.assertIs(store.root["a"], items)
                items.append(2)
                items.pop()
                self.assertEqual(os.listdir(self.folder), ["heap.img"])
            else:
                self.assertRaises(Closed, lambda: store.root)
            self.assertEqual(form(self.open_again().root), wanted)

    def test_the_new_heap_fails(self):
        store = self.open()
        store.root["a"] = wanted = [1, {"b": "a text of many bytes"}]
        with unittest.mock.patch("stable_heap.Transaction._commit", side_effect=sh.DiskFault(6)), self.assertRaises(StoreError) as failed:
            store.grow(pages=24)
        self.assertNotIsInstance(failed.exception, Closed)
        store.root["more"] = 1
        self.assertEqual(plain(self.open_again().root), {"a": wanted, "more": 1})

    def test_an_interrupt_while_growing(self):
        store = self.open()
        store.root["a"] = 1
        for name in ("stable_heap.store.rebuilding.compare", "os.replace", "os.fsync"):
            with unittest.mock.patch(name, side_effect=KeyboardInterrupt), self.assertRaises(KeyboardInterrupt):
                store.grow()
            self.assertRaises(Closed, lambda: store.root)
            store = self.open_again()
            self.assertEqual(store.root, {"a": 1})

    def test_no_hard_links(self):
        store = self.open()
        store.root["a"] = 1
        with unittest.mock.patch("os.link", side_effect=OSError("there are no links")):
            store.grow(pages=24)
        self.assertEqual(store.root, {"a": 1})

    def test_collects_by_itself(self):
        """As long as the log takes it, which nothing truncates yet."""
        store = self.open(pages=6, log_bytes=1_048_576)
        for number in range(90):
            store.root[number % 7] = [number, "some text of more than a few bytes"]
        self.assertGreater(store.stats()["collections"], 2)
        wanted = form(store.root)
        store.close()
        self.assertEqual(form(self.open().root), wanted)

    def test_log_is_full(self):
        store = self.open(log_bytes=32_768)
        number = 0
        with self.assertRaises(Full) as full:
            while number < 100:
                store.root["text"] = f"{number} " + "x" * 2_000
                number += 1
        self.assertIn("store.compact()", str(full.exception))
        self.assertGreater(number, 3)
        store.compact()
        store.root["more"] = 1
        self.assertEqual(store.root["text"].split()[0], str(number - 1))

    def test_a_log_with_no_room_for_a_collection(self):
        """No collection begins that the log can't hold, since reads would have to advance it: what is kept can be read, and so written into another heap."""
        store = self.open(pages=100, log_bytes=98_304)
        store.root["kept"] = wanted = [[number, "some text of length"] for number in range(250)]
        with self.assertRaises(Full) as full:
            for number in range(1_000):
                store.root["text"] = f"{number} " + "x" * 1_500
        self.assertIn("store.compact()", str(full.exception))
        store.close()
        store = self.open()
        self.assertEqual(plain(store.root["kept"]), wanted)
        with self.assertRaises(Full):
            store.collect()
        store.grow(log_bytes=262_144)
        store.root["kept"].append([250, "some text of length"])
        store.collect()
        self.assertEqual(plain(store.root["kept"])[:250], wanted)

    def test_forked_child(self):
        store = self.open()
        child = os.fork()
        if child == 0:
            answers = 0
            for call in (lambda: store.root, lambda: store.transaction().__enter__(), store.close):
                try:
                    call()
                except Closed:
                    answers += 1
            os._exit(answers)
        self.assertEqual(os.waitpid(child, 0)[1], 2 << 8)
        store.root["a"] = 1

    @unittest.skipIf(HERE_IN_PROCESS, "there is no process of its own")
    def test_the_heaps_process_ends(self):
        store = self.open()
        store.root["a"] = 1
        store._heap._way._process.terminate()
        store._heap._way._process.wait()
        with self.assertRaises(Closed):
            store.root["b"] = 2
        self.assertRaises(Closed, lambda: store.root)
        self.assertEqual(self.open().root, {"a": 1})

    def test_command_line(self):
        with self.open() as store:
            store.root["a"] = [1, (2.5, b"x", float("inf")), {3}]
            store.root["me"] = store.root
        environment = dict(os.environ, HEAP=" ".join(COMMAND), PYTHONPATH=str(HERE.parents[2] / "clients/python"))

        def run(*words, **named):
            command = [sys.executable, "-m", "stable_heap", *words]
            return subprocess.run(command, env=environment, capture_output=True, text=True, **named)

        dump = run("dump", str(self.folder)).stdout
        copied = str(self.folder.parent / "copied")
        self.assertEqual(run("restore", copied, "16", "65536", input=dump).returncode, 0)
        self.assertEqual(run("dump", copied).stdout, dump)
        self.assertEqual(run("restore", copied, input=dump).returncode, 1)
        self.assertIn("'a': List of 3", run("tree", copied).stdout)
        self.assertIn("pages: 16\n", run("info", copied).stdout)
        self.assertEqual(run("what", copied).returncode, 2)


if __name__ == "__main__":
    unittest.main()
