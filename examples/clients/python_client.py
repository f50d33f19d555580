#!/usr/bin/env python3
"""Tries clients/python/stable_heap, with writes that are made at once and with writes that are kept. Where the variable HEAP is set, it is the
launcher with its options; where it is "here", the heap is in this process.

    HEAP="./heap --quick" examples/clients/python_client.py
    HEAP=here examples/clients/python_client.py
"""
import ctypes
import os
import pathlib
import sys
import tempfile
import threading
import unittest

CLIENT = pathlib.Path(__file__).resolve().parents[2] / "clients/python"
sys.dont_write_bytecode = True
sys.path.insert(0, str(CLIENT))

import stable_heap as sh  # noqa: E402

COMMAND = os.environ.get("HEAP", str(sh.LAUNCHER)).split()
HERE = COMMAND == ["here"]
# (where no_memory.c is preloaded)
REFUSE_MEMORY = getattr(ctypes.CDLL(None), "refuse_memory", None)


class Client(unittest.TestCase):
    BUFFERED = False

    def setUp(self):
        room = tempfile.TemporaryDirectory()
        self.addCleanup(room.cleanup)
        self.folder = pathlib.Path(room.name) / "heap"
        self.heap = self.open()

    def open(self):
        heap = sh.Heap.open(self.folder, pages=1, log_bytes=65_536, command=COMMAND, here=HERE, buffered=self.BUFFERED)
        self.addCleanup(heap.close)
        return heap

    def open_again(self):
        self.heap.close()
        self.heap = self.open()

    def root_fields(self):
        with self.heap.transaction() as t:
            return [t.root.get(field) for field in range(4)]

    def put(self, number, durable=True):
        with self.heap.transaction(durable) as t:
            t.root.put(0, number)

    @staticmethod
    def put_now(transaction, number):
        """Writes, and reads: a write that is kept has locked nothing yet."""
        transaction.root.put(0, number)
        transaction.root.get(0)

    def test_commit_outlives_the_process(self):
        with self.heap.transaction() as t:
            made = t.new(3)
            made.put(0, 2**62 - 1)
            made.link(1, made)
            t.root.link(2, made)
        self.open_again()
        with self.heap.transaction() as t:
            found = t.root.get(2)
            self.assertEqual((found.get(0), found.get(2), len(found)), (2**62 - 1, None, 3))
            self.assertTrue(found.same(found.get(1)))
            self.assertFalse(found.same(t.root))

    def test_reads_that_are_asked_together(self):
        with self.heap.transaction() as t:
            made = t.new(40)
            for field in range(0, 40, 2):
                made.put(field, field)
            made.link(39, t.root)
            t.root.link(1, made)
        with self.heap.transaction() as t:
            found = t.root.follow(1)
            values = t.get_all([(found, field) for field in range(40)] * 5)
            self.assertEqual(values[40:79], [field if field % 2 == 0 else None for field in range(39)])
            self.assertTrue(values[199].same(t.root))
            self.assertTrue(found.follow(39).follow(1).same(found))
            self.assertEqual(t.numbers([(found, field) for field in range(38, -1, -2)] * 15), list(range(38, -1, -2)) * 15)
            self.assertEqual(t.numbers([]), [])
            self.assertRaises(sh.Protocol, t.numbers, [(found, 0), (found, 1)])
            values = None
            self.assertEqual(t.spare_handles, 62)

    def test_a_refused_read_among_many(self):
        with self.assertRaises(sh.BadField), self.heap.transaction() as t:
            t.root.put(0, 1)
            t.get_all([(t.root, 0), (t.root, 4), (t.root, 1)])
        self.assertEqual(self.root_fields(), [None] * 4)

    def test_clear(self):
        self.put(7)
        with self.heap.transaction() as t:
            t.root.clear(0)
        self.assertEqual(self.root_fields(), [None] * 4)

    def test_exception_aborts(self):
        self.put(7)
        with self.assertRaises(KeyError):
            with self.heap.transaction() as t:
                t.root.put(0, 8)
                raise KeyError
        self.assertEqual(self.root_fields()[0], 7)

    def test_refusal_aborts_though_it_was_caught(self):
        with self.assertRaises(sh.BadField):
            with self.heap.transaction() as t:
                t.root.put(0, 70)
                try:
                    t.root.put(4, 30)
                    t.root.get(0)
                except sh.BadField:
                    pass
        self.assertEqual(self.root_fields(), [None] * 4)

    def test_refusals_have_their_numbers(self):
        with self.assertRaises(sh.OutOfRange), self.heap.transaction() as t:
            t.root.put(0, 2**62)
        with self.assertRaises(sh.OutOfRange), self.heap.transaction() as t:
            t.root.put(0, -1)
        with self.assertRaises(sh.OutOfRange), self.heap.transaction() as t:
            t.new(511)
        with self.assertRaises(sh.VolatileFull) as full, self.heap.transaction() as t:
            for _ in range(9):
                t.new(510)
        self.assertEqual(full.exception.numbers, (4_096,))

    def test_numbers_that_no_line_can_have(self):
        with self.assertRaises(sh.OutOfRange), self.heap.transaction() as t:
            t.root.put(0, 2**64)
        with self.assertRaises(sh.OutOfRange), self.heap.transaction() as t:
            t.root.get(-1)
        for other in (1.5, "7\n1 seal", None):
            with self.assertRaises(TypeError), self.heap.transaction() as t:
                t.root.put(0, other)
        self.assertRaises(sh.OutOfRange, self.heap.flush, -1)
        self.assertEqual(self.root_fields(), [None] * 4)

    def test_seal_that_is_refused_aborts(self):
        with self.assertRaises(sh.Exhausted) as full:
            with self.heap.transaction() as t:
                t.root.link(0, t.new(57))
        self.assertEqual(full.exception.numbers, (59, 58, 0))
        self.assertEqual(self.root_fields(), [None] * 4)

    def test_busy_names_the_holder(self):
        with self.heap.transaction() as first:
            self.put_now(first, 1)
            with self.assertRaises(sh.Busy) as busy:
                with self.heap.transaction() as second:
                    second.root.get(0)
            self.assertEqual(busy.exception.holder, first.number)
        self.assertEqual(self.root_fields()[0], 1)

    def test_run_tries_again(self):
        first = self.heap.transaction()
        first.__enter__()
        self.put_now(first, 1)
        tries = []

        def add(t):
            tries.append(t.number)
            if len(tries) == 3:
                first.__exit__(None, None, None)
            t.root.put(0, t.root.get(0) + 1)
            return "done"

        self.assertEqual(self.heap.run(add), "done")
        self.assertEqual(len(tries), 3)
        self.assertEqual(self.root_fields()[0], 2)

    def test_run_gives_up(self):
        with self.heap.transaction() as first:
            self.put_now(first, 1)
            with self.assertRaises(sh.Busy):
                self.heap.run(lambda t: t.root.get(0), attempts=3)

    def test_handles_are_used_again(self):
        with self.heap.transaction() as t:
            t.root.link(0, t.root)
            here = t.root
            for _ in range(200):
                here = here.get(0)
            self.assertTrue(here.same(t.root))

    def test_handles_run_out(self):
        with self.heap.transaction() as t:
            kept = [t.new(0) for _ in range(64)]
            self.assertRaises(sh.OutOfHandles, t.new, 0)
            kept[5].drop()
            self.assertRaises(sh.Protocol, len, kept[5])
            t.new(0)

    def test_objects_end_with_their_transaction(self):
        with self.heap.transaction() as t:
            root = t.root
        self.assertRaises(sh.Protocol, root.get, 0)
        with self.heap.transaction() as t:
            self.assertRaises(sh.Protocol, t.root.link, 0, root)

    def test_forced_later(self):
        self.put(1, durable=False)
        self.put(2, durable=False)
        self.assertEqual(self.heap.force(), 2)

    @unittest.skipIf(HERE, "there is no process of its own")
    def test_killed_process(self):
        self.put(7)
        with self.assertRaises(sh.Ended):
            with self.heap.transaction() as t:
                t.root.put(0, 8)
                self.heap._way._process.terminate()
                self.heap._way._process.wait()
                t.root.put(0, 9)
        self.open_again()
        self.assertEqual(self.root_fields()[0], 7)

    def test_closed_heap(self):
        self.heap.close()
        self.assertRaises(sh.Protocol, self.heap.force)

    def test_heap_in_use(self):
        self.assertRaises(sh.InUse, self.open)

    def test_what_is_no_heap_is_left_alone(self):
        self.heap.close()
        file = self.folder / "heap.img"
        file.write_text("a text\n")
        self.assertRaises(sh.NotAHeap, self.open)
        self.assertEqual(file.read_text(), "a text\n")

    def test_flush(self):
        self.put(7)
        self.assertRaises(sh.NoSuchPage, self.heap.flush, 2)
        self.heap.flush(0)
        self.assertFalse(self.heap.flush(0))

    def test_collection(self):
        with self.heap.transaction() as t:
            t.root.link(0, t.new(3))
            t.root.put(1, 7)
        with self.heap.transaction() as t:
            self.assertTrue(self.heap.flip())
            self.assertFalse(self.heap.flip())
            self.assertEqual(len(t.root.get(0)), 3)
            t.root.clear(0)
        self.heap.collect()
        self.assertEqual(self.heap.go_on()[0], "idle")
        self.assertFalse(self.heap.scan())
        with self.heap.transaction() as t:
            self.assertEqual((t.root.get(0), t.root.get(1)), (None, 7))

    def test_reopen(self):
        self.put(7, durable=False)
        self.heap.reopen()
        self.assertEqual(self.heap.force(), 0)
        with self.heap.transaction() as t:
            self.assertEqual(t.root.get(0), 7)
            with self.assertRaises(sh.Unfinished):
                self.heap.reopen()
            t.root.put(0, 8)
        self.heap.reopen()
        self.assertEqual(self.root_fields()[0], 8)

    def test_threads_share_sessions(self):
        def count():
            self.heap.run(lambda t: t.root.put(0, (t.root.get(0) or 0) + 1), attempts=1_000, pause=0.01)

        threads = [threading.Thread(target=count) for _ in range(40)]
        for thread in threads:
            thread.start()
        for thread in threads:
            thread.join()
        self.assertEqual(self.root_fields()[0], 40)

    @unittest.skipUnless(HERE, "a child of the pipe's client would share the pipe")
    def test_forked_child(self):
        self.put(7)
        transaction = self.heap.transaction().__enter__()
        transaction.root.put(0, 8)
        child = os.fork()
        if child == 0:
            protocols = 0
            for call in (self.heap.force, self.heap.reopen, lambda: self.put(9), lambda: transaction.__exit__(None, None, None)):
                try:
                    call()
                except sh.Protocol:
                    protocols += 1
            os._exit(protocols)
        self.assertEqual(os.waitpid(child, 0)[1], 4 << 8)
        transaction.__exit__(None, None, None)
        self.assertEqual(self.root_fields()[0], 8)

    @unittest.skipUnless(REFUSE_MEMORY, "memory can't be refused here")
    def test_no_memory(self):
        self.put(7, durable=False)
        REFUSE_MEMORY(True)
        self.assertRaises(sh.NoMemory, self.heap.reopen)
        self.assertRaises(sh.NoMemory, self.put, 8)
        REFUSE_MEMORY(False)
        self.assertEqual(self.root_fields()[0], 7)
        refusals = 0
        with self.assertRaises(sh.NoMemory), self.heap.transaction() as t:
            t.root.put(0, 9)
            REFUSE_MEMORY(True)
            while not refusals:
                try:
                    t.root.get(0)
                except sh.NoMemory:
                    refusals += 1
            REFUSE_MEMORY(False)
        self.assertEqual(self.root_fields()[0], 7)


class Buffered(Client):
    BUFFERED = True

    def test_refusal_names_its_write(self):
        with self.assertRaises(sh.BadField) as refusal:
            with self.heap.transaction() as t:
                t.root.put(0, 1)
                t.root.put(4, 2)
                t.root.put(1, 3)
        self.assertTrue(refusal.exception.event.endswith("put 63 4 2"), refusal.exception.event)
        self.assertEqual(self.root_fields(), [None] * 4)

    def test_many_writes(self):
        with self.heap.transaction() as t:
            made = t.new(510)
            for field in range(510):
                made.put(field, field)
            for field in range(510):
                self.assertEqual(made.get(field), field)
                made.put(field, made.get(field) + 1)
            self.assertEqual([made.get(field) for field in range(510)], list(range(1, 511)))


if __name__ == "__main__":
    unittest.main()
