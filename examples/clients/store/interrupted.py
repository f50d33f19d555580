#!/usr/bin/env python3
"""Interrupts the store at each place where Python looks for a signal: where a function begins, where a step of a loop begins, and behind a call. That is
done in the store and in contextlib, over the model of the heap, once for each such place that some transactions come to.

Where the store is open afterwards, what is in memory is what the heap holds, before and after more is done; where it is closed, the heap has the
transaction whole or not at all."""

import ast
import builtins
import contextlib
import copy
import importlib
import importlib.machinery
import pathlib
import sys
import threading

# (as it stands for a heap, it is not interrupted)
from memory_heap import MemoryHeap

PAGES = 2


class Places(ast.NodeTransformer):
    """Puts a call where a signal can be met."""

    def visit_Call(self, node):
        return ast.Call(ast.Name("here_it_is_interrupted", ast.Load()), [self.generic_visit(node)], [])

    def begun(self, node):
        self.generic_visit(node)
        node.body.insert(0, ast.Expr(ast.Call(ast.Name("here_it_is_interrupted", ast.Load()), [], [])))
        return node

    visit_FunctionDef = visit_For = visit_While = begun


class Interrupts:
    """Raises KeyboardInterrupt at the place of that number."""

    left = 0

    def place(self, value=None):
        self.left -= 1
        if self.left == 0:
            raise KeyboardInterrupt
        return value


# what comes in the midst of these comes to the same as behind a call of them: the parts that change nothing, and the client
LEFT_OUT = "planning placing image words walking entries layout __init__"


def compiled(loader, data, path, **options):
    tree = ast.parse(data)
    if pathlib.Path(path).stem not in LEFT_OUT.split():
        tree = ast.fix_missing_locations(Places().visit(tree))
    return compile(tree, path, "exec", dont_inherit=True)


INTERRUPTS = Interrupts()
builtins.here_it_is_interrupted = INTERRUPTS.place
# (nothing is read that was compiled before)
sys.pycache_prefix = "/nonexistent"
importlib.machinery.SourceFileLoader.source_to_code = compiled
importlib.reload(contextlib)

from kept import List, form, store_over  # noqa: E402
from stable_heap.store import Closed, Full  # noqa: E402


def read(store):
    len(store.root)


def change(store):
    with store.transaction():
        store.root["money"] = 6
        with store.transaction():
            store.root["a"].append(List([1]))
        store.root["b"] = store.root.pop("new")


def caught(store):
    """What an interrupt leaves of an inner part is kept or not, as the part was done or not; the outer one is done."""
    with store.transaction():
        try:
            with store.transaction():
                store.root["a"].append(7)
        except KeyboardInterrupt:
            pass
        try:
            store.root["money"] = 7
        except KeyboardInterrupt:
            pass


# what is there after an interrupt of a part that was caught
PARTS = {caught: [lambda store: store.root["a"].append(7), lambda store: store.root.update(money=7)]}


def fill(store):
    """What has no room where the same was there before, without a collection."""
    store.root["text"] = "x" * 380


def empty(store):
    del store.root["text"]


def fail(store):
    with contextlib.suppress(KeyError), store.transaction():
        store.root["a"].clear()
        del store.root["money"], store.root["missing"]


def unforced(store):
    with store.transaction(durable=False):
        store.root["money"] = 8
    with store.transaction():
        len(store.root)


def kept_again(heap):
    with store_over(heap, PAGES) as store:
        return form(store.root)


def done_to(heap, work):
    """A copy of the heap, in which the work was done."""
    made = copy.deepcopy(heap)
    with store_over(made, PAGES) as store:
        work(store)
    return made


def has_turn(store):
    """Whether another thread can have the store's turn."""
    had = []

    def take():
        had.append(store._turn.acquire(timeout=2))
        if had[0]:
            store._turn.release()

    thread = threading.Thread(target=take)
    thread.start()
    thread.join()
    return had[0]


def try_once(heap, work, number, known):
    """Whether the interrupt came. What is found is to be one of what is known."""
    store = store_over(heap, PAGES)
    if work is not read:
        form(store.root)
    INTERRUPTS.left = number
    try:
        work(store)
    except (KeyboardInterrupt, Closed):
        pass
    came, INTERRUPTS.left = INTERRUPTS.left <= 0, 0
    assert has_turn(store), (work, number)
    try:
        store.root
    except Closed:
        assert kept_again(heap) in known, (work, number)
        return came
    assert form(store.root) in known, (work, number)
    with contextlib.suppress(Full):
        store.root["more"] = [[1], {}]
    wanted = form(store.root)
    store.close()
    assert kept_again(heap) == wanted, (work, number)
    return came


def tried(heap, work):
    """What the heap holds once the work was done, and how many times it was interrupted."""
    done = done_to(heap, work)
    known = [kept_again(it) for it in (heap, done, *(done_to(heap, part) for part in PARTS.get(work, [])))]
    number = 1
    while try_once(copy.deepcopy(heap), work, number, known):
        number += 1
    return done, number - 1


def main():
    # (what interrupts a finalizer is told to nobody)
    sys.unraisablehook = lambda told: None
    heap = MemoryHeap(pages=PAGES)
    with store_over(heap, PAGES) as store:
        store.root.update(a=[1, [2]], money=1, new=[1])
    places = 0
    for work in (read, change, caught, fill, empty, fill, fail, unforced):
        heap, count = tried(heap, work)
        places += count
    assert heap.exhausted and heap.collections, "no collection was needed"
    print(f"interrupted at {places:,} places")


if __name__ == "__main__":
    main()
