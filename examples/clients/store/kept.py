"""What the tests of the store share: the modules under test, a store over the model of the heap, and a form in which values are compared."""

import os
import pathlib
import sys

HERE = pathlib.Path(__file__).resolve().parent
sys.dont_write_bytecode = True
sys.path.insert(0, str(HERE.parents[2] / "clients/python"))

import stable_heap as sh  # noqa: E402
from memory_heap import MemoryHeap  # noqa: E402
from stable_heap.store import Dict, List, Set, Store  # noqa: E402

# the launcher of the tests with a real heap
COMMAND = os.environ.get("HEAP", str(sh.LAUNCHER)).split()
HERE_IN_PROCESS = COMMAND == ["here"]


def store_over(heap, pages=None):
    """A store over the model; what the model holds stays when the store is closed."""
    return Store.over(sh.Heap(heap, buffered=True), pages=pages)


def open_store(folder, **named):
    """A store in a heap of the program, or of the library."""
    return Store(folder, here=HERE_IN_PROCESS, command=COMMAND, **named)


def form(value):
    """A list that is equal for two values just if they are of the same kinds, in the same order, and share containers in the same way."""
    numbers, told, waiting = {}, [], [value]
    kept = []

    def told_of(item):
        if isinstance(item, tuple):
            return tuple, tuple(told_of(it) for it in item)
        if isinstance(item, (dict, list, set, Dict, List, Set)):
            if id(item) not in numbers:
                numbers[id(item)] = len(numbers)
                kept.append(item)
                waiting.append(item)
            return "container", numbers[id(item)]
        return type(item), repr(item)

    told.append(told_of(waiting.pop()))
    at = 0
    while at < len(kept):
        item = kept[at]
        at += 1
        if isinstance(item, (dict, Dict)):
            told.append(("dict", [(told_of(key), told_of(it)) for key, it in item.items()]))
        elif isinstance(item, (list, List)):
            told.append(("list", [told_of(it) for it in item]))
        else:
            told.append(("set", sorted(repr(it) for it in item)))
    return told
