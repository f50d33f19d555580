#!/usr/bin/env python3
"""A to-do list that outlives the program.

    clients/python/todo.py FOLDER add NUMBER      a thing to do, by its number
    clients/python/todo.py FOLDER done NUMBER     takes it off the list
    clients/python/todo.py FOLDER                 prints the list

The root's field 0 refers to the first item. An item has two fields: its number, and the next item. Where the variable HEAP is set,
it is the launcher with its options.
"""
import os
import sys
from typing import Iterator, Optional, Tuple

from stable_heap import LAUNCHER, Heap, Object, Transaction

ROOT_FIRST = 0
NUMBER, NEXT = 0, 1


def items(t: Transaction) -> Iterator[Tuple[Object, int, Object]]:
    """Each item, with the object and the field that lead to it."""
    before, field = t.root, ROOT_FIRST
    item = before.get(field)
    while item is not None:
        yield before, field, item
        before, field = item, NEXT
        item = before.get(field)


def add(t: Transaction, number: int) -> None:
    """The new item becomes the first one."""
    item = t.new(2)
    item.put(NUMBER, number)
    rest = t.root.get(ROOT_FIRST)
    if rest is not None:
        item.link(NEXT, rest)
    t.root.link(ROOT_FIRST, item)


def done(t: Transaction, number: int) -> bool:
    for before, field, item in items(t):
        if item.get(NUMBER) == number:
            rest: Optional[Object] = item.get(NEXT)
            if rest is None:
                before.clear(field)
            else:
                before.link(field, rest)
            return True
    return False


def change(heap: Heap, what: str, number: int) -> None:
    if what == "add":
        heap.run(lambda t: add(t, number))
    elif not heap.run(lambda t: done(t, number)):
        print(f"{number} is not on the list", file=sys.stderr)


def main() -> int:
    folder, *change_words = sys.argv[1:] or [""]
    if not folder or (change_words and (len(change_words) != 2 or change_words[0] not in ("add", "done"))):
        print("usage: todo.py FOLDER [add NUMBER | done NUMBER]", file=sys.stderr)
        return 2
    command = os.environ.get("HEAP", str(LAUNCHER)).split()
    with Heap.open(folder, pages=1, log_bytes=65_536, command=command) as heap:
        if change_words:
            change(heap, change_words[0], int(change_words[1]))
        with heap.transaction() as t:
            print(*[item.get(NUMBER) for _, _, item in items(t)])
    return 0


if __name__ == "__main__":
    sys.exit(main())
