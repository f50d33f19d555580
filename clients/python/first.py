#!/usr/bin/env python3
"""Puts an object into the heap of the folder `notes` and kills itself; another run reads the object.

    clients/python/first.py put
    clients/python/first.py read

Where the variable HEAP is set, it is the launcher with its options.
"""
import os
import signal
import sys

from stable_heap import LAUNCHER, Heap

COMMAND = os.environ.get("HEAP", str(LAUNCHER)).split()


def put() -> None:
    heap = Heap.open("notes", command=COMMAND)
    with heap.transaction() as t:
        note = t.new(2)
        note.put(0, 7)
        t.root.link(0, note)
    os.kill(os.getpid(), signal.SIGKILL)


def read() -> None:
    with Heap.open("notes", command=COMMAND) as heap:
        with heap.transaction() as t:
            print(t.root.get(0).get(0))


if __name__ == "__main__":
    {"put": put, "read": read}[sys.argv[1]]()
