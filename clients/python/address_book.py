#!/usr/bin/env python3
"""An address book that outlives its program, however that ends.

    clients/python/address_book.py FOLDER add NAME PHONE
    clients/python/address_book.py FOLDER forget NAME
    clients/python/address_book.py FOLDER list
    clients/python/address_book.py FOLDER crash NAME PHONE

`crash` kills the program in the midst of a transaction. Where the variable HEAP is set, it is the launcher with its options.
"""
import os
import signal
import sys

from stable_heap import LAUNCHER
from stable_heap.store import Store

COMMAND = os.environ.get("HEAP", str(LAUNCHER)).split()


def add(store: Store, name: str, phone: str) -> None:
    with store.transaction():
        people = store.root.setdefault("people", {})
        people.setdefault(name, {"phones": []})["phones"].append(phone)
        store.root["changes"] = store.root.get("changes", 0) + 1


def forget(store: Store, name: str) -> None:
    with store.transaction():
        del store.root["people"][name]
        store.root["changes"] += 1


def show(store: Store) -> None:
    for name, person in store.root.get("people", {}).items():
        print(f"{name}: {', '.join(person['phones'])}")
    print(f"{store.root.get('changes', 0)} changes")


def crash(store: Store, name: str, phone: str) -> None:
    with store.transaction():
        add(store, name, phone)
        os.kill(os.getpid(), signal.SIGKILL)


if __name__ == "__main__":
    folder, what, *words = sys.argv[1:]
    with Store(folder, pages=64, log_bytes=1_048_576, command=COMMAND) as book:
        {"add": add, "forget": forget, "list": show, "crash": crash}[what](book, *words)
