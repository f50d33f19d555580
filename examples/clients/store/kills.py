#!/usr/bin/env python3
"""Kills a program that fills a store, again and again: what a `with` did that was left is there, and nothing half is.

    kills.py [ROUNDS]
    kills.py child FOLDER

In each transaction the child moves a coin between two purses, writes a text of drawn length, appends to a list, and says the number of the transaction when
it is done. Each run has to find the number that the one before it said, or one more, and all that belongs to it. In every other round the heap's process is
killed with it."""

import os
import pathlib
import random
import signal
import subprocess
import sys
import tempfile
import time

from kept import open_store

PURSES = 5
COINS = 10


def begin(store):
    if not store.root:
        store.root.update(number=0, purses=[{"coins": [[COINS * purse + coin] for coin in range(COINS)]} for purse in range(PURSES)], done=[])


def move(root, rng):
    """One transaction's work. All of it follows from its number."""
    number = root["number"] + 1
    giver, taker = rng.sample(range(PURSES), 2)
    if root["purses"][giver]["coins"]:
        root["purses"][taker]["coins"].append(root["purses"][giver]["coins"].pop(0))
    root["number"] = number
    root["text"] = f"{number}: " + "x" * rng.choice([1, 30, 300])
    root["done"].append(number)
    if len(root["done"]) > 40:
        del root["done"][:20]


def is_whole(root):
    coins = sorted(coin for purse in root["purses"] for [coin] in purse["coins"])
    number = root["number"]
    texts = number == 0 or root["text"].startswith(f"{number}: ") and len(root["text"].split()[1]) in (1, 30, 300)
    return coins == list(range(PURSES * COINS)) and texts and list(root["done"])[-1:] == [number][: number > 0]


def child(folder):
    rng = random.Random(os.getpid())
    store = open_store(folder, pages=64, log_bytes=4_194_304)
    begin(store)
    print("opened", flush=True)
    while True:
        with store.transaction():
            move(store.root, rng)
        print(store.root["number"], flush=True)


def killed_run(folder, with_heap):
    """The last number that a run said before it was killed."""
    run = subprocess.Popen([sys.executable, __file__, "child", folder], stdout=subprocess.PIPE, text=True, start_new_session=True)
    run.stdout.readline()
    time.sleep(random.uniform(0.05, 0.6))
    if with_heap:
        os.killpg(run.pid, signal.SIGKILL)
    else:
        run.kill()
    said = run.stdout.read().split("\n")[:-1]
    run.wait()
    return int(said[-1]) if said else 0


def main(rounds):
    most = last = 0
    with tempfile.TemporaryDirectory() as folder:
        for number in range(rounds):
            said = killed_run(folder, number % 2 == 1)
            with open_store(folder, wait=20) as store:
                found = store.root["number"]
                assert is_whole(store.root), "a half of a transaction"
            assert max(said, last) <= found <= max(said, last) + 1, (last, said, found)
            most, last = most + (found > last), found
    print(f"{rounds} runs were killed: each kept what it had said, and nothing half" if most > rounds // 3 else "too few said anything")


if __name__ == "__main__":
    if sys.argv[1:2] == ["child"]:
        child(sys.argv[2])
    else:
        main(int(sys.argv[1]) if sys.argv[1:] else 8)
