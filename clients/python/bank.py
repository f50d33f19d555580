#!/usr/bin/env python3
"""A bank: eight threads move money between accounts, and the sum never changes.

    clients/python/bank.py FOLDER [TRANSFERS]

The root's field 0 refers to the table of accounts, and each of its fields to an account, which has one field: its balance. Two transfers
that meet at an account are in conflict; one of them is aborted, and tries again. Where the variable HEAP is set, it is the launcher with its
options.
"""
import os
import random
import sys
import threading
from typing import List

from stable_heap import LAUNCHER, Heap, Object, Transaction

ROOT_TABLE = 0
BALANCE = 0
ACCOUNTS = 10
FIRST_BALANCE = 100
THREADS = 8


def table(t: Transaction) -> Object:
    """The table of accounts, which is made where there is none."""
    found = t.root.get(ROOT_TABLE)
    if found is not None:
        return found
    made = t.new(ACCOUNTS)
    for number in range(ACCOUNTS):
        account = t.new(1)
        account.put(BALANCE, FIRST_BALANCE)
        made.link(number, account)
    t.root.link(ROOT_TABLE, made)
    return made


def balances(t: Transaction) -> List[int]:
    accounts = table(t)
    return [accounts.get(number).get(BALANCE) for number in range(len(accounts))]


def transfer(t: Transaction, source: int, target: int, amount: int) -> None:
    accounts = table(t)
    payer, payee = accounts.get(source), accounts.get(target)
    left = payer.get(BALANCE) - amount
    if left >= 0:
        payer.put(BALANCE, left)
        payee.put(BALANCE, payee.get(BALANCE) + amount)


def work(heap: Heap, transfers: int, seed: int) -> None:
    rng = random.Random(seed)
    for _ in range(transfers):
        source, target = rng.sample(range(ACCOUNTS), 2)
        amount = rng.randint(1, 50)
        heap.run(lambda t: transfer(t, source, target, amount), attempts=1_000)


def main() -> int:
    if len(sys.argv) not in (2, 3):
        print("usage: bank.py FOLDER [TRANSFERS]", file=sys.stderr)
        return 2
    folder = sys.argv[1]
    transfers = int(sys.argv[2]) if len(sys.argv) > 2 else 100
    command = os.environ.get("HEAP", str(LAUNCHER)).split()
    with Heap.open(folder, pages=4, log_bytes=1_048_576, command=command) as heap:
        heap.run(lambda t: table(t) and None)
        threads = [threading.Thread(target=work, args=(heap, transfers, seed)) for seed in range(THREADS)]
        for thread in threads:
            thread.start()
        for thread in threads:
            thread.join()
        found = heap.run(balances)
    print(f"the sum of {len(found)} accounts is {sum(found)}")
    return sum(found) != ACCOUNTS * FIRST_BALANCE


if __name__ == "__main__":
    sys.exit(main())
