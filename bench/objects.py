#!/usr/bin/env python3
"""Plays scripts that build chains and trees of n and of 2n objects, and prints how their times compare.

    bench/objects.py

A chain is built in many transactions, each of which puts one object in front; a tree in transactions that make a node with its
leaves; a long chain in transactions of a thousand objects, which is printed at the end. Each script is played nine times, and the least
time of the nine counts. Spaces have 1,489 pages. Each run prints its graph, so the times are those of transactions and of the text together. It
measures and judges nothing.
"""
import os
import subprocess
import sys
import tempfile
import time

TOP = os.path.dirname(os.path.dirname(os.path.realpath(__file__)))
HEAP = os.path.join(TOP, "heap")
RUNS = 9
PAGES = 1489
LEAVES = 8


def chain(transactions):
    """Each transaction puts an object in front of those before it."""
    first = "1 begin\n1 root 0\n1 new 1 1\n1 link 0 0 1\n1 commit\n"
    more = "1 begin\n1 root 0\n1 get 0 0 1\n1 new 2 1\n1 link 2 0 1\n1 link 0 0 2\n1 commit\n"
    return first + more * (transactions - 1)


def tree(nodes):
    """Each transaction makes a node with its leaves, and the node before it is its last field."""
    leaves = "".join(f"1 new 3 0\n1 link 2 {i} 3\n" for i in range(LEAVES))
    one = f"1 begin\n1 root 0\n1 get 0 0 1\n1 new 2 {LEAVES + 1}\n" + leaves
    return one + "1 link 0 0 2\n1 commit\n" + (one + f"1 link 2 {LEAVES} 1\n1 link 0 0 2\n1 commit\n") * (nodes - 1)


def long_chain(objects):
    """Transactions of a thousand objects each, one in front of the other."""
    text, made = "", 0
    while made < objects:
        text += "1 begin\n1 root 0\n1 get 0 0 1\n" if made else "1 begin\n1 root 0\n1 root 1\n"
        for _ in range(min(1000, objects - made)):
            text += "1 new 2 1\n1 link 2 0 1\n1 link 0 0 2\n1 get 0 0 1\n"
            made += 1
        text += "1 commit\n"
    return text


def play(text):
    """The output of one run, and its seconds."""
    began = time.perf_counter()
    ran = subprocess.run([HEAP, "play", "--fresh", str(PAGES)], input=text.encode(), stdout=subprocess.PIPE, check=True)
    return ran.stdout, time.perf_counter() - began


def best(text, objects):
    """The least seconds of some runs of a script that leaves that many objects beside the root."""
    times = []
    for _ in range(RUNS):
        out, seconds = play(text)
        if f"graph {objects + 1}\n".encode() not in out:
            sys.exit(f"objects: the graph has not {objects + 1} objects")
        times.append(seconds)
    return min(times)


def main():
    play("")  # builds the program, if it is not built
    empty = min(play("")[1] for _ in range(RUNS))
    for name, script, n, objects in [
        ("transactions that each put one object in front of a chain", chain, 5_000, 1),
        (f"transactions that each make a node with {LEAVES} leaves", tree, 900, LEAVES + 1),
        ("objects of a chain, a thousand in a transaction, and its text", long_chain, 7_000, 1),
    ]:
        short, long = best(script(n), objects * n), best(script(2 * n), objects * 2 * n)
        print(f"{2 * n} {name}: {long / short:.2f} times as long as {n}, {(long - empty) / (short - empty):.2f} without an empty script")


if __name__ == "__main__":
    with tempfile.TemporaryDirectory() as room:  # each run makes its heap.img there
        os.chdir(room)
        main()
