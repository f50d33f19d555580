#!/usr/bin/env python3
"""Plays scripts of n and of 2n transactions, and one of 30,000 puts, and prints how their times compare.

    bench/linear.py [N]

N is the number of transactions of the short script, 10,000 at least and 13,700 at most, and 10,000 if left out. Each script
is played five times, and the least time of the five counts. The time of an event
is meant not to grow with the script before it, so the ratio is meant to be near 2. The 30,000 puts are in 3,000 transactions. It measures
and judges nothing.
"""
import os
import subprocess
import sys
import tempfile
import time

TOP = os.path.dirname(os.path.dirname(os.path.realpath(__file__)))
HEAP = os.path.join(TOP, "heap")
RUNS = 5
MOST_BYTES = 1_048_576


def script(transactions, puts):
    """A script of that many transactions, each with that many puts."""
    one = "1 begin\n1 root 0\n" + "1 put 0 0 7\n" * puts + "1 commit\n"
    text = (one * transactions).encode()
    if len(text) > MOST_BYTES:
        sys.exit(f"linear: a script of {len(text)} bytes is longer than {MOST_BYTES}")
    return text


def play(text):
    """The output of one run, and its seconds."""
    began = time.perf_counter()
    ran = subprocess.run([HEAP, "play", "--fresh", "1"], input=text, stdout=subprocess.PIPE, check=True)
    return ran.stdout, time.perf_counter() - began


def best(transactions, puts):
    """The least seconds of some runs of a script, of which each commit was acknowledged."""
    text, times = script(transactions, puts), []
    for _ in range(RUNS):
        out, seconds = play(text)
        if f"force -> durable {transactions}\n".encode() not in out:
            sys.exit("linear: the last commit was not acknowledged")
        times.append(seconds)
    return min(times)


def main():
    n = int(sys.argv[1]) if len(sys.argv) > 1 else 10_000
    if not 10_000 <= n <= 13_700:
        sys.exit("linear: N is from 10,000 to 13,700")
    play(b"")  # builds the program, if it is not built
    empty = min(play(b"")[1] for _ in range(RUNS))
    short, long, puts = best(n, 1), best(2 * n, 1), best(3_000, 10)
    print(f"{2 * n} transactions took {long / short:.2f} times as long as {n}")
    print(f"without the time of an empty script: {(long - empty) / (short - empty):.2f} times")
    print(f"30,000 puts in 3,000 transactions took {puts / short:.2f} times as long as {n} transactions of one put, {puts:.3f} s")


if __name__ == "__main__":
    with tempfile.TemporaryDirectory() as room:  # each run makes its heap.img there
        os.chdir(room)
        main()
