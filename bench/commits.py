#!/usr/bin/env python3
r"""Compares the durable commits a second of the program with those of a C program that writes and syncs as often, and times openings.

    bench/commits.py [--quick] [N]

N is the number of commits of one write each, 1,000 if it is left out. Both write into a file of one temporary folder (TMPDIR), which has its
full size before. The program writes a line for each reply besides: they go to /dev/null, and in a second run to a file. Each is run 15 times, in
turn, and the least time counts; the time of a run on an empty script is taken off. It needs gcc.
Openings are timed by the processor time of the program, which other work on the machine changes least. With --quick the program is that which is
compiled with nothing proved; it has checks at each step, and is many times slower where it computes.

A commit makes two writes and two syncs on the file, and one write for each line of the output. This is the whole of one, from `strace -f`, of
`1 begin`, `1 root 0`, `1 put 0 0 7`, `1 commit`; descriptor 3 is `heap.img`:

    write(1, "1 begin -> begun 1\n", 19) = 19
    write(1, "1 root 0 -> done\n", 17) = 17
    write(1, "1 put 0 0 7 -> done\n", 20) = 20
    write(1, "1 seal -> sealed 1\n", 19) = 19
    pwrite64(3, " \0\0\0\1\1\0\0\0\0\0\0\0\0\0\0\0\0\0\0\0\0\35\0\0\0\0\0\0\0\5"..., 37, 65) = 37
    fdatasync(3) = 0
    pwrite64(3, "\1", 1, 64) = 1
    fdatasync(3) = 0
    write(1, "force -> durable 1\n", 19) = 19

Before the first of them a run opens the file, locks it, and syncs it and its folder (`flock`, two `fsync`), and reads the superblock, the log and the
frames of the pages. What the program does beyond the C program is five lines: their text, which takes its memory at once, and a write for each. Through
a pipe each line wakes the reader, and under load the ratio is lower. The slower a sync, the nearer the ratio is to 1. Of openings: a log costs what is
used of it, and not its size.
"""
import os
import resource
import subprocess
import sys
import tempfile
import time

TOP = os.path.dirname(os.path.dirname(os.path.realpath(__file__)))
QUICK = sys.argv[1:2] == ["--quick"]
PROGRAM = os.path.join(TOP, ".build", *["quick"] * QUICK, "heap_shell")
RUNS = 15


def run(words, text="", replies="output"):
    """The seconds of a run of the program in the current folder. Script and replies are files: a pipe would wake its reader at each line."""
    with open("script", "w") as script:
        script.write(text)
    with open("script") as script, open(replies, "w") as output:
        began = time.perf_counter()
        subprocess.run([PROGRAM, *words], stdin=script, stdout=output, check=True)
        return time.perf_counter() - began


def script(commits):
    return "1 begin\n1 root 0\n1 put 0 0 7\n1 commit\n" * commits


def format_heap(log):
    run(["format", "1", str(log), "1"])


def commits_of_heap(n, log, replies):
    format_heap(log)
    return run(["play"], script(n), replies)


def check_acknowledged(n):
    """Ends the bench where the replies in the file lack the last commit."""
    with open("replies") as replies:
        if f"force -> durable {n}\n" not in replies.read():
            sys.exit("commits: the last commit was not acknowledged")


def empty_script(log):
    format_heap(log)
    return run(["play"], replies=os.devnull)


def commits_of_c(n, log):
    format_heap(log)
    return float(subprocess.run(["./commits", "heap.img", str(n)], stdout=subprocess.PIPE, check=True).stdout)


def spent():
    """The seconds of processor time of all programs that have ended."""
    used = resource.getrusage(resource.RUSAGE_CHILDREN)
    return used.ru_utime + used.ru_stime


def opening(log, n):
    """The least seconds of processor time of an opening of a log of this size with n commits, which one force has brought there."""
    format_heap(log)
    run(["play"], "1 begin\n1 root 0\n1 put 0 0 7\n1 seal\n" * n + "force\n")
    times = []
    for _ in range(RUNS):
        before = spent()
        run(["graph"])
        times.append(spent() - before)
    return min(times)


def main():
    n = int(sys.argv[1 + QUICK]) if len(sys.argv) > 1 + QUICK else 1_000
    subprocess.run([os.path.join(TOP, "heap"), *["--quick"] * QUICK, "play", "--fresh", "1"], stdin=subprocess.DEVNULL, stdout=subprocess.PIPE, check=True)
    subprocess.run(["gcc", "-O2", "-o", "commits", f"{TOP}/bench/commits.c"], check=True)
    log = 64 + 40 * n
    rounds = [(commits_of_heap(n, log, os.devnull), commits_of_heap(n, log, "replies"), empty_script(log), commits_of_c(n, log)) for _ in range(RUNS)]
    check_acknowledged(n)
    dropped, kept, empty, c = map(min, zip(*rounds))
    ours = n / (dropped - empty)
    before = spent()
    commits_of_heap(n, log, os.devnull)
    computed = (spent() - before) / n
    print(f"load {os.getloadavg()[0]:.1f}; {n} durable commits: the program {ours:.0f} a second, the C program {n / c:.0f}: ratio {ours * c / n:.2f}")
    print(f"with the replies in a file on the same disk: ratio {c / (kept - empty):.2f}")
    print(f"of a commit's {1000 / ours:.2f} ms the program's own processor time was up to {1000 * computed:.2f} ms, opening and all")
    many, area = 5_000, 400_000
    empty, one, two = opening(area, 0), opening(area, many), opening(area, 2 * many)
    print(f"opening after {2 * many} commits: {two / one:.2f} times as long as after {many}, {(two - empty) / (one - empty):.2f} without an empty log's")
    small, large = opening(2_097_152, 0), opening(8_388_608, 0)
    print(f"opening an empty log of 8 MiB: {large / small:.2f} times as long as one of 2 MiB, {large:.3f} s")


if __name__ == "__main__":
    with tempfile.TemporaryDirectory() as room:
        os.chdir(room)
        main()
