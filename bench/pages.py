#!/usr/bin/env python3
r"""Times openings of a heap whose pages are all stored, and of one of which none is, and what a flush costs in a small and in a large heap.

    bench/pages.py [--quick] [N]

N is the number of transactions of the short script, 2,000 if it is left out. Each writes a field of one of 64 objects, in turn, that lie on pages of
their own; in the flushed heap each page is stored once all have ended. All times are of the processor, the least of 15 runs, so the disk's own time
is not among them. The heaps are made in a temporary folder. With --quick the program is that which is compiled with nothing proved.

An opening reads the log and all frames in either case; of a page that is stored as it was after the last record nothing is redone. So what is stored saves
next to nothing while the whole log is read: that is for checkpoints. This is a flush of page 0 after a commit, from `strace -f`; the byte that it reads is
the gate of the frame that it writes:

    pread64(3, "\0", 1, 65600) = 1
    pwrite64(3, "\0\0\0\0\0\0\0\1\0\0\0\0\0\0\0\21\0\0\0\0\0\0\0\0\0\0\0\0\0\0\0\35"..., 527, 65601) = 527
    fdatasync(3) = 0
    pwrite64(3, "\1", 1, 65600) = 1
    fdatasync(3) = 0
    write(1, "flush 0 -> flushed 0\n", 21) = 21

From the third flush of a page on it closes a gate first, with one more write and one more sync.
"""
import os
import resource
import subprocess
import sys
import tempfile

TOP = os.path.dirname(os.path.dirname(os.path.realpath(__file__)))
QUICK = sys.argv[1:2] == ["--quick"]
PROGRAM = os.path.join(TOP, ".build", *["quick"] * QUICK, "heap_shell")
RUNS = 15
PAGES = 80
OBJECTS = 64
LOG_BYTES = 8_000_000


def run(words, text=""):
    """The output of a run of the program in the current folder, and the seconds of processor time that it took."""
    used = resource.getrusage(resource.RUSAGE_CHILDREN)
    ran = subprocess.run([PROGRAM, *words], input=text.encode(), stdout=subprocess.PIPE, check=True)
    now = resource.getrusage(resource.RUSAGE_CHILDREN)
    return ran.stdout, now.ru_utime + now.ru_stime - used.ru_utime - used.ru_stime


def objects():
    """A list of objects of 62 fields, a page long with their headers, of which each new one is put in front."""
    make = "1 begin\n1 root 0\n1 get 0 0 2\n1 new 1 62\n1 link 1 0 2\n1 link 0 0 1\n1 commit\n"
    return make.replace("1 get 0 0 2\n", "").replace("1 link 1 0 2\n", "") + make * (OBJECTS - 1)


def write(steps):
    """A transaction that writes into the object that many steps after the first."""
    return "1 begin\n1 root 0\n1 get 0 0 1\n" + "1 get 1 0 1\n" * steps + "1 put 1 1 7\n1 seal\n"


def make_heap(transactions, flushed):
    run(["format", str(PAGES), str(LOG_BYTES), "1"])
    run(["play"], objects())
    left = transactions
    while left:
        # A script has at most 1,048,576 bytes.
        some = min(left, 500)
        run(["play"], "".join(write(n % OBJECTS) for n in range(some)) + "force\n")
        left -= some
    if flushed:
        out, _ = run(["play"], "".join(f"flush {p}\n" for p in range(2 * PAGES)))
        if out.count(b" -> flushed ") < OBJECTS:
            sys.exit("pages: too few pages were stored")


def opening(transactions, flushed):
    """The least seconds of an opening that prints its graph."""
    make_heap(transactions, flushed)
    return min(run(["graph"])[1] for _ in range(RUNS))


def flush_cost(pages):
    """The seconds that a flush takes more than a transaction without one, in a heap of that many pages a space."""
    one = "1 begin\n1 root 0\n1 put 0 0 7\n1 commit\n"
    times = 2_000

    def played(text):
        return min(run(["play", "--fresh", str(pages)], text * times)[1] for _ in range(5))

    return (played(one + "flush 0\n") - played(one)) / times


def main():
    n = int(sys.argv[1 + QUICK]) if len(sys.argv) > 1 + QUICK else 2_000
    subprocess.run([os.path.join(TOP, "heap"), *["--quick"] * QUICK, "play", "--fresh", "1"], stdin=subprocess.DEVNULL, stdout=subprocess.PIPE, check=True)
    empty = opening(0, False)
    none, all_stored = opening(n, False), opening(n, True)
    none_twice, all_twice = opening(2 * n, False), opening(2 * n, True)
    print(f"opening after {2 * n} transactions against {n}: no page stored {none_twice / none:.2f}, all stored {all_twice / all_stored:.2f} times as long")
    print(f"without an opening of the objects alone: {(none_twice - empty) / (none - empty):.2f} and {(all_twice - empty) / (all_stored - empty):.2f} times")
    print(f"all pages stored against none, after {2 * n} transactions: {all_twice / none_twice:.2f} times as long, {all_twice:.4f} s")
    small, large = flush_cost(1), flush_cost(2_048)
    print(f"a flush in a heap of 2,048 pages a space against one of 1 page: {large / small:.2f} times the processor time, {1e6 * large:.1f} us")


if __name__ == "__main__":
    with tempfile.TemporaryDirectory() as room:
        os.chdir(room)
        main()
