#!/usr/bin/env python3
"""Compares the program with SQLite, LMDB and Berkeley DB in one run: a load, durable commits, and the text of all objects.

    bench/peers.py [--quick] [N [ROUNDS]]

N is the number of rounds of a load, of objects whose text is made, and a tenth of it that of durable commits: 20,000 if it is left out. There are 9 rounds,
and at least 5. In each round all take their turn on one file system, so that other work on the machine strikes them alike; printed are the ratios of a
round, their median, least and greatest. The peers are C programs (bench/peers/), built with gcc from the libraries that the system has; one whose
library is not there is left out, and so is a text where its tool is not there. On Debian they are libsqlite3-dev, liblmdb-dev, libdb-dev, sqlite3,
lmdb-utils.

Loads and texts are measured in processor time and work in a folder in memory (/dev/shm) where there is one: the peers keep nothing of a load for ever,
while the program syncs each commit. Where `rt run` has left crates/library_bench/out/library_bench, a load is played by it too: on a heap in memory, through
the calls of `heap_core`, with no text made. Durable commits are measured by the clock, in a folder of TMPDIR. With --quick the program is that which is
compiled with nothing proved; it has checks at each step, so its ratios say little. It judges nothing.

All do one work (peers/work.c). In a load the peers make the same objects, as rows or values, remove by hand what the root drops, and keep nothing for ever:
SQLite in memory, LMDB unsynced in a writable map, Berkeley DB with its log in memory. How many objects are left must be the same in all. Of durable commits
SQLite has a write-ahead log and `synchronous=FULL`, the others are as by default. Texts are `graph`, which opens the heap, `.dump`, `mdb_dump` and `db_dump`.

Four runs, three of five rounds and the last of seven, with 20,000 rounds and objects and 2,000 commits, beside other work (load 7, 9, 5 and 10), the medians
of the ratios, below 1 where the heap took less time; and what they went from and to in the rounds of the last run:

                                 SQLite                     LMDB                       Berkeley DB
    a load, 181,801 events       0.62, 0.68, 0.75, 0.87     3.79, 4.29, 4.51, 4.98     0.71, 0.77, 0.78, 0.86
    outside of the kernel        -, -, 0.45, 0.51           -, -, 2.71, 2.95           -, -, 0.56, 0.58
    through the library          -, -, -, 0.64              -, -, -, 3.73              -, -, -, 0.70
    durable commits              1.50, 0.67, 1.29, 2.04     0.87, 0.68, 1.00, 1.18     1.69, 1.19, 1.85, 1.66
    the text of all objects      0.58, 0.61, 0.53, 0.66     1.50, 1.63, 1.46, 1.51     0.12, 0.11, 0.10, 0.16

    a load                       0.59 to 0.95               4.38 to 5.31               0.71 to 0.95
    outside of the kernel        0.39 to 0.75               2.49 to 4.43               0.44 to 0.94
    through the library          0.62 to 0.66               3.53 to 3.91               0.68 to 0.75
    durable commits              0.43 to 7.67               0.26 to 1.93               0.55 to 2.94
    the text of all objects      0.60 to 0.69               1.45 to 1.62               0.15 to 0.17

The library made 4,700,000 events a second of the processor (0.62 to 0.66 of SQLite's time, 3.5 to 3.9 of LMDB's); what it takes beyond LMDB is its records,
which are made, encoded and applied to the pages for each event, the locks and handles of sessions, the history, and the copying of what is reached. The commits
spread most, since other programs wrote to the same disk. Meant was a load ahead of SQLite by six and half as fast as LMDB, which is missed: a load took 1.3 to
2.5 million events a second of the processor, with two writes and two syncs for each commit, of which the peers make none. On a disk those are most of it: of the
same load on one `perf` found 84 of 100 samples in the kernel, 12 in the program and 4 in the C library's allocator and copies; no function of the program had
more than 1.4. Ahead of `mdb_dump` the text is not: it comes after an opening, which reads the log.
"""
import collections
import itertools
import os
import pathlib
import resource
import shutil
import statistics
import subprocess
import sys
import tempfile
import time

TOP = pathlib.Path(__file__).resolve().parents[1]
QUICK = sys.argv[1:2] == ["--quick"]
PROGRAM = TOP.joinpath(".build", *["quick"] * QUICK, "heap_shell")
LIBRARY = TOP / "crates/library_bench/out/library_bench"
PAGES = 64
BATCH = 1_000  # objects that one transaction makes


# the seconds that a processor spent in a program, and in the kernel for it
Spent = collections.namedtuple("Spent", "program kernel")


def run(words, folder, script=""):
    """What a run prints. Its input and output are files: a pipe would wake its reader at each line."""
    (folder / "input").write_text(script)
    with open(folder / "input") as given, open(folder / "output", "w") as output:
        subprocess.run([str(it) for it in words], cwd=folder, stdin=given, stdout=output, check=True)
    return (folder / "output").read_text()


def spent(words, folder, script=""):
    """The processor time of a run, and what it printed."""
    before = resource.getrusage(resource.RUSAGE_CHILDREN)
    printed = run(words, folder, script)
    after = resource.getrusage(resource.RUSAGE_CHILDREN)
    return Spent(after.ru_utime - before.ru_utime, after.ru_stime - before.ru_stime), printed


class OfHeap:
    name = "the heap"

    def make(self, folder, pages, log_bytes):
        shutil.rmtree(folder, ignore_errors=True)
        folder.mkdir()
        run([PROGRAM, "format", pages, log_bytes, 1], folder)

    def load(self, folder, count):
        # (a round takes some 150 bytes of the log)
        self.make(folder, PAGES, 65_536 + 400 * count)
        times, printed = spent([PROGRAM, "load", 1, count], folder)
        summary = dict(line.rsplit(" ", 1) for line in printed.splitlines())
        self.events, self.commits_made = int(summary["events"]), int(summary["sealed"])
        return times, int(summary["objects"])

    def commits(self, folder, count):
        self.make(folder, 1, 65_536 + 40 * count)
        script = "1 begin\n1 root 0\n1 put 0 0 7\n1 commit\n" * count
        began = time.perf_counter()
        run([PROGRAM, "play"], folder, script)
        return time.perf_counter() - began

    def fill(self, folder, count):
        self.make(folder, count // 16 + 8, 65_536 + 64 * count)
        run([PROGRAM, "play"], folder, list_of(count))

    def text(self, folder):
        return spent([PROGRAM, "graph"], folder)


def list_of(count):
    """A script that makes a list of so many objects, of a number and a reference each."""
    lines, made, empty = [], 0, True
    while made < count:
        lines.append("1 begin\n1 root 0\n1 get 0 0 2\n")
        for at in range(min(BATCH, count - made)):
            new, last = (1, 2) if at % 2 == 0 else (2, 1)
            link = "" if empty else f"1 link {new} 1 {last}\n"
            lines.append(f"1 new {new} 2\n1 put {new} 0 {made + at}\n{link}")
            empty = False
        lines.append(f"1 link 0 0 {new}\n1 commit\n")
        made += min(BATCH, count - made)
    return "".join(lines)


class Peer:
    def __init__(self, room, name, sources, library, dump):
        self.name, self.program, self.dump = name, room / sources[0], dump
        files = [TOP / f"bench/peers/{it}.c" for it in ["work", *sources]]
        made = ["gcc", "-O2", "-o", self.program, *files, f"-l{library}"]
        self.is_there = subprocess.run(made, stderr=subprocess.DEVNULL, check=False).returncode == 0

    def made(self, folder, *words):
        shutil.rmtree(folder, ignore_errors=True)
        folder.mkdir()
        return spent([self.program, words[0], folder, *words[1:]], folder)

    def load(self, folder, count):
        times, printed = self.made(folder, "load", 1, count)
        return times, int(printed.split()[1])

    def commits(self, folder, count):
        return float(self.made(folder, "commits", count)[1])

    def fill(self, folder, count):
        self.made(folder, "fill", count)

    def text(self, folder):
        return spent(self.dump, folder)


def peers(room):
    """The peers whose libraries this system has."""
    for words in (
        ("SQLite", ["sqlite"], "sqlite3", ["sqlite3", "sqlite.db", ".dump"]),
        ("LMDB", ["lmdb", "values"], "lmdb", ["mdb_dump", "."]),
        ("Berkeley DB", ["berkeley", "values"], "db", ["db_dump", "berkeley.db"]),
    ):
        peer = Peer(room, *words)
        if peer.is_there:
            yield peer
        else:
            print(f"without {peer.name}: its library is not here")


def spread(ratios):
    return f"{statistics.median(ratios):.2f} ({min(ratios):.2f} to {max(ratios):.2f})"


def tell(what, all_peers, rows, unit):
    """Prints the ratios of the heap's times to each peer's, round by round."""
    print(f"{what}: the heap took {statistics.median(row[0] for row in rows):.3f} s {unit}")
    for at, peer in itertools.islice(enumerate(all_peers), 1, None):
        print(f"    {spread([row[0] / row[at] for row in rows])} times as long as {peer.name}")


def bench_loads(all_peers, folder, count, rounds):
    rows = []
    for _ in range(rounds):
        row = [peer.load(folder, count) for peer in all_peers]
        if len({objects for _, objects in row}) != 1:
            sys.exit(f"peers: a load left other objects in one than in another: {row}")
        rows.append([times for times, _ in row])
    what = f"a load of {count} rounds, {all_peers[0].events} events"
    tell(what, all_peers, [[sum(it) for it in row] for row in rows], "of the processor, each commit written and synced")
    # The peers keep nothing, so what the kernel does for the heap's writes and syncs has no like there.
    tell(what, all_peers, [[it.program for it in row] for row in rows], "of the processor outside of the kernel")


def bench_library(all_peers, folder, count, rounds):
    """The heap as a library on a disk in memory, beside the peers."""
    rows = []
    for _ in range(rounds):
        own, printed = spent([LIBRARY, 1, count], folder)
        rows.append([sum(own), *[sum(peer.load(folder / "library", count)[0]) for peer in all_peers[1:]]])
    _, events, _, commits = printed.split()
    if int(commits) != all_peers[0].commits_made:
        sys.exit(f"peers: the library made {commits} commits of a load, and the program {all_peers[0].commits_made}")
    tell(f"the same through the library, {int(events) / statistics.median(row[0] for row in rows):,.0f} events a second", all_peers, rows, "of the processor")


def bench_commits(all_peers, folder, count, rounds):
    rows = [[peer.commits(folder, count) for peer in all_peers] for _ in range(rounds)]
    tell(f"{count} durable commits", all_peers, rows, "by the clock")


def bench_texts(all_peers, room, count, rounds):
    able = [it for it in all_peers if it.name == "the heap" or shutil.which(it.dump[0])]
    for peer in able:
        peer.fill(room / f"text of {peer.name}", count)
    rows = [[sum(peer.text(room / f"text of {peer.name}")[0]) for peer in able] for _ in range(rounds)]
    tell(f"the text of {count} objects", able, rows, "of the processor, opening and all")


def main():
    words = [int(word) for word in sys.argv[1 + QUICK :]]
    count, rounds, *_ = words + [20_000, 9][len(words) :]
    if count < 10 or rounds < 5:
        sys.exit("peers: N is at least 10, and ROUNDS at least 5")
    memory = "/dev/shm" if os.path.isdir("/dev/shm") else None
    with tempfile.TemporaryDirectory() as disk, tempfile.TemporaryDirectory(dir=memory) as fast:
        disk, fast = pathlib.Path(disk), pathlib.Path(fast)
        all_peers = [OfHeap(), *peers(disk)]
        print(f"load {os.getloadavg()[0]:.1f}; {rounds} rounds; the median, the least and the greatest of a round's ratios")
        bench_loads(all_peers, fast / "load", count, rounds)
        if LIBRARY.is_file():
            bench_library(all_peers, fast, count, rounds)
        bench_texts(all_peers, fast, count, rounds)
        bench_commits(all_peers, disk / "commits", count // 10, rounds)


if __name__ == "__main__":
    main()
