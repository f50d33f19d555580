#!/usr/bin/env python3
"""Compares what calls of the clients cost, for C and for Python, through the pipe of a session and by the library in the caller's own process, with SQLite,
LMDB and `shelve`, in one run.

    bench/calls.py [--quick] [N [ROUNDS]]

N is the number of durable commits in a round, ten times it that of unforced ones, and a hundred times it that of reads, 300 if it is left out; there are 9
rounds, and at least 5. A commit is one transaction that writes one number: five lines through the pipe. A durable one is on the disk when the call returns,
an unforced one after a force, which comes once behind them all and is of their time; LMDB's are made with `MDB_NOSYNC`, SQLite's with a write-ahead log and
`synchronous = normal`, and are not looked at with its rollback journal. A read is one of such a number in a transaction that is open: one line through the
pipe. `shelve` has no transactions: a durable write is one behind which its files are synced, an unforced one is not.

All files lie in one temporary folder (TMPDIR). In each round all take their turn, so that other work on the machine strikes them alike; printed are the
ratios of a round, their median, least and greatest, and at the end the most memory that a process in C had, and the sizes of the files. What is not there is
left out, with a line: the library where `make -C clients/lib` has not made it, LMDB (Debian's liblmdb-dev, python3-lmdb), SQLite (libsqlite3-dev). With
--quick the program and the library are those of which nothing is proved; they have checks at each step, so their ratios say little. It judges nothing.

Each store syncs by its own rules, so the ratio of durable commits is on a slow disk that of their syncs.
"""
import importlib
import os
import pathlib
import statistics
import subprocess
import sys
import tempfile
import time

TOP = pathlib.Path(__file__).resolve().parents[1]
QUICK = sys.argv[1:2] == ["--quick"]
LAUNCHER = [str(TOP / "heap"), *["--quick"] * QUICK]
LIBRARY = TOP / "clients/lib/build" / ("quick" if QUICK else ".")
if QUICK:
    os.environ.setdefault("STABLE_HEAP_LIBRARY", str(LIBRARY / "libstable_heap.so"))
sys.dont_write_bytecode = True
sys.path.insert(0, str(TOP / "clients/python"))

from stable_heap import LIBRARIES, Heap  # noqa: E402

# for each durable commit
UNFORCED, READS = 10, 100
KINDS = {"durable": ("a durable commit", 1), "unforced": ("an unforced commit", UNFORCED), "read": ("a read", READS)}


def binding(name):
    try:
        return importlib.import_module(name)
    except ImportError:
        print(f"Python without {name}: there is no such module")
        return None


class Peer:
    """A store, which is asked for the seconds that so many calls of a kind take."""

    unforced = None

    def __init__(self):
        self.number = 0

    def numbers(self, times):
        first, self.number = self.number + 1, self.number + times
        return range(first, self.number + 1)

    def seconds(self, kind, times):
        work, given = getattr(self, kind), times if kind == "read" else self.numbers(times)
        began = time.perf_counter()
        work(given)
        return time.perf_counter() - began

    def memory(self):
        return None


class OfHeap(Peer):
    def __init__(self, folder, commits, here):
        super().__init__()
        # (a commit of one write takes 37 bytes of the log)
        self.heap = Heap.open(folder, pages=1, log_bytes=65_536 + 40 * commits, command=LAUNCHER, here=here)

    def commit(self, numbers, durable):
        for number in numbers:
            with self.heap.transaction(durable=durable) as t:
                t.root.put(0, number)

    def durable(self, numbers):
        self.commit(numbers, True)

    def unforced(self, numbers):
        self.commit(numbers, False)
        self.heap.force()

    def read(self, times):
        with self.heap.transaction() as t:
            root = t.root
            for _ in range(times):
                root.get(0)

    def last(self):
        with self.heap.transaction() as t:
            return t.root.get(0)

    def close(self):
        self.heap.close()


class OfJournal(Peer):
    """SQLite, with a rollback journal as by default."""

    JOURNAL = "delete"

    def __init__(self, sqlite3, folder):
        super().__init__()
        self.base = sqlite3.connect(folder / "sqlite.db", isolation_level=None)
        self.base.execute(f"pragma journal_mode = {self.JOURNAL}")
        self.base.execute("pragma synchronous = full")
        self.base.execute("create table field (key integer primary key, number integer)")
        self.base.execute("insert into field values (0, 0)")

    def durable(self, numbers):
        for number in numbers:
            self.base.execute("begin")
            self.base.execute("update field set number = ? where key = 0", (number,))
            self.base.execute("commit")

    def read(self, times):
        self.base.execute("begin")
        for _ in range(times):
            self.base.execute("select number from field where key = 0").fetchone()
        self.base.execute("commit")

    def last(self):
        return self.base.execute("select number from field where key = 0").fetchone()[0]

    def close(self):
        self.base.close()


class OfLog(OfJournal):
    """SQLite, with a write-ahead log."""

    JOURNAL = "wal"

    def unforced(self, numbers):
        self.base.execute("pragma synchronous = normal")
        self.durable(numbers)
        self.base.execute("pragma wal_checkpoint")
        self.base.execute("pragma synchronous = full")


class OfLmdb(Peer):
    def __init__(self, lmdb, folder):
        super().__init__()
        self.base, self.unsynced = [lmdb.open(str(folder / name), sync=sync) for name, sync in (("synced", True), ("unsynced", False))]

    @staticmethod
    def commit(base, numbers):
        for number in numbers:
            with base.begin(write=True) as t:
                t.put(b"0", number.to_bytes(8, "little"))

    def durable(self, numbers):
        self.commit(self.base, numbers)

    def unforced(self, numbers):
        self.commit(self.unsynced, numbers)
        self.unsynced.sync(True)

    def read(self, times):
        with self.base.begin() as t:
            for _ in range(times):
                int.from_bytes(t.get(b"0"), "little")

    def last(self):
        found = []
        for base in (self.base, self.unsynced):
            with base.begin() as t:
                found.append(int.from_bytes(t.get(b"0"), "little"))
        return max(found)

    def close(self):
        self.base.close()
        self.unsynced.close()


class OfShelve(Peer):
    def __init__(self, shelve, folder):
        super().__init__()
        self.folder, self.shelf = folder, shelve.open(str(folder / "shelf"))

    def sync(self):
        self.shelf.sync()
        for path in self.folder.iterdir():
            with open(path, "rb") as file:
                os.fsync(file.fileno())

    def durable(self, numbers):
        for number in numbers:
            self.shelf["0"] = number
            self.sync()

    def unforced(self, numbers):
        for number in numbers:
            self.shelf["0"] = number
        self.sync()

    def read(self, times):
        for _ in range(times):
            self.shelf["0"]

    def last(self):
        return self.shelf["0"]

    def close(self):
        self.shelf.close()


class OfProgram(Peer):
    """A program of bench/calls, which times its calls itself."""

    unforced = True

    def __init__(self, program, folder, commits):
        self.process = subprocess.Popen([program, folder, str(commits), *LAUNCHER], stdin=subprocess.PIPE, stdout=subprocess.PIPE, text=True)
        self.number = 0

    def ask(self, what, times):
        print(what, times, file=self.process.stdin, flush=True)
        return self.process.stdout.readline()

    def seconds(self, kind, times):
        self.number += 0 if kind == "read" else times
        return float(self.ask(kind, times))

    def last(self):
        return int(self.ask("last", 0))

    def memory(self):
        """The most that it had, in KiB."""
        lines = pathlib.Path(f"/proc/{self.process.pid}/status").read_text(encoding="ascii").splitlines()
        return next(int(line.split()[1]) for line in lines if line.startswith("VmHWM"))

    def close(self):
        self.process.stdin.close()
        self.process.wait()


def compiled(room, name, file, *words):
    """A program in C, or None where what it needs is not there."""
    sources = [str(TOP / "bench/calls" / it) for it in ("work.c", file)]
    made = ["gcc", "-O2", f"-I{TOP / 'clients/c'}", "-o", str(room / f"program of {name}"), *sources, *words]
    run = subprocess.run(made, capture_output=True, text=True)
    if run.returncode:
        print(f"C without {name}: it can't be compiled")
        return None
    return made[4]


def in_c(room, commits):
    heap = "the heap by the library"
    programs = {
        heap: ("heap.c", str(LIBRARY / "libstable_heap.a"), "-lpthread"),
        "the heap through the pipe": ("heap.c", str(TOP / "clients/c/stable_heap.c")),
        "SQLite, a write-ahead log": ("sqlite.c", "-lsqlite3"),
        "LMDB": ("lmdb.c", "-llmdb"),
    }
    for name, words in programs.items():
        program = compiled(room, name, *words)
        if program:
            yield name, lambda folder, program=program: OfProgram(program, folder, commits)


def in_python(commits):
    if any(path and os.path.exists(path) for path in LIBRARIES):
        yield "the heap by the library", lambda folder: OfHeap(folder, commits, True)
    else:
        print("Python without the library: make -C clients/lib has not made it")
    yield "the heap through the pipe", lambda folder: OfHeap(folder, commits, False)
    peers = [
        ("SQLite, a rollback journal", "sqlite3", OfJournal),
        ("SQLite, a write-ahead log", "sqlite3", OfLog),
        ("LMDB", "lmdb", OfLmdb),
        ("shelve", "shelve", OfShelve),
    ]
    for name, module, peer in peers:
        found = binding(module)
        if found:
            yield name, lambda folder, found=found, peer=peer: peer(found, folder)


def opened(room, peers):
    """The stores, each in a folder of its own."""
    for name, peer in peers:
        folder = room / name
        folder.mkdir()
        yield name, peer(folder)


def spread(ratios):
    return f"{statistics.median(ratios):.2f} ({min(ratios):.2f} to {max(ratios):.2f})"


def compare(language, kind, times):
    """Prints how long the first ones took, beside all behind them."""
    what, _ = KINDS[kind]
    heaps = [name for name in times if name.startswith("the heap")]
    for heap in heaps:
        print(f"{language}: {what} of {heap}: {1e6 * statistics.median(times[heap]):.2f} microseconds")
        for name, row in times.items():
            if name not in heaps:
                print(f"    {spread([one / other for one, other in zip(times[heap], row)])} times as long as of {name}")


def size_of(folder):
    return sum(it.stat().st_size for it in folder.rglob("*") if it.is_file())


def measure(language, room, peers, n, rounds):
    peers = dict(opened(room, peers))
    times = {kind: {name: [] for name, peer in peers.items() if getattr(peer, kind, True)} for kind in KINDS}
    for turn in range(rounds + 1):
        for kind, (_, share) in KINDS.items():
            for name, row in times[kind].items():
                took = peers[name].seconds(kind, share * n) / (share * n)
                # (the first round is not counted)
                row += [took] * (turn > 0)
    for kind in KINDS:
        compare(language, kind, times[kind])
    for name, peer in peers.items():
        if peer.last() != peer.number:
            sys.exit(f"calls: the last commit of {name} is lost")
        memory = peer.memory()
        peer.close()
        print(f"{language}: {name}: {size_of(room / name) / 1024:.0f} KiB of files" + (f", {memory} KiB of memory" if memory else ""))


def main():
    words = sys.argv[1 + QUICK :]
    n, rounds, *_ = [int(word) for word in words] + [300, 9][len(words) :]
    if n < 1 or rounds < 5:
        sys.exit("calls: N is at least 1, and ROUNDS at least 5")
    commits = (1 + UNFORCED) * n * (rounds + 1)
    each = f"{n} durable commits, {UNFORCED * n} unforced and {READS * n} reads"
    print(f"load {os.getloadavg()[0]:.1f}; {rounds} rounds of {each}: the median, the least and the greatest ratio")
    with tempfile.TemporaryDirectory() as room:
        for language, peers in (("C", lambda it: in_c(it, commits)), ("Python", lambda it: in_python(commits))):
            folder = pathlib.Path(room, language)
            folder.mkdir()
            measure(language, folder, peers(folder), n, rounds)


if __name__ == "__main__":
    main()
