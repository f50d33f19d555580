#!/usr/bin/env python3
"""Looks what a crash leaves of the library's file at each place among the calls that were made on it.

    STABLE_HEAP_LIBRARY=LIBRARY crashed.py FAULTS PROGRAM

A process opens a heap by the library and makes drawn transactions, with faults.c preloaded, which writes down each write and sync; the process adds which
commit begins, with the graph that it makes, and which ones are durable. Of each beginning of these calls the file is made as a crash may leave it: with
what is synced, and of each write behind that all, nothing, a part or anything. PROGRAM has to open it as the graph after a commit that had begun, and
after no earlier one than the last that was said to be durable. FAULTS is faults.c as a shared object. It works in the current folder.
"""
import concurrent.futures
import json
import os
import pathlib
import random
import subprocess
import sys
import tempfile

sys.dont_write_bytecode = True
sys.path.insert(0, str(pathlib.Path(__file__).resolve().parents[2] / "clients/python"))

from stable_heap import Heap  # noqa: E402

COMMITS, PAGES, LOG_BYTES = 48, 4, 16_384
ROOT_FIELDS = 4
COUNTED = 3  # the root's field with the number of the commit, so that no two graphs are the same
NO_HEAP = 7


class Node:
    """An object, as the process believes it is."""

    def __init__(self, fields):
        self.fields = [None] * fields


def text_of(root):
    """The graph as the program prints it: numbered breadth first."""
    found = [root]
    for node in found:
        found += [it for it in dict.fromkeys(node.fields) if isinstance(it, Node) and it not in found]
    spelled = {None: "-"}
    lines = [f"graph {len(found)}"]
    for place, node in enumerate(found):
        fields = [f"@{found.index(it)}" if isinstance(it, Node) else spelled.get(it, str(it)) for it in node.fields]
        lines.append(f"{place}: {' '.join(fields)}".rstrip())
    return "\n".join(lines) + "\n"


# ---- the process


class Log:
    """The file to which the calls are written, for what is between them."""

    def __init__(self):
        self.path = os.environ["FAULT_LOG"]

    def say(self, line):
        with open(self.path, "a", encoding="ascii") as file:
            file.write(line + "\n")


class Work:
    """Drawn transactions, and the graph that they make."""

    def __init__(self, heap, log):
        self.heap, self.log = heap, log
        self.rng = random.Random(1)
        self.root = Node(ROOT_FIELDS)

    def commit(self, number, durable):
        with self.heap.transaction(durable=durable) as t:
            for _ in range(self.rng.randint(1, 4)):
                self.write(t)
            t.root.put(COUNTED, number)
            self.root.fields[COUNTED] = number
            self.log.say(f"begun {json.dumps(text_of(self.root))}")
        if durable:
            self.log.say(f"durable {number}")

    def abort(self):
        try:
            with self.heap.transaction() as t:
                t.root.put(0, 12_345)
                t.root.link(1, t.new(3))
                raise KeyboardInterrupt
        except KeyboardInterrupt:
            pass

    def write(self, t):
        """One write into an object that is reached from the root by drawn steps."""
        held, node = t.root, self.root
        for _ in range(self.rng.randint(0, 4)):
            steps = [field for field, it in enumerate(node.fields) if isinstance(it, Node)]
            if not steps:
                break
            field = self.rng.choice(steps)
            held, node = held.get(field), node.fields[field]
        field = self.rng.randrange(len(node.fields) - (node is self.root))
        kind = self.rng.choice(["new", "new", "put", "link", "clear"])
        if kind == "new":
            node.fields[field] = Node(self.rng.randint(1, 4))
            held.link(field, t.new(len(node.fields[field].fields)))
        elif kind == "put":
            node.fields[field] = self.rng.randrange(1000)
            held.put(field, node.fields[field])
        elif kind == "link":
            node.fields[field] = self.root
            held.link(field, t.root)
        else:
            node.fields[field] = None
            held.clear(field)

    def between(self, number):
        """What stores pages and moves objects, and opens the heap again."""
        kind = self.rng.choice(["flush", "flush", "flip", "scan", "scan", "force", "abort", "none"])
        if kind == "flush":
            self.heap.flush(self.rng.randrange(2 * PAGES))
        elif kind == "flip":
            self.heap.flip()
        elif kind == "scan":
            self.heap.scan()
        elif kind == "abort":
            self.abort()
        elif kind == "force":
            self.heap.force()
            self.log.say(f"durable {number}")
        if number % 10 == 0:
            self.heap.reopen()
            self.log.say(f"durable {number}")


def work():
    log = Log()
    with Heap.open("crashed", pages=PAGES, log_bytes=LOG_BYTES, here=True) as heap:
        log.say("durable 0")
        it = Work(heap, log)
        for number in range(1, COMMITS + 1):
            it.commit(number, durable=it.rng.random() < 0.6)
            it.between(number)
    log.say(f"durable {COMMITS}")


# ---- the crashes


class Disk:
    """A file: its synced bytes, and the writes behind that, with their places."""

    def __init__(self):
        self.synced, self.pending = b"", []

    def with_writes(self, writes):
        image = bytearray(self.synced)
        for at, data in writes:
            image += bytes(max(0, at + len(data) - len(image)))
            image[at : at + len(data)] = data
        return bytes(image)

    def sync(self):
        self.synced, self.pending = self.with_writes(self.pending), []

    def left(self, rng):
        """What a crash may leave."""
        writes = self.pending
        choices = [writes[:count] for count in range(len(writes) + 1)]
        choices += [writes[:count] + writes[count + 1 :] for count in range(len(writes))]
        for place, (at, data) in enumerate(writes):
            half = rng.randint(0, len(data))
            torn = [(at, data[:half]), (at + half, data[half:]), (at, bytes(rng.choices(range(256), k=len(data)))), (at, bytes(len(data)))]
            choices += [writes[:place] + [part] + writes[place + 1 :] for part in torn]
        return [self.with_writes(choice) for choice in rng.sample(choices, min(len(choices), 20))]


def points(disk):
    """After each call, and each thing said: the last commit that was said to be durable, and the graphs of those that had begun."""
    durable, graphs = None, [text_of(Node(ROOT_FIELDS))]
    with open("crashed.log", encoding="ascii") as log, open("crashed.bytes", "rb") as written:
        for line in log:
            word, rest = line.split(" ", 1)
            if word == "write" and rest.startswith("heap.img"):
                at, length = map(int, rest.split()[1:])
                disk.pending.append((at, written.read(length)))
            elif word == "sync" and rest.startswith("heap.img"):
                disk.sync()
            elif word == "begun":
                graphs.append(json.loads(rest))
            elif word == "durable":
                durable = int(rest)
            else:
                continue
            yield durable, graphs


class Opened:
    """What the program answered to images."""

    def __init__(self, program):
        self.program, self.answers = program, {}

    def open(self, image):
        if image not in self.answers:
            with tempfile.TemporaryDirectory(dir=".") as folder:
                pathlib.Path(folder, "heap.img").write_bytes(image)
                run = subprocess.run([self.program, "graph"], cwd=folder, capture_output=True, text=True)
            self.answers[image] = run.stdout if run.returncode == 0 else run.returncode
        return self.answers[image]


def is_promised(answer, durable, graphs):
    if durable is None:
        return answer in (NO_HEAP, graphs[0])
    return answer in graphs[durable:]


def check(program):
    rng, opened, disk, calls = random.Random(1), Opened(program), Disk(), 0
    with concurrent.futures.ThreadPoolExecutor(4) as pool:
        for durable, graphs in points(disk):
            calls += 1
            for answer in pool.map(opened.open, disk.left(rng)):
                if not is_promised(answer, durable, graphs):
                    sys.exit(f"a crash after {calls} calls and answers: commit {durable} is durable, and there is\n{answer}")
    if disk.with_writes(disk.pending) != pathlib.Path("crashed/heap.img").read_bytes():
        sys.exit("the file is not what the calls made of it")
    if len(opened.answers) < 200:
        sys.exit(f"no more than {len(opened.answers)} images")
    print(f"{len(opened.answers)} images that a crash may leave: each is the heap after a commit, with all that was said to be durable")


def main():
    if sys.argv[1:] == ["--work"]:
        return work()
    faults, program = map(os.path.abspath, sys.argv[1:])
    env = dict(os.environ, LD_PRELOAD=faults, FAULT_LOG="crashed.log", FAULT_BYTES="crashed.bytes")
    for name in ("crashed.log", "crashed.bytes", "crashed/heap.img"):
        pathlib.Path(name).unlink(missing_ok=True)
    subprocess.run([sys.executable, __file__, "--work"], check=True, env=env)
    check(program)


if __name__ == "__main__":
    main()
