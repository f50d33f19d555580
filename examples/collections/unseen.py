#!/usr/bin/env python3
"""Plays drawn scripts of several sessions with flips, scans and flushes between their lines, and without: all other lines have to be the same,
and so has the graph. Then the disk stops at a drawn call, and again in the recovery: what comes back is the graph of the first commits, with all
that were acknowledged among them, and the next run collects on and changes nothing of it.

    examples/collections/unseen.py [--quick] [SCRIPTS [SEED]]

It prints one line, and each script in which something differs is kept in the current folder.
"""
import collections
import pathlib
import random
import subprocess
import sys
import tempfile

TOP = pathlib.Path(__file__).resolve().parents[2]
SHARED = (
    "1 begin;1 root 0;1 new 1 3;1 new 2 30;1 new 3 40;1 new 4 3;1 link 0 0 1;1 link 0 1 2;1 link 1 1 2;1 link 2 0 3;"
    "1 link 3 0 4;1 link 4 0 1;1 link 4 1 4;1 commit"
).split(";")
SIZES = [1, 2, 2, 3, 5, 20, 60, 62, 63, 130]
STOPS = 3


class Drawing:
    """A script that is drawn; most of its lines can be done."""

    def __init__(self, rng, pages):
        self.rng, self.pages = rng, pages
        self.sessions = range(1, rng.choice([2, 3, 4, 6]))
        self.held = {}
        self.lines = list(SHARED)
        for session in self.sessions:
            self.begin(session)
        for _ in range(rng.choice([20, 60, 150])):
            self.line()

    def begin(self, session):
        self.held[session] = [0, 1]
        self.lines += [f"{session} begin", f"{session} root 0", f"{session} get 0 {self.field()} 1"]

    def field(self):
        return self.rng.randrange(3)

    def handle(self, session):
        return self.rng.choice(self.held[session]) if self.rng.random() < 0.93 else self.rng.randrange(5)

    def filled(self, session):
        handle = self.rng.randrange(5)
        self.held[session].append(handle)
        return handle

    def flushed(self):
        return self.rng.choice([0, 1, self.pages, self.pages + 1, self.rng.randrange(2 * self.pages)])

    def line(self):
        s = self.rng.choice(self.sessions)
        kinds = ["end", "new", "flip", "scan", "force", "flush", "root", "drop", "same", "get", "clear", "put", "link"]
        kind = self.rng.choices(kinds, [7, 10, 4, 9, 3, 3, 2, 3, 2, 20, 5, 6, 26])[0]
        if kind == "end":
            self.lines.append(f"{s} {self.rng.choice(['abort', 'seal', 'commit', 'commit'])}")
            self.begin(s)
        elif kind in ("flip", "scan", "force"):
            self.lines.append(kind)
        elif kind == "flush":
            self.lines.append(f"flush {self.flushed()}")
        else:
            self.lines.append(" ".join(map(str, [s, kind, *self.numbers(s, kind)])))

    def numbers(self, s, kind):
        if kind == "new":
            return [self.filled(s), self.rng.choice(SIZES)]
        if kind == "root":
            return [self.filled(s)]
        if kind == "drop":
            return [self.handle(s)]
        if kind == "same":
            return [self.handle(s), self.handle(s)]
        written = {"get": lambda: [self.filled(s)], "clear": lambda: [], "put": lambda: [self.rng.randrange(1000)], "link": lambda: [self.handle(s)]}
        return [self.handle(s), self.field(), *written[kind]()]


def is_of_session(line):
    return line not in ("flip", "scan") and not line.startswith("flush ")


class Heap:
    """A folder with a heap in it, and the program."""

    def __init__(self, folder, quick):
        self.folder = folder
        self.command = [TOP / "heap", *(["--quick"] if quick else [])]

    def play(self, lines, *words):
        """The lines of the events, and what is printed behind them."""
        ran = subprocess.run([*self.command, "play", *words], cwd=self.folder, input="\n".join(lines) + "\n", capture_output=True, text=True)
        if ran.returncode:
            raise ValueError(f"status {ran.returncode}")
        events = [line for line in ran.stdout.splitlines() if " -> " in line]
        return events, ran.stdout[sum(len(line) + 1 for line in events) :]


def replies(events):
    """The replies to what is of sessions, and to forces."""
    return [line for line in events if is_of_session(line.split(" -> ")[0])]


def lacks_room(events):
    return any(" -> exhausted " in line or " -> logfull " in line for line in events)


def graph_of_first(heap, pages, events, count):
    """The graph of the first commits: of a run that is sealed so often."""
    made = 0
    if count:
        made = 1 + next(at for at, line in enumerate(events) if line.endswith(f" seal -> sealed {count}"))
    return heap.play([line.split(" -> ")[0] for line in events[:made]], "--fresh", str(pages))[1]


def check_stop(heap, rng, pages, lines, events):
    """What is wrong of a run that stops, and of one that goes on behind it; nothing if all is well."""
    stop, again = rng.randrange(70), rng.randrange(6)
    made, rest = heap.play(lines, "--fresh", str(pages), "--stop", str(stop), "--again", str(again))
    recovered, graph = rest.split("\n", 1)
    count = int(recovered.split()[1])
    done = made[:-1] if made and made[-1].endswith(" -> stopped") else made
    acknowledged = max([int(line.split()[-1]) for line in done if line.startswith("force -> durable ")], default=0)
    if events[: len(done)] != done:
        return f"--stop {stop}: other lines"
    if not acknowledged <= count <= sum(" seal -> sealed " in line for line in done):
        return f"--stop {stop} --again {again}: {count} commits came back"
    if graph != graph_of_first(heap, pages, events, count):
        return f"--stop {stop} --again {again}: another graph"
    if heap.play(["flip", *["scan"] * (2 * pages + 3)])[1] != graph:
        return f"--stop {stop} --again {again}: another graph behind a collection"
    return None


def check(heap, rng, pages, lines, seen):
    events, graph = heap.play(lines, "--fresh", str(pages))
    plain, plain_graph = heap.play([line for line in lines if is_of_session(line)], "--fresh", str(pages))
    seen.update(line.split(" -> ")[1].split()[0] for line in events)
    # (where garbage is not collected a space may have no room, and where it is a log)
    if not lacks_room(events + plain) and (replies(events), graph) != (plain, plain_graph):
        return "other lines without collections"
    return next(filter(None, (check_stop(heap, rng, pages, lines, events) for _ in range(STOPS))), None)


def main():
    words = sys.argv[1:]
    quick = words[:1] == ["--quick"]
    count, seed = [*map(int, words[quick:]), *[20, 1][len(words) - quick :]]
    rng = random.Random(seed)
    seen, differ = collections.Counter(), 0
    with tempfile.TemporaryDirectory() as folder:
        heap = Heap(pathlib.Path(folder), quick)
        for number in range(count):
            pages = rng.choice([4, 16, 64])
            lines = Drawing(rng, pages).lines
            wrong = check(heap, rng, pages, lines, seen)
            if wrong:
                differ += 1
                kept = f"differs-{seed}-{number}.script"
                pathlib.Path(kept).write_text("\n".join(lines) + "\n", encoding="ascii")
                print(f"{kept}, with {pages} pages: {wrong}", file=sys.stderr)
    told = ", ".join(f"{seen[word]} {word}" for word in ("flipped", "scanned", "collected"))
    print(f"{count} scripts, {differ} differ: {told}")
    return differ > 0


if __name__ == "__main__":
    sys.exit(main())
