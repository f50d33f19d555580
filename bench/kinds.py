#!/usr/bin/env python3
"""Times each kind of event alone: 2n of them beside n, in one table.

    bench/kinds.py [--quick] [N [ROUNDS]]

N is 30,000 if it is left out, and ROUNDS 9. For each kind it plays a script of N events of that kind, and one of 2N, on a new heap, and takes the time of the
same heap's script without them off; events that can't be made alone, as a begin without an end, are counted with what they need. So the log, the history and
what sessions hold are twice as long at the end of the second script. Printed are the nanoseconds of an event in the first script, and how much longer the
second took, meant to be near 2 and below 2.3: no event takes longer for what was before it; and the last line of those repeated. Each time is the least of all rounds, of the processor, and the
heap is in a folder in memory where there is one. With --quick the program is that which is compiled with nothing proved. It judges nothing.

30,000 events, nine rounds, beside other work (load 9), the nanoseconds of one, with its line of text, and how much longer 2n take than n:

    begin and abort                      399  2.02
    begin and seal                       420  2.02
    root                                 536  1.98
    new                                  434  2.11
    put                                  593  2.05
    clear                                534  2.09
    link                                 580  2.01
    drop                                 375  1.98
    get                                  573  2.26
    same                                 463  2.17
    len                                  393  1.97
    begin, root, put, seal and force     564  1.95
    force of nothing                     369  1.99
    flip and two scans                   672  2.00
    put and flush                       1590  1.79
    a refused put                        445  1.95
    a busy get                           461  1.99
"""
import os
import pathlib
import resource
import subprocess
import sys
import tempfile

TOP = pathlib.Path(__file__).resolve().parents[1]
QUICK = sys.argv[1:2] == ["--quick"]
PROGRAM = TOP.joinpath(".build", *["quick"] * QUICK, "heap_shell")
PAGES = 64
LOG_BYTES = 16_777_216

# Session 1 holds the root in handle 0, and an object that it made in handle 1.
HELD = "1 begin\n1 root 0\n1 new 1 4\n1 link 0 0 1\n1 commit\n1 begin\n1 root 0\n1 get 0 0 1\n"
# (so many new objects have room in the memory of a transaction)
NEW = "1 abort\n1 begin\n" + "1 new 2 2\n" * 999
# the kind, what goes before, what is repeated, and how many events that is
KINDS = [
    ("begin and abort", "", "1 begin\n1 abort\n", 2),
    ("begin and seal", "", "1 begin\n1 seal\n", 2),
    ("root", HELD, "1 root 2\n", 1),
    ("new", HELD, NEW, 1001),
    ("put", HELD, "1 put 1 0 7\n", 1),
    ("clear", HELD, "1 clear 1 0\n", 1),
    ("link", HELD, "1 link 1 0 0\n", 1),
    ("drop", HELD, "1 drop 3\n", 1),
    ("get", HELD, "1 get 0 0 2\n", 1),
    ("same", HELD, "1 same 0 1\n", 1),
    ("len", HELD, "1 len 1\n", 1),
    ("begin, put, seal and force", "", "1 begin\n1 root 0\n1 put 0 0 7\n1 commit\n", 5),
    ("force of nothing", HELD, "force\n", 1),
    ("flip and two scans", "", "flip\nscan\nscan\n", 3),
    ("put and flush", HELD, "1 put 1 0 7\nflush 0\n", 2),
    ("a refused put", HELD, "1 put 1 9 7\n", 1),
    ("busy", HELD + "1 put 0 1 7\n2 begin\n2 root 0\n", "2 get 0 1 1\n", 1),
]


def time_of(folder, script):
    """The processor time of a play of this script on a new heap, and the last reply before its ending events."""
    (folder / "script").write_text(script)
    subprocess.run([PROGRAM, "format", str(PAGES), str(LOG_BYTES), "1"], cwd=folder, stdout=subprocess.DEVNULL, check=True)
    before = resource.getrusage(resource.RUSAGE_CHILDREN)
    with open(folder / "script", "rb") as given, open(folder / "output", "wb") as output:
        subprocess.run([PROGRAM, "play"], cwd=folder, stdin=given, stdout=output, check=True)
    after = resource.getrusage(resource.RUSAGE_CHILDREN)
    os.unlink(folder / "heap.img")
    events = script.count("\n") + script.count("commit")
    replies = (folder / "output").read_text().split("\n", events)[:events]
    return after.ru_utime + after.ru_stime - before.ru_utime - before.ru_stime, replies[-1] if replies else ""


def checked(script):
    """A script has at most a mebibyte."""
    if len(script) > 1_048_576:
        sys.exit(f"kinds: a script of {len(script)} bytes is too long: take a smaller N")
    return script


def main():
    words = [int(word) for word in sys.argv[1 + QUICK :]]
    count, rounds, *_ = words + [30_000, 9][len(words) :]
    memory = "/dev/shm" if os.path.isdir("/dev/shm") else None
    with tempfile.TemporaryDirectory(dir=memory) as folder:
        folder = pathlib.Path(folder)
        print(f"load {os.getloadavg()[0]:.1f}; {count} events, the least of {rounds} rounds")
        for name, before, repeated, events in KINDS:
            often = max(count // events, 1)
            scripts = [checked(before + repeated * n) for n in (0, often, 2 * often)]
            (none, _), (once, _), (twice, last) = (min(time_of(folder, it) for _ in range(rounds)) for it in scripts)
            if once <= none:
                sys.exit(f"kinds: {often} times {name!r} take no time: take a larger N")
            print(f"| {name} | {(once - none) / (often * events) * 1e9:.0f} | {(twice - none) / (once - none):.2f} | {last} |")


if __name__ == "__main__":
    main()
