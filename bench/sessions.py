#!/usr/bin/env python3
"""Plays scripts in which 32 sessions lock n and 2n objects each, side by side, and prints how their times compare.

    bench/sessions.py [N]

N is the number of objects of each session in the short script, from 80 to 160, and 160 if left out. First each session makes a list of its
objects, one session after another. Then all of them walk their lists side by side, an object of each in turn: they read it, write into it,
and read an object that all of them read. So locks are kept until the end, on 32 times n objects, and on one object by all. Both scripts are
played 25 times, in turn with those that only make the lists, and the least of the 25 times counts. What is measured is the processor time
of the program itself, which other work on the machine changes least. It judges nothing.

At the end of the longer script more than 20,000 locks are held, 32 of them on each object that all have read. A lock costs a logarithm of what is
held, so the second ratio, without the lists, is meant to be a little above 2.
"""
import os
import resource
import subprocess
import sys
import tempfile

TOP = os.path.dirname(os.path.dirname(os.path.realpath(__file__)))
HEAP = os.path.join(TOP, "heap")
PROGRAM = os.path.join(TOP, ".build", "heap_shell")
RUNS = 25
PAGES = 1489
MOST_BYTES = 1_048_576
SESSIONS = range(1, 33)
COMMON = len(SESSIONS)  # the field of the table that refers to the object which all read


def lists(n):
    """A table that refers to a list of n objects for each session, and to one object that is in no list."""
    text = f"1 begin\n1 root 0\n1 new 1 {COMMON + 1}\n1 link 0 0 1\n1 new 2 1\n1 link 1 {COMMON} 2\n1 seal\n"
    for s in SESSIONS:
        text += f"{s} begin\n{s} root 0\n{s} get 0 0 0\n"
        head, spare = 1, 2
        text += f"{s} new {head} 2\n"
        for _ in range(n - 1):
            text += f"{s} new {spare} 2\n{s} link {spare} 1 {head}\n"
            head, spare = spare, head
        text += f"{s} link 0 {s - 1} {head}\n{s} seal\n"
    return text + "force\n"


def walks(n):
    """All sessions walk their lists, in turn, and are sealed when all are through."""
    text = "".join(f"{s} begin\n{s} root 0\n{s} get 0 0 0\n{s} get 0 {s - 1} 1\n{s} get 0 {COMMON} 2\n" for s in SESSIONS)
    for at in range(n):
        for s in SESSIONS:
            text += f"{s} get 1 0 63\n{s} put 1 0 7\n{s} get 2 0 63\n"
            text += f"{s} get 1 1 1\n" if at + 1 < n else ""
    return text + "".join(f"{s} seal\n" for s in SESSIONS) + "force\n"


def spent():
    """The seconds of processor time of all programs that have ended."""
    used = resource.getrusage(resource.RUSAGE_CHILDREN)
    return used.ru_utime + used.ru_stime


def play(program, text):
    """The output of one run, and its seconds."""
    if len(text) > MOST_BYTES:
        sys.exit(f"sessions: a script of {len(text)} bytes is longer than {MOST_BYTES}")
    before = spent()
    ran = subprocess.run([program, "play", "--fresh", str(PAGES)], input=text.encode(), stdout=subprocess.PIPE, check=True)
    return ran.stdout, spent() - before


def seconds_of(text, n, commits):
    """The seconds of a run of a script that commits so often, with nothing refused."""
    out, seconds = play(PROGRAM, text)
    if f"force -> durable {commits}\n".encode() not in out or b"busy" in out or b"full" in out:
        sys.exit("sessions: an event was refused")
    if f"graph {len(SESSIONS) * n + 3}\n".encode() not in out:
        sys.exit("sessions: objects are missing")
    return seconds


def main():
    n = int(sys.argv[1]) if len(sys.argv) > 1 else 160
    if not 80 <= n <= 160:
        sys.exit("sessions: N is from 80 to 160")
    play(HEAP, "")  # builds the program, if it is not built
    scripts = [(text, it, commits) for it in (n, 2 * n) for text, commits in ((lists(it), 33), (lists(it) + walks(it), 65))]
    rounds = [[seconds_of(*script) for script in scripts] for _ in range(RUNS)]
    made, whole, twice_made, twice = map(min, zip(*rounds))
    print(f"32 sessions that lock {2 * n} objects each took {twice / whole:.2f} times as long as with {n} objects each")
    print(f"without the time in which the lists are made: {(twice - twice_made) / (whole - made):.2f} times, {twice - twice_made:.3f} s")


if __name__ == "__main__":
    with tempfile.TemporaryDirectory() as room:  # each run makes its heap.img there
        os.chdir(room)
        main()
