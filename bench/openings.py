#!/usr/bin/env python3
"""Measures openings: the memory and the time that a long log takes, and the time that many pages take.

    bench/openings.py [--quick] [RUNS]

A log of 64 MiB and one of 128 MiB are full of commits of one write each, on a heap of one page a space; another heap has 16,384 pages a space, all of
them stored. The images are written here, byte by byte as docs/FORMATS.md has them, and each is opened by `graph`, in turn with the C program
openings.c, which reads the bytes and decodes them. Both have to find what was written. Memory is what a run had at most, without that of a run whose
words are no command. Times are of the processor, of whole runs, the least of RUNS, 5 if it is left out. It needs gcc. With --quick the program is
that which is compiled with nothing proved; it has checks at each step, and is many times slower where it computes.

The C program decodes the superblock, the frame of each page that counts, and the log, batch by batch and record by record, of which it redoes each on the page
that lacks it. It keeps no undo entries and walks no words, and takes no records but the two kinds of these logs. Both count the commits, and have to find the
number that the last one put into the root. One run of fifteen rounds, beside other work (load 15 to 16):

    image                                memory    opening        C  opening : C
    64 MiB of log, 1,813,753 commits    0.3 MiB    0.196 s  0.031 s         6.30
    128 MiB of log, 3,627,506 commits   0.3 MiB    0.374 s  0.064 s         5.84
    16,384 pages a space, one commit   16.8 MiB    0.015 s  0.012 s         1.18

The log of twice the size took 1.91 times as long, and the 16.8 MiB are the words of both spaces. So three is held for pages, and missed for logs by a factor
of two: a commit, which is two records, takes 103 nanoseconds to open and 18 in C. `perf` found no function with more than 18 of 100 samples; the first six
were the opening itself with 18, the check of a record against those before it 13, its redo 11, the taking away of undo entries 10, the reading of pieces 8 and
the decoding 8.
"""
import os
import struct
import subprocess
import sys
import tempfile

TOP = os.path.dirname(os.path.dirname(os.path.realpath(__file__)))
QUICK = sys.argv[1:2] == ["--quick"]
PROGRAM = os.path.join(TOP, ".build", *["quick"] * QUICK, "heap_shell")
MIB = 1 << 20
MANY = 16_384


def superblock(pages, log_bytes):
    return b"\1stbheap" + struct.pack("<IIII", 1, pages, log_bytes, 1) + bytes(40)


def commit(t):
    """The batch of transaction t, which writes the number t into field 0 of the root and is committed."""
    was = 4 * (t - 1) + 1 if t > 1 else 0
    return struct.pack("<BIBIIHQQBI", 1, 32, 1, t, 0, 0, was, 4 * t + 1, 5, t)


def write_log_image(log_bytes):
    """A heap of one page a space that was never stored, whose log is full of commits."""
    commits = (log_bytes - 1) // len(commit(1))
    with open("heap.img", "wb") as image:
        image.write(superblock(1, log_bytes))
        for first in range(1, commits + 1, 10_000):
            image.write(b"".join(map(commit, range(first, min(first + 10_000, commits + 1)))))
        image.truncate(64 + log_bytes + 2_112)
    return commits


def frame(lsn, words):
    return struct.pack("<B7xQ64Q", 1, lsn, *words)


def write_pages_image():
    """A heap with one commit, of which every page is stored behind it."""
    root = [17, 0, 5] + [0] * 61
    with open("heap.img", "wb") as image:
        image.write(superblock(MANY, 65_536) + commit(1).ljust(65_536, b"\0"))
        image.write(frame(1, root) + bytes(528))
        image.write((frame(1, [0] * 64) + bytes(528)) * (2 * MANY - 1))


def measured(tool, *words):
    """The seconds and the KiB of a run of these words, and its status."""
    ran = subprocess.run([tool, "run", *words], stdin=subprocess.DEVNULL, stdout=subprocess.PIPE, check=True)
    seconds, peak, status = ran.stdout.split()
    return float(seconds), int(peak), int(status)


def check_found(words, text):
    """Ends the bench where a program does not print what was written."""
    found = subprocess.run(words, stdin=subprocess.DEVNULL, stdout=subprocess.PIPE, text=True).stdout
    if found != text:
        sys.exit(f"openings: {text!r} was written, and {os.path.basename(words[0])} found {found!r}")


def opening(tool, runs, commits):
    """The least seconds of some openings, their most KiB, and the least seconds of the C program over the image."""
    ours, theirs = [PROGRAM, "graph"], [tool, "read", "heap.img"]
    # the last commit has put its number into the root
    check_found(ours, f"graph 1\n0: {commits} - - -\n")
    check_found(theirs, f"commits {commits}\nrecords {2 * commits}\nroot {commits}\n")
    rounds = [(measured(tool, *ours), measured(tool, *theirs)) for _ in range(runs)]
    if any(status for both in rounds for _, _, status in both):
        sys.exit("openings: the image was not opened")
    return min(ran[0] for ran, _ in rounds), max(ran[1] for ran, _ in rounds), min(ran[0] for _, ran in rounds)


def main(tool):
    words = sys.argv[1 + QUICK:]
    runs = int(words[0]) if words else 5
    subprocess.run([os.path.join(TOP, "heap"), *["--quick"] * QUICK, "play", "--fresh", "1"], stdin=subprocess.DEVNULL, stdout=subprocess.PIPE, check=True)
    print(f"load {os.getloadavg()[0]:.1f}")
    _, empty, _ = measured(tool, PROGRAM, "none")
    times = []
    for size in (64, 128):
        commits = write_log_image(size * MIB)
        seconds, peak, c = opening(tool, runs, commits)
        times.append(seconds)
        print(f"a log of {size} MiB, {commits} commits: {(peak - empty) / 1024:.1f} MiB above the empty program's {empty / 1024:.1f}, {seconds:.3f} s")
        print(f"against C, which reads and decodes it in {c:.3f} s: {seconds / c:.2f} times as long")
    print(f"128 MiB against 64: {times[1] / times[0]:.2f} times as long")
    write_pages_image()
    seconds, peak, c = opening(tool, runs, 1)
    print(f"{MANY} pages a space: {(peak - empty) / 1024:.1f} MiB above the empty program, {seconds:.3f} s")
    print(f"against C, which reads and decodes them in {c:.3f} s: {seconds / c:.2f} times as long")
    print(f"load {os.getloadavg()[0]:.1f}")


if __name__ == "__main__":
    with tempfile.TemporaryDirectory() as room:
        os.chdir(room)
        built = os.path.join(room, "openings")
        subprocess.run(["gcc", "-std=c11", "-O2", "-Wall", "-Wextra", "-o", built, os.path.join(TOP, "bench", "openings.c")], check=True)
        main(built)
