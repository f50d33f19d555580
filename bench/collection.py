#!/usr/bin/env python3
"""Times collections: against twice as many objects, against a C program that copies as much, a read beside one, and the longest pause.

    bench/collection.py [--quick] [N]

The heap is a list of directories of 509 leaves each, reached from the root; N is how many directories the short one has, 16 if left out, and
at most 28. Each run begins on a copy of the same file. Whole runs are timed by the processor time of the program, which other work on the
machine changes least. Of reads the least of 9 runs counts, of collections of twice the objects the least of 15, and beside the C program 60
rounds, in each of which all take their turn. Both are made by calls of the library (`library_bench collect`, which `rt run` in
crates/library_bench builds; without it these parts are left out); beside the C program also by a script, with its lines and answers, as C makes
no text. The C program's memory was written before its clock began; so what is timed are collections after others and a force, whose memory the log
has kept, with a force after each six. A run with the first six alone is taken off, and in a script a run with as many scans that have nothing to
do in place of the others. Pauses are the processor time of `heap session` between a line and its answer, as Linux tells it, in one of the first
three collections of a run, each with a force after it; memory that grows by doubling has grown in the third. They are compared with a heap of 16
times the objects and with one of the same objects in the most pages, also with the caches emptied before each, for which both programs run on one
processor. It needs gcc, measures, and judges nothing. With --quick the programs are those that are compiled with nothing proved, which have checks
at each step, so that their times say little; the library's part is as `rt run` built it.

Beside C. It copies each object with two `memcpy`, into a space and into a log, writes as many bytes of log, and syncs them. Leaves have 4, 7, 16 or 64 words,
since each object costs something besides its words. What favours the program: no page is stored, its opening is taken off, and C copies small leaves by calls of
`memcpy`. What favours C: it traces nothing, leaves no forwarding word, and keeps no LSN and no set of addresses. 16 directories, all other work stopped, runs of
60 rounds, by calls of the library:

    leaf      runs  ratio of the least times             median of the rounds
    4 words   6     0.28, 0.29, 0.29, 0.30, 0.30, 0.30   0.25, 0.30, 0.30, 0.31, 0.32, 0.32
    7 words   6     0.29, 0.30, 0.30, 0.30, 0.31, 0.32   0.31 five times, 0.32
    16 words  2     0.65, 0.67                           0.69, 0.71
    64 words  2     2.19, 2.25                           2.27, 2.31

By a script the medians were 0.23, 0.28, 0.28, 0.29, 0.29, 0.30 in leaves of 4 words, 0.29 six times in leaves of 7, 0.63, 0.65 and 1.59, 1.66 in larger ones. So
a quarter, rounded, is reached in all runs by the library, and in all but the first by a script. Small leaves were 56 to 80 million words a second. A ratio above 1
can't come of the copying, of which the program does more; what it comes of in leaves of 64 words was not looked into. The ratio follows the machine: in an hour in
which all took up to twice as long, C less so, programs built with nothing proved, of this and of older versions, had medians from 0.20 to 0.28.

A copied object of 4 words takes 653 instructions in the proved program by `valgrind --tool=callgrind`, which counts each byte that is cleared or moved in one
piece: 319 to plan its copy and to visit it, 64 to put it on its page, 38 to note it in the sets of addresses, 43 for its field in the record of the scan and on
the page, 136 in `memcpy` and `memset`, and 53 for the events and their memory; in a heap of 2 directories. Built with nothing proved and its checks taken out the
program takes 810, and took 857 before the words of an object were read at once, copies added to the sets a page at a time, and memory for the copies of a scan
asked for once. By turns, 24 rounds, the proved program took 88 ns for such an object in the median, built with nothing proved it took 103, and before 108; of 7
words 112, 127 and 139. A proved program that only plans the copies of one directory took 27 ns a leaf of 4 words with memory that grows by doubling, and 20 with
memory that is asked for once.

Pauses, of the proved program, all other work stopped, four runs: that of a flip with 42 roots and with 402, and of the scans that copy the 509 leaves of a directory,
in the median and the longest. Each event counts with the least of 15 rounds, in which the heaps take turns. Beside a heap of 127 pages, in which a flip of 42 roots
took 0.034 to 0.036 ms and the scan of a directory 0.029 to 0.044 ms, or 0.053 to 0.057 and 0.066 to 0.068 ms with the caches emptied, a pause took so many times
as long:

    collection              flip, 16 times the objects  flip, 16,384 pages  scan, 16 times the objects  scan, 16,384 pages
    first                   1.00 to 1.05                1.03 to 1.06        1.05 to 1.10                1.39 to 1.51
    second                  1.27 to 1.32                0.94 to 0.98        1.07 to 1.13                0.90 to 0.96
    third                   1.11 to 1.29                0.85 to 0.97        1.14 to 1.18                0.93 to 0.95
    third, caches emptied   1.02 to 1.09                1.01 to 1.08        0.95 to 0.98                0.99 to 1.02

So such a pause does not grow with the heap's pages but for a scan in the first collection, which misses the aim, nor with its objects but for what the caches of the
processor still hold of a small heap. In the first collection of 16,384 pages a scan touches memory of the other space that the opening left to the system: 15 page
faults where the small heap, whose memory was touched before, has 7. Each costs 2.6 microseconds on this machine, and the collections after it have none. Roots and
copies lie side by side here; where they are scattered, each 64 pages that are met first cost 512 bytes that are cleared. Scans are in the median; the longest of the 46
scans of directories took 2.0 to 3.0 times as long, and 1.6 or 1.7 with the caches emptied: in that one the C library takes memory from the system and gives it back
(three calls of `brk` in it, by `strace`). A flip of 402 roots took 0.23 or 0.24 ms.
"""
import os
import resource
import shutil
import statistics
import subprocess
import sys
import tempfile

TOP = os.path.dirname(os.path.dirname(os.path.realpath(__file__)))
QUICK = ["--quick"] * (sys.argv[1:2] == ["--quick"])
BUILT = os.path.join(TOP, ".build", *["quick"] * bool(QUICK))
HEAP, SESSION = os.path.join(BUILT, "heap_shell"), os.path.join(BUILT, "heap_session")
LIBRARY = os.path.join(TOP, "crates/library_bench/out/library_bench")
RUNS = 9
SIZES = 15
ROUNDS = 60
PAUSES = 15
MOST_PAGES = 16_384
EVICTING = b"\1" * (128 * 1_048_576)
LEAVES = 509
LOG = 12 * 1_048_576
COLLECTIONS = 6
AGAIN = 4


def spent():
    """The seconds of processor time of all programs that have ended."""
    used = resource.getrusage(resource.RUSAGE_CHILDREN)
    return used.ru_utime + used.ru_stime


def run(words, text=""):
    """What a run of the program in the current folder prints. Script and replies are files: a pipe would wake its reader at each line."""
    with open("script", "w") as script:
        script.write(text)
    with open("script") as script, open("replies", "w") as output:
        subprocess.run([HEAP, *words], stdin=script, stdout=output, check=True)
    with open("replies") as replies:
        return replies.read()


def directory(leaf_words, is_first):
    """A transaction that puts a directory with its leaves in front of the list."""
    text = "1 begin\n1 root 0\n1 get 0 0 1\n1 new 2 510\n" + ("" if is_first else "1 link 2 0 1\n")
    leaves = "".join(f"1 new 3 {leaf_words - 2}\n1 put 3 0 7\n1 link 2 {i} 3\n" for i in range(1, LEAVES + 1))
    return text + leaves + "1 link 0 0 2\n1 seal\n"


def words_of(directories, leaf_words):
    return 6 + directories * (512 + LEAVES * leaf_words)


def log_bytes(directories, leaf_words):
    """Room for the transactions that make the heap, and for all collections of it that are timed by the library or a script."""
    objects = directories * (LEAVES + 1)
    return 1_048_576 + ((1 + AGAIN) * COLLECTIONS + 2) * (8 * words_of(directories, leaf_words) + 60 * objects)


def build(name, directories, leaf_words=4, log=LOG, pages=None):
    """A heap of so many directories, kept in a file of this name. Its objects are in the spaces for the first time."""
    run(["format", str(pages or words_of(directories, leaf_words) // 64 + 8), str(log), "1"])
    for made in range(directories):
        run(["play"], directory(leaf_words, made == 0))
    os.replace("heap.img", name)


def timed_once(name, text, wanted):
    """The seconds of processor time of a script on a copy of the heap. So many answers have the wanted word."""
    word, count = wanted
    shutil.copyfile(name, "heap.img")
    before = spent()
    replies = run(["play"], text)
    seconds = spent() - before
    if replies.count(f" {word}") != count:
        sys.exit(f"collection: {replies.count(f' {word}')} answers are {word}, and not {count}")
    return seconds


def timed(name, text, wanted):
    """The least seconds of processor time of a script on a copy of the heap."""
    return min(timed_once(name, text, wanted) for _ in range(RUNS))


def scans(directories, leaf_words):
    """How many scans a collection needs at most."""
    return words_of(directories, leaf_words) // 64 + 3


def collections(directories, leaf_words):
    """Collections one after another, each with a scan for every page."""
    return ("flip\n" + "scan\n" * scans(directories, leaf_words)) * COLLECTIONS


def copies_of_c(directories, leaf_words, rounds):
    """The seconds of processor time of the C program."""
    args = ["./collection", "log", str(directories), str(leaf_words), str(COLLECTIONS), str(rounds)]
    return float(subprocess.run(args, stdout=subprocess.PIPE, check=True).stdout)


def by_library(name, rounds):
    """The seconds of processor time of so many rounds of collections, with a force after each, by calls of the library on a copy of the heap."""
    shutil.copyfile(name, "heap.img")
    before = spent()
    told = subprocess.run([LIBRARY, "collect", "heap.img", str(rounds)], stdout=subprocess.PIPE, check=True, text=True).stdout
    if told != f"collected {rounds * COLLECTIONS}\n":
        sys.exit(f"collection: the library says {told.strip()!r} after {rounds * COLLECTIONS} collections")
    return spent() - before


def by_size(n):
    """Both heaps take turns, and the least times count, without those of the first round of collections."""
    heaps = (("short", n), ("long", 2 * n))
    for name, directories in heaps:
        build(name, directories, log=log_bytes(directories, 4))
    rounds = [[(by_library(name, 1 + AGAIN), by_library(name, 1)) for name, _ in heaps] for _ in range(SIZES)]
    short, long = (min(whole for whole, _ in times) - min(first for _, first in times) for times in zip(*rounds))
    print(f"a collection of {2 * n * (LEAVES + 1)} live objects takes {long / short:.2f} times as long as one of {n * (LEAVES + 1)}")


def one_round(n, leaf_words):
    """The seconds of the copies by the library and by a script, each with all rounds and with what is taken off, and those of C."""
    copies = collections(n, leaf_words) + "force\n"
    idle = "scan\n" * (COLLECTIONS * (scans(n, leaf_words) + 1)) + "force\n"
    return (
        by_library("copied", 1 + AGAIN),
        by_library("copied", 1),
        timed_once("copied", copies + AGAIN * copies, ("collected", (1 + AGAIN) * COLLECTIONS)),
        timed_once("copied", copies + AGAIN * idle, ("collected", COLLECTIONS)),
        copies_of_c(n, leaf_words, AGAIN),
    )


def ratios(c, whole, base):
    """What C takes of the time of a run, what is taken off left out: of the least times, and in the median of the rounds."""
    least = min(c) / (min(whole) - min(base))
    median = statistics.median(each / (more - less) for each, more, less in zip(c, whole, base))
    return f"ratio {least:.2f} of the least times, {median:.2f} in the median of the rounds"


def beside_c(n, leaf_words):
    """Copies of a heap whose leaves have so many words. Larger leaves are fewer, so that about as many words are copied where n is 16 or more."""
    n = max(1, 4 * n // leaf_words)
    build("copied", n, leaf_words, log_bytes(n, leaf_words))
    library, first, script, idle, c = zip(*[one_round(n, leaf_words) for _ in range(ROUNDS)])
    words = AGAIN * COLLECTIONS * words_of(n, leaf_words)
    ours = min(library) - min(first)
    print(
        f"leaves of {leaf_words} words: {words / ours / 1e6:.1f} million words copied a second, the C program {words / min(c) / 1e6:.1f}:"
        f" {ratios(c, library, first)}; with the lines of a script, {ratios(c, script, idle)}"
    )


def reads(count):
    """The seconds of so many reads of the root, without and within a collection that has scanned its page, and has much that is gray."""
    begin, read = "1 begin\n1 root 0\n1 get 0 0 1\n", "1 get 0 0 1\n" * count
    seconds = []
    for setup in ("", "flip\nscan\n"):
        asked = timed("long", setup + begin + read, ("ref", count + 1))
        seconds.append(asked - timed("long", setup + begin, ("ref", 1)))
    return seconds


def processor_time(process):
    """The seconds for which a process with one thread had a processor."""
    with open(f"/proc/{process.pid}/schedstat") as file:
        return int(file.read().split()[0]) / 1e9


class Session:
    """A session on a copy of a heap: each line is asked by itself, and the time taken that the program works on it."""

    def __init__(self, name):
        shutil.copyfile(name, "heap.img")
        self.process = subprocess.Popen([SESSION], stdin=subprocess.PIPE, stdout=subprocess.PIPE)

    def ask(self, line):
        before = processor_time(self.process)
        self.process.stdin.write(f"{line}\n".encode())
        self.process.stdin.flush()
        answer = self.process.stdout.readline().decode()
        return processor_time(self.process) - before, answer.split(" -> ")[1].strip()

    def close(self):
        self.process.stdin.close()
        self.process.stdout.read()
        self.process.wait()


def empty_caches():
    """Reads more memory than a cache holds, on the processor that the session runs on too, so that nothing of its heap is left in one."""
    EVICTING[::64]


class Rounds:
    """The same flip and scans on the same heap, round after round. Before the flip so many objects of the first directory are read, each a lock."""

    def __init__(self, name, locks, collected):
        """So many collections are made before, with a force after each: what grows by doubling has grown, and is kept."""
        self.name, self.locks, self.collected = name, locks, collected
        self.answers = self.once()[1]

    def collect(self, session, cold=()):
        """The pauses of a flip and of each scan until the last, and their answers. Before the events at the places `cold` the caches are emptied."""
        seconds, answers = [], []
        while not answers or answers[-1].startswith("scanned") or len(answers) == 1:
            if len(answers) in cold:
                empty_caches()
            one, answer = session.ask("scan" if answers else "flip")
            seconds.append(one)
            answers.append(answer)
        if not answers[-1].startswith("collected"):
            sys.exit(f"collection: an event is answered {answers[-1]}")
        return seconds, answers

    def once(self, cold=()):
        session = Session(self.name)
        for line in ["1 begin", "1 root 0", "1 get 0 0 1"]:
            session.ask(line)
        for field in range(1, self.locks + 1):
            session.ask(f"1 get 1 {field} 2")
            session.ask("1 get 2 0 63")
        for _ in range(self.collected):
            self.collect(session)
            session.ask("force")
        told = self.collect(session, cold)
        session.close()
        return told

    def directories(self):
        """The places of the scans that copy the leaves of a directory and the next directory."""
        wanted = [str(LEAVES + 1), str(512 + 4 * LEAVES)]
        return [at for at, answer in enumerate(self.answers) if answer.startswith("scanned") and answer.split()[2:] == wanted]


def pauses(heaps, is_cold=False):
    """The seconds of the flip, of the scan of a directory in the median, and of the longest such scan, of each heap, where each event counts with the
    least of its times. The heaps take turns."""
    cold = [[0] + heap.directories() if is_cold else [] for heap in heaps]
    taken = [[] for _ in heaps]
    for _ in range(PAUSES):
        for heap, places, times in zip(heaps, cold, taken):
            seconds, answers = heap.once(places)
            if answers != heap.answers:
                sys.exit("collection: two rounds are answered differently")
            times.append(seconds)
    least = [[min(times) for times in zip(*rounds)] for rounds in taken]
    scans = [[times[at] for at in heap.directories()] for heap, times in zip(heaps, least)]
    return [(times[0], statistics.median(some), max(some)) for times, some in zip(least, scans)]


def beside_small(small, long, wide):
    return f"{1000 * small:.3f} ms, {long / small:.2f} times as long with 16 times the objects, {wide / small:.2f} in {MOST_PAGES} pages"


def by_heap(n):
    few = max(3, n // 8)
    pages = words_of(few, 4) // 64 + 8
    build("small", few)
    build("large", 16 * few)
    build("wide", few, pages=MOST_PAGES)
    (flip, *_), (more, *_) = pauses([Rounds("large", 40, 2), Rounds("large", 400, 2)])
    print(f"the longest pauses, in the third collection: a flip of 42 roots {1000 * flip:.2f} ms, of 402 roots {1000 * more:.2f} ms")
    processors = os.sched_getaffinity(0)
    for collected, is_cold in ((2, False), (2, True), (1, False), (0, False)):
        if is_cold:
            os.sched_setaffinity(0, {min(processors)})
        flips, scans, longest = zip(*pauses([Rounds(name, 40, collected) for name in ("small", "large", "wide")], is_cold))
        os.sched_setaffinity(0, processors)
        caches = ", with the caches emptied" if is_cold else ""
        which = ("first", "second", "third")[collected]
        print(f"{which} collection of a heap of {pages} pages{caches}: a flip of 42 roots {beside_small(*flips)};", end=" ")
        print(f"the scan of a directory {beside_small(*scans)}; the longest of these {beside_small(*longest)}")


def main():
    n = int(sys.argv[1 + len(QUICK)]) if len(sys.argv) > 1 + len(QUICK) else 16
    if not 1 <= n <= 28:
        sys.exit("collection: N is from 1 to 28")
    heap = [os.path.join(TOP, "heap"), *QUICK]
    subprocess.run([*heap, "format", "1", "65536", "1"], stdout=subprocess.PIPE, check=True)  # builds the program, if it is not built
    subprocess.run([*heap, "session"], stdin=subprocess.DEVNULL, stdout=subprocess.PIPE, check=True)
    subprocess.run(["gcc", "-O2", "-o", "collection", f"{TOP}/bench/collection.c"], check=True)
    print(f"load {os.getloadavg()[0]:.1f}")
    if os.path.exists(LIBRARY):
        by_size(n)
        for leaf_words in (4, 7, 16, 64):
            beside_c(n, leaf_words)
    else:
        print("without collections of twice the objects and without the C program: `rt run` in crates/library_bench builds what they need")
    build("long", 2 * n)
    without, within = reads(80_000)
    print(f"a read beside a collection, of a page with nothing gray: {within / without:.2f} times as long as without one")
    by_heap(n)


if __name__ == "__main__":
    with tempfile.TemporaryDirectory() as room:
        os.chdir(room)
        main()
