#!/usr/bin/env python3
"""Compares tools/heap_inspect with the program on drawn images: each is a heap on which a drawn script was played, most of them with
some bytes spoiled or cut off. Both have to print the same graph, or the same fault with the same exit status, and the inspector
has to leave the file as it was.

    examples/tools/inspected.py [--quick] [IMAGES [SEED]]

It prints one line, and each image in which they differ is kept in the current folder.
"""
import collections
import pathlib
import random
import subprocess
import sys
import tempfile

TOP = pathlib.Path(__file__).resolve().parents[2]
SUPERBLOCK_BYTES, FRAME_BYTES = 64, 528
IMAGES_OF_A_SCRIPT = 12


def draw_event(rng):
    """A line of a script. Most can be done: few handles and fields, and small numbers."""
    session, handle, other, field = rng.randint(1, 3), rng.randint(0, 3), rng.randint(0, 3), rng.randint(0, 3)
    drawn = rng.choices(
        ["begin", "root", "new", "put", "clear", "link", "get", "seal", "abort", "commit", "force", "flush", "flip", "scan"],
        [6, 6, 8, 12, 2, 12, 6, 3, 2, 3, 4, 4, 3, 3],
    )[0]
    arguments = {
        "root": [handle],
        "new": [handle, rng.choice([0, 1, 2, 3, 4, 30])],
        "put": [handle, field, rng.randint(0, 9)],
        "clear": [handle, field],
        "link": [handle, field, other],
        "get": [handle, field, other],
    }.get(drawn, [])
    if drawn in ("force", "flip", "scan"):
        return drawn
    if drawn == "flush":
        return f"flush {rng.randint(0, 5)}"
    return " ".join(map(str, [session, drawn, *arguments]))


def draw_script(rng):
    opening = [f"{session} {line}" for session in (1, 2, 3) for line in ("begin", "root 0")]
    return "\n".join(opening + [draw_event(rng) for _ in range(rng.randint(0, 120))]) + "\n"


class Heap:
    """A folder with a heap in it, and the program."""

    def __init__(self, folder, quick):
        self.file = folder / "heap.img"
        self.command = [TOP / "heap", *(["--quick"] if quick else [])]

    def run(self, *words, script=""):
        return subprocess.run([*self.command, *words], cwd=self.file.parent, input=script, capture_output=True, text=True)

    def make(self, rng):
        """A new heap in a new file, and a script played on it."""
        self.file.unlink(missing_ok=True)
        self.log_bytes = rng.choice([200, 600, 2_000, 6_000])
        self.run("format", str(rng.randint(1, 3)), str(self.log_bytes), str(rng.choice([1, 1, 7])))
        self.run("play", script=draw_script(rng))
        return bytearray(self.file.read_bytes())

    def said(self):
        """What the program says of the heap: its status, and the graph or its first line on standard error."""
        ran = self.run("graph")
        complaints = [line for line in ran.stderr.splitlines() if not line.startswith("heap: ")]
        return ran.returncode, ran.stdout or complaints[0]

    def inspected(self):
        ran = subprocess.run([TOP / "tools/heap_inspect", "--graph", self.file], capture_output=True, text=True)
        return ran.returncode, ran.stdout or ran.stderr.strip()


def gates(image):
    """The offsets in the image of the log's open gates, and of the closed one behind them."""
    at = SUPERBLOCK_BYTES
    while image[at] == 1:
        yield at
        at += 5 + int.from_bytes(image[at + 1 : at + 5], "little")
    yield at


def draw_byte(rng, old):
    return rng.choice([0, 1, 2, 3, 4, 5, 6, 7, old ^ 1, old ^ 128, (old + 4) % 256, rng.randrange(256)])


def frames(image, log_bytes):
    return range(SUPERBLOCK_BYTES + log_bytes, len(image), FRAME_BYTES)


def draw_offset(rng, image, log_bytes):
    """A byte of the superblock, of the log, of a frame, or of the first words of an open one."""
    *_, end = gates(image)
    frame = rng.choice(frames(image, log_bytes))
    open_frame = rng.choice([at for at in frames(image, log_bytes) if image[at] == 1] or [frame])
    where = rng.choices(["superblock", "log", "frame", "open"], [1, 8, 1, 6])[0]
    return {
        "superblock": rng.randrange(SUPERBLOCK_BYTES),
        "log": rng.randrange(SUPERBLOCK_BYTES, end + 1),
        "frame": frame + rng.choice([0, 8, 16]),
        "open": open_frame + rng.randrange(160),
    }[where]


def spoil(rng, whole, log_bytes):
    """The image as it is, with a gate closed, with some bytes changed, with less room in its log, or cut short."""
    image = bytearray(whole)
    how = rng.choices(["whole", "gate", "bytes", "room", "cut"], [1, 3, 12, 2, 1])[0]
    if how == "gate":
        image[rng.choice(list(gates(image)))] = 0
    elif how == "room":
        lose_room(rng, image)
    elif how == "bytes":
        for at in [draw_offset(rng, whole, log_bytes) for _ in range(rng.randint(1, 2))]:
            image[at] = draw_byte(rng, image[at])
    elif how == "cut":
        del image[rng.randrange(len(image)) :]
    return image


def lose_room(rng, image):
    """The log ends just behind one of its gates, which is closed. Nothing is left of the frames."""
    gate = rng.choice(list(gates(image)))
    log_bytes = max(64, gate + 1 - SUPERBLOCK_BYTES + rng.choice([0, 1, 9, 10, 40]))
    image[gate:] = b""
    image[12:20] = (1).to_bytes(4, "little") + log_bytes.to_bytes(4, "little")


def compare(heap, image):
    """What both say of the image."""
    heap.file.write_bytes(image)
    inspected = heap.inspected()
    if heap.file.read_bytes() != image:
        inspected = "the file was changed"
    return inspected, heap.said()


def main():
    words = sys.argv[1:]
    quick = words[:1] == ["--quick"]
    count, seed = [*map(int, words[quick:]), 60, 1][:2] if len(words) > quick else (60, 1)
    rng = random.Random(seed)
    seen = collections.Counter()
    differ = 0
    with tempfile.TemporaryDirectory() as folder:
        heap = Heap(pathlib.Path(folder), quick)
        for number in range(count):
            if number % IMAGES_OF_A_SCRIPT == 0:
                whole = heap.make(rng)
            image = spoil(rng, whole, heap.log_bytes)
            inspected, said = compare(heap, image)
            seen[said[1].rstrip("0123456789 ") if said[0] else "a graph"] += 1
            if inspected != said:
                differ += 1
                kept = f"differ-{seed}-{number}.img"
                pathlib.Path(kept).write_bytes(image)
                print(f"{kept}: the inspector says {inspected}, the program {said}", file=sys.stderr)
    print(f"{count} images, {differ} differ: " + ", ".join(f"{n} {what}" for what, n in sorted(seen.items())))
    return differ > 0


if __name__ == "__main__":
    sys.exit(main())
