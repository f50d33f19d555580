#!/usr/bin/env python3
"""Plays the events that drawn.c printed, on a new heap of its sizes in the current folder: the program has to answer each as it was answered there.

    played.py PROGRAM < DRAWN
"""
import pathlib
import subprocess
import sys

sys.dont_write_bytecode = True
sys.path.insert(0, str(pathlib.Path(__file__).resolve().parents[2] / "clients/python"))

from stable_heap import EVENTS, REPLY_WORDS  # noqa: E402

PAGES, LOG_BYTES = 4, 16_384
# how many numbers go with each event, and which events are of no session
NUMBERS = dict(zip(EVENTS, [0, 1, 2, 3, 2, 3, 1, 3, 2, 1, 0, 0, 0, 1, 0, 0]))
OF_NONE = ("force", "flush", "flip", "scan")


def line_of(drawn):
    """An event and its answer, as the program prints them."""
    asked, answered = ([int(it) for it in side.split()] for side in drawn.split(" -> "))
    (op, session, *numbers), (code, *said) = asked, answered
    event, (word, count) = EVENTS[op - 32], REPLY_WORDS[code]
    shown = " ".join(map(str, [event, *numbers[: NUMBERS[event]]]))
    # (a number that is read is said behind `int`, the length behind `len`)
    reply = " ".join(map(str, [word, *said[:count]]))
    return (shown if event in OF_NONE else f"{session} {shown}") + f" -> {reply}"


def main():
    program = sys.argv[1]
    wanted = [line_of(it) for it in sys.stdin.read().splitlines()]
    script = "".join(it.split(" -> ")[0] + "\n" for it in wanted)
    pathlib.Path("heap.img").unlink(missing_ok=True)
    subprocess.run([program, "format", str(PAGES), str(LOG_BYTES), "1"], check=True, capture_output=True)
    played = subprocess.run([program, "play"], input=script, capture_output=True, text=True, check=True).stdout.splitlines()
    for place, (was, now) in enumerate(zip(wanted, played), 1):
        if was != now:
            sys.exit(f"event {place}: the library answered\n{was}\nand the program\n{now}")
    if len(played) < len(wanted):
        sys.exit("the program answered too few")


main()
