#!/usr/bin/env python3
"""Uses the program on a terminal, and prints what the launcher says before the first line of a script that is typed there, what is answered, and how
far a long load says that it is, which it does on no pipe.

    examples/terminal.py [--quick]
"""
import os
import pathlib
import pty
import subprocess
import sys
import tempfile

TOP = pathlib.Path(__file__).resolve().parents[1]
LOAD = ["load", "1", "1000", "--fresh", "64"]


def launch(folder, words, **streams):
    return subprocess.Popen([TOP / "heap", *sys.argv[1:], *words], cwd=folder, text=True, **streams)


def all_of(keyboard):
    """What was written to the terminal until the last program that had it ended."""
    said = b""
    while True:
        try:
            said += os.read(keyboard, 4096)
        except OSError:
            return said.decode()


def type_script(folder):
    keyboard, terminal = pty.openpty()
    launcher = launch(folder, ["play", "--fresh", "1"], stdin=terminal, stdout=subprocess.PIPE, stderr=subprocess.PIPE)
    said = launcher.stderr.readline()
    while said and "ctrl-D" not in said:
        said = launcher.stderr.readline()
    print(said, end="")
    os.write(keyboard, b"1 begin\n\x04")
    print(launcher.communicate()[0], end="")


def watch_load(folder):
    keyboard, terminal = pty.openpty()
    launcher = launch(folder, LOAD, stdin=subprocess.DEVNULL, stdout=subprocess.PIPE, stderr=terminal)
    os.close(terminal)
    said = [line.strip() for line in all_of(keyboard).splitlines() if line.strip().endswith("rounds")]
    print(*said, launcher.communicate()[0], sep="\n", end="")
    unwatched = launch(folder, LOAD, stdin=subprocess.DEVNULL, stdout=subprocess.DEVNULL, stderr=subprocess.PIPE)
    print("on a pipe:", sum(line.endswith("rounds\n") for line in unwatched.stderr))


def main():
    with tempfile.TemporaryDirectory() as folder:
        type_script(folder)
        watch_load(folder)


main()
