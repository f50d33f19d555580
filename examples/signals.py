#!/usr/bin/env python3
"""Sends the launcher signals while its program waits for a script: to the launcher alone, as `kill` does, and to its whole group, as ctrl-C
on a terminal does. It prints the exit status that comes of each, and whether the program is still there.

    examples/signals.py [--quick] [ROUNDS]
"""
import os
import pathlib
import signal
import subprocess
import sys
import tempfile
import time

TOP = pathlib.Path(__file__).resolve().parents[1]
SIGNALS = [signal.SIGHUP, signal.SIGINT, signal.SIGQUIT, signal.SIGTERM]


def heed_signals():
    """What a shell starts beside it ignores two of them."""
    for number in SIGNALS:
        signal.signal(number, signal.SIG_DFL)


def programs(group):
    return subprocess.run(["pgrep", "-g", str(group), "heap_shell"], capture_output=True, text=True).stdout.split()


def start(options, folder):
    words = [TOP / "heap", *options, "play", "--fresh", "1"]
    pipes = {"stdin": subprocess.PIPE, "stdout": subprocess.DEVNULL, "stderr": subprocess.DEVNULL}
    launcher = subprocess.Popen(words, cwd=folder, start_new_session=True, preexec_fn=heed_signals, **pipes)
    while not programs(launcher.pid) and launcher.poll() is None:
        time.sleep(0.02)
    return launcher


def outcome(options, folder, number, whole_group):
    launcher = start(options, folder)
    if whole_group:
        os.killpg(launcher.pid, number)
    else:
        launcher.send_signal(number)
    status = launcher.wait()
    launcher.stdin.close()
    return f"{status}, the program is {'still there' if programs(launcher.pid) else 'gone'}"


def main():
    words = sys.argv[1:]
    options = [word for word in words if word == "--quick"]
    rounds = int(words[len(options)]) if len(words) > len(options) else 3
    with tempfile.TemporaryDirectory() as folder:
        for number in SIGNALS:
            for whole_group in (False, True):
                seen = {outcome(options, folder, number, whole_group) for _ in range(rounds)}
                print(f"{number.name} to the {'group' if whole_group else 'launcher'}: status {' or '.join(sorted(seen))}")


main()
