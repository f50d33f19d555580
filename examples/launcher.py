#!/usr/bin/env python3
"""Tries the launcher on a repository of five crates, with a stand-in for the toolchain that proves nothing: when the program is proved and built, what
is said where it can't be, and what a signal leaves. It prints, for each run, its exit status, what was asked of the toolchain, and what was said.

    examples/launcher.py
"""
import os
import pathlib
import re
import shutil
import signal
import subprocess
import tempfile
import time

TOP = pathlib.Path(__file__).resolve().parents[1]
CRATES = "low:\nleft: low\nright: low\nheap_shell: left right\nproved_tests: heap_shell\n"

# What it does is told by the file `mode`. It writes what it was asked, and where.
RT = r"""#!/bin/bash
here=$(dirname "$0") mode=$(cat "$(dirname "$0")/mode")
echo "$(basename "$PWD"): $*" >>"$here/asked"

proves() { for name in low left right heap_shell; do printf '== %s\nfn %s::f: proved\nlogic=proved functions=1\n' $name $name; done; }

check() {
    case "$mode" in
    refuses) printf '== low\nfn low::f: no proof\nfn low::g: proved\nlogic=not-proved\n' && exec sleep 600 ;;
    waits) exec sleep 600 ;;
    slow) sleep 1 && proves ;;
    edited) echo "// one more" >>../low/src/lib.rt && proves ;;
    short) echo proves >"$here/mode" && { printf '== low\n== summary\nlow: failed (-9)\nleft: not run, since low failed\n' && return 1; } ;;
    *) proves ;;
    esac
}

run() {
    [ "$mode" != unlinked ] || { echo "the linker failed" && return 1; }
    mkdir -p out && printf '#!/bin/sh\necho "$*"\n' >out/heap_shell && chmod +x out/heap_shell
    echo "usage: heap_shell" >&2 && return 2
}

case "$1" in
all) check "$4" ;;
run) run ;;
esac
"""


class Repository:
    def __init__(self, folder):
        self.folder = folder
        shutil.copy(TOP / "heap", folder)
        shutil.copytree(TOP / "tools" / "launcher", folder / "tools" / "launcher")
        (folder / "crates.txt").write_text(CRATES)
        (folder / "HANDLES").write_text("Handles allowed: none.\n")
        for line in CRATES.splitlines():
            source = folder / "crates" / line.partition(":")[0] / "src"
            source.mkdir(parents=True)
            (source / "lib.rt").touch()
        (folder / "kit").mkdir()
        (folder / "kit" / "rt").write_text(RT)
        (folder / "kit" / "rt").chmod(0o755)

    def start(self, mode):
        (self.folder / "kit" / "mode").write_text(mode)
        environment = {**os.environ, "PATH": f"{self.folder / 'kit'}:{os.environ['PATH']}"}
        pipes = {"stdin": subprocess.DEVNULL, "stdout": subprocess.PIPE, "stderr": subprocess.PIPE, "text": True}
        return subprocess.Popen([self.folder / "heap", "graph"], cwd=self.folder, env=environment, start_new_session=True, preexec_fn=heed_signals, **pipes)

    def start_proving(self, mode):
        """The launcher, when it has asked something of the toolchain."""
        launcher = self.start(mode)
        while not (self.folder / "kit" / "asked").exists():
            time.sleep(0.02)
        return launcher

    def asked(self):
        """What was asked of the toolchain since the last call."""
        file = self.folder / "kit" / "asked"
        lines = file.read_text().splitlines() if file.exists() else []
        file.unlink(missing_ok=True)
        return [re.sub(r"--jobs \d+", "--jobs N", line) for line in lines]

    def append(self, file, text):
        with open(self.folder / file, "a") as it:
            it.write(text)


def heed_signals():
    """What a shell starts beside it ignores two of them."""
    for number in (signal.SIGHUP, signal.SIGINT, signal.SIGQUIT, signal.SIGTERM):
        signal.signal(number, signal.SIG_DFL)


def left_behind(group):
    """What is there of the launcher's group some seconds after it ended."""
    for _ in range(100):
        left = subprocess.run(["pgrep", "-g", str(group)], capture_output=True, text=True).stdout.split()
        if not left:
            break
        time.sleep(0.05)
    return left


def tell(what, repository, *launchers):
    print(f"{what}:")
    for launcher in launchers:
        said = [line for text in launcher.communicate() for line in text.splitlines()]
        print(f"    status {launcher.returncode}", *[plain(line, repository.folder) for line in said], sep="\n    ")
    print("    asked of rt:", "; ".join(repository.asked()) or "nothing")


def plain(line, folder):
    """The line, without what differs between machines."""
    return re.sub(r"\d+ at once", "N at once", line.replace(str(folder), "."))


def play(what, repository, mode="proves"):
    tell(what, repository, repository.start(mode))


def build(repository):
    play("the first run", repository)
    play("the next one", repository)
    repository.append("crates/low/src/lib.rt", "// an edit\n")
    play("after an edit below the program", repository)
    repository.append("crates/proved_tests/src/lib.rt", "// an edit\n")
    repository.append("crates.txt", "more_tests: heap_shell proved_tests\n")
    play("after an edit of a test, and one more crate of tests", repository)
    (repository.folder / "crates.txt").write_text(CRATES.replace("right: low", "right may_wait=1: low"))
    play("after a change in a line of crates.txt below the program", repository)
    repository.append("HANDLES", "\n")
    play("after a change of HANDLES", repository)


def fail(repository):
    repository.append("crates/left/src/lib.rt", "// an edit\n")
    play("a crate is refused", repository, "refuses")
    play("the program can't be linked", repository, "unlinked")
    play("a source changes meanwhile", repository, "edited")
    play("a check is killed", repository, "short")
    play("the next one", repository)


def interrupt(repository):
    repository.append("crates/left/src/lib.rt", "// an edit\n")
    for number in (signal.SIGHUP, signal.SIGINT, signal.SIGQUIT, signal.SIGTERM):
        launcher = repository.start_proving("waits")
        launcher.send_signal(number)
        tell(f"{number.name} while crates are proved", repository, launcher)
        print("    left behind:", len(left_behind(launcher.pid)))
    tell("two at the same time", repository, repository.start_proving("slow"), repository.start("slow"))


def main():
    with tempfile.TemporaryDirectory() as folder:
        repository = Repository(pathlib.Path(folder).resolve())
        build(repository)
        fail(repository)
        interrupt(repository)


main()
