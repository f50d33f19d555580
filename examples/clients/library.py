"""Kills a program that counts in the library's heap, and has its calls on the file fail.

    library.py COUNTER FAULTS ROUNDS

COUNTER is counter.c over the library, FAULTS is faults.c as a shared object. It works in the current folder, and prints what it found."""
import collections
import os
import random
import shutil
import subprocess
import sys
import time

DISK_FAULT, NOT_A_HEAP = 13, 15


def new_folder():
    shutil.rmtree("counted", ignore_errors=True)
    os.mkdir("counted")


def new_heap(counter):
    """A new folder, with a heap that holds the number 2."""
    new_folder()
    subprocess.run([counter, "counted", "2", "-"], check=True, capture_output=True)


def found(counter):
    """What a new run finds."""
    run = subprocess.run([counter, "counted", "0", "-"], capture_output=True, text=True)
    assert run.returncode == 0, run.stdout
    return int(run.stdout.split()[1])


def numbers(text):
    """The whole lines that are numbers: what was said to be durable."""
    lines = text.split("\n")[:-1]
    return [int(line) for line in lines if line.isdigit()]


def killed(counter, rounds):
    """Kills it again and again. Each run has to find what the one before it said, or one more."""
    new_heap(counter)
    last, most = 2, 0
    for _ in range(rounds):
        with subprocess.Popen([counter, "counted", "1000000", "-"], stdout=subprocess.PIPE, text=True) as run:
            time.sleep(random.uniform(0, 0.03))
            run.kill()
            said = numbers(run.stdout.read())
        if said:
            assert said[0] >= last + 1, (said[0], last)
            last = said[-1]
        now = found(counter)
        assert last <= now <= last + 1, (now, last)
        last = now
        most = max(most, len(said))
        if last > 20000:
            new_heap(counter)
            last = 2
    print(f"{rounds} runs were killed: each kept what it had said" + ("" if most > 1 else ", but none said two numbers"))


def with_fault(counter, faults, at, kind):
    """One run with a fault, and the lines of its calls."""
    if os.path.exists("calls"):
        os.remove("calls")
    env = dict(os.environ, LD_PRELOAD=os.path.abspath(faults), FAULT_AT=str(at), FAULT_KIND=kind, FAULT_LOG="calls")
    run = subprocess.run([counter, "counted", "3", "-"], capture_output=True, text=True, env=env)
    with open("calls", encoding="ascii") as calls:
        return run.stdout, calls.read().split("\n")[:-1]


def stops_at_fault(said, calls):
    """Looks that a run ended with the fault that it had, and says whether it had one."""
    assert not any(call.startswith("failed") for call in calls[:-1]), "a call was made after one that failed"
    faulty = calls[-1].startswith("failed")
    if faulty and "refused" in said:
        assert f"refused {DISK_FAULT}, and then {DISK_FAULT}\n" in said, said
    elif faulty:
        assert said == f"closed {DISK_FAULT}\n", said
    return faulty


def failing(counter, faults, kind):
    """A heap that holds a number, and then the Nth call of a run fails, for each N. Which calls that were."""
    failed, faulty = [], True
    while faulty:
        new_heap(counter)
        said, calls = with_fault(counter, faults, len(failed) + 1, kind)
        faulty = stops_at_fault(said, calls)
        failed += [calls[-1].split()[0].split("-")[-1]] * faulty
        last = max([2] + numbers(said))
        assert last <= found(counter) <= last + 1, (found(counter), last)
    return failed


def never_made(counter, faults):
    """The Nth call fails where there was no heap: afterwards there is none, or one with what was said. Where the file is no heap it was left as it was."""
    at, faulty = 0, True
    while faulty:
        at += 1
        new_folder()
        said, calls = with_fault(counter, faults, at, "eio")
        faulty = stops_at_fault(said, calls)
        again = subprocess.run([counter, "counted", "0", "-"], capture_output=True, text=True).stdout
        last = max([0] + numbers(said))
        assert again in (f"found {last}\n", f"found {last + 1}\n") or (not last and again == f"closed {NOT_A_HEAP}\n"), (said, again)


def short(counter, faults, calls):
    """What was read or written in part is read or written whole."""
    for at in range(1, calls + 1):
        new_heap(counter)
        said, _ = with_fault(counter, faults, at, "short")
        assert numbers(said) == [3, 4, 5] and found(counter) == 5, said


def main():
    counter, faults, rounds = sys.argv[1], sys.argv[2], int(sys.argv[3])
    killed(counter, rounds)
    for kind in ("eio", "enospc"):
        failed = failing(counter, faults, kind)
        each = ", ".join(f"{count} {call}" for call, count in sorted(collections.Counter(failed).items()))
        print(f"{len(failed)} calls failed with {kind} ({each}): none was made after it, and what was said is there")
    never_made(counter, faults)
    print("calls failed where the heap was made: then there is none, or one with what was said")
    short(counter, faults, len(failed))
    print("reads and writes that were cut short were made whole")


main()
