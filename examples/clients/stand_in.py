#!/usr/bin/env python3
"""Stands in for the launcher where a client is tried without the program: a plain model of the heap, which answers as it does.

    examples/clients/stand_in.py format PAGES LOGBYTES FIRST
    examples/clients/stand_in.py session

Its file `heap.img` is a text of its own, which no heap is. Where the variable HEAP_LINES names a file it writes its answers there too, so
that the program can be asked the same. It counts no bytes of a log, and keeps what was forced only while no transaction is active.
"""
import fcntl
import json
import os
import re
import sys

VOLATILE_WORDS = 4_096
CALLS = "begin|seal|abort|(root|drop|len) N|(new|clear|same) N N|(put|link|get) N N N"
LINE = re.compile(f"force|flip|scan|flush N|([1-9]|[12][0-9]|3[0-2]) ({CALLS})".replace("N", "[0-9]{1,19}"))


class Refused(Exception):
    """A reply that refuses a call."""


class Transaction:
    def __init__(self, number):
        self.number = number
        self.handles = {}
        self.fresh = set()
        self.undo = []
        self.locks = {}
        self.words = 0


class Model:
    """Objects by number, the root being 0: a field is None, a number, or a list with an object's number."""

    def __init__(self, pages, first, objects):
        self.pages, self.next_number = pages, first
        self.objects = objects
        self.active = {}
        self.sealed = 0
        self.pending = False
        self.pages_to_scan = None

    def transaction(self, session):
        if session not in self.active:
            raise Refused("notactive")
        return self.active[session]

    def held(self, session, handle):
        handles = self.transaction(session).handles
        if handle not in handles:
            raise Refused("badhandle")
        return handles[handle]

    def target(self, session, handle):
        """A handle that is to be filled."""
        transaction = self.transaction(session)
        if handle > 63:
            raise Refused("badhandle")
        return transaction

    def lock(self, session, thing, exclusive):
        mine = self.transaction(session)
        rivals = [t.number for t in self.active.values() if t is not mine and thing in t.locks and (exclusive or t.locks[thing])]
        if rivals:
            raise Refused(f"busy {min(rivals)}")
        mine.locks[thing] = mine.locks.get(thing, False) or exclusive

    def check_field(self, thing, field):
        if field >= len(self.objects[thing]):
            raise Refused("badfield")

    def write(self, session, thing, field, value):
        self.check_field(thing, field)
        self.lock(session, thing, True)
        transaction = self.transaction(session)
        transaction.undo.append((thing, field, self.objects[thing][field]))
        self.objects[thing][field] = value
        self.pending = self.pending or thing not in transaction.fresh
        return "done"

    def begin(self, session):
        if session in self.active:
            raise Refused("alreadyactive")
        self.active[session] = Transaction(self.next_number)
        self.next_number += 1
        return f"begun {self.next_number - 1}"

    def root(self, session, handle):
        self.target(session, handle).handles[handle] = 0
        return "done"

    def new(self, session, handle, fields):
        transaction = self.target(session, handle)
        if fields > 510:
            raise Refused("range")
        if transaction.words + 2 + fields > VOLATILE_WORDS:
            raise Refused(f"volatilefull {transaction.words}")
        transaction.words += 2 + fields
        thing = max(self.objects) + 1
        self.objects[thing] = [None] * fields
        transaction.fresh.add(thing)
        transaction.handles[handle] = thing
        return "done"

    def put(self, session, handle, field, number):
        thing = self.held(session, handle)
        if number >= 2**62:
            raise Refused("range")
        return self.write(session, thing, field, number)

    def clear(self, session, handle, field):
        return self.write(session, self.held(session, handle), field, None)

    def link(self, session, handle, field, other):
        thing, referred = self.held(session, handle), self.held(session, other)
        return self.write(session, thing, field, [referred])

    def drop(self, session, handle):
        self.target(session, handle).handles.pop(handle, None)
        return "done"

    def get(self, session, handle, field, other):
        thing = self.held(session, handle)
        transaction = self.target(session, other)
        self.check_field(thing, field)
        self.lock(session, thing, False)
        value = self.objects[thing][field]
        if value is None:
            return "null"
        if isinstance(value, int):
            return f"int {value}"
        transaction.handles[other] = value[0]
        return "ref"

    def same(self, session, handle, other):
        return "yes" if self.held(session, handle) == self.held(session, other) else "no"

    def len(self, session, handle):
        return f"len {len(self.objects[self.held(session, handle)])}"

    def reached(self, wanted):
        """The objects that are reached from the root, through those only that are wanted."""
        seen, todo = {0}, [0]
        while todo:
            for field in self.objects[todo.pop()]:
                if isinstance(field, list) and field[0] not in seen and wanted(field[0]):
                    seen.add(field[0])
                    todo.append(field[0])
        return seen

    def seal(self, session):
        transaction = self.transaction(session)
        lost = transaction.fresh - self.reached(lambda thing: True)
        need = sum(2 + len(self.objects[thing]) for thing in transaction.fresh - lost)
        others = set().union(*(t.fresh for t in self.active.values()))
        used = sum(2 + len(fields) for thing, fields in self.objects.items() if thing not in others)
        free = 64 * self.pages - used
        if need > free:
            raise Refused(f"exhausted {need} {free} 0")
        del self.active[session]
        for thing in lost:
            del self.objects[thing]
        self.sealed += 1
        self.pending = True
        return f"sealed {self.sealed}"

    def abort(self, session):
        transaction = self.transaction(session)
        for thing, field, value in reversed(transaction.undo):
            self.objects[thing][field] = value
        for thing in transaction.fresh:
            del self.objects[thing]
        del self.active[session]
        self.pending = True
        return "aborted"

    def force(self):
        self.pending = False
        return f"durable {self.sealed}"

    def flush(self, page):
        return f"clean {page}" if page < 2 * self.pages else "nosuchpage"

    def flip(self):
        """A collection that copies all at once, and has one page to scan."""
        if self.pages_to_scan is not None:
            return "collecting"
        self.pages_to_scan, self.pending = 1, True
        return f"flipped {len(self.objects)} {self.words_of(self.objects)}"

    def scan(self):
        if self.pages_to_scan is None:
            return "idle"
        self.pending = True
        if self.pages_to_scan:
            self.pages_to_scan = 0
            return f"scanned {self.pages} 0 0"
        self.pages_to_scan = None
        return f"collected {self.words_of(self.objects)}"

    def words_of(self, things):
        return sum(2 + len(self.objects[thing]) for thing in things)

    def answer(self, line):
        words = [int(word) if word.isdigit() else word for word in line.split()]
        if isinstance(words[0], int):
            words[0], words[1] = words[1], words[0]
        try:
            return getattr(self, words[0])(*words[1:])
        except Refused as refused:
            return str(refused)


def say(line):
    print(line, flush=True)


def reopen(model):
    """Whether the heap was closed and opened again: not while a transaction is active or something is not forced."""
    if model.active or model.pending:
        return False
    model.sealed = 0
    return True


def serve(model, keep, answers):
    """Answers the lines, and keeps the objects at each force, where no transaction has changed them."""
    number = 0
    for line in sys.stdin:
        line = line.rstrip("\n")
        number += 1
        if line == "reopen":
            opened = reopen(model)
            say(f"reopen -> {'closed' if opened else 'unfinished'}")
            number = 0 if opened else number
            continue
        if not LINE.fullmatch(line):
            say(f"script fault at line {number}")
            continue
        reply = model.answer(line)
        print(f"{line} -> {reply}", file=answers, flush=True)
        if line == "force" and not model.active:
            keep(model)
        say(f"{line} -> {reply}")
    for session in sorted(model.active):
        say(f"{session} abort -> {model.abort(session)}")
    if model.pending:
        say(f"force -> {model.force()}")
    keep(model)


def session():
    with open("heap.img", "r+", encoding="ascii") as file:
        fcntl.flock(file, fcntl.LOCK_EX | fcntl.LOCK_NB)
        kept = json.load(file)
        objects = {int(thing): fields for thing, fields in kept["objects"].items()}

        def keep(model):
            kept.update(first=model.next_number, objects=model.objects)
            file.seek(0)
            json.dump(kept, file)
            file.truncate()
            file.flush()

        with open(os.environ.get("HEAP_LINES", os.devnull), "a", encoding="ascii") as answers:
            serve(Model(kept["pages"], kept["first"], objects), keep, answers)


def main():
    words = sys.argv[1:]
    if words[0] == "format":
        pages, _, first = map(int, words[1:])
        with open("heap.img", "w", encoding="ascii") as file:
            json.dump({"pages": pages, "first": first, "objects": {0: [None] * 4}}, file)
        return 0
    try:
        session()
    except BlockingIOError:
        print("in use", file=sys.stderr)
        return 10
    except ValueError:
        print("not a heap", file=sys.stderr)
        return 7
    return 0


if __name__ == "__main__":
    sys.exit(main())
