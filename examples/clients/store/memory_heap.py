"""A plain model of the heap in this process, over which the store is tried where a file would only take time: it answers as the heap does, counts the words
of the space and about the bytes of the log, and refuses an event that a test names.

What it holds stays when its client is closed, so a store can be opened again over it."""

from typing import Dict, List, Optional, Sequence, Tuple

VOLATILE_WORDS = 4_096
MOST_FIELDS = 510
HANDLES = 64


# which events can be refused so
REFUSED_SO = {
    "exhausted": ("seal",),
    "volatilefull": ("new",),
    "logfull": ("begin", "get", "put", "clear", "link", "seal", "flip", "scan"),
    "diskfault": ("force",),
}


class Thing:
    """An object: each field is None, a number, or an object. `owner` is the transaction that makes it, until that is sealed."""

    __slots__ = ("fields", "owner")

    def __init__(self, count: int, owner: object):
        self.fields: list = [None] * count
        self.owner = owner

    @property
    def words(self) -> int:
        return 2 + len(self.fields)


class Session:
    def __init__(self) -> None:
        self.handles: Dict[int, Thing] = {}
        self.undo: List[Tuple[Thing, int, object]] = []
        self.written: List[Thing] = []
        self.words = 0


class Refusal(Exception):
    def __init__(self, word: str, *numbers: int):
        self.reply = word, numbers


class MemoryHeap:
    """A way to a heap, as `stable_heap.Pipe` is one."""

    def __init__(self, pages: int = 16_384, log_bytes: int = 1 << 30):
        self.space, self.log_bytes = 64 * pages, log_bytes
        self.top = Thing(4, None)
        self.used, self.log = self.top.words, 0
        self.sessions: Dict[int, Session] = {}
        self.events = self.commits = self.begun = self.collections = 0
        # seals that had no room
        self.exhausted = 0
        self.collecting = False
        # what the sealed transactions wrote that no force has put on the disk
        self.unforced: List[Tuple[Thing, int, object]] = []
        # the first event from this number on of which that can be the answer is refused so
        self.refused: Optional[Tuple[int, str, Tuple[int, ...]]] = None

    # ---- what the client calls

    def close(self) -> None:
        for number in list(self.sessions):
            self.abort(number)

    @staticmethod
    def spell(event):
        return ""

    def exchange_all(self, calls) -> List[Tuple[str, Sequence[int]]]:
        return [self.exchange(event) for event, _ in calls]

    def exchange(self, event) -> Tuple[str, Sequence[int]]:
        session, name, numbers = event
        self.events += 1
        try:
            if self.refused is not None and self.events >= self.refused[0] and name in REFUSED_SO[self.refused[1]]:
                word, numbers = self.refused[1:]
                self.refused = None
                if word == "diskfault" and self.events % 2:
                    self.take_back(self.unforced)
                raise Refusal(word, *numbers)
            return getattr(self, name)(*([session] if session else []), *numbers)
        except Refusal as refusal:
            return refusal.reply

    # ---- events

    def write_log(self, count: int, kept: int) -> None:
        """Writes so many bytes into the log, in which there has to be room for so many others besides."""
        if self.log + count + kept > self.log_bytes:
            raise Refusal("logfull", self.log, count, kept)
        self.log += count

    def kept(self, but=None) -> int:
        """The bytes that are kept for the ends of transactions, but of that one."""
        return sum(10 + 19 * len(it.undo) for it in self.sessions.values() if it is not but)

    def begin(self, session):
        if session in self.sessions:
            raise Refusal("alreadyactive")
        self.write_log(0, self.kept() + 10)
        self.sessions[session] = Session()
        self.begun += 1
        return "begun", [self.begun]

    def held(self, session, handle) -> Thing:
        if handle not in self.sessions[session].handles:
            raise Refusal("badhandle")
        return self.sessions[session].handles[handle]

    def hold(self, session, handle, thing):
        if handle >= HANDLES:
            raise Refusal("badhandle")
        self.sessions[session].handles[handle] = thing

    def root(self, session, handle):
        self.hold(session, handle, self.top)
        return "done", []

    def new(self, session, handle, count):
        mine = self.sessions[session]
        if count > MOST_FIELDS:
            raise Refusal("range")
        if mine.words + 2 + count > VOLATILE_WORDS:
            raise Refusal("volatilefull", mine.words)
        mine.words += 2 + count
        self.hold(session, handle, Thing(count, mine))
        return "done", []

    def write(self, session, handle, field, value):
        thing, mine = self.held(session, handle), self.sessions[session]
        if field >= len(thing.fields):
            raise Refusal("badfield")
        if thing.owner is None:
            self.write_log(27, self.kept() + 19)
            mine.undo.append((thing, field, thing.fields[field]))
            mine.written.append(thing)
        assert thing.owner in (None, mine)
        thing.fields[field] = value
        return "done", []

    def put(self, session, handle, field, number):
        if number >= 2**62:
            raise Refusal("range")
        return self.write(session, handle, field, number)

    def clear(self, session, handle, field):
        return self.write(session, handle, field, None)

    def link(self, session, handle, field, other):
        return self.write(session, handle, field, self.held(session, other))

    def drop(self, session, handle):
        self.sessions[session].handles.pop(handle, None)
        return "done", []

    def get(self, session, handle, field, other):
        thing = self.held(session, handle)
        if field >= len(thing.fields):
            raise Refusal("badfield")
        value = thing.fields[field]
        if value is None:
            return "null", []
        if isinstance(value, int):
            return "int", [value]
        self.hold(session, other, value)
        return "ref", []

    def same(self, session, handle, other):
        return ("yes" if self.held(session, handle) is self.held(session, other) else "no"), []

    def len(self, session, handle):
        return "len", [len(self.held(session, handle).fields)]

    def seal(self, session):
        mine = self.sessions[session]
        promoted: List[Thing] = []
        seen = set()
        waiting = list(mine.written)
        while waiting:
            for value in waiting.pop().fields:
                if isinstance(value, Thing) and value.owner is mine and id(value) not in seen:
                    seen.add(id(value))
                    promoted.append(value)
                    waiting.append(value)
        need = sum(thing.words for thing in promoted)
        if need > self.space - self.used:
            self.exhausted += 1
            raise Refusal("exhausted", need, self.space - self.used, 0)
        self.write_log(5 + sum(9 + 8 * thing.words for thing in promoted), self.kept(but=mine))
        for thing in promoted:
            thing.owner = None
        self.used += need
        self.unforced += self.sessions.pop(session).undo
        self.commits += 1
        return "sealed", [self.commits]

    def abort(self, session):
        undo = self.sessions.pop(session).undo
        self.log += 5 + 19 * len(undo)
        self.take_back(undo)
        return "aborted", []

    @staticmethod
    def take_back(undo):
        while undo:
            thing, field, value = undo.pop()
            thing.fields[field] = value

    def force(self):
        self.unforced.clear()
        return "durable", [self.commits]

    def flush(self, page):
        return "clean", [page]

    def reopen(self):
        return ("unfinished", []) if self.sessions else ("closed", [])

    def flip(self):
        if self.collecting:
            return "collecting", []
        self.collecting = True
        return "flipped", [0]

    def scan(self):
        """A collection that does all at once."""
        if not self.collecting:
            return "idle", []
        self.collecting = False
        self.used = sum(thing.words for thing in self.reached())
        self.collections += 1
        return "collected", [self.used]

    def reached(self) -> List[Thing]:
        found, seen = [self.top], {id(self.top)}
        for thing in found:
            for value in thing.fields:
                if isinstance(value, Thing) and id(value) not in seen:
                    seen.add(id(value))
                    found.append(value)
        return found
