"""A client of the stable heap: a crash-safe heap of objects in a file, with atomic transactions.

    from stable_heap import Heap

    with Heap.open("notes") as heap:
        with heap.transaction() as t:
            note = t.new(2)
            note.put(0, 7)
            t.root.link(0, note)

The heap is the file `heap.img` of a folder. A process of its own, `heap session`, works on it: this module sends it one line for each call
and reads the answer. So the heap keeps its guarantee whatever this program does: if it dies, that is a crash of the heap's client, and what
was committed is there. With `Heap.open(folder, here=True)` the heap is in this program's own process, by the library of `clients/lib`: a call is then
many times as fast, and what overwrites the program's memory can spoil the heap. With `buffered=True` a transaction keeps its writes, and makes them
together before its next read and at its end.

A transaction that ends without an exception is committed, and is on the disk when its `with` is left; one that ends with an exception is
aborted. A call that the heap refuses is an exception, a `Refused`. A transaction of which a call was refused can't be committed, also if
the exception was caught: at its end it is aborted, and the refusal is raised again.

Threads may share a heap: each transaction has a session of its own, of which there are 32.
"""

import ctypes
import operator
import os
import pathlib
import random
import struct
import subprocess
import threading
import time
from types import TracebackType
from typing import Any, Callable, Dict, List, Optional, Sequence, Tuple, Type, TypeVar, Union

__all__ = [
    "AlreadyActive",
    "BadField",
    "BadHandle",
    "Busy",
    "Damaged",
    "DiskFault",
    "Ended",
    "Exhausted",
    "Heap",
    "HeapError",
    "InUse",
    "LogFull",
    "NoMemory",
    "NoSuchPage",
    "NotAHeap",
    "NotActive",
    "NumbersSpent",
    "Object",
    "OutOfHandles",
    "OutOfRange",
    "Protocol",
    "Refused",
    "Transaction",
    "Unfinished",
    "VolatileFull",
]

HANDLES = 64
SESSIONS = 32
# so many writes of a transaction are kept at most, and so many lines are sent before the first answer is read, which fit in the pipe together
MOST_KEPT = 200
LAUNCHER = pathlib.Path(__file__).resolve().parents[3] / "heap"
# where the library is looked for, in this order: what the variable STABLE_HEAP_LIBRARY names, a file beside this one, what `make -C clients/lib` made
LIBRARIES: List[Union[str, pathlib.Path]] = [
    os.environ.get("STABLE_HEAP_LIBRARY", ""),
    pathlib.Path(__file__).resolve().parent / "libstable_heap.so",
    pathlib.Path(__file__).resolve().parents[2] / "lib/build/libstable_heap.so",
]

STATUSES = {1: "out of memory", 6: "the disk failed", 7: "not a heap", 8: "damaged", 10: "in use", 70: "the program can't be built"}

Result = TypeVar("Result")
Value = Union[None, int, "Object"]


class HeapError(Exception):
    """The root of all errors of this module."""


class Protocol(HeapError):
    """The session's process answered what it should not, or a call came after the end of its transaction or heap."""


class OutOfHandles(HeapError):
    """The transaction holds 64 objects. An object that is dropped, or to which no variable refers any more, frees its handle."""


class Ended(HeapError):
    """The session's process has ended, with this exit status. What it said is on standard error."""

    def __init__(self, status: int):
        super().__init__(f"the heap's process ended with status {status}: {STATUSES.get(status, 'see standard error')}")
        self.status = status


class InUse(Ended):
    """Another program has the heap open."""


class DiskFault(Ended):
    """The file can't be read or written. What is on the disk is known when the heap is opened again; after
    a failed sync of a real file the safe course is to end this process too."""


class NotAHeap(Ended):
    """The file holds no heap."""


class Damaged(Ended):
    """The heap is damaged. Standard error has the place, and `tools/heap_inspect` more."""


class Refused(HeapError):
    """A call that the heap refused, and that changed nothing: the call, the heap's word for the reason, and its numbers."""

    def __init__(self, event: str, word: str, numbers: Sequence[int]):
        super().__init__(f"{event} -> {' '.join([word, *map(str, numbers)])}")
        self.event, self.word, self.numbers = event, word, tuple(numbers)


class Busy(Refused):
    """Another transaction has locked the object: `holder` is its number. The call may succeed once that transaction has ended."""

    @property
    def holder(self) -> int:
        return self.numbers[0]


class LogFull(Refused):
    """The log has no room: `numbers` are its used bytes, those that are needed, and those that are kept for the ends of transactions."""


class Exhausted(Refused):
    """The space has no room for the new objects: `numbers` are the words needed, those that are free, and those that are owed."""


class VolatileFull(Refused):
    """The transaction has no room for a new object: `numbers` is how many of its 4,096 words are used."""


class OutOfRange(Refused):
    """A number that is negative, one in a field that is not below 2^62, or an object of more than 510 fields."""


class BadField(Refused):
    """The object has no such field."""


class BadHandle(Refused):
    """The handle holds no object."""


class NoSuchPage(Refused):
    """The heap has no such page."""


class NotActive(Refused):
    """The session has no transaction."""


class AlreadyActive(Refused):
    """The session has a transaction."""


class NumbersSpent(Refused):
    """All transaction numbers are used."""


class Unfinished(Refused):
    """The heap can't be opened again now: a transaction is active, or was sealed and not forced."""


class NoMemory(Refused):
    """There is no memory for the call, of a heap in this process. It may be made again, in a new transaction, once there is."""


REFUSALS: Dict[str, Type[Refused]] = {
    "busy": Busy,
    "logfull": LogFull,
    "exhausted": Exhausted,
    "volatilefull": VolatileFull,
    "range": OutOfRange,
    "badfield": BadField,
    "badhandle": BadHandle,
    "nosuchpage": NoSuchPage,
    "notactive": NotActive,
    "alreadyactive": AlreadyActive,
    "numbersspent": NumbersSpent,
    "unfinished": Unfinished,
    "nomemory": NoMemory,
}
FAULTS = ("diskfault", "stopped", "failed")
UNDONE = {*REFUSALS, *FAULTS}
ENDS: Dict[int, Type[Ended]] = {6: DiskFault, 7: NotAHeap, 8: Damaged, 10: InUse}

# a call of the heap: the session, or 0 where it has none, its name, and its numbers
Event = Tuple[int, str, Sequence[int]]
# the same beside what a way to the heap makes of it, a line or bytes, which nothing else reads
Spelled = Tuple[Event, Any]
# the word of an answer, and its numbers
Reply = Tuple[str, Sequence[int]]


def line_of(event: Event) -> str:
    session, name, numbers = event
    return " ".join(map(str, [session, name, *numbers] if session else [name, *numbers]))


def whole(event: Event) -> Event:
    """The event with whole numbers. What is none is a TypeError; the heap can't be asked with a number out of all limits, which is OutOfRange."""
    session, name, numbers = event
    event = session, name, [int(operator.index(number)) for number in numbers]
    if any(not 0 <= number < 2**64 for number in event[2]):
        raise OutOfRange(line_of(event), "range", [])
    return event


def judged(event: Event, reply: Reply) -> Reply:
    """The reply, unless it is a refusal or a fault."""
    word, numbers = reply
    if word not in UNDONE:
        return reply
    if word in FAULTS:
        raise DiskFault(6)
    raise REFUSALS[word](line_of(event), word, numbers)


def from_here(command: Sequence[str]) -> List[str]:
    """The command, whose program, where it is named by a path, is found from another folder too."""
    program, *options = command
    return [str(pathlib.Path(program).resolve()) if "/" in program else program, *options]


class Object:
    """An object, as its transaction sees it. It is good until that transaction ends; a later one finds it again from the root."""

    def __init__(self, transaction: "Transaction", handle: int):
        self._transaction = transaction
        self._handle: Optional[int] = handle

    def get(self, field: int) -> Value:
        """What the field holds: None, a number, or an object."""
        return self._transaction._get(self._named(), field)

    def put(self, field: int, number: int) -> None:
        """The field is to hold the number, from 0 to 2^62 - 1."""
        self._transaction._do("put", self._named(), field, number)

    def follow(self, field: int) -> "Object":
        """What the field refers to. It does not wait for the answer where writes are kept, so the field has to be known to refer to an object: where
        it doesn't, a later call by the object that is returned is a BadHandle, or is made on another one."""
        return self._transaction._follow(self._named(), field)

    def clear(self, field: int) -> None:
        """The field is to hold nothing."""
        self._transaction._do("clear", self._named(), field)

    def link(self, field: int, other: "Object") -> None:
        """The field is to refer to the other object, which is of the same transaction."""
        self._transaction._do("link", self._named(), field, self._beside(other))

    def same(self, other: "Object") -> bool:
        """Whether both are the same object."""
        return self._transaction._ask("same", self._named(), self._beside(other))[0] == "yes"

    def __len__(self) -> int:
        """How many fields it has."""
        return self._transaction._ask("len", self._named())[1][0]

    def __bool__(self) -> bool:
        return True

    def drop(self) -> None:
        """Frees the object's handle. The object stays, and can't be used by this name any more."""
        handle = self._named()
        self._transaction._do("drop", handle)
        self._let_go()

    def __del__(self) -> None:
        self._let_go()

    def _let_go(self) -> None:
        if self._handle is not None:
            self._transaction._free.append(self._handle)
            self._handle = None

    def _named(self) -> int:
        if self._handle is None:
            raise Protocol("this object was dropped")
        return self._handle

    def _beside(self, other: "Object") -> int:
        if other._transaction is not self._transaction:
            raise Protocol("the two objects are of different transactions")
        return other._named()


class Transaction:
    """A transaction, which `with` ends: `with heap.transaction() as t:`."""

    def __init__(self, heap: "Heap", durable: bool):
        self._heap = heap
        self._durable = durable
        self._free: List[int] = list(range(HANDLES))
        self._root: Optional[Object] = None
        self._refusal: Optional[Refused] = None
        self._writes: List[Spelled] = []
        self._session: Optional[int] = None
        self.number: Optional[int] = None

    def __enter__(self) -> "Transaction":
        self._session = self._heap._take_session()
        try:
            self.number = self._ask("begin")[1][0]
        except BaseException:
            self._leave()
            raise
        return self

    def __exit__(self, kind: Optional[Type[BaseException]], error: Optional[BaseException], trace: Optional[TracebackType]) -> None:
        try:
            if error is None and self._refusal is None:
                self._commit()
            else:
                self._abort()
        except Ended:
            # (the end of the process has aborted the transaction too)
            if error is None:
                raise
        finally:
            self._leave()
        if error is None and self._refusal is not None:
            raise self._refusal

    @property
    def root(self) -> Object:
        """The root object, from which all others are found. It has four fields."""
        if self._root is None:
            self._root = self._named("root")
        return self._root

    @property
    def spare_handles(self) -> int:
        """How many objects more it can hold."""
        return len(self._free)

    def new(self, fields: int) -> Object:
        """A new object of that many empty fields. It stays if it can be reached from the root when the transaction ends."""
        return self._named("new", fields)

    def get_all(self, places: Sequence[Tuple[Object, int]]) -> List[Value]:
        """What these fields of objects hold. They are asked for together, which takes a fraction of the time. There have to be as many handles free as there
        are fields of one question, at most 64, so it asks again and again where there are fewer."""
        self._send()
        values: List[Value] = []
        while len(values) < len(places):
            values += self._get_some(places[len(values) :][: max(1, len(self._free))])
        return values

    def numbers(self, places: Sequence[Tuple[Object, int]]) -> List[int]:
        """What these fields of objects hold, each of which has to be known to hold a number. They are asked for together."""
        self._send()
        spare = self._take_handle()
        try:
            replies: List[Reply] = []
            while len(replies) < len(places):
                replies += self._read([(thing._named(), field, spare) for thing, field in places[len(replies) :][:MOST_KEPT]])
        finally:
            self._free.append(spare)
        if any(word != "int" for word, _ in replies):
            raise Protocol("a field does not hold a number")
        return [numbers[0] for _, numbers in replies]

    def _get_some(self, places: Sequence[Tuple[Object, int]]) -> List[Value]:
        """So many as there are handles for."""
        spares = [self._take_handle() for _ in places]
        values: List[Value] = []
        try:
            for (word, numbers), spare in zip(self._read([(it._named(), field, h) for (it, field), h in zip(places, spares)]), spares):
                if word == "ref":
                    values.append(Object(self, spare))
                else:
                    values.append(numbers[0] if numbers else None)
                    self._free.append(spare)
        finally:
            # (after a refusal the transaction can only end)
            self._free += spares[len(values) :]
        return values

    def _read(self, questions: Sequence[Tuple[int, int, int]]) -> List[Reply]:
        return self._ask_all([self._spelled(self._active(), "get", *question) for question in questions])

    def _commit(self) -> None:
        """Seals, and forces if that was asked for. A refusal leaves the transaction active, and it is aborted then."""
        try:
            self._send()
            self._ask_all([self._spelled(self._active(), "seal"), self._spelled(0, "force")][: 1 + self._durable])
        except Refused:
            self._abort()
            raise

    def _abort(self) -> None:
        self._writes = []
        self._ask("abort")

    def _leave(self) -> None:
        session, self._session = self._session, None
        self._root = None
        if session is not None:
            self._heap._give_session(session)

    def _named(self, what: str, *numbers: int) -> Object:
        """An object that a fresh handle holds after that call."""
        made = Object(self, self._take_handle())
        self._do(what, made._named(), *numbers)
        return made

    def _follow(self, handle: int, field: int) -> Object:
        made = Object(self, self._take_handle())
        self._do("get", handle, field, made._named())
        return made

    def _get(self, handle: int, field: int) -> Value:
        spare = self._take_handle()
        try:
            word, numbers = self._ask("get", handle, field, spare)
        except BaseException:
            self._free.append(spare)
            raise
        if word == "ref":
            return Object(self, spare)
        self._free.append(spare)
        return numbers[0] if numbers else None

    def _take_handle(self) -> int:
        if not self._free:
            raise OutOfHandles(f"transaction {self.number} holds {HANDLES} objects")
        return self._free.pop()

    def _do(self, what: str, *numbers: int) -> None:
        """Makes a call that is answered by no more than that it was done, or keeps it."""
        if not self._heap._buffered:
            self._ask(what, *numbers)
            return
        try:
            self._writes.append(self._spelled(self._active(), what, *numbers))
        except Refused as refusal:
            self._refusal = self._refusal or refusal
            raise
        if len(self._writes) == MOST_KEPT:
            self._send()

    def _send(self) -> None:
        """Makes the calls that were kept."""
        if self._writes:
            writes, self._writes = self._writes, []
            self._ask_all(writes)

    def _spelled(self, session: int, what: str, *numbers: int) -> Spelled:
        event = session, what, numbers
        return event, self._heap._way.spell(event)

    def _ask_all(self, calls: Sequence[Spelled]) -> List[Reply]:
        """Makes the calls in their order, and gives their replies. Behind one that is refused it is not said which are made: the transaction is to be
        aborted."""
        try:
            return [judged(event, reply) for (event, _), reply in zip(calls, self._heap._way.exchange_all(calls))]
        except Refused as refusal:
            self._refusal = self._refusal or refusal
            raise

    def _ask(self, what: str, *numbers: int) -> Reply:
        if self._writes:
            self._send()
        event = self._active(), what, numbers
        try:
            return judged(event, self._heap._way.exchange(event))
        except Refused as refusal:
            self._refusal = self._refusal or refusal
            raise

    def _active(self) -> int:
        """The session."""
        if self._session is None:
            raise Protocol("the transaction has ended")
        return self._session


class Pipe:
    """A way to a heap: a process that answers lines."""

    def __init__(self, folder: pathlib.Path, pages: int, log_bytes: int, command: Sequence[str]):
        file = folder / "heap.img"
        command = from_here(command)
        if not file.exists() or file.stat().st_size == 0:
            self._format(folder, pages, log_bytes, command)
        self._turn = threading.Lock()
        self._process = subprocess.Popen(
            [*command, "session"], cwd=folder, stdin=subprocess.PIPE, stdout=subprocess.PIPE, text=True, bufsize=1
        )
        assert self._process.stdin is not None and self._process.stdout is not None
        self._questions, self._answers = self._process.stdin, self._process.stdout

    @staticmethod
    def _format(folder: pathlib.Path, pages: int, log_bytes: int, command: Sequence[str]) -> None:
        words = [*command, "format", str(pages), str(log_bytes), "1"]
        status = subprocess.run(words, cwd=folder, stdin=subprocess.DEVNULL, stdout=subprocess.DEVNULL).returncode
        if status != 0:
            raise ENDS.get(status, Ended)(status)

    def close(self) -> None:
        try:
            # (what it says at its end is read, so that it is not held up)
            self._process.communicate()
        except BrokenPipeError:
            self._process.wait()

    def exchange(self, event: Event) -> Reply:
        """Makes the call, and gives the reply."""
        return self._send([self.spell(event)])[0]

    def exchange_all(self, calls: Sequence[Spelled]) -> List[Reply]:
        """Makes the calls, whatever is refused."""
        return self._send([line for _, line in calls])

    @staticmethod
    def spell(event: Event) -> str:
        return line_of(whole(event))

    def _send(self, lines: List[str]) -> List[Reply]:
        """Sends the lines, which are few enough for the pipe, and gives their replies."""
        with self._turn:
            try:
                self._questions.write("".join(line + "\n" for line in lines))
                self._questions.flush()
                answers = [self._answers.readline() for _ in lines]
            except (BrokenPipeError, ValueError):
                answers = [""]
            except BaseException:
                # A call that was cut short leaves an answer behind, which the next one would take for its own.
                self._process.terminate()
                raise
        if not all(answers):
            raise self._ended()
        return [self._read(line, answer) for line, answer in zip(lines, answers)]

    @staticmethod
    def _read(line: str, answer: str) -> Reply:
        asked, arrow, reply = answer.rstrip("\n").partition(" -> ")
        if not arrow or asked != line:
            raise Protocol(f"the session answered {answer!r} to {line!r}")
        word, *numbers = reply.split()
        return word, list(map(int, numbers))

    def _ended(self) -> HeapError:
        """Why there is no answer."""
        if self._questions.closed:
            return Protocol("the heap was closed")
        status = self._process.wait()
        return ENDS.get(status, Ended)(status)


class ErrorNumbers(ctypes.Structure):
    _fields_ = [("result", ctypes.c_int), ("numbers", ctypes.c_uint64 * 3), ("status", ctypes.c_int), ("text", ctypes.c_char * 160)]


# the events from number 32 on, the replies from code 32 and the refusals from code 64, each with how many numbers it says
EVENTS = "begin root new put clear link drop get same len seal abort force flush flip scan".split()
REPLIES = (
    "begun1 done0 null0 int1 ref0 yes0 no0 len1 sealed1 aborted0 durable1 flipped2 collecting0 scanned3 collected1 idle0 flushed1 clean1"
).split()
REFUSED = (
    "failed1 alreadyactive0 notactive0 numbersspent0 badhandle0 range0 badfield0 nosuchpage0 busy1 volatilefull1 exhausted3 logfull3 diskfault0 stopped0"
).split()
EVENT_NUMBERS = {word: 32 + place for place, word in enumerate(EVENTS)}
REPLY_WORDS = {first + place: (it[:-1], int(it[-1])) for first, words in ((32, REPLIES), (64, REFUSED)) for place, it in enumerate(words)}
# answers that are no replies: memory was refused, a call on the file has failed
REPLY_WORDS.update({1: ("nomemory", 0), 4: ("diskfault", 0)})
SH_OK, SH_UNFINISHED, SH_NO_MEMORY = 0, 10, 19
# an event by how many numbers it has, and a reply
ASKED = [struct.Struct("=2Q24x"), struct.Struct("=3Q16x"), struct.Struct("=4Q8x"), struct.Struct("=5Q")]
ANSWERED = struct.Struct("=4Q")


def open_library() -> ctypes.CDLL:
    """The library of `clients/lib`."""
    for path in LIBRARIES:
        if path and os.path.exists(path):
            library = ctypes.CDLL(str(path))
            break
    else:
        raise HeapError("libstable_heap.so is not there: make -C clients/lib makes it")
    library.sh_open_here.argtypes = [ctypes.c_char_p, ctypes.c_uint, ctypes.c_uint, ctypes.POINTER(ErrorNumbers)]
    library.sh_open_here.restype = ctypes.c_void_p
    library.sh_close.argtypes = [ctypes.c_void_p]
    library.sh_reopen.argtypes = [ctypes.c_void_p]
    library.sh_batch.argtypes = [ctypes.c_void_p, ctypes.c_char_p, ctypes.c_size_t, ctypes.c_bool, ctypes.c_void_p, ctypes.c_void_p]
    return library


class Room:
    """Where the library puts its replies, and how many."""

    def __init__(self) -> None:
        self.replies = bytearray(ANSWERED.size * MOST_KEPT)
        self.made = ctypes.c_size_t()
        self._kept = (ctypes.c_char * len(self.replies)).from_buffer(self.replies)
        self.places = ctypes.addressof(self._kept), ctypes.addressof(self.made)

    def reply(self, place: int) -> Reply:
        numbers = ANSWERED.unpack_from(self.replies, ANSWERED.size * place)
        if numbers[0] not in REPLY_WORDS:
            raise Protocol(f"the heap answered {numbers[0]}")
        word, count = REPLY_WORDS[numbers[0]]
        return word, numbers[1 : 1 + count]


class Here:
    """A way to a heap: the library, in this process."""

    def __init__(self, folder: pathlib.Path, pages: int, log_bytes: int):
        error = ErrorNumbers()
        # (a thread that finds none here makes one more)
        self._rooms: List[Room] = []
        self._library = open_library()
        self._batch = self._library.sh_batch
        self._heap: Optional[int] = self._library.sh_open_here(os.fsencode(folder), pages, log_bytes, ctypes.byref(error))
        if not self._heap:
            raise ENDS.get(error.status, Ended)(error.status)

    def close(self) -> None:
        heap, self._heap = self._heap, None
        if heap:
            self._library.sh_close(heap)

    def exchange(self, event: Event) -> Reply:
        """Makes the call, and gives the reply."""
        if event[1] == "reopen":
            return self._reopen()
        return self._make(self.spell(event), 1)[0]

    def exchange_all(self, calls: Sequence[Spelled]) -> List[Reply]:
        """Makes the calls, up to the first one that is refused."""
        return self._make(b"".join([it for _, it in calls]), len(calls))

    @staticmethod
    def spell(event: Event) -> bytes:
        session, name, numbers = event
        try:
            return ASKED[len(numbers)].pack(EVENT_NUMBERS[name], session, *numbers)
        except (struct.error, OverflowError, TypeError):
            # (it has a number that is not whole or not within all limits)
            whole(event)
            raise

    def _make(self, events: bytes, count: int) -> List[Reply]:
        try:
            room = self._rooms.pop()
        except IndexError:
            room = Room()
        # (in a forked child nothing is answered)
        room.replies[0] = 0
        self._batch(self._open(), events, count, False, *room.places)
        replies = [room.reply(0)] if count == 1 else [room.reply(place) for place in range(room.made.value or 1)]
        self._rooms.append(room)
        return replies

    def _open(self) -> int:
        if not self._heap:
            raise Protocol("the heap was closed")
        return self._heap

    def _reopen(self) -> Reply:
        words = {SH_OK: "closed", SH_UNFINISHED: "unfinished", SH_NO_MEMORY: "nomemory"}
        return words.get(self._library.sh_reopen(self._open()), "diskfault"), ()


class Heap:
    """An open heap, in a process that works on the file `heap.img` of a folder or in this one. No other program can open it meanwhile."""

    def __init__(self, way: Union[Pipe, Here], buffered: bool = False):
        self._way = way
        self._buffered = buffered
        self._sessions = list(range(SESSIONS, 0, -1))
        self._has_session = threading.Condition()

    @classmethod
    def open(
        cls,
        folder: Union[str, pathlib.Path],
        pages: int = 1_024,
        log_bytes: int = 16_777_216,
        command: Sequence[str] = (str(LAUNCHER),),
        here: bool = False,
        buffered: bool = False,
    ) -> "Heap":
        """Opens the heap in that folder. Where the folder has no `heap.img`, or an empty one, a heap is made, of these sizes; what
        holds something else is never written over, but raises NotAHeap. `command` is the launcher with its options: without `--quick`
        it proves the program before its first run, which takes many minutes. With `here` there is no such process: the heap is in this one.

        With `buffered` a transaction keeps its writes, and makes them together, which takes a fraction of the time: before its next read, or at its
        end. A refusal is raised there, and says of which write it is; after one the transaction can only end."""
        folder = pathlib.Path(folder)
        folder.mkdir(parents=True, exist_ok=True)
        heap = cls(Here(folder, pages, log_bytes) if here else Pipe(folder, pages, log_bytes, command), buffered)
        try:
            # The first answer says that the heap is open.
            heap.force()
        except BaseException:
            heap.close()
            raise
        return heap

    def __enter__(self) -> "Heap":
        return self

    def __exit__(self, kind: Optional[Type[BaseException]], error: Optional[BaseException], trace: Optional[TracebackType]) -> None:
        self.close()

    def close(self) -> None:
        """Closes the heap, and ends its process. Transactions that are active are aborted, and what was sealed is forced."""
        self._way.close()

    def transaction(self, durable: bool = True) -> Transaction:
        """A transaction, for `with`. If it is not to be durable at its end, it is so after the next `force` of any caller; a crash
        before that takes it back, with all that later transactions made of it."""
        return Transaction(self, durable)

    def run(self, work: Callable[[Transaction], Result], durable: bool = True, attempts: int = 20, pause: float = 0.001) -> Result:
        """Does the work in a transaction and gives its result. Where another transaction is in the way, this one is aborted and the
        work is done again, in a new one, after a pause that grows; the last of the attempts raises Busy."""
        for attempt in range(attempts):
            try:
                with self.transaction(durable) as transaction:
                    return work(transaction)
            except Busy:
                if attempt + 1 == attempts:
                    raise
            time.sleep(random.uniform(0, pause * 2 ** min(attempt, 8)))
        raise ValueError("attempts is not positive")

    def force(self) -> int:
        """Puts all that was sealed on the disk: the number of commits there, since the heap was opened."""
        return self._ask("force")[1][0]

    def flush(self, page: int) -> bool:
        """Stores a page, so that the next opening redoes less: whether it had changed."""
        return self._ask("flush", page)[0] == "flushed"

    def flip(self) -> bool:
        """Begins a collection: whether none was under way. Transactions may be active, and go on."""
        return self._ask("flip")[0] == "flipped"

    def scan(self) -> bool:
        """Goes on with the collection by one page: whether there is more to do."""
        return self.go_on()[0] == "scanned"

    def go_on(self) -> Reply:
        """Goes on with the collection by one page, and gives the heap's word for how it stands: `scanned`, `collected` with the words that are in use, or
        `idle` where none is under way."""
        return self._ask("scan")

    def collect(self) -> None:
        """Ends the collection that is under way, or makes a whole one: words of objects that nothing reached any more when it began are free."""
        self.flip()
        while self.scan():
            pass

    def reopen(self) -> None:
        """Closes the heap and opens it again, in the same process: the memory is free then that each call has taken for the heap's history,
        and `force` counts anew. While a transaction is active, of any thread, it raises Unfinished."""
        self.force()
        self._ask("reopen")
        # The first answer says that the heap is open.
        self.force()

    def _take_session(self) -> int:
        with self._has_session:
            self._has_session.wait_for(lambda: self._sessions)
            return self._sessions.pop()

    def _give_session(self, session: int) -> None:
        with self._has_session:
            self._sessions.append(session)
            self._has_session.notify()

    def _ask(self, what: str, *numbers: int) -> Reply:
        event = 0, what, numbers
        return judged(event, self._way.exchange(event))
