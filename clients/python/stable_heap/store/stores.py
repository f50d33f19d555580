"""The store: a heap in a folder, whose root is a dict; transactions, and the turns of threads."""

from __future__ import annotations

import contextlib
import gc
import os
import pathlib
import threading
import time
import weakref
from types import TracebackType
from typing import Any, Callable, ContextManager, Iterator, Optional, Sequence, Type, TypeVar, Union

from .. import LAUNCHER, LIBRARIES, Exhausted, Heap, HeapError, InUse, LogFull, NoMemory, NumbersSpent, Refused, VolatileFull
from .containers import NO_STORE, Container, Dict, Kind, List, Place, Set
from .errors import Closed, Full, StoreError, TooLarge
from .keeping import MORE_LOG, Keeper, Sizes, log_used, sizes_of
from .levels import BeforeImage, Level
from .making import Maker
from .planning import Plan
from .reading import ReadTransaction
from .rebuilding import rebuild
from .root import PINS_FIELD, ROOT_FIELD, STAGING_FIELD, Root, make_root, read_root
from .scopes import ClosedLock, TransactionScope, UpdateScope
from .walking import PlaceParts, Reader
from .words import DICT, LIST, SET

__all__ = ["Store"]

CLASSES: dict[int, Type[Container]] = {DICT: Dict, LIST: List, SET: Set}
HEAP_FILE = "heap.img"
# the sizes of a heap that is made
PAGES, LOG_BYTES = 4_096, 16_777_216
Result = TypeVar("Result")


class Store:
    """A store: what its root refers to is kept on the disk."""

    def __init__(
        self,
        folder: Union[str, pathlib.Path],
        here: Optional[bool] = None,
        pages: int = PAGES,
        log_bytes: int = LOG_BYTES,
        durable: bool = True,
        wait: float = 5.0,
        command: Sequence[str] = (str(LAUNCHER),),
    ):
        """Opens the store in that folder, or makes one, with a heap of these sizes. `here` says whether the heap is in this process, by the library: where
        it is left out that is so if the library is there. A heap that is in use is tried again for `wait` seconds. `command` is the launcher."""
        self._folder: Optional[pathlib.Path] = pathlib.Path(folder)
        self._here = has_library() if here is None else here
        self._command = command
        heap = opened(lambda: self._open_heap(pathlib.Path(folder), Sizes(pages, log_bytes)), wait)
        self._begin_with(heap, durable)

    @classmethod
    def over(cls, heap: Heap, durable: bool = True, pages: Optional[int] = None) -> "Store":
        """A store in a heap that is open, which is the store's from then on. Its transactions are to keep their writes. Where it is told the pages of a space
        it makes collections before room runs out."""
        store = cls.__new__(cls)
        store._folder = None
        store._begin_with(heap, durable, Sizes(pages, 0) if pages else None)
        return store

    def _open_heap(self, folder: pathlib.Path, sizes: Sizes) -> Heap:
        return Heap.open(folder, sizes.pages, sizes.log_bytes, self._command, here=self._here, buffered=True)

    def _begin_with(self, heap: Heap, durable: bool, sizes: Optional[Sizes] = None) -> None:
        # whoever has the turn is alone with the store
        self._turn = threading.RLock()
        # the turn, or what refuses it where the store is closed
        self._lock: ContextManager[Any] = self._turn
        self._durable = durable
        self._heap = heap
        self._levels: list[Level] = []
        self._known: "weakref.WeakValueDictionary[int, Container]" = weakref.WeakValueDictionary()
        self._commits = 0
        # whether a commit that was made in parts left some of them
        self._staging_left = False
        # whether a commit of this store was not forced
        self._is_unforced = False
        try:
            file = self._folder / HEAP_FILE if self._folder else None
            self._take_heap(heap, sizes_of(file) if file else sizes, file)
            self._read_root()
        except BaseException as error:
            self._fail(error)
            raise
        STORES.add(self)

    # ---- what a user calls

    @property
    def root(self) -> Dict:
        """The dict from which all else is found."""
        with self._lock:
            return self._root

    def transaction(self, durable: Optional[bool] = None) -> TransactionScope:
        """A transaction, for `with`. What it did is on the disk when it is left; where an exception leaves it nothing of it was done. One inside of another
        that fails takes back its own part alone. Where it is not to be durable, it is on the disk after the next one that is, or after `force`."""
        return TransactionScope(self, durable)

    def run(self, work: Callable[[], Result]) -> Result:
        """Does the work in a transaction, and gives its result. It may be done more than once."""
        with self.transaction():
            return work()

    def force(self) -> None:
        """Puts on the disk what transactions did that were not to be durable."""
        with self._lock, self._lock, self._guard():
            self._heap.force()
            self._is_unforced = False

    def collect(self) -> None:
        """Frees the room of what nothing refers to any more. A store does so by itself."""
        with self._lock, self._lock:
            if self._levels:
                raise StoreError("a transaction is active")
            self._make_room()

    def grow(self, pages: Optional[int] = None, log_bytes: Optional[int] = None) -> None:
        """Writes all that is kept into a new heap of these sizes, which takes the old one's place in one step. What is left out stays as it is."""
        with self._lock, self._lock:
            if self._levels:
                raise StoreError("a transaction is active")
            if self._folder is None:
                raise StoreError("this store was made over an open heap, which has no folder")
            sizes = sizes_of(self._folder / HEAP_FILE)
            try:
                rebuild(self, Sizes(pages or sizes.pages, log_bytes or sizes.log_bytes))
            except BaseException as error:
                if not isinstance(error, Exception):
                    self._fail(error)
                raise

    def compact(self) -> None:
        """Writes all that is kept into a new heap of the same sizes, whose log has no more than that. What was kept before it is not read again."""
        self.grow()

    def stats(self) -> dict[str, Optional[int]]:
        """Figures of the store: the sizes of its heap, the words in use when the last collection ended, the used bytes of the log, commits and collections
        since it was opened, and how many containers are known in memory."""
        with self._lock:
            figures: dict[str, Optional[int]] = {"commits": self._commits, "collections": self._keeper.collections}
            figures.update(words_in_use=self._keeper.in_use, containers_in_memory=len(self._known))
            if self._folder is not None:
                file = self._folder / HEAP_FILE
                sizes = sizes_of(file)
                figures.update(pages=sizes.pages, words=sizes.words, log_bytes=sizes.log_bytes, log_bytes_used=log_used(file))
            return figures

    def close(self) -> None:
        """Closes the store. What is kept in it can't be used any more before it is opened again."""
        if self._is_closed():
            return
        with self._turn:
            if self._levels:
                raise StoreError("a transaction is active")
            if not self._is_closed():
                self._stop("the store was closed")
                self._heap.close()

    def __enter__(self) -> "Store":
        return self

    def __exit__(self, kind: Optional[Type[BaseException]], error: Optional[BaseException], trace: Optional[TracebackType]) -> None:
        if error is not None and not self._is_closed():
            with self._turn:
                if self._levels:
                    # (an interrupt has kept a transaction from ending)
                    self._fail(error)
        self.close()

    # ---- transactions in memory

    def _is_active(self) -> bool:
        """Whether this thread is in a transaction."""
        with self._lock:
            return bool(self._levels)

    def _begin(self, level: Level) -> None:
        # (the second one refuses where the store was closed while this thread waited for the first)
        with self._lock, self._lock:
            self._levels.append(level)
            self._turn.acquire()

    def _end(self, level: Level, failed: bool, durable: Optional[bool]) -> None:
        """Ends the innermost transaction; the outermost one is committed. Where it is cut short nobody knows whether what is in memory is in the heap: the
        store is closed then."""
        try:
            self._finish(level, failed, durable)
        except (Refused, StoreError):
            raise
        except BaseException as error:
            self._fail(error)
            raise
        finally:
            try:
                self._turn.release()
            except RuntimeError:
                # (a level inside of this one gave it, which was cut short before it had taken it once more)
                assert self._is_closed()

    def _finish(self, level: Level, failed: bool, durable: Optional[bool]) -> None:
        if self._levels[-1] is not level:
            self._fail("the end of a transaction")
        self._levels.remove(level)
        if failed:
            level.restore()
        elif self._levels and not self._is_closed():
            self._levels[-1].join(level)
        else:
            self._commit(level, self._durable if durable is None else durable)

    def _left(self, level: Level) -> None:
        """The `with` of that level is gone. An interrupt may have come before it could end the level, which nobody will end then."""
        if level in self._levels:
            self._levels.remove(level)
            self._fail("the end of a transaction")
            with contextlib.suppress(RuntimeError):
                self._turn.release()

    def _change(self, container: Container) -> ContextManager[Any]:
        return UpdateScope(self, container)

    def _changing(self, container: Container) -> Any:
        """The container's content, which is about to change."""
        content = container._now()
        self._levels[-1].keep(container)
        return content

    def _take(self, found: list[Container]) -> None:
        """These containers, and all that are in them, are of this store from now on."""
        new: list[Container] = []
        seen = set()
        waiting = list(found)
        while waiting:
            container = waiting.pop()
            if container._store is not self and id(container) not in seen:
                if container._store is not NO_STORE:
                    raise ValueError("a container of another store can't be put into this one: plain() makes a copy of it")
                seen.add(id(container))
                new.append(container)
                waiting += container._inner()
        self._levels[-1].took(new)
        for container in new:
            container._store = self

    # ---- the heap

    def _read_root(self) -> None:
        """Finds the store in the heap, or makes one in an empty heap."""
        with self._guard(), self._reading as t:
            root = read_root(t)
        if root is None:
            with self._guard():
                self._reading.end()
                with self._heap.transaction() as t:
                    root = make_root(t)
        self._note_root(root)
        self._root: Dict = self._known_as(Dict, root.root_serial, None)
        self._pins: Set = self._known_as(Set, root.pins_serial, None)
        self._pins._content = {}

    def _make_root(self) -> None:
        """Makes an empty store in an empty heap, for the containers of this one."""
        with self._guard(), self._heap.transaction() as t:
            root = make_root(t)
        self._note_root(root)
        self._root._serial, self._pins._serial = root.root_serial, root.pins_serial

    def _note_root(self, root: Root) -> None:
        self._next_serial, self._stale_pins, self._staging_left = root.next_serial, root.has_pins, root.has_staging

    def _take_heap(self, heap: Heap, sizes: Optional[Sizes], file: Optional[pathlib.Path] = None) -> None:
        """The store is in that heap from now on, whose file may be read."""
        self._heap, self._reading = heap, ReadTransaction(heap)
        self._keeper = Keeper(heap, sizes, file)

    def _open_again(self) -> None:
        """The heap in the store's folder is opened: what is noted of the one that was there before holds of it too."""
        assert self._folder is not None
        sizes = sizes_of(self._folder / HEAP_FILE)
        with self._guard():
            self._take_heap(self._open_heap(self._folder, sizes), sizes, self._folder / HEAP_FILE)

    def _meet(self, kind: int, serial: int, place: PlaceParts) -> Container:
        """The container of that number, to which a reference was read at that place."""
        known = self._known.get(serial)
        return self._known_as(CLASSES[kind], serial, Place(*place)) if known is None else known

    def _known_as(self, kind: Type[Kind], serial: int, place: Optional[Place]) -> Kind:
        made = kind.__new__(kind)
        made._store, made._serial, made._place, made._content = self, serial, place, None
        self._known[serial] = made
        return made

    def _field_of(self, container: Container) -> int:
        """Which field of the root object refers to the container."""
        return PINS_FIELD if container is self._pins else ROOT_FIELD

    def _is_stale(self, container: Container) -> bool:
        """Whether what is in the heap of it is to be dropped."""
        return container is self._pins and self._stale_pins

    def _pinned(self) -> list[Container]:
        return [it for it in (pin.container() for pin in self._pins._content) if it is not None]

    def _load(self, container: Container) -> Any:
        """Reads what is in the container."""
        with self._lock, self._guard(), self._reading as t:
            Reader(self, t).load(container)
        return container._content

    @contextlib.contextmanager
    def _guard(self) -> Iterator[None]:
        """Where the heap fails, or a call of it is cut short, nobody knows what it did: the store is closed then."""
        try:
            yield
        except LogFull as refusal:
            raise Full(f"the log has no room: {refusal.numbers[0]:,} bytes are used. {MORE_LOG}") from refusal
        except UNDONE:
            raise
        except BaseException as error:
            self._fail(error)
            if isinstance(error, (HeapError, OSError)):
                raise Closed(f"the heap failed: {error}. Open the store again") from error
            raise

    def _fail(self, why: object) -> None:
        """Closes the store, so that another one can be opened over what is in the heap."""
        if not self._is_closed():
            self._stop(f"the store is closed, since its heap failed or a call was cut short: {why!r}. Open it again")
            with contextlib.suppress(HeapError, OSError, ValueError):
                self._heap.close()

    def _stop(self, why: str) -> None:
        self._lock = ClosedLock(why)

    def _is_closed(self) -> bool:
        return self._lock is not self._turn

    def _commit(self, level: Level, durable: bool) -> None:
        """Writes what the level changed. Where that fails all is as it was before it."""
        try:
            with self._lock:
                self._write(level.changed, durable)
        except BaseException:
            level.restore()
            raise

    def _write(self, dirty: list[Container], durable: bool) -> None:
        for refusals in range(2):
            try:
                self._plan_and_make(dirty, durable)
                return
            except Exhausted as refusal:
                needed, free, _ = refusal.numbers
                if refusals:
                    raise Full(f"{needed:,} words are needed, and {free:,} are free. {MORE_PAGES}") from refusal
                self._make_room()
            except VolatileFull as refusal:
                raise TooLarge(f"the transaction makes too many objects at once. {IN_PARTS}") from refusal

    def _plan_and_make(self, dirty: list[Container], durable: bool) -> None:
        """Where that fails the pins are as they were before it, of which a plan is made in memory."""
        pins = BeforeImage(self._pins)
        try:
            self._make(Plan(self, dirty), durable)
        except BaseException:
            pins.restore()
            raise

    def _make(self, plan: Plan, durable: bool) -> None:
        """Makes the plan in the heap, and notes in memory what is there then: whatever comes between closes the store."""
        with self._guard():
            if not plan.is_empty:
                self._reading.end()
                self._keeper.expect(plan.log_bytes)
                self._staging_left = self._staging_left or plan.is_split
                Maker(plan, self._heap).make(durable)
                self._staging_left = self._stale_pins = False
                self._is_unforced = not durable
                self._commits += 1
            elif durable and self._is_unforced:
                self._heap.force()
                self._is_unforced = False
            plan.applied()
            self._next_serial = plan.next_serial
            for container in plan.new:
                assert container._serial is not None
                self._known[container._serial] = container
            if not plan.is_empty:
                self._tidy(plan)

    def _tidy(self, plan: Plan) -> None:
        """What is to be done for the heap after a commit. The commit stands, whatever becomes of this: where it fails the store is closed."""
        try:
            with self._guard():
                self._keeper.wrote(plan.layout.words, plan.events)
        except (StoreError, Refused):
            pass

    def _make_room(self) -> None:
        """Makes a collection, of all that nothing refers to any more."""
        with self._guard():
            self._reading.end()
            if self._staging_left:
                with self._heap.transaction(durable=False) as t:
                    t.root.clear(STAGING_FIELD)
                self._staging_left = False
            # (pins go with the containers that Python has let go)
            gc.collect()
            with contextlib.suppress(Exhausted):
                self._plan_and_make([], False)
            self._keeper.collect()


MORE_PAGES = "store.grow(pages=..) makes more room; or delete something"
IN_PARTS = "Make it in several transactions"
# what is raised where the heap has nothing of its transaction, or a guard has closed the store
UNDONE = Exhausted, VolatileFull, NumbersSpent, NoMemory, StoreError
STORES: "weakref.WeakSet[Store]" = weakref.WeakSet()


def leave_to_parent() -> None:
    """In a forked child: the store is its parent's."""
    for store in list(STORES):
        store._stop("this process was forked from the one that has the store")


os.register_at_fork(after_in_child=leave_to_parent)


def has_library() -> bool:
    return any(path and os.path.exists(path) for path in LIBRARIES)


def opened(open_heap: Callable[[], Heap], wait: float) -> Heap:
    """The heap, which may be in use for a moment more after the process that had it was killed."""
    end = time.monotonic() + wait
    while True:
        try:
            return open_heap()
        except InUse:
            if time.monotonic() >= end:
                raise
            time.sleep(0.02)
