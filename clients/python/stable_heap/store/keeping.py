"""What a store does for its heap between commits: collections, a little after each commit. Checkpoints are to stand here too, once the heap has them: until
then its log only grows, and is full in the end."""

import pathlib
import struct
from typing import NamedTuple, Optional

from .. import Heap, LogFull
from .errors import Full

__all__ = ["Keeper", "Sizes", "log_used", "sizes_of"]

PAGE_WORDS = 64
SUPERBLOCK = struct.Struct("<B7sIII")
BATCH = struct.Struct("<BI")
LOG_AT = 64
# a scan is made for so many words that a commit writes, and one besides: so a collection ends long before its space is full
WORDS_A_SCAN = 8
# so much of the log is left for reads, which take a few bytes of it, and so for a compaction: an eighth of a small log
RESERVE = 65_536
# what a collection writes into the log at most: for a word in use, 8 of the copy and of a reference the 12 of its update; for a page a scan; and a little
LOG_A_WORD, LOG_A_PAGE, LOG_BESIDES = 20, 7, 100
# a word of an object was once written into the log, which takes so many bytes
WORD_BYTES = 8
MORE_LOG = "Nothing truncates it yet: store.compact() writes what is kept into a new log, and store.grow(log_bytes=..) into a larger one"
# the heap keeps 24 bytes for each event until it is opened again
MOST_EVENTS = 1_000_000


class Sizes(NamedTuple):
    """The sizes of a heap: the pages of a space, and the bytes of its log."""

    pages: int
    log_bytes: int

    @property
    def words(self) -> int:
        return self.pages * PAGE_WORDS


def sizes_of(file: pathlib.Path) -> Sizes:
    """As its file says."""
    with file.open("rb") as heap:
        _, _, _, pages, log_bytes = SUPERBLOCK.unpack(heap.read(SUPERBLOCK.size))
    return Sizes(pages, log_bytes)


def log_used(file: pathlib.Path) -> int:
    """How many bytes of the log are used, as its file says. It reads the log."""
    sizes = sizes_of(file)
    with file.open("rb") as heap:
        heap.seek(LOG_AT)
        log = heap.read(sizes.log_bytes)
    at = 0
    while at + BATCH.size <= len(log):
        gate, length = BATCH.unpack_from(log, at)
        if gate != 1:
            break
        at += BATCH.size + length
    return at + 1


class Keeper:
    """Keeps a heap usable."""

    def __init__(self, heap: Heap, sizes: Optional[Sizes], file: Optional[pathlib.Path] = None):
        self._heap, self._sizes, self._file = heap, sizes, file
        # about how many bytes of the log are used, or a few more
        self._log_used = log_used(file) if file is not None else 0
        self.collections = 0
        # words in use when the last collection ended
        self.in_use: Optional[int] = None
        # no more words than these are in use now
        self._words = self._log_used // WORD_BYTES
        self._free = sizes.words // 2 if sizes else 0
        self._written = self._events = 0
        # (one may be under way since the run before this one: a scan tells)
        self._is_collecting = True

    def expect(self, log_bytes: int) -> None:
        """A commit is about to write at most so many bytes into the log: it is refused where reads would have no room there any more."""
        if not self._has_room(log_bytes):
            self._finish()
            self._measure()
        if not self._has_room(log_bytes):
            raise self._full(log_bytes)
        self._log_used += log_bytes

    def _has_room(self, log_bytes: int) -> bool:
        """Whether so many bytes leave enough of the log for reads and for the collection that is under way, which reads may have to advance."""
        if self._file is None or self._sizes is None:
            return True
        kept = min(RESERVE, self._sizes.log_bytes // 8) + (self._collection_bytes() if self._is_collecting else 0)
        return self._log_used + log_bytes + kept <= self._sizes.log_bytes

    def _collection_bytes(self) -> int:
        """How many bytes of the log a collection takes at most."""
        pages, words = (self._sizes.pages, self._sizes.words) if self._sizes else (0, 0)
        return LOG_A_WORD * min(self._words, words) + LOG_A_PAGE * pages + LOG_BESIDES

    def _measure(self) -> None:
        """The bytes of the log that are used are those in the file, once all of them are there."""
        if self._file is not None:
            self._heap.force()
            self._log_used = log_used(self._file)

    def _full(self, log_bytes: int) -> Full:
        size = self._sizes.log_bytes if self._sizes else 0
        return Full(f"{self._log_used:,} of the log's {size:,} bytes are used, and up to {log_bytes:,} are needed. {MORE_LOG}")

    def wrote(self, words: int, events: int) -> None:
        """A commit has written so much."""
        self._written += words
        self._words += words
        self._events += events
        try:
            self._advance(1 + words // WORDS_A_SCAN)
        except LogFull:
            # (what is in the heap is as it was; the next commit says that the log is full)
            pass
        if self._events > MOST_EVENTS:
            self._events = 0
            self._heap.reopen()

    def collect(self) -> None:
        """Makes a whole collection, which frees all that nothing refers to now."""
        self._finish()
        if not self._has_room(self._collection_bytes()):
            self._measure()
        if not self._has_room(self._collection_bytes()):
            raise self._full(self._collection_bytes())
        self._begin()
        self._finish()

    def _advance(self, scans: int) -> None:
        """Goes on with the collection, or begins one where it is time for that and the log has room for all of it: from then on reads may have to advance it."""
        if self._sizes is None:
            return
        if not self._is_collecting and self._written > self._free // 2 and self._has_room(self._collection_bytes()):
            self._begin()
        for _ in range(scans):
            if self._is_collecting:
                self._scan()

    def _begin(self) -> None:
        self._heap.flip()
        self._is_collecting = True
        self._written = 0

    def _finish(self) -> None:
        while self._is_collecting:
            self._scan()

    def _scan(self) -> None:
        self._events += 1
        word, numbers = self._heap.go_on()
        self._is_collecting = word == "scanned"
        if word == "collected":
            self._measure()
            self.collections += 1
            self._written = 0
            self.in_use = self._words = numbers[0]
            self._free = max(self._sizes.words - self.in_use, 0) if self._sizes else 0
