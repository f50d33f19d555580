"""The transaction in which a store reads."""

from __future__ import annotations

from types import TracebackType
from typing import Optional, Type

from .. import Heap, Transaction

__all__ = ["ReadTransaction"]


class ReadTransaction:
    """A transaction of the heap that stays open from one read to the next. Its end takes five bytes of the log, whether it is sealed or aborted: with one
    for each container a full log would soon have no room to be read."""

    def __init__(self, heap: Heap):
        self._heap = heap
        self._open: Optional[Transaction] = None

    def __enter__(self) -> Transaction:
        if self._open is None:
            self._open = self._heap.transaction(durable=False).__enter__()
        return self._open

    def __exit__(self, kind: Optional[Type[BaseException]], error: Optional[BaseException], trace: Optional[TracebackType]) -> None:
        """After a refusal it can only end; the next read begins another one."""
        ending = self._open
        if error is not None and ending is not None:
            self._open = None
            ending.__exit__(kind, error, trace)

    def end(self) -> None:
        """To be called before anything is written, since what was read is locked, and before a collection, since its handles keep what they hold. It is
        aborted: there is nothing to commit, and an abort is never refused for memory."""
        ending, self._open = self._open, None
        if ending is not None:
            try:
                ending._abort()
            finally:
                ending._leave()
