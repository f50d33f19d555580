"""What stands in a `with` over a store: a transaction of the user's, the update of one container, and the lock of a store that is closed."""

from __future__ import annotations

from types import TracebackType
from typing import TYPE_CHECKING, Any, Optional, Type

from .containers import Container
from .errors import Closed, StoreError
from .levels import Level

if TYPE_CHECKING:
    from .stores import Store

__all__ = ["ClosedLock", "TransactionScope", "UpdateScope"]


class ClosedLock:
    """Stands for the lock of a store that is closed, and refuses each turn."""

    def __init__(self, why: str):
        self._why = why

    def __enter__(self) -> None:
        raise Closed(self._why)

    def __exit__(self, *error: object) -> None:
        pass


class Scope:
    """A `with` of which a level of the store's is a part. An interrupt may come before Python calls its end: the store is closed once it is gone."""

    __slots__ = ("_store", "_level")

    def __init__(self, store: "Store"):
        self._store = store
        self._level: Optional[Level] = None

    def _begin(self) -> None:
        # (it is known here before it is the store's)
        self._level = Level()
        self._store._begin(self._level)

    def _end(self, failed: bool, durable: Optional[bool] = None) -> None:
        assert self._level is not None
        self._store._end(self._level, failed, durable)
        self._level = None

    def __del__(self) -> None:
        if self._level is not None:
            self._store._left(self._level)


class TransactionScope(Scope):
    """A transaction, or one inside of another."""

    __slots__ = ("_durable",)

    def __init__(self, store: "Store", durable: Optional[bool]):
        super().__init__(store)
        self._durable = durable

    def __enter__(self) -> "Store":
        if self._level is not None:
            raise StoreError("this transaction has begun: store.transaction() makes another one")
        self._begin()
        return self._store

    def __exit__(self, kind: Optional[Type[BaseException]], error: Optional[BaseException], trace: Optional[TracebackType]) -> None:
        self._end(kind is not None, self._durable)


class UpdateScope(Scope):
    """An update of one container: a transaction of its own, where none is active."""

    __slots__ = ("_container",)

    def __init__(self, store: "Store", container: Container):
        super().__init__(store)
        self._container = container

    def __enter__(self) -> Any:
        if not self._store._is_active():
            self._begin()
        try:
            return self._store._changing(self._container)
        except BaseException:
            if self._level is not None:
                self._end(failed=True)
            raise

    def __exit__(self, kind: Optional[Type[BaseException]], error: Optional[BaseException], trace: Optional[TracebackType]) -> None:
        if self._level is not None:
            self._end(kind is not None)
        elif kind is not None and not issubclass(kind, Exception):
            # (an interrupt may have come between the change and the note of it)
            self._container._edits.whole = True
