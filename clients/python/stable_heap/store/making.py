"""Makes a plan in the heap: in one transaction; or, where that makes too many objects, in several, of which the last one alone changes anything that can be
found."""

from __future__ import annotations

from typing import Optional

from .. import Heap, Object, Transaction
from .errors import TooLarge
from .layout import MOST_WORDS, OBJECT_WORDS, Field, NewObject, Staged, Write
from .planning import Plan
from .root import NEXT_FIELD, STAGING_FIELD, form
from .walking import HEAD_FIELD, Walk
from .words import MOST_FIELDS

__all__ = ["Maker"]


class StagingArea:
    """Objects that a commit needs again: a few by handles, the others in tables, which are objects of the transaction. Where the commit is split, the root
    object refers to the table of tables until it is done."""

    HELD = 16
    TABLES = 6

    def __init__(self, transaction: Transaction, length: int, is_split: bool):
        self._transaction, self._length = transaction, length
        self._first = 0 if is_split else self.HELD
        tables = -(-max(length - self._first, 0) // MOST_FIELDS)
        if tables > MOST_FIELDS:
            raise TooLarge(f"a transaction that makes or moves {length:,} objects at once: make it in parts")
        self._held: dict[int, Object] = {}
        self._tables: dict[int, Object] = {}
        self._index: Optional[Object] = None
        if tables and (is_split or tables > self.TABLES):
            self._index = transaction.new(tables)
        if self._index and is_split:
            transaction.root.link(STAGING_FIELD, self._index)

    def goes_on(self, transaction: Transaction) -> None:
        """The next of a commit's transactions begins."""
        self._transaction = transaction
        self._tables.clear()
        self._index = transaction.root.follow(STAGING_FIELD) if self._index else None

    def put(self, number: int, found: Object) -> None:
        if number < self._first:
            self._held[number] = found
        else:
            table, field = divmod(number - self._first, MOST_FIELDS)
            self._table(table, is_new=field == 0).link(field, found)

    def get(self, number: int) -> Object:
        if number < self._first:
            return self._held[number]
        table, field = divmod(number - self._first, MOST_FIELDS)
        return self._table(table).follow(field)

    def _table(self, number: int, is_new: bool = False) -> Object:
        if number not in self._tables:
            if len(self._tables) == self.TABLES:
                del self._tables[next(iter(self._tables))]
            self._tables[number] = self._new_table(number) if is_new else self._found_table(number)
        return self._tables[number]

    def _new_table(self, number: int) -> Object:
        made = self._transaction.new(min(MOST_FIELDS, self._length - self._first - number * MOST_FIELDS))
        if self._index:
            self._index.link(number, made)
        return made

    def _found_table(self, number: int) -> Object:
        assert self._index is not None
        return self._index.follow(number)


class Maker:
    """Makes a plan: fills the staging area, and then overwrites what is in the heap."""

    def __init__(self, plan: Plan, heap: Heap):
        self._plan, self._heap = plan, heap
        self._staged = plan.layout.staged
        for number, it in enumerate(self._staged):
            it.number = number
        self._heads = plan.heads()

    def make(self, durable: bool) -> None:
        """All of it."""
        waiting = self._staged[::-1]
        area: Optional[StagingArea] = None
        while self._plan.is_split and waiting:
            with self._heap.transaction(durable=False) as transaction:
                area = self._area_in(transaction, area)
                TransactionMaker(self._plan, self._heads, area, transaction).fill(waiting)
        with self._heap.transaction(durable) as transaction:
            area = self._area_in(transaction, area)
            last = TransactionMaker(self._plan, self._heads, area, transaction)
            last.fill(waiting)
            last.overwrite()

    def _area_in(self, transaction: Transaction, area: Optional[StagingArea]) -> StagingArea:
        if area is None:
            return StagingArea(transaction, len(self._staged), self._plan.is_split)
        area.goes_on(transaction)
        return area


class TransactionMaker:
    """Makes what belongs to one of the transactions."""

    def __init__(self, plan: Plan, heads: dict[int, int], area: StagingArea, transaction: Transaction):
        self._plan, self._heads = plan, heads
        self._area, self._transaction = area, transaction

    def fill(self, waiting: list[Staged]) -> None:
        """Puts so much into the staging area as the transaction can make. The last one of those that wait is the next one."""
        walk = Walk(self._plan.store, self._transaction)
        words = MOST_FIELDS
        while waiting and (words + most_words(waiting[-1]) <= MOST_WORDS or not self._plan.is_split):
            it = waiting.pop()
            words += most_words(it)
            self._area.put(it.number, self._object_of(it, walk))

    def overwrite(self) -> None:
        """Overwrites what is in the heap."""
        for it, writes in self._plan.writes:
            if writes:
                self._overwrite(self._area.get(it.number), writes)
        if self._plan.new:
            self._transaction.root.put(NEXT_FIELD, form(self._plan.next_serial))
        if self._plan.is_split or self._plan.store._staging_left:
            self._transaction.root.clear(STAGING_FIELD)

    def _overwrite(self, container: Object, writes: list[Write]) -> None:
        """Those fields, of which the ones of an object stand together."""
        path: Optional[list[int]] = None
        found = container
        for write in writes:
            if write.path is not path:
                path, found = write.path, Walk.down(container, write.path)
            self._put(found, write.field, write.value)

    def _object_of(self, it: Staged, walk: Walk) -> Object:
        if it.made is not None:
            return self._make(it.made)
        assert it.container is not None
        if id(it.container) in self._heads:
            return self._shell(it)
        return walk.down(walk.to(it.container), it.path)

    def _shell(self, it: Staged) -> Object:
        """A new container's object, which has no entries yet."""
        made = self._transaction.new(2)
        made.put(HEAD_FIELD, self._heads[id(it.container)])
        return made

    def _make(self, wanted: NewObject) -> Object:
        made = self._transaction.new(len(wanted.fields))
        for number, field in enumerate(wanted.fields):
            if field is not None:
                self._put(made, number, field)
        return made

    def _put(self, found: Object, number: int, field: Field) -> None:
        if field is None:
            found.clear(number)
        elif isinstance(field, int):
            found.put(number, field)
        elif isinstance(field, NewObject):
            found.link(number, self._make(field))
        else:
            found.link(number, self._area.get(field.number))


def most_words(it: Staged) -> int:
    """How many words it may take, with a table."""
    return (it.made.words if it.made else OBJECT_WORDS + 2) + (it.number % MOST_FIELDS == 0) * (MOST_FIELDS + OBJECT_WORDS)
