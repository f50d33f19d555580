"""The plan of a commit, which is made in memory alone: what containers hold and the heap does not.

Neither the plan nor its making changes anything in memory but the pins, of which the caller has a copy, so that another one can be made after a
collection. Once it was made in the heap, `applied` notes what is there."""

from __future__ import annotations

from typing import TYPE_CHECKING, Any, Iterable, Iterator

from .changes import Change, ChangeSet, different
from .containers import Container
from .entries import ABSENT, Pin, fields_of_entry, values_of_entry
from .image import Node
from .layout import MOST_WORDS, OBJECT_WORDS, Field, Layout, Staged, Write
from .placing import Placement
from .walking import HEAD_FIELD, TOP_FIELD, entry_fields, node_path
from .words import LIST, head, word_of

if TYPE_CHECKING:
    from .stores import Store

__all__ = ["Plan"]


class Plan:
    """All that a commit writes."""

    def __init__(self, store: "Store", dirty: Iterable[Container]):
        self.store = store
        self._changes = ChangeSet(dirty, store._next_serial)
        self._placement = Placement(store, self._changes)
        self.layout = Layout(self._changes.new.values())
        writes = [(self.layout.container(change.container), self._writes_of(change)) for change in self._changes.changes]
        # whether one transaction of the heap can't take all of it
        self.is_split = self.layout.words + OBJECT_WORDS * 10 + self.layout.staged_count > MOST_WORDS
        if self.is_split:
            writes = [(it, [Write(w.path, w.field, self.layout.part(w.value)) for w in some]) for it, some in writes]
        # the fields that are overwritten, each in an object that is found from a container's
        self.writes: list[tuple[Staged, list[Write]]] = writes

    @property
    def is_empty(self) -> bool:
        return not any(writes for _, writes in self.writes)

    @property
    def new(self) -> Iterable[Container]:
        """The containers that are new to the heap."""
        return self._changes.new.values()

    @property
    def next_serial(self) -> int:
        """The serial number of the next new container once it is made."""
        return self._changes.next_serial

    def heads(self) -> dict[int, int]:
        """The heads of the new containers."""
        heights = {id(change.container): change.height for change in self._changes.changes}
        return {number: head(it._KIND, heights[number], self._changes.serials[number]) for number, it in self._changes.new.items()}

    @property
    def events(self) -> int:
        """About how many events of the heap it takes."""
        return self.layout.words + 3 * self.layout.staged_count + sum(2 + len(writes) for _, writes in self.writes)

    @property
    def log_bytes(self) -> int:
        """How many bytes of the log it takes at most: 27 a write, and of what is made less than 15 a word."""
        return 100 + 27 * sum(len(writes) for _, writes in self.writes) + 15 * (self.layout.words + self.layout.staged_count)

    def applied(self) -> None:
        """It was made: what is in the heap now is noted of each container."""
        self._changes.applied()
        self._placement.applied()

    def _writes_of(self, change: Change) -> list[Write]:
        return ChangeWriter(self.store, self.layout, change).writes()


class ChangeWriter:
    """What is written of one change, and what is made and moved for that."""

    def __init__(self, store: "Store", layout: Layout, change: Change):
        self._layout, self._change = layout, change
        self._is_stale = store._is_stale(change.container)
        # where a value stays that has an object, that object is not made again: the path to it
        self._objects = dict(self._objects_in_leaves()) if change.container is not store._pins else {}

    def writes(self) -> list[Write]:
        change = self._change
        writes: list[Write] = []
        for height, level in enumerate(change.levels):
            for node in level:
                if node in change.edits:
                    writes += self._edits_of(node, height)
        return [*writes, *self._top(), *self._head()]

    def _top(self) -> Iterator[Write]:
        """The reference to the top of the tree, where that is another one, or there was none, or there is none any more."""
        change, container = self._change, self._change.container
        is_same = container._levels[-1:] == change.levels[-1:] and not self._is_stale
        if container._serial is None or not is_same:
            if change.levels:
                yield Write([], TOP_FIELD, self._node(change.levels[-1][0], change.height))
            elif container._serial is not None:
                yield Write([], TOP_FIELD, None)

    def _head(self) -> Iterator[Write]:
        """The head of a container that is in the heap, where the height of its tree changes."""
        change, container = self._change, self._change.container
        if container._serial is not None and change.height != max(len(container._levels) - 1, 0):
            yield Write([], HEAD_FIELD, head(container._KIND, change.height, container._serial))

    def _objects_in_leaves(self) -> Iterator[tuple[int, list[int]]]:
        """The objects of values that are in leaves that change."""
        kind = self._change.container._KIND
        fields = entry_fields(kind)
        for leaf in dict.fromkeys(slot.leaf for slot in self._change.slots if slot.leaf.stored):
            above = [TOP_FIELD, *node_path(leaf)]
            for place, entry in enumerate(leaf.items):
                for number, value in enumerate(values_of_entry(entry, kind)):
                    if word_of(value) is None and not isinstance(value, Container):
                        yield id(value), [*above, place * fields + number]

    def _kind_at(self, height: int) -> int:
        """Of what kind the entries of a node are: above the leaves there are lists of nodes."""
        return self._change.container._KIND if height == 0 else LIST

    def _edits_of(self, node: Node, height: int) -> Iterator[Write]:
        """The fields of a node that is in the heap and stays there."""
        path = [TOP_FIELD, *node_path(node)]
        kind = self._kind_at(height)
        fields = entry_fields(kind)
        for _, place, old, new in different(node, self._change.edits[node]):
            before, after = fields_of_entry(old, kind), fields_of_entry(new, kind)
            for number in range(fields):
                if before[number] is not after[number]:
                    yield Write(path, place * fields + number, self._item(after[number], height))

    def _item(self, item: Any, height: int) -> Field:
        if item is ABSENT:
            return None
        return self._value(item) if height == 0 else self._node(item, height - 1)

    def _node(self, node: Node, height: int) -> Field:
        if node.stored:
            return self._layout.object_at(self._change.container, [TOP_FIELD, *node_path(node)])
        kind = self._kind_at(height)
        made = [self._item(item, height) for entry in node.items for item in fields_of_entry(entry, kind)]
        return self._layout.new_object([*made, *[None] * (node.room * entry_fields(kind) - len(made))])

    def _value(self, value: Any) -> Field:
        if isinstance(value, Pin):
            value = value.container()
        if isinstance(value, Container):
            return self._layout.container(value)
        word = word_of(value)
        if word is not None:
            return word
        if id(value) in self._objects:
            return self._layout.object_at(self._change.container, self._objects[id(value)])
        if type(value) is tuple:
            return self._layout.new_tuple([self._value(item) for item in value])
        return self._layout.new_data(value)
