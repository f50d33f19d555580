"""What a commit makes of containers: the nodes that the tree of each is to have, and the entries that differ from those in the heap.

Nothing here calls the heap, and nothing is changed in memory before a change is `applied`."""

from __future__ import annotations

import itertools
from typing import Any, Iterable, Iterator, NamedTuple

from .containers import Container
from .entries import ABSENT, containers_of
from .image import WIDTH, Arranged, Node, Span, arrange, arrange_slots, is_same, kept_nodes
from .walking import entry_fields
from .words import LIST

__all__ = ["Change", "ChangeSet", "Slot", "change_of", "different"]


class Slot(NamedTuple):
    """An entry that is written: in which leaf, at which place, what was there, and what is to be there."""

    leaf: Node
    place: int
    old: Any
    new: Any


class Change:
    """What becomes of one container: the nodes of its tree, from the leaves up, and what those of them that are in the heap are to hold."""

    def __init__(self, container: Container, levels: list[list[Node]], edits: dict[Node, list[Any]]):
        self.container, self.levels, self.edits = container, levels, edits
        self.slots = list(self._changed_slots())

    @property
    def height(self) -> int:
        return max(len(self.levels) - 1, 0)

    def _changed_slots(self) -> Iterator[Slot]:
        leaves = self.levels[0] if self.levels else []
        for leaf in leaves:
            if not leaf.stored:
                yield from (Slot(leaf, place, None, entry) for place, entry in enumerate(leaf.items))
            elif leaf in self.edits:
                yield from different(leaf, self.edits[leaf])
        staying = set(leaves)
        for leaf in self.container._levels[0] if self.container._levels else []:
            if leaf not in staying:
                yield from (Slot(leaf, place, entry, None) for place, entry in enumerate(leaf.items))

    def applied(self) -> None:
        """It was made in the heap: what is there now is noted of the container."""
        self._note_tree()
        if self.container._KIND != LIST:
            self._note_keys()

    def _note_tree(self) -> None:
        container = self.container
        for node in itertools.chain.from_iterable(container._levels):
            node.stored = False
        for node, items in self.edits.items():
            node.items = items
        for height, level in enumerate(self.levels):
            for node in level:
                node.stored = True
                for child in node.items if height else []:
                    child.up = node
        if self.levels:
            self.levels[-1][0].up = None
        container._levels = self.levels
        container._edits = container._no_edits(len(container._content))

    def _note_keys(self) -> None:
        """Where the entry of each key is now."""
        where = self.container._where
        for leaf, place, old, _ in self.slots:
            if old is not None and old is not ABSENT and where.get(old[0]) == (leaf, place):
                del where[old[0]]
        for leaf, place, _, new in self.slots:
            if new is not None and new is not ABSENT:
                where[new[0]] = leaf, place


class ChangeSet:
    """The changes of a commit, and the containers that are new to the heap, each with the serial number that it gets."""

    def __init__(self, dirty: Iterable[Container], next_serial: int):
        self.changes: list[Change] = []
        self.new: dict[int, Container] = {}
        self.serials: dict[int, int] = {}
        self._next_serial = next_serial
        waiting = [container for container in dirty if container._serial is not None]
        while waiting:
            self.changes.append(change_of(waiting.pop()))
            waiting += self._newly_reached(self.changes[-1])

    def _newly_reached(self, change: Change) -> Iterator[Container]:
        """The containers that are new to the heap, and are met in what that change writes."""
        for slot in change.slots:
            for found in containers_of(slot.new):
                if found._serial is None and id(found) not in self.new:
                    self.new[id(found)] = found
                    self.serials[id(found)] = self._next_serial + len(self.serials)
                    yield found

    @property
    def next_serial(self) -> int:
        """The serial number of the next new container after them."""
        return self._next_serial + len(self.new)

    def applied(self) -> None:
        """They were made in the heap."""
        for number, container in self.new.items():
            container._serial = self.serials[number]
        for change in self.changes:
            change.applied()


def different(node: Node, items: list[Any]) -> Iterator[Slot]:
    """The places at which a node is to hold something else than it holds."""
    for place, (old, new) in enumerate(itertools.zip_longest(node.items, items, fillvalue=ABSENT)):
        if old is not new:
            yield Slot(node, place, old, new)


def change_of(container: Container) -> Change:
    """What becomes of a container, as its content differs from what is in the heap."""
    arranged = list_leaves(container) if container._KIND == LIST else entry_leaves(container)
    levels, edits = [arranged.nodes] if arranged.nodes else [], dict(arranged.edits)
    while levels and len(levels[-1]) > 1:
        below = container._levels[len(levels) - 1] if len(levels) <= len(container._levels) else []
        above = container._levels[len(levels)] if len(levels) < len(container._levels) else []
        if above and is_same(below, levels[-1]):
            levels += container._levels[len(levels) :]
            break
        arranged = arrange(above, levels[-1], kept_nodes(below, levels[-1]) if above else [])
        levels.append(arranged.nodes)
        edits.update(arranged.edits)
    return Change(container, levels, edits)


def list_leaves(container: Container) -> Arranged:
    old = container._levels[0] if container._levels else []
    content, edits = container._content, container._edits
    if not edits.whole:
        return arrange(old, content, edits.spans() if old else [])
    items = [item for leaf in old for item in leaf.items]
    return arrange(old, content, [] if len(items) == len(content) else common_ends(items, content))


def common_ends(old: list[Any], new: list[Any]) -> list[Span]:
    """What both begin with, and end with."""
    most = min(len(old), len(new))
    front = next((at for at in range(most) if old[at] is not new[at]), most)
    back = next((at for at in range(most - front) if old[-1 - at] is not new[-1 - at]), most - front)
    return [Span(0, 0, front), Span(len(old) - back, len(new) - back, back)]


def entry_leaves(container: Container) -> Arranged:
    """The leaves of a dict or set. Entries whose key was removed and came again stand at the end, as in Python."""
    content, touched = container._content, container._edits
    fields = entry_fields(container._KIND)
    if touched.whole or not container._levels:
        return arrange_slots([], WIDTH // fields, {}, [item[:fields] for item in content.items()])
    edits: dict[Node, list[Any]] = {}
    added = 0
    for key, removed in touched.keys.items():
        where = container._where.get(key)
        stays = where is not None and key in content and not removed
        added += key in content and not stays
        if where is not None:
            leaf, place = where
            before = leaf.items[place]
            after = (before[0], content[key])[:fields] if stays else None
            if after is None or fields == 2 and after[1] is not before[1]:
                edits.setdefault(leaf, list(leaf.items))[place] = after
    last = list(itertools.islice(reversed(content.items()), added))
    return arrange_slots(container._levels[0], WIDTH // fields, edits, [item[:fields] for item in reversed(last)])
