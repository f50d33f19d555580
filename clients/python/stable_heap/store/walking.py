"""How a container's object is found in the heap, and what is in it.

The heap has no names that last, so each container that is known has a place, where a reference to it is; it is found by following the references from the
root object to there."""

from __future__ import annotations

from typing import TYPE_CHECKING, Any, Optional, Tuple

from .. import Object, Transaction
from .containers import Container
from .image import WIDTH, Node
from .words import CONTAINERS, DATA_BYTES, DICT, MOST_FIELDS, SET, TUPLE, groups, joined_words, parts_of_head, value_of, value_of_data

if TYPE_CHECKING:
    from .stores import Store

__all__ = ["HEAD_FIELD", "TOP_FIELD", "PlaceParts", "Reader", "Walk", "entry_fields", "node_path", "tuple_path"]

# what a Place has
PlaceParts = Tuple[Container, Node, int, Tuple[int, ...]]
# the fields of a container's object
HEAD_FIELD, TOP_FIELD = 0, 1
# a walk keeps so many objects that it passed
PASSED = 8
# handles that a reader leaves for tuples in one another
LEFT_FREE = 24


def entry_fields(kind: int) -> int:
    """How many fields an entry of a leaf takes."""
    return 2 if kind == DICT else 1


def node_path(node: Node) -> list[int]:
    """The fields that lead from the top of its tree to the node."""
    path = []
    while node.up is not None:
        path.append(node.up.items.index(node))
        node = node.up
    return path[::-1]


def tuple_path(number: int, height: int) -> tuple[int, ...]:
    """The fields that lead to an item of a tuple's object."""
    size = MOST_FIELDS**height
    path = [1 + number // size]
    while height:
        number, height = number % size, height - 1
        size = MOST_FIELDS**height
        path.append(number // size)
    return tuple(path)


class Walk:
    """Finds objects in one transaction."""

    def __init__(self, store: "Store", transaction: Transaction):
        self._store, self._transaction = store, transaction
        self._passed: dict[int, Object] = {}

    def to(self, container: Container) -> Object:
        """The container's object."""
        chain: list[Container] = []
        here = container
        while id(here) not in self._passed and here._place is not None:
            chain.append(here)
            here = here._place.owner
        found = self._passed.get(id(here)) or self._transaction.root.follow(self._store._field_of(here))
        self._pass(here, found)
        for here in reversed(chain):
            place = here._place
            assert place is not None and place.leaf.stored
            found = self.down(found, [TOP_FIELD, *node_path(place.leaf), *place.path])
            self._pass(here, found)
        return found

    @staticmethod
    def down(found: Object, path: list[int]) -> Object:
        for field in path:
            found = found.follow(field)
        return found

    def _pass(self, container: Container, found: Object) -> None:
        self._passed.pop(id(container), None)
        self._passed[id(container)] = found
        if len(self._passed) > PASSED:
            del self._passed[next(iter(self._passed))]


class Reader:
    """Reads containers, in one transaction."""

    def __init__(self, store: "Store", transaction: Transaction):
        self._store, self._transaction = store, transaction

    def load(self, container: Container) -> None:
        """Reads what is in the container: values, and the containers in it as such that are still to be read."""
        found = Walk(self._store, self._transaction).to(container)
        head, top = self._transaction.get_all([(found, HEAD_FIELD), (found, TOP_FIELD)])
        assert isinstance(head, int) and not isinstance(top, int)
        _, height, serial = parts_of_head(head)
        assert serial == container._serial
        levels: list[list[Node]] = [[] for _ in range(height + 1)]
        if top is not None:
            self._node(container, top, height, None, levels)
        container._levels = levels if levels[0] else []
        fill(container)

    def _node(self, owner: Container, found: Object, height: int, up: Optional[Node], levels: list[list[Node]]) -> Node:
        node = Node([], len(found))
        node.up, node.stored = up, True
        levels[height].append(node)
        if height == 0:
            self._leaf(owner, node, found)
            return node
        for some in groups(node.room, self._at_once()):
            children = self._transaction.get_all([(found, field) for field in some])
            node.items += [self._node(owner, child, height - 1, node, levels) for child in children if isinstance(child, Object)]
            if None in children:
                break
        return node

    def _leaf(self, owner: Container, leaf: Node, found: Object) -> None:
        fields = entry_fields(owner._KIND)
        values = self._values(found, [(field, (owner, leaf, field // fields, (field,))) for field in range(leaf.room)])
        leaf.room //= fields
        if owner._KIND in (DICT, SET):
            entries = [tuple(values[at : at + fields]) for at in range(0, len(values), fields)]
            leaf.items = [entry if entry[0] is not HOLE else None for entry in entries]
            while leaf.items and leaf.items[-1] is None:
                leaf.items.pop()
        else:
            leaf.items = [value for value in values if value is not HOLE]

    def _at_once(self) -> int:
        """How many fields are asked for together, each of which may take a handle."""
        return max(1, min(WIDTH // 2, (self._transaction.spare_handles - LEFT_FREE) // 2))

    def _values(self, found: Object, fields: list[tuple[int, PlaceParts]]) -> list[Any]:
        """What these fields hold, each with the place that it is for a container."""
        values: list[Any] = []
        for some in groups(len(fields), self._at_once()):
            asked = [fields[number] for number in some]
            held = self._transaction.get_all([(found, field) for field, _ in asked])
            things = [it for it in held if isinstance(it, Object)]
            heads = iter(self._transaction.numbers([(it, HEAD_FIELD) for it in things]))
            met = [(it, parts_of_head(next(heads))) if isinstance(it, Object) else it for it in held]
            short_data = self._short_data([it for it in met if isinstance(it, tuple)])
            for it, (_, place) in zip(met, asked):
                if isinstance(it, tuple):
                    values.append(short_data[id(it[0])] if id(it[0]) in short_data else self._object(*it, place))
                else:
                    values.append(HOLE if it is None else value_of(it))
        return values

    def _short_data(self, met: list[tuple[Object, tuple[int, int, int]]]) -> dict[int, Any]:
        """The values of those objects that have all their data behind the head, which are asked for together."""
        of_data = [(it, kind, count) for it, (kind, height, count) in met if kind not in (*CONTAINERS, TUPLE) and height == 0]
        words = self._transaction.numbers([(it, 1 + number) for it, _, count in of_data for number in range(words_for(count))])
        values, at = {}, 0
        for it, kind, count in of_data:
            values[id(it)] = value_of_data(kind, joined_words(words[at : at + words_for(count)], count))
            at += words_for(count)
        return values

    def _object(self, found: Object, parts: tuple[int, int, int], place: PlaceParts) -> Any:
        kind, height, count = parts
        if kind in CONTAINERS:
            return self._store._meet(kind, count, place)
        if kind == TUPLE:
            return tuple(self._items(found, height, count, place))
        return value_of_data(kind, joined_words(self._words(found, height, words_for(count), 1), count))

    def _items(self, found: Object, height: int, count: int, place: PlaceParts) -> list[Any]:
        owner, leaf, entry, path = place
        places = [(owner, leaf, entry, (*path, *tuple_path(number, height))) for number in range(count)]
        if height == 0:
            return self._values(found, [(1 + number, it) for number, it in enumerate(places)])
        size = MOST_FIELDS**height
        items: list[Any] = []
        for some in groups(count, size):
            items += self._grouped(found.follow(1 + some.start // size), height, places[some.start : some.stop])
        return items

    def _grouped(self, found: Object, height: int, places: list[PlaceParts]) -> list[Any]:
        """The items of a tree without a head."""
        if height == 1:
            return self._values(found, list(enumerate(places)))
        size = MOST_FIELDS ** (height - 1)
        items: list[Any] = []
        for some in groups(len(places), size):
            items += self._grouped(found.follow(some.start // size), height - 1, places[some.start : some.stop])
        return items

    def _words(self, found: Object, height: int, count: int, first: int) -> list[int]:
        """So many numbers of raw data, from the first field on."""
        if height == 0:
            return self._transaction.numbers([(found, first + number) for number in range(count)])
        size = MOST_FIELDS**height
        words: list[int] = []
        for part in groups(count, size):
            words += self._words(found.follow(first + part.start // size), height - 1, len(part), 0)
        return words


class Hole:
    """Stands for a field that is null."""


HOLE = Hole()


def words_for(count: int) -> int:
    return -(-count // DATA_BYTES)


def fill(container: Container) -> None:
    """Makes the content from the tree."""
    leaves = container._levels[0] if container._levels else []
    if container._KIND not in (DICT, SET):
        container._content = [item for leaf in leaves for item in leaf.items]
    else:
        entries = [(leaf, slot, entry) for leaf in leaves for slot, entry in enumerate(leaf.items) if entry is not None]
        container._content = {entry[0]: entry[1] if len(entry) == 2 else None for _, _, entry in entries}
        container._where = {entry[0]: (leaf, slot) for leaf, slot, entry in entries}
    container._edits = container._no_edits(len(container._content))
