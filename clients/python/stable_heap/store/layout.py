"""The objects that a commit makes, and what it puts into the staging area.

Before any field of an object in the heap is overwritten, all that is referred to elsewhere from then on is in the staging area: so nothing is lost that moves,
in whatever order the fields are written. What is large is made there too, a part at a time."""

from __future__ import annotations

from typing import Any, Iterable, NamedTuple, Optional, Tuple, Union

from .containers import Container
from .words import MOST_FIELDS, TUPLE, data_of, data_words, head, height_for

__all__ = ["MOST_WORDS", "OBJECT_WORDS", "Field", "Layout", "NewObject", "Staged", "Write"]

# a transaction of the heap makes at most so many words of objects, each of which takes two besides its fields; a few are left for the staging area's tables
MOST_WORDS, OBJECT_WORDS = 3_900, 2
# what is larger is made on its own, in the staging area
LARGE = 1_000


class NewObject:
    """An object that is to be made, with these fields."""

    __slots__ = ("fields", "words")

    def __init__(self, fields: list["Field"]):
        self.fields = fields
        self.words = OBJECT_WORDS + len(fields)


class Staged:
    """What is put into the staging area: a container, an object that was in the heap, which is found from a container's by the path, or one that is made
    for it. The number is its place there."""

    __slots__ = ("number", "container", "path", "made")

    def __init__(self, container: Optional[Container] = None, path: Iterable[int] = (), made: Optional[NewObject] = None):
        self.number = -1
        self.container, self.path, self.made = container, list(path), made


Field = Union[None, int, NewObject, Staged]
# what is staged once: a container, or what is behind a path from it, by the container's id
Key = Union[int, Tuple[int, Tuple[int, ...]]]


class Write(NamedTuple):
    """What a field is to hold of the object that is found from a container's one by this path."""

    path: list[int]
    field: int
    value: Field


class Layout:
    """Collects them. A container, or an object, is staged once, however often it is asked for."""

    def __init__(self, new: Iterable[Container]):
        # what is in the heap already, the objects of new containers, and parts of what is large
        self._moved: list[Staged] = []
        self._shells: list[Staged] = []
        self._parts: list[Staged] = []
        self._known: dict[Key, Staged] = {}
        # the words of all new objects
        self.words = 0
        for container in new:
            self._shells.append(Staged(container))
            self._known[id(container)] = self._shells[-1]
            self.words += OBJECT_WORDS + 2

    @property
    def staged(self) -> list[Staged]:
        """In the order in which they are put there."""
        return [*self._moved, *self._shells, *self._parts]

    @property
    def staged_count(self) -> int:
        return len(self._moved) + len(self._shells) + len(self._parts)

    def container(self, container: Container) -> Staged:
        """The container's object."""
        return self._move(id(container), Staged(container))

    def object_at(self, container: Container, path: list[int]) -> Staged:
        """What is in the heap behind that path from a container's object."""
        return self._move((id(container), tuple(path)), Staged(container, path))

    def _move(self, key: Key, staged: Staged) -> Staged:
        if key not in self._known:
            self._known[key] = staged
            self._moved.append(staged)
        return self._known[key]

    def new_object(self, fields: list[Field]) -> NewObject:
        """An object that is to be made, with what is made for it. Where that is large, some of it is made before it."""
        self.words += OBJECT_WORDS + len(fields)
        made = NewObject(fields)
        for number, field in enumerate(fields):
            if isinstance(field, NewObject):
                if made.words + field.words > LARGE + len(fields):
                    fields[number] = self.part(field)
                else:
                    made.words += field.words
        return made

    def part(self, field: Field) -> Field:
        """The field, for which nothing is made any more but in the staging area."""
        if not isinstance(field, NewObject):
            return field
        self._parts.append(Staged(made=field))
        return self._parts[-1]

    def new_tuple(self, items: list[Field]) -> NewObject:
        """The object of a tuple with these items."""
        return self._with_head(TUPLE, len(items), items)

    def new_data(self, value: Any) -> NewObject:
        """The object of a text, of bytes or of a number."""
        kind, data = data_of(value)
        return self._with_head(kind, len(data), list(data_words(data)))

    def _with_head(self, kind: int, count: int, fields: list[Field]) -> NewObject:
        height = height_for(len(fields))
        for _ in range(height):
            fields = [self.new_object(fields[at : at + MOST_FIELDS]) for at in range(0, len(fields), MOST_FIELDS)]
        return self.new_object([head(kind, height, count), *fields])
