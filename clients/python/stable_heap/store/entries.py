"""An entry of a leaf: an item of a list, a key with its value, a value of a set, or a container that is pinned; and the containers in it."""

from __future__ import annotations

import weakref
from typing import Any, Iterator

from .containers import SCALARS, Container, containers_in
from .walking import entry_fields, tuple_path
from .words import DICT, LIST, SET, height_for

__all__ = ["ABSENT", "Pin", "containers_of", "fields_of_entry", "paths_of", "values_of_entry"]


class Absent:
    """Stands for an entry where a leaf is shorter, and for a value in a field that is null."""


ABSENT = Absent()


class Pin:
    """An entry of the pins: a container that Python still holds, though nothing else in the heap refers to it."""

    __slots__ = ("container", "__weakref__")

    def __init__(self, container: Container):
        self.container = weakref.ref(container)


def values_of_entry(entry: Any, kind: int) -> list[Any]:
    """The values of an entry, none for a hole. `kind` is of the container it is in."""
    if entry is ABSENT or entry is None and kind in (DICT, SET):
        return []
    return list(entry) if kind in (DICT, SET) else [entry]


def fields_of_entry(entry: Any, kind: int) -> list[Any]:
    """What stands in each field of an entry: its values, and ABSENT for a field that is null."""
    fields = entry_fields(kind)
    return [*values_of_entry(entry, kind), *[ABSENT] * fields][:fields]


def containers_of(entry: Any) -> Iterator[Container]:
    """The containers in an entry of a leaf, of whichever kind."""
    if entry is None or entry is ABSENT or type(entry) in SCALARS or isinstance(entry, Pin):
        return
    if type(entry) is tuple and any(isinstance(it, Pin) for it in entry):
        return
    for found, _ in containers_in(entry):
        yield found


def paths_of(entry: Any, kind: int) -> Iterator[tuple[Container, tuple[int, ...]]]:
    """The containers in an entry of a leaf, each with the fields that lead to it, of which the first is counted from those of the entry."""
    if entry is None and kind != LIST or entry is ABSENT:
        return
    for number, value in enumerate(values_of_entry(entry, kind)):
        if not isinstance(value, Pin):
            for found, items in containers_in(value):
                yield found, (number, *fields_to(value, items))


def fields_to(value: Any, items: tuple[int, ...]) -> Iterator[int]:
    """The fields that lead from a tuple's object to an item of an item of it."""
    for item in items:
        yield from tuple_path(item, height_for(len(value)))
        value = value[item]
