"""The heap's root object: its four fields, by which all of a store is found."""

from __future__ import annotations

from typing import NamedTuple, Optional

from .. import Object, Transaction
from .errors import StoreError
from .walking import HEAD_FIELD, TOP_FIELD
from .words import DICT, SET, head, parts_of_head

__all__ = ["FIRST_SERIAL", "NEXT_FIELD", "PINS_FIELD", "PINS_SERIAL", "ROOT_FIELD", "ROOT_SERIAL", "STAGING_FIELD", "Root", "form", "make_root", "read_root"]

# the root dict, the form with the next serial number, the pins, and the staging area of a commit in several transactions
ROOT_FIELD, NEXT_FIELD, PINS_FIELD, STAGING_FIELD = range(4)
# the form of what is in a heap that holds a store, above the next serial number
FORM, FORM_SHIFT = 1, 48
# the serial numbers of the root dict, of the pins, and of the first other container
ROOT_SERIAL, PINS_SERIAL, FIRST_SERIAL = 1, 2, 3


class Root(NamedTuple):
    """What the root object says of a store."""

    root_serial: int
    pins_serial: int
    next_serial: int
    # whether there are pins of the run before this one
    has_pins: bool
    # whether a commit in several transactions was cut short
    has_staging: bool


def form(number: int) -> int:
    """The root object's field with that next serial number."""
    return FORM << FORM_SHIFT | number


def read_root(t: Transaction) -> Optional[Root]:
    """The store that is in the heap, or None in an empty heap."""
    fields = t.get_all([(t.root, field) for field in (ROOT_FIELD, NEXT_FIELD, PINS_FIELD, STAGING_FIELD)])
    root, number, pins, staging = fields
    if fields == [None] * 4:
        return None
    if not (isinstance(root, Object) and isinstance(pins, Object) and isinstance(number, int) and number >> FORM_SHIFT == FORM):
        raise StoreError("the heap holds something else than a store")
    root_serial, pins_serial = (parts_of_head(it)[2] for it in t.numbers([(root, HEAD_FIELD), (pins, HEAD_FIELD)]))
    return Root(root_serial, pins_serial, number & (1 << FORM_SHIFT) - 1, pins.get(TOP_FIELD) is not None, staging is not None)


def make_root(t: Transaction) -> Root:
    """Makes an empty store in an empty heap."""
    make_container(t, ROOT_FIELD, DICT, ROOT_SERIAL)
    make_container(t, PINS_FIELD, SET, PINS_SERIAL)
    t.root.put(NEXT_FIELD, form(FIRST_SERIAL))
    return Root(ROOT_SERIAL, PINS_SERIAL, FIRST_SERIAL, has_pins=False, has_staging=False)


def make_container(t: Transaction, field: int, kind: int, serial: int) -> None:
    made = t.new(2)
    made.put(HEAD_FIELD, head(kind, 0, serial))
    t.root.link(field, made)
