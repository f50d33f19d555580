"""A store's data in a new heap, which then takes the old one's place: with other sizes, and a log that holds no more than what is kept."""

from __future__ import annotations

import os
import pathlib
import shutil
import weakref
from typing import TYPE_CHECKING, Sequence

from .. import Heap
from .containers import Container
from .dumps import dumped
from .errors import Closed, StoreError
from .keeping import Sizes

if TYPE_CHECKING:
    from .stores import Store

__all__ = ["rebuild"]

NEW_FOLDER, HEAP_FILE = "heap.new", "heap.img"
# what is noted of the heap, in the store and in a container
STORE_FIELDS = ("_lock", "_heap", "_keeper", "_reading", "_known", "_next_serial", "_stale_pins", "_staging_left", "_is_unforced")
CONTAINER_FIELDS = ("_serial", "_place", "_levels", "_where", "_edits")


class Image:
    """These fields of an object, which are set aside while another heap is written."""

    def __init__(self, it: object, fields: Sequence[str]):
        self._it = it
        self._noted = {field: getattr(it, field) for field in fields}

    def restore(self) -> None:
        for field, value in self._noted.items():
            setattr(self._it, field, value)


def all_of(store: "Store") -> list[Container]:
    """All containers that are found from the root, or that Python holds, each of which is loaded."""
    found: list[Container] = [store._root]
    seen = {id(store._root)}
    for container in list(store._known.values()):
        if id(container) not in seen and container is not store._pins:
            seen.add(id(container))
            found.append(container)
    for container in found:
        container._now()
        for inner in container._inner():
            if id(inner) not in seen:
                seen.add(id(inner))
                found.append(inner)
    return found


def forget(container: Container) -> None:
    """From now on nothing of the container is in the heap."""
    container._serial = container._place = None
    container._levels, container._where = [], {}
    container._edits = container._no_edits(len(container._content))


def rebuild(store: "Store", sizes: Sizes) -> None:
    """Writes all that is kept into a new heap of these sizes, compares, and puts it into the old one's place in one step. Where something fails before that
    step the store goes on with the old one, unless it was interrupted; where something fails behind it the store is closed."""
    folder = store._folder
    if folder is None:
        raise StoreError("this store was made over an open heap, which has no folder")
    shutil.rmtree(folder / NEW_FOLDER, ignore_errors=True)
    kept = all_of(store)
    wanted = list(dumped(store._root))
    images = [Image(store, STORE_FIELDS), Image(store._pins, ["_content"]), *(Image(it, CONTAINER_FIELDS) for it in [*kept, store._pins])]
    old = store._heap
    try:
        write_new(store, folder / NEW_FOLDER, kept, sizes, wanted)
        os.replace(folder / NEW_FOLDER / HEAP_FILE, folder / HEAP_FILE)
    except BaseException as error:
        for image in images:
            image.restore()
        shutil.rmtree(folder / NEW_FOLDER, ignore_errors=True)
        if isinstance(error, Closed):
            raise StoreError(f"the store goes on with its old heap, as the new one failed: {error.__cause__}") from error
        raise
    go_on(store, folder, old)


def write_new(store: "Store", folder: pathlib.Path, kept: list[Container], sizes: Sizes, wanted: list[str]) -> None:
    """A new heap in that folder, which holds what is wanted."""
    heap = store._open_heap(folder, sizes)
    try:
        write_all(store, heap, kept, sizes)
    finally:
        heap.close()
    compare(store, folder, sizes, wanted)


def write_all(store: "Store", heap: Heap, kept: list[Container], sizes: Sizes) -> None:
    """All that is kept is new to that heap. What Python alone holds is written when it is put into the store again."""
    for container in kept:
        forget(container)
    store._pins._content = {}
    forget(store._pins)
    store._known = weakref.WeakValueDictionary(store._known)
    store._take_heap(heap, sizes)
    store._make_root()
    store._write([store._root], True)


def compare(store: "Store", folder: pathlib.Path, sizes: Sizes, wanted: list[str]) -> None:
    """Whether the new heap holds what is wanted."""
    with type(store).over(store._open_heap(folder, sizes)) as copy:
        if list(dumped(copy.root)) != wanted:
            raise StoreError("the new heap does not hold what the old one holds, which stays")


def go_on(store: "Store", folder: pathlib.Path, old: Heap) -> None:
    """The store goes on with the new heap, whose file has the old one's name."""
    store._heap = old
    with store._guard():
        sync(folder)
        old.close()
    store._open_again()
    shutil.rmtree(folder / NEW_FOLDER, ignore_errors=True)


def sync(folder: pathlib.Path) -> None:
    """Puts the names of the folder on the disk."""
    opened = os.open(folder, os.O_RDONLY)
    try:
        os.fsync(opened)
    finally:
        os.close(opened)
