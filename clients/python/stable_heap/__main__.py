"""A look into the store of a folder, from the command line.

    python -m stable_heap info FOLDER
    python -m stable_heap tree FOLDER [DEPTH]
    python -m stable_heap dump FOLDER > FILE
    python -m stable_heap restore FOLDER [PAGES [LOGBYTES]] < FILE

`info` prints sizes and what is used, `tree` what is kept, to a depth of 3 or the one that is named, `dump` all of it as lines of JSON, and `restore` puts such
lines into a new store. Where the variable HEAP is set, it is the launcher of the heap's process with its options; where it is "here", the heap is in this
process, by the library.
"""

from __future__ import annotations

import os
import pathlib
import sys
from typing import Any, Callable, Iterator, Optional

from . import LAUNCHER, HeapError
from .store import Store, StoreError
from .store.containers import Container, Dict
from .store.dumps import dumped, restore
from .store.stores import LOG_BYTES, PAGES

# a container's line shows so many of its entries
SHOWN = 50


def open_store(folder: str, pages: int = PAGES, log_bytes: int = LOG_BYTES) -> Store:
    """The store of that folder; the sizes are of one that is to be made."""
    launcher = os.environ.get("HEAP", "")
    here: Optional[bool] = launcher == "here" if launcher else None
    return Store(folder, here=here, command=launcher.split() or (str(LAUNCHER),), pages=pages, log_bytes=log_bytes)


def info(store: Store) -> Iterator[str]:
    seen = sum(1 for _ in dumped(store.root))
    yield f"{seen} containers, of which the root dict has {len(store.root)} entries"
    for name, figure in store.stats().items():
        if name in ("pages", "words", "log_bytes", "log_bytes_used"):
            yield f"{name.replace('_', ' ')}: {figure:,}"


def tree(value: Any, depth: int, name: str = "root") -> Iterator[str]:
    """The value as lines, its entries indented."""
    if not isinstance(value, Container):
        yield f"{name}: {value!r}"
        return
    kind = type(value).__name__
    yield f"{name}: {kind} of {len(value)}"
    if depth == 0:
        return
    entries = value.items() if isinstance(value, Dict) else enumerate(value)
    for number, (key, inner) in enumerate(entries):
        if number == SHOWN:
            yield f"    .. {len(value) - SHOWN} more"
            break
        yield from ("    " + line for line in tree(inner, depth - 1, repr(key)))


def restored(words: list[str]) -> int:
    folder, sizes = words[0], dict(zip(("pages", "log_bytes"), map(int, words[1:])))
    if (pathlib.Path(folder) / "heap.img").exists():
        print(f"{folder} has a heap already", file=sys.stderr)
        return 1
    with open_store(folder, **sizes) as store:
        restore(sys.stdin, store.root)
    return 0


def main(words: list[str]) -> int:
    command, rest = (words or [""])[0], words[1:]
    if command == "restore" and 1 <= len(rest) <= 3 and all(word.isdigit() for word in rest[1:]):
        return restored(rest)
    if not (command in ("info", "dump") and len(rest) == 1 or command == "tree" and 1 <= len(rest) <= 2):
        print(__doc__, file=sys.stderr)
        return 2
    if not (pathlib.Path(rest[0]) / "heap.img").exists():
        print(f"{rest[0]} has no heap", file=sys.stderr)
        return 1
    with open_store(rest[0]) as store:
        lines: dict[str, Callable[[], Iterator[str]]] = {
            "info": lambda: info(store),
            "dump": lambda: dumped(store.root),
            "tree": lambda: tree(store.root, int(rest[1]) if rest[1:] else 3),
        }
        for line in lines[command]():
            print(line)
    return 0


if __name__ == "__main__":
    try:
        sys.exit(main(sys.argv[1:]))
    except (HeapError, StoreError) as error:
        print(error, file=sys.stderr)
        sys.exit(1)
