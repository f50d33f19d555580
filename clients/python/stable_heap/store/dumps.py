"""A store as text: a line of JSON for each container, with types, and with numbers of containers in place of references, so that cycles and sharing are
kept.

    {"object": 0, "dict": [["people", {"ref": 1}]]}

Texts, ints, finite floats, true, false and null stand for themselves; other values are an object of one key: "float" with its bits in hexadecimal, "bytes" in
hexadecimal, "tuple" with its items, "ref" with the number of a container. The first line is the root."""

from __future__ import annotations

import json
import math
import struct
from typing import Any, Iterable, Iterator

from .containers import Container, Dict, List, Set
from .errors import StoreError

__all__ = ["dumped", "restore"]

NAMES = {Dict: "dict", List: "list", Set: "set"}
KINDS = {name: kind for kind, name in NAMES.items()}


def dumped(root: Container) -> Iterator[str]:
    """The lines of all that is found from the root."""
    numbers = {id(root): 0}
    found: list[Container] = [root]

    def told(value: Any) -> Any:
        if isinstance(value, Container):
            if id(value) not in numbers:
                numbers[id(value)] = len(found)
                found.append(value)
            return {"ref": numbers[id(value)]}
        if type(value) is tuple:
            return {"tuple": [told(item) for item in value]}
        if type(value) is bytes:
            return {"bytes": value.hex()}
        if type(value) is float and not math.isfinite(value):
            return {"float": struct.pack(">d", value).hex()}
        return value

    at = 0
    while at < len(found):
        container = found[at]
        if isinstance(container, Dict):
            entries = [[told(key), told(value)] for key, value in container.items()]
        else:
            entries = [told(value) for value in container]
        yield json.dumps({"object": at, NAMES[type(container)]: entries})
        at += 1


def restore(lines: Iterable[str], root: Dict) -> None:
    """Puts what the lines tell into the dict, which is to be empty."""
    told = [json.loads(line) for line in lines if line.strip()]
    if not told or "dict" not in told[0] or any(line.get("object") != number for number, line in enumerate(told)):
        raise StoreError("the lines are no dump of a store")
    kinds = [next(name for name in KINDS if name in line) for line in told]
    # (containers of no store, which the root takes over together)
    made: list[Any] = [root, *(KINDS[kind]() for kind in kinds[1:])]
    entries: dict[Any, Any] = {}

    def value_of(value: Any) -> Any:
        if not isinstance(value, dict):
            return value
        [(kind, rest)] = value.items()
        if kind == "ref":
            return made[rest]
        if kind == "tuple":
            return tuple(value_of(item) for item in rest)
        if kind == "bytes":
            return bytes.fromhex(rest)
        return struct.unpack(">d", bytes.fromhex(rest))[0]

    for line, kind, container in zip(told, kinds, made):
        if container is root:
            entries.update((value_of(key), value_of(value)) for key, value in line[kind])
        elif kind == "dict":
            container.update((value_of(key), value_of(value)) for key, value in line[kind])
        elif kind == "list":
            container.extend(value_of(value) for value in line[kind])
        else:
            container.update(value_of(value) for value in line[kind])
    root.update(entries)
