"""A store of Python's values: dicts, lists and sets that outlive the program.

    from stable_heap.store import Store

    with Store("notes") as store:
        with store.transaction():
            store.root["people"] = {"ada": {"born": 1815, "tags": ["first"]}}
        store.root["people"]["ada"]["tags"].append("poet")

What a `with` did that was left without an exception is on the disk, whole. What a kill, a crash or an exception cut short is not there at all."""

from .containers import Dict, List, Set, plain
from .errors import Closed, Full, StoreError, TooLarge
from .stores import Store

__all__ = ["Closed", "Dict", "Full", "List", "Set", "Store", "StoreError", "TooLarge", "plain"]
