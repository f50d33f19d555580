"""The dicts, lists and sets that a store keeps: they behave as Python's own do, and hold values that a store can keep.

One that was just made is of no store, and is an object in memory like others. Once it is put into a container of a store it is of that store: from then
on each of its calls takes its turn, and each change is part of a transaction."""

from __future__ import annotations

import collections.abc
import contextlib
from typing import TYPE_CHECKING, Any, Callable, ContextManager, Iterable, Iterator, Optional, Type, TypeVar, Union

from .image import Node, Splices, Touched
from .words import DICT, LIST, SET

if TYPE_CHECKING:
    from .stores import Store

__all__ = ["Container", "Dict", "List", "Set", "containers_in", "plain"]

SCALARS = frozenset([type(None), bool, int, float, str, bytes])
# tuples may be in one another so deep: each takes a handle while it is read or written, and a transaction has 64
DEEPEST = 20
MISSING = object()
Kind = TypeVar("Kind", bound="Container")


class NoStore:
    """Stands for the store of a container that has none."""

    _lock: ContextManager[Any] = contextlib.nullcontext()

    @staticmethod
    def _change(container: "Container") -> ContextManager[Any]:
        return contextlib.nullcontext(container._content)

    @staticmethod
    def _take(found: list["Container"]) -> None:
        """Containers that were put into one of no store are of none."""

    @staticmethod
    def _load(container: "Container") -> Any:
        raise AssertionError("a container of no store is in memory")


NO_STORE = NoStore()


class Place:
    """Where in the heap a reference to a container is: in that entry of a leaf of its owner, behind these fields, of the leaf and of the tuples below it."""

    __slots__ = ("owner", "leaf", "entry", "path")

    def __init__(self, owner: "Container", leaf: Node, entry: int, path: tuple[int, ...]):
        self.owner, self.leaf, self.entry, self.path = owner, leaf, entry, path


class Container:
    """What Dict, List and Set have in common."""

    __slots__ = ("_store", "_content", "_serial", "_place", "_levels", "_where", "_edits", "__weakref__")
    _KIND = 0
    __hash__ = None  # type: ignore[assignment]
    _store: Union["Store", NoStore]
    # what it holds, or None while that is in the heap alone: a list, or a dict of a dict or set
    _content: Any
    # its number in the heap, if it is there
    _serial: Optional[int]
    # where a reference to it is in the heap; None for those that the root object refers to
    _place: Optional[Place]
    # its tree in the heap: the leaves, and the nodes above them, up to one
    _levels: list[list[Node]]
    # where the entry of a key is, of a dict or set
    _where: dict[Any, tuple[Node, int]]
    # how the content may differ from what is in the heap: Splices of a list, Touched of a dict or set
    _edits: Any

    def __new__(cls: Type[Kind], *args: object, **named: object) -> Kind:
        made = object.__new__(cls)
        made._store = NO_STORE
        made._content = cls._nothing()
        made._serial = made._place = None
        made._levels, made._where = [], {}
        made._edits = cls._no_edits(0)
        return made

    @staticmethod
    def _nothing() -> Any:
        raise NotImplementedError

    @staticmethod
    def _no_edits(length: int) -> Any:
        return Touched()

    def _now(self) -> Any:
        """The content, in a turn of the caller's."""
        content = self._content
        return self._store._load(self) if content is None else content

    def _taken(self, values: list[Any]) -> list[Any]:
        """The values as they are kept. The containers among them are of the same store from now on."""
        found: list[Container] = []
        kept = stored_form(values, found)
        self._store._take(found)
        return kept

    def __len__(self) -> int:
        with self._store._lock:
            return len(self._now())

    def __contains__(self, value: object) -> bool:
        with self._store._lock:
            return value in self._now()

    def __iter__(self) -> Iterator[Any]:
        return Steps(self, iter)

    def __repr__(self) -> str:
        with self._store._lock:
            return repr(self._now())

    def __reduce_ex__(self, protocol: Any) -> Any:
        """A pickle, as a copy, is of a plain object."""
        made = plain(self)
        return same, (made,)

    def __copy__(self) -> Any:
        return self.copy()  # type: ignore[attr-defined]

    def _snapshot(self) -> Any:
        return self._content.copy()

    def _inner(self) -> list["Container"]:
        """The containers in it."""
        values = self._content.values() if self._KIND == DICT else self._content if self._KIND == LIST else ()
        return [found for value in values for found, _ in containers_in(value)]

    def _restore(self, content: Any) -> None:
        raise NotImplementedError


def same(made: Any) -> Any:
    return made


class Steps:
    """An iterator each of whose steps is a call of its container, and so takes its turn."""

    __slots__ = ("_container", "_steps", "_store")

    def __init__(self, container: Container, begin: Callable[[Any], Iterator[Any]]):
        self._container: Optional[Container] = container
        self._store = container._store
        with self._store._lock:
            self._steps = begin(container._now())

    def __iter__(self) -> "Steps":
        return self

    def __next__(self) -> Any:
        with self._store._lock:
            try:
                return next(self._steps)
            except StopIteration:
                self._container = None
                raise


class List(Container):
    """A list that a store keeps."""

    __slots__ = ()
    _KIND = LIST
    _nothing = list
    _no_edits = Splices

    def __init__(self, items: Iterable[Any] = ()):
        self[:] = items

    def _restore(self, content: Any) -> None:
        self._content[:] = content

    def __getitem__(self, index: Any) -> Any:
        with self._store._lock:
            found = self._now()[index]
        return made_of(found) if type(index) is slice else found

    def __setitem__(self, index: Any, value: Any) -> None:
        if type(index) is slice:
            self._set_slice(index, listed(value))
            return
        with self._store._change(self) as content:
            [value] = self._taken([value])
            content[index] = value
            self._edits.splice(range(len(content))[index], 1, 1)

    def _set_slice(self, index: slice, values: list[Any]) -> None:
        with self._store._change(self) as content:
            places = range(len(content))[index]
            values = self._taken(values)
            content[index] = values
            if places.step == 1:
                self._edits.splice(places.start, len(places), len(values))
            else:
                self._edits.whole = True

    def __delitem__(self, index: Any) -> None:
        with self._store._change(self) as content:
            length = len(content)
            del content[index]
            places = range(length)[index]
            if type(index) is not slice:
                self._edits.splice(places, 1, 0)
            elif places.step == 1:
                self._edits.splice(places.start, len(places), 0)
            else:
                self._edits.whole = True

    def __reversed__(self) -> Iterator[Any]:
        return Steps(self, reversed)

    def append(self, value: Any) -> None:
        with self._store._change(self) as content:
            [value] = self._taken([value])
            self._edits.splice(len(content), 0, 1)
            content.append(value)

    def extend(self, values: Iterable[Any]) -> None:
        new = listed(values)
        with self._store._change(self) as content:
            new = self._taken(new)
            self._edits.splice(len(content), 0, len(new))
            content.extend(new)

    def insert(self, index: int, value: Any) -> None:
        with self._store._change(self) as content:
            [value] = self._taken([value])
            at = slice(index, None).indices(len(content))[0]
            content.insert(index, value)
            self._edits.splice(at, 0, 1)

    def pop(self, index: int = -1) -> Any:
        with self._store._change(self) as content:
            length = len(content)
            value = content.pop(index)
            self._edits.splice(range(length)[index], 1, 0)
            return value

    def remove(self, value: Any) -> None:
        with self._store._change(self) as content:
            at = content.index(value)
            del content[at]
            self._edits.splice(at, 1, 0)

    def clear(self) -> None:
        with self._store._change(self) as content:
            self._edits.splice(0, len(content), 0)
            content.clear()

    def sort(self, *, key: Optional[Callable[[Any], Any]] = None, reverse: bool = False) -> None:
        with self._store._change(self) as content:
            self._edits.whole = True
            content.sort(key=key, reverse=reverse)

    def reverse(self) -> None:
        with self._store._change(self) as content:
            self._edits.whole = True
            content.reverse()

    def index(self, value: Any, *range_: int) -> int:
        with self._store._lock:
            found: int = self._now().index(value, *range_)
            return found

    def count(self, value: Any) -> int:
        with self._store._lock:
            found: int = self._now().count(value)
            return found

    def copy(self) -> "List":
        """A list of no store, with the same items."""
        with self._store._lock:
            return made_of(self._now()[:])

    def __add__(self, other: Any) -> "List":
        with self._store._lock:
            return made_of(self._now() + _list_of(other))

    def __radd__(self, other: Any) -> "List":
        with self._store._lock:
            return made_of(_list_of(other) + self._now())

    def __iadd__(self, values: Iterable[Any]) -> "List":  # type: ignore[misc]  # as a list's it takes what + does not
        self.extend(values)
        return self

    def __mul__(self, times: int) -> "List":
        with self._store._lock:
            return made_of(self._now() * times)

    __rmul__ = __mul__

    def __imul__(self, times: int) -> "List":
        with self._store._change(self) as content:
            length = len(content)
            content *= times
            if content:
                self._edits.splice(length, 0, len(content) - length)
            else:
                self._edits.splice(0, length, 0)
            return self

    def _compared(self, other: Any, compare: Callable[[Any, Any], Any]) -> Any:
        if not isinstance(other, (list, List)):
            return NotImplemented
        with self._store._lock:
            return compare(self._now(), _list_of(other))

    def __eq__(self, other: object) -> Any:
        return self._compared(other, lambda one, two: one == two)

    def __lt__(self, other: Any) -> Any:
        return self._compared(other, lambda one, two: one < two)

    def __le__(self, other: Any) -> Any:
        return self._compared(other, lambda one, two: one <= two)

    def __gt__(self, other: Any) -> Any:
        return self._compared(other, lambda one, two: one > two)

    def __ge__(self, other: Any) -> Any:
        return self._compared(other, lambda one, two: one >= two)


def listed(values: Iterable[Any]) -> list[Any]:
    """A list of the values. (That of `list` takes room first for so many as an iterator claims to have.)"""
    return [value for value in values]


def made_of(items: list[Any]) -> List:
    """A list of no store, with items that a store's list had."""
    made = List()
    made._content = items
    return made


def _list_of(other: Any) -> Any:
    if not isinstance(other, List):
        return other
    with other._store._lock:
        return other._now()


class Dict(Container):
    """A dict that a store keeps. Its keys are values without containers, such as numbers, texts, and tuples of these."""

    __slots__ = ()
    _KIND = DICT
    _nothing = dict

    def __init__(self, *args: Any, **named: Any):
        self.update(*args, **named)

    @classmethod
    def fromkeys(cls, keys: Iterable[Any], value: Any = None) -> Any:
        made = cls()
        for key in keys:
            made[key] = value
        return made

    def _restore(self, content: Any) -> None:
        self._content.clear()
        self._content.update(content)

    def __getitem__(self, key: Any) -> Any:
        with self._store._lock:
            return self._now()[key]

    def get(self, key: Any, default: Any = None) -> Any:
        with self._store._lock:
            return self._now().get(key, default)

    def __setitem__(self, key: Any, value: Any) -> None:
        check_key(key)
        with self._store._change(self) as content:
            [content[key]] = self._taken([value])
            self._edits.put(key)

    def __delitem__(self, key: Any) -> None:
        with self._store._change(self) as content:
            del content[key]
            self._edits.remove(key)

    def pop(self, key: Any, default: Any = MISSING) -> Any:
        with self._store._change(self) as content:
            if key not in content and default is not MISSING:
                return default
            value = content.pop(key)
            self._edits.remove(key)
            return value

    def popitem(self) -> tuple[Any, Any]:
        with self._store._change(self) as content:
            if not content:
                raise KeyError("popitem(): dictionary is empty")
            key, value = content.popitem()
            self._edits.remove(key)
            return key, value

    def setdefault(self, key: Any, default: Any = None) -> Any:
        with self._store._lock:
            if key not in self._now():
                self[key] = default
            return self._now()[key]

    def update(self, *args: Any, **named: Any) -> None:
        given = dict(*args, **named) if not (len(args) == 1 and isinstance(args[0], Dict)) else {**_dict_of(args[0]), **named}
        for key in given:
            check_key(key)
        with self._store._change(self) as content:
            content.update(zip(given, self._taken(list(given.values()))))
            for key in given:
                self._edits.put(key)

    def clear(self) -> None:
        with self._store._change(self) as content:
            content.clear()
            self._edits.whole = True

    def copy(self) -> "Dict":
        """A dict of no store, with the same keys and values."""
        made = Dict()
        made._content = _dict_of(self).copy()
        return made

    def keys(self) -> "Keys":
        return Keys(self)

    def values(self) -> "Values":
        return Values(self)

    def items(self) -> "Items":
        return Items(self)

    def __reversed__(self) -> Iterator[Any]:
        return Steps(self, reversed)

    def __eq__(self, other: object) -> Any:
        if not isinstance(other, (dict, Dict)):
            return NotImplemented
        with self._store._lock:
            return self._now() == _dict_of(other)

    def __or__(self, other: Any) -> Any:
        if not isinstance(other, (dict, Dict)):
            return NotImplemented
        made = self.copy()
        made.update(other)
        return made

    def __ror__(self, other: Any) -> Any:
        if not isinstance(other, dict):
            return NotImplemented
        made = Dict(other)
        made.update(self)
        return made

    def __ior__(self, other: Any) -> "Dict":
        self.update(other)
        return self


def _dict_of(other: Any) -> Any:
    if not isinstance(other, Dict):
        return other
    with other._store._lock:
        return other._now()


class View(collections.abc.MappingView):
    """What the views of a dict have in common: they are gone through as the dict is at each call."""

    __slots__ = ()
    _mapping: Dict

    def __init__(self, mapping: Dict):
        self._mapping = mapping

    @staticmethod
    def _part(content: Any) -> Any:
        """What the view shows of the dict's content."""
        raise NotImplementedError

    def __iter__(self) -> Iterator[Any]:
        return Steps(self._mapping, lambda content: iter(self._part(content)))

    def __reversed__(self) -> Iterator[Any]:
        return Steps(self._mapping, lambda content: reversed(self._part(content)))

    def __repr__(self) -> str:
        return f"{type(self).__name__}({list(self)!r})"


# (that these classes of Python's have parameters is not known to Python 3.8)
class Keys(View, collections.abc.KeysView):  # type: ignore[type-arg]
    """The keys of a dict, as they are at each call."""

    __slots__ = ()

    @staticmethod
    def _part(content: Any) -> Any:
        return content


class Values(View, collections.abc.ValuesView):  # type: ignore[type-arg]
    """The values of a dict, as they are at each call."""

    __slots__ = ()

    @staticmethod
    def _part(content: Any) -> Any:
        return content.values()


class Items(View, collections.abc.ItemsView):  # type: ignore[type-arg]
    """The pairs of a dict, as they are at each call."""

    __slots__ = ()

    @staticmethod
    def _part(content: Any) -> Any:
        return content.items()


class Set(Container, collections.abc.MutableSet):  # type: ignore[type-arg]
    """A set that a store keeps. What is in it are values without containers. It keeps the order in which they came."""

    __slots__ = ()
    _KIND = SET
    _nothing = dict

    def __init__(self, values: Iterable[Any] = ()):
        self.update(values)

    def _restore(self, content: Any) -> None:
        self._content.clear()
        self._content.update(content)

    def add(self, value: Any) -> None:
        self.update([value])

    def update(self, *others: Iterable[Any]) -> None:
        values = [value for other in others for value in other]
        for value in values:
            check_key(value)
        with self._store._change(self) as content:
            for value in values:
                if value not in content:
                    content[value] = None
                    self._edits.put(value)

    def discard(self, value: Any) -> None:
        with self._store._change(self) as content:
            if value in content:
                del content[value]
                self._edits.remove(value)

    def remove(self, value: Any) -> None:
        with self._store._change(self) as content:
            del content[value]
            self._edits.remove(value)

    def pop(self) -> Any:
        with self._store._change(self) as content:
            if not content:
                raise KeyError("pop from an empty set")
            value, _ = content.popitem()
            self._edits.remove(value)
            return value

    def clear(self) -> None:
        with self._store._change(self) as content:
            content.clear()
            self._edits.whole = True

    def copy(self) -> "Set":
        """A set of no store, with the same values."""
        return Set(self)

    def union(self, *others: Iterable[Any]) -> "Set":
        made = self.copy()
        made.update(*others)
        return made

    def intersection(self, *others: Iterable[Any]) -> "Set":
        wanted = [set(other) for other in others]
        return Set(value for value in self if all(value in it for it in wanted))

    def difference(self, *others: Iterable[Any]) -> "Set":
        unwanted = {value for other in others for value in other}
        return Set(value for value in self if value not in unwanted)

    def symmetric_difference(self, other: Iterable[Any]) -> "Set":
        return self ^ Set(other)  # type: ignore[return-value]

    def issubset(self, other: Iterable[Any]) -> bool:
        wanted = set(other)
        return all(value in wanted for value in self)

    def issuperset(self, other: Iterable[Any]) -> bool:
        with self._store._lock:
            return all(value in self for value in other)

    def __repr__(self) -> str:
        with self._store._lock:
            content = self._now()
            return "{" + ", ".join(map(repr, content)) + "}" if content else "set()"


collections.abc.MutableMapping.register(Dict)
collections.abc.MutableSequence.register(List)


def check_key(key: Any, depth: int = 0) -> None:
    """A key is a value without containers."""
    if type(key) is tuple and depth < DEEPEST:
        for item in key:
            check_key(item, depth + 1)
    elif type(key) not in SCALARS:
        if type(key) is tuple:
            raise ValueError(f"tuples are in one another more than {DEEPEST} deep")
        # (what no dict takes as a key is refused in a dict's words)
        hash(key)
        raise TypeError(f"a store can't keep a key of type {type(key).__name__}")


def stored_form(values: list[Any], found: list[Container]) -> list[Any]:
    """The values as a store keeps them: of plain dicts, lists and sets copies are made, once of each. The containers that are met are added to `found`."""
    copies: dict[int, Container] = {}
    waiting: list[tuple[Any, Container]] = []

    def form(value: Any, depth: int) -> Any:
        kind = type(value)
        if kind in SCALARS:
            return value
        if kind in (Dict, List, Set):
            found.append(value)
            return value
        if kind is tuple:
            if depth == DEEPEST:
                raise ValueError(f"tuples are in one another more than {DEEPEST} deep")
            items = [form(item, depth + 1) for item in value]
            return value if all(one is other for one, other in zip(items, value)) else tuple(items)
        if kind not in COPIED:
            raise TypeError(f"a store can't keep a value of type {kind.__name__}")
        if id(value) not in copies:
            copies[id(value)] = made = COPIED[kind]()
            found.append(made)
            waiting.append((value, made))
        return copies[id(value)]

    kept = [form(value, 0) for value in values]
    while waiting:
        value, made = waiting.pop()
        if type(value) is list:
            made._content[:] = [form(item, 0) for item in value]
        else:
            for key in value:
                check_key(key)
            made._content.update((key, form(value[key], 0)) for key in value) if type(value) is dict else made._content.update(dict.fromkeys(value))
    return kept


COPIED: dict[type, Type[Container]] = {dict: Dict, list: List, set: Set}


def containers_in(value: Any, path: tuple[int, ...] = ()) -> Iterator[tuple[Container, tuple[int, ...]]]:
    """The containers in a value, each with the items of tuples that lead to it."""
    kind = type(value)
    if kind is tuple:
        for number, item in enumerate(value):
            yield from containers_in(item, (*path, number))
    elif kind not in SCALARS:
        yield value, path


def plain(value: Any) -> Any:
    """A deep copy as Python's own objects: also for `json.dumps(value, default=plain)`."""
    copies: dict[int, Any] = {}
    waiting: list[tuple[Container, Any]] = []

    def form(value: Any) -> Any:
        if type(value) is tuple:
            return tuple([form(item) for item in value])
        if not isinstance(value, Container):
            return value
        if id(value) not in copies:
            copies[id(value)] = made = PLAIN[value._KIND]()
            waiting.append((value, made))
        return copies[id(value)]

    made = form(value)
    while waiting:
        container, copy = waiting.pop()
        with container._store._lock:
            content = container._now()
            if type(copy) is list:
                copy.extend(form(item) for item in content)
            elif type(copy) is dict:
                copy.update((key, form(item)) for key, item in content.items())
            else:
                copy.update(content)
    return made


PLAIN = {DICT: dict, LIST: list, SET: set}
