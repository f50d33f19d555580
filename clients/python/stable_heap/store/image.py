"""What of a container is in the heap: a tree of objects, whose leaves hold its entries; and how to change it where the entries have changed.

Nothing here calls the heap. A node stands for an object there, or for one that is still to be made; `arrange` and `arrange_slots` say which nodes a
container is to have, and what is to be written into those that stay."""

from typing import Any, Dict, Iterable, List, NamedTuple, Optional, Sequence, Tuple, Union

__all__ = ["Arranged", "Node", "Span", "Splices", "Touched", "arrange", "arrange_slots", "kept_nodes"]

# a leaf of a list has at most so many items, a node above so many nodes
WIDTH = 32
# a node of which more fields than these change is made anew: that takes fewer bytes of the log
MOST_IN_PLACE = 10
# more splices than these are not followed one by one: the list is compared with what is in the heap
MOST_PARTS = 200


class Node:
    """An object of a container's tree. A leaf of a list has its items, one of a dict or set its entries with None for a hole, and another node the nodes
    below it."""

    __slots__ = ("items", "room", "up", "stored")

    def __init__(self, items: List[Any], room: int = 0):
        self.items = items
        # how many items its object has fields for
        self.room = room or room_for(len(items))
        self.up: Optional[Node] = None
        # whether it is in the heap now
        self.stored = False


def room_for(count: int) -> int:
    return next(room for room in (4, 8, 16, WIDTH) if count <= room)


class Span(NamedTuple):
    """So many items that were in the heap from one place on, and are now from another."""

    was: int
    now: int
    length: int


class Arranged(NamedTuple):
    """The nodes of a level, and what those of them that are in the heap are to hold."""

    nodes: List[Node]
    edits: Dict[Node, List[Any]]


class Splices:
    """How the items of a list follow from those in the heap, by ranges that were kept and ranges that are new."""

    __slots__ = ("_parts", "_length", "whole")

    def __init__(self, length: int):
        # pairs of where a range was, or -1 where it is new, and its length
        self._parts: List[Tuple[int, int]] = [(0, length)] if length else []
        self._length = length
        # whether the changes were not followed
        self.whole = False

    def copy(self) -> "Splices":
        made = Splices(0)
        made._parts, made._length, made.whole = list(self._parts), self._length, self.whole
        return made

    def splice(self, at: int, removed: int, added: int) -> None:
        """From that place on so many items were removed, and so many others stand there now."""
        if self.whole:
            return
        behind = self._cut(at + removed, self._length)
        self._parts = self._cut(0, at)
        for part in [(-1, added), *behind]:
            self._push(*part)
        self._length += added - removed
        self.whole = len(self._parts) > MOST_PARTS

    def spans(self) -> Iterable[Span]:
        now = 0
        for was, length in self._parts:
            if was >= 0:
                yield Span(was, now, length)
            now += length

    def _cut(self, start: int, stop: int) -> List[Tuple[int, int]]:
        if start == 0 and stop == self._length:
            return self._parts
        cut, at = [], 0
        for was, length in self._parts:
            low, high = max(start - at, 0), min(stop - at, length)
            if low < high:
                cut.append((was + low if was >= 0 else -1, high - low))
            at += length
        return cut

    def _push(self, was: int, length: int) -> None:
        if not length:
            return
        if self._parts and was < 0 and self._parts[-1][0] < 0:
            length += self._parts.pop()[1]
        self._parts.append((was, length))


class Touched:
    """The keys of a dict or a set that may differ from what is in the heap, each with whether it was removed there in between."""

    __slots__ = ("keys", "whole")

    def __init__(self) -> None:
        self.keys: Dict[Any, bool] = {}
        # whether all entries are to be written anew
        self.whole = False

    def copy(self) -> "Touched":
        made = Touched()
        made.keys, made.whole = dict(self.keys), self.whole
        return made

    def put(self, key: object) -> None:
        self.keys.setdefault(key, False)

    def remove(self, key: object) -> None:
        self.keys[key] = True


class Run:
    """Nodes that can't stay as they are, and the range of items that stands in their place."""

    __slots__ = ("nodes", "start", "stop")

    def __init__(self, nodes: List[Node], start: int, stop: int):
        self.nodes, self.start, self.stop = nodes, start, stop

    def takes(self, node: Node) -> bool:
        """Whether a neighbour is to be changed with it: as there is room for new items, or since both are small."""
        size, others = self.stop - self.start, len(node.items)
        return size > 0 and (not self.nodes and others < WIDTH or size + others <= WIDTH // 2)


def arrange(old: List[Node], new: Sequence[Any], spans: Iterable[Span]) -> Arranged:
    """Nodes for the items, of which some are known to be in old nodes, in their order."""
    nodes: List[Node] = []
    edits: Dict[Node, List[Any]] = {}
    for part in widened(parted(old, len(new), list(spans))):
        if isinstance(part, Node):
            nodes.append(part)
        else:
            nodes += settled(part.nodes, list(new[part.start : part.stop]), part.stop == len(new), edits)
    return Arranged(nodes, edits)


def parted(old: List[Node], length: int, spans: List[Span]) -> List[Union[Node, Run]]:
    """The nodes all of whose items stand together as before, and what is between them."""
    parts: List[Union[Node, Run]] = []
    waiting: List[Node] = []
    at = done = place = 0
    for node in old:
        end = at + len(node.items)
        while place < len(spans) and spans[place].was + spans[place].length <= at:
            place += 1
        if place < len(spans) and spans[place].was <= at and end <= spans[place].was + spans[place].length:
            now = spans[place].now + at - spans[place].was
            parts += [Run(waiting, done, now), node]
            waiting, done = [], now + len(node.items)
        else:
            waiting.append(node)
        at = end
    return [part for part in [*parts, Run(waiting, done, length)] if isinstance(part, Node) or part.nodes or part.start < part.stop]


def widened(parts: List[Union[Node, Run]]) -> List[Union[Node, Run]]:
    """The same, where runs have taken the neighbours that are to be changed with them."""
    wide: List[Union[Node, Run]] = []
    for part in parts:
        last = wide[-1] if wide else None
        if isinstance(part, Node):
            if isinstance(last, Run) and last.takes(part):
                last.nodes, last.stop = [*last.nodes, part], last.stop + len(part.items)
            else:
                wide.append(part)
            continue
        while isinstance(last, Node) and part.takes(last):
            part = Run([last, *part.nodes], part.start - len(last.items), part.stop)
            wide.pop()
            last = wide[-1] if wide else None
        if isinstance(last, Run):
            last.nodes, last.stop = last.nodes + part.nodes, part.stop
        else:
            wide.append(part)
    return wide


def settled(old: List[Node], items: List[Any], is_last: bool, edits: Dict[Node, List[Any]]) -> List[Node]:
    """Nodes for the items that stand in the place of those old nodes."""
    if not items:
        return []
    sizes = [len(node.items) for node in old]
    if len(old) == 1 and len(items) <= WIDTH:
        sizes = [len(items)]
    elif sum(sizes) != len(items):
        if not old or not is_same([item for node in old for item in node.items], items[: sum(sizes)]):
            return [Node(part) for part in split(items, is_last)]
        filled = min(WIDTH, sizes[-1] + len(items) - sum(sizes))
        rest = items[sum(sizes[:-1]) + filled :]
        sizes[-1] = filled
        return [*aligned(old, sizes, items, edits), *(Node(part) for part in split(rest, is_last))]
    return aligned(old, sizes, items, edits)


def aligned(old: List[Node], sizes: List[int], items: List[Any], edits: Dict[Node, List[Any]]) -> List[Node]:
    """A node for each old one, with so many items."""
    nodes, at = [], 0
    for node, size in zip(old, sizes):
        nodes.append(edited(node, items[at : at + size], edits))
        at += size
    return nodes


def edited(node: Node, items: List[Any], edits: Dict[Node, List[Any]]) -> Node:
    """The node, if it can hold the items with a few changes, or one that is to be made."""
    changed = differences(node.items, items)
    if not changed:
        return node
    if changed > MOST_IN_PLACE or len(items) > node.room:
        return Node(items)
    edits[node] = items
    return node


def differences(old: Sequence[Any], new: Sequence[Any]) -> int:
    """At how many places they differ."""
    return abs(len(old) - len(new)) + sum(1 for one, other in zip(old, new) if one is not other)


def is_same(some: Sequence[Any], others: Sequence[Any]) -> bool:
    return len(some) == len(others) and all(one is other for one, other in zip(some, others))


def split(items: List[Any], is_last: bool, width: int = WIDTH) -> List[List[Any]]:
    """The items in parts for a node each: full ones at the end, where more may follow, and else of one size."""
    if not items:
        return []
    size = width if is_last else -(-len(items) // -(-len(items) // width))
    return [items[at : at + size] for at in range(0, len(items), size)]


def kept_nodes(old: Iterable[Node], new: Iterable[Node]) -> Iterable[Span]:
    """The spans of nodes that are still there."""
    places = {node: place for place, node in enumerate(new)}
    start, now, length = 0, 0, 0
    for was, node in enumerate(old):
        place = places.get(node)
        if length and place == now + length and was == start + length:
            length += 1
            continue
        if length:
            yield Span(start, now, length)
        start, now, length = (was, place, 1) if place is not None else (0, 0, 0)
    if length:
        yield Span(start, now, length)


def arrange_slots(old: List[Node], width: int, edits: Dict[Node, List[Any]], added: List[Any]) -> Arranged:
    """Leaves for the entries of a dict or set. The edits have holes where entries were removed, and others where values were replaced; the added ones
    come behind all. `width` is how many entries a leaf has."""
    fields = WIDTH // width
    settled_edits: Dict[Node, List[Any]] = {}
    nodes: List[Node] = []
    for node in old:
        items = trimmed(edits[node]) if node in edits else node.items
        if not items:
            continue
        if node in edits and nodes and live(items) + live(now_in(nodes[-1], settled_edits)) <= width // 2:
            before = nodes.pop()
            nodes.append(leaf_of([*now_in(before, settled_edits), *items], fields))
            settled_edits.pop(before, None)
        else:
            nodes.append(slots_edited(node, items, fields, settled_edits) if node in edits else node)
    if added and nodes and live(now_in(nodes[-1], settled_edits)) < width:
        last = nodes.pop()
        items = now_in(last, settled_edits)
        if len(items) == width:
            items = [it for it in items if it is not None]
        filled, added = [*items, *added[: width - len(items)]], added[width - len(items) :]
        settled_edits.pop(last, None)
        nodes.append(slots_edited(last, filled, fields, settled_edits))
    nodes += [leaf_of(part, fields) for part in split(added, True, width)]
    return Arranged(nodes, settled_edits)


def slots_edited(leaf: Node, items: List[Any], fields: int, edits: Dict[Node, List[Any]]) -> Node:
    """The leaf, if it is in the heap and can hold these entries with a few changes; else one that is to be made, without holes."""
    if leaf.stored and differences(leaf.items, items) * fields <= MOST_IN_PLACE and len(items) <= leaf.room:
        edits[leaf] = items
        return leaf
    return leaf_of(items, fields)


def leaf_of(entries: List[Any], fields: int) -> Node:
    """A leaf that is to be made, without holes, whose entries take so many fields each."""
    entries = [it for it in entries if it is not None]
    return Node(entries, room_for(len(entries) * fields) // fields)


def now_in(node: Node, edits: Dict[Node, List[Any]]) -> List[Any]:
    return edits.get(node, node.items)


def live(items: Sequence[Any]) -> int:
    return sum(1 for it in items if it is not None)


def trimmed(items: List[Any]) -> List[Any]:
    """Without the holes at the end."""
    length = len(items)
    while length and items[length - 1] is None:
        length -= 1
    return items[:length]
