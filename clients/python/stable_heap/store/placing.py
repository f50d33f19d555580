"""Where containers are found once a commit is made. One that has lost its place gets another one, where a reference to it is written; where there is none,
and Python still holds it, it is pinned."""

from __future__ import annotations

from typing import TYPE_CHECKING, Optional

from .changes import Change, ChangeSet, change_of
from .containers import Container, Place
from .entries import ABSENT, Pin, containers_of, paths_of
from .walking import entry_fields

if TYPE_CHECKING:
    from .stores import Store

__all__ = ["Placement"]


class Placement:
    """The places that a commit gives. Its change of the pins is added to the others. A container is lost while none of its places is known to be found."""

    def __init__(self, store: "Store", changes: ChangeSet):
        self._store, self._changes = store, changes
        self._places: dict[int, tuple[Container, Optional[Place]]] = {}
        self._lost: dict[int, Container] = {**changes.new, **{id(it): it for it in store._pinned()}}
        # the containers that each changed one would give a place
        self._offers: dict[int, list[tuple[Container, Place]]] = {}
        for change in changes.changes:
            self._note_lost(change)
            self._note_offers(change)
        self._settle_all()
        self._pin_the_lost()
        self._settle_all()
        assert not self._lost

    def place_of(self, container: Container) -> Optional[Place]:
        """Where the container is found once the commit is made."""
        return self._places[id(container)][1] if id(container) in self._places else container._place

    def applied(self) -> None:
        """The commit was made."""
        for container, place in self._places.values():
            container._place = place

    # ---- who has lost a place, and who offers one

    def _note_lost(self, change: Change) -> None:
        for leaf, number, old, _ in change.slots:
            for found in containers_of(old):
                if found._place is not None and found._place.leaf is leaf and found._place.entry == number:
                    self._lost[id(found)] = found

    def _note_offers(self, change: Change) -> None:
        kind = change.container._KIND
        for leaf, number, _, new in change.slots:
            for found, path in paths_of(new, kind):
                place = Place(change.container, leaf, number, (number * entry_fields(kind) + path[0], *path[1:]))
                self._offers.setdefault(id(change.container), []).append((found, place))

    # ---- which offers are taken

    def _settle_all(self) -> None:
        while self._settle():
            pass

    def _settle(self) -> bool:
        """Takes the offers whose owners are found from the root object without a container that is lost: whether there was one."""
        before = len(self._lost)
        known: dict[int, bool] = {}
        waiting = [owner for owner in self._offers if self._is_found(owner, known)]
        while waiting:
            for found, place in self._offers[waiting.pop()]:
                if id(found) in self._lost:
                    self._places[id(found)] = found, place
                    del self._lost[id(found)]
                    if id(found) in self._offers:
                        waiting.append(id(found))
        return len(self._lost) < before

    def _is_found(self, owner: int, known: dict[int, bool]) -> bool:
        """Whether no container on the way from the root object to that one is lost."""
        passed: list[int] = []
        here: Optional[Container] = self._offers[owner][0][1].owner
        while here is not None and id(here) not in known:
            passed.append(id(here))
            if id(here) in self._lost:
                known.update(dict.fromkeys(passed, False))
                return False
            place = self.place_of(here)
            here = place.owner if place is not None else None
        answer = here is None or known[id(here)]
        known.update(dict.fromkeys(passed, answer))
        return answer

    # ---- pins

    def _pin_the_lost(self) -> None:
        """Those that were in the heap and have no place any more are pinned, and nothing else is."""
        wanted = {number: it for number, it in self._lost.items() if it._serial is not None}
        self._edit_pins(wanted)
        pins = self._store._pins
        if pins._edits.keys or pins._edits.whole or self._store._is_stale(pins):
            change = change_of(pins)
            self._changes.changes.append(change)
            self._place_pinned(change)
        for number in wanted:
            del self._lost[number]

    def _edit_pins(self, wanted: dict[int, Container]) -> None:
        pins = self._store._pins
        pinned = {id(pin.container()) for pin in pins._content}
        for pin in [pin for pin in pins._content if id(pin.container()) not in wanted or pin.container() is None]:
            del pins._content[pin]
            pins._edits.remove(pin)
        for pin in [Pin(container) for number, container in wanted.items() if number not in pinned]:
            pins._content[pin] = None
            pins._edits.put(pin)

    def _place_pinned(self, change: Change) -> None:
        for leaf, number, _, new in change.slots:
            if new is not None and new is not ABSENT:
                found = new[0].container()
                self._places[id(found)] = found, Place(change.container, leaf, number, (number,))
