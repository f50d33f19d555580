"""Transactions in memory: each level of nesting keeps what containers were before it changed them."""

from __future__ import annotations

from .containers import NO_STORE, Container

__all__ = ["BeforeImage", "Level"]


class BeforeImage:
    """What a container was before a level changed it."""

    __slots__ = ("container", "content", "edits")

    def __init__(self, container: Container):
        self.container, self.content, self.edits = container, container._snapshot(), container._edits.copy()

    def restore(self) -> None:
        self.container._restore(self.content)
        self.container._edits = self.edits


class Level:
    """A transaction, or one inside of another: what it changed, and which containers came to the store in it."""

    __slots__ = ("_images", "_taken")

    def __init__(self) -> None:
        self._images: dict[int, BeforeImage] = {}
        self._taken: list[Container] = []

    @property
    def changed(self) -> list[Container]:
        return [image.container for image in self._images.values()]

    def keep(self, container: Container) -> None:
        """The container is about to change."""
        if id(container) not in self._images:
            self._images[id(container)] = BeforeImage(container)

    def took(self, containers: list[Container]) -> None:
        """These containers came to the store."""
        self._taken += containers

    def restore(self) -> None:
        """All is as it was before it."""
        for image in self._images.values():
            image.restore()
        for container in self._taken:
            container._store = NO_STORE

    def join(self, inner: "Level") -> None:
        """The inner one has ended: what it did is this one's."""
        for number, image in inner._images.items():
            self._images.setdefault(number, image)
        self._taken += inner._taken
