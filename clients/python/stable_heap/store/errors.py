"""What a store raises beside the errors of Python's own dicts and lists."""

__all__ = ["Closed", "Full", "StoreError", "TooLarge"]


class StoreError(Exception):
    """The root of the store's own errors. Where one is raised nothing was changed, in memory or in the heap, but for Closed."""


class Full(StoreError):
    """What the transaction would keep has no room in the heap, also after a collection, or its records have none in the log."""


class TooLarge(StoreError):
    """One transaction would make more new objects than the heap takes in a transaction."""


class Closed(StoreError):
    """The store is closed: by `close`, since its heap failed or a call was cut short, or since this process was forked from the one that has it."""
