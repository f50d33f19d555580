"""How Python's values are written as fields of the heap's objects.

A field is null, a number below 2^62, or a reference. A number's lowest three bits are a tag that says what the rest of it is; what has no room in a
number is an object of its own, whose first field is a head. Nothing here knows the heap: this module is a codec."""

import struct
from typing import Any, Iterator, List, Optional, Sequence, Tuple, Union

SHORT_INT, CONSTANT, SHORT_TEXT, SHORT_BYTES, HEAD, SHORT_FLOAT = range(6)
TAG_BITS = 3
TAG = (1 << TAG_BITS) - 1
# what a tag leaves of a number
REST = 59
# ints of so many bits stand in the field itself, with their sign
INT_LIMIT = 1 << (REST - 1)
# a number of raw data has so many bytes, and a field has at most so many of a text
DATA_BYTES = 7
CONSTANTS = (None, True, False)

# what an object is, by its head; the first three are containers
DICT, LIST, SET, TUPLE, TEXT, BYTES, INT, NEGATIVE_INT, FLOAT = range(1, 10)
CONTAINERS = (DICT, LIST, SET)
KIND_BITS, HEIGHT_BITS = 4, 4
# an object with a head has at most so many fields behind it, and one without a head so many fields
BEHIND_HEAD, MOST_FIELDS = 509, 510

Data = Union[str, bytes, int, float]


def head(kind: int, height: int, count: int) -> int:
    """The first field of an object: what it is, the height of the tree below it, and its length, or a container's serial number."""
    return ((count << HEIGHT_BITS | height) << KIND_BITS | kind) << TAG_BITS | HEAD


def parts_of_head(word: int) -> Tuple[int, int, int]:
    """Kind, height, and length or serial number."""
    if word & TAG != HEAD:
        raise ValueError(f"{word} is no head")
    word >>= TAG_BITS
    return word & 15, word >> KIND_BITS & 15, word >> KIND_BITS + HEIGHT_BITS


def text_bytes(text: str) -> bytes:
    return text.encode("utf-8", "surrogatepass")


def short(tag: int, data: bytes) -> Optional[int]:
    if len(data) > DATA_BYTES:
        return None
    return (len(data) << 8 * DATA_BYTES | int.from_bytes(data, "little")) << TAG_BITS | tag


def word_of(value: Any) -> Optional[int]:
    """The field's number for a value, or None where the value is an object of its own."""
    # (Any, since a checker of types does not follow what `kind` says)
    kind = type(value)
    if value is None or kind is bool:
        return CONSTANTS.index(value) << TAG_BITS | CONSTANT
    if kind is int:
        return (value & (1 << REST) - 1) << TAG_BITS | SHORT_INT if -INT_LIMIT <= value < INT_LIMIT else None
    if kind is str:
        # (a text has at least as many bytes as characters)
        return short(SHORT_TEXT, text_bytes(value)) if len(value) <= DATA_BYTES else None
    if kind is bytes:
        return short(SHORT_BYTES, value)
    if kind is float:
        bits = struct.unpack("<Q", struct.pack("<d", value))[0]
        return None if bits & 31 else bits >> 5 << TAG_BITS | SHORT_FLOAT
    return None


def value_of(word: int) -> object:
    """The value of a field's number."""
    tag, rest = word & TAG, word >> TAG_BITS
    if tag == SHORT_INT:
        return rest - (1 << REST) if rest >= INT_LIMIT else rest
    if tag == CONSTANT:
        return CONSTANTS[rest]
    if tag == SHORT_FLOAT:
        return struct.unpack("<d", struct.pack("<Q", rest << 5))[0]
    if tag not in (SHORT_TEXT, SHORT_BYTES):
        raise ValueError(f"{word} is no value")
    data = (rest & (1 << 8 * DATA_BYTES) - 1).to_bytes(DATA_BYTES, "little")[: rest >> 8 * DATA_BYTES]
    return data.decode("utf-8", "surrogatepass") if tag == SHORT_TEXT else data


def data_of(value: Data) -> Tuple[int, bytes]:
    """The kind and the bytes of a value that is an object of its own, other than a tuple."""
    if isinstance(value, str):
        return TEXT, text_bytes(value)
    if isinstance(value, bytes):
        return BYTES, value
    if isinstance(value, float):
        return FLOAT, struct.pack("<d", value)
    size = abs(value)
    return (INT if value > 0 else NEGATIVE_INT), size.to_bytes((size.bit_length() + 7) // 8, "little")


def value_of_data(kind: int, data: bytes) -> Data:
    """The value of that kind with these bytes."""
    if kind == TEXT:
        return data.decode("utf-8", "surrogatepass")
    if kind == BYTES:
        return data
    if kind == FLOAT:
        number: float = struct.unpack("<d", data)[0]
        return number
    size = int.from_bytes(data, "little")
    return size if kind == INT else -size


def data_words(data: bytes) -> List[int]:
    """The bytes, seven in a number."""
    return [int.from_bytes(data[at : at + DATA_BYTES], "little") for at in range(0, len(data), DATA_BYTES)]


def joined_words(words: Sequence[int], length: int) -> bytes:
    """So many bytes, from the numbers that hold them."""
    return b"".join(word.to_bytes(DATA_BYTES, "little") for word in words)[:length]


def height_for(count: int) -> int:
    """How high a tree is that has so many fields below a head: 0 where they stand behind the head itself."""
    height, room = 0, BEHIND_HEAD
    while count > room:
        height, room = height + 1, room * MOST_FIELDS
    return height


def groups(count: int, size: int) -> Iterator[range]:
    """Ranges of at most that size, one behind the other."""
    return (range(at, min(at + size, count)) for at in range(0, count, size))
