"""Kinds of elements, operands, views and places, as docs/MODEL.md defines them up to "Combining"."""
from typing import NamedTuple, Optional


class Kind(NamedTuple):
    """The element type of a typed array."""

    name: str
    size: int
    is_signed: bool = False
    is_big: bool = False
    is_atomic: bool = True
    is_waitable: bool = False


KINDS = {
    kind.name: kind
    for kind in [
        Kind("Int8", 1, is_signed=True),
        Kind("Uint8", 1),
        Kind("Uint8Clamped", 1, is_atomic=False),
        Kind("Int16", 2, is_signed=True),
        Kind("Uint16", 2),
        Kind("Int32", 4, is_signed=True, is_waitable=True),
        Kind("Uint32", 4),
        Kind("Float32", 4, is_atomic=False),
        Kind("Float64", 8, is_atomic=False),
        Kind("BigInt64", 8, is_signed=True, is_big=True, is_waitable=True),
        Kind("BigUint64", 8, is_big=True),
    ]
}


class Operand(NamedTuple):
    """A whole Number or a BigInt."""

    whole: int
    is_big: bool


class View(NamedTuple):
    """A typed array: `length` is its count of elements."""

    kind: Kind
    block: int
    offset: int
    length: int


class Place(NamedTuple):
    """A block and the byte at which an element begins."""

    block: int
    byte: int


def spelled(operand):
    """Returns an operand as a report spells it."""
    return f"{operand.whole}{'n' if operand.is_big else ''}"


def agrees(operand, kind):
    """Returns whether both are BigInt, or neither is."""
    return operand.is_big == kind.is_big


def raw(operand, kind):
    """Returns the raw element that an operand is written as."""
    return operand.whole % 2 ** (8 * kind.size)


def value(element, kind):
    """Returns the operand that a raw element is read as."""
    is_negative = kind.is_signed and element >= 2 ** (8 * kind.size - 1)
    return Operand(element - 2 ** (8 * kind.size) if is_negative else element, kind.is_big)


def place_of(view, index) -> Optional[Place]:
    """Returns the place of an index; None if it has none."""
    return Place(view.block, view.offset + index * view.kind.size) if 0 <= index < view.length else None


def element_at(blocks, place, size):
    """Returns the raw element at a place."""
    return sum(blocks[place.block][place.byte + k] * 256**k for k in range(size))


def with_bytes(blocks, place, written):
    """Returns the blocks with other bytes from a place on."""
    block = blocks[place.block]
    changed = block[: place.byte] + bytes(written) + block[place.byte + len(written) :]
    return blocks[: place.block] + (changed,) + blocks[place.block + 1 :]


def with_element(blocks, place, size, element):
    """Returns the blocks with another raw element at a place."""
    return with_bytes(blocks, place, [element // 256**k % 256 for k in range(size)])
