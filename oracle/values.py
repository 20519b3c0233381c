"""The values that streams carry, and the reasons of rejections and errors.

A chunk is any value. A reason is a value that isn't bytes. Faults are the errors that
the streams make themselves; a script can't write them, but sees them in what is printed.
"""

from __future__ import annotations

from dataclasses import dataclass


@dataclass(frozen=True)
class Undefined:
    """The value undefined."""


@dataclass(frozen=True)
class Number:
    """A whole number below 2^64."""

    number: int


@dataclass(frozen=True)
class HostError:
    """An error of the host's own, by its number."""

    number: int


@dataclass(frozen=True)
class HostValue:
    """A value of the host's own that can't be sent in a message, by its number."""

    number: int


@dataclass(frozen=True)
class Bytes:
    """A chunk of bytes."""

    content: bytes


@dataclass(frozen=True)
class Fault:
    """An error that the streams make themselves, by the name of its class."""

    name: str


@dataclass(frozen=True)
class Pair:
    """The two reasons with which the branches of a tee were cancelled."""

    first: Value
    second: Value


Value = Undefined | Number | HostError | HostValue | Bytes | Fault | Pair

UNDEFINED = Undefined()
TYPE_ERROR = Fault("TypeError")
RANGE_ERROR = Fault("RangeError")
DATA_CLONE_ERROR = Fault("DataClone")


def is_cloneable(value: Value) -> bool:
    """Whether StructuredSerialize doesn't throw."""
    return not isinstance(value, (HostValue, Pair))


def count_size(_chunk: Value) -> int:
    """The size algorithm of CountQueuingStrategy."""
    return 1


def byte_length_size(chunk: Value) -> int:
    """The size algorithm of ByteLengthQueuingStrategy; what isn't bytes has length 0."""
    return len(chunk.content) if isinstance(chunk, Bytes) else 0
