"""The kinds of stages: what a file has beside a name, what a stage of it makes of bytes, what to try."""

from __future__ import annotations

from collections.abc import Callable
from dataclasses import dataclass
from enum import Enum, auto
from random import Random

from texts import chunks_with_lengths, hex_text, text_lines

HEX_DIGITS = b"0123456789abcdefABCDEF"


@dataclass(frozen=True)
class Made:
    """The chunks that come out of a stage, and the code and place where its input is bad."""

    chunks: list[bytes]
    bad: tuple[int, int] | None = None


# What a stage makes of chunks, with its number or its key. The last says that nothing follows the chunks.
Make = Callable[[list[bytes], int | bytes | None, bool], Made]


def is_integer(value: object) -> bool:
    return isinstance(value, int) and not isinstance(value, bool)


@dataclass(frozen=True)
class Number:
    """A number beside the kind, by its key: its range, and what it is where it is missing, if it may be."""

    key: str
    least: int
    most: int
    default: int | None
    tried: tuple[int, ...]

    def value_in(self, table: dict) -> int | None:
        """The number in a stage's table, or None where it has another type or is missing."""
        value = table.get(self.key, self.default)
        return value if is_integer(value) else None

    def is_in_range(self, value: int) -> bool:
        return self.least <= value <= self.most


@dataclass(frozen=True)
class Digits:
    """Bytes beside the kind, as the text of their digits: their key, and the range of their number."""

    key: str
    least: int
    most: int
    tried: tuple[int, ...]

    def value_in(self, table: dict) -> bytes | None:
        """The bytes in a stage's table, or None where they aren't two digits each."""
        text = table.get(self.key)
        digits = HEX_DIGITS.decode()
        if not isinstance(text, str) or len(text) % 2 or any(digit not in digits for digit in text):
            return None
        return bytes.fromhex(text)

    def is_in_range(self, value: bytes) -> bool:
        return self.least <= len(value) <= self.most


class Cutting(Enum):
    """By what the chunks that come out are cut."""

    BY_STAGE = auto()
    AS_INPUT = auto()
    UNKNOWN = auto()


@dataclass(frozen=True)
class Kind:
    make: Make
    cutting: Cutting
    sees_chunks: bool = False
    argument: Number | Digits | None = None
    # makes random inputs of the form that it takes, where that is one of its own
    inputs: Callable[[Random, int], bytes] | None = None
    # the kind that gives back what came to this one
    undone_by: str | None = None


def lines(chunks: list[bytes], most: int, ended: bool) -> Made:
    text, cut, start = b"".join(chunks), [], 0
    while start < len(text):
        end = text.find(b"\n", start)
        length = (len(text) if end < 0 else end) - start
        if length > most:
            return Made(cut, (1, start + most))
        if end < 0:
            return Made(cut + [text[start:]] if ended else cut)
        cut.append(text[start:end + 1])
        start = end + 1
    return Made(cut)


def fixed(chunks: list[bytes], size: int, ended: bool) -> Made:
    text = b"".join(chunks)
    last = len(text) if ended else len(text) - len(text) % size
    return Made([text[start:start + size] for start in range(0, last, size)])


def in_hex(chunks: list[bytes], _none: None, _ended: bool) -> Made:
    return Made([chunk.hex().encode() for chunk in chunks])


def unhex(chunks: list[bytes], _none: None, ended: bool) -> Made:
    text, digits = b"".join(chunks), bytearray()
    for place, byte in enumerate(text):
        if byte in b"\n\r":
            continue
        if byte not in HEX_DIGITS:
            return Made([bytes.fromhex(digits[:len(digits) // 2 * 2].decode())], (2, place))
        digits.append(byte)
    is_odd = ended and len(digits) % 2 == 1
    return Made([bytes.fromhex(digits[:len(digits) // 2 * 2].decode())], (3, len(text)) if is_odd else None)


def mask(chunks: list[bytes], key: bytes, _ended: bool) -> Made:
    masked, place = [], 0
    for chunk in chunks:
        masked.append(bytes(byte ^ key[(place + at) % len(key)] for at, byte in enumerate(chunk)))
        place += len(chunk)
    return Made(masked)


def number(chunks: list[bytes], _none: None, _ended: bool) -> Made:
    return Made([b"%d %s" % (count, chunk) for count, chunk in enumerate(chunks, 1)])


def frame(chunks: list[bytes], _none: None, _ended: bool) -> Made:
    return Made([len(chunk).to_bytes(4, "big") + chunk for chunk in chunks])


def unframe(chunks: list[bytes], most: int, ended: bool) -> Made:
    text, framed, start = b"".join(chunks), [], 0
    while start + 4 <= len(text):
        length = int.from_bytes(text[start:start + 4], "big")
        if length > most:
            return Made(framed, (4, start))
        if start + 4 + length > len(text):
            break
        framed.append(text[start + 4:start + 4 + length])
        start += 4 + length
    return Made(framed, (5, len(text)) if ended and start < len(text) else None)


KINDS: dict[str, Kind] = {
    "lines": Kind(lines, Cutting.BY_STAGE, inputs=text_lines, argument=Number(
        "max", 1, 1_048_576, 65_536, (1, 2, 5, 20, 80, 80, 4096, 65_536, 1_048_576))),
    "fixed": Kind(fixed, Cutting.BY_STAGE, argument=Number(
        "n", 1, 65_536, None, (1, 2, 3, 7, 64, 4095, 4096, 4097, 65_536))),
    "hex": Kind(in_hex, Cutting.AS_INPUT, undone_by="unhex"),
    "unhex": Kind(unhex, Cutting.UNKNOWN, inputs=hex_text),
    "mask": Kind(mask, Cutting.AS_INPUT, argument=Digits("key", 1, 64, (1, 1, 2, 3, 64))),
    "number": Kind(number, Cutting.AS_INPUT, sees_chunks=True),
    "frame": Kind(frame, Cutting.AS_INPUT, sees_chunks=True, undone_by="unframe"),
    "unframe": Kind(unframe, Cutting.BY_STAGE, inputs=chunks_with_lengths, argument=Number(
        "max", 0, 1_048_576, 65_536, (0, 1, 3, 16, 300, 65_536, 1_048_576))),
}


def is_cut_by_stages(kind: Kind, is_cut: bool) -> bool:
    """Whether what comes out is cut however the pipeline's input was; `is_cut` says so of what comes in."""
    return kind.cutting is Cutting.BY_STAGE or is_cut and kind.cutting is Cutting.AS_INPUT
