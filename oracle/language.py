"""The language of scripts: how a script is read into tasks.

All lines are read before the first is performed, so one line outside the grammar refuses the
script. Text is bytes: a name or a number has no other digits than those of ASCII.
"""

from __future__ import annotations

import re
from dataclasses import dataclass
from typing import Any, Callable, Mapping, TypeVar

import calls
from calls import Call, PipeOptions
from cross import Message
from pipe import Prevent
from values import (UNDEFINED, Bytes, HostError, HostValue, Number, Value, byte_length_size,
                    count_size)

LONGEST_SCRIPT = 1_048_576
MOST_JOBS = 100_000
LONGEST_AUTO = 4096
LONGEST_VIEW = 65_536
LARGEST_ELEMENT = 255

Choice = TypeVar("Choice")

NUMBER = re.compile(rb"0|[1-9][0-9]*")
HEXADECIMAL = re.compile(rb"(?:[0-9a-fA-F]{2})*")


class Refused(Exception):
    """A script is outside the language, by the number of its first such line, or 0."""

    def __init__(self, line: int) -> None:
        super().__init__(f"script refused {line}")


class Mismatch(Exception):
    """A word, or a list of words, isn't of the form that is tried."""


@dataclass
class Task:
    """A line of a script: at most so many jobs follow its call."""

    line: int
    most_jobs: int
    call: Call
    arguments: tuple


# Words

def number_in(word: bytes, limit: int) -> int:
    """A number below the limit."""
    if NUMBER.fullmatch(word) is None:
        raise Mismatch
    number = int(word) if len(word) <= len(str(limit)) else limit
    if number >= limit:
        raise Mismatch
    return number


def number_after(prefix: bytes, word: bytes, limit: int) -> int:
    """A number below the limit, after a prefix."""
    if not word.startswith(prefix):
        raise Mismatch
    return number_in(word[len(prefix):], limit)


def stream(word: bytes) -> int:
    return number_after(b"s", word, 2**32)


def lock(word: bytes) -> int:
    return number_after(b"l", word, 2**128)


def host_call(word: bytes) -> int:
    return number_after(b"h", word, 2**128)


def signal(word: bytes) -> int:
    return number_after(b"a", word, 2**128)


def port(word: bytes) -> int:
    return number_after(b"c", word, 2**128)


def byob_request(word: bytes) -> int:
    return number_after(b"q", word, 2**128)


def high_water_mark(word: bytes) -> int:
    return number_in(word, 2**64)


def auto_length(word: bytes) -> int:
    return number_in(word, LONGEST_AUTO + 1)


def view_length(word: bytes) -> int:
    return number_in(word, LONGEST_VIEW + 1)


def element_size(word: bytes) -> int:
    return number_in(word, LARGEST_ELEMENT + 1)


def least_count(word: bytes) -> int:
    return number_in(word, 2**64)


def chosen(word: bytes, choices: Mapping[bytes, Choice]) -> Choice:
    """What one of these words stands for."""
    if word not in choices:
        raise Mismatch
    return choices[word]


def size(word: bytes) -> Callable[[Value], int]:
    return chosen(word, {b"count": count_size, b"bytes": byte_length_size})


def kind_is_host(word: bytes) -> bool:
    return chosen(word, {b"identity": False, b"host": True})


def start_is_later(word: bytes) -> bool:
    return chosen(word, {b"now": False, b"later": True})


def reason(word: bytes) -> Value:
    if word == b"undefined":
        return UNDEFINED
    if word.startswith(b"n"):
        return Number(number_after(b"n", word, 2**64))
    if word.startswith(b"e"):
        return HostError(number_after(b"e", word, 2**32))
    return HostValue(number_after(b"k", word, 2**32))


def content(word: bytes) -> bytes:
    if not word.startswith(b"x") or HEXADECIMAL.fullmatch(word, 1) is None:
        raise Mismatch
    return bytes.fromhex(word[1:].decode("ascii"))


def value(word: bytes) -> Value:
    return Bytes(content(word)) if word.startswith(b"x") else reason(word)


def side_is_readable(word: bytes) -> bool:
    return chosen(word, {b"readable": True, b"writable": False})


def ok(word: bytes) -> None:
    if word != b"ok":
        raise Mismatch


def fail(word: bytes) -> None:
    if word != b"fail":
        raise Mismatch


# Calls

WordReader = Callable[[bytes], Any]


@dataclass
class Rest:
    """Reads all words that are left, as one argument."""

    reader: Callable[[list[bytes]], Any]


Form = tuple[tuple[WordReader | Rest, ...], Call]


def pipe_options(words: list[bytes]) -> PipeOptions:
    """The options of a pipe, in any order, each at most once."""
    names = [b"signal=" if word.startswith(b"signal=") else word for word in words]
    if len(set(names)) < len(names):
        raise Mismatch
    if not set(names) <= {b"prevent-close", b"prevent-abort", b"prevent-cancel", b"signal="}:
        raise Mismatch
    prevent = Prevent(close=b"prevent-close" in names, abort=b"prevent-abort" in names,
                      cancel=b"prevent-cancel" in names)
    signals = [signal(word.removeprefix(b"signal=")) for word in words
               if word.startswith(b"signal=")]
    return PipeOptions(prevent, signals[0] if signals else None)


def message(words: list[bytes]) -> Message:
    """A message, with its value where it has one."""
    match words:
        case [b"pull" | b"close" as kind]:
            return Message(kind.decode("ascii"))
        case [b"chunk", word]:
            return Message("chunk", value(word))
        case [b"error", word]:
            return Message("error", reason(word))
    raise Mismatch


# For each first word the forms of the words behind it, and what each form calls. What a word
# is read as is an argument of the call, but for those that are read as nothing.
FORMS: dict[bytes, tuple[Form, ...]] = {
    b"readable": (((high_water_mark, size, start_is_later), calls.make_readable),),
    b"bytes": (((high_water_mark, auto_length, start_is_later), calls.make_bytes),),
    b"writable": (((high_water_mark, size, start_is_later), calls.make_writable),),
    b"transform": (((kind_is_host, high_water_mark, high_water_mark, start_is_later),
                    calls.make_transform),),
    b"reader": (((stream,), calls.get_reader),),
    b"tee": (((stream,), calls.tee),),
    b"byob": (((stream,), calls.get_byob_reader),),
    b"writer": (((stream,), calls.get_writer),),
    b"read": (((lock,), calls.read),),
    b"readinto": (((lock, view_length, element_size), calls.read_into),
                  ((lock, view_length, element_size, least_count), calls.read_into)),
    b"write": (((lock, value), calls.write),),
    b"cancel": (((stream, reason), calls.cancel), ((lock, reason), calls.cancel_by_reader)),
    b"close": (((stream,), calls.close), ((lock,), calls.close_by_writer)),
    b"abort": (((stream, reason), calls.abort), ((lock, reason), calls.abort_by_writer)),
    b"closed": (((lock,), calls.closed),),
    b"ready": (((lock,), calls.ready),),
    b"release": (((lock,), calls.release),),
    b"enqueue": (((stream, value), calls.enqueue),),
    b"finish": (((stream,), calls.finish),),
    b"fail": (((stream, reason), calls.fail),),
    b"terminate": (((stream,), calls.terminate),),
    b"desired": (((stream,), calls.desired), ((lock,), calls.desired_by_writer)),
    b"request": (((stream,), calls.request),),
    b"respond": (((byob_request, content), calls.respond),),
    b"pipe": (((stream, stream, Rest(pipe_options)), calls.pipe),),
    b"signal": (((), calls.make_signal),),
    b"trigger": (((signal, reason), calls.trigger),),
    b"send": (((stream,), calls.send),),
    b"open": (((side_is_readable,), calls.open_end),),
    b"deliver": (((port, Rest(message)), calls.deliver),),
    b"settle": (((host_call, ok), calls.settle_ok),
                ((host_call, fail, reason), calls.settle_fail)),
    b"state": (((stream,), calls.look),),
    b"step": (((), calls.step),),
}


def arguments_in(words: list[bytes], readers: tuple[WordReader | Rest, ...]) -> tuple:
    """The arguments that the words give, where there is one for each reader, or more where the
    last reads the rest."""
    *firsts, last = readers or (None,)
    if isinstance(last, Rest):
        count = len(firsts)
        return (*arguments_in(words[:count], tuple(firsts)), last.reader(words[count:]))
    if len(words) != len(readers):
        raise Mismatch
    read = [reader(word) for reader, word in zip(readers, words)]
    return tuple(argument for argument in read if argument is not None)


def task_in(line: int, words: list[bytes]) -> Task:
    """The task of a line with these words."""
    most_jobs = MOST_JOBS
    if words[0].startswith(b"@"):
        most_jobs = number_after(b"@", words[0], MOST_JOBS + 1)
        words = words[1:]
    for readers, call in FORMS.get(words[0] if words else b"", ()):
        try:
            return Task(line, most_jobs, call, arguments_in(words[1:], readers))
        except Mismatch:
            continue
    raise Mismatch


def words_in(line: bytes) -> list[bytes]:
    """The words of a line. One carriage return at its end is dropped, and a comment has none."""
    if line.startswith(b"#"):
        return []
    return re.findall(rb"[^ \t]+", line.removesuffix(b"\r"))


def tasks_in(script: bytes) -> list[Task]:
    """The tasks of a script. Raises Refused where it is outside the language."""
    if len(script) > LONGEST_SCRIPT:
        raise Refused(0)
    tasks = []
    for line, text in enumerate(script.split(b"\n"), start=1):
        words = words_in(text)
        if not words:
            continue
        try:
            tasks.append(task_in(line, words))
        except Mismatch:
            raise Refused(line) from None
    return tasks
