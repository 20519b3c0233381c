"""Shortens a script while it keeps what makes it interesting.

Lines are left out: long stretches of them first, then one by one. A line that made something
takes a number with it, so later names of its kind are lowered in a second attempt. Last, the
limits of tasks and the options of pipes are left out.
"""

from __future__ import annotations

import re
from typing import Callable, Iterator

from language import Refused, tasks_in
from realm import Realm
from script import perform_task

NAME = re.compile(rb"(?<!\S)(signal=)?([slhaqc])([0-9]+)(?!\S)")

Lines = list[bytes]
# For each letter that begins names: how many there were before a line, and after it.
Numbers = dict[bytes, tuple[int, int]]


def shortened(script: bytes, is_interesting: Callable[[bytes], bool]) -> bytes:
    """A script that is interesting as this one is, and that no attempt shortens further."""
    lines = script.split(b"\n")
    shorter: Lines | None = lines
    while shorter is not None:
        lines = shorter
        shorter = next((attempt for attempt in attempts(lines)
                        if is_interesting(b"\n".join(attempt))), None)
    return b"\n".join(lines)


def attempts(lines: Lines) -> Iterator[Lines]:
    """Shorter scripts, those that leave out most first."""
    stretch = len(lines) // 2
    while stretch > 0:
        yield from without_a_stretch(lines, stretch)
        stretch //= 2
    yield from without_a_line_that_made_something(lines)
    yield from without_a_limit(lines)
    yield from without_an_option(lines)


def without_a_stretch(lines: Lines, length: int) -> Iterator[Lines]:
    """The lines without so many of them that stand together, later ones first."""
    for start in range(len(lines) - length, -1, -1):
        yield lines[:start] + lines[start + length:]


def without_a_line_that_made_something(lines: Lines) -> Iterator[Lines]:
    """The lines without one, and with lower numbers where they name what was made later."""
    for index, numbers in reversed(numbers_by_line(b"\n".join(lines))):
        if any(after > before for before, after in numbers.values()):
            yield lines[:index] + [lowered(line, numbers) for line in lines[index + 1:]]


def without_a_limit(lines: Lines) -> Iterator[Lines]:
    """The lines with one limit of jobs less."""
    for index, line in enumerate(lines):
        if line.startswith(b"@"):
            yield lines[:index] + [line.partition(b" ")[2]] + lines[index + 1:]


def without_an_option(lines: Lines) -> Iterator[Lines]:
    """The lines with one option of a pipe less."""
    for index, line in enumerate(lines):
        words = line.split(b" ")
        if b"pipe" in words:
            for place in range(words.index(b"pipe") + 3, len(words)):
                shorter = b" ".join(words[:place] + words[place + 1:])
                yield lines[:index] + [shorter] + lines[index + 1:]


def numbers_by_line(script: bytes) -> list[tuple[int, Numbers]]:
    """For each task of a script the index of its line, and what it numbered."""
    realm = Realm()
    found: list[tuple[int, Numbers]] = []
    try:
        for task in tasks_in(script):
            before = counts_of(realm)
            perform_task(realm, task)
            after = counts_of(realm)
            found.append((task.line - 1, {key: (before[key], after[key]) for key in before}))
    except (Refused, AssertionError):
        pass
    return found


def counts_of(realm: Realm) -> dict[bytes, int]:
    """How many objects have a name, by its letter."""
    return {b"s": len(realm.streams), b"l": len(realm.locks), b"h": len(realm.host_promises),
            b"a": len(realm.signals), b"q": len(realm.byob_requests), b"c": len(realm.ends)}


def lowered(line: bytes, numbers: Numbers) -> bytes:
    """The line, where each name of what was made later has the number that is left to it."""

    def lower(name: re.Match[bytes]) -> bytes:
        option, letter, digits = name.groups(b"")
        before, after = numbers[letter]
        number = int(digits)
        if number >= after:
            number -= after - before
        return option + letter + str(number).encode("ascii")

    return NAME.sub(lower, line)
