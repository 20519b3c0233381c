"""The text of a trace, which `streams run --trace FILE` writes on standard error: two lines for each edge, in the
order of the edges, and behind them the text of the status where there is one."""
import re
from typing import NamedTuple

LINE = re.compile(r"edge (\d+) (down|up)((?: (?:c\d+|close|error|pull))*) taken (\d+)")


class NotATrace(Exception):
    """The text is none that a run writes."""


class Row(NamedTuple):
    """What was sent in one direction of an edge, in order, and how many of these messages were taken."""

    marks: list
    taken: int

    def count(self, kind):
        return count_in(self.marks, kind)

    def came(self, kind):
        """How many messages of a kind were taken."""
        return count_in(self.marks[: self.taken], kind)


class Edge(NamedTuple):
    down: Row
    up: Row


class Trace(NamedTuple):
    edges: list
    status: str


def kind_of(mark):
    return "chunk" if mark[1:].isdigit() else mark


def bytes_of(mark):
    return int(mark[1:])


def count_in(marks, kind):
    """How many of these marks are of a kind. What is no other one is a chunk."""
    named = {name: marks.count(name) for name in ("pull", "close", "error")}
    return named.get(kind, len(marks) - sum(named.values()))


def ends_once(marks, kind, ends):
    """Whether messages of one kind are followed by one of these ends at most, and by nothing behind it."""
    before = marks[:-1] if marks and marks[-1] in ends else marks
    return count_in(before, kind) == len(before)


def fault_of(edge):
    """The rule of an edge that its messages break, in words, or None."""
    down, up = edge
    if not ends_once(down.marks, "chunk", ("close", "error")):
        return "down go chunks, and then one close or error at most"
    if not ends_once(up.marks, "pull", ("error",)):
        return "up go pulls, and then one error at most"
    if any(row.taken > len(row.marks) for row in edge):
        return "more messages were taken than sent"
    if down.count("chunk") > up.came("pull") + up.came("error"):
        return "a chunk was sent that nobody had asked for"
    if up.count("pull") > down.came("chunk") + 1:
        return "a chunk was asked for before the one before it had come"
    return None


def row_of(line, number, way):
    found = LINE.fullmatch(line)
    if not found or (int(found.group(1)), found.group(2)) != (number, way):
        raise NotATrace(f"the line of edge {number} {way} is to stand where there is {line[:80]!r}")
    return Row(found.group(3).split(), int(found.group(4)))


def read(text):
    """The trace in a text. What stands before its first line is passed over."""
    lines = text.splitlines()
    first = next((place for place, line in enumerate(lines) if line.startswith("edge 1 ")), len(lines))
    last = first
    while last < len(lines) and lines[last].startswith("edge "):
        last += 1
    if last - first < 4 or (last - first) % 2:
        raise NotATrace("a trace has two lines for each of two edges or more; that of a plan without workers has none")
    edges = []
    for place in range(first, last, 2):
        number = len(edges) + 1
        edge = Edge(row_of(lines[place], number, "down"), row_of(lines[place + 1], number, "up"))
        fault = fault_of(edge)
        if fault:
            raise NotATrace(f"edge {number}: {fault}")
        edges.append(edge)
    return Trace(edges, " ".join(lines[last:]).strip())
