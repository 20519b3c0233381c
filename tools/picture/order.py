"""Where messages stand in time, as far as a trace tells: as early as what had to come before lets them be.

What had to come before: the messages of the same row that were sent earlier; of the chunk k the pull k, or the error
that came up; of the pull k + 1 the chunk k; of an end of a row what was taken of the other row, since a port that has
sent its end takes nothing more; of the first chunk of a node the first one that came to it, and of its close the
close that came."""
from dataclasses import dataclass, field
from graphlib import CycleError, TopologicalSorter

from .text import NotATrace, bytes_of, kind_of

# How long a message is on its way, and what lies between two things at one node.
WAY, REST = 1.0, 0.4


@dataclass(eq=False)
class Message:
    """A message of an edge, counted from 0; or, of the kind `left out`, the exchanges of an edge that aren't drawn."""

    edge: int
    way: str
    kind: str
    taken: bool = True
    size: int = 0
    behind: list = field(default_factory=list)
    after: list = field(default_factory=list)
    sent: float = 0.0
    came: float = 0.0

    def is_end(self):
        return self.kind in ("close", "error")

    def place(self):
        """Sets it behind those of its row that were sent before, and after those that had to come."""
        times = [other.sent + WAY for other in self.behind] + [other.came + REST for other in self.after]
        self.sent = max(times, default=0.0)
        self.came = self.sent + (2 * WAY if self.kind == "left out" else WAY)


def row_of(number, way, row, out):
    """The messages of a row by their places in it, but for those that are left out."""
    made, last = {}, []
    for place, mark in enumerate(row.marks):
        kind = kind_of(mark)
        if place in out and kind in ("pull", "chunk"):
            continue
        size = bytes_of(mark) if kind == "chunk" else 0
        made[place] = Message(number, way, kind, place < row.taken, size, behind=last)
        last = [made[place]]
    return made


def bind(row, other, taken, gap, out):
    """Has each message of a row wait for one of the other row, of which so many were taken."""
    for place, message in row.items():
        waits_for = taken - 1 if message.is_end() else place if message.kind == "chunk" else place - 1
        if waits_for >= 0:
            message.after.append(other.get(waits_for, gap))
        if gap and place >= out.stop:
            message.after.append(gap)


def messages_of(number, edge, most):
    """The messages of an edge, with at most so many exchanges of a pull and a chunk, the first ones and the last."""
    exchanges, last = max(edge.up.count("pull"), edge.down.count("chunk")), most // 3
    out = range(most - last, exchanges - last) if exchanges > most else range(0)
    gap = Message(number, "down", "left out", size=len(out)) if out else None
    down, up = row_of(number, "down", edge.down, out), row_of(number, "up", edge.up, out)
    bind(down, up, edge.up.taken, gap, out)
    bind(up, down, edge.down.taken, gap, out)
    messages = [*down.values(), *up.values()]
    if gap:
        gap.after = [down[out.start - 1], up[out.start - 1]]
        messages.append(gap)
    return messages


def join(above, below):
    """What a node sends down had to wait for what came to it from above."""
    for kind in ("chunk", "close"):
        came, sent = (next((one for one in edge if one.kind == kind), None) for edge in (above, below))
        if came and sent and came.taken:
            sent.after.append(came)


def placed(trace, most):
    """All messages of a trace, each with when it was sent and when it came."""
    edges = [messages_of(number, edge, most) for number, edge in enumerate(trace.edges)]
    for above, below in zip(edges, edges[1:]):
        join(above, below)
    messages = [message for edge in edges for message in edge]
    try:
        for message in TopologicalSorter({one: [*one.after, *one.behind] for one in messages}).static_order():
            message.place()
    except CycleError as why:
        number = why.args[1][0].edge + 1
        raise NotATrace(f"edge {number}: its messages can't have been sent in any order") from why
    return messages
