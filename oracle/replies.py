"""What a realm answers to a call, and the events that it tells."""

from __future__ import annotations

from dataclasses import dataclass

from cross import Message
from promises import Promise
from values import Value


@dataclass
class Done:
    """The call was performed and has nothing to answer."""


@dataclass
class Made:
    """A stream was made."""

    stream: int


@dataclass
class MadeTwo:
    """Two streams were made: the writable and the readable half of a transform stream, or the
    branches of a tee."""

    first: int
    second: int


@dataclass
class Locked:
    """A reader or a writer was made."""

    lock: int


@dataclass
class SignalMade:
    """A signal was made."""

    signal: int


@dataclass
class PortMade:
    """A port was made, for a stream that is sent."""

    port: int


@dataclass
class EndMade:
    """A stream at the end of a new port was made."""

    stream: int
    port: int


@dataclass
class Requested:
    """A BYOB request, by its number and the length of its view, or none."""

    request: tuple[int, int] | None


@dataclass
class Named:
    """A promise, by its name."""

    promise: int


@dataclass
class Size:
    """A desired size, or null."""

    size: int | None


@dataclass
class Throws:
    """The call threw and changed nothing."""

    name: str


@dataclass
class TooMany:
    """The realm has as many streams as it may have."""


@dataclass
class Look:
    """A look at a stream. The flags are the letters of what is true."""

    state: str
    flags: str
    total_size: int
    queue_length: int
    requests: int


Reply = (Done | Made | MadeTwo | Locked | SignalMade | PortMade | EndMade | Requested | Named | Size
         | Throws | TooMany | Look)


@dataclass
class HostCalled:
    """An algorithm of the host's was called, with a value where it takes one."""

    host_call: int
    algorithm: str
    stream: int
    value: Value | None


@dataclass
class Signalled:
    """The signal of a writable stream's controller was aborted."""

    stream: int
    reason: Value


@dataclass
class Posted:
    """A message was posted by a port."""

    port: int
    message: Message


@dataclass
class Settled:
    """A promise that has a name settled."""

    name: int
    promise: Promise


Event = HostCalled | Signalled | Posted | Settled
