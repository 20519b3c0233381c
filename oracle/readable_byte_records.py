"""What the controller of a readable byte stream keeps: a queue of bytes and pull-into descriptors.

The records are those of the Streams Standard's section "the ReadableByteStreamController
class". A view covers its whole buffer here, so none has an offset. A buffer that a program has
handed in is out of its reach until it is handed back, so none is detached or transferred.
"""

from __future__ import annotations

from collections import deque
from dataclasses import dataclass

from values import Bytes


class ByteQueue:
    """The slots [[queue]] and [[queueTotalSize]] of a byte controller. An entry is never empty."""

    def __init__(self) -> None:
        self._entries: deque[bytes] = deque()
        self.total_size = 0

    def __len__(self) -> int:
        return len(self._entries)

    def append(self, entry: bytes) -> None:
        """Appends an entry."""
        assert entry, "an entry of a byte queue is empty"
        self._entries.append(entry)
        self.total_size += len(entry)

    def take_entry(self) -> bytes:
        """Removes the first entry."""
        assert self._entries, "there is no entry in the byte queue"
        entry = self._entries.popleft()
        self.total_size -= len(entry)
        return entry

    def take_at_most(self, length: int) -> bytes:
        """Removes so many bytes of the first entry, or all of it where it has fewer."""
        entry = self.take_entry()
        taken, left = entry[:length], entry[length:]
        if left:
            self._entries.appendleft(left)
            self.total_size += len(left)
        return taken

    def reset_queue(self) -> None:
        """ResetQueue"""
        self._entries.clear()
        self.total_size = 0


@dataclass
class View:
    """A view of a whole buffer, by the size of its elements."""

    buffer: bytearray
    element_size: int

    @property
    def byte_length(self) -> int:
        return len(self.buffer)


@dataclass(eq=False)
class PullIntoDescriptor:
    """A pull-into descriptor. Its reader type is "default", "byob" or "none"."""

    view: View
    minimum_fill: int
    reader_type: str
    bytes_filled: int = 0

    @property
    def byte_length(self) -> int:
        return self.view.byte_length

    @property
    def element_size(self) -> int:
        return self.view.element_size

    def rest(self) -> memoryview:
        """The part of the buffer that isn't filled."""
        return memoryview(self.view.buffer)[self.bytes_filled:]

    def last_filled(self, length: int) -> bytes:
        """The last so many of the filled bytes."""
        return bytes(self.view.buffer[self.bytes_filled - length:self.bytes_filled])

    def converted(self) -> Bytes:
        """ReadableByteStreamControllerConvertPullIntoDescriptor"""
        assert self.bytes_filled <= self.byte_length
        assert self.bytes_filled % self.element_size == 0
        return Bytes(self.last_filled(self.bytes_filled))
