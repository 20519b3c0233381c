"""Queues with sizes, by the section of the Streams Standard that bears this name."""

from collections import deque
from typing import Any


class QueueWithSizes:
    """The slots [[queue]] and [[queueTotalSize]] of a controller."""

    def __init__(self) -> None:
        self._pairs: deque[tuple[Any, int]] = deque()
        self.total_size = 0

    def __len__(self) -> int:
        return len(self._pairs)

    def enqueue_value_with_size(self, value: Any, size: int) -> None:
        """EnqueueValueWithSize"""
        self._pairs.append((value, size))
        self.total_size += size

    def dequeue_value(self) -> Any:
        """DequeueValue"""
        assert self._pairs, "DequeueValue needs a queue that isn't empty"
        value, size = self._pairs.popleft()
        self.total_size -= size
        assert self.total_size >= 0, "[[queueTotalSize]] fell below 0"
        return value

    def peek_queue_value(self) -> Any:
        """PeekQueueValue"""
        assert self._pairs, "PeekQueueValue needs a queue that isn't empty"
        return self._pairs[0][0]

    def reset_queue(self) -> None:
        """ResetQueue"""
        self._pairs.clear()
        self.total_size = 0
