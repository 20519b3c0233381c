"""Default controllers of readable streams.

The methods are the Streams Standard's abstract operations, in the order of its section
"default controllers" of readable streams. Each docstring gives the standard's name.
"""

from __future__ import annotations

from dataclasses import dataclass
from typing import Callable

from promises import Promise
from queues import QueueWithSizes
from readable import ReadableStream
from readable_pulling import PullingController
from readable_reader import ReadRequest
from values import Value


@dataclass
class UnderlyingSource:
    """The algorithms of a source."""

    start: Callable[[], Value | Promise]
    pull: Callable[[], Promise]
    cancel: Callable[[Value], Promise]


class ReadableStreamDefaultController(PullingController):
    """A ReadableStreamDefaultController."""

    def __init__(self, stream: ReadableStream, source: UnderlyingSource,
                 high_water_mark: int, size_algorithm: Callable[[Value], int]) -> None:
        """SetUpReadableStreamDefaultController"""
        super().__init__(stream, source, high_water_mark)
        self.queue = QueueWithSizes()
        self.size_algorithm: Callable[[Value], int] | None = size_algorithm
        stream.controller = self
        self.start(source)

    def cancel_steps(self, reason: Value) -> Promise:
        """[[CancelSteps]]"""
        self.queue.reset_queue()
        assert self.cancel_algorithm is not None
        result = self.cancel_algorithm(reason)
        self.clear_algorithms()
        return result

    def pull_steps(self, read_request: ReadRequest) -> None:
        """[[PullSteps]]"""
        if len(self.queue) > 0:
            chunk = self.queue.dequeue_value()
            if self.close_requested and len(self.queue) == 0:
                self.clear_algorithms()
                self.stream.close()
            else:
                self.call_pull_if_needed()
            read_request.chunk_steps(chunk)
        else:
            self.stream.add_read_request(read_request)
            self.call_pull_if_needed()

    def release_steps(self) -> None:
        """[[ReleaseSteps]], which are empty for a default controller"""

    def should_call_pull(self) -> bool:
        """ReadableStreamDefaultControllerShouldCallPull"""
        if not self.can_close_or_enqueue():
            return False
        if not self.started:
            return False
        if self.stream.is_locked() and self.stream.number_of_read_requests() > 0:
            return True
        desired_size = self.desired_size()
        assert desired_size is not None
        return desired_size > 0

    def clear_algorithms(self) -> None:
        """ReadableStreamDefaultControllerClearAlgorithms"""
        super().clear_algorithms()
        self.size_algorithm = None

    def close(self) -> None:
        """ReadableStreamDefaultControllerClose"""
        if not self.can_close_or_enqueue():
            return
        self.close_requested = True
        if len(self.queue) == 0:
            self.clear_algorithms()
            self.stream.close()

    def enqueue(self, chunk: Value) -> None:
        """ReadableStreamDefaultControllerEnqueue"""
        if not self.can_close_or_enqueue():
            return
        if self.stream.is_locked() and self.stream.number_of_read_requests() > 0:
            self.stream.fulfill_read_request(chunk)
        else:
            assert self.size_algorithm is not None
            self.queue.enqueue_value_with_size(chunk, self.size_algorithm(chunk))
        self.call_pull_if_needed()

    def error(self, error: Value) -> None:
        """ReadableStreamDefaultControllerError"""
        if self.stream.state != "readable":
            return
        self.queue.reset_queue()
        self.clear_algorithms()
        self.stream.error(error)

    def desired_size(self) -> int | None:
        """ReadableStreamDefaultControllerGetDesiredSize"""
        if self.stream.state == "errored":
            return None
        if self.stream.state == "closed":
            return 0
        return self.high_water_mark - self.queue.total_size

    def has_backpressure(self) -> bool:
        """ReadableStreamDefaultControllerHasBackpressure"""
        return not self.should_call_pull()

    def can_close_or_enqueue(self) -> bool:
        """ReadableStreamDefaultControllerCanCloseOrEnqueue"""
        return not self.close_requested and self.stream.state == "readable"
