"""Default controllers of writable streams.

The methods are the Streams Standard's abstract operations, in the order of its section
"default controllers" of writable streams. Each docstring gives the standard's name.
"""

from __future__ import annotations

from dataclasses import dataclass
from typing import Any, Callable

from promises import Promise, promise_resolved_with
from queues import QueueWithSizes
from values import Value
from writable import WritableStream

CLOSE_SENTINEL = object()


@dataclass
class UnderlyingSink:
    """The algorithms of a sink."""

    start: Callable[[], Value | Promise]
    write: Callable[[Value], Promise]
    close: Callable[[], Promise]
    abort: Callable[[Value], Promise]


@dataclass
class AbortController:
    """The DOM's AbortController of one stream, with what follows its signal's abort event."""

    on_abort: Callable[[Value], None]
    aborted: bool = False

    def signal_abort(self, reason: Value) -> None:
        """The DOM's "signal abort", which does nothing a second time"""
        if not self.aborted:
            self.aborted = True
            self.on_abort(reason)


class WritableStreamDefaultController:
    """A WritableStreamDefaultController."""

    def __init__(self, stream: WritableStream, sink: UnderlyingSink, high_water_mark: int,
                 size_algorithm: Callable[[Value], int],
                 abort_controller: AbortController) -> None:
        """SetUpWritableStreamDefaultController"""
        self.stream = stream
        self.queue = QueueWithSizes()
        self.abort_controller = abort_controller
        self.started = False
        self.high_water_mark = high_water_mark
        self.size_algorithm: Callable[[Value], int] | None = size_algorithm
        self.write_algorithm: Callable[[Value], Promise] | None = sink.write
        self.close_algorithm: Callable[[], Promise] | None = sink.close
        self.abort_algorithm: Callable[[Value], Promise] | None = sink.abort
        stream.controller = self
        stream.update_backpressure(self.backpressure())
        start_promise = promise_resolved_with(stream.jobs, sink.start())
        start_promise.then(self._on_started, self._on_start_failed)

    def _on_started(self, _result: Value) -> None:
        assert self.stream.state in ("writable", "erroring")
        self.started = True
        self.advance_queue_if_needed()

    def _on_start_failed(self, reason: Value) -> None:
        assert self.stream.state in ("writable", "erroring")
        self.started = True
        self.stream.deal_with_rejection(reason)

    def abort_steps(self, reason: Value) -> Promise:
        """[[AbortSteps]]"""
        assert self.abort_algorithm is not None
        result = self.abort_algorithm(reason)
        self.clear_algorithms()
        return result

    def error_steps(self) -> None:
        """[[ErrorSteps]]"""
        self.queue.reset_queue()

    def advance_queue_if_needed(self) -> None:
        """WritableStreamDefaultControllerAdvanceQueueIfNeeded"""
        stream = self.stream
        if not self.started:
            return
        if stream.in_flight_write_request is not None:
            return
        assert stream.state not in ("closed", "errored")
        if stream.state == "erroring":
            stream.finish_erroring()
            return
        if len(self.queue) == 0:
            return
        value = self.queue.peek_queue_value()
        if value is CLOSE_SENTINEL:
            self.process_close()
        else:
            self.process_write(value)

    def clear_algorithms(self) -> None:
        """WritableStreamDefaultControllerClearAlgorithms"""
        self.write_algorithm = None
        self.close_algorithm = None
        self.abort_algorithm = None
        self.size_algorithm = None

    def close(self) -> None:
        """WritableStreamDefaultControllerClose"""
        self.queue.enqueue_value_with_size(CLOSE_SENTINEL, 0)
        self.advance_queue_if_needed()

    def error(self, error: Value) -> None:
        """WritableStreamDefaultControllerError"""
        assert self.stream.state == "writable"
        self.clear_algorithms()
        self.stream.start_erroring(error)

    def error_if_needed(self, error: Value) -> None:
        """WritableStreamDefaultControllerErrorIfNeeded"""
        if self.stream.state == "writable":
            self.error(error)

    def backpressure(self) -> bool:
        """WritableStreamDefaultControllerGetBackpressure"""
        return self.desired_size() <= 0

    def chunk_size(self, chunk: Value) -> int:
        """WritableStreamDefaultControllerGetChunkSize

        The size algorithm is let go of once no chunk can be accepted any more.
        """
        if self.size_algorithm is None:
            assert self.stream.state != "writable" or self.stream.close_queued_or_in_flight()
            return 1
        return self.size_algorithm(chunk)

    def desired_size(self) -> int:
        """WritableStreamDefaultControllerGetDesiredSize"""
        return self.high_water_mark - self.queue.total_size

    def process_close(self) -> None:
        """WritableStreamDefaultControllerProcessClose"""
        stream = self.stream
        stream.mark_close_request_in_flight()
        self.queue.dequeue_value()
        assert len(self.queue) == 0
        assert self.close_algorithm is not None
        sink_close_promise = self.close_algorithm()
        self.clear_algorithms()
        sink_close_promise.then(lambda _: stream.finish_in_flight_close(),
                                stream.finish_in_flight_close_with_error)

    def process_write(self, chunk: Any) -> None:
        """WritableStreamDefaultControllerProcessWrite"""
        stream = self.stream
        stream.mark_first_write_request_in_flight()
        assert self.write_algorithm is not None
        self.write_algorithm(chunk).then(self._on_written, self._on_write_failed)

    def _on_written(self, _result: Value) -> None:
        stream = self.stream
        stream.finish_in_flight_write()
        assert stream.state in ("writable", "erroring")
        self.queue.dequeue_value()
        if not stream.close_queued_or_in_flight() and stream.state == "writable":
            stream.update_backpressure(self.backpressure())
        self.advance_queue_if_needed()

    def _on_write_failed(self, reason: Value) -> None:
        if self.stream.state == "writable":
            self.clear_algorithms()
        self.stream.finish_in_flight_write_with_error(reason)

    def write(self, chunk: Value, chunk_size: int) -> None:
        """WritableStreamDefaultControllerWrite"""
        stream = self.stream
        self.queue.enqueue_value_with_size(chunk, chunk_size)
        if not stream.close_queued_or_in_flight() and stream.state == "writable":
            stream.update_backpressure(self.backpressure())
        self.advance_queue_if_needed()
