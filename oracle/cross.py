"""The streams at the ends of message ports: the Streams Standard's cross-realm transforms.

The methods are the standard's steps of SetUpCrossRealmTransformReadable and
SetUpCrossRealmTransformWritable in its order, with PackAndPostMessage and
PackAndPostMessageHandlingError. Each docstring gives the standard's words. Of a port only one
end is in this realm: what it posts is an event of the host's, and the host delivers messages.
"""

from __future__ import annotations

from dataclasses import dataclass
from typing import Callable

from promises import JobQueue, Promise, Thrown, promise_rejected_with, promise_resolved_with
from readable import ReadableStream
from readable_controller import ReadableStreamDefaultController, UnderlyingSource
from values import DATA_CLONE_ERROR, UNDEFINED, Value, count_size, is_cloneable
from writable import WritableStream
from writable_controller import AbortController, UnderlyingSink, WritableStreamDefaultController


@dataclass(frozen=True)
class Message:
    """A message with its type, and its value where it has one."""

    type: str
    value: Value | None = None


class Port:
    """One end of a message port, until it is disentangled and after."""

    def __init__(self, tell: Callable[[Message], None]) -> None:
        self._tell = tell
        self.is_entangled = True

    def pack_and_post(self, message: Message) -> None:
        """PackAndPostMessage: the message port post message steps serialize the value first,
        and then do nothing where the port isn't entangled"""
        if message.value is not None and not is_cloneable(message.value):
            raise Thrown(DATA_CLONE_ERROR)
        if self.is_entangled:
            self._tell(message)

    def pack_and_post_handling_error(self, message: Message) -> None:
        """PackAndPostMessageHandlingError, with CrossRealmTransformSendError"""
        try:
            self.pack_and_post(message)
        except Thrown as thrown:
            self.pack_and_post(Message("error", thrown.value))
            raise

    def disentangle(self) -> None:
        """Disentangle"""
        self.is_entangled = False


class CrossRealmEnd:
    """What both kinds of ends have in common."""

    def __init__(self, jobs: JobQueue, port: Port) -> None:
        self.jobs = jobs
        self.port = port

    def take(self, message: Message) -> None:
        """A message event of the port, which comes only while it is entangled"""
        if self.port.is_entangled:
            self.on_message(message)

    def on_message(self, message: Message) -> None:
        """The handler for the port's message event"""
        raise NotImplementedError

    def leave(self, reason: Value) -> Promise:
        """The cancel algorithm of a readable end, and the abort algorithm of a writable one"""
        try:
            self.port.pack_and_post_handling_error(Message("error", reason))
        except Thrown as thrown:
            return promise_rejected_with(self.jobs, thrown.value)
        finally:
            self.port.disentangle()
        return promise_resolved_with(self.jobs, UNDEFINED)


class CrossRealmReadable(CrossRealmEnd):
    """A readable stream, whose chunks come by a port."""

    def __init__(self, jobs: JobQueue, port: Port) -> None:
        """SetUpCrossRealmTransformReadable"""
        super().__init__(jobs, port)
        self.stream = ReadableStream(jobs)
        source = UnderlyingSource(start=lambda: UNDEFINED, pull=self._pull, cancel=self.leave)
        ReadableStreamDefaultController(self.stream, source, 0, count_size)

    def on_message(self, message: Message) -> None:
        controller = self.stream.controller
        if message.type == "chunk":
            controller.enqueue(message.value)
        elif message.type == "close":
            controller.close()
            self.port.disentangle()
        elif message.type == "error":
            controller.error(message.value)
            self.port.disentangle()

    def _pull(self) -> Promise:
        """pullAlgorithm"""
        self.port.pack_and_post(Message("pull"))
        return promise_resolved_with(self.jobs, UNDEFINED)


class CrossRealmWritable(CrossRealmEnd):
    """A writable stream, whose chunks leave by a port, each once the other end asked for it."""

    def __init__(self, jobs: JobQueue, port: Port) -> None:
        """SetUpCrossRealmTransformWritable"""
        super().__init__(jobs, port)
        self.stream = WritableStream(jobs)
        self._backpressure_promise: Promise | None = Promise(jobs)
        sink = UnderlyingSink(start=lambda: UNDEFINED, write=self._write, close=self._close,
                              abort=self.leave)
        WritableStreamDefaultController(self.stream, sink, 1, count_size,
                                        AbortController(lambda _reason: None))

    def on_message(self, message: Message) -> None:
        if message.type == "pull":
            self._end_backpressure()
        elif message.type == "error":
            self.stream.controller.error_if_needed(message.value)
            self._end_backpressure()

    def _end_backpressure(self) -> None:
        """Resolve backpressurePromise with undefined, and set it to undefined. It may have been
        resolved before, where a write began after a message that asked for one."""
        promise, self._backpressure_promise = self._backpressure_promise, None
        if promise is not None and promise.is_pending:
            promise.resolve(UNDEFINED)

    def _write(self, chunk: Value) -> Promise:
        """writeAlgorithm"""

        def post(_result: Value) -> Promise:
            self._backpressure_promise = Promise(self.jobs)
            try:
                self.port.pack_and_post_handling_error(Message("chunk", chunk))
            except Thrown as thrown:
                self.port.disentangle()
                return promise_rejected_with(self.jobs, thrown.value)
            return promise_resolved_with(self.jobs, UNDEFINED)

        if self._backpressure_promise is None:
            self._backpressure_promise = promise_resolved_with(self.jobs, UNDEFINED)
        return self._backpressure_promise.then(post, None)

    def _close(self) -> Promise:
        """closeAlgorithm"""
        self.port.pack_and_post(Message("close"))
        self.port.disentangle()
        return promise_resolved_with(self.jobs, UNDEFINED)
