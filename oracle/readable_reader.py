"""Readers of readable streams; default readers and their read requests.

The methods are the Streams Standard's abstract operations, in the order of its section
"readers". Each docstring gives the standard's name.
"""

from __future__ import annotations

from dataclasses import dataclass
from typing import TYPE_CHECKING, Protocol

from promises import Promise, promise_rejected_with, promise_resolved_with
from values import TYPE_ERROR, UNDEFINED, Value

if TYPE_CHECKING:
    from readable import ReadableStream


@dataclass
class ReadResult:
    """What the promise of a read is fulfilled with."""

    value: Value
    done: bool


class ReadRequest(Protocol):
    """A read request, with its three items."""

    def chunk_steps(self, chunk: Value) -> None: ...

    def close_steps(self) -> None: ...

    def error_steps(self, error: Value) -> None: ...


@dataclass
class PromiseReadRequest:
    """The read request that ReadableStreamDefaultReader's read() makes for its promise."""

    promise: Promise

    def chunk_steps(self, chunk: Value) -> None:
        self.promise.resolve(ReadResult(chunk, done=False))

    def close_steps(self) -> None:
        self.promise.resolve(ReadResult(UNDEFINED, done=True))

    def error_steps(self, error: Value) -> None:
        self.promise.reject(error)


class ReadableStreamGenericReader:
    """What the mixin ReadableStreamGenericReader gives to readers of both kinds."""

    closed_promise: Promise
    stream: ReadableStream | None

    def generic_initialize(self, stream: ReadableStream) -> None:
        """ReadableStreamReaderGenericInitialize"""
        self.stream = stream
        stream.reader = self
        if stream.state == "readable":
            self.closed_promise = Promise(stream.jobs)
        elif stream.state == "closed":
            self.closed_promise = promise_resolved_with(stream.jobs, UNDEFINED)
        else:
            assert stream.state == "errored"
            self.closed_promise = promise_rejected_with(stream.jobs, stream.stored_error)

    def generic_cancel(self, reason: Value) -> Promise:
        """ReadableStreamReaderGenericCancel"""
        assert self.stream is not None
        return self.stream.cancel(reason)

    def generic_release(self) -> None:
        """ReadableStreamReaderGenericRelease"""
        stream = self.stream
        assert stream is not None
        assert stream.reader is self
        if stream.state == "readable":
            self.closed_promise.reject(TYPE_ERROR)
        else:
            self.closed_promise = promise_rejected_with(stream.jobs, TYPE_ERROR)
        stream.controller.release_steps()
        stream.reader = None
        self.stream = None


class ReadableStreamDefaultReader(ReadableStreamGenericReader):
    """A ReadableStreamDefaultReader."""

    def __init__(self, stream: ReadableStream) -> None:
        """SetUpReadableStreamDefaultReader, where the stream isn't locked"""
        assert not stream.is_locked()
        self.read_requests: list[ReadRequest] = []
        self.generic_initialize(stream)

    def release(self) -> None:
        """ReadableStreamDefaultReaderRelease"""
        self.generic_release()
        self.error_read_requests(TYPE_ERROR)

    def error_read_requests(self, error: Value) -> None:
        """ReadableStreamDefaultReaderErrorReadRequests"""
        read_requests, self.read_requests = self.read_requests, []
        for read_request in read_requests:
            read_request.error_steps(error)

    def read(self, read_request: ReadRequest) -> None:
        """ReadableStreamDefaultReaderRead"""
        stream = self.stream
        assert stream is not None
        stream.disturbed = True
        if stream.state == "closed":
            read_request.close_steps()
        elif stream.state == "errored":
            read_request.error_steps(stream.stored_error)
        else:
            assert stream.state == "readable"
            stream.controller.pull_steps(read_request)
