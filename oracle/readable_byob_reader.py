"""Readers of byte streams that bring their own buffers, and their read-into requests.

The methods are the Streams Standard's abstract operations, in the order of its section
"readers". Each docstring gives the standard's name.
"""

from __future__ import annotations

from dataclasses import dataclass
from typing import TYPE_CHECKING, Protocol

from promises import Promise
from readable_byte_controller import ReadableByteStreamController
from readable_byte_records import View
from readable_reader import ReadableStreamGenericReader, ReadResult
from values import TYPE_ERROR, Value

if TYPE_CHECKING:
    from readable import ReadableStream


class ReadIntoRequest(Protocol):
    """A read-into request, with its three items."""

    def chunk_steps(self, chunk: Value) -> None: ...

    def close_steps(self, chunk: Value) -> None: ...

    def error_steps(self, error: Value) -> None: ...


@dataclass
class PromiseReadIntoRequest:
    """The read-into request that ReadableStreamBYOBReader's read() makes for its promise."""

    promise: Promise

    def chunk_steps(self, chunk: Value) -> None:
        self.promise.resolve(ReadResult(chunk, done=False))

    def close_steps(self, chunk: Value) -> None:
        self.promise.resolve(ReadResult(chunk, done=True))

    def error_steps(self, error: Value) -> None:
        self.promise.reject(error)


class ReadableStreamBYOBReader(ReadableStreamGenericReader):
    """A ReadableStreamBYOBReader."""

    def __init__(self, stream: ReadableStream) -> None:
        """SetUpReadableStreamBYOBReader, of a byte stream that isn't locked"""
        assert not stream.is_locked()
        assert isinstance(stream.controller, ReadableByteStreamController)
        self.read_into_requests: list[ReadIntoRequest] = []
        self.generic_initialize(stream)

    def release(self) -> None:
        """ReadableStreamBYOBReaderRelease"""
        self.generic_release()
        self.error_read_into_requests(TYPE_ERROR)

    def error_read_into_requests(self, error: Value) -> None:
        """ReadableStreamBYOBReaderErrorReadIntoRequests"""
        read_into_requests, self.read_into_requests = self.read_into_requests, []
        for read_into_request in read_into_requests:
            read_into_request.error_steps(error)

    def read(self, view: View, minimum: int, read_into_request: ReadIntoRequest) -> None:
        """ReadableStreamBYOBReaderRead"""
        stream = self.stream
        assert stream is not None
        stream.disturbed = True
        if stream.state == "errored":
            read_into_request.error_steps(stream.stored_error)
        else:
            assert isinstance(stream.controller, ReadableByteStreamController)
            stream.controller.pull_into(view, minimum, read_into_request)
