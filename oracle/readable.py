"""Readable streams.

The methods are the Streams Standard's abstract operations, in the order of its sections
"working with readable streams" and "interfacing with controllers". Each docstring gives the
standard's name. Steps that only mark a promise as handled are left out, since nothing here
hears of rejections that nobody handles.
"""

from __future__ import annotations

from typing import TYPE_CHECKING

from promises import JobQueue, Promise, promise_rejected_with, promise_resolved_with
from readable_byob_reader import ReadableStreamBYOBReader, ReadIntoRequest
from readable_reader import ReadableStreamDefaultReader, ReadRequest
from values import UNDEFINED, Value

if TYPE_CHECKING:
    from readable_byte_controller import ReadableByteStreamController
    from readable_controller import ReadableStreamDefaultController


class ReadableStream:
    """A ReadableStream. Its controller is there once it was set up."""

    controller: ReadableStreamDefaultController | ReadableByteStreamController

    def __init__(self, jobs: JobQueue) -> None:
        """InitializeReadableStream"""
        self.jobs = jobs
        self.state = "readable"
        self.reader: ReadableStreamDefaultReader | ReadableStreamBYOBReader | None = None
        self.stored_error: Value = UNDEFINED
        self.disturbed = False

    def is_locked(self) -> bool:
        """IsReadableStreamLocked"""
        return self.reader is not None

    def cancel(self, reason: Value) -> Promise:
        """ReadableStreamCancel"""
        self.disturbed = True
        if self.state == "closed":
            return promise_resolved_with(self.jobs, UNDEFINED)
        if self.state == "errored":
            return promise_rejected_with(self.jobs, self.stored_error)
        self.close()
        reader = self.reader
        if isinstance(reader, ReadableStreamBYOBReader):
            read_into_requests, reader.read_into_requests = reader.read_into_requests, []
            for read_into_request in read_into_requests:
                read_into_request.close_steps(UNDEFINED)
        source_cancel_promise = self.controller.cancel_steps(reason)
        return source_cancel_promise.then(lambda _: UNDEFINED, None)

    def close(self) -> None:
        """ReadableStreamClose"""
        assert self.state == "readable"
        self.state = "closed"
        reader = self.reader
        if reader is None:
            return
        reader.closed_promise.resolve(UNDEFINED)
        if isinstance(reader, ReadableStreamDefaultReader):
            read_requests, reader.read_requests = reader.read_requests, []
            for read_request in read_requests:
                read_request.close_steps()

    def error(self, error: Value) -> None:
        """ReadableStreamError"""
        assert self.state == "readable"
        self.state = "errored"
        self.stored_error = error
        reader = self.reader
        if reader is None:
            return
        reader.closed_promise.reject(error)
        if isinstance(reader, ReadableStreamDefaultReader):
            reader.error_read_requests(error)
        else:
            reader.error_read_into_requests(error)

    def add_read_into_request(self, read_into_request: ReadIntoRequest) -> None:
        """ReadableStreamAddReadIntoRequest"""
        assert isinstance(self.reader, ReadableStreamBYOBReader)
        assert self.state in ("readable", "closed")
        self.reader.read_into_requests.append(read_into_request)

    def add_read_request(self, read_request: ReadRequest) -> None:
        """ReadableStreamAddReadRequest"""
        assert isinstance(self.reader, ReadableStreamDefaultReader)
        assert self.state == "readable"
        self.reader.read_requests.append(read_request)

    def fulfill_read_into_request(self, chunk: Value, done: bool) -> None:
        """ReadableStreamFulfillReadIntoRequest"""
        assert isinstance(self.reader, ReadableStreamBYOBReader)
        assert self.reader.read_into_requests
        read_into_request = self.reader.read_into_requests.pop(0)
        if done:
            read_into_request.close_steps(chunk)
        else:
            read_into_request.chunk_steps(chunk)

    def fulfill_read_request(self, chunk: Value) -> None:
        """ReadableStreamFulfillReadRequest, where done is false"""
        assert isinstance(self.reader, ReadableStreamDefaultReader)
        assert self.reader.read_requests
        self.reader.read_requests.pop(0).chunk_steps(chunk)

    def number_of_read_into_requests(self) -> int:
        """ReadableStreamGetNumReadIntoRequests"""
        assert isinstance(self.reader, ReadableStreamBYOBReader)
        return len(self.reader.read_into_requests)

    def number_of_read_requests(self) -> int:
        """ReadableStreamGetNumReadRequests"""
        assert isinstance(self.reader, ReadableStreamDefaultReader)
        return len(self.reader.read_requests)

    def has_byob_reader(self) -> bool:
        """ReadableStreamHasBYOBReader"""
        return isinstance(self.reader, ReadableStreamBYOBReader)

    def has_default_reader(self) -> bool:
        """ReadableStreamHasDefaultReader"""
        return isinstance(self.reader, ReadableStreamDefaultReader)
