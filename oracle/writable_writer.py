"""Default writers of writable streams.

The methods are the Streams Standard's abstract operations, in the order of its section
"writers". Each docstring gives the standard's name.
"""

from __future__ import annotations

from promises import Promise, promise_rejected_with, promise_resolved_with
from values import TYPE_ERROR, UNDEFINED, Value
from writable import WritableStream


class WritableStreamDefaultWriter:
    """A WritableStreamDefaultWriter."""

    ready_promise: Promise
    closed_promise: Promise

    def __init__(self, stream: WritableStream) -> None:
        """SetUpWritableStreamDefaultWriter, where the stream isn't locked"""
        assert not stream.is_locked()
        self.jobs = stream.jobs
        self.stream: WritableStream | None = stream
        stream.writer = self
        if stream.state == "writable":
            if not stream.close_queued_or_in_flight() and stream.backpressure:
                self.ready_promise = Promise(self.jobs)
            else:
                self.ready_promise = promise_resolved_with(self.jobs, UNDEFINED)
            self.closed_promise = Promise(self.jobs)
        elif stream.state == "erroring":
            self.ready_promise = promise_rejected_with(self.jobs, stream.stored_error)
            self.closed_promise = Promise(self.jobs)
        elif stream.state == "closed":
            self.ready_promise = promise_resolved_with(self.jobs, UNDEFINED)
            self.closed_promise = promise_resolved_with(self.jobs, UNDEFINED)
        else:
            assert stream.state == "errored"
            self.ready_promise = promise_rejected_with(self.jobs, stream.stored_error)
            self.closed_promise = promise_rejected_with(self.jobs, stream.stored_error)

    def abort(self, reason: Value) -> Promise:
        """WritableStreamDefaultWriterAbort"""
        assert self.stream is not None
        return self.stream.abort(reason)

    def close(self) -> Promise:
        """WritableStreamDefaultWriterClose"""
        assert self.stream is not None
        return self.stream.close()

    def close_with_error_propagation(self) -> Promise:
        """WritableStreamDefaultWriterCloseWithErrorPropagation"""
        stream = self.stream
        assert stream is not None
        if stream.close_queued_or_in_flight() or stream.state == "closed":
            return promise_resolved_with(self.jobs, UNDEFINED)
        if stream.state == "errored":
            assert stream.stored_error is not None
            return promise_rejected_with(self.jobs, stream.stored_error)
        assert stream.state in ("writable", "erroring")
        return self.close()

    def ensure_closed_promise_rejected(self, error: Value) -> None:
        """WritableStreamDefaultWriterEnsureClosedPromiseRejected"""
        if self.closed_promise.is_pending:
            self.closed_promise.reject(error)
        else:
            self.closed_promise = promise_rejected_with(self.jobs, error)

    def ensure_ready_promise_rejected(self, error: Value) -> None:
        """WritableStreamDefaultWriterEnsureReadyPromiseRejected"""
        if self.ready_promise.is_pending:
            self.ready_promise.reject(error)
        else:
            self.ready_promise = promise_rejected_with(self.jobs, error)

    def desired_size(self) -> int | None:
        """WritableStreamDefaultWriterGetDesiredSize"""
        assert self.stream is not None
        if self.stream.state in ("errored", "erroring"):
            return None
        if self.stream.state == "closed":
            return 0
        return self.stream.controller.desired_size()

    def release(self) -> None:
        """WritableStreamDefaultWriterRelease"""
        stream = self.stream
        assert stream is not None
        assert stream.writer is self
        self.ensure_ready_promise_rejected(TYPE_ERROR)
        self.ensure_closed_promise_rejected(TYPE_ERROR)
        stream.writer = None
        self.stream = None

    def write(self, chunk: Value) -> Promise:
        """WritableStreamDefaultWriterWrite"""
        stream = self.stream
        assert stream is not None
        controller = stream.controller
        chunk_size = controller.chunk_size(chunk)
        if stream.state == "errored":
            return promise_rejected_with(self.jobs, stream.stored_error)
        if stream.close_queued_or_in_flight() or stream.state == "closed":
            return promise_rejected_with(self.jobs, TYPE_ERROR)
        if stream.state == "erroring":
            return promise_rejected_with(self.jobs, stream.stored_error)
        assert stream.state == "writable"
        promise = stream.add_write_request()
        controller.write(chunk, chunk_size)
        return promise
