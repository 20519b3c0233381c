"""Writable streams.

The methods are the Streams Standard's abstract operations, in the order of its sections
"working with writable streams" and "interfacing with controllers". Each docstring gives the
standard's name. Steps that only mark a promise as handled are left out, since nothing here
hears of rejections that nobody handles.
"""

from __future__ import annotations

from dataclasses import dataclass
from typing import TYPE_CHECKING

from promises import JobQueue, Promise, promise_rejected_with, promise_resolved_with
from values import TYPE_ERROR, UNDEFINED, Value

if TYPE_CHECKING:
    from writable_controller import WritableStreamDefaultController
    from writable_writer import WritableStreamDefaultWriter


@dataclass
class PendingAbortRequest:
    """The pending abort request struct."""

    promise: Promise
    reason: Value
    was_already_erroring: bool


class WritableStream:
    """A WritableStream. Its controller is there once it was set up."""

    controller: WritableStreamDefaultController

    def __init__(self, jobs: JobQueue) -> None:
        """InitializeWritableStream"""
        self.jobs = jobs
        self.state = "writable"
        self.stored_error: Value | None = None
        self.writer: WritableStreamDefaultWriter | None = None
        self.in_flight_write_request: Promise | None = None
        self.close_request: Promise | None = None
        self.in_flight_close_request: Promise | None = None
        self.pending_abort_request: PendingAbortRequest | None = None
        self.write_requests: list[Promise] = []
        self.backpressure = False

    def is_locked(self) -> bool:
        """IsWritableStreamLocked"""
        return self.writer is not None

    def abort(self, reason: Value) -> Promise:
        """WritableStreamAbort"""
        if self.state in ("closed", "errored"):
            return promise_resolved_with(self.jobs, UNDEFINED)
        self.controller.abort_controller.signal_abort(reason)
        if self.pending_abort_request is not None:
            return self.pending_abort_request.promise
        assert self.state in ("writable", "erroring")
        was_already_erroring = False
        if self.state == "erroring":
            was_already_erroring = True
            reason = UNDEFINED
        promise = Promise(self.jobs)
        self.pending_abort_request = PendingAbortRequest(promise, reason, was_already_erroring)
        if not was_already_erroring:
            self.start_erroring(reason)
        return promise

    def close(self) -> Promise:
        """WritableStreamClose"""
        if self.state in ("closed", "errored"):
            return promise_rejected_with(self.jobs, TYPE_ERROR)
        assert self.state in ("writable", "erroring")
        assert not self.close_queued_or_in_flight()
        promise = Promise(self.jobs)
        self.close_request = promise
        if self.writer is not None and self.backpressure and self.state == "writable":
            self.writer.ready_promise.resolve(UNDEFINED)
        self.controller.close()
        return promise

    def add_write_request(self) -> Promise:
        """WritableStreamAddWriteRequest"""
        assert self.is_locked()
        assert self.state == "writable"
        promise = Promise(self.jobs)
        self.write_requests.append(promise)
        return promise

    def close_queued_or_in_flight(self) -> bool:
        """WritableStreamCloseQueuedOrInFlight"""
        return self.close_request is not None or self.in_flight_close_request is not None

    def deal_with_rejection(self, error: Value) -> None:
        """WritableStreamDealWithRejection"""
        if self.state == "writable":
            self.start_erroring(error)
            return
        assert self.state == "erroring"
        self.finish_erroring()

    def finish_erroring(self) -> None:
        """WritableStreamFinishErroring"""
        assert self.state == "erroring"
        assert not self.has_operation_marked_in_flight()
        self.state = "errored"
        self.controller.error_steps()
        write_requests, self.write_requests = self.write_requests, []
        for write_request in write_requests:
            write_request.reject(self.stored_error)
        abort_request, self.pending_abort_request = self.pending_abort_request, None
        if abort_request is None:
            self.reject_close_and_closed_promise_if_needed()
            return
        if abort_request.was_already_erroring:
            abort_request.promise.reject(self.stored_error)
            self.reject_close_and_closed_promise_if_needed()
            return

        def on_aborted(_result: Value) -> None:
            abort_request.promise.resolve(UNDEFINED)
            self.reject_close_and_closed_promise_if_needed()

        def on_abort_failed(reason: Value) -> None:
            abort_request.promise.reject(reason)
            self.reject_close_and_closed_promise_if_needed()

        self.controller.abort_steps(abort_request.reason).then(on_aborted, on_abort_failed)

    def finish_in_flight_close(self) -> None:
        """WritableStreamFinishInFlightClose"""
        assert self.in_flight_close_request is not None
        self.in_flight_close_request.resolve(UNDEFINED)
        self.in_flight_close_request = None
        assert self.state in ("writable", "erroring")
        if self.state == "erroring":
            self.stored_error = None
            if self.pending_abort_request is not None:
                self.pending_abort_request.promise.resolve(UNDEFINED)
                self.pending_abort_request = None
        self.state = "closed"
        if self.writer is not None:
            self.writer.closed_promise.resolve(UNDEFINED)
        assert self.pending_abort_request is None
        assert self.stored_error is None

    def finish_in_flight_close_with_error(self, error: Value) -> None:
        """WritableStreamFinishInFlightCloseWithError"""
        assert self.in_flight_close_request is not None
        self.in_flight_close_request.reject(error)
        self.in_flight_close_request = None
        assert self.state in ("writable", "erroring")
        if self.pending_abort_request is not None:
            self.pending_abort_request.promise.reject(error)
            self.pending_abort_request = None
        self.deal_with_rejection(error)

    def finish_in_flight_write(self) -> None:
        """WritableStreamFinishInFlightWrite"""
        assert self.in_flight_write_request is not None
        self.in_flight_write_request.resolve(UNDEFINED)
        self.in_flight_write_request = None

    def finish_in_flight_write_with_error(self, error: Value) -> None:
        """WritableStreamFinishInFlightWriteWithError"""
        assert self.in_flight_write_request is not None
        self.in_flight_write_request.reject(error)
        self.in_flight_write_request = None
        assert self.state in ("writable", "erroring")
        self.deal_with_rejection(error)

    def has_operation_marked_in_flight(self) -> bool:
        """WritableStreamHasOperationMarkedInFlight"""
        return (self.in_flight_write_request is not None
                or self.in_flight_close_request is not None)

    def mark_close_request_in_flight(self) -> None:
        """WritableStreamMarkCloseRequestInFlight"""
        assert self.in_flight_close_request is None
        assert self.close_request is not None
        self.in_flight_close_request = self.close_request
        self.close_request = None

    def mark_first_write_request_in_flight(self) -> None:
        """WritableStreamMarkFirstWriteRequestInFlight"""
        assert self.in_flight_write_request is None
        assert self.write_requests
        self.in_flight_write_request = self.write_requests.pop(0)

    def reject_close_and_closed_promise_if_needed(self) -> None:
        """WritableStreamRejectCloseAndClosedPromiseIfNeeded

        A writer that was made after the stream errored has a rejected closed promise
        already, which the standard rejects again without effect.
        """
        assert self.state == "errored"
        if self.close_request is not None:
            assert self.in_flight_close_request is None
            self.close_request.reject(self.stored_error)
            self.close_request = None
        if self.writer is not None and self.writer.closed_promise.is_pending:
            self.writer.closed_promise.reject(self.stored_error)

    def start_erroring(self, reason: Value) -> None:
        """WritableStreamStartErroring"""
        assert self.stored_error is None
        assert self.state == "writable"
        self.state = "erroring"
        self.stored_error = reason
        if self.writer is not None:
            self.writer.ensure_ready_promise_rejected(reason)
        if not self.has_operation_marked_in_flight() and self.controller.started:
            self.finish_erroring()

    def update_backpressure(self, backpressure: bool) -> None:
        """WritableStreamUpdateBackpressure"""
        assert self.state == "writable"
        assert not self.close_queued_or_in_flight()
        if self.writer is not None and backpressure != self.backpressure:
            if backpressure:
                self.writer.ready_promise = Promise(self.jobs)
            else:
                self.writer.ready_promise.resolve(UNDEFINED)
        self.backpressure = backpressure
