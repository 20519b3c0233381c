"""Pipes: the Streams Standard's ReadableStreamPipeTo, by the section "Pipes" of docs/SCRIPT.md.

The standard says what a pipe must do, and leaves open in which job it does so. The page says
the rest: when a pipe looks at its ends, reads, writes and goes on with its shutdown. The
methods are the standard's steps in its order. Each docstring gives the standard's words.
"""

from __future__ import annotations

from dataclasses import dataclass
from typing import Any, Callable

from promises import JobQueue, Promise, promise_resolved_with, wait_for_all
from readable import ReadableStream
from readable_reader import ReadableStreamDefaultReader
from signals import AbortSignal
from values import TYPE_ERROR, UNDEFINED, Value
from writable import WritableStream
from writable_writer import WritableStreamDefaultWriter

Action = Callable[[], Promise]


@dataclass
class Prevent:
    """The options preventClose, preventAbort and preventCancel."""

    close: bool = False
    abort: bool = False
    cancel: bool = False


class PipeReadRequest:
    """The read request of a pipe. It goes on with what came in a microtask of its own."""

    def __init__(self, pipe: Pipe) -> None:
        self._pipe = pipe

    def chunk_steps(self, chunk: Value) -> None:
        self._pipe.keep_chunk(chunk)

    def close_steps(self) -> None:
        self._pipe.end_read()

    def error_steps(self, _error: Value) -> None:
        self._pipe.end_read()


class Pipe:
    """One ReadableStreamPipeTo, until its promise has settled and after."""

    def __init__(self, source: ReadableStream, dest: WritableStream, prevent: Prevent,
                 signal: AbortSignal | None) -> None:
        """ReadableStreamPipeTo, where neither stream is locked"""
        assert not source.is_locked()
        assert not dest.is_locked()
        self.jobs: JobQueue = source.jobs
        self.source = source
        self.dest = dest
        self.prevent = prevent
        self.signal = signal
        self.reader = ReadableStreamDefaultReader(source)
        self.writer = WritableStreamDefaultWriter(dest)
        source.disturbed = True
        self.promise = Promise(self.jobs)
        self.is_shutting_down = False
        self._waits_for_writes = False
        self._is_over = False
        self._is_reading = False
        self._held_chunk: Value | None = None
        self._unsettled_writes = 0
        self._waits_for_ready = False
        self._action: Action | None = None
        self._error: Value | None = None

    def begin(self) -> None:
        """The steps of ReadableStreamPipeTo that follow the making of its promise"""
        if self.signal is not None:
            if self.signal.reason is not None:
                self.abort(self.signal.reason)
                return
            self.signal.add(self)
        self.reader.closed_promise.then(self._on_end_settled, self._on_end_settled)
        self.writer.closed_promise.then(self._on_end_settled, self._on_end_settled)
        self.jobs.enqueue(self.look)

    def _on_end_settled(self, _outcome: Value) -> None:
        self.look()

    # Errors and closing

    def look(self) -> None:
        """ "Errors must be propagated forward", "Errors must be propagated backward", "Closing
        must be propagated forward", "Closing must be propagated backward", in this order; and
        where none of these holds, a read"""
        if self.is_shutting_down:
            return
        source, dest = self.source, self.dest
        if source.state == "errored":
            error = source.stored_error
            action = None if self.prevent.abort else lambda: dest.abort(error)
            self.shutdown(action, error)
        elif dest.state == "errored":
            assert dest.stored_error is not None
            reason = dest.stored_error
            action = None if self.prevent.cancel else lambda: source.cancel(reason)
            self.shutdown(action, reason)
        elif source.state == "closed":
            action = None if self.prevent.close else self.writer.close_with_error_propagation
            self.shutdown(action, None)
        elif dest.close_queued_or_in_flight() or dest.state == "closed":
            action = None if self.prevent.cancel else lambda: source.cancel(TYPE_ERROR)
            self.shutdown(action, TYPE_ERROR)
        elif not self._is_reading:
            self._read_or_wait()

    def _read_or_wait(self) -> None:
        """ "Backpressure must be enforced": no read where the desired size isn't above 0"""
        desired_size = self.writer.desired_size()
        if desired_size is not None and desired_size > 0:
            self._is_reading = True
            self.reader.read(PipeReadRequest(self))
        elif not self._waits_for_ready and self.dest.state == "writable":
            self._waits_for_ready = True
            self.writer.ready_promise.then(self._on_ready_settled, self._on_ready_settled)

    def _on_ready_settled(self, _outcome: Value) -> None:
        self._waits_for_ready = False
        self.look()

    # Reads and writes

    def keep_chunk(self, chunk: Value) -> None:
        """The chunk steps of the pipe's read request"""
        assert self._held_chunk is None
        self._held_chunk = chunk
        self.jobs.enqueue(self._write_held_chunk)

    def end_read(self) -> None:
        """The close steps and the error steps of the pipe's read request"""
        self._is_reading = False
        self.jobs.enqueue(self.look)

    def _write_held_chunk(self) -> None:
        """ "Write all chunks that have been read", unless the shutdown's action was performed"""
        chunk, self._held_chunk = self._held_chunk, None
        assert chunk is not None
        self._is_reading = False
        if self.is_shutting_down and not self._waits_for_writes:
            return
        self._unsettled_writes += 1
        self.writer.write(chunk).then(self._on_write_settled, self._on_write_settled)
        self._go_on()

    def _on_write_settled(self, _outcome: Value) -> None:
        self._unsettled_writes -= 1
        self._go_on()

    def _go_on(self) -> None:
        """A look, or the shutdown once nothing is left to write"""
        if not self.is_shutting_down:
            self.look()
        elif self._waits_for_writes:
            self._act_once_written()

    # Shutdown

    def shutdown(self, action: Action | None, error: Value | None) -> None:
        """ "Shutdown with an action", and "shutdown" where there is none"""
        if self.is_shutting_down:
            return
        self.is_shutting_down = True
        self._action = action
        self._error = error
        if self.dest.state == "writable" and not self.dest.close_queued_or_in_flight():
            self._waits_for_writes = True
            self._act_once_written()
        else:
            self._act()

    def _act_once_written(self) -> None:
        """ "Wait until every chunk that has been read has been written" """
        if self._held_chunk is None and self._unsettled_writes == 0:
            self._waits_for_writes = False
            self._act()

    def _act(self) -> None:
        """The action, and what follows its promise"""
        if self._action is None:
            self._finalize(self._error)
            return
        self._action().then(lambda _: self._finalize(self._error), self._finalize)

    def _finalize(self, error: Value | None) -> None:
        """ "Finalize" """
        assert not self._is_over
        self._is_over = True
        self.writer.release()
        self.reader.release()
        if self.signal is not None:
            self.signal.remove(self)
        if error is not None:
            self.promise.reject(error)
        else:
            self.promise.resolve(UNDEFINED)

    # The signal

    def abort(self, reason: Value) -> None:
        """The abort algorithm of ReadableStreamPipeTo"""
        self.shutdown(lambda: self._abort_ends(reason), reason)

    def _abort_ends(self, reason: Value) -> Promise:
        """The actions of the abort algorithm, and a promise to wait for all of them"""
        actions: list[Promise] = []
        if not self.prevent.abort:
            actions.append(self.dest.abort(reason) if self.dest.state == "writable"
                           else promise_resolved_with(self.jobs, UNDEFINED))
        if not self.prevent.cancel:
            actions.append(self.source.cancel(reason) if self.source.state == "readable"
                           else promise_resolved_with(self.jobs, UNDEFINED))
        return wait_for_all(self.jobs, actions)
