"""Tees of readable streams with default controllers.

The methods are the steps of the Streams Standard's ReadableStreamDefaultTee, in its order,
where chunks aren't cloned for the second branch. Each docstring gives the standard's words.
"""

from __future__ import annotations

from typing import Any, Callable

from promises import JobQueue, Promise, promise_resolved_with
from readable import ReadableStream
from readable_controller import ReadableStreamDefaultController, UnderlyingSource
from readable_reader import ReadableStreamDefaultReader
from values import UNDEFINED, Pair, Value, count_size


class TeeReadRequest:
    """The read request of a tee. A chunk is handed to the branches in a microtask."""

    def __init__(self, tee: Tee) -> None:
        self._tee = tee

    def chunk_steps(self, chunk: Value) -> None:
        self._tee.jobs.enqueue(lambda: self._tee.hand(chunk))

    def close_steps(self) -> None:
        self._tee.close_branches()

    def error_steps(self, _error: Value) -> None:
        self._tee.reading = False


class Tee:
    """One ReadableStreamDefaultTee, with its two branches."""

    def __init__(self, stream: ReadableStream) -> None:
        """ReadableStreamDefaultTee, where the stream isn't locked"""
        assert not stream.is_locked()
        self.jobs: JobQueue = stream.jobs
        self.stream = stream
        self.reader = ReadableStreamDefaultReader(stream)
        self.reading = False
        self._read_again = False
        self._reasons: list[Value | None] = [None, None]
        self._cancel_promise = Promise(self.jobs)
        self._is_cancel_resolved = False
        self.branches = [self._new_branch(0), self._new_branch(1)]
        self.reader.closed_promise.then(None, self._on_errored)

    def _new_branch(self, branch: int) -> ReadableStream:
        """CreateReadableStream with startAlgorithm, pullAlgorithm and the branch's cancel
        algorithm"""
        stream = ReadableStream(self.jobs)
        source = UnderlyingSource(start=lambda: UNDEFINED, pull=self._pull,
                                  cancel=self._cancel_algorithm(branch))
        ReadableStreamDefaultController(stream, source, 1, count_size)
        return stream

    def _pull(self) -> Promise:
        """pullAlgorithm"""
        if self.reading:
            self._read_again = True
            return promise_resolved_with(self.jobs, UNDEFINED)
        self.reading = True
        self.reader.read(TeeReadRequest(self))
        return promise_resolved_with(self.jobs, UNDEFINED)

    def hand(self, chunk: Value) -> None:
        """The microtask of the chunk steps"""
        self._read_again = False
        for branch in self._wanted():
            branch.controller.enqueue(chunk)
        self.reading = False
        if self._read_again:
            self._pull()

    def close_branches(self) -> None:
        """The close steps"""
        self.reading = False
        for branch in self._wanted():
            branch.controller.close()
        if self._wanted():
            self._resolve_cancel(UNDEFINED)

    def _cancel_algorithm(self, branch: int) -> Callable[[Value], Promise]:
        """cancel1Algorithm, cancel2Algorithm"""

        def cancel(reason: Value) -> Promise:
            self._reasons[branch] = reason
            first, second = self._reasons
            if first is not None and second is not None:
                self._resolve_cancel(self.stream.cancel(Pair(first, second)))
            return self._cancel_promise

        return cancel

    def _on_errored(self, error: Value) -> None:
        """Upon rejection of reader.[[closedPromise]]"""
        for branch in self.branches:
            branch.controller.error(error)
        if self._wanted():
            self._resolve_cancel(UNDEFINED)

    def _wanted(self) -> list[ReadableStream]:
        """The branches that aren't cancelled."""
        return [branch for branch, reason in zip(self.branches, self._reasons) if reason is None]

    def _resolve_cancel(self, resolution: Any) -> None:
        """Resolve cancelPromise, which does nothing where it was resolved."""
        if not self._is_cancel_resolved:
            self._is_cancel_resolved = True
            self._cancel_promise.resolve(resolution)
