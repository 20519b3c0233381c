"""What the two kinds of controllers of readable streams have in common: how they pull.

Each docstring gives the Streams Standard's names, that of a default controller first.
"""

from __future__ import annotations

from typing import TYPE_CHECKING, Callable

from promises import Promise, promise_resolved_with
from values import Value

if TYPE_CHECKING:
    from readable import ReadableStream
    from readable_controller import UnderlyingSource


class PullingController:
    """A controller whose source is asked to pull, of either kind."""

    def __init__(self, stream: ReadableStream, source: UnderlyingSource,
                 high_water_mark: int) -> None:
        self.stream = stream
        self.started = False
        self.close_requested = False
        self.pull_again = False
        self.pulling = False
        self.high_water_mark = high_water_mark
        self.pull_algorithm: Callable[[], Promise] | None = source.pull
        self.cancel_algorithm: Callable[[Value], Promise] | None = source.cancel

    def start(self, source: UnderlyingSource) -> None:
        """The last steps of setting up: the start algorithm, and what comes of it."""
        start_promise = promise_resolved_with(self.stream.jobs, source.start())
        start_promise.then(self._on_started, self.error)

    def _on_started(self, _result: Value) -> None:
        self.started = True
        assert not self.pulling
        assert not self.pull_again
        self.call_pull_if_needed()

    def should_call_pull(self) -> bool:
        """ReadableStreamDefaultControllerShouldCallPull, ReadableByteStreamControllerShouldCallPull"""
        raise NotImplementedError

    def error(self, error: Value) -> None:
        """ReadableStreamDefaultControllerError, ReadableByteStreamControllerError"""
        raise NotImplementedError

    def call_pull_if_needed(self) -> None:
        """ReadableStreamDefaultControllerCallPullIfNeeded, ReadableByteStreamControllerCallPullIfNeeded"""
        if not self.should_call_pull():
            return
        if self.pulling:
            self.pull_again = True
            return
        assert not self.pull_again
        self.pulling = True
        assert self.pull_algorithm is not None
        self.pull_algorithm().then(self._on_pulled, self.error)

    def _on_pulled(self, _result: Value) -> None:
        self.pulling = False
        if self.pull_again:
            self.pull_again = False
            self.call_pull_if_needed()

    def clear_algorithms(self) -> None:
        """ReadableStreamDefaultControllerClearAlgorithms, ReadableByteStreamControllerClearAlgorithms"""
        self.pull_algorithm = None
        self.cancel_algorithm = None
