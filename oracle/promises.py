"""Promises, their reactions and the job queue, by ECMAScript's section on promise objects.

Nothing here can be changed from outside, as a program may change `then` of its promises.
So a promise that is resolved with anything but a promise is fulfilled at once.

A promise is settled or resolved once. ECMAScript lets a second time pass in silence; here
it is an assertion that fails, since no operation of the Streams Standard needs it. An
operation that may meet a settled promise looks at `is_pending` first.
"""

from __future__ import annotations

from collections import deque
from dataclasses import dataclass
from enum import Enum
from typing import Any, Callable

from values import UNDEFINED, Value

Job = Callable[[], None]
Handler = Callable[[Any], Any]


class Thrown(Exception):
    """What an operation or a handler throws."""

    def __init__(self, value: Value) -> None:
        super().__init__(value)
        self.value = value


class PromiseState(Enum):
    """[[PromiseState]]"""

    PENDING = "pending"
    FULFILLED = "fulfilled"
    REJECTED = "rejected"


class JobQueue:
    """The jobs that wait. They run first in, first out."""

    def __init__(self) -> None:
        self._jobs: deque[Job] = deque()

    def __len__(self) -> int:
        return len(self._jobs)

    def enqueue(self, job: Job) -> None:
        """HostEnqueuePromiseJob"""
        self._jobs.append(job)

    def run_one(self) -> None:
        """Performs the job that has waited longest."""
        self._jobs.popleft()()


@dataclass
class Reaction:
    """The two PromiseReaction records of one `then`, with the promise that is derived."""

    derived: Promise
    on_fulfilled: Handler | None
    on_rejected: Handler | None

    def run(self, settled: Promise) -> None:
        """The job of NewPromiseReactionJob. A handler that returns nothing returns undefined."""
        fulfilled = settled.state is PromiseState.FULFILLED
        handler = self.on_fulfilled if fulfilled else self.on_rejected
        if handler is not None:
            try:
                returned = handler(settled.result)
            except Thrown as thrown:
                self.derived.reject(thrown.value)
                return
            self.derived.resolve(UNDEFINED if returned is None else returned)
        elif fulfilled:
            self.derived.resolve(settled.result)
        else:
            self.derived.reject(settled.result)


class Promise:
    """A promise, with its slots, its resolving functions and its reactions."""

    def __init__(self, jobs: JobQueue) -> None:
        self.jobs = jobs
        self.state = PromiseState.PENDING
        self.result: Any = None
        self.on_settled: Callable[[Promise], None] | None = None
        self._already_resolved = False
        self._reactions: list[Reaction] = []

    @property
    def is_pending(self) -> bool:
        return self.state is PromiseState.PENDING

    def resolve(self, resolution: Any) -> None:
        """The steps of Promise Resolve Functions."""
        self._mark_resolved()
        if isinstance(resolution, Promise):
            self.jobs.enqueue(lambda: self._follow(resolution))
        else:
            self._settle(PromiseState.FULFILLED, resolution)

    def reject(self, reason: Any) -> None:
        """The steps of Promise Reject Functions."""
        self._mark_resolved()
        self._settle(PromiseState.REJECTED, reason)

    def then(self, on_fulfilled: Handler | None, on_rejected: Handler | None) -> Promise:
        """PerformPromiseThen, which answers the derived promise.

        It is what Web IDL calls to react to a promise, and to perform steps upon its
        fulfilment or rejection.
        """
        reaction = Reaction(Promise(self.jobs), on_fulfilled, on_rejected)
        if self.is_pending:
            self._reactions.append(reaction)
        else:
            self._enqueue_reaction(reaction)
        return reaction.derived

    def _mark_resolved(self) -> None:
        """[[AlreadyResolved]] becomes true, and was false."""
        assert not self._already_resolved, "a promise is settled or resolved again"
        self._already_resolved = True

    def _follow(self, followed: Promise) -> None:
        """The job of NewPromiseResolveThenableJob."""
        followed.then(
            lambda value: self._settle(PromiseState.FULFILLED, value),
            lambda reason: self._settle(PromiseState.REJECTED, reason),
        )

    def _settle(self, state: PromiseState, result: Any) -> None:
        """FulfillPromise or RejectPromise, with TriggerPromiseReactions."""
        assert self.is_pending, "FulfillPromise and RejectPromise need a pending promise"
        self.state = state
        self.result = result
        reactions, self._reactions = self._reactions, []
        for reaction in reactions:
            self._enqueue_reaction(reaction)
        if self.on_settled is not None:
            self.on_settled(self)

    def _enqueue_reaction(self, reaction: Reaction) -> None:
        self.jobs.enqueue(lambda: reaction.run(self))


def promise_resolved_with(jobs: JobQueue, resolution: Any) -> Promise:
    """Web IDL's "a promise resolved with": always a new promise."""
    promise = Promise(jobs)
    promise.resolve(resolution)
    return promise


def promise_rejected_with(jobs: JobQueue, reason: Any) -> Promise:
    """Web IDL's "a promise rejected with"."""
    promise = Promise(jobs)
    promise.reject(reason)
    return promise


def wait_for_all(jobs: JobQueue, promises: list[Promise]) -> Promise:
    """Web IDL's "get a promise to wait for all", without the list of results: its promise is
    fulfilled with undefined. For no promises a microtask fulfils it."""
    waiting = Promise(jobs)
    missing = len(promises)

    def on_fulfilled(_result: Any) -> None:
        nonlocal missing
        missing -= 1
        if missing == 0:
            waiting.resolve(UNDEFINED)

    def on_rejected(reason: Any) -> None:
        if waiting.is_pending:
            waiting.reject(reason)

    if missing == 0:
        jobs.enqueue(lambda: waiting.resolve(UNDEFINED))
    for promise in promises:
        promise.then(on_fulfilled, on_rejected)
    return waiting
