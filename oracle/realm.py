"""One realm: its streams, readers, writers, signals, ports and BYOB requests by number, and what
its host hears.

Algorithms of sources, sinks and transformers belong to the host: a call of one is an event, and gives a
promise that the host settles by a later call. A promise has a name once a reply told it, and
from then on its settling is an event.
"""

from __future__ import annotations

from typing import Callable

from cross import CrossRealmEnd, Message
from promises import JobQueue, Promise
from readable import ReadableStream
from readable_byob_reader import ReadableStreamBYOBReader
from readable_byte_controller import ReadableByteStreamController, ReadableStreamBYOBRequest
from readable_controller import ReadableStreamDefaultController
from readable_reader import ReadableStreamDefaultReader
from replies import Event, HostCalled, Posted, Settled, Signalled
from signals import AbortSignal
from transform import TransformStreamDefaultController
from values import UNDEFINED, Value
from writable import WritableStream
from writable_controller import WritableStreamDefaultController
from writable_writer import WritableStreamDefaultWriter

Stream = ReadableStream | WritableStream
Reader = ReadableStreamDefaultReader | ReadableStreamBYOBReader
Lock = Reader | WritableStreamDefaultWriter
Controller = (ReadableStreamDefaultController | ReadableByteStreamController
              | WritableStreamDefaultController | TransformStreamDefaultController)
Algorithm = Callable[..., Promise]


class Throw(Exception):
    """A check of a call throws. The checks come first, so nothing was changed."""


class Realm:
    """The objects of a realm, and what its host hasn't heard of yet."""

    def __init__(self) -> None:
        self.jobs = JobQueue()
        self.streams: list[Stream] = []
        # By the numbers of both halves of each transform stream.
        self.transform_controllers: dict[int, TransformStreamDefaultController] = {}
        # The branches of tees and the ends of ports, of whose controllers the host has none.
        self.uncontrolled: set[int] = set()
        self.ends: list[CrossRealmEnd] = []
        # A reader or a writer of a pipe's own, or a tee's reader, has a number, and no call may name it.
        self.locks: list[Lock | None] = []
        self.signals: list[AbortSignal] = []
        self.byob_requests: list[ReadableStreamBYOBRequest] = []
        self.host_promises: list[Promise] = []
        self._names: dict[Promise, int] = {}
        self._events: list[Event] = []

    # What a number names

    def stream(self, number: int) -> Stream:
        if number >= len(self.streams):
            raise Throw("Unsupported")
        return self.streams[number]

    def readable(self, number: int) -> ReadableStream:
        stream = self.stream(number)
        if not isinstance(stream, ReadableStream):
            raise Throw("Unsupported")
        return stream

    def writable(self, number: int) -> WritableStream:
        stream = self.stream(number)
        if not isinstance(stream, WritableStream):
            raise Throw("Unsupported")
        return stream

    def controller(self, number: int) -> Controller:
        """The controller that the host has of a stream. Of a transform stream it has one, by its
        readable half, and none of the two halves' own."""
        stream = self.stream(number)
        if number in self.uncontrolled:
            raise Throw("Unsupported")
        if number not in self.transform_controllers:
            return stream.controller
        if not isinstance(stream, ReadableStream):
            raise Throw("Unsupported")
        return self.transform_controllers[number]

    def lock(self, number: int) -> Lock:
        lock = self.locks[number] if number < len(self.locks) else None
        if lock is None:
            raise Throw("Unsupported")
        return lock

    def reader(self, number: int) -> Reader:
        lock = self.lock(number)
        if not isinstance(lock, Reader):
            raise Throw("Unsupported")
        return lock

    def default_reader(self, number: int) -> ReadableStreamDefaultReader:
        lock = self.lock(number)
        if not isinstance(lock, ReadableStreamDefaultReader):
            raise Throw("Unsupported")
        return lock

    def byob_reader(self, number: int) -> ReadableStreamBYOBReader:
        lock = self.lock(number)
        if not isinstance(lock, ReadableStreamBYOBReader):
            raise Throw("Unsupported")
        return lock

    def writer(self, number: int) -> WritableStreamDefaultWriter:
        lock = self.lock(number)
        if not isinstance(lock, WritableStreamDefaultWriter):
            raise Throw("Unsupported")
        return lock

    def signal(self, number: int) -> AbortSignal:
        if number >= len(self.signals):
            raise Throw("Unsupported")
        return self.signals[number]

    def end(self, number: int) -> CrossRealmEnd:
        """The stream at the end of a port."""
        if number >= len(self.ends):
            raise Throw("Unsupported")
        return self.ends[number]

    def byob_request(self, number: int) -> ReadableStreamBYOBRequest:
        if number >= len(self.byob_requests):
            raise Throw("Unsupported")
        return self.byob_requests[number]

    def host_promise(self, number: int) -> Promise:
        """The promise of a call of the host's, which the host settles once."""
        if number >= len(self.host_promises) or not self.host_promises[number].is_pending:
            raise Throw("Unsupported")
        return self.host_promises[number]

    # The host's algorithms

    def start_algorithm(self, stream: int, later: bool) -> Callable[[], Value | Promise]:
        """A start algorithm that gives undefined, or one of the host's."""
        return self.host_algorithm("start", stream) if later else lambda: UNDEFINED

    def host_algorithm(self, name: str, stream: int) -> Algorithm:
        """An algorithm of the host's: it tells that it was called, with its argument if it
        takes one, and gives a new promise."""

        def call_host(value: Value | None = None) -> Promise:
            self._events.append(HostCalled(len(self.host_promises), name, stream, value))
            promise = Promise(self.jobs)
            self.host_promises.append(promise)
            return promise

        return call_host

    # Events and names

    def take_events(self) -> list[Event]:
        """The events since the last time, in the order in which they happened."""
        events, self._events = self._events, []
        return events

    def tell_signalled(self, stream: int, reason: Value) -> None:
        """The signal of a writable stream's controller was aborted."""
        self._events.append(Signalled(stream, reason))

    def tell_posted(self, port: int, message: Message) -> None:
        """A message was posted to a port's other end."""
        self._events.append(Posted(port, message))

    def name_of(self, promise: Promise) -> int:
        """The name of a promise, which gets one where it has none. Where it has settled
        before, that is told now."""
        if promise not in self._names:
            self._names[promise] = len(self._names)
            promise.on_settled = self._tell_settled
            if not promise.is_pending:
                self._tell_settled(promise)
        return self._names[promise]

    def _tell_settled(self, promise: Promise) -> None:
        self._events.append(Settled(self._names[promise], promise))
