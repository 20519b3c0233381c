"""The calls on a realm, with their checks and replies.

Each call first checks what it names, then what the standard's public method checks, and then
performs an abstract operation. Each docstring gives what the call would be in a program.
"""

from __future__ import annotations

from dataclasses import dataclass
from typing import Callable

import looks
from cross import CrossRealmEnd, CrossRealmReadable, CrossRealmWritable, Message, Port
from pipe import Pipe, Prevent
from promises import Promise, Thrown, promise_rejected_with
from readable import ReadableStream
from readable_byob_reader import PromiseReadIntoRequest, ReadableStreamBYOBReader
from readable_byte_controller import ReadableByteStreamController
from readable_byte_records import View
from readable_controller import ReadableStreamDefaultController, UnderlyingSource
from readable_reader import PromiseReadRequest, ReadableStreamDefaultReader
from realm import Lock, Realm, Throw
from replies import (Done, EndMade, Locked, Look, Made, MadeTwo, Named, PortMade, Reply, Requested,
                     SignalMade, Size, Throws, TooMany)
from signals import AbortSignal
from tee import Tee
from transform import (Transformer, TransformStreamDefaultController, new_transform_stream)
from values import RANGE_ERROR, TYPE_ERROR, UNDEFINED, Bytes, Fault, Value
from writable import WritableStream
from writable_controller import (AbortController, UnderlyingSink,
                                 WritableStreamDefaultController)
from writable_writer import WritableStreamDefaultWriter

MOST_STREAMS = 1024
ELEMENT_SIZES = (1, 2, 4, 8)

Call = Callable[..., Reply]
SizeAlgorithm = Callable[[Value], int]


@dataclass
class PipeOptions:
    """The options of a pipe, with the number of its signal where it has one."""

    prevent: Prevent
    signal: int | None


def perform(realm: Realm, call: Call, arguments: tuple) -> Reply:
    """Performs a call of this module, with the arguments behind the realm."""
    try:
        return call(realm, *arguments)
    except Throw as thrown:
        return Throws(str(thrown))
    except Thrown as thrown:
        assert isinstance(thrown.value, Fault)
        return Throws(thrown.value.name)


# Streams

def make_source(realm: Realm, start_later: bool,
                set_up: Callable[[ReadableStream, UnderlyingSource], object]) -> Reply:
    """A readable stream over a source of the host's, and its controller by `set_up`"""
    number = len(realm.streams)
    if number >= MOST_STREAMS:
        return TooMany()
    stream = ReadableStream(realm.jobs)
    realm.streams.append(stream)
    set_up(stream, UnderlyingSource(
        start=realm.start_algorithm(number, start_later),
        pull=realm.host_algorithm("pull", number),
        cancel=realm.host_algorithm("cancel", number)))
    return Made(number)


def make_readable(realm: Realm, high_water_mark: int, size_algorithm: SizeAlgorithm,
                  start_later: bool) -> Reply:
    """new ReadableStream(underlyingSource, strategy)"""
    return make_source(realm, start_later, lambda stream, source: ReadableStreamDefaultController(
        stream, source, high_water_mark, size_algorithm))


def make_bytes(realm: Realm, high_water_mark: int, auto_allocate_chunk_size: int,
               start_later: bool) -> Reply:
    """new ReadableStream(underlyingByteSource, strategy). The size 0 stands for none"""
    return make_source(realm, start_later, lambda stream, source: ReadableByteStreamController(
        stream, source, high_water_mark, auto_allocate_chunk_size or None))


def make_writable(realm: Realm, high_water_mark: int, size_algorithm: SizeAlgorithm,
                  start_later: bool) -> Reply:
    """new WritableStream(underlyingSink, strategy)"""
    number = len(realm.streams)
    if number >= MOST_STREAMS:
        return TooMany()
    stream = WritableStream(realm.jobs)
    realm.streams.append(stream)
    sink = UnderlyingSink(
        start=realm.start_algorithm(number, start_later),
        write=realm.host_algorithm("write", number),
        close=realm.host_algorithm("close", number),
        abort=realm.host_algorithm("abort", number))
    abort_controller = AbortController(lambda reason: realm.tell_signalled(number, reason))
    WritableStreamDefaultController(stream, sink, high_water_mark, size_algorithm,
                                    abort_controller)
    return Made(number)


def make_transform(realm: Realm, is_host: bool, writable_high_water_mark: int,
                   readable_high_water_mark: int, start_later: bool) -> Reply:
    """new TransformStream(transformer, writableStrategy, readableStrategy)"""
    writable = len(realm.streams)
    readable = writable + 1
    if readable >= MOST_STREAMS:
        return TooMany()
    transformer = Transformer(
        transform=realm.host_algorithm("transform", readable),
        flush=realm.host_algorithm("flush", readable),
        cancel=realm.host_algorithm("canceltransform", readable)) if is_host else None
    stream = new_transform_stream(
        realm.jobs, writable_high_water_mark, readable_high_water_mark,
        realm.start_algorithm(readable, start_later), transformer)
    realm.streams += [stream.writable, stream.readable]
    realm.transform_controllers |= {writable: stream.controller, readable: stream.controller}
    return MadeTwo(writable, readable)


def tee(realm: Realm, stream: int) -> Reply:
    """stream.tee()"""
    readable = realm.readable(stream)
    if readable.is_locked():
        raise Throw("TypeError")
    if not isinstance(readable.controller, ReadableStreamDefaultController):
        raise Throw("Unsupported")
    first = len(realm.streams)
    second = first + 1
    if second >= MOST_STREAMS:
        return TooMany()
    made = Tee(readable)
    realm.locks.append(None)
    realm.streams += made.branches
    realm.uncontrolled |= {first, second}
    return MadeTwo(first, second)


def get_reader(realm: Realm, stream: int) -> Reply:
    """stream.getReader()"""
    readable = realm.readable(stream)
    if readable.is_locked():
        raise Throw("TypeError")
    return locked(realm, ReadableStreamDefaultReader(readable))


def get_byob_reader(realm: Realm, stream: int) -> Reply:
    """stream.getReader({ mode: "byob" })"""
    readable = realm.readable(stream)
    if readable.is_locked():
        raise Throw("TypeError")
    if not isinstance(readable.controller, ReadableByteStreamController):
        raise Throw("TypeError")
    return locked(realm, ReadableStreamBYOBReader(readable))


def get_writer(realm: Realm, stream: int) -> Reply:
    """stream.getWriter()"""
    writable = realm.writable(stream)
    if writable.is_locked():
        raise Throw("TypeError")
    return locked(realm, WritableStreamDefaultWriter(writable))


def cancel(realm: Realm, stream: int, reason: Value) -> Reply:
    """stream.cancel(reason)"""
    readable = realm.readable(stream)
    if readable.is_locked():
        return rejected_with_type_error(realm)
    return named(realm, readable.cancel(reason))


def close(realm: Realm, stream: int) -> Reply:
    """stream.close()"""
    writable = realm.writable(stream)
    if writable.is_locked() or writable.close_queued_or_in_flight():
        return rejected_with_type_error(realm)
    return named(realm, writable.close())


def abort(realm: Realm, stream: int, reason: Value) -> Reply:
    """stream.abort(reason)"""
    writable = realm.writable(stream)
    if writable.is_locked():
        return rejected_with_type_error(realm)
    return named(realm, writable.abort(reason))


def look(realm: Realm, stream: int) -> Look:
    """A look at the slots of a stream"""
    return looks.look_at(realm.stream(stream))


# Controllers

def enqueue(realm: Realm, stream: int, chunk: Value) -> Reply:
    """controller.enqueue(chunk) of a readable stream or of a transform stream"""
    controller = realm.controller(stream)
    match controller:
        case TransformStreamDefaultController():
            controller.enqueue(chunk)
        case ReadableStreamDefaultController():
            if not controller.can_close_or_enqueue():
                raise Throw("TypeError")
            controller.enqueue(chunk)
        case ReadableByteStreamController():
            if not isinstance(chunk, Bytes) or not chunk.content:
                raise Throw("TypeError")
            if controller.close_requested or controller.stream.state != "readable":
                raise Throw("TypeError")
            controller.enqueue(chunk.content)
        case _:
            raise Throw("Unsupported")
    return Done()


def finish(realm: Realm, stream: int) -> Reply:
    """controller.close() of a readable stream. Of a byte stream it may error the stream and
    throw"""
    controller = realm.controller(stream)
    match controller:
        case ReadableStreamDefaultController():
            if not controller.can_close_or_enqueue():
                raise Throw("TypeError")
        case ReadableByteStreamController():
            if controller.close_requested or controller.stream.state != "readable":
                raise Throw("TypeError")
        case _:
            raise Throw("Unsupported")
    controller.close()
    return Done()


def fail(realm: Realm, stream: int, reason: Value) -> Reply:
    """controller.error(reason)"""
    controller = realm.controller(stream)
    if isinstance(controller, WritableStreamDefaultController):
        controller.error_if_needed(reason)
    else:
        controller.error(reason)
    return Done()


def terminate(realm: Realm, stream: int) -> Reply:
    """controller.terminate() of a transform stream"""
    controller = realm.controller(stream)
    if not isinstance(controller, TransformStreamDefaultController):
        raise Throw("Unsupported")
    controller.terminate()
    return Done()


def desired(realm: Realm, stream: int) -> Reply:
    """controller.desiredSize of a readable stream or of a transform stream"""
    controller = realm.controller(stream)
    if isinstance(controller, WritableStreamDefaultController):
        raise Throw("Unsupported")
    return Size(controller.desired_size())


def request(realm: Realm, stream: int) -> Reply:
    """controller.byobRequest of a byte stream"""
    controller = realm.controller(stream)
    if not isinstance(controller, ReadableByteStreamController):
        raise Throw("Unsupported")
    byob_request = controller.get_byob_request()
    if byob_request is None:
        return Requested(None)
    if byob_request not in realm.byob_requests:
        realm.byob_requests.append(byob_request)
    assert byob_request.view is not None
    return Requested((realm.byob_requests.index(byob_request), len(byob_request.view)))


def respond(realm: Realm, request_number: int, content: bytes) -> Reply:
    """The host writes bytes into request.view, as far as they fit, and then calls
    request.respond(bytesWritten) with how many they are"""
    byob_request = realm.byob_request(request_number)
    if byob_request.view is not None:
        fitting = content[:len(byob_request.view)]
        byob_request.view[:len(fitting)] = fitting
    byob_request.respond(len(content))
    return Done()


# Readers and writers

def closed(realm: Realm, lock: int) -> Reply:
    """reader.closed, writer.closed"""
    return named(realm, realm.lock(lock).closed_promise)


def release(realm: Realm, lock: int) -> Reply:
    """reader.releaseLock(), writer.releaseLock()"""
    reader_or_writer = realm.lock(lock)
    if reader_or_writer.stream is not None:
        reader_or_writer.release()
    return Done()


def read(realm: Realm, lock: int) -> Reply:
    """reader.read()"""
    reader = realm.default_reader(lock)
    if reader.stream is None:
        return rejected_with_type_error(realm)
    promise = Promise(realm.jobs)
    reader.read(PromiseReadRequest(promise))
    return named(realm, promise)


def read_into(realm: Realm, lock: int, length: int, element_size: int,
              minimum: int = 1) -> Reply:
    """reader.read(view, { min }) of a BYOB reader, with a view of a new buffer of this length"""
    reader = realm.byob_reader(lock)
    if element_size not in ELEMENT_SIZES or length % element_size != 0:
        raise Throw("Unsupported")
    if length == 0:
        return rejected_with_type_error(realm)
    if minimum == 0:
        return rejected_with_type_error(realm)
    if minimum > length // element_size:
        return named(realm, promise_rejected_with(realm.jobs, RANGE_ERROR))
    if reader.stream is None:
        return rejected_with_type_error(realm)
    promise = Promise(realm.jobs)
    view = View(bytearray(length), element_size)
    reader.read(view, minimum, PromiseReadIntoRequest(promise))
    return named(realm, promise)


def cancel_by_reader(realm: Realm, lock: int, reason: Value) -> Reply:
    """reader.cancel(reason)"""
    reader = realm.reader(lock)
    if reader.stream is None:
        return rejected_with_type_error(realm)
    return named(realm, reader.generic_cancel(reason))


def ready(realm: Realm, lock: int) -> Reply:
    """writer.ready"""
    return named(realm, realm.writer(lock).ready_promise)


def desired_by_writer(realm: Realm, lock: int) -> Reply:
    """writer.desiredSize"""
    writer = realm.writer(lock)
    if writer.stream is None:
        raise Throw("TypeError")
    return Size(writer.desired_size())


def write(realm: Realm, lock: int, chunk: Value) -> Reply:
    """writer.write(chunk)"""
    writer = realm.writer(lock)
    if writer.stream is None:
        return rejected_with_type_error(realm)
    return named(realm, writer.write(chunk))


def close_by_writer(realm: Realm, lock: int) -> Reply:
    """writer.close()"""
    writer = realm.writer(lock)
    if writer.stream is None or writer.stream.close_queued_or_in_flight():
        return rejected_with_type_error(realm)
    return named(realm, writer.close())


def abort_by_writer(realm: Realm, lock: int, reason: Value) -> Reply:
    """writer.abort(reason)"""
    writer = realm.writer(lock)
    if writer.stream is None:
        return rejected_with_type_error(realm)
    return named(realm, writer.abort(reason))


# Pipes and signals

def pipe(realm: Realm, source: int, dest: int, options: PipeOptions) -> Reply:
    """source.pipeTo(dest, options)"""
    readable = realm.readable(source)
    writable = realm.writable(dest)
    signal = None if options.signal is None else realm.signal(options.signal)
    if readable.is_locked() or writable.is_locked():
        return rejected_with_type_error(realm)
    made = Pipe(readable, writable, options.prevent, signal)
    realm.locks += [None, None]
    made.begin()
    return named(realm, made.promise)


def make_signal(realm: Realm) -> Reply:
    """new AbortController()"""
    realm.signals.append(AbortSignal())
    return SignalMade(len(realm.signals) - 1)


def trigger(realm: Realm, signal: int, reason: Value) -> Reply:
    """abortController.abort(reason)"""
    realm.signal(signal).signal_abort(reason)
    return Done()


# Ports

def new_end(realm: Realm, is_readable: bool) -> CrossRealmEnd | None:
    """A stream at the end of a new port, or none where the realm has too many"""
    number = len(realm.streams)
    if number >= MOST_STREAMS:
        return None
    port = len(realm.ends)
    kind = CrossRealmReadable if is_readable else CrossRealmWritable
    end = kind(realm.jobs, Port(lambda message: realm.tell_posted(port, message)))
    realm.ends.append(end)
    realm.streams.append(end.stream)
    realm.uncontrolled.add(number)
    return end


def send(realm: Realm, stream: int) -> Reply:
    """The transfer steps of a stream: its chunks leave by a new port, or come by one"""
    sent = realm.stream(stream)
    if sent.is_locked():
        raise Throw("DataClone")
    end = new_end(realm, isinstance(sent, WritableStream))
    if end is None:
        return TooMany()
    source, dest = (sent, end.stream) if isinstance(sent, ReadableStream) else (end.stream, sent)
    made = Pipe(source, dest, Prevent(), None)
    realm.locks += [None, None]
    made.begin()
    return PortMade(len(realm.ends) - 1)


def open_end(realm: Realm, is_readable: bool) -> Reply:
    """The transfer-receiving steps of a stream: one at the end of a new port"""
    number = len(realm.streams)
    if new_end(realm, is_readable) is None:
        return TooMany()
    return EndMade(number, len(realm.ends) - 1)


def deliver(realm: Realm, port: int, message: Message) -> Reply:
    """A message of the other end comes"""
    realm.end(port).take(message)
    return Done()


# The host

def settle_ok(realm: Realm, host_call: int) -> Reply:
    """The host fulfils the promise of an algorithm with undefined"""
    realm.host_promise(host_call).resolve(UNDEFINED)
    return Done()


def settle_fail(realm: Realm, host_call: int, reason: Value) -> Reply:
    """The host rejects the promise of an algorithm"""
    realm.host_promise(host_call).reject(reason)
    return Done()


def step(_realm: Realm) -> Reply:
    """Nothing"""
    return Done()


# Replies that name something

def locked(realm: Realm, lock: Lock) -> Reply:
    """The reply that names a new reader or writer."""
    realm.locks.append(lock)
    return Locked(len(realm.locks) - 1)


def named(realm: Realm, promise: Promise) -> Reply:
    """The reply that names a promise."""
    return Named(realm.name_of(promise))


def rejected_with_type_error(realm: Realm) -> Reply:
    """The reply that names a new promise, rejected with TypeError."""
    return named(realm, promise_rejected_with(realm.jobs, TYPE_ERROR))
