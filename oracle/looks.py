"""Looks at streams: what the call `state` answers."""

from readable import ReadableStream
from replies import Look
from writable import WritableStream


def look_at(stream: ReadableStream | WritableStream) -> Look:
    """A look at the slots of a stream."""
    if isinstance(stream, ReadableStream):
        return look_at_readable(stream)
    return look_at_writable(stream)


def look_at_readable(stream: ReadableStream) -> Look:
    """A look at the slots of a readable stream and its controller."""
    controller = stream.controller
    flags = letters_of({
        "s": controller.started,
        "p": controller.pulling,
        "g": controller.pull_again,
        "c": controller.close_requested,
        "d": stream.disturbed,
        "l": stream.is_locked(),
    })
    if stream.has_default_reader():
        requests = stream.number_of_read_requests()
    elif stream.has_byob_reader():
        requests = stream.number_of_read_into_requests()
    else:
        requests = 0
    return Look(stream.state, flags, controller.queue.total_size, len(controller.queue), requests)


def look_at_writable(stream: WritableStream) -> Look:
    """A look at the slots of a writable stream and its controller."""
    controller = stream.controller
    flags = letters_of({
        "s": controller.started,
        "b": stream.backpressure,
        "w": stream.in_flight_write_request is not None,
        "f": stream.in_flight_close_request is not None,
        "q": stream.close_request is not None,
        "a": stream.pending_abort_request is not None,
        "l": stream.is_locked(),
    })
    return Look(stream.state, flags, controller.queue.total_size, len(controller.queue),
                len(stream.write_requests))


def letters_of(flags: dict[str, bool]) -> str:
    """The letters of the flags that are true."""
    return "".join(letter for letter, is_true in flags.items() if is_true)
