"""How replies and events are printed."""

from cross import Message
from promises import PromiseState
from readable_reader import ReadResult
from replies import (Done, EndMade, Event, HostCalled, Locked, Look, Made, MadeTwo, Named, PortMade,
                     Posted, Reply, Requested, Settled, Signalled, SignalMade, Size, Throws, TooMany)
from values import Bytes, Fault, HostError, HostValue, Number, Pair, Undefined, Value


def text_of_value(value: Value) -> str:
    """A value as a script writes it, or a fault by its name."""
    match value:
        case Undefined():
            return "undefined"
        case Number(number):
            return f"n{number}"
        case HostError(number):
            return f"e{number}"
        case HostValue(number):
            return f"k{number}"
        case Bytes(content):
            return f"x{content.hex()}"
        case Fault(name):
            return name
        case Pair(first, second):
            return f"[{text_in_pair(first)},{text_in_pair(second)}]"
    raise AssertionError(f"{value!r} isn't a value")


def text_in_pair(value: Value) -> str:
    """A reason inside a pair, where a pair is told by a word."""
    return "pair" if isinstance(value, Pair) else text_of_value(value)


def text_of_reply(reply: Reply) -> str:
    """A reply, without the number of its line."""
    match reply:
        case Done():
            return "done"
        case Made(stream):
            return f"made s{stream}"
        case MadeTwo(first, second):
            return f"made s{first} s{second}"
        case Locked(lock):
            return f"lock l{lock}"
        case SignalMade(signal):
            return f"signal a{signal}"
        case PortMade(port):
            return f"port c{port}"
        case EndMade(stream, port):
            return f"made s{stream} port c{port}"
        case Requested(None):
            return "request none"
        case Requested((request, length)):
            return f"request q{request} {length}"
        case Named(promise):
            return f"promise p{promise}"
        case Size(size):
            return "size null" if size is None else f"size {size}"
        case Throws(name):
            return f"throws {name}"
        case TooMany():
            return "too many"
        case Look(state, flags, total_size, queue_length, requests):
            return (f"state {state} {flags or '-'} total {total_size} "
                    f"queue {queue_length} requests {requests}")
    raise AssertionError(f"{reply!r} isn't a reply")


def text_of_event(event: Event) -> str:
    """An event, without the blanks before it."""
    match event:
        case HostCalled(host_call, algorithm, stream, None):
            return f"host h{host_call} {algorithm} s{stream}"
        case HostCalled(host_call, algorithm, stream, value):
            return f"host h{host_call} {algorithm} s{stream} {text_of_value(value)}"
        case Signalled(stream, reason):
            return f"signal s{stream} {text_of_value(reason)}"
        case Posted(port, message):
            return f"post c{port} {text_of_message(message)}"
        case Settled(name, promise):
            return f"p{name} {text_of_outcome(promise.state, promise.result)}"
    raise AssertionError(f"{event!r} isn't an event")


def text_of_message(message: Message) -> str:
    """A message as a script writes it."""
    if message.value is None:
        return message.type
    return f"{message.type} {text_of_value(message.value)}"


def text_of_outcome(state: PromiseState, result: Value | ReadResult) -> str:
    """How a promise has settled."""
    if isinstance(result, ReadResult):
        word = "finished" if result.done else "given"
        return f"{word} {text_of_value(result.value)}"
    return f"{state.value} {text_of_value(result)}"
