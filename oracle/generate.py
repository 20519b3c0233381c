"""Makes random scripts that reach deep states.

The author of a script performs each line in a realm as it writes it. So it knows which
streams are alive, who locks them and which algorithms of the host's still run, and mostly
writes calls that do something. Each script has habits of its own, which are drawn first: one
settles little and aborts much, another leaves its jobs undone. Scripts that all did everything
equally often would rarely do one thing ten times in a row.
"""

from __future__ import annotations

from random import Random
from types import UnionType
from typing import Callable

from language import task_in
from looks import look_at
from readable import ReadableStream
from readable_byob_reader import ReadableStreamBYOBReader
from readable_byte_controller import ReadableByteStreamController
from readable_reader import ReadableStreamDefaultReader
from realm import Lock, Reader, Realm, Stream
from script import perform_task
from writable import WritableStream
from writable_writer import WritableStreamDefaultWriter

# How often each kind of line is written where no habit changes it. Streams, readers and
# writers are made beside these, where some are wanted.
COMMONNESS: dict[str, float] = {
    "tee": 0.6, "reader": 1.2, "read": 8.0, "enqueue": 8.0, "finish": 1.0, "cancel stream": 0.6,
    "cancel reader": 0.8,
    "byob": 1.2, "readinto": 8.0, "request": 1.5, "respond": 1.5,
    "writer": 1.2, "write": 9.0, "close stream": 1.0, "close writer": 2.0,
    "abort stream": 1.2, "abort writer": 2.2,
    "fail": 1.0, "terminate": 0.7, "release": 1.8, "closed": 2.5, "ready": 3.0, "desired stream": 1.0,
    "desired writer": 1.2, "send": 0.6, "deliver": 9.0, "pipe": 2.0, "signal": 0.8, "trigger": 1.0, "settle ok": 9.0, "settle fail": 2.0, "state": 3.0, "step": 2.0,
}

# What ends streams early. Some authors rarely do it.
ENDINGS = {"fail", "settle fail", "cancel stream", "cancel reader", "abort stream", "abort writer",
           "terminate", "trigger"}

REASONS = ("undefined", "n0", "n1", "n7", "n18446744073709551615", "e0", "e1", "e2", "e3",
           "e4294967295", "k0", "k4294967295")
CHUNKS = ("x", "x00", "x6162", "x616263", "xAbCdEf01", "n1", "n2", "n3", "e5", "k6",
          "undefined")
MARKS = ("0", "0", "1", "1", "1", "1", "2", "2", "3", "5") * 3 + ("18446744073709551615",)
LIMITS = ("0", "0", "0", "1", "1", "1", "2", "2", "3", "4", "7", "100000")
AUTO_LENGTHS = ("0", "0", "0", "1", "2", "3", "4", "4096")
ELEMENT_SIZES = ((1,), (1,), (2,), (1, 2), (2, 4), (4,), (1, 2, 4, 8))
ODD_BUFFERS = ("0 1", "0 8", "0 3", "4 0", "4 3", "8 16", "6 4", "5 2", "255 255", "12 8",
               "65536 8", "65536 1", "65535 1", "0 1 0", "0 2 1", "4 2 0", "4 2 3", "8 1 9",
               "6 4 2", "65536 1 65536", "8 8 18446744073709551615", "4 2 9223372036854775809")
# What the other end of a port sends to a readable and to a writable end. Some is for neither.
MESSAGES = (("chunk",) * 6 + ("close", "error"), ("pull",) * 6 + ("error",))
PREVENTS = ("prevent-close", "prevent-abort", "prevent-cancel")
ALL_KINDS = ((("readable",), ("writable",), ("transform",)) + (("readable", "writable"),) * 3
             + (("transform", "transform"),) * 2 + (("readable", "writable", "transform"),) * 2
             + (("bytes",),) * 5 + (("bytes", "writable"),) * 2
             + (("bytes", "readable", "writable", "transform"),)
             + (("open readable",), ("open writable",)) * 2
             + (("open readable", "open writable", "readable", "writable", "transform"),) * 3)


def is_alive(stream: Stream | None) -> bool:
    """Whether a stream is neither closed nor errored."""
    return stream is not None and stream.state not in ("closed", "errored")


class Author:
    """Writes one script."""

    def __init__(self, random: Random) -> None:
        self._random = random
        self._realm = Realm()
        self._lines: list[str] = []
        self._calls = list(COMMONNESS)
        self._weights = [weight * random.choice((0.1, 1, 1, 1, 4))
                         for weight in COMMONNESS.values()]
        if random.random() < 0.4:
            self._weights = [weight * (0.1 if call in ENDINGS else 1)
                             for call, weight in zip(self._calls, self._weights)]
        self._limited = random.choice((0.0, 0.0, 0.2, 0.6, 0.95))
        self._careless = random.choice((0.0, 0.01, 0.02, 0.05, 0.3))
        self._eager = random.choice((0.1, 0.3, 0.5))
        self._start_later = random.choice((0.1, 0.3, 0.8))
        self._kinds = random.choice(ALL_KINDS)
        self._pipes = random.choice((0.0, 0.4, 0.9, 0.9)) if len(self._kinds) > 1 else 0.0
        self._host_kind = random.choice((0.0, 0.5, 0.8, 1.0))
        self._prevents = random.choice((0.0, 0.2, 0.6))
        self._signals = random.choice((0.1, 0.5, 0.9))
        self._byob = random.choice((0.0, 0.3, 0.7, 0.9, 1.0))
        self._longest = random.choice((1, 1, 2, 4, 9))
        self._element_sizes = random.choice(ELEMENT_SIZES)
        self._least = random.choice((0.0, 0.3, 0.8, 1.0))
        self._lets_go = random.choice((0.0, 0.0, 0.2, 0.8))
        self._answers = random.choice((0.0, 0.2, 0.5, 0.8))
        self._hands_out = random.choice((0.0, 0.0, 0.3, 0.8))
        self._next_byte = random.randrange(256)
        self._destinations: dict[int, set[int]] = {}
        self._goes_round = False
        self._most_alive = random.choice((1, 1, 2, 3)) + len(self._kinds) - 1
        self._writers: dict[str, Callable[[], str | None]] = {
            "tee": lambda: self._of_stream("tee", ReadableStream),
            "reader": lambda: self._of_stream("reader", ReadableStream),
            "read": lambda: self._of_lock("read", ReadableStreamDefaultReader),
            "enqueue": self._enqueue,
            "byob": lambda: self._of_byte_stream("byob"),
            "readinto": self._read_into,
            "request": lambda: self._of_byte_stream("request"),
            "respond": self._respond,
            "finish": lambda: self._of_stream("finish", ReadableStream),
            "cancel stream": lambda: self._of_stream("cancel", ReadableStream, REASONS),
            "cancel reader": lambda: self._of_lock("cancel", Reader, REASONS),
            "writer": lambda: self._of_stream("writer", WritableStream),
            "write": lambda: self._of_lock("write", WritableStreamDefaultWriter, CHUNKS),
            "close stream": lambda: self._of_stream("close", WritableStream),
            "close writer": lambda: self._of_lock("close", WritableStreamDefaultWriter),
            "abort stream": lambda: self._of_stream("abort", WritableStream, REASONS),
            "abort writer": lambda: self._of_lock("abort", WritableStreamDefaultWriter, REASONS),
            "fail": lambda: self._of_stream("fail", object, REASONS),
            "terminate": lambda: self._of_half("terminate"),
            "release": lambda: self._of_lock("release", Lock),
            "closed": lambda: self._of_lock("closed", Lock),
            "ready": lambda: self._of_lock("ready", WritableStreamDefaultWriter),
            "desired stream": lambda: self._of_stream("desired", ReadableStream),
            "desired writer": lambda: self._of_lock("desired", WritableStreamDefaultWriter),
            "send": lambda: self._of_stream("send", object),
            "deliver": self._deliver,
            "pipe": self._pipe,
            "signal": lambda: "signal",
            "trigger": self._trigger,
            "settle ok": lambda: self._settle("ok"),
            "settle fail": lambda: self._settle("fail " + random.choice(REASONS)),
            "state": lambda: self._of_stream("state", object),
            "step": lambda: "step",
        }

    def write_script(self, length: int) -> bytes:
        """A script of so many lines. It ends earlier where an assertion of the realm fails,
        and then it is a script that shows this."""
        try:
            while len(self._lines) < length:
                call = self._next_call()
                if call is not None:
                    self._perform(call)
        except AssertionError:
            pass
        return "".join(f"{line}\n" for line in self._lines).encode("ascii")

    def _perform(self, call: str) -> None:
        """Adds a line, and performs it. Where chunks may go round, no task has many jobs."""
        if call.startswith("pipe "):
            self._note_pipe(*(int(word[1:]) for word in call.split(" ")[1:3]))
        if self._goes_round:
            call = f"@{self._random.choice(LIMITS[:-1])} {call}"
        elif self._random.random() < self._limited:
            call = f"@{self._random.choice(LIMITS)} {call}"
        self._lines.append(call)
        made = len(self._realm.streams)
        perform_task(self._realm, task_in(len(self._lines), call.encode("ascii").split(b" ")))
        if "tee s" in call and len(self._realm.streams) > made:
            self._destinations.setdefault(int(call.split("tee s")[1]), set()).update((made, made + 1))

    def _note_pipe(self, source: int, dest: int) -> None:
        """Keeps in mind where a pipe leads, as a tee leads to its branches. A pipe may close a
        circle through transform streams, whose jobs have no end."""
        self._destinations.setdefault(source, set()).add(dest)
        reached, left = set(), [dest]
        while left:
            number = left.pop()
            if number not in reached:
                reached.add(number)
                left += self._destinations.get(number, ())
                if self._is_writable_half(number):
                    left.append(number + 1)
        self._goes_round = self._goes_round or source in reached

    def _is_writable_half(self, number: int) -> bool:
        """Whether this is the number of the writable half of a transform stream."""
        return (number in self._realm.transform_controllers
                and isinstance(self._realm.streams[number], WritableStream))

    def _next_call(self) -> str | None:
        """A stream or a lock where one is wanted and the author is eager, or else a call of
        any kind, or none where there is nothing that it could name."""
        alive = [number for number, stream in enumerate(self._realm.streams)
                 if is_alive(stream)]
        if len(alive) < self._most_alive and self._random.random() < self._eager:
            return self._new_stream()
        free = [number for number in alive if not self._realm.streams[number].is_locked()]
        if len({type(self._realm.streams[number]) for number in free}) > 1 and \
                self._random.random() < self._pipes:
            return self._pipe()
        if free and self._random.random() < self._eager:
            return self._new_lock(self._random.choice(free))
        waiting = list(filter(self._has_pull_intos, range(len(self._realm.streams))))
        if waiting and self._random.random() < self._lets_go:
            return self._let_go(self._random.choice(waiting))
        held = list(filter(self._holds_elements, waiting))
        if held and self._random.random() < self._hands_out:
            return self._hand_out(self._random.choice(held))
        if waiting and self._random.random() < self._answers:
            return self._respond()
        [call] = self._random.choices(self._calls, self._weights)
        return self._writers[call]()

    def _new_stream(self) -> str:
        kind = self._random.choice(self._kinds)
        if kind == "transform":
            return self._new_transform()
        if kind.startswith("open"):
            return kind
        if kind == "bytes":
            second = self._random.choice(AUTO_LENGTHS)
        else:
            second = self._random.choice(("count", "count", "bytes"))
        start = "later" if self._random.random() < self._start_later else "now"
        return f"{kind} {self._random.choice(MARKS)} {second} {start}"

    def _new_transform(self) -> str:
        kind = "host" if self._random.random() < self._host_kind else "identity"
        start = "later" if self._random.random() < self._start_later else "now"
        marks = f"{self._random.choice(MARKS)} {self._random.choice(MARKS)}"
        return f"transform {kind} {marks} {start}"

    def _new_lock(self, number: int) -> str:
        if self._is_of_bytes(number) and self._random.random() < self._byob:
            return f"byob s{number}"
        is_readable = isinstance(self._realm.streams[number], ReadableStream)
        return f"{'reader' if is_readable else 'writer'} s{number}"

    def _is_of_bytes(self, number: int) -> bool:
        """Whether this is the number of a byte stream."""
        streams = self._realm.streams
        return number < len(streams) and isinstance(streams[number].controller,
                                                    ReadableByteStreamController)

    def _of_stream(self, word: str, kind: type, values: tuple[str, ...] = ()) -> str | None:
        """A call on a stream of this kind: where it minds locks, mostly on one that is free,
        and unless it makes a lock, mostly on one that is alive."""
        streams = self._realm.streams
        numbers = [number for number, stream in enumerate(streams) if isinstance(stream, kind)]
        if word in ("reader", "writer", "cancel", "close", "abort", "send"):
            numbers = self._narrowed(numbers, lambda number: not streams[number].is_locked())
        if word not in ("reader", "writer"):
            numbers = self._narrowed(numbers, lambda number: is_alive(streams[number]))
        return self._on(word, "s", numbers, values)

    def _of_half(self, word: str) -> str | None:
        """A call on the readable half of a transform stream, mostly on one that is alive."""
        streams = self._realm.streams
        numbers = [number for number in self._realm.transform_controllers
                   if isinstance(streams[number], ReadableStream)]
        numbers = self._narrowed(numbers, lambda number: is_alive(streams[number]))
        return self._on(word, "s", numbers, ())

    def _of_byte_stream(self, word: str) -> str | None:
        """A call on a byte stream: a reader mostly of one that is free, a request mostly of one
        that has something to ask for."""
        streams = self._realm.streams
        numbers = [number for number in range(len(streams)) if self._is_of_bytes(number)]
        if word == "byob":
            numbers = self._narrowed(numbers, lambda number: not streams[number].is_locked())
        else:
            numbers = self._narrowed(numbers, self._has_pull_intos)
        return self._on(word, "s", numbers, ())

    def _has_pull_intos(self, number: int) -> bool:
        """Whether this is a byte stream that has something to ask for."""
        controller = self._realm.streams[number].controller
        return isinstance(controller, ReadableByteStreamController) and \
            bool(controller.pending_pull_intos)

    def _holds_elements(self, number: int) -> bool:
        """Whether the first buffer of this byte stream, which is its reader's, holds whole
        elements."""
        first = self._realm.streams[number].controller.pending_pull_intos[0]
        return (first.reader_type == "byob" and first.bytes_filled > 0
                and first.bytes_filled % first.element_size == 0)

    def _hand_out(self, number: int) -> str | None:
        """A close of such a stream, and once it has closed, an answer that hands them out."""
        if self._realm.streams[number].state == "readable":
            return f"finish s{number}"
        return self._respond()

    def _let_go(self, number: int) -> str | None:
        """The release of a reader that waits, of one with its own buffer often once the buffer
        has a byte. Where that was done, a new reader of any kind for what it left; then a read of
        this one, an enqueue for a read that waits, and an answer for what is left of that."""
        stream = self._realm.streams[number]
        reader = stream.reader
        if reader is None:
            return f"{self._random.choice(('reader', 'byob'))} s{number}"
        if reader not in self._realm.locks:
            return None
        lock = self._realm.locks.index(reader)
        first = stream.controller.pending_pull_intos[0]
        requests = look_at(stream).requests
        if first.reader_type != "none" and requests == 0:
            return self._respond()
        if first.reader_type == "byob" and first.bytes_filled == 0 and self._random.random() < 0.5:
            return f"enqueue s{number} {self._bytes(1)}"
        if first.reader_type != "none":
            return f"release l{lock}"
        if requests > 0:
            return f"enqueue s{number} {self._bytes(1)}"
        if isinstance(reader, ReadableStreamDefaultReader):
            return f"read l{lock}"
        return f"readinto l{lock} {self._buffer()}"

    def _enqueue(self) -> str | None:
        """An enqueue, of a byte stream mostly with bytes."""
        call = self._of_stream("enqueue", ReadableStream)
        if call is None:
            return None
        if self._is_of_bytes(int(call.partition(" s")[2])) and \
                self._random.random() >= max(self._careless, 0.02):
            return f"{call} {self._bytes(self._random.randint(1, self._longest))}"
        return f"{call} {self._random.choice(CHUNKS)}"

    def _bytes(self, length: int) -> str:
        """So many bytes. Each is the one before and one more, so that none is lost unseen."""
        numbers = range(self._next_byte, self._next_byte + length)
        self._next_byte = (self._next_byte + length) % 256
        return "x" + bytes(number % 256 for number in numbers).hex()

    def _of_lock(self, word: str, kind: type | UnionType,
                 values: tuple[str, ...] = ()) -> str | None:
        """A call on such a reader or writer, mostly on one that isn't released, and mostly of a
        stream that is alive. Now and then it is one of a pipe's own."""
        locks = self._realm.locks
        if None in locks and self._random.random() < self._careless:
            return self._on(word, "l", [locks.index(None)], values)
        if not any(isinstance(lock, kind) for lock in locks) and \
                self._random.random() >= self._careless:
            return None
        streams = {number: lock.stream for number, lock in enumerate(locks) if lock is not None}
        numbers = [number for number, stream in streams.items()
                   if stream is None or isinstance(locks[number], kind)]
        numbers = self._narrowed(numbers, lambda number: isinstance(locks[number], kind))
        numbers = self._narrowed(numbers, lambda number: streams[number] is not None)
        numbers = self._narrowed(numbers, lambda number: is_alive(streams[number]))
        return self._on(word, "l", numbers, values)

    def _read_into(self) -> str | None:
        """A read into a buffer of whole elements, now and then into another."""
        buffer = self._buffer()
        if self._random.random() < max(self._careless, 0.03):
            buffer = self._random.choice(ODD_BUFFERS)
        return self._of_lock("readinto", ReadableStreamBYOBReader, (buffer,))

    def _buffer(self) -> str:
        """A buffer of whole elements, and often how many of them are wanted at least."""
        element_size = self._random.choice(self._element_sizes)
        elements = self._random.randint(1, 4)
        buffer = f"{element_size * elements} {element_size}"
        if self._random.random() >= self._least:
            return buffer
        return f"{buffer} {self._random.randint(1, elements)}"

    def _respond(self) -> str | None:
        """An answer to a request, mostly to one that is alive, and mostly with some of the bytes
        that its view has room for, or of a stream that has closed with none. Where none is alive
        it is mostly a request."""
        requests = self._realm.byob_requests
        if all(request.controller is None for request in requests) and \
                self._random.random() >= max(self._careless, 0.1):
            return self._of_byte_stream("request")
        numbers = self._narrowed(list(range(len(requests))),
                                 lambda number: requests[number].controller is not None)
        if self._random.random() < 0.8:
            numbers = numbers[-2:]
        name = self._name("q", numbers)
        if name is None:
            return None
        room, is_readable = self._room_of(int(name[1:]))
        if self._random.random() < max(self._careless, 0.05):
            length = self._random.choice((0, 1, min(room, 20) + 1))
        elif is_readable:
            most = min(room, self._random.choice((self._longest, 20)))
            length = self._random.choice((1, most, self._random.randint(1, most)))
        else:
            length = 0
        return f"respond {name} {self._bytes(length)}"

    def _room_of(self, number: int) -> tuple[int, bool]:
        """For how many bytes the view of a request has room, and whether its stream is
        readable. One that isn't alive is taken for one of a byte."""
        requests = self._realm.byob_requests
        request = requests[number] if number < len(requests) else None
        if request is None or request.controller is None or request.view is None:
            return 1, True
        return len(request.view), request.controller.stream.state == "readable"

    def _pipe(self) -> str | None:
        """A pipe with any options, mostly between streams that aren't locked, and mostly
        between streams that are alive."""
        source = self._end_of_a_pipe(ReadableStream)
        dest = self._end_of_a_pipe(WritableStream)
        if source is None or dest is None:
            return None
        options = [option for option in PREVENTS if self._random.random() < self._prevents]
        signals = list(range(len(self._realm.signals)))
        if signals and self._random.random() < self._signals:
            options.append(f"signal={self._name('a', signals[-2:])}")
        self._random.shuffle(options)
        return " ".join(["pipe", source, dest, *options])

    def _end_of_a_pipe(self, kind: type) -> str | None:
        """A stream for a pipe."""
        streams = self._realm.streams
        numbers = [number for number, stream in enumerate(streams) if isinstance(stream, kind)]
        numbers = self._narrowed(numbers, lambda number: not streams[number].is_locked())
        if self._random.random() < 0.8:
            numbers = self._narrowed(numbers, lambda number: is_alive(streams[number]))
        return self._name("s", numbers)

    def _deliver(self) -> str | None:
        """A message, mostly to an end that is entangled, and mostly one that is for its side."""
        ends = self._realm.ends
        numbers = self._narrowed(list(range(len(ends))),
                                 lambda number: ends[number].port.is_entangled)
        name = self._name("c", numbers[-3:])
        if name is None:
            return None
        number = int(name[1:])
        is_writable = number < len(ends) and isinstance(ends[number].stream, WritableStream)
        if self._random.random() < max(self._careless, 0.03):
            is_writable = not is_writable
        message = self._random.choice(MESSAGES[is_writable])
        if message == "chunk":
            return f"deliver {name} chunk {self._random.choice(CHUNKS)}"
        if message == "error":
            return f"deliver {name} error {self._random.choice(REASONS)}"
        return f"deliver {name} {message}"

    def _trigger(self) -> str | None:
        """Triggers a signal, mostly one that wasn't triggered before."""
        signals = self._realm.signals
        numbers = self._narrowed(list(range(len(signals))),
                                 lambda number: not signals[number].is_aborted)
        return self._on("trigger", "a", numbers, REASONS)

    def _settle(self, answer: str) -> str | None:
        """Settles an algorithm's promise, mostly one of the last that are pending: earlier
        ones may be of streams that have ended."""
        promises = self._realm.host_promises
        numbers = self._narrowed(list(range(len(promises))),
                                 lambda number: promises[number].is_pending)
        if self._random.random() < 0.7:
            numbers = numbers[-2:]
        name = self._name("h", numbers)
        return None if name is None else f"settle {name} {answer}"

    def _narrowed(self, numbers: list[int], fits: Callable[[int], bool]) -> list[int]:
        """The numbers that fit; now and then, or where there is none, all of them."""
        fitting = [number for number in numbers if fits(number)]
        if fitting and self._random.random() >= max(self._careless, 0.1):
            return fitting
        return numbers

    def _on(self, word: str, prefix: str, numbers: list[int],
            values: tuple[str, ...]) -> str | None:
        name = self._name(prefix, numbers)
        if name is None:
            return None
        return f"{word} {name} {self._random.choice(values)}" if values else f"{word} {name}"

    def _name(self, prefix: str, numbers: list[int]) -> str | None:
        """One of the numbers behind its prefix, or a careless one that may name nothing."""
        if self._random.random() < self._careless:
            return f"{prefix}{self._random.randrange(6)}"
        return f"{prefix}{self._random.choice(numbers)}" if numbers else None


def random_script(random: Random, most_lines: int) -> bytes:
    """A random script of at most so many lines."""
    return Author(random).write_script(random.randint(1 + most_lines // 2, max(1, most_lines)))


def crowded_script(random: Random) -> bytes:
    """A script that asks for a few streams more than a realm may have."""
    makers = ["readable 1 count now", "writable 1 count now", "transform identity 1 0 now",
              "transform host 0 1 now"]
    transforms = random.choice((0, 0, 1, 100))
    makers = random.choices(makers, (100, 100, transforms, transforms), k=1028)
    return "".join(f"{maker}\n" for maker in makers).encode("ascii")
