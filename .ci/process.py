#!/usr/bin/env python3
"""Runs the program that is built as a process to which the system is unkind: python3 .ci/process.py

Its output is closed, full, or a pipe whose reader has gone; its input is closed, a folder, a pipe that gives single
bytes, pauses or never ends; its notes are closed; it has little memory or a small stack; it is told to end. Each time
it has to end by itself with the status that README.md has for it, never by a signal but the one that was sent, and what
it wrote has to be a first part of what it writes elsewhere; with 0 all of it. A call that doesn't end in 60 seconds
fails.

The last lines say how many calls ended with which status, how long the longest took, and how many there were. The
program is the one that STREAMS of the environment names, or else that which the gate built."""
import contextlib
import os
import resource
import signal
import subprocess
import sys
import tempfile
import threading
import time
from collections import Counter
from concurrent.futures import ThreadPoolExecutor
from pathlib import Path
from typing import Callable, NamedTuple

from program import NAME, PROGRAM, SECONDS, TEXTS, killed_if_late

KIB = 1024
# Of how many lines and reads the inputs are, and a short one.
LINES, READS, FEW = 12_000, 30_000, 50
MOST_OF_A_PIPE = 2 * 65_536
# How many sizes of memory are tried, by how much the first is more than the least, and how that grows from one to the
# next.
SIZES, FIRST_SIZE, GROWTH = 20, 64 * KIB, 1.45
SMALL_STACK = 256 * KIB
DELAYS = [0, 0.002, 0.005, 0.01, 0.02, 0.05]

HEX = b'version = 1\n[[stage]]\nkind = "hex"\n'
NUMBERED = b'version = 1\nworkers = 2\n[[stage]]\nkind = "lines"\n[[stage]]\nkind = "number"\nworker = 2\n'
UNHEX = b'version = 1\nworkers = 2\n[[stage]]\nkind = "unhex"\n[[stage]]\nkind = "hex"\nworker = 2\n'
LEAST = b"version = 1\nmax_input = 1000000\n"
# Files, and what is told of each as a pipeline file: one is too long, one is empty, and the others can't be read.
NO_PLANS = ((b"/dev/zero", b"plan refused 8\n"), (b"/dev/null", b"plan refused 10\n"))
NO_FILES = (b"/", b"", b"x" * 5_000, b"/dev/null/x")
PLAN_OF_HEX = b"plan 1 workers 0 max_input 1099511627776\nstage 1 hex worker 0\n"
# the bytes that `gen` makes of the number 1 begin so, and the stage makes two characters of each
SUMMARY = b"in 6 out 12 newlines 0 sum %d\n" % sum(b"519c33".hex().encode())


class Command(NamedTuple):
    """The words of a call, its input, all that it prints, and whether it reads its input."""

    name: str
    words: list
    given: bytes
    printed: bytes
    reads: bool


class Ended(NamedTuple):
    """How a call ended: its status, or a signal's number below 0, what it wrote, and its notes where they are kept."""

    status: int
    wrote: bytes
    told: bytes | None
    seconds: float

    def differs(self, command, statuses, told):
        """What differs where one of these statuses may be, and the notes are to begin so."""
        if self.status not in statuses:
            return f"the status is {self.status}, with {self.told!r:.200}, and is to be of {statuses}"
        if not command.printed.startswith(self.wrote):
            return f"with {self.status} it wrote {len(self.wrote)} bytes that are no first part of its output"
        if self.status == 0 and self.wrote != command.printed:
            return f"with 0 it wrote {len(self.wrote)} bytes of {len(command.printed)}"
        if self.told is None or self.status < 0:
            return None
        is_told = self.told.startswith(told or TEXTS[self.status]) if self.status else self.told == b""
        return None if is_told else f"with {self.status} it told {self.told!r:.200}"


class Try(NamedTuple):
    """A command, what is done to it, what does it and answers how it ended, the statuses that it may end with, and how
    its notes begin, if that isn't told by its status."""

    command: Command
    what: str
    perform: Callable
    statuses: list
    told: bytes = b""

    def outcome(self):
        """What differs, or None, the status, and how long it took."""
        name = f"{self.command.name}: {self.what}"
        try:
            ended = self.perform(self.command)
        except subprocess.TimeoutExpired:
            return f"{name}: it doesn't end in {SECONDS} s", None, (SECONDS, name)
        differs = ended.differs(self.command, self.statuses, self.told)
        return differs and f"{name}: {differs}", ended.status, (ended.seconds, name)


def close(*files):
    """What closes these files of a process before it begins."""
    return lambda: [os.close(file) for file in files]


def limit(which, most):
    """What sets a limit of the system's for a process before it begins."""
    return lambda: resource.setrlimit(which, (most, most))


def without_a_reader(file):
    """What makes a file of a process a pipe that nobody reads."""

    def before():
        end_of_reader, end_of_writer = os.pipe()
        os.close(end_of_reader)
        os.dup2(end_of_writer, file)

    return before


def start(command, given, output, notes=subprocess.PIPE, before=None):
    return subprocess.Popen(
        command.words, executable=PROGRAM, stdin=given, stdout=output, stderr=notes, preexec_fn=before, bufsize=0
    )


def call(command, given=None, output=None, meanwhile=lambda process: None, **others):
    """How a call ends with this input and output, or else its own input in a file and a file for what it writes."""
    with tempfile.TemporaryFile() as own, tempfile.TemporaryFile() as written:
        own.write(command.given)
        own.seek(0)
        begun = time.monotonic()
        process = start(command, own if given is None else given, written if output is None else output, **others)
        with killed_if_late(process):
            meanwhile(process)
            told = process.communicate()[1]
        seconds = time.monotonic() - begun
        written.seek(0)
        return Ended(process.returncode, written.read(), told, seconds)


def call_with(path, flags, which, **others):
    """Calls with this file as its input or its output."""

    def perform(command):
        file = os.open(path, flags)
        try:
            return call(command, **{which: file}, **others)
        finally:
            os.close(file)

    return perform


def calls(**others):
    return lambda command: call(command, **others)


def read_by(most):
    """The output is a pipe of which so many bytes are read, and then no more."""

    def perform(command):
        reader, writer = os.pipe()
        wrote = []

        def meanwhile(_process):
            os.close(writer)
            while sum(map(len, wrote)) < most and (not wrote or wrote[-1]):
                wrote.append(os.read(reader, most))
            os.close(reader)

        return call(command, output=writer, meanwhile=meanwhile)._replace(wrote=b"".join(wrote))

    return perform


def fed(cut, pause=0.0):
    """The input is a pipe that gets these pieces of it, with a pause behind each."""

    def perform(command):
        reader, writer = os.pipe()

        def feed():
            with open(writer, "wb", buffering=0) as pipe:
                for piece in cut(command.given):
                    pipe.write(piece)
                    time.sleep(pause)

        feeder = threading.Thread(target=feed)
        feeder.start()
        try:
            return call(command, given=reader)
        finally:
            os.close(reader)
            feeder.join()

    return perform


def bytes_of(given):
    return [given[place : place + 1] for place in range(len(given))]


def halves_of(given):
    half = len(given) // 2
    return [given[:half], given[half:]]


def told_after(delay):
    """It is told to end after so many seconds."""

    def meanwhile(process):
        time.sleep(delay)
        process.terminate()

    return calls(meanwhile=meanwhile)


def told_while_it_waits(command):
    """It is told to end when it has had half of its input and waits for more."""
    reader, writer = os.pipe()

    def meanwhile(process):
        os.close(reader)
        # (where it has ended before, its status says so)
        with contextlib.suppress(BrokenPipeError), open(writer, "wb", buffering=0) as pipe:
            pipe.write(halves_of(command.given)[0])
            time.sleep(0.1)
            process.terminate()
            process.wait()

    return call(command, given=reader, meanwhile=meanwhile)


def without_output(command):
    """Closed, full, and without a reader: what it was to write didn't go out."""
    yield Try(command, "the output is closed", calls(before=close(1)), [5])
    yield Try(command, "the output and the notes are closed", calls(notes=None, before=close(1, 2)), [5])
    yield Try(command, "the output is full", call_with("/dev/full", os.O_WRONLY, "output"), [5])
    yield Try(command, "the output's reader has gone", calls(before=without_a_reader(1)), [5])
    for most in (1, 5_000, 70_000) if len(command.printed) > MOST_OF_A_PIPE else ():
        yield Try(command, f"the output's reader goes after {most} bytes", read_by(most), [5])
    statuses = [4, 5] if command.reads else [5]
    yield Try(command, "nothing is open", calls(notes=None, before=close(0, 1, 2)), statuses)


def without_notes(command, status=0):
    """A good end needs no notes; and a bad one has its status without them."""
    yield Try(command, "the notes are closed", calls(notes=None, before=close(2)), [status])
    yield Try(command, "the notes are full", call_with("/dev/full", os.O_WRONLY, "notes"), [status])
    yield Try(command, "the notes' reader has gone", calls(notes=None, before=without_a_reader(2)), [status])


def odd_inputs(command, few):
    """An input that can't be read is a read fault, with nothing written, where it is read at all."""
    one, statuses = (command._replace(printed=b""), [4]) if command.reads else (command, [0])
    yield Try(one, "the input is closed", calls(before=close(0)), statuses)
    yield Try(one, "the input is a folder", call_with("/", os.O_RDONLY, "given"), statuses)
    if command.reads:
        yield Try(few, "the input comes by single bytes", fed(bytes_of), [0])
        yield Try(command, "the input pauses", fed(halves_of, 0.3), [0])


def least_memory(command):
    """The least size at which the system can start the program at all: below it a library can't be loaded."""
    low, high = 0, 64 * KIB * KIB
    while high - low > 16 * KIB:
        size = (low + high) // 2
        status = call(command, before=limit(resource.RLIMIT_AS, size)).status
        low, high = (size, high) if status == 127 or status < 0 else (low, size)
    return high


def little_memory(command, least):
    for number in range(SIZES):
        size = least + int(FIRST_SIZE * GROWTH**number)
        yield Try(command, f"{size // KIB} KiB of memory", calls(before=limit(resource.RLIMIT_AS, size)), [0, 7])
    yield Try(command, "a small stack", calls(before=limit(resource.RLIMIT_STACK, SMALL_STACK)), [0])


def told_to_end(command):
    """It is told to end after a while, when it may have come to its end by itself, and while it waits."""
    for delay in DELAYS:
        yield Try(command, f"it is told to end after {delay} s", told_after(delay), [0, -signal.SIGTERM])
    if command.reads:
        yield Try(command, "it is told to end while it waits for its input", told_while_it_waits, [-signal.SIGTERM])


def without_end(folder):
    """Inputs and files that never end, and files that are none."""
    least, fifo = Path(folder, "least.toml"), Path(folder, "fifo")
    least.write_bytes(LEAST)
    os.mkfifo(fifo)
    zeros = call_with("/dev/zero", os.O_RDONLY, "given")
    # of the zeros that were read a first part may be written, and no more than the plan allows
    of_run = Command("run of at most a million bytes", [NAME, b"run", least], b"", bytes(1_000_000), True)
    yield Try(of_run, "the input never ends", zeros, [10])
    of_script = Command("script", [NAME, b"script"], b"", b"", True)
    yield Try(of_script, "the input never ends", zeros, [8], b"script refused 0\n")
    for name, told in (*NO_PLANS, *((name, b"load fault\n") for name in NO_FILES)):
        of_check = Command(f"check {name!r:.30}", [NAME, b"check", name], b"", b"", False)
        yield Try(of_check, "the file is no plan", call, [9 if name in NO_FILES else 3], told)

    def from_a_pipe(command):
        # (nobody waits for the thread: where the program never opens the file, it has no end)
        threading.Thread(target=lambda: [time.sleep(0.05), fifo.write_bytes(HEX)], daemon=True).start()
        return call(command)

    of_check = Command("check", [NAME, b"check", fifo], b"", PLAN_OF_HEX, False)
    yield Try(of_check, "the file is a pipe that waits", from_a_pipe, [0])


def numbered(lines):
    return b"".join(b"%d %s" % (number, line) for number, line in enumerate(lines, 1))


def script_of(reads):
    """A script of reads that wait, and what it prints."""
    text = b"readable 0 count now\nreader s0\n" + b"read l0\n" * reads
    promises = [b"%d promise p%d\n" % (number + 3, number) for number in range(reads)]
    return text, b"".join([b"1 made s0\n2 lock l0\n", promises[0], b"  host h0 pull s0\n", *promises[1:]])


def commands(folder, lines, reads):
    """Each command over so many lines, or so many reads of a script."""
    of_hex, of_numbers = Path(folder, "hex.toml"), Path(folder, "number.toml")
    of_hex.write_bytes(HEX)
    of_numbers.write_bytes(NUMBERED)
    each = [b"line %d of the input\n" % number for number in range(lines)]
    text = b"".join(each)
    return [
        Command("run", [NAME, b"run"], text, text, True),
        Command("run FILE", [NAME, b"run", of_hex], text, text.hex().encode(), True),
        Command("run FILE with workers", [NAME, b"run", of_numbers], text, numbered(each), True),
        Command("script", [NAME, b"script"], *script_of(reads), True),
        Command("check FILE", [NAME, b"check", of_hex], b"", PLAN_OF_HEX, False),
        Command("gen N SEED FILE", [NAME, b"gen", b"6", b"1", of_hex], b"", SUMMARY, False),
    ]


def bad_commands(folder):
    """A call of each command that ends badly, and its status."""
    no_file, of_unhex = b"/no/such/file", Path(folder, "unhex.toml")
    of_unhex.write_bytes(UNHEX)
    ends = [
        ("run with a word too many", [b"run", no_file, no_file], b"", 2),
        ("run of no file", [b"run", no_file], b"", 9),
        ("run with workers of what is no hexadecimal text", [b"run", of_unhex], b"line\n", 1),
        ("script of a bad line", [b"script"], b"!\n", 8),
        ("check of no file", [b"check", no_file], b"", 9),
        ("gen of no file", [b"gen", b"6", b"1", no_file], b"", 9),
    ]
    return [(Command(name, [NAME, *words], given, b"", bool(given)), status) for name, words, given, status in ends]


def tries(folder):
    each, of_few = commands(folder, LINES, READS), commands(folder, FEW, FEW)
    least = least_memory(of_few[4])
    for command, few in zip(each, of_few):
        for kind in (without_output, without_notes, told_to_end):
            yield from kind(command)
        yield from odd_inputs(command, few)
        yield from little_memory(command, least)
    for bad, status in bad_commands(folder):
        yield from without_notes(bad, status)
    # one that is long enough to be killed in its middle
    long = each[5]._replace(name="gen of many", words=[NAME, b"gen", b"4000000000", b"1", each[5].words[-1]])
    yield from (one._replace(statuses=[-signal.SIGTERM]) for one in told_to_end(long))
    yield from without_end(folder)


def main():
    if not os.access(PROGRAM, os.X_OK):
        print(f"process: {PROGRAM} isn't built")
        return 1
    with tempfile.TemporaryDirectory() as folder, ThreadPoolExecutor(os.cpu_count()) as pool:
        found = list(pool.map(Try.outcome, tries(folder)))
    failures = [text for text, _, _ in found if text]
    statuses = Counter(status for _, status, _ in found)
    seconds, name = max(longest for _, _, longest in found)
    print(*failures, sep="\n", end="\n" if failures else "")
    ends = ", ".join(f"{count} with {status}" for status, count in sorted(statuses.items(), key=str))
    print(f"process: of the calls ended {ends}; the longest took {seconds:.2f} s, {name}")
    print(f"process: {len(found) - len(failures)} passed, {len(failures)} failed")
    return 1 if failures else 0


if __name__ == "__main__":
    sys.exit(main())
