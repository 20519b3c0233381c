"""Calls of the program that is built: what it reads, what it prints, and how it ends."""
import contextlib
import os
import pathlib
import socket
import subprocess
import tempfile
import threading
import time
from typing import NamedTuple

ROOT = pathlib.Path(__file__).resolve().parent.parent
PROGRAM = pathlib.Path(os.environ.get("STREAMS") or ROOT / "crates" / "streams" / "out" / "streams").resolve()
NAME = b"streams"
SECONDS = 60

# How the text on standard error begins, by the exit status.
TEXTS = {
    1: b"stage ",
    2: b"usage: ",
    3: b"plan refused ",
    4: b"read fault\n",
    5: b"write fault\n",
    6: b"aborted\n",
    7: b"no memory\n",
    8: b"script refused ",
    9: b"load fault\n",
    10: b"input too long\n",
}
# With these a run may leave out what comes last: chunks that were on their way may be missing.
CUT_SHORT = (1, 4, 10)


def cut(text, other):
    """A text as it is shown: of a long one what stands round the byte at which it differs from another."""
    if isinstance(text, bytes) and len(text) > 400:
        place = len(os.path.commonprefix([text, other]))
        return f"{text[max(0, place - 40) : place + 80]!r} round its byte {place} of {len(text)}"
    return repr(text)


class Wanted(NamedTuple):
    """What a call is to print on standard output and on standard error. Without a text there the status is 0."""

    printed: bytes
    told: bytes

    def status(self):
        return next((status for status, text in TEXTS.items() if self.told.startswith(text)), None) if self.told else 0


class Ended(NamedTuple):
    status: int
    printed: bytes
    told: bytes

    def differs(self, wanted):
        """What differs from what is wanted, in words, of which there are none where nothing does."""
        is_first_part = self.status in CUT_SHORT and wanted.printed.startswith(self.printed)
        parts = [("status", self.status, wanted.status()), ("standard error", self.told, wanted.told)]
        if not is_first_part:
            parts.append(("standard output", self.printed, wanted.printed))
        return "\n".join(
            f"{part} is {cut(found, right)} and is to be {cut(right, found)}"
            for part, found, right in parts
            if found != right
        )


@contextlib.contextmanager
def killed_if_late(process):
    """Kills a process that hasn't ended in so many seconds, so that nothing waits for it any longer, and then says so. At the
    end it is killed in any case."""
    late, begun = threading.Timer(SECONDS, process.kill), time.monotonic()
    late.start()
    try:
        yield
    finally:
        late.cancel()
        process.kill()
        if time.monotonic() - begun >= SECONDS:
            raise subprocess.TimeoutExpired(process.args, SECONDS)


def ended(words, given, folder, limit=None):
    """How a call ends, in this folder and with this file or socket as its input. Its first word is the name.

    The process sets a limit of the system's to itself first, where there is one."""
    done = subprocess.run(
        words,
        executable=PROGRAM,
        cwd=folder,
        stdin=given,
        stdout=subprocess.PIPE,
        stderr=subprocess.PIPE,
        timeout=SECONDS,
        preexec_fn=limit,
    )
    return Ended(done.returncode, done.stdout, done.stderr)


def call(words, given, folder=None, limit=None):
    """How a call ends with these bytes in a file as its input, and how many of them were read."""
    with tempfile.TemporaryFile() as file:
        file.write(given)
        file.seek(0)
        done = ended(words, file, folder, limit)
        return done, os.lseek(file.fileno(), 0, os.SEEK_CUR)


def send(end, given, most):
    with end:
        try:
            for place in range(0, len(given), most):
                end.send(given[place : place + most])
        except (BrokenPipeError, ConnectionResetError):
            pass  # the program ended before it had read all


def call_in_pieces(words, given, most, folder=None):
    """How a call ends whose input comes in pieces of so many bytes, each of which is one read of the system's."""
    # on a socket of packets a read gives one packet
    end, other = socket.socketpair(socket.AF_UNIX, socket.SOCK_SEQPACKET)
    sender = threading.Thread(target=send, args=(end, given, most))
    sender.start()
    try:
        with other:
            return ended(words, other, folder)
    finally:
        sender.join()
