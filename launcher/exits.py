"""How the launcher itself ends, by the numbers of sysexits.h, which the program has no use for."""
import contextlib
import os

# The program couldn't be proved or built.
NOT_PROVED = 70
# A process couldn't be started.
NO_PROCESS = 71
# rt or python3 isn't there.
NO_TOOL = 72
# A folder can't be written.
NO_FOLDER = 73
# The disk has no room.
NO_ROOM = 74
# The build was ended before it was done.
ENDED = 75
# The kit has another logic.
OTHER_KIT = 78


class Stop(Exception):
    """Why the launcher can't go on, in one line, and its exit status."""

    def __init__(self, status, why):
        super().__init__(why)
        self.status = status


def put(text):
    """Writes a text on standard error, where that can be written."""
    left = memoryview(text.encode(errors="surrogateescape"))
    # (not by sys.stderr, which would try what it couldn't write once more as Python ends, and have a status of its own for that)
    with contextlib.suppress(OSError):
        while left:
            left = left[os.write(2, left) :]


def say(line):
    put(f"streams: {line}\n")
