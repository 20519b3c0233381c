"""The standard input. What a first answer takes of it is kept, so that the proved program gets all of it where there was no such answer."""
import os
import select
import stat
import tempfile

import exits

# The most that a first answer takes, in bytes, and how long it waits for more.
MOST, SILENCE_SECONDS = 64 << 20, 2
PIECE = 1 << 16


class Input:
    """What was taken of the standard input, and whether that is all."""

    def __init__(self):
        self.closed = []
        self.taken = bytearray()
        self.ended = False


INPUT = Input()


def keep_closed():
    """Fills the standard streams that are closed, so that no file that is opened here becomes one of them."""
    for number in (0, 1, 2):
        try:
            os.fstat(number)
        except OSError:
            INPUT.closed.append(number)
    for _ in INPUT.closed:
        os.open(os.devnull, os.O_RDWR)


def take():
    """The whole input, or None where it is no file or pipe, doesn't end for now, is too long or can't be read. Of a socket or a terminal nothing is
    taken: a read of it may fail, and the program couldn't be given that."""
    if 0 in INPUT.closed:
        return None
    try:
        kind = os.fstat(0)
        if stat.S_ISREG(kind.st_mode):
            return of_file()
        return of_pipe() if stat.S_ISFIFO(kind.st_mode) or is_null(kind) else None
    except OSError:
        return None


def is_null(kind):
    """Whether that is the file without a byte."""
    return stat.S_ISCHR(kind.st_mode) and kind.st_rdev == os.stat(os.devnull).st_rdev


def of_pipe():
    """What comes out of a pipe, which is taken from it."""
    while len(INPUT.taken) <= MOST and select.select([0], [], [], SILENCE_SECONDS)[0]:
        more = os.read(0, PIECE)
        if not more:
            INPUT.ended = True
            return bytes(INPUT.taken)
        INPUT.taken += more
    return None


def of_file():
    """The rest of a file. Its place stays where it is."""
    at, rest = os.lseek(0, 0, os.SEEK_CUR), bytearray()
    while len(rest) <= MOST:
        more = os.pread(0, 1 << 20, at + len(rest))
        if not more:
            return bytes(rest)
        rest += more
    return None


def answered(length):
    """Leaves a file behind the bytes that were answered, as the program would."""
    if stat.S_ISREG(os.fstat(0).st_mode):
        os.lseek(0, length, os.SEEK_CUR)


def restore():
    """Gives the standard streams back as they were: what was taken comes first, and what is closed is closed."""
    if INPUT.ended:
        with tempfile.TemporaryFile() as spool:
            spool.write(INPUT.taken)
            spool.flush()
            os.lseek(spool.fileno(), 0, os.SEEK_SET)
            os.dup2(spool.fileno(), 0)
    elif INPUT.taken:
        feed()
    for number in INPUT.closed:
        os.close(number)


def feed():
    """Has a process of its own give what was taken, and then what is still to come, for as long as somebody reads it."""
    end, to = os.pipe()
    try:
        child = os.fork()
    except OSError as error:
        raise exits.Stop(exits.NO_PROCESS, f"a process can't be started: {error.strerror}") from None
    if child == 0:
        try:
            os.close(end)
            for number in (1, 2):
                os.close(number)
            write_all(to, INPUT.taken)
            pass_on(to)
        finally:
            os._exit(0)
    os.close(to)
    os.dup2(end, 0)
    os.close(end)


def pass_on(to):
    """Hands the rest of the input on, until it ends or nobody reads."""
    waits = select.poll()
    waits.register(0, select.POLLIN)
    # (that the reader has gone is told in any case)
    waits.register(to, 0)
    while True:
        ready = dict(waits.poll())
        if to in ready:
            return
        more = os.read(0, PIECE)
        if not more:
            return
        write_all(to, more)


def write_all(to, data):
    """Writes all of the bytes."""
    left = memoryview(data)
    while left:
        left = left[os.write(to, left) :]
