"""Cases of runs with workers: again and again, and where the system refuses to start their threads."""
import os
import resource
import socket
import subprocess
import tempfile
from pathlib import Path

from cases import Case
from program import NAME, PROGRAM, Wanted, call, killed_if_late

MOST_WORKERS = 8
TIMES = 100
# A user that has no other process, so that what it may start is known.
NOBODY_ELSE = 54321
PIECES = 60
PIECE = b"abcdefghijklmno\n"


def plan(workers):
    """A plan of a stage for each of so many workers, which changes nothing."""
    lines = ["version = 1", f"workers = {workers}"]
    for worker in range(1, workers + 1):
        lines += ["[[stage]]", 'kind = "mask"', 'key = "00"', f"worker = {worker}"]
    return "\n".join(lines) + "\n"


def again_and_again(workers, folder):
    """What differs of a hundred runs."""
    path = Path(folder, "plan.toml")
    path.write_text(plan(workers))
    given = PIECE * 2
    differs = None
    for _ in range(TIMES):
        differs = differs or call([NAME, b"run", path], given)[0].differs(Wanted(given, b""))
    return differs


class Limited:
    """The program as a user who may start so many threads more, or none where that can't be known."""

    def __init__(self, folder):
        self.is_root = os.geteuid() == 0
        Path(folder).chmod(0o755)

    def most(self, workers):
        """How many threads are let to start, in turn."""
        return range(workers + 1) if self.is_root else [0]

    def start(self, words, given, started):
        def limit():
            if self.is_root:
                os.setgroups([])
                os.setresgid(NOBODY_ELSE, NOBODY_ELSE, NOBODY_ELSE)
                os.setresuid(NOBODY_ELSE, NOBODY_ELSE, NOBODY_ELSE)
            most = 1 + started if self.is_root else 0
            resource.setrlimit(resource.RLIMIT_NPROC, (most, most))

        # by a handle, since the user may have no way to the folder
        program = os.open(PROGRAM, os.O_RDONLY)
        try:
            return subprocess.Popen(
                words,
                executable=f"/proc/self/fd/{program}",
                stdin=given,
                stdout=subprocess.PIPE,
                stderr=subprocess.PIPE,
                bufsize=0,
                pass_fds=[program],
                preexec_fn=limit,
            )
        finally:
            os.close(program)

    def differs(self, words, started):
        """What differs of a run of which so many threads start. They are counted once the first bytes came out."""
        end, other = socket.socketpair(socket.AF_UNIX, socket.SOCK_SEQPACKET)
        with end, other:
            for _ in range(PIECES):
                end.send(PIECE)
            with self.start(words, other, started) as process:
                with killed_if_late(process):
                    first = process.stdout.read(1)
                    count = len(os.listdir(f"/proc/{process.pid}/task")) - 1
                    end.close()
                    rest, told = process.communicate()
        ended = process.returncode, first + rest, told
        if ended != (0, PIECES * PIECE, b""):
            return f"{started} threads: the run ends with {ended}"
        return None if count == started else f"{count} threads were started and {started} were to be"


def refused_threads(workers, folder):
    """What differs where the system starts none of the threads, one, and so on up to all."""
    path = Path(folder, "plan.toml")
    path.write_text(plan(workers))
    limited = Limited(folder)
    for started in limited.most(workers):
        differs = limited.differs([NAME, b"run", path], started)
        if differs:
            return differs
    return None


def worker_case(name, differs, *numbers):
    def of_all():
        for workers in numbers:
            with tempfile.TemporaryDirectory() as folder:
                found = differs(workers, folder)
            if found:
                return f"{workers} workers: {found}"
        return None

    return Case(f"made: {name}", (), of_all)


def worker_cases():
    if os.geteuid() != 0:
        print("examples: the user isn't root, so of runs with a limit of threads only those are tried in which none can be started")
    return [
        worker_case("threads that can't be started", refused_threads, *range(MOST_WORKERS + 1)),
        *(worker_case(f"{n} workers a hundred times", again_and_again, n) for n in range(MOST_WORKERS + 1)),
    ]
