"""Runs of `rt ci` beside each other, and what they say, line by line."""
import collections
import selectors
import signal
import subprocess

import children
import exits

PIECE = 1 << 16


class Run:
    """A run of `rt ci` over the crates in a folder, and what it said."""

    def __init__(self, folder):
        try:
            # What rt starts ends with rt; and rt with this process.
            self.process = subprocess.Popen(
                ["rt", "ci"], cwd=folder, stdin=subprocess.DEVNULL, stdout=subprocess.PIPE, stderr=subprocess.STDOUT, bufsize=0,
                preexec_fn=children.ended_by(signal.SIGKILL),
            )
        except OSError as error:
            raise exits.Stop(exits.NO_PROCESS, f"rt can't be started: {error.strerror}") from None
        self.said = bytearray()

    def finished_by(self, more):
        """The lines that this output finishes, which is taken note of."""
        line = self.said.rfind(b"\n") + 1
        self.said += more
        return self.said[line : self.said.rfind(b"\n") + 1].decode(errors="replace").split("\n")[:-1]

    def stop_where_it_failed(self):
        """Waits for the end of the run. Where it failed, puts out what it said, and stops."""
        if self.process.wait():
            exits.put(self.said.decode(errors="replace"))
            raise exits.Stop(exits.NOT_PROVED, "a crate could not be proved, or the program not built: what rt said stands above")


class Runs:
    """The runs of a build. Those that still go on as it is left are ended."""

    def __init__(self):
        # The runs that go on, and the lines that weren't handed out yet. (They are read without threads, beside which a child isn't safe until it is rt.)
        self.going, self.unread = selectors.DefaultSelector(), collections.deque()

    def __enter__(self):
        return self

    def __exit__(self, *_):
        left = [key.data.process for key in self.going.get_map().values()]
        for process in left:
            process.kill()
        for process in left:
            process.wait()
        self.going.close()

    def start(self, folder):
        """Starts a run beside the others."""
        run = Run(folder)
        self.going.register(run.process.stdout, selectors.EVENT_READ, run)

    def lines(self):
        """The lines of all runs as they come, and an empty one where none comes for a second. They end with the last run; where one fails, this stops. Who
        leaves them before may ask for the rest again."""
        while self.unread or self.going.get_map():
            if not self.unread:
                self.read()
            yield self.unread.popleft() if self.unread else ""

    def read(self):
        """Waits for output, for a second at most, and reads it."""
        for key, _ in self.going.select(timeout=1):
            more = key.fileobj.read(PIECE)
            if more:
                self.unread += key.data.finished_by(more)
            else:
                key.data.stop_where_it_failed()
                self.going.unregister(key.fileobj)
