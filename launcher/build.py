"""Proves and builds the program, in copies of its crates, by the kit's own gate: `rt ci` proves as many crates side by side as there are processors
and memory for, those with the longest chain behind them first. Some kits keep what passed, for a build that was interrupted, for the gate and for a
run beside: there two runs share the work. It says on standard error how far it is."""
import contextlib
import errno
import fcntl
import hashlib
import os
import pathlib
import re
import shutil
import signal
import subprocess
import sys
import tempfile
import time

import exits
import kit
import progress
import runs
import sources

HEARTBEAT_SECONDS = 30
# What a build takes at most, in bytes.
ROOM_NEEDED = 4 << 30
# The lock has the number of the process that builds, while it does.
LOCK, LOG = sources.OUT / "build.lock", sources.OUT / "build.log"
# How far the build under way is, and how the last one ended that didn't end well: its status and why.
PROGRESS, FAILED = sources.OUT / "build.progress", sources.OUT / "build.failed"
ENDED = re.compile(r"^rt: (\w+) (proved|is kept)\b")
BEGINS, DONE = "the proof begins", "the program is proved and built"
# The signals that end a build: not those which who started it had ignored, as nohup does.
ENDS = [it for it in (signal.SIGTERM, signal.SIGINT, signal.SIGHUP) if signal.getsignal(it) is not signal.SIG_IGN]


def lock():
    """A handle that holds the lock of builds in this checkout, or None where another build has it."""
    try:
        sources.OUT.mkdir(parents=True, exist_ok=True)
        held = open(LOCK, "a")
    except OSError as error:
        raise exits.Stop(exits.NO_FOLDER, f"the program is built in {sources.OUT}, which can't be written: {error.strerror}") from None
    try:
        fcntl.flock(held, fcntl.LOCK_EX | fcntl.LOCK_NB)
    except BlockingIOError:
        held.close()
        return None
    # (the number of one that was killed)
    held.truncate(0)
    return held


@contextlib.contextmanager
def room():
    """A folder for the copies, which goes as the build ends; and before it what killed builds of this checkout left. Where TMPDIR names none it is in
    /var/tmp, since a build takes gigabytes."""
    top = os.environ.get("TMPDIR") or ("/var/tmp" if os.access("/var/tmp", os.W_OK) else None)
    prefix = f"streams-build-{hashlib.sha256(os.fsencode(sources.ROOT)).hexdigest()[:12]}-"
    try:
        for left in pathlib.Path(top or tempfile.gettempdir()).glob(f"{prefix}*"):
            remove_unused(left)
        folder = tempfile.mkdtemp(prefix=prefix, dir=top)
        used = in_use(folder)
    except OSError as error:
        raise exits.Stop(exits.NO_FOLDER, f"{top or 'the folder for temporary files'} can't be written: {error.strerror}; set TMPDIR to one that can") from None
    try:
        free = shutil.disk_usage(folder).free
        if free < ROOM_NEEDED:
            raise exits.Stop(exits.NO_ROOM, f"{os.path.dirname(folder)} has {free >> 20:,} MiB free, and a build takes up to {ROOM_NEEDED >> 20:,}: make room, or set TMPDIR")
        yield pathlib.Path(folder)
    finally:
        shutil.rmtree(folder, ignore_errors=True)
        os.close(used)


def in_use(folder):
    """A handle that has the folder for this process. Where another one has it that fails."""
    handle = os.open(os.path.join(folder, ".in-use"), os.O_RDWR | os.O_CREAT | os.O_NOFOLLOW, 0o600)
    try:
        fcntl.flock(handle, fcntl.LOCK_EX | fcntl.LOCK_NB)
    except OSError:
        os.close(handle)
        raise
    return handle


def remove_unused(folder):
    """Removes the folder of a build that is no more."""
    with contextlib.suppress(OSError):
        used = in_use(folder)
        shutil.rmtree(folder, ignore_errors=True)
        os.close(used)


def write(path, text):
    """Gives a file this text, at once: a reader meets the old one or the new."""
    new = path.with_name(f"{path.name}.new")
    new.write_text(text)
    os.replace(new, path)


def tell(line):
    """Says how far the build is, here and to those who wait for it."""
    exits.say(line)
    write(PROGRESS, line)


class News:
    """What is told of a build on its way: each crate once, whichever run has it first, and how far it is from time to time."""

    def __init__(self, copies):
        self.far, self.begun, self.told = progress.Progress([it.crates for it in copies]), time.monotonic(), 0.0

    def hear(self, line):
        """Tells what is new in a line of rt, and gives the crate that it says is proved or kept."""
        ended, gone = ENDED.match(line), time.monotonic() - self.begun
        # (what one run proved is kept for the other, which says so)
        new = ended if ended and ended[1] in self.far.untold else None
        if new and new[2] == "proved":
            self.far.proved(new[1], gone)
        elif new:
            self.far.kept(new[1])
        if new or gone - self.told >= HEARTBEAT_SECONDS:
            tell(f"{f'{new[1]} {new[2]}' if new else 'proving'}: {self.far.told(gone)}")
            self.told = gone
        return ended and ended[1]


def prove(copies):
    """Proves the crates and builds the program by a run over each copy, says how far that is, and stops where one fails. The next run begins as the one
    before says that the crate which its copy names is proved or kept, or as it ends."""
    news = News(copies)
    with runs.Runs() as under_way:
        for copy in copies:
            under_way.start(copy.folder)
            for line in under_way.lines():
                if news.hear(line) == copy.next_behind:
                    break


def install(made, told, begun):
    """Puts the program where it is run from. A run beside this one meets the old program or the new. Sources that changed since the build began are
    newer than it."""
    new = sources.OUT / f"{sources.PROGRAM}.new"
    shutil.copy(made, new)
    os.utime(new, (begun, begun))
    sources.SUM.unlink(missing_ok=True)
    os.replace(new, sources.BUILT)
    write(sources.SUM, sources.sums_of(sources.BUILT, told))


def make():
    """Proves, builds and installs the program."""
    # (by the clock of the file system: it was written just now)
    begun = LOCK.stat().st_mtime
    sources.look_again()
    with room() as folder:
        copies = sources.copies(folder, kit.keeps_beside())
        whole = copies[-1].folder
        # (of what is proved, and not of what may change beside it)
        told = sources.sum_of(whole)
        prove(copies)
        install(whole / "crates" / sources.PROGRAM / "out" / sources.PROGRAM, told, begun)


@contextlib.contextmanager
def causes():
    """Stops, with its cause, where a file can't be read or written."""
    try:
        yield
    except OSError as error:
        if error.errno in (errno.ENOSPC, errno.EDQUOT):
            raise exits.Stop(exits.NO_ROOM, f"there is no room left on the disk ({error.filename}): make room, or set TMPDIR") from None
        raise exits.Stop(exits.NO_FOLDER, f"{error.filename or 'a file'} can't be read or written: {error.strerror}") from None


def end(*_):
    """Ends the build where its process is told to end. That it is told again doesn't keep it from leaving nothing."""
    for it in ENDS:
        signal.signal(it, signal.SIG_IGN)
    raise exits.Stop(exits.ENDED, "the build was ended before it was done")


def what_is_left():
    """What is left of a build that was ended. It is asked of rt, once the one that proves has gone."""
    return "what was proved is kept, and the next one goes on from there" if kit.keeps() else "this kit's rt ci keeps nothing, so the next one begins anew"


def build():
    """Builds the program. The caller holds the lock."""
    for number in ENDS:
        signal.signal(number, end)
    try:
        with causes():
            forget()
            LOCK.write_text(number_line())
            tell(BEGINS)
            make()
            tell(DONE)
    except exits.Stop as stop:
        why = exits.Stop(exits.ENDED, f"{stop}: {what_is_left()}") if stop.status == exits.ENDED else stop
        # (a full disk has no room for that either)
        with contextlib.suppress(OSError):
            write(FAILED, f"{why.status} {why}")
        raise why from None
    finally:
        with contextlib.suppress(OSError):
            if LOCK.read_text() == number_line():
                os.truncate(LOCK, 0)


def number_line():
    return f"{os.getpid()}\n"


def forget():
    """Removes what the build before told."""
    for path in (PROGRESS, FAILED):
        path.unlink(missing_ok=True)


def start():
    """Has the program built by a process of its own, unless one is at work. It takes the lock over, and writes into a log."""
    held = lock()
    if held:
        with causes(), held, open(LOG, "w") as log:
            forget()
            how = {"stdin": subprocess.DEVNULL, "stdout": log, "stderr": log, "start_new_session": True}
            try:
                subprocess.Popen([sys.executable, "-B", __file__], pass_fds=[held.fileno()], **how)
            except OSError as error:
                raise exits.Stop(exits.NO_PROCESS, f"a process can't be started: {error.strerror}") from None


def how_far():
    """How far the build under way is."""
    try:
        return PROGRESS.read_text()
    except OSError:
        return BEGINS


def failure():
    """How the last build ended that didn't end well: its status and why. None where it did, or is under way."""
    try:
        status, _, why = FAILED.read_text().partition(" ")
    except OSError:
        return None
    return int(status), f"{why} ({LOG})" if int(status) == exits.NOT_PROVED else why


def account():
    """How it stands with the build that was started, in a sentence."""
    held = lock()
    if not held:
        return f"The proof goes on ({how_far()}; {LOG})"
    with held:
        failed = failure()
        if failed:
            return f"The proof ended without a program: {failed[1]}"
        return "By now the program is proved and built" if how_far() == DONE else f"The proof was ended before it was done ({LOG})"


def follow():
    """Waits while another process builds, and says how far it is. Stops where that build failed."""
    said, since = None, 0.0
    while True:
        held = lock()
        if held:
            held.close()
            break
        line, now = how_far(), time.monotonic()
        if line != said or now - since > HEARTBEAT_SECONDS:
            exits.say(line)
            said, since = line, now
        time.sleep(0.5)
    failed = failure()
    if failed and failed[0] != exits.ENDED:
        raise exits.Stop(*failed)


def wait(started):
    """Returns when the program is built: builds it, or waits for who does. Where a build was started for this call before, one that failed isn't begun
    again, though it failed before anybody waited for it."""
    if started and not sources.is_built():
        follow()
    while not sources.is_built():
        held = lock()
        if not held:
            follow()
            continue
        with held:
            # (who held it before may have built it)
            if not sources.is_built():
                build()
    for number in ENDS:
        signal.signal(number, signal.SIG_DFL)


def main():
    """Builds by itself, as the child of a first answer, which handed it the lock and has the processors first."""
    os.nice(5)
    try:
        build()
    except exits.Stop as why:
        exits.say(why)
        sys.exit(why.status)


if __name__ == "__main__":
    main()
