"""A first answer, while the program is being proved: `rt try` builds the program in a minute or two without a proof, and runs it on a small job."""
import os
import re
import signal
import subprocess

import build
import children
import exits
import given
import sources

WRITE_FAULT = 5
# What ends rt's account of a program that came to its end. What stands before it are the program's own notes.
ENDED = re.compile(rb"^(?:interpreter: .*\n)?checked: ended status=(\d+)\n(?:.*\n)*run=ended status=\1 .*proved=no\n\Z", re.MULTILINE)
WAITS = (
    "the program isn't proved yet, and this waits for it, with its input kept: a first answer wants an output that is open, "
    "an input that is a file or a pipe, has at most 64 MiB and ends without a pause of 2 s, and a pipeline file that can be read twice"
)
UNPROVED = (
    "this answer is of a build that isn't proved yet: its accesses, sums and unwraps were checked as it ran, its contracts weren't. {}"
)
# The statuses of a program that has read nothing: wrong words, a file that is refused, and one that can't be loaded.
UNREAD = (2, 3, 9)
# The words behind which the name of a pipeline file stands.
BEFORE_A_FILE = (["run"], ["run", "--trace"], ["check"])


def before_a_file(command):
    return command in BEFORE_A_FILE or (command[:1] == ["gen"] and len(command) == 3)


def job(words):
    """The words and the file that rt is handed, where the words name one; None where the file is none that can be read twice."""
    *command, file = words or [""]
    if not before_a_file(command) or words == ["run", "--trace"]:
        return words, []
    if os.path.isfile(file) and os.access(file, os.R_OK):
        return [*command, "plan.toml"], ["--data", f"plan.toml={os.path.realpath(file)}"]
    if os.path.exists(file) and not os.path.isdir(file) and not os.path.isfile(file):
        return None
    # There is no such file in the folder that rt runs the program in either.
    return [*command, "missing.toml"], []


def reads_input(words, files):
    """Whether the program reads its input for these words, of which these name files that are there."""
    return words in (["run"], ["script"]) or words[:1] == ["run"] and files != []


def tried(words, data, flags):
    """The status, the output and the notes of an unproved run, or None where it has no answer, as after a minute, or with more than 1 MiB of output."""
    try:
        ran = subprocess.run(
            ["rt", "try", *flags, "--", *words],
            cwd=sources.OUT.parent,
            input=data,
            capture_output=True,
            env={name: value for name, value in os.environ.items() if name != "RT_SECONDS"},
            preexec_fn=children.ended_by(signal.SIGTERM),
        )
    except OSError as error:
        raise exits.Stop(exits.NO_PROCESS, f"rt can't be started: {error.strerror}") from None
    ended = ENDED.search(ran.stderr)
    # (behind an output that ends within a line rt begins a new one)
    return (int(ended[1]), ran.stdout, ran.stderr[: ended.start()].lstrip(b"\n")) if ended else None


def hand_out(status, output, notes):
    """Writes what an unproved run wrote, and gives its status, or that of an output that can't be written."""
    try:
        given.write_all(1, output)
    except OSError:
        status, notes = WRITE_FAULT, b"write fault\n"
    try:
        given.write_all(2, notes)
    except OSError:
        # As of the program, whose notes can't be told anybody then.
        pass
    return status


def answer(words):
    """Starts the build, and answers a small job meanwhile: its exit status, or None where the job waits for the proved program."""
    build.start()
    what = job(words)
    reads = what is not None and reads_input(words, what[1])
    data = None
    if what and 1 not in given.INPUT.closed:
        data = given.take() if reads else b""
    if data is None:
        exits.say(WAITS)
        return None
    exits.say("the program isn't proved yet: a build without a proof answers in a minute or two")
    ran = tried(*what[:1], data, what[1])
    if ran is None:
        exits.say("there is no answer without a proof, as where a run takes more than a minute or puts out more than 1 MiB: this waits for the proved program, with its input kept")
        return None
    exits.say(UNPROVED.format(build.account()))
    if reads and ran[0] not in UNREAD:
        given.answered(len(data))
    return hand_out(*ran)
