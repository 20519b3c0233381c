"""The examples of the documents. Each document runs in a folder of its own."""
import os
import pathlib
import re
import signal
import subprocess
import tempfile
from typing import NamedTuple

from program import PROGRAM, ROOT, SECONDS

BLOCK = re.compile(r"^```(sh|toml)\n(.*?)^```$", re.MULTILINE | re.DOTALL)


# How a line of a document ends that is printed on standard error.
OF_ERROR = re.compile(r" +# on standard error$")


class Printed(NamedTuple):
    """What a command prints on standard output and on standard error."""

    output: str
    error: str

    def __str__(self):
        return self.output + "".join(f"{line}  # on standard error\n" for line in self.error.splitlines())


def examples_of(block):
    """The commands of a block, each with what it is to print."""
    parts = re.split(r"^\$ (.*)\n", block, flags=re.MULTILINE)[1:]
    for command, text in zip(parts[::2], parts[1::2]):
        lines = text.splitlines(keepends=True)
        told = [line for line in lines if OF_ERROR.search(line)]
        yield command, Printed("".join(line for line in lines if line not in told), "".join(OF_ERROR.sub("", line) for line in told))


def prints(command, folder):
    """What a command prints in this folder. Where it takes too long all that it started is killed."""
    with subprocess.Popen(
        ["sh", "-c", command],
        cwd=folder,
        stdin=subprocess.DEVNULL,
        stdout=subprocess.PIPE,
        stderr=subprocess.PIPE,
        start_new_session=True,
    ) as running:
        try:
            texts = running.communicate(timeout=SECONDS)
        except subprocess.TimeoutExpired:
            os.killpg(running.pid, signal.SIGKILL)
            raise
    return Printed(*(text.decode("utf-8", "replace") for text in texts))


def differs(command, wanted, folder):
    """What differs of an example, or None."""
    try:
        printed = prints(command, folder)
    except subprocess.TimeoutExpired:
        return f"doesn't end in {SECONDS} s"
    return None if printed == wanted else f"is to print\n{wanted}and printed\n{printed}"


def outcomes(document):
    """Of each example of a document what differs, or None."""
    found = []
    with tempfile.TemporaryDirectory() as folder:
        pathlib.Path(folder, "streams").symlink_to(PROGRAM)
        pathlib.Path(folder, "examples").symlink_to(ROOT / "examples")
        for kind, block in BLOCK.findall(document.read_text()):
            if kind == "toml":
                pathlib.Path(folder, "plan.toml").write_text(block)
                continue
            for command, wanted in examples_of(block):
                what = differs(command, wanted, folder)
                found.append(what and f"{document.name}: $ {command}\n{what}")
    return found


def all_documents():
    return [ROOT / "README.md", *sorted((ROOT / "docs").glob("*.md"))]
