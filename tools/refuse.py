#!/usr/bin/env python3
"""Refuses each call of the program in turn by which it asks the system for something: python3 tools/refuse.py

Over some scripts and pipelines of cases/ the first allocation is refused, then the second, and so on until a run ends
in which none was left to refuse; then each together with all behind it; then each read, write, opening of a file and
start of a thread. Reads and writes are also interrupted in turn, or move a single byte. Whatever is refused, the
program has to end as it does elsewhere or with the status that this refusal has, with its text; and what it wrote has
to be a first part of what it writes elsewhere, with 0 all of it. The end of the output is a write here: the system has
no other.

It prints a line for each run that doesn't, and how many places were tried; and a line for each kind of call of which
none was refused, as it is with a program into which no library is loaded. It needs a C compiler (CC, or cc). The
program is the one that STREAMS of the environment names, or else that which was built last."""
import os
import subprocess
import sys
import tempfile
from collections import Counter
from pathlib import Path
from typing import NamedTuple

ROOT = Path(__file__).resolve().parent.parent
CASES = ROOT / "cases"
PROGRAM = Path(os.environ.get("STREAMS") or ROOT / "crates" / "streams" / "out" / "streams").resolve()
SECONDS = 60
INPUT, OUTPUT = 0, 1

TEXTS = {0: b"", 4: b"read fault\n", 5: b"write fault\n", 7: b"no memory\n", 9: b"load fault\n"}


class Job(NamedTuple):
    """A call by its words, its input, and what it prints where nothing is refused."""

    name: str
    words: list
    given: bytes
    printed: bytes


class Refusal(NamedTuple):
    """What is refused, whether all behind it is too, and the statuses to which it may lead, by its file."""

    which: str
    is_on: bool
    statuses: object

    def name(self):
        return f"each {self.which}{' and all behind it' if self.is_on else ''}"


def of_read(file):
    return {4} if file == INPUT else {9}


def of_write(file):
    return {5} if file == OUTPUT else {0}


REFUSALS = [
    Refusal("allocation", False, lambda _: {0, 7}),
    Refusal("allocation", True, lambda _: {0, 7}),
    Refusal("read", False, of_read),
    Refusal("read", True, of_read),
    Refusal("write", False, of_write),
    Refusal("write", True, of_write),
    Refusal("open", False, lambda _: {9}),
    Refusal("thread", False, lambda _: {0}),
    Refusal("thread", True, lambda _: {0}),
    Refusal("interrupted read", False, lambda _: {0}),
    Refusal("interrupted read", True, of_read),
    Refusal("interrupted write", False, lambda _: {0}),
    Refusal("interrupted write", True, of_write),
    Refusal("interrupted open", False, lambda _: {0}),
    Refusal("short read", False, lambda _: {0}),
    Refusal("short read", True, lambda _: {0}),
    Refusal("short write", False, lambda _: {0}),
    Refusal("short write", True, lambda _: {0}),
]


def script(name):
    path = CASES / "scripts" / f"{name}.script"
    return Job(name, ["script"], path.read_bytes(), path.with_suffix(".out").read_bytes())


def pipeline(name):
    path = CASES / "pipelines" / f"{name}.toml"
    given, printed = (path.with_suffix(suffix).read_bytes() for suffix in (".in", ".out"))
    return Job(f"run {name}", ["run", path], given, printed)


def generation(name):
    path = CASES / "generated" / f"{name}.toml"
    words = ["gen", *path.with_suffix(".words").read_text().split(), path]
    return Job(f"gen {name}", words, b"", path.with_suffix(".out").read_bytes())


def check(name):
    path = CASES / "plans" / "accepted" / f"{name}.toml"
    return Job(f"check {name}", ["check", path], b"", path.with_suffix(".out").read_bytes())


def jobs():
    return [
        script("readable/read_before_enqueue"),
        script("bytes/whole_elements_only"),
        script("tee_cancels/both_are_cancelled"),
        pipeline("workers/log"),
        check("lines_number_on_two_workers"),
        generation("summary"),
        generation("summary_of_unhex"),
    ]


def library(folder):
    """The library that refuses, built into a folder."""
    made = Path(folder, "refuse.so")
    source = Path(__file__).with_name("refuse.c")
    words = [os.environ.get("CC") or "cc", "-O2", "-shared", "-fPIC", "-o", made, source]
    subprocess.run(words, check=True)
    return made


def run(job, made, refusal, number):
    """How a run ends of which the call of this number is refused, or None where it doesn't, and the files of the calls
    that were."""
    reader, writer = os.pipe()
    environment = {
        "LD_PRELOAD": str(made),
        "REFUSE_WHICH": refusal.which,
        "REFUSE_AT": str(number),
        "REFUSE_ON": str(int(refusal.is_on)),
        "REFUSE_FD": str(writer),
    }
    with open(reader, "rb") as refused:
        try:
            done = subprocess.run(
                [PROGRAM, *job.words],
                input=job.given,
                capture_output=True,
                env=environment,
                pass_fds=[writer],
                timeout=SECONDS,
            )
        except subprocess.TimeoutExpired:
            done = None
        finally:
            os.close(writer)
        return done, refused.read()


def fault(job, refusal, done, refused):
    """What is wrong with a run, or None."""
    if not done:
        return f"it doesn't end in {SECONDS} s"
    allowed = refusal.statuses(refused[0]) if refused else {0}
    status, wrote, told = done.returncode, done.stdout, done.stderr
    if status not in allowed:
        return f"the status is {status}, and is to be of {sorted(allowed)}; {told!r:.200}"
    if not job.printed.startswith(wrote) or (status == 0 and wrote != job.printed):
        return f"with {status} it wrote {wrote!r:.200}"
    if told != TEXTS[status] and not (refusal.which.endswith("write") and TEXTS[status].startswith(told)):
        return f"with {status} it told {told!r:.200}"
    return None


def tried(job, made, refusal):
    """Refuses each call in turn. Tells how many there were, the statuses, and what was wrong."""
    statuses, faults, number = Counter(), [], 0
    while True:
        number += 1
        done, refused = run(job, made, refusal, number)
        wrong = fault(job, refusal, done, refused)
        if wrong:
            faults.append(f"{job.name}: {refusal.name()}: number {number}: {wrong}")
        # (one that doesn't end would take as long at each further number)
        if not refused or not done:
            return number - 1, statuses, faults
        statuses[done.returncode] += 1


def main():
    if not os.access(PROGRAM, os.X_OK):
        print(f"refuse: {PROGRAM} isn't built")
        return 1
    places, runs, faults = Counter(), Counter(), []
    with tempfile.TemporaryDirectory() as folder:
        made = library(folder)
        for job in jobs():
            for refusal in REFUSALS:
                count, statuses, wrong = tried(job, made, refusal)
                places[refusal.name()] += count
                runs, faults = runs + statuses, faults + wrong
                if count:
                    ends = ", ".join(f"{times} with {status}" for status, times in sorted(statuses.items()))
                    print(f"{job.name}: {refusal.name()}: {count} places; {ends}", flush=True)
                print(*wrong, sep="\n", end="\n" if wrong else "", flush=True)
    missing = [name for name, count in places.items() if not count]
    print(*(f"{name}: none was refused in any run" for name in missing), sep="\n", end="\n" if missing else "")
    ends = ", ".join(f"{times} with {status}" for status, times in sorted(runs.items()))
    print(f"refuse: {places.total()} places; {ends}; {len(faults)} runs were wrong")
    return 1 if faults or missing else 0


if __name__ == "__main__":
    sys.exit(main())
