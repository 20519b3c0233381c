#!/usr/bin/env python3
"""Measures the slowest scripts and pipeline files that are known, of 64 KiB, 256 KiB and 1 MiB: python3 bench/slow.py

Each is told with the processor seconds of the best of three calls, and by how much they grow from the shortest to the
longest: 16 times as long a text may take 20 times as long by n log n. Words name some of the texts. Rings of pipes are
measured by some lines, since each line has the 100,000 jobs that a line may have at most; and a chunk that is printed
for each read by short scripts, since what is printed grows as the square. Told is also the most memory of the longest.

The exit status is 1 where one grows faster, and where one doesn't end as it is to: each script with 0, and each pipeline
file refused by its number; one of them takes 3.3 GiB of memory. The program is the one that STREAMS of the environment names, or else that which the gate
built."""
import os
import subprocess
import sys
import tempfile
from pathlib import Path
from typing import NamedTuple

ROOT = Path(__file__).resolve().parent.parent
PROGRAM = os.environ.get("STREAMS") or ROOT / "crates" / "streams" / "out" / "streams"
LENGTHS = (1 << 16, 1 << 18, 1 << 20)
PRINTED = (1 << 15, 1 << 16, 1 << 17)
TURNS = 3
# 16 times 20 / 16, and a quarter more, since the machine is never quiet.
MOST_GROWTH = 25
# What takes less isn't told apart from how long a process takes to begin.
LEAST_SECONDS = 0.05
ENDS_FINE = 0, b""


def again(first, line, length, last=""):
    """A line again and again."""
    return first + line * ((length - len(first) - len(last)) // len(line)) + last


def counted(first, line, length, last=""):
    """Lines by their numbers."""
    lines, size, number = [], len(first) + len(last), 0
    while size + len(line(number)) <= length:
        lines.append(line(number))
        size += len(lines[-1])
        number += 1
    return first + "".join(lines) + last


def both(first, one, other, length):
    """As many lines of one kind as of another behind them."""
    count = (length - len(first)) // (len(one) + len(other))
    return first + one * count + other * count


def chain(transforms):
    """Transform streams, each piped into the next."""
    pipes = "".join(f"pipe s{2 * n + 1} s{2 * n + 2}\n" for n in range(transforms - 1))
    ends = f"writer s0\nreader s{2 * transforms - 1}\n"
    return "transform identity 1 1 now\n" * transforms + pipes + ends


READER = "readable 0 count now\nreader s0\n"
BYOB = "bytes 0 0 now\nbyob s0\n"
RING = "transform identity 1 1 now\nenqueue s1 n1\n@0 pipe s1 s0\n"
RING_OF_A_TEE = "transform identity 1 1 now\ntee s1\ncancel s3 e1\nenqueue s1 n1\n@0 pipe s2 s0\n"

SCRIPTS = {
    "step": lambda n: again("", "step\n", n),
    "signal": lambda n: again("", "signal\n", n),
    "reads that wait, and an error": lambda n: again(READER, "read l0\n", n, "fail s0 e1\n"),
    "reads that wait, and chunks": lambda n: both(READER, "read l0\n", "enqueue s0 n1\n", n),
    "chunks, and state": lambda n: both(READER, "enqueue s0 n1\n", "state s0\n", n),
    "writes that wait, and an abort": lambda n: again(
        "writable 0 count now\nwriter s0\n", "write l0 n1\n", n, "abort l0 e1\nsettle h0 ok\nsettle h1 ok\n"
    ),
    "a write, and its settling": lambda n: counted(
        "writable 1 count now\nwriter s0\n", lambda k: f"write l0 n1\nsettle h{k} ok\n", n
    ),
    "readers that come and go": lambda n: counted("readable 0 count now\n", lambda k: f"reader s0\nrelease l{k}\n", n),
    "reads of a port, and an error": lambda n: again(
        "open readable\nreader s0\n", "read l0\n", n, "deliver c0 error e1\n"
    ),
    "rooms of a byte": lambda n: both(BYOB, "readinto l0 1 1\n", "enqueue s0 x00\n", n),
    "rooms that the controller allocates": lambda n: again("bytes 0 4096 now\nreader s0\n", "read l0\n", n),
    "rooms of 65,536 bytes": lambda n: again(BYOB, "readinto l0 65536 1\n", n),
    "a chain of 512 transform streams": lambda n: again(chain(512), "write l1022 n1\nread l1023\n", n),
}
# Of these so many lines of a `step` are measured.
RINGS = {"a ring of a transform stream": RING, "a ring of a tee": RING_OF_A_TEE}
STEPS = (50, 200, 800)


def printed_again(length):
    """Half of the script is a chunk, of which a tee in a ring makes as many as there are reads in the other half."""
    chunk = f"enqueue s1 x{'00' * (length // 4)}\n"
    first = f"transform identity 1 1 now\ntee s1\n{chunk}@0 pipe s2 s0\nreader s3\n"
    reads = length // 2 // len("@0 read l3\n")
    return first + "step\n" * (reads // 5000 + 1) + "@0 read l3\n" * reads

PLANS = {
    "keys": lambda n: counted("version = 1\n", lambda k: f"{k}=1\n", n),
    "keys with a dot": lambda n: counted("version = 1\n", lambda k: f"k{k}.a=1\n", n),
    "tables": lambda n: counted("version = 1\n", lambda k: f"[t{k}]\n", n),
    "stages": lambda n: again("version = 1\n", '[[stage]]\nkind="hex"\n', n),
    "numbers in a list": lambda n: again("a=[", "1,", n, "]\n"),
    "lists that are as deep as may be": lambda n: again("a=[", "[" * 79 + "]" * 79 + ",", n, "]\n"),
    "tables in braces that are as deep as may be": lambda n: again("a=[", "{a=" * 79 + "1" + "}" * 79 + ",", n, "]\n"),
    "keys with 79 dots in braces": lambda n: again("a=[", "{" + "a." * 79 + "a=1},", n, "]\n"),
}
# All are refused by 10, since their version or a key is missing or unknown, but for these.
OTHER_REFUSALS = {"stages": 1}


class Measured(NamedTuple):
    """The processor seconds of the best of some calls, the most memory of one, in MiB, and the status and the text on
    standard error with which they ended."""

    seconds: float
    mebibytes: int
    ends: set


def measured(words, given):
    seconds, mebibytes, ends = [], [], set()
    for _ in range(TURNS):
        given.seek(0)
        process = subprocess.Popen(words, stdin=given, stdout=subprocess.DEVNULL, stderr=subprocess.PIPE)
        with process.stderr:
            told = process.stderr.read()
        _, status, used = os.wait4(process.pid, 0)
        seconds.append(used.ru_utime + used.ru_stime)
        mebibytes.append(used.ru_maxrss // 1024)
        ends.add((os.waitstatus_to_exitcode(status), told))
    return Measured(min(seconds), max(mebibytes), ends)


def of_text(text, command):
    with tempfile.NamedTemporaryFile() as file:
        file.write(text.encode())
        file.flush()
        return measured([PROGRAM, command, *([file.name] if command == "check" else [])], file)


def told(name, lengths, found):
    """Prints a row, and tells whether it grows too fast."""
    growth = found[-1].seconds / max(found[0].seconds, 1e-3)
    shown = " | ".join(f"{one.seconds:.3f} s" for one in found)
    print(f"| {name}, {lengths} | {shown} | {growth:.1f} | {found[-1].mebibytes} MiB |", flush=True)
    return growth > MOST_GROWTH and found[-1].seconds > LEAST_SECONDS


def ends_otherwise(found, ends):
    """Prints how the calls ended that didn't end so, and tells whether there are any."""
    others = set().union(*(one.ends for one in found)) - {ends}
    if others:
        print(f"it is to end with {ends}, and ended with {others}", flush=True)
    return bool(others)


def main(words):
    def is_asked(name):
        return not words or any(word in name for word in words)

    wrong = []
    for command, texts in (("script", SCRIPTS), ("check", PLANS)):
        for name, make in texts.items():
            if is_asked(name):
                found = [of_text(make(length), command) for length in LENGTHS]
                refused = 3, b"plan refused %d\n" % OTHER_REFUSALS.get(name, 10)
                wrong.append(told(f"{command}: {name}", "64 KiB to 1 MiB", found))
                wrong.append(ends_otherwise(found, refused if command == "check" else ENDS_FINE))
    if is_asked("printed"):
        found = [of_text(printed_again(length), "script") for length in PRINTED]
        told("script: a chunk that is printed for each read", "32 to 128 KiB", found)
        wrong.append(ends_otherwise(found, ENDS_FINE))
    for name, ring in RINGS.items():
        if is_asked(name):
            found = [of_text(ring + "step\n" * count, "script") for count in STEPS]
            wrong.append(told(f"script: {name}", "50 to 800 lines", found))
            wrong.append(ends_otherwise(found, ENDS_FINE))
    return 1 if any(wrong) else 0


if __name__ == "__main__":
    sys.exit(main(sys.argv[1:]))
