"""Compares `check FILE` and `run FILE` with what stages make of random inputs: python3 oracle/pipelines.py

Stops at the first pipeline on which they differ, and prints its file, its input and the outcome.
The last line says how many pipelines agreed. The exit status is 1 where one didn't.
"""

from __future__ import annotations

import argparse
import subprocess
import sys
import tempfile
import time
from collections import Counter
from pathlib import Path
from random import Random
from threading import Event, Timer

from pipelines_made import LENGTHS, random_file, random_input
from plans import Plan, Refused, read_plan, text_of_plan
from stages import Result, result_of

PROGRAM = Path(__file__).resolve().parent.parent / "crates" / "streams" / "out" / "streams"
LONGEST_RUN = 60
MOST_BEHIND_ABORT = 2 ** 25


def outcome_of(words: list[str], random: Random, text: bytes, seconds: float = LONGEST_RUN) -> tuple[int, bytes, str]:
    """Status, output and notes of the program. Some inputs come from a file, and some by a pipe in pieces. The status
    is -1 where it doesn't end in so many seconds."""
    with (tempfile.TemporaryFile() as given, tempfile.TemporaryFile() as output,
          tempfile.TemporaryFile() as notes):
        in_pieces = random.random() < 0.3
        given.write(text)
        given.seek(0)
        process = subprocess.Popen(words, stdin=subprocess.PIPE if in_pieces else given, stdout=output,
                                   stderr=notes, bufsize=0)
        too_long = Event()
        watch = Timer(seconds, lambda: (too_long.set(), process.kill()))
        watch.start()
        try:
            if in_pieces:
                feed(random, process, text)
            status = process.wait()
        finally:
            watch.cancel()
        if too_long.is_set():
            return -1, b"", f"no end in {seconds:g} seconds\n"
        output.seek(0)
        notes.seek(0)
        return status, output.read(), notes.read().decode("latin-1")


def feed(random: Random, process: subprocess.Popen, text: bytes) -> None:
    """Writes an input in pieces, with a rest after some of them."""
    most, start = random.choice((1, 100, 5_000, 70_000)), 0
    most = max(most, len(text) // 50)
    try:
        while start < len(text):
            start += process.stdin.write(text[start:start + random.randint(1, most)])
            if random.random() < 0.1:
                time.sleep(0.0005)
        process.stdin.close()
    except BrokenPipeError:
        pass


def difference(plan: Plan, text: bytes, result: Result, outcome: tuple[int, bytes, str]) -> str | None:
    """What is wrong with how a run ended, where something is."""
    status, output, notes = outcome
    is_long = len(text) > plan.max_input
    has_enough = plan.abort_after is not None and len(result.output) >= plan.abort_after
    texts = {
        0: [""] if not result.bads and not is_long else [],
        1: [f"stage {stage} code {code} place {place}\n" for stage, code, place in result.bads],
        6: ["aborted\n"] if has_enough else [],
        10: ["input too long\n"] if is_long else [],
    }
    if notes not in texts.get(status, []):
        return f"status {status} with {notes!r}; what may be is {texts}"
    if not result.output.startswith(output):
        return "the output isn't a first part of what the stages make"
    if status == 0 and output != result.output:
        return f"{len(output)} bytes of {len(result.output)} are written"
    if status == 6 and not plan.abort_after <= len(output) < plan.abort_after + MOST_BEHIND_ABORT:
        return f"aborted with {len(output)} bytes"
    return None


def compare(program: str, random: Random, folder: Path) -> tuple[str | None, int, bytes, bytes]:
    """Compares one pipeline: what differs, the status, the file and the input."""
    length = random.choice(LENGTHS)
    file = random_file(random, length)
    path = folder / "plan.toml"
    path.write_bytes(file)
    try:
        plan, wanted = read_plan(file), None
    except Refused as refused:
        plan, wanted = None, (3, b"", f"plan refused {refused.number}\n")
    text = random_input(random, plan, length)
    checked = outcome_of([program, "check", str(path)], random, b"")
    ran = outcome_of([program, "run", str(path)], random, text)
    if plan is None:
        wrong = None if checked == ran == wanted else f"{wanted} is wanted; check {checked}, run {ran}"
        return wrong, ran[0], file, text
    if checked != (0, text_of_plan(plan).encode(), ""):
        return f"check: {checked}", ran[0], file, text
    return difference(plan, text, result_of(plan, text), ran), ran[0], file, text


def arguments() -> argparse.Namespace:
    """The options of the command."""
    parser = argparse.ArgumentParser(description="Compares pipelines with what their stages make.")
    parser.add_argument("--seed", type=int, default=0, help="gives the pipelines (default 0)")
    parser.add_argument("--count", type=int, default=1000, help="how many (default 1000)")
    parser.add_argument("--program", default=str(PROGRAM), help="the program's file")
    return parser.parse_args()


def main() -> int:
    options = arguments()
    statuses: Counter[int] = Counter()
    with tempfile.TemporaryDirectory() as folder:
        for index in range(options.count):
            random = Random(f"{options.seed} {index}")
            wrong, status, file, text = compare(options.program, random, Path(folder))
            if wrong:
                print(f"pipeline {index} of seed {options.seed} differs: {wrong}\n--- file\n{file.decode()}")
                print(f"--- input, {len(text)} bytes\n{text[:2000]!r}")
                print(f"{index} pipelines agreed, and then one didn't")
                return 1
            statuses[status] += 1
    shown = ", ".join(f"{count} with {status}" for status, count in sorted(statuses.items()))
    print(f"{options.count} pipelines agreed, by status: {shown}")
    return 0


if __name__ == "__main__":
    sys.exit(main())
