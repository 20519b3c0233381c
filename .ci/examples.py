#!/usr/bin/env python3
"""Runs the examples of README.md, docs/ and examples/ and the cases of cases/ with the program that is built.

In a document's block of `sh`, a line that begins with `$ ` is a command, and the lines below it are what it prints: on
standard error those that end with `# on standard error`, on standard output the others. The two are compared apart. A block
of `toml` is the file plan.toml for the commands below it. cases/README.md tells of the cases. The program is the one that STREAMS of the environment names, or else that which the gate built."""
import os
import subprocess
import sys
import traceback
from concurrent.futures import ThreadPoolExecutor

from cases import NotWanted, all_cases, strays
from documents import all_documents, outcomes
from hostile import hostile_cases
from hostile_made import hostile_made
from made_cases import made_cases
from program import PROGRAM
from worker_cases import worker_cases


def outcome(case):
    """What differs of a case, or None."""
    try:
        differs = case.differs()
    except (NotWanted, subprocess.TimeoutExpired) as why:
        differs = str(why)
    except Exception:
        # (so the others are told as well)
        differs = traceback.format_exc()
    return differs and f"{case.name}: {differs}"


def outcomes_of(document):
    """Of each example of a document what differs, or None."""
    try:
        return outcomes(document)
    except Exception:
        return [f"{document.name}: {traceback.format_exc()}"]


def main():
    if not os.access(PROGRAM, os.X_OK):
        print(f"examples: {PROGRAM} isn't built")
        return 1
    try:
        cases = [*all_cases(), *made_cases(), *worker_cases(), *hostile_cases(), *hostile_made()]
    except NotWanted as why:
        print(f"examples: {why}")
        return 1
    with ThreadPoolExecutor(os.cpu_count()) as pool:
        of_documents = pool.map(outcomes_of, all_documents())
        of_cases = pool.map(outcome, cases)
        found = [*sum(of_documents, []), *of_cases]
    found += [f"{path}: this file belongs to no case" for path in strays(cases)]
    failures = [text for text in found if text]
    print(*failures, f"examples: {len(found) - len(failures)} passed, {len(failures)} failed", sep="\n")
    return 1 if failures else 0


if __name__ == "__main__":
    sys.exit(main())
