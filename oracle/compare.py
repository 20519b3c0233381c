"""Compares the program with the oracle on random scripts: python3 oracle/compare.py

Stops at the first script on which they differ, shortens it and prints it with both outcomes.
The last line says how many scripts agreed. The exit status is 1 where one didn't.

With folders it compares the oracle with texts instead, and needs no program: each NAME.script of
a folder has to print what is in NAME.out. It goes on where one differs.
"""

from __future__ import annotations

import argparse
import subprocess
import sys
import traceback
from itertools import zip_longest
from pathlib import Path
from random import Random

from generate import crowded_script, random_script
from mutate import mutated_script
from script import Outcome, perform_script
from shorten import shortened

PROGRAM = Path(__file__).resolve().parent.parent / "crates" / "streams" / "out" / "streams"
LONGEST_RUN = 60


def program_outcome(program: str, script: bytes) -> Outcome:
    """How the program ends on a script."""
    try:
        run = subprocess.run([program, "script"], input=script, capture_output=True,
                             timeout=LONGEST_RUN, close_fds=False, check=False)
    except subprocess.TimeoutExpired:
        return Outcome(-1, "", f"no end in {LONGEST_RUN} seconds\n")
    return Outcome(run.returncode, run.stdout.decode("latin-1"), run.stderr.decode("latin-1"))


def oracle_outcome(script: bytes) -> Outcome:
    """How the oracle ends on a script. An assertion that fails is an outcome too."""
    try:
        return perform_script(script)
    except AssertionError as broken:
        place = traceback.extract_tb(broken.__traceback__)[-1]
        return Outcome(-1, "", f"an assertion fails in {place.name}: {place.line}\n")


def script_of(seed: int, index: int, most_lines: int, malformed: bool) -> bytes:
    """The script with this index of those that a seed gives."""
    random = Random(f"{seed} {index}")
    if malformed:
        return mutated_script(random, random_script(random, most_lines))
    if random.random() < 0.002:
        return crowded_script(random)
    return random_script(random, most_lines)


def compare_with_texts(folder: Path) -> bool:
    """Compares the oracle with the texts of a folder. Tells whether all agreed."""
    scripts = sorted(folder.glob("*.script"))
    differing = 0
    for path in scripts:
        wanted = Outcome(0, path.with_suffix(".out").read_text("latin-1"), "")
        script = path.read_bytes()
        outcome = oracle_outcome(script)
        if outcome != wanted:
            differing += 1
            print(f"{path} differs: {first_difference(wanted, outcome)}")
    print(f"{folder}: {len(scripts) - differing} of {len(scripts)} scripts agreed")
    return differing == 0


def first_difference(wanted: Outcome, outcome: Outcome) -> str:
    """The first lines in which two outcomes differ."""
    lines = zip_longest(*(text_of_outcome(one).splitlines() for one in (wanted, outcome)))
    for line, got in lines:
        if line != got:
            return f"{line!r} is wanted, and the oracle has {got!r}"
    return "by line ends alone"


def text_of_outcome(outcome: Outcome) -> str:
    """An outcome, as a difference shows it."""
    return f"{outcome.output}{outcome.notes}status {outcome.status}\n"


def text_of_difference(script: bytes, program: str) -> str:
    """A script on which the two differ, with both outcomes."""
    shown = script.decode("latin-1")
    return (f"--- script, as Python writes its bytes: {script!r}\n{shown}\n"
            f"--- the program\n{text_of_outcome(program_outcome(program, script))}"
            f"--- the oracle\n{text_of_outcome(oracle_outcome(script))}")


def arguments() -> argparse.Namespace:
    """The options of the command."""
    parser = argparse.ArgumentParser(description="Compares the program with the oracle.")
    parser.add_argument("--seed", type=int, default=0, help="gives the scripts (default 0)")
    parser.add_argument("--count", type=int, default=2000, help="how many (default 2000)")
    parser.add_argument("--lines", type=int, default=60, help="longest script (default 60)")
    parser.add_argument("--program", default=str(PROGRAM), help="the program's file")
    parser.add_argument("--malformed", action="store_true",
                        help="change the scripts' text, so that most are refused")
    parser.add_argument("folders", nargs="*", type=Path, metavar="FOLDER",
                        help="scripts and the texts that they print, for the oracle alone")
    return parser.parse_args()


def main() -> int:
    options = arguments()
    if options.folders:
        return 0 if all([compare_with_texts(folder) for folder in options.folders]) else 1

    def differs(script: bytes) -> bool:
        return program_outcome(options.program, script) != oracle_outcome(script)

    refused = 0
    for index in range(options.count):
        script = script_of(options.seed, index, options.lines, options.malformed)
        outcome = oracle_outcome(script)
        if outcome != program_outcome(options.program, script):
            print(f"script {index} of seed {options.seed} differs, shortened:")
            print(text_of_difference(shortened(script, differs), options.program))
            print(f"{index} scripts agreed, and then one didn't")
            return 1
        refused += outcome.status == 8
    print(f"{options.count} scripts agreed, of which {refused} were refused")
    return 0


if __name__ == "__main__":
    sys.exit(main())
