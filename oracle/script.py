"""Performs a script as `streams script` does: python3 oracle/script.py < file"""

from __future__ import annotations

import sys
from dataclasses import dataclass

from calls import perform
from language import Refused, Task, tasks_in
from printing import text_of_event, text_of_reply
from realm import Realm


@dataclass
class Outcome:
    """How a script ended: the exit status, and what it wrote to its output and as its notes."""

    status: int
    output: str
    notes: str


def perform_task(realm: Realm, task: Task) -> list[str]:
    """Performs a call, and then jobs until none is queued or the limit is met. Answers the
    lines that it prints."""
    reply = perform(realm, task.call, task.arguments)
    for _ in range(task.most_jobs):
        if len(realm.jobs) == 0:
            break
        realm.jobs.run_one()
    lines = [f"{task.line} {text_of_reply(reply)}"]
    lines += [f"  {text_of_event(event)}" for event in realm.take_events()]
    if len(realm.jobs) > 0:
        lines.append("  again")
    return lines


def perform_script(script: bytes) -> Outcome:
    """Performs a script whole, in a realm of its own."""
    try:
        tasks = tasks_in(script)
    except Refused as refused:
        return Outcome(8, "", f"{refused}\n")
    realm = Realm()
    lines = [line for task in tasks for line in perform_task(realm, task)]
    return Outcome(0, "".join(f"{line}\n" for line in lines), "")


def main() -> int:
    script = sys.stdin.buffer.read()
    try:
        outcome = perform_script(script)
    except AssertionError:
        sys.stderr.write(f"an assertion fails in this script:\n{script.decode('latin-1')}\n")
        raise
    sys.stdout.write(outcome.output)
    sys.stderr.write(outcome.notes)
    return outcome.status


if __name__ == "__main__":
    sys.exit(main())
