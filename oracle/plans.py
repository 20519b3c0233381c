"""How a pipeline file is read: its plan, or the number of its refusal."""

from __future__ import annotations

import tomllib
from dataclasses import dataclass

from kinds import KINDS, is_cut_by_stages, is_integer

MOST_BYTES = 1_048_576
MOST_STAGES, MOST_WORKERS, MOST_HEX = 16, 8, 4
MOST_OUTPUT = 2 ** 40


class Refused(Exception):
    """The file is refused with this number."""

    def __init__(self, number: int) -> None:
        super().__init__(number)
        self.number = number


@dataclass(frozen=True)
class Stage:
    """A stage; `argument` is its number or its key, and None where it has neither."""

    kind: str
    argument: int | bytes | None
    worker: int


@dataclass(frozen=True)
class Plan:
    workers: int
    abort_after: int | None
    max_input: int
    stages: tuple[Stage, ...]


def each_integer_fits(value: object) -> bool:
    """Whether each integer in a value of TOML has 64 bits."""
    if isinstance(value, dict):
        return all(each_integer_fits(one) for one in value.values())
    if isinstance(value, list):
        return all(each_integer_fits(one) for one in value)
    return not is_integer(value) or -(2 ** 63) <= value < 2 ** 63


def table_of(text: bytes) -> dict:
    """The table of a file, or 8 or 9."""
    if len(text) > MOST_BYTES:
        raise Refused(8)
    try:
        table = tomllib.loads(text.decode("utf-8"))
    except ValueError as error:
        raise Refused(9) from error
    if not each_integer_fits(table):
        raise Refused(9)
    return table


def argument_of(table: dict) -> int | bytes | None:
    """What a stage has beside its kind, or 10."""
    wanted = KINDS[table["kind"]].argument
    argument = wanted.value_in(table) if wanted else None
    if wanted and argument is None:
        raise Refused(10)
    if not set(table) <= {"kind", "worker", *([wanted.key] if wanted else [])}:
        raise Refused(10)
    return argument


def check_types(table: dict) -> None:
    """Refuses 10, 12 and 11, in their order."""
    if not is_integer(table.get("version")):
        raise Refused(10)
    if table["version"] != 1:
        raise Refused(12)
    if not set(table) <= {"version", "workers", "abort_after", "max_input", "stage"}:
        raise Refused(10)
    if not all(is_integer(table.get(key, 0)) for key in ("workers", "abort_after", "max_input")):
        raise Refused(10)
    stages = table.get("stage", [])
    if not isinstance(stages, list) or not all(isinstance(stage, dict) for stage in stages):
        raise Refused(10)
    for stage in stages:
        if not isinstance(stage.get("kind"), str):
            raise Refused(10)
        if stage["kind"] not in KINDS:
            raise Refused(11)
        argument_of(stage)
        if not is_integer(stage.get("worker", 0)):
            raise Refused(10)


def placed(table: dict) -> tuple[Stage, ...]:
    """The stages, each with its worker or that of the one before."""
    worker = 1 if table.get("workers", 0) >= 1 else 0
    stages = []
    for stage in table.get("stage", []):
        worker = stage.get("worker", worker)
        stages.append(Stage(stage["kind"], argument_of(stage), worker))
    return tuple(stages)


def is_in_range(plan: Plan) -> bool:
    """Whether each number of a plan is in its range."""
    if plan.workers < 0 or not 0 <= plan.max_input <= MOST_OUTPUT:
        return False
    if plan.abort_after is not None and not 1 <= plan.abort_after <= MOST_OUTPUT:
        return False
    for stage in plan.stages:
        wanted = KINDS[stage.kind].argument
        if wanted and not wanted.is_in_range(stage.argument):
            return False
        if not (1 <= stage.worker <= plan.workers if plan.workers else stage.worker == 0):
            return False
    return True


def sees_the_cutting(stages: tuple[Stage, ...]) -> bool:
    """Whether a stage would see how the input was cut."""
    is_cut = False
    for stage in stages:
        kind = KINDS[stage.kind]
        if kind.sees_chunks and not is_cut:
            return True
        is_cut = is_cut_by_stages(kind, is_cut)
    return False


def read_plan(text: bytes) -> Plan:
    """The plan of a file, or its refusal."""
    table = table_of(text)
    check_types(table)
    stages = placed(table)
    plan = Plan(table.get("workers", 0), table.get("abort_after"), table.get("max_input", MOST_OUTPUT),
                stages)
    workers = [stage.worker for stage in stages]
    refusals = (
        (1, len(stages) > MOST_STAGES),
        (2, not is_in_range(plan)),
        (7, sum(stage.kind == "hex" for stage in stages) > MOST_HEX),
        (3, sees_the_cutting(stages)),
        (4, plan.workers > MOST_WORKERS),
        (6, workers != sorted(workers)),
        (5, len(set(workers) - {0}) < plan.workers),
    )
    for number, is_so in refusals:
        if is_so:
            raise Refused(number)
    return plan


def text_of_plan(plan: Plan) -> str:
    """What `check` prints of a plan."""
    first = f"plan 1 workers {plan.workers} max_input {plan.max_input}"
    if plan.abort_after is not None:
        first += f" abort_after {plan.abort_after}"
    lines = [first]
    for index, stage in enumerate(plan.stages, 1):
        argument = "" if stage.argument is None else f" {stage.argument}"
        if isinstance(stage.argument, bytes):
            argument = f" {stage.argument.hex()}"
        lines.append(f"stage {index} {stage.kind}{argument} worker {stage.worker}")
    return "".join(f"{line}\n" for line in lines)
