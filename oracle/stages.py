"""What the stages of a pipeline make of bytes."""

from __future__ import annotations

from dataclasses import dataclass

from kinds import KINDS
from plans import Plan


@dataclass(frozen=True)
class Result:
    """What comes out of a pipeline, joined, and of each stage that is bad its number, code and place."""

    output: bytes
    bads: list[tuple[int, int, int]]


def result_of(plan: Plan, text: bytes) -> Result:
    """What comes of an input. What follows a stage that is bad gets what came out before, and no end."""
    chunks, ended, bads = [text] if text else [], len(text) <= plan.max_input, []
    for index, stage in enumerate(plan.stages, 1):
        made = KINDS[stage.kind].make(chunks, stage.argument, ended)
        chunks = made.chunks
        if made.bad:
            bads.append((index, *made.bad))
            ended = False
    return Result(b"".join(chunks), bads)
