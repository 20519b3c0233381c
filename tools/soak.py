#!/usr/bin/env python3
"""Runs random pipelines on 0 to 8 workers beside each other, and compares each run with one of the same stages on no
worker and with what oracle/ says of them: python3 tools/soak.py

Each pipeline is run once without workers and several times with them. A run that ends with 0 has to write all that the
stages make, as that without workers does; where the plan and its input have one cause to end badly both tell that one;
where they have several, which of them is told may differ, and then the output is a first part of what the stages make.
Half of the runs with workers are traced, and each trace has to keep the rules of edges.

The last line says how many pipelines and runs there were. The exit status is 1 where one differed; each that did is
printed with its number, by which --only runs it again."""
import argparse
import os
import sys
import tempfile
from collections import Counter
from concurrent.futures import ThreadPoolExecutor
from pathlib import Path
from random import Random
from typing import NamedTuple

ROOT = Path(__file__).resolve().parent.parent
sys.path.append(str(ROOT / "oracle"))

from picture import text as traces
from pipelines import LONGEST_RUN, difference, outcome_of
from pipelines_made import (
    LENGTHS, file_of, random_input, random_kinds, stage_keys, with_ends, with_workers, without_workers,
)
from plans import Plan, Refused, read_plan
from stages import Result, result_of

PROGRAM = Path(os.environ.get("STREAMS") or ROOT / "crates" / "streams" / "out" / "streams").resolve()
MOST_OF_A_READ = 4096
SHOWN = 400
# How many of the pipelines with a bad stage are taken.
MOST_BAD = 0.15


class Soaked(NamedTuple):
    """A pipeline: what differed of its runs, how often it was run, and the statuses of the runs with workers."""

    differs: list
    runs: int
    statuses: Counter


class Pipeline(NamedTuple):
    """A plan that isn't refused, its file, the same without workers, an input, and what the stages make of it."""

    plan: Plan
    file: bytes
    alone: bytes
    text: bytes
    result: Result

    def has_enough(self):
        """Whether the run is to be aborted, if it gets so far."""
        return self.plan.abort_after is not None and len(self.result.output) >= self.plan.abort_after

    def is_long(self):
        return len(self.text) > self.plan.max_input

    def may_differ(self):
        """Whether it is for the order of the nodes' turns to say how a run ends: where there are several causes to end
        badly, and where a run may have come to its end before it is aborted."""
        return self.has_enough() or len(self.result.bads) + self.is_long() > 1


def random_pipeline(random):
    """A pipeline on 0 to 8 workers. Of those of which a stage is bad over the input only some are taken."""
    workers, length = random.randint(0, 8), random.choice(LENGTHS)
    while True:
        stages = [stage_keys(random, kind) for kind in random_kinds(random)]
        if len(stages) < workers:
            continue
        keys = {"version": "1"}
        with_workers(random, keys, stages, workers)
        with_ends(random, keys, length)
        file, alone = file_of(random, keys, stages), file_of(random, *without_workers(keys, stages))
        try:
            plan = read_plan(file)
        except Refused:
            continue
        text = random_input(random, plan, length)
        result = result_of(plan, text)
        if not result.bads or random.random() < MOST_BAD:
            return Pipeline(plan, file, alone, text, result)


def through(plan, worker, text):
    """The joined output of the stages up to those of a worker."""
    stages = tuple(stage for stage in plan.stages if stage.worker <= worker)
    return result_of(Plan(0, None, plan.max_input, stages), text).output


def fault_of_trace(pipeline, status, output, notes):
    """What is wrong with a trace of which nothing but the text of the status is cut off."""
    try:
        trace = traces.read(notes)
    except traces.NotATrace as why:
        return f"trace: {why}"
    plan, text = pipeline.plan, pipeline.text
    sizes = [[traces.bytes_of(mark) for mark in edge.down.marks if mark[1:].isdigit()] for edge in trace.edges]
    if len(trace.edges) != plan.workers + 1:
        return f"trace: {len(trace.edges)} edges"
    if sum(sizes[0]) > len(text) or not all(0 < size <= MOST_OF_A_READ for size in sizes[0]):
        return f"trace: edge 1 has chunks that no read gives: {sizes[0]}"
    if sum(sizes[-1][: trace.edges[-1].down.taken]) < len(output):
        return "trace: more was written than came over the last edge"
    if status == 0:
        for worker, edge in enumerate(trace.edges):
            if edge.down.marks[-1:] != ["close"] or edge.down.taken != len(edge.down.marks):
                return f"trace: edge {worker + 1} doesn't end with a close that was taken"
            if sum(sizes[worker]) != len(through(plan, worker, text)):
                return f"trace: the chunks of edge {worker + 1} have {sum(sizes[worker])} bytes"
    return None


def without_trace(notes):
    return "".join(line for line in notes.splitlines(keepends=True) if not line.startswith("edge "))


def soaked(options, index, folder):
    """The runs of one pipeline."""
    random = Random(f"{options.seed} soak {index}")
    pipeline = random_pipeline(random)
    plan = pipeline.plan
    paths = [folder / f"{index}.toml", folder / f"{index}.alone.toml"]
    for path, file in zip(paths, (pipeline.file, pipeline.alone)):
        path.write_bytes(file)

    def run(path, traced):
        words = [str(options.program), "run", *(["--trace"] if traced else []), str(path)]
        status, output, notes = outcome_of(words, random, pipeline.text, options.seconds)
        wrong = difference(plan, pipeline.text, pipeline.result, (status, output, without_trace(notes)))
        if traced and not wrong and plan.workers:
            wrong = fault_of_trace(pipeline, status, output, notes)
        return wrong, (status, output, without_trace(notes))

    wrong, alone = run(paths[1], False)
    differs, statuses = [f"without workers: {wrong}"] if wrong else [], Counter()
    for _ in range(options.times):
        wrong, ended = run(paths[0], random.random() < 0.5)
        statuses[ended[0]] += 1
        if not wrong and not pipeline.may_differ() and (ended[0], ended[2]) != (alone[0], alone[2]):
            wrong = f"status {ended[0]} with {ended[2]!r}; without workers {alone[0]} with {alone[2]!r}"
        if wrong:
            differs.append(f"with workers = {plan.workers}: {wrong}")
    for path in paths:
        path.unlink()
    return Soaked([told(options, index, pipeline, wrong) for wrong in differs], 1 + options.times, statuses)


def told(options, index, pipeline, wrong):
    text = pipeline.text
    shown = f"{text[:SHOWN]!r}" + (" .." if len(text) > SHOWN else "")
    return (
        f"pipeline {index} of seed {options.seed} differs {wrong}\n"
        f"again: python3 tools/soak.py --seed {options.seed} --only {index}\n"
        f"--- file\n{pipeline.file.decode()}--- input, {len(text)} bytes\n{shown}\n"
    )


def arguments():
    parser = argparse.ArgumentParser(description="Compares runs on workers with runs of the same stages on none.")
    parser.add_argument("--count", type=int, default=1000, help="how many pipelines (default 1000)")
    parser.add_argument("--seed", type=int, default=0, help="gives the pipelines (default 0)")
    parser.add_argument("--only", type=int, help="runs the pipeline of this number alone")
    parser.add_argument("--times", type=int, default=3, help="how often each is run with its workers (default 3)")
    parser.add_argument("--beside", type=int, default=os.cpu_count(), help="how many run beside each other")
    parser.add_argument("--seconds", type=float, default=LONGEST_RUN, help="how long a run may take (default 60)")
    parser.add_argument("--program", type=Path, default=PROGRAM, help="the program's file")
    return parser.parse_args()


def main():
    options = arguments()
    if not os.access(options.program, os.X_OK):
        print(f"soak: {options.program} isn't built")
        return 1
    indices = range(options.count) if options.only is None else [options.only]
    with tempfile.TemporaryDirectory() as folder, ThreadPoolExecutor(options.beside) as pool:
        bad, runs, statuses = 0, 0, Counter()
        for one in pool.map(lambda index: soaked(options, index, Path(folder)), indices):
            print(*one.differs, sep="\n", end="", flush=True)
            bad, runs, statuses = bad + bool(one.differs), runs + one.runs, statuses + one.statuses
    shown = ", ".join(f"{count} with {status}" for status, count in sorted(statuses.items()))
    print(f"{len(indices)} pipelines, {bad} differ; {runs} runs, of those with workers (half of them traced) {shown}")
    return 1 if bad else 0


if __name__ == "__main__":
    sys.exit(main())
