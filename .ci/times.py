#!/usr/bin/env python3
"""Measures what a run of the gate takes, by crate, and writes the table of docs/GATE.md. Nothing else may prove or compile meanwhile.

    .ci/times.py run SAMPLES COMMAND..     runs the command, as `rt ci` from nothing, and keeps the processor time of each process of the kit in the file SAMPLES
    .ci/times.py table SAMPLES..           writes the table of what these runs took together
    .ci/times.py functions CRATE           tells of which functions the proof takes longest, after `rt check --jobs 1` in a crate whose out/incremental was removed before"""
import collections
import json
import math
import os
import pathlib
import re
import subprocess
import sys
import threading
import time

ROOT = pathlib.Path(__file__).resolve().parent.parent
PAGE = ROOT / "docs" / "GATE.md"
TOOLS = ("rattle", "rattle-x64", "rattle-link", "rattle-test", "clang", "clang-14", "ld.lld")
ROW = re.compile(r"^\| (?!crate )[a-z]\w* \|.*\n", re.MULTILINE)
PROVED, ENDED = re.compile(r"logic=proved functions=(\d+)"), re.compile(r"rt: (\w+) proved$")
# What the kit keeps of a function: its path, and which part of its proof it is.
PART = re.compile(r"(?:proofs|specs)\.(?:contracts\.)?(.+)\.(Symbol|Code|Kinds|Layout|Lts|Reads|Named|Tie|Proof|Answers|Invariants)\b.*")
TICKS = os.sysconf("SC_CLK_TCK")


def sampled(seen):
    """Notes of each process of the kit the processor time that it has had so far."""
    for at in filter(str.isdigit, os.listdir("/proc")):
        try:
            words = pathlib.Path("/proc", at, "cmdline").read_bytes().decode(errors="replace").split("\0")
            tool = os.path.basename(words[0])
            if tool not in TOOLS:
                continue
            stat = pathlib.Path("/proc", at, "stat").read_text().rsplit(")", 1)[1].split()
            crate = words[words.index("--crate-name") + 1] if "--crate-name" in words else ""
            # An edit is checked in a folder of its own.
            kind = "edit" if "rt-edit" in os.readlink(f"/proc/{at}/cwd") else "proof"
            # (a number may come again, with another start)
            seen[f"{at} {stat[19]}"] = tool, crate, kind, (int(stat[11]) + int(stat[12])) / TICKS
        except (OSError, IndexError, ValueError):
            pass


def pass_on(running, functions):
    """Prints what the command prints, and notes how many functions were proved of each crate."""
    last = 0
    for line in running.stdout:
        print(line, end="", flush=True)
        proved, ended = PROVED.match(line), ENDED.match(line)
        last = int(proved[1]) if proved else last
        if ended:
            functions[ended[1]] = last


def run(file, command):
    """Runs the command, and keeps what it took."""
    seen, functions, begun = {}, {}, time.monotonic()
    running = subprocess.Popen(command, stdout=subprocess.PIPE, text=True, errors="replace")
    reader = threading.Thread(target=pass_on, args=(running, functions))
    reader.start()
    while running.poll() is None:
        sampled(seen)
        time.sleep(0.5)
    reader.join()
    wall, whole = time.monotonic() - begun, os.times()
    kept = {"wall": wall, "processor": whole.children_user + whole.children_system, "functions": functions, "seen": list(seen.values())}
    pathlib.Path(file).write_text(json.dumps(kept))
    print(f"{wall:.0f} s, {whole.children_user + whole.children_system:.0f} s of processor time")
    return running.returncode


def lines_of(crate):
    """How many lines a crate has in src/, specs/ and proofs/."""
    files = [path for part in ("src", "specs", "proofs") for path in (ROOT / "crates" / crate / part).rglob("*") if path.suffix in (".rt", ".antt")]
    return sum(len(path.read_text().splitlines()) for path in files)


def table(files):
    """Writes the rows of the page anew, one a crate of crates.txt."""
    proofs, edits, functions, others = {}, {}, {}, 0.0
    for file in files:
        kept = json.loads(pathlib.Path(file).read_text())
        functions.update(kept["functions"])
        for tool, crate, kind, seconds in kept["seen"]:
            if tool == "rattle" and crate:
                of = edits if kind == "edit" else proofs
                of[crate] = of.get(crate, 0) + seconds
            else:
                others += seconds
    crates = [line.split(":")[0].split()[0] for line in (ROOT / "crates.txt").read_text().splitlines() if line.strip() and line[0] != "#"]
    rows = []
    for crate in crates:
        proof, edit, many = round(proofs.get(crate, 0)), round(edits.get(crate, 0)), len(list((ROOT / "crates" / crate / "must-fail").glob("*.edit")))
        budget = max(20, math.ceil((proof + edit) * 1.25 / 10) * 10)
        rows.append(f"| {crate} | {functions.get(crate, '')} | {lines_of(crate):,} | {proof:,} | {f'{edit:,}' if edit else ''} | {many or ''} | {budget:,} |\n")
    text = PAGE.read_text()
    first = ROW.search(text).start()
    PAGE.write_text(text[:first] + "".join(rows) + ROW.sub("", text[first:]))
    print(f"proofs {sum(proofs.values()):,.0f} s, edits {sum(edits.values()):,.0f} s, compiling and linking {others:,.0f} s")
    return 0


def slowest(crate):
    """Tells how long the parts of each function's proof took: with one job each file is written when its part ends, so that took the time since the one before."""
    prefix, suffix = f"Rattle-{crate}-", ".oantt"
    files = sorted((path.stat().st_mtime, path.name) for path in (ROOT / "crates" / crate / "out" / "incremental").rglob(f"*{suffix}"))
    if not files:
        print(f"crates/{crate}/out/incremental has nothing: run rt check --jobs 1 there", file=sys.stderr)
        return 1
    took = collections.defaultdict(collections.Counter)
    for (before, _), (ended, name) in zip(files, files[1:]):
        part = PART.fullmatch(name[len(prefix) : -len(suffix)]) if name.startswith(prefix) else None
        took[part[1] if part else "the rest"][part[2] if part else ""] += ended - before
    for function, parts in sorted(took.items(), key=lambda it: -it[1].total())[:20]:
        print(f"{parts.total():6.1f} s  {function}  " + ", ".join(f"{part} {seconds:.1f}" for part, seconds in parts.most_common(3) if part))
    return 0


def main():
    if sys.argv[1:2] == ["run"] and len(sys.argv) > 3:
        return run(sys.argv[2], sys.argv[3:])
    if sys.argv[1:2] == ["table"] and len(sys.argv) > 2:
        return table(sys.argv[2:])
    if sys.argv[1:2] == ["functions"] and len(sys.argv) == 3:
        return slowest(sys.argv[2])
    print(__doc__, file=sys.stderr)
    return 2


if __name__ == "__main__":
    sys.exit(main())
