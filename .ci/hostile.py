"""The hostile texts of cases/hostile/: scripts and pipeline files, most of them refused, each with its answer.

A file of them begins with what it is about. Then comes a heading for each text, the text, and behind `=> ` what is
printed:

    === done: what it shows
    === refused 9: what it shows
    === refused 9, each line: what they show

With `each line` each line is a text by itself, without a line feed. In a text `⟨81×[⟩` stands for 81 brackets,
`⟨C2 A0⟩` for these bytes, and the pictures of control characters (`␀`, `␍` and so on) for these.

The answers were written by the tables of docs/PIPELINE.md and the grammar of docs/SCRIPT.md. So that none is only the
program's own, the reader of oracle/ has to give each as well, which knows TOML by Python's `tomllib`. It isn't asked
where the heading has words in brackets: `(TOML 1.1)`, which tomllib doesn't know, or `(depth)` and `(floats)`, of
which it has no limit; nor of long texts, some of which take it minutes."""
import re
import sys
import tempfile
from pathlib import Path
from typing import NamedTuple

from cases import CASES, PIECES_OF_A_SCRIPT, Case, read, unread
from program import NAME, ROOT, Wanted

sys.path.append(str(ROOT / "oracle"))

import plans
import script

FOLDER = CASES / "hostile"
HEADING = re.compile(r"=== (?:done|refused (\d+))( \(.*\))?(, each line)?: (.*)")
BYTES = re.compile(r"⟨([0-9A-F]{2}(?: [0-9A-F]{2})*)⟩")
REPEATED = re.compile(r"⟨(\d+)×([^⟩]*)⟩")
CONTROLS = {0x2400 + code: chr(code) for code in range(32)} | {0x2421: "\x7f"}
BYTE_ORDER_MARK = b"\xef\xbb\xbf"
MOST_OF_THE_ORACLE = 20_000
# In pieces of 7 bytes a script is read that isn't longer.
MOST_IN_SHORT_PIECES = 10_000


class Hostile(NamedTuple):
    """A text by its name, as it is written, the number by which it is refused, if it is, and what is printed."""

    name: str
    written: str
    number: int | None
    printed: str
    is_beyond_oracle: bool

    def wanted(self, of_what):
        told = "" if self.number is None else f"{of_what} refused {self.number}\n"
        return Wanted(bytes_of(self.printed), told.encode())


def bytes_of(written):
    """The bytes for which a text stands."""
    text = BYTES.sub(lambda found: bytes.fromhex(found[1]).decode("utf-8", "surrogateescape"), written)
    text = REPEATED.sub(lambda found: int(found[1]) * found[2], text)
    return text.translate(CONTROLS).encode("utf-8", "surrogateescape")


def below_heading(heading, place, lines):
    """The texts below a heading."""
    number, name = heading[1] and int(heading[1]), f"hostile: {place}: {heading[4]}"
    if heading[3]:
        return [Hostile(f"{name}: {line:.60}", line, number, "", bool(heading[2])) for line in lines]
    text = "".join(f"{line}\n" for line in lines if not line.startswith("=> "))
    printed = "".join(f"{line[3:]}\n" for line in lines if line.startswith("=> "))
    return [Hostile(name, text, number, printed, bool(heading[2]))]


def texts_of(path):
    """The texts of a file."""
    lines = path.read_text("utf-8").removesuffix("\n").split("\n")
    places = [place for place, line in enumerate(lines) if line.startswith("===")]
    found = []
    for place, end in zip(places, [*places[1:], len(lines)]):
        heading = HEADING.fullmatch(lines[place])
        if not heading:
            raise ValueError(f"{path}, line {place + 1}: this is no heading")
        found += below_heading(heading, f"{path.name}, line {place + 1}", lines[place + 1 : end])
    return found


def plan_by_oracle(text):
    """The number by which a pipeline file is refused, or its plan."""
    try:
        plan = plans.read_plan(text.removeprefix(BYTE_ORDER_MARK))
    except plans.Refused as refused:
        return Wanted(b"", f"plan refused {refused.number}\n".encode())
    return Wanted(plans.text_of_plan(plan).encode(), b"")


def script_by_oracle(text):
    outcome = script.perform_script(text)
    return Wanted(outcome.output.encode(), outcome.notes.encode())


def differs_of_oracle(hostile, text, by_oracle, wants):
    """What differs of the answer that is written and that of the oracle."""
    if hostile.is_beyond_oracle or len(text) > MOST_OF_THE_ORACLE:
        return None
    answer = by_oracle(text)
    return None if answer == wants else f"the answer is to be {wants!r:.400}, and the oracle has {answer!r:.400}"


def plan_case(hostile):
    """`check` of a file, and `run`. A refused one is so by each command and reads no input, and one that is accepted
    makes nothing of nothing."""

    def differs():
        text, wants = bytes_of(hostile.written), hostile.wanted("plan")
        with tempfile.TemporaryDirectory() as folder:
            path = Path(folder, "plan.toml")
            path.write_bytes(text)
            found = differs_of_oracle(hostile, text, plan_by_oracle, wants) or unread([NAME, b"check", path], wants)
            if hostile.number is None:
                return found or read([NAME, b"run", path], b"", Wanted(b"", b""), [])
            others = [b"run"], [b"run", b"--trace"], [b"gen", b"10", b"1"]
            return found or next(filter(None, (unread([NAME, *words, path], wants) for words in others)), None)

    return Case(hostile.name, (), differs)


def script_case(hostile):
    def differs():
        text, wants = bytes_of(hostile.written), hostile.wanted("script")
        pieces = PIECES_OF_A_SCRIPT if len(text) <= MOST_IN_SHORT_PIECES else []
        found = differs_of_oracle(hostile, text, script_by_oracle, wants)
        return found or read([NAME, b"script"], text, wants, pieces)

    return Case(hostile.name, (), differs)


def cases_of(folder, make):
    """The cases of a folder's files. The first has the files, so that none of these belongs to no case."""
    paths = sorted(folder.glob("*.txt"))
    first, *others = [make(hostile) for path in paths for hostile in texts_of(path)]
    return [first._replace(files=tuple(paths)), *others]


def hostile_cases():
    return [*cases_of(FOLDER / "plans", plan_case), *cases_of(FOLDER / "scripts", script_case)]
