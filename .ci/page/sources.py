"""The crates that crates.txt names, and the laws that stand in their sources: their comments, nothing else."""
import dataclasses
import pathlib
import re

ROOT = pathlib.Path(__file__).resolve().parent.parent.parent
SENTENCE = re.compile(r"(.+?\.)(?:\s+(?=[A-Z`(])(.*))?$", re.DOTALL)
TAG = "Of: "


def paragraphs(lines, mark):
    """The paragraphs of a comment whose lines begin with this mark."""
    text = "\n".join(line[len(mark):].strip() for line in lines)
    return [" ".join(part.split()) for part in re.split(r"\n\s*\n", text) if part.strip()]


def sentence_of(parts):
    """The first sentence of a comment, and the paragraphs that come after it; none where it has no whole one."""
    found = SENTENCE.match(parts[0]) if parts and not parts[0].startswith(TAG) else None
    if not found:
        return None, parts
    return found.group(1), [rest for rest in [found.group(2), *parts[1:]] if rest]


@dataclasses.dataclass
class Crate:
    """A crate: its name, the crates that it uses, the heading in crates.txt under which it stands, its first file, and the comment on top."""

    name: str
    uses: list
    layer: str
    file: pathlib.Path
    sentence: str

    def faults(self):
        if not self.sentence:
            yield f"{self.file.relative_to(ROOT)}: no first sentence that says what the crate is"
        if not self.layer:
            yield f"crates.txt: no heading, a comment of one line, over {self.name}"


@dataclasses.dataclass(eq=False)
class Law:
    """A law: the function that has it as its contract, its crate, where it stands, that contract, and its comment."""

    name: str
    crate: str
    file: pathlib.Path
    contract: str
    sentence: str
    rest: list
    names: list

    def faults(self):
        place = f"{self.file.relative_to(ROOT)}: {self.name}"
        if not self.sentence:
            yield f"{place}: no first sentence, which ends with a full stop"
        if not self.names:
            yield f"{place}: no tag, a last paragraph '{TAG}..' that names what the law speaks of"


def read_crates():
    """The crates, in the order of crates.txt."""
    crates, layer = [], ""
    for line in (ROOT / "crates.txt").read_text().splitlines():
        words, colon, uses = line.partition(":")
        if line.startswith("#"):
            layer = line[1:].strip()
        elif colon:
            name = words.split()[0]
            source = ROOT / "crates" / name / "src"
            file = next((source / top for top in ("lib.rt", "main.rt") if (source / top).exists()), source / "lib.rt")
            lines = file.read_text().splitlines() if file.exists() else []
            top = next((i for i, text in enumerate(lines) if not text.startswith("//!")), len(lines))
            crates.append(Crate(name, uses.split(), layer, file, sentence_of(paragraphs(lines[:top], "//!"))[0]))
    return crates


def law_at(lines, i, crate, file):
    """The law that begins in line i: a public function with a contract and an empty body; none where that isn't one."""
    found = re.match(r"pub fn (\w+)", lines[i])
    end = i + 1
    while end < len(lines) and lines[end].startswith(" "):
        end += 1
    if not found or end >= len(lines) or lines[end] != "{}" or not any(line.strip().startswith("ensures") for line in lines[i:end]):
        return None
    top = i
    while top > 0 and lines[top - 1].startswith(("///", "#[")):
        top -= 1
    parts = paragraphs([line for line in lines[top:i] if line.startswith("///")], "///")
    names = []
    if parts and parts[-1].startswith(TAG):
        names = [name.strip() for name in parts.pop()[len(TAG):].rstrip(".").split(", ") if name.strip()]
    sentence, rest = sentence_of(parts)
    return Law(found.group(1), crate, file, "\n".join(lines[i:end]), sentence, rest, names)


def read_laws(crates):
    """The laws, in the order of their crates and as they stand there."""
    laws = []
    for crate in crates:
        for file in sorted((ROOT / "crates" / crate.name / "src").rglob("*.rt")):
            lines = file.read_text().splitlines()
            laws += [law for i in range(len(lines)) if lines[i].startswith("pub fn") and (law := law_at(lines, i, crate.name, file))]
    return laws


def head(path):
    """The part of a page that is written by hand: all down to the line that says who writes the rest."""
    mark = "<!-- What follows is written by .ci/pages.py. -->\n"
    text = path.read_text() if path.exists() else ""
    return text.partition(mark)[0] + mark
