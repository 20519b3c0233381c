"""docs/LAW-STATEMENTS.txt: what each law says, and the definitions by which it says that.

A definition stands there where a law leads to it and it is no part of the model: it is of a crate that has laws, of
ws_node, whose laws stand in ws_node_rules, or of one of those files of ws_steps that tell of runs. What the model has
(values, the outside, and the step table of ws_steps) is named there and isn't repeated."""
import hashlib
import re
from typing import NamedTuple

from .sources import ROOT

USE = re.compile(r"^(?:pub |ghost )?use (Rattle\.[\w.]+?)(?:\.\{(.*)\}| as (\w+))?;?$")
WORD = re.compile(r"[^\s(){}\[\],;]+")
CONSTRUCTOR = re.compile(r"^  (\S+) :", re.MULTILINE)
MARKS = ("abbrev", "pub", "unfoldable")
OF_RUNS = re.compile(r"Rattle\.(ws_steps\.specs\.(Histories|Places|Run|Turns|\w*History|\w*Laws)|ws_node\.specs\.\w+)")
ABOUT = """\
What each law says, as the checker reads it, without comments; LAWS.md says it in words. .ci/pages.py writes this file,
and the gate refuses one that is older than its sources: so a change of a law, or of a definition by which it says what
it says, is a change here.

First stand the laws by their names: each with its crate, its contract, and the definitions that this names. The eight
digits behind a law are others once any of these has changed, or a definition further below to which they lead. Those
stand after the laws, file by file. What belongs to the model isn't repeated: values, the outside, and the step table of
ws_steps but for what tells of runs."""


class Names(NamedTuple):
    """What the words of a file mean: the items and the modules that it brings in, by the names that it has for them."""

    items: dict
    modules: dict

    def meant(self, text, module, own):
        """The definitions that a text of this module may mean, each as its module and its name."""
        for word in WORD.findall(text):
            first, _, second = word.partition(".")
            if first in self.modules:
                yield self.modules[first], second
            elif first in own:
                yield module, first
            elif first in self.items:
                yield self.items[first]


def names_of(lines):
    names = Names({}, {})
    for path, listed, alias in (found.groups() for line in lines if (found := USE.match(line))):
        if listed is None:
            names.modules[alias or path.rpartition(".")[2]] = path
        else:
            for there, _, here in (part.strip().partition(" as ") for part in listed.split(",")):
                names.items[here or there] = path, there
    return names


def own_name(line):
    """The name that a line at the margin defines, or of which it goes on to tell."""
    words = [word for word in line.split() if word not in MARKS]
    return words[1] if words[0] in ("record", "data") and len(words) > 1 else words[0]


def definitions_of(lines):
    """The definitions of a file by their names, each as its lines, without comments."""
    found, current = {}, []
    for line in (line.rstrip() for line in lines):
        if not line or line.lstrip().startswith("--"):
            continue
        if line.startswith(tuple(f"{mark} " for mark in MARKS)) and not line.startswith(("pub mod ", "pub use ")):
            current = found[own_name(line)] = [line]
        elif current and (line.startswith(" ") or own_name(line) == own_name(current[0])):
            current.append(line)
        else:
            current = []
    return found


class Module:
    """A file of specs/: its definitions, and what their words mean."""

    def __init__(self, name, path):
        lines = path.read_text().splitlines()
        self.name, self.path, self.names = name, path, names_of(lines)
        self.texts = {name: "\n".join(text) for name, text in definitions_of(lines).items()}
        self.wholes = {name: name for name in self.texts}
        for whole, text in self.texts.items():
            if text.startswith("pub data "):
                self.wholes |= {name: whole for name in CONSTRUCTOR.findall(text)}

    def meant(self, name):
        return self.names.meant(self.texts[name], self.name, self.wholes)


def modules_of(crate):
    top = ROOT / "crates" / crate / "specs"
    for path in sorted(top.rglob("*.antt")):
        yield Module(".".join(["Rattle", crate, "specs", *path.relative_to(top).with_suffix("").parts]), path)


class Statements:
    def __init__(self, crates, laws):
        self.laws = sorted(laws, key=lambda law: (law.name, law.crate))
        self.with_laws = {law.crate for law in laws}
        self.modules = {module.name: module for crate in crates for module in modules_of(crate.name)}
        self.named = {law: self.named_by(law) for law in self.laws}
        self.below = {law: self.below_all(self.named[law]) for law in self.laws}

    def is_repeated(self, module):
        return module in self.modules and (module.split(".")[1] in self.with_laws or bool(OF_RUNS.fullmatch(module)))

    def found(self, module, name):
        """The definition of this name, which another module may have handed on; none where it isn't repeated."""
        there = self.modules.get(module)
        if there and name not in there.wholes and name in there.names.items:
            return self.found(*there.names.items[name])
        whole = there.wholes.get(name) if self.is_repeated(module) else None
        return whole and (module, whole)

    def named_by(self, law):
        """The definitions that the contract of a law names."""
        meant = names_of(law.file.read_text().splitlines()).meant(law.contract, None, {})
        return list(dict.fromkeys(found for key in meant if (found := self.found(*key))))

    def below_all(self, keys):
        """These definitions, and all to which they lead."""
        below, left = set(), list(keys)
        while left:
            key = left.pop()
            if key not in below:
                below.add(key)
                left += [found for meant in self.modules[key[0]].meant(key[1]) if (found := self.found(*meant))]
        return below

    def faults(self):
        for law in self.laws:
            if not self.named[law]:
                yield f"{law.file.relative_to(ROOT)}: {law.name}: its contract names no definition of a crate of laws"

    def text_of(self, key):
        return self.modules[key[0]].texts[key[1]]

    def law_text(self, law):
        below = [self.text_of(key) for key in sorted(self.below[law])]
        digits = hashlib.sha256("\n".join([law.contract, *below]).encode()).hexdigest()[:8]
        parts = [law.contract, *map(self.text_of, self.named[law])]
        return "\n\n".join([f"== {law.name}, {law.crate}, {digits}", *parts])

    def module_text(self, module, keys):
        texts = [text for name, text in module.texts.items() if (module.name, name) in keys]
        return "\n\n".join([f"== {module.path.relative_to(ROOT)}", *texts])

    def text(self):
        shown = set().union(*self.named.values())
        keys = set().union(*self.below.values()) - shown
        modules = sorted((self.modules[name] for name, _ in keys), key=lambda module: module.path)
        parts = [*map(self.law_text, self.laws), *(self.module_text(module, keys) for module in dict.fromkeys(modules))]
        return "\n\n".join([ABOUT, *parts]) + "\n"
