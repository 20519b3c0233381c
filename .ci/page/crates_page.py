"""docs/CRATES.md: the crates by layers, and what each of them stands on."""
from .graph import reduced
from .sources import ROOT, head


def layers_of(crates):
    """The headings of crates.txt, each with its crates."""
    layers = {}
    for crate in crates:
        layers.setdefault(crate.layer, []).append(crate)
    return layers


def row(crate, edges, names):
    kit = [f"`{name}`" for name in crate.uses if name not in names]
    below = ", ".join(f"`{name}`" for name in edges[crate.name])
    stands = "; ".join(part for part in [below, f"{', '.join(kit)} of the kit" if kit else ""] if part)
    return f"| [`{crate.name}`](../{crate.file.relative_to(ROOT)}) | {crate.sentence} | {stands} |"


def text(crates):
    edges, names = reduced(crates), {crate.name for crate in crates}
    parts = ["![The crates, each above those that it stands on](crates.svg)"]
    for layer, members in layers_of(crates).items():
        rows = [row(crate, edges, names) for crate in members]
        parts.append("\n".join([f"## {layer[:1].upper()}{layer[1:]}", "", "| crate | what it is | stands on |", "|---|---|---|", *rows]))
    return head(ROOT / "docs" / "CRATES.md") + "\n" + "\n\n".join(parts) + "\n"
