#!/usr/bin/env python3
"""Writes the pages of docs/ that are made of the sources: LAWS.md, LAW-STATEMENTS.txt, CRATES.md, crates.svg, and the law column of
MODEL.md.

A law's comment begins with a sentence that stands alone, and ends with a tag, a paragraph 'Of: ..' that names what the law speaks of: the
record under which it stands in LAWS.md, and further records and operations, by the names that the tables of MODEL.md have for them.

With --check it writes nothing, and says what is wrong, one line each: a law without a first sentence or without a tag, a tag that names
what MODEL.md doesn't have, an operation that a law speaks of and whose cell is empty, a page that is older than its sources."""
import sys

sys.dont_write_bytecode = True

from page import crates_page, laws_page, model, picture, statements
from page.sources import ROOT, read_crates, read_laws

DOCS = ROOT / "docs"


def pages_of(crates, laws, table, said):
    """Each page that is written, with its text."""
    return {
        DOCS / "LAWS.md": laws_page.text(laws, table),
        DOCS / "LAW-STATEMENTS.txt": said.text(),
        DOCS / "MODEL.md": table.text(),
        DOCS / "CRATES.md": crates_page.text(crates),
        DOCS / "crates.svg": picture.text(crates),
    }


def old(pages):
    """The pages that differ from what would be written."""
    for path, text in pages.items():
        if not path.exists() or path.read_text() != text:
            yield f"{path.relative_to(ROOT)}: older than its sources; python3 .ci/pages.py writes it"


def main(words):
    crates = read_crates()
    laws = read_laws(crates)
    table = model.Model(DOCS / "MODEL.md", laws)
    said = statements.Statements(crates, laws)
    faults = [fault for part in [*laws, *crates, table, said] for fault in part.faults()]
    if words not in ([], ["--check"]):
        faults = ["usage: pages.py [--check]"]
    elif words and not faults:
        faults = table.empty_cells() or list(old(pages_of(crates, laws, table, said)))
    elif not faults:
        for path, text in pages_of(crates, laws, table, said).items():
            path.write_text(text)
    for fault in faults:
        print(f"pages: {fault}", file=sys.stderr)
    return 1 if faults else 0


if __name__ == "__main__":
    sys.exit(main(sys.argv[1:]))
