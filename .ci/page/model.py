"""docs/MODEL.md: its tables of operations and of records, and their column of laws, which is made of the laws' tags."""
import re

from .sources import ROOT


class Row:
    """A row of a table: the section and line in which it stands, the names in its first cell, and its cell of laws, where it has one."""

    def __init__(self, section, line, cells, has_laws, is_record):
        self.section = section
        self.line = line
        self.cells = cells
        self.has_laws = has_laws
        self.is_record = is_record
        self.names = [cells[0], *re.split(r"[,;:] (?:and )?", cells[0])]
        self.names = [name.replace('"', "").replace("`", "").strip() for name in self.names]
        self.laws = []

    def cell(self):
        """What is to stand in the cell of laws: their names, and of a record how many there are."""
        if not self.laws:
            return ""
        if self.is_record:
            anchor = self.cells[0].lower().replace(" ", "-")
            return f"[{len(self.laws)} {'law' if len(self.laws) == 1 else 'laws'}](LAWS.md#{anchor})"
        return ", ".join(f"[`{law.name}`](LAWS.md#{law.name})" for law in self.laws)


def cells_of(line):
    return [cell.strip() for cell in line.strip().strip("|").split("|")]


def is_table(line):
    return line.startswith("|")


class Model:
    """The page, with the laws that speak of each row."""

    def __init__(self, path, laws):
        self.path = path
        self.lines = path.read_text().split("\n")
        self.rows = list(self.read())
        self.records = {row.cells[0]: row for row in self.rows if row.is_record}
        self.unknown = []
        for law in laws:
            self.place(law)

    def read(self):
        """The rows of the tables whose first column is that of the standard's operations, or of records."""
        section, header = "", None
        for number, line in enumerate(self.lines):
            if line.startswith("## "):
                section = line[3:].strip().lower()
            if not is_table(line):
                header = None
            elif header is None:
                header = cells_of(line)
            elif not line.startswith("|-") and (header[0].startswith("standard") or header[0] == "record"):
                yield Row(section, number, cells_of(line), header[-1] == "law", header[0] == "record")

    def place(self, law):
        """The law goes into the row of each name of its tag."""
        place = f"{law.file.relative_to(ROOT)}: {law.name}"
        sections = [name for name in law.names if name in self.records]
        for name in law.names:
            found = self.find(name, sections)
            if len(found) != 1:
                why = "which docs/MODEL.md doesn't have" if not found else "which stands twice in docs/MODEL.md"
                self.unknown.append(f"{place}: its tag names '{name}', {why}")
                sections = sections or [name]
            elif law not in found[0].laws:
                found[0].laws.append(law)
        if law.names and not sections:
            self.unknown.append(f"{place}: its tag names no record of docs/MODEL.md")

    def find(self, name, sections):
        """The rows of this name: those of the sections of the law's own records, where there are any."""
        if name in self.records:
            return [self.records[name]]
        rows = [row for row in self.rows if not row.is_record and name in row.names]
        return [row for row in rows if row.section in sections] or rows

    def faults(self):
        return self.unknown

    def empty_cells(self):
        """The operations that a law speaks of, and whose cell on the page is empty or isn't there."""
        empty = [row for row in self.rows if row.laws and not (row.has_laws and row.cells[-1])]
        return [f"docs/MODEL.md:{row.line + 1}: the cell of '{row.cells[0]}' is empty, and {row.laws[0].name} speaks of it" for row in empty]

    def text(self):
        """The page with its column of laws as it is to be."""
        lines = list(self.lines)
        for row in self.rows:
            if row.has_laws:
                lines[row.line] = "| " + " | ".join([*row.cells[:-1], row.cell()]).rstrip() + " |"
        return "\n".join(lines)

    def of_record(self, record):
        """The laws that speak of a record first, and those that speak of it beside another."""
        laws = self.records[record].laws
        first = [law for law in laws if next(name for name in law.names if name in self.records) == record]
        return first, [law for law in laws if law not in first]
