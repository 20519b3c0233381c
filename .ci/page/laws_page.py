"""docs/LAWS.md: each law by the record of which it speaks, in its own words."""
from .sources import ROOT, head


def title(record):
    return record[0].upper() + record[1:]


def law_text(law, model):
    """A law: its name, its sentence, the rest, the operations of which it speaks, and where it stands."""
    operations = [name for name in law.names if name not in model.records]
    crate = f"[`{law.crate}`](../{law.file.relative_to(ROOT)})"
    place = f"In {crate}." + (f" Operations: {', '.join(operations)}." if operations else "")
    return "\n\n".join([f"### `{law.name}`", f"**{law.sentence}**", *law.rest, place])


def group_text(record, model):
    """The laws of one record, and the names of those that speak of it too."""
    first, beside = model.of_record(record)
    parts = [f"## {title(record)}"]
    if beside:
        parts.append("Of these speak too: " + ", ".join(f"[`{law.name}`](#{law.name})" for law in beside) + ".")
    return "\n\n".join([*parts, *(law_text(law, model) for law in first)])


def text(laws, model):
    told = [record for record in model.records if model.records[record].laws]
    lines = [f"- [{title(record)}](#{record.replace(' ', '-')}): {len(model.of_record(record)[0])}" for record in told]
    parts = [f"{len(laws)} laws:\n\n" + "\n".join(lines), *(group_text(record, model) for record in told)]
    return head(model.path.with_name("LAWS.md")) + "\n" + "\n\n".join(parts) + "\n"
