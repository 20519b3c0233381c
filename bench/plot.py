#!/usr/bin/env python3
"""Draws docs/rates.svg from bench/rates.txt: for each workload the median of its runs as a dot with its number, and a
whisker from the least run to the greatest where there are several. With the word --check it writes nothing, and ends
with 1 where the drawing isn't that of the figures."""
import pathlib
import statistics
import sys
from xml.sax.saxutils import escape

ROOT = pathlib.Path(__file__).resolve().parent.parent
FIGURES = ROOT / "bench" / "rates.txt"
DRAWING = ROOT / "docs" / "rates.svg"

WIDTH, LEFT, RIGHT, ROW, TOP = 760, 210, 40, 22, 62
STYLE = (
    "text{font:13px sans-serif;fill:#222} .title{font-size:15px;font-weight:bold} .group{font-weight:bold} "
    ".grid{stroke:#ddd} .node{stroke:#b33;stroke-dasharray:4 3} .whisker{stroke:#246;stroke-width:2} .dot{fill:#246}"
)


def figures(text):
    """The groups in order, each with its workloads and their numbers."""
    groups = []
    for line in text.splitlines():
        line = line.strip()
        if not line or line.startswith("#"):
            continue
        if line.startswith("["):
            groups.append((line.strip("[]"), []))
        else:
            name, _, numbers = line.rpartition(":")
            groups[-1][1].append((name, sorted(map(float, numbers.split()))))
    return groups


def drawing(groups):
    """The text of the drawing."""
    most = max(max(numbers) for _, rows in groups for _, numbers in rows)
    top = int(most // 5 + 1) * 5
    rows_in_all = sum(1 + len(rows) for _, rows in groups)
    bottom = TOP + rows_in_all * ROW + 6

    def across(number):
        return round(LEFT + (WIDTH - LEFT - RIGHT) * number / top, 1)

    def text(x, y, words, kind="", anchor="start"):
        named = f' class="{kind}"' if kind else ""
        return f'<text x="{x}" y="{y}" text-anchor="{anchor}"{named}>{escape(words)}</text>'

    def upright(x, kind):
        return f'<line x1="{x}" y1="{TOP - 8}" x2="{x}" y2="{bottom}" class="{kind}"/>'

    size = f'width="{WIDTH}" height="{bottom + 12}" viewBox="0 0 {WIDTH} {bottom + 12}"'
    parts = [
        f'<svg xmlns="http://www.w3.org/2000/svg" {size}>',
        f"<style>{STYLE}</style>",
        '<rect width="100%" height="100%" fill="#fff"/>',
        text(12, 22, "How many times the rate of Node's own Web Streams", "title"),
    ]
    for number in range(5, top + 1, 5):
        parts += [upright(across(number), "grid"), text(across(number), TOP - 14, str(number), anchor="middle")]
    parts += [upright(across(1), "node"), text(across(1), TOP - 14, "Node", anchor="middle")]
    y = TOP + 10
    for group, rows in groups:
        parts.append(text(12, y, group, "group"))
        y += ROW
        for name, numbers in rows:
            middle = statistics.median(numbers)
            least, most = across(numbers[0]), across(numbers[-1])
            parts.append(text(24, y, name))
            if len(numbers) > 1:
                parts.append(f'<line x1="{least}" y1="{y - 4}" x2="{most}" y2="{y - 4}" class="whisker"/>')
                parts += [f'<line x1="{x}" y1="{y - 9}" x2="{x}" y2="{y + 1}" class="whisker"/>' for x in (least, most)]
            parts.append(f'<circle cx="{across(middle)}" cy="{y - 4}" r="4.5" class="dot"/>')
            parts.append(text(most + 10, y, f"{middle:g}"))
            y += ROW
    return "\n".join([*parts, "</svg>", ""])


def main():
    drawn = drawing(figures(FIGURES.read_text()))
    if "--check" not in sys.argv[1:]:
        DRAWING.write_text(drawn)
        return 0
    if DRAWING.exists() and DRAWING.read_text() == drawn:
        return 0
    print("docs/rates.svg isn't that of bench/rates.txt: python3 bench/plot.py draws it anew", file=sys.stderr)
    return 1


if __name__ == "__main__":
    sys.exit(main())
