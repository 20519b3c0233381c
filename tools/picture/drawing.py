"""The picture of a trace: lanes from left to right in the order of the nodes, and time from the top down."""
import textwrap
from xml.sax.saxutils import escape

LEFT, STEP, TOP, BOX, MARGIN = 84, 168, 44, 140, 24
UNIT, LETTER, LINE = 16, 6.7, 15
FONT = "ui-monospace, SFMono-Regular, Menlo, Consolas, 'DejaVu Sans Mono', monospace"
PAPER, CALLER, WORKER = "#fcfcfa", "#dbe7f6", "#f6e7c9"
COLOURS = {"pull": "#8a8f98", "chunk": "#224466", "close": "#2c7a4b", "error": "#b3332e"}
THICK = {"pull": 1.2, "chunk": 1.7, "close": 2.4, "error": 2.4}
# The kind of an arrow, its words, whether it was taken, and what it means.
LEGEND = (
    ("pull", "", True, "asks for a chunk"),
    ("chunk", "4096", True, "a chunk, in bytes"),
    ("close", "close", True, "all has been sent"),
    ("error", "error", True, "something failed"),
    ("chunk", "12", False, "was never taken"),
)
SAMPLE, ENTRY = 74, 220
NOTES = (
    "Time goes down. A trace has no times: each message stands as early as what had to come before it lets it be, "
    "the chunk k after the pull k, the pull k + 1 after the chunk k, and an end after all before it. What stands side "
    "by side on two edges needn't have been at one time."
)


def style():
    rules = [
        "text{font-size:11px;fill:#1b1f24;text-anchor:middle}",
        ".title{font-size:14px;font-weight:bold;text-anchor:start}",
        ".note{text-anchor:start}.soft{fill:#5b616b}.name{font-weight:bold}",
        ".lane{stroke:#c4c7cc;stroke-width:2}.box{stroke:#5b616b}.out{fill:#ecece6}",
        f".label{{paint-order:stroke;stroke:{PAPER};stroke-width:5px;stroke-linejoin:round}}",
        "line.pull{stroke-dasharray:4 3}",
    ]
    for kind, colour in COLOURS.items():
        rules.append(f"line.{kind},circle.{kind}{{stroke:{colour};stroke-width:{THICK[kind]}}}")
        rules.append(f"text.{kind}{{fill:{colour}}}")
    return "".join(rules)


def heads():
    """The heads of arrows."""
    shape = (
        'viewBox="0 0 8 8" refX="7.5" refY="4" markerWidth="8" markerHeight="8" '
        'markerUnits="userSpaceOnUse" orient="auto"'
    )
    return "".join(
        f'<marker id="{kind}" {shape}><path d="M0 0.5L8 4L0 7.5z" fill="{colour}"/></marker>'
        for kind, colour in COLOURS.items()
    )


def count_of(count, word):
    return f"{count:,} {word}{'' if count == 1 else 's'}"


def lane(number):
    return LEFT + number * STEP


def written(x, y, words, kind=""):
    named = f' class="{kind}"' if kind else ""
    return f'<text x="{x:g}" y="{round(y, 1):g}"{named}>{escape(words)}</text>'


def arrow(kind, start, end, words, taken):
    """An arrow with its words on it; where the message was never taken it stops half-way, at a ring."""
    (x, y), (to_x, to_y) = start, end
    if not taken:
        to_x, to_y = x + (to_x - x) * 0.6, y + (to_y - y) * 0.6
    ends = f'x1="{x:g}" y1="{y:.1f}" x2="{to_x:g}" y2="{to_y:.1f}"'
    head = f' marker-end="url(#{kind})"' if taken else ""
    parts = [f'<line class="{kind}" {ends}{head}/>']
    if not taken:
        parts.append(f'<circle class="{kind}" cx="{to_x:g}" cy="{to_y:.1f}" r="3.5" fill="{PAPER}"/>')
    if words:
        parts.append(written((x + to_x) / 2, (y + to_y) / 2 + 4, words, f"label {kind}"))
    return parts


def left_out(one, y, to_y):
    """The place of exchanges that aren't drawn."""
    x, wide = lane(one.edge) + 12, STEP - 24
    box = f'<rect class="out" x="{x}" y="{y + 4:.1f}" width="{wide}" height="{to_y - y - 8:.1f}" rx="4"/>'
    return [box, written(x + wide / 2, (y + to_y) / 2 + 4, f"{one.size:,} more", "soft")]


def message(one, top):
    """A message, between the lanes of its edge."""
    upper, lower = lane(one.edge), lane(one.edge + 1)
    y, to_y = top + one.sent * UNIT, top + one.came * UNIT
    if one.kind == "left out":
        return left_out(one, y, to_y)
    words = {"pull": "", "chunk": str(one.size)}.get(one.kind, one.kind)
    x, to_x = (upper + 3, lower - 2) if one.way == "down" else (lower - 3, upper + 2)
    return arrow(one.kind, (x, y), (to_x, to_y), words, one.taken)


def head_of(number, workers, kinds):
    """The name of a lane, and what is told of it."""
    if 0 < number <= workers:
        told = textwrap.wrap(", ".join(kinds), 18, max_lines=3, placeholder=" ..")
        return f"worker {number}", ["a thread of its own", *told]
    return "output" if number else "input", ["the caller's thread"]


def lanes(workers, stages, length):
    """The lanes with the boxes over them, and where the messages begin, which take so much room."""
    named = [head_of(number, workers, stages.get(number, [])) for number in range(workers + 2)]
    height = 12 + LINE * max(1 + len(told) for _, told in named)
    end, parts = TOP + height, []
    for number, (name, told) in enumerate(named):
        x, colour = lane(number), WORKER if 0 < number <= workers else CALLER
        box = f'x="{x - BOX // 2}" y="{TOP}" width="{BOX}" height="{height}" rx="5" fill="{colour}"'
        parts.append(f'<line class="lane" x1="{x}" y1="{end}" x2="{x}" y2="{end + 28 + length:.1f}"/>')
        parts += [f'<rect class="box" {box}/>', written(x, TOP + 18, name, "name")]
        parts += [written(x, TOP + 18 + LINE * place, line, "soft") for place, line in enumerate(told, 1)]
    return parts, end + 14


def totals(edge):
    """What went over an edge in all."""
    sizes = sum(int(mark[1:]) for mark in edge.down.marks if mark[1:].isdigit())
    left = {"down": len(edge.down.marks) - edge.down.taken, "up": len(edge.up.marks) - edge.up.taken}
    untaken = ", ".join(f"{count} {way}" for way, count in left.items() if count)
    lines = [count_of(edge.down.count("chunk"), "chunk"), count_of(sizes, "byte")]
    lines.append(count_of(edge.up.count("pull"), "pull"))
    return [*lines, f"{untaken} untaken"] if untaken else lines


def below(trace, width, y):
    """What stands below the lanes: the totals of each edge, how the run ended, what the arrows mean; and its end."""
    told, parts = [totals(edge) for edge in trace.edges], []
    for number, lines in enumerate(told):
        x = lane(number) + STEP / 2
        parts += [written(x, y + LINE * place, line, "soft") for place, line in enumerate(lines)]
    y += LINE * max(len(lines) for lines in told) + 12
    parts.append(written(MARGIN, y, f"It ended with: {trace.status}" if trace.status else "It ended fine.", "note"))
    y, in_row = y + 32, max(1, (width - 2 * MARGIN) // ENTRY)
    for place, (kind, words, taken, means) in enumerate(LEGEND):
        x, at = MARGIN + place % in_row * ENTRY, y + place // in_row * 20
        ends = ((x + SAMPLE, at - 6), (x, at - 2)) if kind == "pull" else ((x, at - 6), (x + SAMPLE, at - 2))
        parts += [*arrow(kind, *ends, words, taken), written(x + SAMPLE + 10, at, means, "note")]
    y += (len(LEGEND) - 1) // in_row * 20 + 26
    for line in textwrap.wrap(NOTES, int((width - 2 * MARGIN) / LETTER)):
        parts.append(written(MARGIN, y, line, "note soft"))
        y += LINE
    return parts, y + 8


def text(trace, messages, stages):
    """The text of the picture."""
    workers = len(trace.edges) - 1
    width = 2 * LEFT + STEP * (workers + 1)
    length = max(one.came for one in messages) * UNIT
    drawn, top = lanes(workers, stages, length)
    for one in sorted(messages, key=lambda one: (one.sent, one.edge)):
        drawn += message(one, top)
    shown, bottom = below(trace, width, top + length + 34)
    height = round(bottom)
    title = f"The messages of a run with {count_of(workers, 'worker')}"
    size = f'viewBox="0 0 {width} {height}" width="{width}" height="{height}"'
    frame = f'x="0.5" y="0.5" width="{width - 1}" height="{height - 1}" rx="8" fill="{PAPER}" stroke="#c9c9c2"'
    parts = [
        f'<svg xmlns="http://www.w3.org/2000/svg" {size} font-family="{FONT}">',
        f"<title>{title}</title><style>{style()}</style><defs>{heads()}</defs>",
        f"<rect {frame}/>",
        written(MARGIN, 26, title, "title"),
    ]
    return "\n".join([*parts, *drawn, *shown, "</svg>", ""])
