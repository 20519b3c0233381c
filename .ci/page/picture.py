"""docs/crates.svg: the crates in rows, each above those that it stands on, with the edges that remain after transitive reduction."""
from html import escape
from math import fsum

from .crates_page import layers_of
from .graph import reduced, rows_of

HEIGHT, GAP, ROW, MARGIN, LETTER = 26, 16, 64, 24, 6.9
COLOURS = ["#dbe7f6", "#e3e0f5", "#f6e7c9", "#dcefd9", "#f9dcd4", "#d6eef0", "#f3dcea", "#e9e9e4", "#f4f0d2", "#dfe6ea"]


class Spot:
    """A place in a row: a crate, or the bend of an edge that goes through the row."""

    def __init__(self, name, row):
        self.name = name
        self.row = row
        self.width = len(name) * LETTER + 16 if name else 6
        self.below, self.above = [], []
        self.x = 0.0


def spots_of(edges, rows):
    """The rows of spots, with an edge cut into parts from row to row."""
    spots = {name: Spot(name, rows[name]) for name in edges}
    every = list(spots.values())
    for name, others in edges.items():
        for other in others:
            low = spots[other]
            for row in range(low.row + 1, rows[name]):
                bend = Spot("", row)
                every.append(bend)
                low.above.append(bend)
                bend.below.append(low)
                low = bend
            low.above.append(spots[name])
            spots[name].below.append(low)
    return [[spot for spot in every if spot.row == row] for row in range(1 + max(rows.values()))]


def crossings(lines):
    """How many pairs of edges cross."""
    count = 0
    for line in lines[:-1]:
        ends = [(low.place, high.place) for low in line for high in low.above]
        count += sum(1 for i, a in enumerate(ends) for b in ends[:i] if (a[0] - b[0]) * (a[1] - b[1]) < 0)
    return count


def number(lines):
    for line in lines:
        for place, spot in enumerate(line):
            spot.place = place


def middle(spots):
    return sum(spot.place for spot in spots) / len(spots)


def order(lines):
    """Each row in an order in which few edges cross: by the middle of what stands below, then above, as long as that helps."""
    number(lines)
    best, least = [list(line) for line in lines], crossings(lines)
    for turn in range(40):
        upward = turn % 2 == 0
        for line in lines[1:] if upward else reversed(lines[:-1]):
            line.sort(key=lambda spot: middle(near) if (near := spot.below if upward else spot.above) else spot.place)
            number([line])
        if crossings(lines) < least:
            best, least = [list(line) for line in lines], crossings(lines)
    number(best)
    return best


def spread(line, wanted):
    """The spots of a row as near as they can be to where they are wanted, in their order and apart."""
    groups = []
    for spot in line:
        groups.append([[spot], wanted[id(spot)], spot.width])
        while len(groups) > 1 and groups[-2][1] + groups[-2][2] / 2 + GAP > groups[-1][1] - groups[-1][2] / 2:
            right, left = groups.pop(), groups.pop()
            both, width = left[0] + right[0], left[2] + GAP + right[2]
            at, total = 0.0, 0.0
            for member in both:
                total += wanted[id(member)] - at - member.width / 2
                at += member.width + GAP
            groups.append([both, total / len(both) + width / 2, width])
    for members, centre, width in groups:
        at = centre - width / 2
        for spot in members:
            spot.x = at + spot.width / 2
            at += spot.width + GAP


def place(lines):
    """The middle of each spot, near what it is bound to."""
    for line in lines:
        spread(line, {id(spot): 0.0 for spot in line})
    for turn in range(60):
        for line in lines if turn % 2 == 0 else reversed(lines):
            near = {id(spot): [other.x for other in spot.below + spot.above] or [spot.x] for spot in line}
            spread(line, {key: fsum(xs) / len(xs) for key, xs in near.items()})
    left = min(spot.x - spot.width / 2 for line in lines for spot in line)
    for line in lines:
        for spot in line:
            spot.x = round(spot.x - left + MARGIN, 1)


def ways_of(lines):
    """Each edge, from the crate below by its bends to the one above."""
    for low in (spot for line in lines for spot in line if spot.name):
        for high in low.above:
            way = [low, high]
            while not way[-1].name:
                way.append(way[-1].above[0])
            yield way


def is_free(line, bend, other):
    """Whether a straight line from a bend of this row to a spot of the next row meets no box of the row."""
    end = bend.x + (other.x - bend.x) * HEIGHT / 2 / (ROW - HEIGHT / 2)
    left, right = min(bend.x, end) - 4, max(bend.x, end) + 4
    return not any(spot.name and spot.x - spot.width / 2 < right and spot.x + spot.width / 2 > left for spot in line)


def points_of(way, lines, y):
    """The points of an edge: through the middle of a row where that is free, else beside the boxes from edge to edge."""
    points = [(way[0].x, y(way[0]))]
    for low, bend, high in zip(way, way[1:], way[2:]):
        line = lines[bend.row]
        points += [] if is_free(line, bend, low) else [(bend.x, y(bend) + HEIGHT)]
        points += [(bend.x, y(bend) + HEIGHT // 2)]
        points += [] if is_free(line, bend, high) else [(bend.x, y(bend))]
    return [*points, (way[-1].x, y(way[-1]) + HEIGHT)]


def text(crates):
    edges = reduced(crates)
    lines = order(spots_of(edges, rows_of(edges)))
    place(lines)
    layers = list(layers_of(crates).items())
    colours = {crate.name: COLOURS[i % len(COLOURS)] for i, (_, members) in enumerate(layers) for crate in members}
    width = round(max(spot.x + spot.width / 2 for line in lines for spot in line) + MARGIN)
    top = MARGIN + HEIGHT + 20
    height = top + ROW * (len(lines) - 1) + HEIGHT + MARGIN

    def y(spot):
        return top + ROW * (len(lines) - 1 - spot.row)

    drawn = [
        f'<svg xmlns="http://www.w3.org/2000/svg" viewBox="0 0 {width} {height}" width="{width}" height="{height}" '
        'font-family="ui-monospace, SFMono-Regular, Menlo, Consolas, monospace" font-size="11.5">',
        "<title>The crates, each above those that it stands on</title>",
        f'<rect x="0.5" y="0.5" width="{width - 1}" height="{height - 1}" rx="8" fill="#fcfcfa" stroke="#c9c9c2"/>',
    ]
    for way in ways_of(lines):
        points = " ".join(f"{x},{at}" for x, at in points_of(way, lines, y))
        drawn.append(f'<polyline points="{points}" stroke="#8a8f98" fill="none"/>')
    for spot in (spot for line in lines for spot in line if spot.name):
        left = round(spot.x - spot.width / 2, 1)
        drawn.append(f'<rect x="{left}" y="{y(spot)}" width="{round(spot.width, 1)}" height="{HEIGHT}" rx="5" fill="{colours[spot.name]}" stroke="#5b616b"/>')
        drawn.append(f'<text x="{spot.x}" y="{y(spot) + 17}" text-anchor="middle" fill="#1b1f24">{escape(spot.name)}</text>')
    at = MARGIN
    for i, (layer, _) in enumerate(layers):
        drawn.append(f'<rect x="{at}" y="{MARGIN - 6}" width="14" height="14" rx="3" fill="{COLOURS[i % len(COLOURS)]}" stroke="#5b616b"/>')
        drawn.append(f'<text x="{at + 20}" y="{MARGIN + 5}" fill="#1b1f24">{escape(layer)}</text>')
        at += round(len(layer) * LETTER) + 44
    return "\n".join([*drawn, "</svg>"]) + "\n"
