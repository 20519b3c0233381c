"""The crates as a graph: the edges that remain after transitive reduction, and the row of each crate."""


def reduced(crates):
    """What each crate uses and doesn't come by through another that it uses, in the order of crates.txt."""
    names = [crate.name for crate in crates]
    uses = {crate.name: [name for name in crate.uses if name in names] for crate in crates}
    below = {}

    def all_below(name):
        if name not in below:
            below[name] = set(uses[name]).union(*(all_below(other) for other in uses[name]))
        return below[name]

    def is_direct(name, other):
        return not any(other in all_below(between) for between in uses[name])

    return {name: [other for other in names if other in uses[name] and is_direct(name, other)] for name in names}


def rows_of(edges):
    """The row of each crate, from 0 below: above all that it stands on, and where the edges are shortest."""
    users = {name: [other for other in edges if name in edges[other]] for name in edges}
    rows = {}

    def lowest(name):
        if name not in rows:
            rows[name] = 1 + max((lowest(other) for other in edges[name]), default=-1)
        return rows[name]

    for name in edges:
        lowest(name)
    for _ in range(len(edges)):
        moved = False
        for name in edges:
            low = 1 + max((rows[other] for other in edges[name]), default=-1)
            high = min((rows[other] for other in users[name]), default=low + 1) - 1
            wanted = high if len(users[name]) > len(edges[name]) else low
            if len(users[name]) != len(edges[name]) and edges[name] and wanted != rows[name]:
                rows[name], moved = wanted, True
        if not moved:
            break
    return rows
