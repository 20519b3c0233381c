"""How far a proof is: in percent of the known cost, and how long the rest takes."""
import os
import re

import sources

# A row of docs/GATE.md: the crate, its functions and lines, and the seconds of a processor that its proof took there.
ROW = re.compile(r"^\| (\w+) \| *[\d,]* *\| *[\d,]+ \| *([\d,]+) \|", re.MULTILINE)
# Of a crate without a row.
USUAL_SECONDS = 30
# How many times as fast a proof is with more processors, as seen of large crates.
GAIN = {1: 1.0, 2: 1.9, 3: 2.7, 4: 3.3}


def costs():
    """Of each crate that the program needs the seconds of a processor that its proof took when docs/GATE.md was written."""
    page = sources.ROOT / "docs" / "GATE.md"
    told = {crate: int(seconds.replace(",", "")) for crate, seconds in ROW.findall(page.read_text() if page.exists() else "")}
    return {crate: told.get(crate, USUAL_SECONDS) for crate in sources.needed()}


def expected_ends(cost, runs, processors):
    """Of each crate the second in which its proof would end here, were this machine as fast as the one of docs/GATE.md, where each of these runs proves
    those of its crates that no run before it does. As `rt ci` has it, the crates with the longest chain behind them come first; what is idle as a crate begins
    is shared out among those of its run that are ready, each of which counts for two, its proof and its tests; and a crate gets no more later."""
    used, behind = sources.libraries(), {}

    def chain(crate):
        if crate not in behind:
            behind[crate] = cost[crate] + max((chain(user) for user in cost if crate in used[user]), default=0)
        return behind[crate]

    ends, under_way, now = {}, {}, 0.0
    while len(ends) < len(cost):
        for crates in runs:
            ready = [crate for crate in crates if crate not in ends and crate not in under_way and all(it in ends for it in used[crate])]
            ready.sort(key=chain, reverse=True)
            for at, crate in enumerate(ready):
                idle = processors - sum(jobs for _, jobs in under_way.values())
                if idle > 0:
                    jobs = max(1, min(4, idle // (2 * len(ready) - at)))
                    under_way[crate] = now + cost[crate] / GAIN[jobs], jobs
        crate = min(under_way, key=lambda it: under_way[it][0])
        now, _ = under_way.pop(crate)
        ends[crate] = now
    return ends


def processors():
    return len(os.sched_getaffinity(0))


def clock(seconds):
    return f"{int(seconds) // 60} min {int(seconds) % 60:02} s"


class Progress:
    """What was proved so far, and what that says of the rest."""

    def __init__(self, runs):
        self.runs = runs
        self.cost = costs()
        self.whole = sum(self.cost.values())
        self.left = dict(self.cost)
        self.ends = expected_ends(self.left, self.runs, processors())
        self.untold = set(self.cost)
        self.done = 0
        self.pace = None

    def kept(self, crate):
        """Takes note that a crate was proved by an earlier build."""
        self.untold.remove(crate)
        self.done += self.cost[crate]
        self.left[crate] = 0
        self.ends = expected_ends(self.left, self.runs, processors())

    def proved(self, crate, gone):
        """Takes note that a crate was proved, these seconds after the start."""
        self.untold.remove(crate)
        self.done += self.cost[crate]
        self.pace = gone / max(self.reached(), 1)

    def reached(self):
        """The second in which as much would be proved here, were this machine as fast as the one of docs/GATE.md."""
        proved = 0
        for crate, end in sorted(self.ends.items(), key=lambda it: it[1]):
            proved += self.cost[crate]
            if proved >= self.done:
                break
        return end

    def told(self, gone):
        """How far it is, these seconds after the start."""
        line, whole = f"{min(99, 100 * self.done // self.whole)} % of the work, {clock(gone)}", max(self.ends.values())
        if self.pace:
            return f"{line}, about {clock(max(self.pace * whole - gone, 5))} left"
        return f"{line}, about {clock(whole)} left on the machine of docs/GATE.md"
