"""Which crates a program or a library for C needs, and in which order they are proved.

    plan = Plan(TOP, "cadf")
    for name in plan.next(waiting, done, running, lanes):
        jobs = plan.jobs(name, others, lanes)
"""
import os

from build import record

# What a crate costs in seconds at one job on a usual machine, by its lines of code: enough for an order and an estimate.
FIRST_SECONDS, LINES_A_SECOND = 10, 7
# What a target costs besides, whose code is made: the code of all crates.
CODE_SECONDS = 240
# How many processors a proof with so many jobs keeps busy. With more it ends no sooner.
BUSY = {1: 1.0, 2: 1.9, 3: 2.7, 4: 3.4}
# What a proof costs with several jobs, by what it costs with one.
SEVERAL = 1.3


def listed(top):
    """The crates of crates.txt by name, each with all that its line says it depends on, in the order of the file."""
    with open(os.path.join(top, "crates.txt"), encoding="utf-8") as file:
        lines = [line.split("#")[0] for line in file]
    return {line.split(":")[0].split()[0]: line.split(":")[1].split() for line in lines if ":" in line}


def static_libraries(top):
    """The crates of crates.txt that are libraries for C."""
    with open(os.path.join(top, "crates.txt"), encoding="utf-8") as file:
        return {line.split()[0] for line in file if line.split(":")[0].split()[1:] == ["staticlib"]}


def crates_of(top):
    """The crates of crates.txt by name, each with those of the repository that it depends on, in the order of the file."""
    found = listed(top)
    return {name: [other for other in uses if other in found] for name, uses in found.items()}


def code_lines(top, name):
    """Counts the lines of code of the crate."""
    count = 0
    for path in record.sources(top, name):
        if path.endswith(".rt"):
            with open(path, "rb") as file:
                count += file.read().count(b"\n")
    return count


class Plan:
    """The crates that targets need, with the targets, whose code takes so many seconds besides."""

    def __init__(self, top, *targets, code=CODE_SECONDS):
        self.uses = crates_of(top)
        self.names = set(targets).union(*map(self.below, targets))
        self.costs = {name: FIRST_SECONDS + code_lines(top, name) / LINES_A_SECOND
                      for name in self.names}
        for target in targets:
            self.costs[target] += code
        # What the longest chain of crates from each one up costs. The file has a crate before those that use it.
        self.chains = {}
        for name in reversed([one for one in self.uses if one in self.names]):
            above = [self.chains[other] for other in self.chains if name in self.uses[other]]
            self.chains[name] = self.costs[name] + max(above, default=0)

    def below(self, name):
        """All crates that the crate depends on, directly or not."""
        found = set(self.uses[name])
        for other in self.uses[name]:
            found |= self.below(other)
        return found

    def above(self, names):
        """These crates and all that depend on them, directly or not."""
        return {name for name in self.uses if names & (self.below(name) | {name})}

    def first(self, names):
        """The crate of these from which the longest chain of crates goes up: all others can wait for it."""
        return min(names, key=lambda name: (-self.chains[name], name))

    def urgent(self, running, waiting):
        """The crates of those that run that go before the others: the first, and what the first of those that wait needs."""
        needed = self.below(self.first(waiting)) if waiting else set()
        return {self.first(running)} | needed.intersection(running)

    def next(self, waiting, done, running, lanes):
        """Yields the crates to begin beside those that run, the longest chain first.

        As many crates as lanes are proved at once: a proof has steps that only one job can do. The urgent ones go before the
        others, which get what those leave idle.
        """
        ready = [name for name in waiting if done.issuperset(self.uses[name])]
        while ready and len(running) < lanes:
            name = self.first(ready)
            ready.remove(name)
            running = {*running, name}
            yield name

    def jobs(self, name, others, lanes):
        """How many jobs the crate gets where these others aren't proved yet.

        One costs least, so it gets one where it and the chain above it then still take no longer than the longest chain of
        the others.
        """
        most = min(lanes, max(BUSY))
        speed, cost = BUSY[most] / SEVERAL, self.costs[name]
        with_one = cost + (self.chains[name] - cost) / speed
        longest = max((self.chains[other] for other in others), default=0) / speed
        return 1 if with_one <= longest else most

    def left(self, done, lanes):
        """The seconds until all is proved where these are, as if every processor were busy until then."""
        return sum(self.costs[name] for name in self.names.difference(done)) * SEVERAL / BUSY[min(lanes, max(BUSY))]
