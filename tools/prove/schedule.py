"""Which crates are proved in which order: crates.txt, what waits for what, and how long that takes by some minutes for
each crate. make-libraries goes by it, and gate-times plays it for docs/GATE.md."""
import os

TOP = os.path.dirname(os.path.dirname(os.path.dirname(os.path.realpath(__file__))))
# As many as rt itself gives a check.
MOST_JOBS = 4
# So many times as fast as with one job a crate is proved with more.
SPEED = {1: 1.0, 2: 1.7, 3: 2.2, 4: 2.6}


def crates():
    """The crates of crates.txt, lowest first, each with those of this repository that it uses."""
    found = {}
    with open(f"{TOP}/crates.txt", encoding="utf-8") as lines:
        for line in lines:
            name, colon, used = line.partition(":")
            if colon and not line.startswith("#"):
                found[name.split()[0]] = [it for it in used.split() if it in found]
    return found


def below(uses, name):
    """All that a crate stands on, lowest first."""
    wanted = {name}
    for it in reversed(list(uses)):
        if it in wanted:
            wanted.update(uses[it])
    return [it for it in uses if it in wanted and it != name]


def is_program(name):
    return os.path.exists(f"{TOP}/crates/{name}/src/main.rt")


def chains_of(names, uses, guesses):
    """The longest chain that each crate begins, of crates that wait one for another."""
    chains = {}
    for it in reversed(names):
        chains[it] = guesses[it] + max((chains[other] for other in chains if it in uses[other]), default=0)
    return chains


class Schedule:
    """Which crates are made at what time, so many at once."""

    def __init__(self, names, uses, jobs, guesses):
        self.uses, self.jobs, self.guesses = uses, jobs, guesses
        self.chains = chains_of(names, uses, guesses)
        self.waiting, self.running = list(names), {}

    def is_late(self, name):
        """Whether all would wait for what a crate begins, once everything else is done, even with two jobs for each."""
        left = sum(self.guesses[it] for it in self.waiting) + sum(self.guesses[it] for it in self.running) / 2
        return self.chains[name] / SPEED[2] * self.jobs > left

    def is_ready(self, name):
        return not any(it in self.waiting or it in self.running for it in self.uses[name])

    def next(self):
        """The crate that is to be made now, if one is, and its jobs."""
        ready = sorted(filter(self.is_ready, self.waiting), key=lambda it: -self.chains[it])
        idle = self.jobs - sum(self.running.values())
        if not ready or len(self.running) >= self.jobs:
            return None
        name = ready[0]
        least = min(2, self.jobs) if self.is_late(name) else 1
        if idle < 0 or (idle == 0 and least == 1):
            return None
        self.waiting.remove(name)
        most = 2 if is_program(name) else MOST_JOBS
        self.running[name] = max(least, min(most, idle // len(ready)))
        return name, self.running[name]

    def played(self, left):
        """How long it takes to its end, by what is left of each crate that waits or is being made."""
        sim, left, passed = Schedule(self.waiting, self.uses, self.jobs, self.guesses), dict(left), 0.0
        sim.chains, sim.running = self.chains, dict(self.running)
        while sim.waiting or sim.running:
            while sim.next():
                pass
            step = min(left[it] / SPEED[jobs] for it, jobs in sim.running.items())
            passed += step
            for it, jobs in list(sim.running.items()):
                left[it] -= step * SPEED[jobs]
                if left[it] < 1e-6:
                    del sim.running[it]
        return passed
