"""How long proofs still take: by the table of costs in docs/WORKING.md, and by what the run has taken so far."""

import os
import re

from repository import TOP

# What a crate takes that the table lacks, in seconds of a processor, and the least that one still takes that is at work.
UNKNOWN, LEAST = 30.0, 2.0
# What a crate takes that an earlier run had proved, what the program's own build takes then, and how long a crate is at work
# that wasn't proved before.
KEPT, BUILT, SLOW = 1.0, 40.0, 20.0


def read_costs():
    """The seconds of a processor that each crate's proof takes."""
    text = (TOP / "docs" / "WORKING.md").read_text(encoding="utf-8")
    return {name: float(seconds) for name, seconds in re.findall(r"^\| `(\w+)` \| [\d-]+ \| (\d+) \|", text, re.M)}


def seconds_of(crates, costs, lanes):
    """How long these crates take side by side: those with the longest chain of others behind them first, each after those below
    it. One that no other waits beside gets more processors, and gains a third of each."""
    behind = {}
    for name in reversed(list(crates)):
        behind[name] = behind.get(name, 0.0) + costs[name]
        for below in crates[name].below:
            behind[below] = max(behind.get(below, 0.0), behind[name])
    left, running, ended, now = sorted(crates, key=lambda it: -behind[it]), {}, set(), 0.0
    while left or running:
        ready = [it for it in left if all(below in ended or below not in crates for below in crates[it].below)]
        for at, name in enumerate(ready):
            idle = lanes - sum(jobs for _, jobs in running.values())
            if idle < 1:
                break
            jobs = max(1, min(4, idle // (len(ready) - at)))
            running[name] = (now + costs[name] / (1 + (jobs - 1) / 3), jobs)
            left.remove(name)
        first = min(running, key=lambda it: running[it][0])
        now = running.pop(first)[0]
        ended.add(first)
    return now


class Clock:
    """What a run over these crates has taken, and what is left of it."""

    def __init__(self, crates, costs, lanes=None):
        self.crates, self.lanes = crates, lanes or len(os.sched_getaffinity(0))
        self.costs = {name: costs.get(name, UNKNOWN) for name in crates}
        self.begun, self.rate = {}, 1.0

    def left(self, seconds, done, kept=()):
        """The seconds that are left after so many, if these crates are done, some of them kept from earlier runs. As long as all
        were kept, so will the rest be. Where too little is done to tell how fast this machine is, it is as the table has it."""
        if done and set(done) <= set(kept) and all(name in done or seconds - at < SLOW for name, at in self.begun.items()):
            return KEPT * (len(self.crates) - len(done)) + BUILT
        costs = {name: 0.0 if name in kept else cost for name, cost in self.costs.items()}
        busy = sum(name not in done for name in self.begun)
        gain = 1 + (max(1, min(4, self.lanes // max(busy, 1))) - 1) / 3
        rest = {name: max(cost - gain * (seconds - self.begun.get(name, seconds)) / self.rate, LEAST) for name, cost in costs.items() if name not in done}
        whole = seconds_of(self.crates, costs, self.lanes)
        left = seconds_of({name: it for name, it in self.crates.items() if name in rest}, rest, self.lanes)
        if whole - left > 0.05 * whole:
            self.rate = seconds / (whole - left)
        return self.rate * left

    def begins(self, name, seconds):
        self.begun.setdefault(name, seconds)
