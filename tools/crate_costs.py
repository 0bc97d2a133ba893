#!/usr/bin/env python3
"""crate_costs.py: what the proofs of the program's crates cost, and in what time they can be had.

    tools/crate_costs.py                tells their sum, the longest chain of crates, the dearest ten, and the minutes on some processors
    tools/crate_costs.py note < TABLE   notes the costs anew, from a table as tools/gate_cost.py prints it and .ci/run behind the gate

tools/crate_costs.txt has a line CRATE SECONDS for each crate that the program stands on, itself included: the processor seconds of its
proof, and of the compilers too where it is a program. A crate that TABLE does not have, or whose proof an earlier run kept, stays as it
was noted.
"""
import os
import re
import signal
import sys

HERE = os.path.dirname(os.path.dirname(os.path.realpath(__file__)))
TABLE = f"{HERE}/tools/crate_costs.txt"
PROGRAM = "sqla"


def listed():
    """Returns the crates of crates.txt, each with its line and those of them that it uses."""
    lines = {}
    with open(f"{HERE}/crates.txt", encoding="utf-8") as it:
        for line in it:
            words = line.partition("#")[0].partition(":")[0].split()
            if words:
                lines[words[0]] = line.partition("#")[0].strip()
    uses = {name: re.split(r"[\s,]+", line.partition(":")[2]) for name, line in lines.items()}
    return {name: (line, [it for it in uses[name] if it in lines]) for name, line in lines.items()}


class Crates:
    """The crates that the program stands on, the lowest first and itself last, with their costs."""

    def __init__(self):
        every = listed()
        self.names, self.lines, self.uses = [], {}, {}
        self.add(every, PROGRAM)
        noted = {}
        if os.path.isfile(TABLE):
            with open(TABLE, encoding="utf-8") as it:
                noted = {name: int(seconds) for name, seconds in (line.split() for line in it)}
        usual = sum(noted.values()) // len(noted) if noted else 100
        self.costs = {name: noted.get(name, usual) for name in self.names}
        self.chains = self.chains_of(self.names)

    def add(self, every, name):
        if name not in self.uses:
            self.lines[name], self.uses[name] = every[name]
            for it in self.uses[name]:
                self.add(every, it)
            self.names.append(name)

    def below(self, name):
        """Returns the crates below this one, the lowest first."""
        found = set()
        for it in reversed(self.names):
            if it == name or it in found:
                found.update(self.uses[it])
        return [it for it in self.names if it in found]

    def chains_of(self, names):
        """Returns for each of these crates the seconds of the dearest chain from it up to the program, one standing on the other."""
        found = dict.fromkeys(names, 0)
        for name in reversed(names):
            found[name] += self.costs[name]
            for it in self.uses[name]:
                if it in found:
                    found[it] = max(found[it], found[name])
        return found

    def dearest_chain(self):
        chain = [max(self.names, key=self.chains.get)]
        while chain[-1] != PROGRAM:
            above = [it for it in self.names if chain[-1] in self.uses[it]]
            chain.append(max(above, key=self.chains.get))
        return chain

    def ready(self, left, undone):
        """Returns those of the crates left that stand on nothing undone, the dearest chain first."""
        found = [it for it in left if not any(lower in undone for lower in self.uses[it])]
        return sorted(found, key=lambda it: -self.chains[it])

    def seconds(self, names, lanes):
        """Returns the seconds that so many processes side by side take for these crates, where all others are proved."""
        left, undone, ends, now = [*names], {*names}, {}, 0
        while undone:
            for name in self.ready(left, undone)[: lanes - len(ends)]:
                left.remove(name)
                ends[name] = now + self.costs[name]
            first = min(ends, key=ends.get)
            now = ends.pop(first)
            undone.remove(first)
        return now


def tell(crates):
    whole, chain = sum(crates.costs.values()), crates.dearest_chain()
    print(f"{len(crates.names)} crates: {whole} s, {whole / 60:.0f} minutes")
    print(f"the longest chain: {crates.chains[chain[0]]} s, {crates.chains[chain[0]] / 60:.0f} minutes")
    print("   ", *(f"{it} {crates.costs[it]}" for it in chain))
    dearest = sorted(crates.names, key=lambda it: -crates.costs[it])[:10]
    print("the dearest:", *(f"{it} {crates.costs[it]}" for it in dearest))
    for lanes in (1, 2, 4, 8):
        print(f"minutes on {lanes} processor{'s' * (lanes > 1)}: {crates.seconds(crates.names, lanes) / 60:.0f}")


def note(crates, table):
    rows = [re.match(r"(\w+) +(\d+) +\d+ +\d+ +\d+\b", line) for line in table]
    costs = {row[1]: int(row[2]) for row in rows if row and row[2] != "0"}
    with open(TABLE, "w", encoding="utf-8") as it:
        for name in crates.names:
            print(name, costs.get(name, crates.costs[name]), file=it)


if __name__ == "__main__":
    if sys.argv[1:] == ["note"]:
        note(Crates(), sys.stdin)
    elif sys.argv[1:]:
        sys.exit(__doc__)
    else:
        signal.signal(signal.SIGPIPE, signal.SIG_DFL)
        tell(Crates())
