#!/usr/bin/env python3
"""goal_steps.py CRATE..: the goals of a crate whose proofs are dearest, in the prover's own steps, which are the same on each machine.

To be run at the top of the repository behind `rt check` of the crate, whose work in out/incremental it reads: it proves nothing and takes
a second. Some six or seven million steps are a second of a processor. A goal of two million and more is a search that an answer spares. A goal
that had no answer at an earlier check is told as it was then until out/ is cleared.
"""
import collections
import glob
import json
import os
import re
import sys

MOST = 25
READER = json.JSONDecoder()


def goals(path):
    """Gives the name and the steps of each declaration that a file of records has."""
    with open(path, encoding="utf-8", errors="replace") as it:
        text = it.read()
    for found in re.finditer(r'\{"aux"', text):
        try:
            told, _ = READER.raw_decode(text, found.start())
        except ValueError:
            continue
        yield told["name"], sum(steps or 0 for steps in told["phases"] or [])


def main(crates):
    if not crates:
        sys.exit(__doc__)
    for crate in crates:
        steps, parts = {}, collections.Counter()
        for path in glob.glob(f"crates/{crate}/out/incremental/*/records/Rattle-{crate}-*.oantt"):
            if "with-holes" in path:
                continue
            module = re.sub(r"(\.decls)?\.oantt$", "", os.path.basename(path)).removeprefix(f"Rattle-{crate}-")
            for name, count in goals(path):
                steps[f"{module} {name}"] = count
                parts[module.rpartition(".")[2].partition("-")[0]] += count
        print(f"{crate}: {sum(parts.values()) / 1e6:.0f} million steps;", ", ".join(f"{part} {count / 1e6:.0f}" for part, count in parts.most_common(5)))
        for goal, count in sorted(steps.items(), key=lambda it: -it[1])[:MOST]:
            print(f"{count / 1e6:8.1f}  {goal}")


if __name__ == "__main__":
    main(sys.argv[1:])
