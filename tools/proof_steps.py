#!/usr/bin/env python3
"""proof_steps.py [NAME..]: where the seconds of a proof lie, told from the code of the built libraries alone, with no check.

At the top of a checkout. It reads crates/*/out/rlib/*.rlib/toolchain/mir.json of each library that is built there (of those NAMEd
alone, if any), and prints the crates by the seconds that their proofs are likely to take, and then the functions, dearest first:

    SECONDS  CRATE  functions=N lets_go=N
    SECONDS  FUNCTION  steps=N calls=N asks=N drops=N

`steps` are all steps of the code as it is proved, `asks` are uses of `?`, `drops` are calls that let a value go, most of which stand
in no source, and `calls` are the others. `lets_go` tells how many of a crate's functions let a type go: each crate has such
functions of its own for each type that it hands to generic code, those of lower crates among them.

The weights are seconds of a slow machine, fitted to the proofs of 93 crates, of whose differences they tell four fifths. They are of
use to compare, and for nothing else.
"""
import collections
import glob
import json
import os
import sys

CRATE, BELOW = 14.5, 1.2
FUNCTION, LETS_GO, ASK, DROP, CALL = 0.53, 1.0, 0.97, 0.62, 0.32


def word_of(step):
    return step if isinstance(step, str) else next(iter(step))


def callee(step):
    return step["Call"][0].get("Fn", [""])[0]


def function(name, code):
    """Returns what one function's code has of each kind."""
    found = collections.Counter(steps=sum(word_of(it) not in ("Seq", "Skip") for it in code["body"]))
    for step in code["body"]:
        if word_of(step) == "Call":
            to = callee(step)
            if to.endswith("::branch"):
                found["asks"] += 1
            elif not to.endswith("::from_residual"):
                found["drops" if to.endswith("::drop") else "calls"] += 1
    found["lets_go"] = int("+Destruct::" in name or "Destruct++" in name)
    return found


def seconds(it):
    if it["lets_go"]:
        return LETS_GO
    return FUNCTION + ASK * it["asks"] + DROP * it["drops"] + CALL * it["calls"]


def below(name, uses, found):
    for it in uses.get(name, []):
        if it in uses and it not in found:
            found.add(it)
            below(it, uses, found)
    return found


def uses_of(file):
    found = {}
    with open(file, encoding="utf-8") as lines:
        for line in lines:
            name, colon, deps = line.partition("#")[0].partition(":")
            if colon:
                found[name.split()[0]] = deps.split()
    return found


def main(names):
    uses, crates, functions = uses_of("crates.txt"), [], []
    for file in glob.glob("crates/*/out/rlib/*.rlib/toolchain/mir.json"):
        crate = os.path.basename(os.path.dirname(os.path.dirname(file)))[: -len(".rlib")]
        if names and crate not in names:
            continue
        with open(file, encoding="utf-8") as text:
            here = [(name, function(name, code)) for name, code in json.load(text) if "body" in code]
        all_of = CRATE + BELOW * len(below(crate, uses, set())) + sum(seconds(it) for _, it in here)
        crates.append((all_of, crate, len(here), sum(it["lets_go"] for _, it in here)))
        functions += here
    for all_of, crate, count, let_go in sorted(crates, reverse=True):
        print(f"{all_of:7.0f}  {crate}  functions={count} lets_go={let_go}")
    print(f"{sum(it[0] for it in crates) / 60:7.1f}  minutes in {len(crates)} crates")
    for name, it in sorted(functions, key=lambda it: -seconds(it[1]))[:60]:
        print(f"{seconds(it):7.1f}  {name}  steps={it['steps']} calls={it['calls']} asks={it['asks']} drops={it['drops']}")


if __name__ == "__main__":
    main(sys.argv[1:])
