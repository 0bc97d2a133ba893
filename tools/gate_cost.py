#!/usr/bin/env python3
"""gate_cost.py LOG: the processor seconds that each crate's proof, tests and wrong bodies took in a run of the gate, dearest crates first.

    tools/gate_cost.py LOG -- rt ci         runs the gate, notes what its processes use in LOG, and prints the table
    tools/gate_cost.py LOG beside PROCESS   notes what the processes below PROCESS use in LOG, until it is told to end or PROCESS has ended
    tools/gate_cost.py LOG                  prints the table of a LOG that was noted before

`.ci/run` notes its own run by the second form. By the first the gate's own output, which tells no seconds, stands in LOG too, a line
each as it came, and the table counts the wrong bodies that were refused. Beside it stand lines

    cost CRATE PART PROCESS SECONDS

one for each process of the prover that ended: PART is `proof`, `tests` or `edits`, SECONDS are user and system. They are read once in
a while from /proc, so a process is told up to a step short (STEP seconds). Only processes that the gate started are counted. What `rt ci`
kept from an earlier run costs nothing: for the whole cost run it with nothing kept, or with `--anew`.

A processor second does more on one machine than on another, and less where others use the machine. So each minute a line

    clock SECONDS

tells the processor seconds of a loop of ten million additions in python at that time, and the table ends with their mean: two tables
are compared by it.
"""
import collections
import os
import re
import signal
import subprocess
import sys
import threading

STEP = 0.5
CLOCK_STEP = 60
CLOCK = "import time\nfor i in range(2000000): i + i\nprint(5 * time.process_time())"
TICKS = os.sysconf("SC_CLK_TCK")
PARTS = ("proof", "tests", "edits")


def read(path):
    try:
        with open(path, "rb") as it:
            return it.read()
    except OSError:
        return b""


def processes():
    """Returns each process with its parent and the seconds that it has used, those of children that ended not among them."""
    found = {}
    for name in os.listdir("/proc"):
        if name.isdigit():
            fields = read(f"/proc/{name}/stat").rpartition(b")")[2].split()
            if len(fields) > 12:
                found[int(name)] = int(fields[1]), (int(fields[11]) + int(fields[12])) / TICKS
    return found


def is_below(number, top, parents):
    while number in parents and number != top:
        number = parents[number][0]
    return number == top


def of_prover(number):
    """Returns the crate and part that a process of the prover works at, if it is one."""
    words = read(f"/proc/{number}/cmdline").decode(errors="replace").split("\0")
    if not words[0].endswith("/rattle") or "--crate-name" not in words:
        return None
    crate = words[words.index("--crate-name") + 1]
    try:
        room = os.readlink(f"/proc/{number}/cwd")
    except OSError:
        room = ""
    is_edit = "rt-edit" in room or any("rt-edit" in word for word in words)
    return crate, "edits" if is_edit else "tests" if "--test" in words else "proof"


def watch(top, out, is_over):
    """Notes the seconds of each process of the prover below the top one, when it has ended, and of those that run where this is over."""
    known, used = {}, {}
    while True:
        now = processes()
        for number, (_, seconds) in now.items():
            if not known.get(number) and is_below(number, top, now):
                # (a process is a copy of its parent before it is the prover)
                known[number] = of_prover(number)
            if known.get(number):
                used[number] = seconds
        ends = top not in now or is_over.is_set()
        for number in [it for it in used if ends or it not in now]:
            crate, part = known.pop(number)
            out(f"cost {crate} {part} {number} {used.pop(number):.2f}")
        if ends:
            return
        is_over.wait(STEP)


def tell_clock(is_over, out):
    """Notes once a minute how fast the machine is, until the run is over."""
    while not is_over.wait(CLOCK_STEP):
        told = subprocess.run([sys.executable, "-S", "-c", CLOCK], stdout=subprocess.PIPE, text=True, check=False).stdout
        if told:
            out(f"clock {float(told):.2f}")


def line_by_line(file):
    """Gives what writes a line whole, whichever thread calls it."""
    alone = threading.Lock()

    def out(line):
        with alone:
            print(line, file=file, flush=True)

    return out


def run(log, words):
    with open(log, "w", encoding="utf-8") as file:
        out, is_over, never = line_by_line(file), threading.Event(), threading.Event()
        gate = subprocess.Popen(words, stdout=subprocess.PIPE, stderr=subprocess.STDOUT, text=True, errors="replace")
        watcher = threading.Thread(target=watch, args=(gate.pid, out, never))
        watcher.start()
        clock = threading.Thread(target=tell_clock, args=(is_over, out))
        clock.start()
        for line in gate.stdout:
            print(line, end="", flush=True)
            out(line.rstrip("\n"))
        status = gate.wait()
        watcher.join()
        is_over.set()
        clock.join()
    return status


def beside(log, top):
    """Notes what the processes below the top one use, until this process is told to end."""
    with open(log, "w", encoding="utf-8") as file:
        out, is_over = line_by_line(file), threading.Event()
        signal.signal(signal.SIGTERM, lambda *_: is_over.set())
        clock = threading.Thread(target=tell_clock, args=(is_over, out))
        clock.start()
        watch(top, out, is_over)
        is_over.set()
        clock.join()


def table(log):
    seconds, edits, clocks = collections.defaultdict(collections.Counter), collections.Counter(), []
    with open(log, encoding="utf-8", errors="replace") as it:
        for line in it:
            found = re.fullmatch(r"cost (\w+) (\w+) \d+ ([\d.]+)\n?", line)
            if found:
                seconds[found[1]][found[2]] += float(found[3])
            found = re.fullmatch(r"clock ([\d.]+)\n?", line)
            if found:
                clocks.append(float(found[1]))
            found = re.match(r"rt: must-fail (\w+)/\S+: refused", line)
            if found:
                edits[found[1]] += 1
    rows = sorted(seconds.items(), key=lambda row: -sum(row[1].values()))
    refused = (lambda count: f"{count:>9}") if edits else (lambda count: "")
    print(f"{'crate':<20}" + "".join(f"{part:>9}" for part in PARTS) + f"{'all':>9}" + refused("refused"))
    for crate, of in rows:
        print(f"{crate:<20}" + "".join(f"{of[part]:>9.0f}" for part in PARTS) + f"{sum(of.values()):>9.0f}" + refused(edits[crate]))
    whole = [sum(of[part] for _, of in rows) for part in PARTS]
    print(f"{'all':<20}" + "".join(f"{it:>9.0f}" for it in whole) + f"{sum(whole):>9.0f}" + refused(sum(edits.values())))
    if clocks:
        print(f"ten million additions in python: {sum(clocks) / len(clocks):.2f} s on average ({min(clocks):.2f} to {max(clocks):.2f})")


def main(words):
    if len(words) == 3 and words[1] == "beside" and words[2].isdigit():
        return beside(words[0], int(words[2]))
    if not words or "--" in words[:1] or len(words) > 1 and (words[1] != "--" or len(words) < 3):
        sys.exit(__doc__)
    status = run(words[0], words[2:]) if len(words) > 1 else 0
    try:
        table(words[0])
        sys.stdout.flush()
    except BrokenPipeError:
        # (who reads the table, as head, may stop before its end)
        os.dup2(os.open(os.devnull, os.O_WRONLY), sys.stdout.fileno())
    return status


if __name__ == "__main__":
    sys.exit(main(sys.argv[1:]))
