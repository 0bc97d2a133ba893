#!/usr/bin/env python3
"""build_program.py: proves the crates that the program stands on, the lowest first, and builds it. `./sqla` calls it: where the program is
there and no source is newer, nothing is done.

As many crates are proved side by side as there are processors and memory for, first those with the longest chain above them. Standard
error tells each, and about how long the others take (tools/crate_costs.txt). What was proved stays so: a call that was stopped goes on
where it was. There are two ways:

- One run of `rt ci` over a copy of these crates. It keeps each proof beside the kit as soon as it is there, for the gate too. The copy has
  no wrong bodies: the gate tries them, and no proof reads them.
- Where the kit's `rt` has no such run, or can keep nothing: one run of `rt lib` for each crate, over a copy of those below it. What it
  makes is kept in the user's cache, by the sum of all that it was made from.
"""
import contextlib
import fcntl
import glob
import hashlib
import os
import re
import shutil
import signal
import subprocess
import sys
import tempfile
import time

sys.dont_write_bytecode = True
from crate_costs import HERE, PROGRAM, Crates

BUILT = f"{HERE}/crates/{PROGRAM}/out/{PROGRAM}"
LOG = f"{HERE}/.sqla-build.log"
CACHE = os.path.join(os.environ.get("XDG_CACHE_HOME") or os.path.expanduser("~/.cache"), "sqla-build")
# What is no part of a proof.
LEFT_OUT = ("out", "must-fail")
# The most memory that one process is reckoned with.
MOST = 6_000_000_000
GROUP = "/sys/fs/cgroup"
# (rt is to keep what it finds out about a crate: tools/rt_memory tells why)
ENVIRONMENT = {**os.environ, "PYTHONPATH": os.pathsep.join([f"{HERE}/tools/rt_memory", *filter(None, [os.environ.get("PYTHONPATH")])])}
RUNNING = []


def say(text):
    print(f"sqla: {text}", file=sys.stderr, flush=True)


def files_of(folder):
    """Returns the files and folders that a proof of the crate reads, and their times change with."""
    found = []
    for part in sorted(it for it in os.listdir(folder) if it not in LEFT_OUT):
        found.append(f"{folder}/{part}")
        for at, folders, names in os.walk(f"{folder}/{part}"):
            folders.sort()
            found += [f"{at}/{it}" for it in [*folders, *sorted(names)]]
    return found


def is_fresh(crates):
    """Returns whether the program is there and no source of its crates is newer."""
    if not os.path.isfile(BUILT):
        return False
    made = os.stat(BUILT).st_mtime_ns
    sources = [f"{HERE}/crates.txt", *(it for name in crates.names for it in files_of(f"{HERE}/crates/{name}"))]
    return all(os.lstat(it).st_mtime_ns <= made for it in sources)


def first_line(file):
    """Returns the words of the file's first line, or none where it cannot be read."""
    with contextlib.suppress(OSError), open(file, encoding="utf-8") as it:
        return it.readline().split()
    return []


def processors():
    """Returns how many processes are to run side by side: as RT_JOBS says, which `rt ci` reads too, or one for each processor."""
    wanted, found = os.environ.get("RT_JOBS", ""), len(os.sched_getaffinity(0))
    quota = first_line(f"{GROUP}/cpu.max")
    if quota and quota[0].isdigit():
        found = min(found, max(int(quota[0]) // int(quota[1]), 1))
    return int(wanted) if wanted.isdigit() and int(wanted) else found


def memory():
    """Returns the bytes of memory to reckon with, of the machine and of the group that the process is in."""
    with open("/proc/meminfo", encoding="utf-8") as it:
        free = 1024 * int(re.search(r"MemAvailable:\s+(\d+)", it.read())[1])
    limit, used = first_line(f"{GROUP}/memory.max"), first_line(f"{GROUP}/memory.current")
    if limit and used and limit[0].isdigit():
        free = min(free, int(limit[0]) - int(used[0]))
    return 0.85 * free


def in_words(minutes):
    return f"about {minutes} minutes" if minutes > 1 else "about a minute" if minutes else "less than a minute"


class Progress:
    """Tells each crate as it is done, and about how long the others take."""

    def __init__(self, crates, lanes):
        self.crates, self.lanes, self.left, self.proved, self.began = crates, lanes, [*crates.names], [], time.monotonic()

    def minutes(self):
        told = self.crates.seconds(self.left, self.lanes)
        gone = self.crates.seconds([it for it in self.crates.names if it in self.left or it in self.proved], self.lanes) - told
        # (the machine may be slower or faster than the one of which the costs tell)
        pace = (time.monotonic() - self.began) / gone if gone >= 100 else 1
        return round(pace * told / 60)

    def done(self, name, is_new):
        self.left.remove(name)
        self.proved += [name] * is_new
        place = f"{len(self.crates.names) - len(self.left)} of {len(self.crates.names)}"
        more = f"; {in_words(self.minutes())} more" if self.left else ""
        say(f"{place}, {name} is proved{'' if is_new else ' already'}{more}")


def lay_out(crates, names, top):
    """Makes a repository of copies of these crates alone, without what is no part of a proof."""
    for name in names:
        folder = f"{HERE}/crates/{name}"
        leave_out = lambda at, _, folder=folder: LEFT_OUT if at == folder else ()
        shutil.copytree(folder, f"{top}/crates/{name}", ignore=leave_out, ignore_dangling_symlinks=True)
    with open(f"{top}/crates.txt", "w", encoding="utf-8") as it:
        it.writelines(f"{crates.lines[name]}\n" for name in names)
    shutil.copyfile(f"{HERE}/HANDLES", f"{top}/HANDLES")


@contextlib.contextmanager
def room():
    """Gives a new folder in the user's cache. Afterwards what runs there is ended and it is removed, as are those of calls that were killed."""
    os.makedirs(CACHE, exist_ok=True)
    for name in os.listdir(CACHE):
        found = re.match(r"room-(\d+)-", name)
        if found and not os.path.exists(f"/proc/{found[1]}"):
            shutil.rmtree(f"{CACHE}/{name}", ignore_errors=True)
    top = tempfile.mkdtemp(prefix=f"room-{os.getpid()}-", dir=CACHE)
    try:
        yield top
    finally:
        for run in RUNNING:
            run.terminate()
            run.wait()
        shutil.rmtree(top, ignore_errors=True)


def start(words, at, out):
    how = {"stdin": subprocess.DEVNULL, "stdout": out, "stderr": subprocess.STDOUT, "text": True, "errors": "replace"}
    run = subprocess.Popen(words, cwd=at, env=ENVIRONMENT, **how)
    RUNNING.append(run)
    return run


def keeps():
    """Returns whether the kit's rt has `rt ci`, and can keep beside the kit what it proved."""
    ask = {"stdin": subprocess.DEVNULL, "stdout": subprocess.PIPE, "stderr": subprocess.STDOUT, "text": True}
    help_of = subprocess.run(["rt", "help"], **ask, check=False).stdout
    page = subprocess.run(["rt", "doc"], **ask, check=False).stdout.strip()
    keeps_any = re.search(r"^ *rt ci\b", help_of, re.M) and re.search(r"kept\s+(beside the kit|on this machine)", help_of)
    if not keeps_any or not os.path.isfile(page):
        return False
    kept = f"{os.path.dirname(os.path.dirname(page))}/rattle-kept"
    if os.path.isdir(kept):
        return os.stat(kept).st_uid == os.geteuid()
    return os.access(os.path.dirname(kept), os.W_OK)


def refuse(what, said):
    say(f"{what}:")
    print(*said[-30:], sep="", end="", file=sys.stderr, flush=True)


def by_one_run(crates, progress, log, top):
    """Proves the crates by one run of `rt ci`, and returns the program, or None where that failed."""
    lay_out(crates, crates.names, top)
    # (rt ci wants to stand at the top of a repository)
    os.mkdir(f"{top}/.git")
    run, said, is_told = start(["rt", "ci"], top, subprocess.PIPE), [], False
    for line in run.stdout:
        line = line.replace(top, HERE)
        print(line, end="", file=log, flush=True)
        said = [line] if line.startswith("== ") else [*said, line]
        found = re.match(r"rt: (\w+) (is kept:|proved$|NOT PROVED$)", line)
        if found and found[2] == "NOT PROVED":
            refuse(f"{found[1]} is not proved", said)
            is_told = True
        elif found and found[1] in progress.left:
            progress.done(found[1], found[2] == "proved")
    if run.wait() == 0:
        return f"{top}/crates/{PROGRAM}/out/{PROGRAM}"
    if not is_told:
        refuse("rt ci failed", said)
    return None


class Apart:
    """Proves each crate by a run of its own, over what the runs for those below it made."""

    def __init__(self, crates, progress, log, top):
        self.crates, self.progress, self.log, self.top, self.places, self.lengths = crates, progress, log, top, {}, {}
        version = subprocess.run(["rt", "version"], stdin=subprocess.DEVNULL, stdout=subprocess.PIPE, check=False).stdout
        os.makedirs(f"{CACHE}/made", exist_ok=True)
        for name in crates.names:
            made_from = hashlib.sha256(repr((version, crates.lines[name], [self.places[it] for it in crates.uses[name]])).encode())
            self.lengths[name], folder = 0, f"{HERE}/crates/{name}"
            for path in filter(os.path.isfile, files_of(folder)):
                with open(path, "rb") as it:
                    text = it.read()
                made_from.update(repr((os.path.relpath(path, folder), text)).encode())
                self.lengths[name] += text.count(b"\n") if path.endswith(".rt") else 0
            self.places[name] = f"{CACHE}/made/{name}-{made_from.hexdigest()[:32]}"

    def need(self, name):
        """Returns the memory that a proof of this crate is reckoned with."""
        below = sum(self.lengths[it] for it in self.crates.below(name))
        return min(MOST, 1_000_000_000 + 1_000_000 * self.lengths[name] + 100_000 * below)

    def begin(self, name, jobs):
        """Starts the proof of one crate, in a repository of its own: rt has two runs wait for each other where they share a crate."""
        top, below = f"{self.top}/{name}", self.crates.below(name)
        lay_out(self.crates, [*below, name], top)
        for it in below:
            shutil.copytree(self.places[it], f"{top}/crates/{it}/out/rlib", copy_function=os.link)
        with open(f"{top}/said", "w", encoding="utf-8") as said:
            return start(["rt", "run" if name == PROGRAM else "lib", "--jobs", str(jobs)], f"{top}/crates/{name}", said)

    def end(self, name, status):
        """Keeps what a proof made, and returns whether it was proved."""
        top = f"{self.top}/{name}"
        with open(f"{top}/said", encoding="utf-8", errors="replace") as it:
            said = [line.replace(top, HERE) for line in it]
        print(f"== {name}\n", *said, sep="", end="", file=self.log, flush=True)
        if status:
            refuse(f"{name} is not proved", said)
        else:
            # (what was made of other sources is not wanted any more)
            for it in glob.glob(f"{CACHE}/made/{name}-*"):
                remove = os.remove if os.path.isfile(it) else shutil.rmtree
                remove(it)
            os.rename(f"{top}/crates/{name}/out/{PROGRAM if name == PROGRAM else 'rlib'}", self.places[name])
            self.progress.done(name, True)
        shutil.rmtree(top)
        return status == 0

    def prove_all(self):
        """Proves the crates and returns the program, or None where one failed."""
        for name in [it for it in self.crates.names if os.path.exists(self.places[it])]:
            self.progress.done(name, False)
        left, undone, running, lanes, free = [*self.progress.left], {*self.progress.left}, {}, self.progress.lanes, memory()
        while undone:
            for name in self.crates.ready(left, undone):
                held = sum(self.need(it) for it in running)
                if len(running) < lanes and (not running or held + self.need(name) <= free):
                    left.remove(name)
                    is_alone = not running and not self.crates.ready(left, undone)
                    running[name] = self.begin(name, min(lanes, 4) if is_alone else 1)
            if not running:
                return None
            while all(run.poll() is None for run in running.values()):
                time.sleep(0.2)
            for name in [it for it, run in running.items() if run.poll() is not None]:
                if self.end(name, running.pop(name).returncode):
                    undone.remove(name)
        return self.places[PROGRAM]


def put(program, began):
    """Puts the program into its place, with the time at which its sources were read."""
    os.makedirs(os.path.dirname(BUILT), exist_ok=True)
    shutil.copyfile(program, f"{BUILT}.new")
    os.chmod(f"{BUILT}.new", 0o755)
    os.utime(f"{BUILT}.new", (began, began))
    os.replace(f"{BUILT}.new", BUILT)


def build(crates, log):
    began, progress = time.time(), Progress(crates, processors())
    say("there is no program yet, or a source is newer")
    say(f"{len(crates.names)} crates are to be proved, from nothing in {in_words(progress.minutes())}")
    with room() as top:
        program = by_one_run(crates, progress, log, top) if keeps() else Apart(crates, progress, log, top).prove_all()
        if program is None:
            say(f"the program could not be built; the whole log is {LOG}")
            return 1
        put(program, began)
    return 0


def main():
    crates = Crates()
    if is_fresh(crates):
        return 0
    if not shutil.which("rt"):
        say("the command rt of the kit is not on the PATH")
        return 1
    for it in (signal.SIGTERM, signal.SIGHUP, signal.SIGINT):
        signal.signal(it, lambda number, _: sys.exit(128 + number))
    with open(LOG, "a", encoding="utf-8") as log:
        try:
            fcntl.flock(log, fcntl.LOCK_EX | fcntl.LOCK_NB)
        except BlockingIOError:
            say("another call is building the program; waiting for it")
            fcntl.flock(log, fcntl.LOCK_EX)
            if is_fresh(crates):
                return 0
        log.truncate(0)
        return build(crates, log)


if __name__ == "__main__":
    sys.exit(main())
