#!/usr/bin/env python3
"""Proves and compiles the program by rt ci in a copy of its sources. Says before what that takes, then how far it is.

    tools/build.py NAME TREE      NAME stands before each line; TREE is the copy, as tools/program.sh makes it

Ends with 0 where the program was proved, compiled and tried, and lies in the copy; with 3 and a line where it doesn't,
or where the disk or the memory is too small. What a build takes stands in tools/prices.txt.
"""
import os
import re
import shutil
import signal
import stat
import subprocess
import sys
import time
from pathlib import Path

sys.dont_write_bytecode = True
PRICES = Path(__file__).resolve().parent / "prices.txt"
# Seconds between two looks at how far it is, and the most between two lines.
LOOK, EVERY = 1, 50
# So many times as long as the table says it takes on a slow machine.
SLOW = 1.7
# So many seconds of the table weigh as much as those that were measured in this run.
TRUSTED = 60
# rt keeps nothing more on a disk with fewer megabytes left.
RT_LEAVES = 5000
SHOWN = 40


class Fault(Exception):
    """Why the program isn't built."""


def commands(lanes):
    """The commands that build the program, one after the other, each with what it gets beside the environment.

    With RT_JOBS rt takes so many crates side by side, each by one process. Without, it gives a crate up to four where
    processors are idle, and then a crate is sooner over but takes two to three times the processor time.
    """
    return [(["rt", "ci"], {"RT_JOBS": str(lanes)})]


def show(text):
    """Writes to standard error; where that is lost, the status still tells. Also called while a signal is handled."""
    try:
        os.write(2, text.encode(errors="replace"))
    except OSError:
        pass


def say(what):
    """A line on standard error, after the command's name."""
    show(f"{sys.argv[1]}: {what}\n")


# --- what it takes ---


class Costs:
    """What it takes to build these crates: the seconds and the megabytes of each, and the megabytes of disk."""

    def __init__(self, text, below):
        rows = [line.split() for line in text.splitlines() if line.strip() and not line.startswith("#")]
        known = {row[0]: (int(row[1]), int(row[2])) for row in rows if len(row) == 3}
        # a crate that nobody has measured yet is taken for a middling one
        middling = sorted(known.values())[len(known) // 2]
        self.disk = next(int(row[1]) for row in rows if row[0] == "disk")
        self.below = below
        self.seconds = {it: known.get(it, middling)[0] for it in below}
        self.megabytes = {it: known.get(it, middling)[1] for it in below}
        self.largest = max(self.megabytes.values())

    def peak(self, lanes):
        """The most memory that so many crates side by side take."""
        return max(sum(self.megabytes[it] for it in busy) for _, busy in steps(self.seconds, self.below, lanes))

    def lanes(self, processors, free):
        """How many crates go side by side: as many as there are processors and the memory holds, with some to spare."""
        return max((n for n in range(1, processors + 1) if self.peak(n) <= 0.85 * free), default=1)


def steps(left, below, lanes, begun=()):
    """How crates follow one another of which so many seconds are left: pairs of a time and those that ran until then.

    As many are taken side by side as there are lanes: first those that have begun, and then those with the longest
    chain of others above them, as rt takes them.
    """
    behind = dict(left)
    for it in reversed([it for it in below if it in left]):
        for dep in below[it]:
            if dep in left:
                behind[dep] = max(behind[dep], left[dep] + behind[it])
    waiting, ends, now = sorted(left, key=lambda it: (it not in begun, -behind[it])), {}, 0
    while waiting or ends:
        ready = [it for it in waiting if not any(dep in waiting or dep in ends for dep in below[it])]
        for it in ready[: lanes - len(ends)]:
            waiting.remove(it)
            ends[it] = now + left[it]
        busy = list(ends)
        now = ends.pop(min(ends, key=ends.get))
        yield now, busy


def time_of(left, below, lanes, begun=()):
    """How many seconds that takes."""
    return max((now for now, _ in steps(left, below, lanes, begun)), default=0)


def read_crates(tree):
    """The crates of the copy, lowest first, each with those of them that it stands on."""
    crates = {}
    for line in (tree / "crates.txt").read_text().splitlines():
        head, _, below = line.partition(":")
        crates[head.split()[0]] = below.split()
    return {it: [dep for dep in below if dep in crates] for it, below in crates.items()}


# --- the machine ---


def number_in(file, pattern):
    """The number that a file of the system tells, or None."""
    try:
        return int(re.search(pattern, Path(file).read_text(), re.M)[1])
    except (OSError, TypeError):
        return None


def processors():
    """How many processors there are to use: those that may be run on, and no more than the control group's quota."""
    found = len(os.sched_getaffinity(0))
    quota, period = (number_in("/sys/fs/cgroup/cpu.max", it) for it in (r"^(\d+)", r" (\d+)"))
    return min(found, max(quota // period, 1)) if quota and period else found


def free_memory():
    """The megabytes of memory that can be had, also by the control group's limit."""
    found = [number_in("/proc/meminfo", r"^MemAvailable:\s+(\d+)") // 1024]
    limit = number_in("/sys/fs/cgroup/memory.max", r"^(\d+)")
    held = number_in("/sys/fs/cgroup/memory.stat", r"^anon (\d+)")
    if limit and held is not None:
        found.append((limit - held) // 2**20)
    return min(found)


def free_disk(place):
    """The megabytes that can still be written there."""
    return shutil.disk_usage(place).free // 2**20


def keeps(store):
    """Whether this rt keeps what it proved at all: that of an older kit doesn't, and neither has the folder nor names it."""
    rt = Path(shutil.which("rt") or "").resolve()
    return store.exists() or any(b"rattle-kept" in it.read_bytes() for it in rt.parent.glob("rt*") if it.is_file())


def kept_in():
    """The folder beside the toolchain in which rt keeps what it proved, and whether it can; looked at as rt does."""
    page = subprocess.run(["rt", "doc"], stdin=subprocess.DEVNULL, capture_output=True, text=True).stdout.strip()
    store = Path(page).parent.parent / "rattle-kept"
    try:
        found = os.lstat(store)
        return store, stat.S_ISDIR(found.st_mode) and found.st_uid == os.geteuid() and os.access(store, os.W_OK)
    except OSError:
        return store, os.access(store.parent, os.W_OK)


# --- how far it is ---


def several(number, what):
    return f"{number:,} {what}{'' if number == 1 else 's'}"


def listed(names):
    """Names as a sentence has them."""
    return " and ".join([", ".join(names[:-1]), names[-1]] if len(names) > 1 else names)


def minutes(seconds):
    """A time that is only thought."""
    return f"about {seconds / 60:.0f} min" if seconds >= 60 else "less than a minute"


def about(seconds):
    """What a time of the table comes to, on the machine that was measured and on a slow one."""
    fast, slow = (f"{it / 60:.0f}" for it in (seconds, SLOW * seconds))
    return f"{fast} to {slow} min" if seconds >= 60 else "a minute or two"


def span(seconds):
    """A time that was measured."""
    return f"{seconds // 60:.0f} min {seconds % 60:.0f} s" if seconds >= 60 else f"{seconds:.0f} s"


class Progress:
    """How far a build is: when each crate began, as far as that is known, how long each took that was proved, and which
    are done, proved or kept from an earlier start."""

    def __init__(self, costs, lanes):
        self.costs, self.lanes = costs, lanes
        self.begun, self.took, self.done = {}, {}, set()

    def proved(self, crate, now):
        self.done.add(crate)
        if crate in self.begun:
            self.took[crate] = now - self.begun[crate]

    def running(self):
        return [it for it in self.begun if it not in self.done]

    def pace(self):
        """How many seconds one of the table takes here, as the crates that were proved have shown."""
        priced = sum(self.costs.seconds[it] for it in self.took)
        return (sum(self.took.values()) + TRUSTED) / (priced + TRUSTED)

    def left(self, now):
        """The seconds that each crate will still take that isn't done."""
        whole = {it: self.pace() * much for it, much in self.costs.seconds.items() if it not in self.done}
        # one that takes longer than was thought is nearly done
        return {it: max(much - (now - self.begun.get(it, now)), much / 20) for it, much in whole.items()}

    def told(self, now):
        """How many crates are done, the share of the work, and the time that is left."""
        left = self.left(now)
        share = 1 - sum(left.values()) / self.pace() / sum(self.costs.seconds.values())
        until = time_of(left, self.costs.below, self.lanes, self.begun)
        whole = len(self.costs.below)
        return f"{whole - len(left)} of {whole}, {share:.0%} done, {minutes(until)} left"


class Run:
    """One run of a command of rt, whose lines tell how far the build is."""

    def __init__(self, progress, tree, words, more):
        self.progress, self.tree, self.block, self.half = progress, tree, [], b""
        environment = {**os.environ, **more}
        # rt takes it for a gate's own run
        environment.pop("CI", None)
        with open(f"{tree}.log", "wb") as log:
            how = {"cwd": tree, "env": environment, "stdin": subprocess.DEVNULL, "stdout": log, "stderr": log}
            self.started = subprocess.Popen(words, **how)
        self.log, self.said = open(f"{tree}.log", "rb"), time.monotonic()

    def tell(self, what):
        self.said = time.monotonic()
        say(f"{what}: {self.progress.told(self.said)}")

    def look(self):
        """Takes what rt has said since the last look, and which crates it has begun with."""
        now = time.monotonic()
        for it in self.progress.costs.below:
            # rt makes that folder when it begins with a crate
            if (self.tree / "crates" / it / "out").is_dir():
                self.progress.begun.setdefault(it, now)
        *whole, self.half = (self.half + self.log.read()).split(b"\n")
        kept = []
        for line in (it.decode(errors="replace") for it in whole):
            found = re.fullmatch(r"rt: (\w+) (is kept|proved|NOT PROVED)(?:: .*)?", line)
            if found and found[2] == "is kept":
                kept.append(found[1])
                continue
            # all that were kept in a line of their own
            self.take_kept(kept)
            kept = []
            self.take(line, found and found[1], found and found[2], now)
        self.take_kept(kept)

    def take_kept(self, names):
        # a second command finds what the first one kept
        new = [it for it in names if it not in self.progress.done]
        self.progress.done.update(new)
        if new:
            self.tell(f"kept from an earlier start: {listed(new)}")

    def take(self, line, crate, how, now):
        """Takes a line of rt, which may tell how it went with a crate."""
        self.block = [line] if line.startswith("== ") else [*self.block, line]
        if how == "proved":
            self.progress.proved(crate, now)
            self.tell(f"proved {crate}")
        elif how == "NOT PROVED":
            self.fail(f"{crate} could not be built")
        elif line.endswith("; waiting for it") or re.match("rt: note: .*not kept", line):
            say(line[len("rt: ") :])

    def fail(self, why):
        """Ends rt, shows the end of what it said, and why there is no program."""
        self.started.terminate()
        self.started.wait()
        show("".join(f"{it}\n" for it in self.block[-SHOWN:]))
        raise Fault(f"{why}; above stands the end of what rt said")

    def watch(self, began):
        """Tells how far it is until rt has ended."""
        while self.started.poll() is None:
            self.look()
            if time.monotonic() - self.said >= EVERY:
                what = listed(self.progress.running()) or "what is left"
                self.tell(f"after {span(time.monotonic() - began)} still at {what}")
            time.sleep(LOOK)
        self.look()
        if self.started.returncode:
            self.fail("the program could not be built")


# --- the command ---


def announce(costs, lanes, tree):
    """Says what the build takes, and ends where the disk or the memory is too small for it."""
    place, room, memory = tree.parent.parent, free_disk(tree), free_memory()
    if room < costs.disk:
        why = f"a build takes {costs.disk:,} MB of disk, and {place} has {room:,}"
        raise Fault(f"{why}: TMPDIR can name another folder")
    if memory < costs.largest:
        raise Fault(f"a build takes {costs.largest:,} MB of memory for one process, and {memory:,} are free")
    until = time_of(costs.seconds, costs.below, lanes)
    say("the program isn't built from these sources: proving and compiling it")
    say(
        f"from nothing that takes {about(until)} on {several(lanes, 'processor')}, {costs.disk:,} MB of disk in"
        f" {place}, and {costs.peak(lanes):,} MB of memory, of which the largest process takes {costs.largest:,}"
    )
    if lanes < processors():
        say(f"with more memory free it would take {about(time_of(costs.seconds, costs.below, processors()))}")


def look_at_store(costs):
    """Says whether a start that is ended is lost, and returns what is to be said when it is ended."""
    (store, is_usable), wanted = kept_in(), RT_LEAVES + costs.disk
    if not keeps(store):
        say("^C ends it: this rt keeps nothing of it, and the next start begins anew")
        return "ended: nothing of it is kept, and the next start begins anew"
    if not is_usable:
        say(f"^C ends it: nothing is kept in {store}, where this user can't write, and the next start begins anew")
        return "ended: nothing of it is kept, and the next start begins anew"
    if free_disk(store if store.is_dir() else store.parent) < wanted:
        say(f"^C ends it: {store} keeps less or nothing, since its disk has less than {wanted:,} MB left")
        return "ended: the next start goes on with what could be kept"
    say(f"^C ends it: what is proved by then is kept in {store}, and the next start goes on from there")
    return "ended: what was proved is kept, and the next start goes on from there"


def main(tree):
    """The build as a command; its exit status."""
    began, costs = time.monotonic(), Costs(PRICES.read_text(), read_crates(tree))
    lanes = costs.lanes(processors(), free_memory())
    progress = Progress(costs, lanes)
    try:
        announce(costs, lanes, tree)
        farewell = look_at_store(costs)

        def ended(number, _):
            say(farewell)
            signal.signal(number, signal.SIG_DFL)
            os.kill(os.getpid(), number)

        signal.signal(signal.SIGTERM, ended)
        for words, more in commands(lanes):
            Run(progress, tree, words, more).watch(began)
        if not (tree / "crates" / "blk" / "out" / "blk").is_file():
            raise Fault("rt built no program")
    except Fault as fault:
        say(fault)
        return 3
    return 0


if __name__ == "__main__":
    sys.exit(main(Path(sys.argv[2])))
