#!/usr/bin/env python3
"""Runs loads of threads by `load --trace`, and looks what their traces have to do with what was asked for.

    tools/loads.py                  every load of the list below
    tools/loads.py NAME..           those alone
    tools/loads.py --drawn COUNT    so many loads of drawn words in their place, the same ones each time
    tools/loads.py --program PATH   by another program than the one that is built; may stand before names

Of each trace: the setup is that of the words; each bio of each submitter came in once, with its sectors and its direction, and those
of a submitter in their order; no round has more commands than the depth or ends with fewer; no more commands are in flight than
eight for each worker, and under `none` and `kyber` no more of a hardware queue than eight for each of its workers; submitters' requests come in by
whole plugs; each
command that went out is what a model of the scheduler chooses then, which is the rule of its own page said once more, without the program; devices
were busy just at each so many-th run of their own; each command was done once, and nothing waits. Other subcommands then read the trace, and
the three lines of the same load without `--trace` say that all was served, and its line of `--times` lies within the time of its run. With `--service` the load takes the time that its devices need at
least.

Of the loads of a list of their own, besides: submitters came in by turns, and not one after the other; more workers ran commands than there are
submitters, by the time that it took; and devices took no more than their time; the fastest of three runs.

Prints what is wrong, and as the last line 'N passed, M failed'. Ends with 0 where none failed, 1 where one did, 2 where a word names no
load, and 3 where the program isn't there.
"""
import argparse
import itertools
import random
import re
import subprocess
import sys
import time
from collections import Counter, defaultdict
from pathlib import Path

sys.dont_write_bytecode = True

from traces import Trace

TOP = Path(__file__).resolve().parent.parent
PROGRAM = TOP / "crates" / "blk" / "out" / "blk"
SECONDS = 120
READ, WRITE = "R", "W"
SETUP = ["setup", "5", "50", "256", "128", ""]
# How many commands a worker has in its hands at most.
IN_HAND = 8
SCHEDULERS = ("none", "deadline", "kyber", "earliest")
DEFAULTS = {"sched": "none", "submitters": "2", "workers": "2", "bios": "1000", "depth": "8", "service": "0"}

# What each scheduler is asked for: one worker alone; four queues, whose devices may be busy; several workers for a queue; depths.
SHAPES = {
    "alone": "--submitters 3 --workers 1 --bios 150 --depth 4",
    "alone_busy": "--submitters 3 --workers 1 --bios 150 --depth 4 --busy 3",
    "queues": "--submitters 9 --workers 4 --bios 200 --depth 8",
    "queues_busy": "--submitters 9 --workers 4 --bios 200 --depth 8 --busy 3",
    "often_busy": "--submitters 4 --workers 4 --bios 200 --depth 3 --busy 2",
    "shared": "--submitters 2 --workers 7 --bios 300 --depth 5",
    "shared_busy": "--submitters 2 --workers 7 --bios 300 --depth 5 --busy 4",
    "depth_one": "--submitters 5 --workers 3 --bios 60 --depth 1 --busy 5",
    "deep": "--submitters 17 --workers 16 --bios 100 --depth 256 --busy 10",
    "wide": "--submitters 64 --workers 16 --bios 40 --depth 64",
}
LOADS = {f"{sched}_{shape}": f"--sched {sched} {words}" for sched in SCHEDULERS for shape, words in SHAPES.items()}
LOADS["kyber_tight"] = "--sched kyber --submitters 8 --workers 4 --bios 200 --depth 32 --read-target 1 --write-target 1 --busy 7"
LOADS["kyber_loose"] = "--sched kyber --submitters 8 --workers 4 --bios 200 --depth 2 --read-target 1000 --write-target 1000"
LOADS["deadline_batches"] = "--sched deadline --submitters 6 --workers 3 --bios 200 --depth 8 --fifo-batch 3 --writes-starved 1"
LOADS["deadline_positions"] = "--sched deadline --submitters 6 --workers 3 --bios 200 --depth 4 --fifo-batch 4 --positions each --busy 9"
LOADS["earliest_late_last"] = "--sched earliest --late-last --submitters 6 --workers 3 --bios 200 --depth 2 --busy 6"
LOADS["none_served"] = "--sched none --submitters 4 --workers 4 --bios 50 --depth 64 --service 1000"

# What is looked at beside the rest: that submitters come in by turns; that more workers than there are submitters have a command each; and
# by how much longer a load may take than its one device does.
LOADS["none_by_turns"] = "--sched none --submitters 4 --workers 2 --bios 2000 --depth 64"
LOADS["none_all_workers"] = "--sched none --submitters 2 --workers 8 --bios 40 --depth 64 --service 10000"
LOADS["none_paced"] = "--sched none --submitters 1 --workers 1 --bios 1000 --depth 64 --service 900"
LOADS["none_paced_busy"] = "--sched none --submitters 1 --workers 1 --bios 40 --depth 64 --busy 2 --service 20000"
BY_TURNS, ALL_WORKERS, PACED = {"none_by_turns"}, {"none_all_workers"}, {"none_paced", "none_paced_busy"}
# A plug has so many bios, and a software queue has room for those of two plugs; either is emptied at once.
PLUG = 32
LONGER, RUNS = 1.6, 3
TIMES = re.compile(r"blk: served (\d+) in (\d+\.\d) ms, settled in (\d+\.\d) ms\n")

# How many bios all submitters of a drawn load have together at most, since the models look at all that waits for each command.
DRAWN_BIOS = 2000


def drawn(count):
    """So many loads of drawn words, by their numbers: schedulers and their settings, seats, bios, depths, busy devices and slow ones."""
    dice = random.Random(45)
    found = {}
    for number in range(count):
        sched, submitters = dice.choice(SCHEDULERS), dice.randint(1, 64)
        words = ["--sched", sched, "--submitters", submitters, "--workers", dice.randint(1, 16)]
        words += ["--bios", min(dice.choice([1, 7, 33, 100, 500]), DRAWN_BIOS // submitters)]
        words += ["--depth", dice.choice([1, 2, 3, 8, 64, 255, 256])]
        if dice.randint(0, 1):
            words += ["--busy", dice.choice([2, 3, 10, 1000])]
        if dice.randint(0, 3) == 0:
            words += ["--service", dice.choice([1, 10, 100])]
        if sched == "deadline" and dice.randint(0, 1):
            words += ["--fifo-batch", dice.randint(1, 20), "--writes-starved", dice.randint(0, 4)]
        if sched == "deadline" and dice.randint(0, 1):
            words += ["--positions", dice.choice(["one", "each"])]
        if sched == "kyber" and dice.randint(0, 1):
            words += ["--read-target", dice.choice([1, 5, 1000]), "--write-target", dice.choice([1, 5, 1000])]
        if sched == "earliest" and dice.randint(0, 1):
            words.append("--late-last")
        found[f"drawn {number}"] = " ".join(map(str, words))
    return found


class Fault(Exception):
    """What is wrong with a load."""


class Asked:
    """What the words of a load ask for."""

    def __init__(self, words):
        given, flags, words = dict(DEFAULTS), set(), words.split()
        while words:
            name = words.pop(0)[2:]
            if words and not words[0].startswith("--"):
                given[name] = words.pop(0)
            else:
                flags.add(name)
        self.sched, self.flags, self.given = given["sched"], flags, given
        self.submitters, self.workers, self.bios, self.depth, self.service = (
            int(given[it]) for it in ("submitters", "workers", "bios", "depth", "service")
        )
        self.busy = int(given["busy"]) if "busy" in given else None
        self.queues = min(self.submitters, self.workers)

    def number(self, name, default):
        return int(self.given.get(name, default))

    def queue_of(self, submitter):
        """The hardware queue at which the bios of a submitter enter."""
        return submitter % self.queues

    def workers_of(self, queue):
        return sum(worker % self.queues == queue for worker in range(self.workers))

    def nth_bio(self, submitter, serial):
        """What bio of this number of a submitter is: direction, first sector and sectors."""
        return (WRITE if serial % 2 else READ, 16 * (serial * self.submitters + submitter), 8)


class Entry:
    """none: what entered first of what waits. A model that serves a hardware queue's own requests alone is asked with those, any other with all."""

    serves_own = True

    def __init__(self, asked):
        pass

    def pick(self, waiting, queue, now):
        return min(waiting, key=lambda it: it.id, default=None)

    def picked(self, request):
        pass

    def done(self, request, now):
        pass

    def tick(self, now):
        pass


class Deadline(Entry):
    """deadline: a batch by rising sectors in one direction, up to a number of requests; then reads, until writes were passed over often
    enough; a new batch begins with the oldest where that is due or nothing lies behind the last pick, and else behind that. With positions for
    each direction it is behind that direction's own last pick, from its sector on."""

    serves_own = False

    def __init__(self, asked):
        self.batch, self.starving = asked.number("fifo-batch", 16), asked.number("writes-starved", 2)
        self.each = asked.given.get("positions") == "each"
        self.last, self.batching, self.starved = None, 0, 0
        self.position = {READ: 0, WRITE: 0}

    def behind(self, waiting, direction):
        if self.each:
            later = [it for it in waiting if it.dir == direction and it.first >= self.position[direction]]
            return min(later, key=lambda it: (it.first, it.id), default=None)
        if self.last is None or self.last.dir != direction:
            return None
        later = [it for it in waiting if it.dir == direction and (it.first, it.id) > (self.last.first, self.last.id)]
        return min(later, key=lambda it: (it.first, it.id), default=None)

    def pick(self, waiting, queue, now):
        going_on = self.behind(waiting, self.last.dir if self.last else READ) if self.batching < self.batch else None
        if going_on:
            self.next = (self.batching + 1, self.starved)
            return going_on
        oldest = {way: min((it for it in waiting if it.dir == way), key=lambda it: it.id, default=None) for way in (READ, WRITE)}
        if not oldest[READ] and not oldest[WRITE]:
            return None
        if oldest[READ] and (not oldest[WRITE] or self.starved < self.starving):
            way, self.next = READ, (1, self.starved + bool(oldest[WRITE]))
        else:
            way, self.next = WRITE, (1, 0)
        behind = self.behind(waiting, way)
        return oldest[way] if behind is None or oldest[way].due <= now else behind

    def picked(self, request):
        self.last = request
        self.position[request.dir] = request.first
        self.batching, self.starved = self.next


class Kyber(Entry):
    """kyber: by turns of 16 reads and 8 writes at each queue, while fewer than the limit of a direction are in flight."""

    turn = {READ: 16, WRITE: 8}
    other = {READ: WRITE, WRITE: READ}

    def __init__(self, asked):
        self.depth = asked.depth
        self.target = {READ: asked.number("read-target", 2), WRITE: asked.number("write-target", 10)}
        self.limit = {READ: asked.depth, WRITE: asked.depth}
        self.missed, self.flying = set(), Counter()
        self.turns = defaultdict(lambda: (READ, 0))

    def pick(self, waiting, queue, now):
        own = {
            way: min((it for it in waiting if it.dir == way), key=lambda it: it.id, default=None)
            for way in (READ, WRITE)
            if self.flying[way] < self.limit[way]
        }
        self.queue, (way, taken) = queue, self.turns[queue]
        if own.get(way) and taken < self.turn[way]:
            self.next = (way, taken + 1)
        elif own.get(self.other[way]):
            self.next = (self.other[way], 1)
        elif own.get(way):
            self.next = (way, 1)
        else:
            return None
        return own[self.next[0]]

    def picked(self, request):
        self.turns[self.queue] = self.next
        self.flying[request.dir] += 1

    def done(self, request, now):
        self.flying[request.dir] -= 1
        if now - request.release > self.target[request.dir]:
            self.missed.add(request.dir)

    def tick(self, now):
        if now % 8:
            return
        for way in (READ, WRITE):
            if self.other[way] in self.missed:
                self.limit[way] = max(1, self.limit[way] // 2)
            elif way not in self.missed:
                self.limit[way] = min(self.depth, self.limit[way] + 1)
        self.missed = set()


class Earliest(Entry):
    """earliest: the one that is due first; with late last first those that are on time."""

    serves_own = False

    def __init__(self, asked):
        self.late_last = "late-last" in asked.flags

    def pick(self, waiting, queue, now):
        on_time = [it for it in waiting if it.due >= now] if self.late_last else []
        return min(on_time or waiting, key=lambda it: (it.due, it.id), default=None)


MODELS = {"none": Entry, "deadline": Deadline, "kyber": Kyber, "earliest": Earliest}


def wants(holds, *what):
    if not holds:
        raise Fault(" ".join(map(str, what)))


class Replay(Trace):
    """The trace of a load, each event looked at before it happens, beside the model of the load's scheduler."""

    def __init__(self, asked, text):
        self.asked, self.model = asked, MODELS[asked.sched](asked)
        self.used, self.pending, self.held = set(), defaultdict(dict), defaultdict(list)
        self.serials, self.done_ids, self.runs = Counter(), set(), defaultdict(list)
        super().__init__(text)
        wants(self.title[4] == str(len(self.events)), "the title counts other events")

    def read(self, text):
        """The records of its text, whose fields have no quotes."""
        found = [line.split(",") for line in text.decode().splitlines()]
        wants(len(found) > 2, "no trace was written")
        wants(found[0][:4] == ["blk-trace", "2", str(self.asked.depth), str(self.asked.queues)], "title", found[0])
        wants(found[1] == SETUP, "setup", found[1])
        wants(all(len(it) == len(SETUP) for it in found), "a record has other fields")
        return found

    def take(self, event):
        takes = {"release": self.take_release, "issue": self.take_issue, "done": self.take_end, "back": self.take_end, "tick": self.take_tick}
        wants(event.word in takes, "a load has no such event:", event)
        wants(len(event.bios) == (event.word == "release"), "a bio that isn't the only one of a release:", event)
        takes[event.word](event)

    def take_release(self, event):
        asked, number, (bio,) = self.asked, int(event.fields[0]), event.bios
        wants(number == len(self.requests) and event.fields[1] == "1", "release", event)
        submitter, serial, direction, first, sectors = int(bio[0]), int(bio[1]), bio[2], int(bio[3]), int(bio[4])
        wants(submitter < asked.submitters and serial < asked.bios, "a bio of no submitter:", bio)
        wants(serial == self.serials[submitter], "bio", bio, "where", self.serials[submitter], "comes next")
        wants((direction, first, sectors) == asked.nth_bio(submitter, serial), "bio", bio, "is", asked.nth_bio(submitter, serial))
        self.serials[submitter] += 1
        super().take(event)
        request = self.requests[number]
        self.pending[self.queue_of(request)][number] = request

    def take_issue(self, event):
        request, tag = self.requests[int(event.fields[0])], int(event.fields[1])
        wants(tag < self.depth and tag not in self.used and len(self.used) < self.depth, "above the depth:", event)
        self.used.add(tag)
        self.choose(request)
        super().take(event)
        wants(len(self.flying) <= IN_HAND * self.asked.workers, "more in flight than workers have in hand:", event)
        if self.model.serves_own:
            queue = self.queue_of(request)
            own = sum(self.queue_of(it.request) == queue for it in self.flying.values())
            wants(own <= IN_HAND * self.asked.workers_of(queue), "more in flight than the queue's workers have in hand:", event)

    def queue_of(self, request):
        """The hardware queue for which a request is issued: one for all where the scheduler serves any."""
        return self.asked.queue_of(request.submitter) if self.model.serves_own else 0

    def choose(self, request):
        """What is issued is what went back first, or else what the model picks."""
        queue = self.queue_of(request)
        held, pending = self.held[queue], self.pending[queue]
        if self.model.serves_own or self.asked.queues == 1:
            back = held[0] if held else None
        else:
            back = request if request in held else None
        if back:
            wants(request is back, "request", request.id, "went out, where", back.id, "had come back")
            held.remove(request)
            return
        wants(request.id in pending, "request", request.id, "doesn't wait")
        picked = self.model.pick(list(pending.values()), queue, self.round)
        wants(picked is request, "round", self.round, "request", request.id, "went out, and not", picked and picked.id)
        self.model.picked(request)
        del pending[request.id]

    def take_end(self, event):
        issue = self.flying.get(int(event.fields[0]))
        wants(issue, "no command is in flight:", event)
        request, queue = issue.request, self.queue_of(issue.request)
        self.runs[queue].append(event.word)
        super().take(event)
        if event.word == "back":
            self.held[queue].append(request)
        else:
            wants(request.id not in self.done_ids, "done twice:", event)
            self.done_ids.add(request.id)
            self.model.done(request, self.round)

    def take_tick(self, event):
        wants(not self.flying, "a round ends with commands in flight")
        wants(len(self.used) == self.depth, "round", self.round, "ends with", len(self.used), "commands")
        super().take(event)
        self.used = set()
        self.model.tick(self.round)


def look_at_backs(asked, replay):
    """Each device was busy at every so many-th run of its own: just there, where a queue has one worker, and as often, where it has more."""
    for queue, runs in replay.runs.items():
        workers = asked.workers_of(queue) if replay.model.serves_own else asked.workers
        backs = runs.count("back")
        if asked.busy is None:
            wants(backs == 0, "a device was busy")
        elif workers == 1:
            places = [place for place, it in enumerate(runs, 1) if it == "back"]
            wants(places == list(range(asked.busy, len(runs) + 1, asked.busy)), "queue", queue, "its device was busy at the runs", places)
        else:
            rest = len(runs) - asked.busy * backs
            wants(0 <= rest <= workers * (asked.busy - 1), "queue", queue, "devices were busy", backs, "times in", len(runs), "runs")


def look_at_plugs(asked, events):
    """Requests of one submitter that follow on one another are those of whole plugs, up to its last bio."""
    for came, row in itertools.groupby(events, lambda it: it.bios[0][0] if it.bios else None):
        serials = [int(it.bios[0][1]) for it in row if came is not None]
        whole = len(serials) % PLUG == 0 or serials[-1] == asked.bios - 1
        wants(whole, "submitter", came, "came in by", len(serials), "requests, up to its bio", serials[-1:])


def look_at_threads(name, asked, events):
    """What a load has to show of its threads: how its submitters came in."""
    came = [int(it.bios[0][0]) for it in events if it.bios]
    turns = 1 + sum(one != other for one, other in zip(came, came[1:]))
    wants(name not in BY_TURNS or turns > 2 * asked.submitters, "the submitters came in one after the other:", turns, "turns")


def look_at(asked, text, name=""):
    """Looks at a trace, of a load of this name if it has one; a Fault says what is wrong with it."""
    replay = Replay(asked, text)
    look_at_plugs(asked, replay.events)
    look_at_threads(name, asked, replay.events)
    wants(all(replay.serials[it] == asked.bios for it in range(asked.submitters)), "bios that came in:", dict(replay.serials))
    wants(not replay.waiting and not replay.flying, "something isn't served")
    wants(len(replay.done_ids) == asked.submitters * asked.bios, "done are", len(replay.done_ids))
    look_at_backs(asked, replay)
    return replay


def answer(program, words, given=b""):
    """What the program writes, which has to end well."""
    ran = subprocess.run([program, *words], input=given, capture_output=True, timeout=SECONDS, check=False)
    wants(ran.returncode == 0, " ".join(words), "ended with status", ran.returncode, ran.stderr[:200].decode(errors="replace"))
    return ran.stdout


def look_at_readers(program, asked, text):
    """The subcommands over traces take it for a trace of as many commands."""
    count = asked.submitters * asked.bios
    wants(answer(program, ["migrate"], text) == text, "migrate writes another trace")
    report = answer(program, ["oracle", "--trace"], text).decode().splitlines()
    wants(report[:3] == [f"commands {count}", "waiting 0", f"depth {asked.depth}"], "the report has", report[:3])
    wants(answer(program, ["misses"], text).decode().splitlines()[0] == f"commands {count}", "misses counts other commands")
    wants(f"wait,all,{count},".encode() in answer(program, ["spread"], text), "spread counts other commands")
    wants(len(answer(program, ["commands"], text).splitlines()) == count + 1, "commands lists others")
    answer(program, ["late"], text)


def run_load(program, words):
    """Runs a load; what it writes, and how many seconds it took."""
    begun = time.monotonic()
    text = answer(program, ["load", "--trace", *words.split()])
    return text, time.monotonic() - begun


def look_at_load(program, words, readers=True, name=""):
    """Runs a load, of this name if it has one, and looks at what it writes."""
    asked = Asked(words)
    text, took = run_load(program, words)
    replay = look_at(asked, text, name)
    served = len(replay.done_ids) * asked.service / 1e6 / asked.workers
    wants(took >= served, "took", round(took, 3), "seconds, and its devices take", served)
    # that of one worker takes little more than its device; that of many takes less than as many as there are submitters would need
    longest = LONGER * served if name in PACED else served * asked.workers / asked.submitters if name in ALL_WORKERS else took
    for _ in range(RUNS - 1):
        if took > longest:
            took = min(took, run_load(program, words)[1])
    wants(took <= longest, "took", round(took, 3), "seconds, and may take", round(longest, 3))
    if readers:
        look_at_readers(program, asked, text)
        count = asked.submitters * asked.bios
        lines = answer(program, ["load", *words.split()]).decode()
        wants(lines == f"accepted {count}\nserved {count}\nleft 0\n", "it says", repr(lines))
        look_at_times(program, words, lines, count, 1000 * served)


def look_at_times(program, words, lines, count, needed):
    """What a load says of its times: its threads take what its devices need at least, in milliseconds, and both times lie in the whole run."""
    begun = time.monotonic()
    ran = subprocess.run([program, "load", "--times", *words.split()], stdin=subprocess.DEVNULL, capture_output=True, timeout=SECONDS, check=False)
    took = 1000 * (time.monotonic() - begun)
    wants(ran.returncode == 0 and ran.stdout.decode() == lines, "with --times it says", ran.stdout[:200])
    told = TIMES.fullmatch(ran.stderr.decode())
    wants(told is not None and int(told[1]) == count, "of its times it says", ran.stderr[:200])
    serving, settling = float(told[2]), float(told[3])
    wants(needed - 0.1 <= serving and serving + settling <= took, "it says", serving, "and", settling, "ms of", took, "and needs", needed)


def main(words):
    """Looks at loads as a command; its exit status."""
    reads = argparse.ArgumentParser(add_help=False)
    reads.add_argument("--program", type=Path, default=PROGRAM)
    reads.add_argument("--trace-alone", action="store_true")
    reads.add_argument("--drawn", type=int)
    reads.add_argument("names", nargs="*")
    given = reads.parse_args(words)
    every = LOADS if given.drawn is None else drawn(given.drawn)
    for name in given.names:
        if name not in every:
            print(f"loads.py: there is no load {name}", file=sys.stderr)
            return 2
    if not given.program.is_file():
        print(f"loads.py: there is no program {given.program}", file=sys.stderr)
        return 3
    passed = failed = 0
    for name in given.names or every:
        try:
            look_at_load(given.program, every[name], not given.trace_alone, name)
            passed += 1
        except (Fault, OSError, subprocess.TimeoutExpired, ValueError, KeyError, IndexError) as fault:
            told = fault if isinstance(fault, Fault) else repr(fault)
            print(f"{name}: {told}" if name in LOADS else f"{name}: {every[name]}: {told}")
            failed += 1
    print(f"{passed} passed, {failed} failed")
    return 1 if failed else 0


if __name__ == "__main__":
    sys.exit(main(sys.argv[1:]))
