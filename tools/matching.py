#!/usr/bin/env python3
"""Matches drawn captures by the rules of docs/MATCHING.md, in plain lists, and compares what `import` writes of each.

    tools/matching.py             400 drawn captures
    tools/matching.py N           N of them
    tools/matching.py N SEED      N, drawn from another seed (a number)
    tools/matching.py FILE..      these captures

Of each capture `import` is asked, with options that are drawn too, for the schedule, the table and the numbers; all three, and what
is said of passed over and unmatched records, have to be what the rules give. A drawn capture has few sectors, processes and times, so
that several things fit most records: cuts, merges in a plug and in a scheduler, of bios and of requests, requeues, completions in
parts, insertions that some requests have and others don't.

Prints what is wrong, and as the last line 'N passed, M failed', counted in texts. Ends with 0 where none failed, 1 where one did, 2
where a word is neither a number nor a file, and 3 where the program isn't there.
"""
import itertools
import math
import os
import random
import signal
import subprocess
import sys
from bisect import bisect_left, bisect_right
from collections import Counter
from dataclasses import dataclass, field, replace
from pathlib import Path

sys.dont_write_bytecode = True

from cases import PROGRAM, SECONDS, TOP, counted, difference, ended, side_by_side

COUNT, SEED = 400, 1
LAST_TIME = 2**64 - 1
LAST_END = 2**48
TABLE = "id,dir,first,sectors,bios,pid,queued,inserted,dispatched,completed,due"
PASSED = ("plugs", "unplugs", "actions", "discards", "erases", "flushes", "others", "empty", "past-end")


@dataclass(frozen=True)
class Record:
    """A record of a capture. Its time is in nanoseconds."""

    time: int
    action: str
    pid: int
    rwbs: str
    first: int
    sectors: int
    cpu: int = 0


@dataclass
class Bio:
    """A bio. `span` is its direction, its first sector and the one after its last; `request` the one that it went into, if it is known."""

    span: tuple
    queued: int
    waits: bool = True
    request: "Request" = None


@dataclass(eq=False)
class Request:
    """A request. `rest` is what of it isn't completed; `place` one of opened, inserted, device, completed and merged; `age` the number
    of the record by which it is as old as it is; `went` when it went out last, and `number` the number of that dispatch."""

    span: tuple
    rest: tuple
    opener: Bio
    pid: int
    got: int
    age: int
    cpu: int = 0
    place: str = "opened"
    inserted: int = None
    merged: int = None
    completed: int = None
    went: int = None
    number: int = None
    into: "Request" = None
    sooner: list = field(default_factory=list)

    def is_out(self, time):
        """Whether it is at the device at a time."""
        return self.went <= time and (self.completed is None or self.completed > time)


def reason(record):
    """Why a record is passed over, if it is: a word of the summary."""
    if record.action in ("P", "U"):
        return {"P": "plugs", "U": "unplugs"}[record.action]
    if record.action not in ("Q", "X", "G", "M", "F", "I", "D", "C", "R"):
        return "actions"
    if "W" not in record.rwbs and "R" not in record.rwbs:
        found = [word for letter, word in (("E", "erases"), ("D", "discards"), ("F", "flushes")) if letter in record.rwbs]
        return (found or ["others"])[0]
    if record.sectors == 0:
        return "empty"
    return "past-end" if record.first + record.sectors > LAST_END else None


class Matching:
    """What is known after the records so far, and what each record is of: a bio, a request or None."""

    def __init__(self):
        self.bios, self.requests, self.dispatches, self.roles = [], [], 0, []

    def take(self, record):
        """Takes in a record."""
        self.now, self.pid, self.cpu = record.time, record.pid, record.cpu
        if reason(record):
            self.roles.append(None)
            return
        span = ("W" if "W" in record.rwbs else "R", record.first, record.first + record.sectors)
        self.roles.append(getattr(self, {"M": "back", "F": "front"}.get(record.action, record.action.lower()))(span))

    # what is found: lists stand in the order of their ages
    def waiting(self, test):
        return [bio for bio in self.bios if bio.waits and test(bio.span)]

    def at(self, place, test):
        return sorted((it for it in self.requests if it.place == place and test(it.rest)), key=lambda it: it.age)

    def first_of(self, *lists):
        return next((it for found in lists for it in found), None)

    def waiting_request(self, span):
        return self.first_of(self.at("inserted", lambda it: it == span), self.at("opened", lambda it: it == span))

    def q(self, span):
        self.bios.append(Bio(span, self.now))
        return self.bios[-1]

    def x(self, span):
        way, low, high = span
        found = self.waiting(lambda it: it[:2] == (way, low) and it[2] > high)
        if not found:
            return None
        # of equal ones the first in the list, which is the oldest
        bio = min(found, key=lambda it: it.span[2])
        rest = Bio((way, high, bio.span[2]), bio.queued)
        bio.span = span
        # as old as the bio, and no other waits with both its age and its range
        self.bios.insert(self.bios.index(bio) + 1, rest)
        return rest

    def g(self, span):
        bio = self.first_of(self.waiting(lambda it: it == span))
        if bio is None:
            return None
        bio.waits = False
        bio.request = Request(span, span, bio, self.pid, self.now, len(self.roles), self.cpu)
        self.requests.append(bio.request)
        return bio.request

    def back(self, span):
        return self.merge(span, lambda it: it[0] == span[0] and it[2] == span[1], True)

    def front(self, span):
        return self.merge(span, lambda it: it[0] == span[0] and it[1] == span[2], False)

    def merge(self, span, abuts, at_back):
        bio = self.first_of(self.waiting(lambda it: it == span))
        if bio:
            bio.waits = False
        own = [it for it in self.at("opened", abuts) if it.pid == self.pid]
        request = self.first_of(own[::-1], self.at("inserted", abuts))
        if request is None:
            return None
        if bio:
            bio.request = request
        else:
            other = self.waiting_request(span) if at_back else None
            if other is None:
                return None
            other.place, other.into = "merged", request
            request.sooner.append(other)
        grown = (lambda it: (it[0], it[1], span[2])) if at_back else (lambda it: (it[0], span[1], it[2]))
        request.span, request.rest, request.merged = grown(request.span), grown(request.rest), self.now
        return request

    def i(self, span):
        request = self.first_of(self.at("opened", lambda it: it == span), self.at("opened", lambda it: it[:2] == span[:2]))
        if request:
            request.place, request.inserted, request.age = "inserted", self.now, len(self.roles)
        return request

    def d(self, span):
        request = self.waiting_request(span)
        if request:
            request.place, request.went, request.number = "device", self.now, self.dispatches
            self.dispatches += 1
        return request

    def c(self, span):
        longer = self.at("device", lambda it: it[:2] == span[:2] and it[2] > span[2])
        request = self.first_of(self.at("device", lambda it: it == span), sorted(longer, key=lambda it: it.rest[2]))
        if request and request.rest == span:
            request.place, request.completed = "completed", self.now
        elif request:
            request.rest = (span[0], span[2], request.rest[2])
        return request

    def r(self, span):
        request = self.first_of(self.at("device", lambda it: it == span))
        if request:
            request.place = "opened" if request.inserted is None else "inserted"
        return request


@dataclass(frozen=True)
class Asked:
    """The options of an import, in nanoseconds; `first` is None for all."""

    read: int = 500 * 10**6
    write: int = 5 * 10**9
    from_queue: bool = False
    skip: int = 0
    first: int = None

    def words(self):
        told = ["--read-expire", f"{self.read}ns", "--write-expire", f"{self.write}ns", "--skip", f"{self.skip}ns"]
        told += ["--from", "queue"] if self.from_queue else []
        return told + (["--first", str(self.first)] if self.first is not None else [])


def root(request):
    """The request that one was merged into in the end, or itself."""
    while request.into:
        request = request.into
    return request


class Told:
    """What an import tells of records."""

    def __init__(self, records, asked):
        self.records, self.asked = records, asked
        self.matching = Matching()
        for record in records:
            self.matching.take(record)
        self.begin = records[0].time if records else 0
        gone = sorted((it for it in self.matching.requests if it.place in ("device", "completed")), key=lambda it: it.number)
        last = [it for it in gone if it.went >= self.begin + asked.skip]
        self.taken = last if asked.first is None else last[: asked.first]
        self.reasons = [reason(it) for it in records]
        self.missing = sum(1 for why, role in zip(self.reasons, self.matching.roles) if why is None and role is None)
        self.bios = Counter(id(root(bio.request)) for bio in self.matching.bios if bio.request)

    def entry(self, request):
        return request.opener.queued if self.asked.from_queue or request.inserted is None else request.inserted

    def release(self, request):
        return max(self.entry(request), request.merged or 0)

    def deadline(self, request):
        expire = self.asked.write if request.span[0] == "W" else self.asked.read
        return min([min(self.entry(request) + expire, LAST_TIME), *(self.deadline(it) for it in request.sooner)])

    def schedule(self):
        times = [it.went for it in self.taken]
        yield f"blk-schedule,1,1,{len(times)}"
        for place, request in enumerate(self.taken):
            before = bisect_left(times, self.release(request))
            by = bisect_right(times, self.deadline(request))
            yield f"{place + 1},{before + 1},{by},{place + 1}"

    def table(self):
        since = lambda time: "" if time is None else max(time - self.begin, 0)
        yield TABLE
        for place, it in enumerate(self.taken):
            times = (it.opener.queued, it.inserted, it.went, it.completed, self.deadline(it))
            way, low, high = it.span
            yield ",".join(map(str, (place + 1, way, low, high - low, self.bios[id(it)], it.pid, *map(since, times))))

    def summary(self):
        late = [it.span[0] for it in self.taken if it.went > self.deadline(it)]
        is_taken = set(map(id, self.taken))
        merged = [role for it, role in zip(self.records, self.matching.roles) if it.action in ("M", "F") and role]
        merges = [it for it in merged if id(root(it)) in is_taken]
        flying = [1 + sum(it is not other and other.is_out(it.went) for other in self.taken) for it in self.taken]
        yield f"records {len(self.records)}"
        yield f"bios {sum(self.bios[id(it)] for it in self.taken)}"
        yield f"requests {len(self.taken)}"
        yield f"merges {len(merges)}"
        yield f"late-reads {late.count('R')}"
        yield f"late-writes {late.count('W')}"
        yield f"q-to-g {waits((it.opener.queued, it.got) for it in self.taken)}"
        yield f"i-to-d {waits((it.inserted, it.went) for it in self.taken)}"
        yield f"d-to-c {waits((it.went, it.completed) for it in self.taken)}"
        yield f"in-flight {max(flying, default=0)}"
        yield f"left-out {sum(1 for it in self.matching.requests if not it.into and id(it) not in is_taken)}"
        yield f"unmatched {self.missing}"
        for word in PASSED:
            yield f"{word} {self.reasons.count(word)}"

    def doubts(self):
        """What of the capture is dubious, a line each."""
        count, times = len(self.records), [it.time for it in self.records]
        still = sum(one == other for one, other in zip(times, times[1:]))
        if 2 * still > count:
            yield f"blk: {still} of {count} records have the time of the one before: waits may be too short\n"
        if 100 * self.missing > count:
            yield f"blk: {self.missing} of {count} records are unmatched: records may be missing\n"
        if count and all(it.completed is None for it in self.taken):
            actions = {it.action for it in self.records}
            lacks = next((f"no {it} records" for it in "QGDC" if it not in actions), "none that is taken was completed")
            yield f"blk: 0 requests with all their times: {lacks}\n"

    def said(self):
        passed = sum(1 for it in self.reasons if it)
        return f"blk: passed over {passed}, unmatched {self.missing}\n" if passed or self.missing else ""

    def texts(self):
        """What is wanted for each form: its words, what is written and what is said."""
        lines = lambda it: "".join(f"{line}\n" for line in it)
        doubts = "".join(self.doubts())
        yield [], lines(self.schedule()), doubts + self.said()
        yield ["--table"], lines(self.table()), doubts + self.said()
        yield ["--summary"], lines(self.summary()), doubts


def waits(pairs):
    """Percentiles of times by nearest rank."""
    found = sorted(max(until - begin, 0) for begin, until in pairs if begin is not None and until is not None)
    return " ".join(str(found[math.ceil(of * len(found) / 100) - 1]) if found else "none" for of in (50, 99, 100))


# Drawn captures. What is drawn follows what is known by then, so that most requests go their way and several fit most records.
NEXT = {"waiting": "GGGGGXXMMMF", "opened": "IIIIDDM", "inserted": "DDDDMM", "device": "CCCCCCRR"}
ODD = list(itertools.product("PUAQGIDC", ("N", "D", "FF", "DE", "W", "R"), ((0, 0), (LAST_END, 8), (4, 4))))


def span_of_new(draw, known):
    """The range of a new bio: often beside what waits, or one that waits already."""
    beside = [it.rest for it in known.requests if it.place in ("opened", "inserted")][-6:]
    length, kind = draw.choice((2, 4, 8)), draw.random()
    if beside and kind < 0.6:
        way, low, high = draw.choice(beside)
        return draw.choice(((way, high, high + length), (way, high, high + length), (way, max(low - length, 0), low)))
    if beside and kind < 0.7:
        return draw.choice(beside)
    low = 2 * draw.randrange(20)
    return draw.choice("RW"), low, low + length


def part_of(draw, span, letter):
    """A range that is asked for: most often that of what there is, else a first part of it, or a longer one."""
    way, low, high = span
    kind = 1 - draw.random() if letter == "X" or (letter == "C" and draw.random() < 0.3) else draw.random()
    if high - low > 1 and (letter == "X" or kind > 0.93):
        high = low + max((high - low) // 2, 1)
    return (way, low, high) if kind < 0.97 else (way, low, high + 2)


def drawn_record(draw, time, known):
    """A record that may come next."""
    if draw.random() < 0.04:
        letter, rwbs, span = draw.choice(ODD)
        return Record(time, letter, 1, rwbs, *span)
    there = [("waiting", it.span, 0) for it in known.bios if it.waits][-4:]
    there += [(it.place, it.rest, it.pid) for it in known.requests if it.place in NEXT][-8:]
    if there and draw.random() < 0.72:
        place, span, pid = draw.choice(there)
        letter = draw.choice(NEXT[place])
        span = part_of(draw, span, letter)
    else:
        letter, span, pid = "Q", span_of_new(draw, known), 0
    pid = pid if pid and draw.random() < 0.8 else draw.choice((1, 1, 2))
    rwbs = draw.choice(("R", "RA") if span[0] == "R" else ("W", "WS", "FWFS"))
    return Record(time, letter, pid, rwbs, span[1], span[2] - span[1])


def drawn(seed):
    """A capture and options, the same ones for the same seed."""
    draw, drawn_cpu = random.Random(seed), random.Random(f"{seed}, processors")
    known, records, time = Matching(), [], draw.choice((0, 0, 10**9 - 3, 17 * 10**9))
    rare = draw.choice((None, None, "I", "R", "X"))
    for _ in range(draw.choice((0, 1, 12, 40, 40, 120, 120, 300))):
        record = replace(drawn_record(draw, time, known), cpu=drawn_cpu.choice((0, 0, 1, 3, 20)))
        # some captures have hardly any record of a letter
        if record.action != rare or draw.random() < 0.05:
            records.append(record)
            known.take(record)
            time += draw.choice((0, 0, 1, 1, 2, 7))
    return records, Asked(
        draw.choice((0, 3, 20, 100)),
        draw.choice((5, 60, 10**12)),
        draw.random() < 0.25,
        draw.choice((0, 0, 0, (time - records[0].time if records else 0) // 3)),
        draw.choice((None, None, None, 1, 5, 20)),
    )


def text_of(records):
    """The records as a capture."""
    fields = (f"{it.time // 10**9},{it.time % 10**9:09},{it.cpu},{it.action},{it.pid},{it.rwbs},{it.first},{it.sectors}\n" for it in records)
    return "blk-capture,1,,,,,,\n" + "".join(fields)


def records_of(text):
    """The records of a capture, of which nothing is wrong."""
    for line in text.splitlines()[1:]:
        seconds, nanoseconds, cpu, action, pid, rwbs, first, sectors = line.split(",")
        yield Record(int(seconds) * 10**9 + int(nanoseconds), action, int(pid), rwbs, int(first), int(sectors), int(cpu))


def run_of(subcommand, words, text, written, said):
    """What is wrong with what a subcommand makes of a capture."""
    run = subprocess.run([PROGRAM, subcommand, *words], input=text.encode(), capture_output=True, timeout=SECONDS)
    told = f"    it ended with status {run.returncode}\n" if run.returncode else ""
    for stream, wanted, got in (("stdout", written, run.stdout), ("stderr", said, run.stderr)):
        told += "" if wanted.encode() == got else difference(stream, wanted.encode(), got)
    return told


def checked(given):
    """What is wrong with each text of a capture under options, beside what it is of."""
    name, records, asked = given
    text = text_of(records)
    found = []
    for words, written, said in Told(records, asked).texts():
        words = [*asked.words(), *words]
        found.append((f"{name}, import {' '.join(words)}", run_of("import", words, text, written, said)))
    return found


def outcomes(check, captures):
    """What a check finds of all captures."""
    for _, found in side_by_side(check, ((given, given) for given in captures)):
        yield from found


def captures_of(words):
    """The captures that the words name, each with its name and options."""
    if words and all(os.path.isfile(it) for it in words):
        ask = (Asked(2 * 10**6, 20 * 10**6), Asked(2 * 10**6, 20 * 10**6, True, 10**8, 1000))
        return [(it, list(records_of(Path(it).read_text())), asked) for it in words for asked in ask]
    if len(words) > 2 or not all(it.isascii() and it.isdigit() for it in words):
        return None
    count, seed = [*map(int, words), COUNT, SEED][:2] if len(words) != 1 else [int(words[0]), SEED]
    return [(f"capture {place} of seed {seed}", *drawn(f"{seed}.{place}")) for place in range(count)]


def command(name, about, words, captures, check):
    """A comparison over the captures that the words name, as a command; its exit status."""
    if any(it in ("-h", "--help") for it in words):
        print(about, end="")
        return 0
    found = captures(words)
    if found is None:
        print(f"tools/{name}: the words are a number of captures and a seed, or files", file=sys.stderr)
        return 2
    if not os.access(PROGRAM, os.X_OK):
        print(f"tools/{name}: there is no program {PROGRAM.relative_to(TOP)}: ./blk builds it", file=sys.stderr)
        return 3
    return 1 if counted(outcomes(check, found), "{}:\n") else 0


if __name__ == "__main__":
    signal.signal(signal.SIGTERM, ended)
    sys.exit(command("matching.py", __doc__, sys.argv[1:], captures_of, checked))
