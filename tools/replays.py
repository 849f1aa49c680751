#!/usr/bin/env python3
"""Replays captures in plain lists, by what README.md of blk_replay says of a replay, and compares what `replay` writes of each.

    tools/replays.py             100 drawn captures, those of tools/matching.py
    tools/replays.py N           N of them
    tools/replays.py N SEED      N, drawn from another seed (a number)
    tools/replays.py FILE..      these captures
    tools/replays.py --show FILE [WORD..]
                                 what `replay` has to write of a capture with these options

The requests of a capture are those of the model in tools/matching.py, the choices of each scheduler those of the models in tools/loads.py; how
many are late in any order comes from a greedy choice round by round. Settings, expiries and orders are drawn too, and grids of them.

Prints what is wrong, and as the last line 'N passed, M failed'. Ends with 0 where none failed, 1 where one did, 2 where a word is neither a
number nor a file, and 3 where the program isn't there.
"""
import heapq
import itertools
import math
import os
import random
import signal
import sys
from bisect import bisect_left, bisect_right
from pathlib import Path

sys.dont_write_bytecode = True

from cases import ended
import loads
import matching

COUNT, SEED = 100, 1
HEAD = "sched,settings,late,late_reads,late_writes,unavoidable,avoidable,greatest,read_p50,read_p99,read_max,write_p50,write_p99,write_max"
UNITS = {"ns": 1, "us": 10**3, "ms": 10**6, "s": 10**9}
# what a grid tries of a setting where its option lists nothing, and of the scheduler
TRIED = {
    "fifo-batch": "1,2,4,8,16,32,64",
    "writes-starved": "0,1,2,4,8",
    "no-front-merges": "on,off",
    "positions": "each",
    "read-target": "1,2,5,10,20,50,100",
    "write-target": "1,2,5,10,20,50,100",
    "late-last": "on,off",
}
IN_TURN = ("none", "earliest", "deadline", "kyber")
SETTINGS = {
    "deadline": (("fifo_batch", "fifo-batch", "16"), ("writes_starved", "writes-starved", "2"), ("front_merges", "no-front-merges", "on"), ("positions", "positions", "each")),
    "kyber": (("read_target", "read-target", "2"), ("write_target", "write-target", "10")),
    "none": (),
    "earliest": (("late_last", "late-last", "off"),),
}


def nanoseconds(text):
    unit = next(it for it in ("ns", "us", "ms", "s") if text.endswith(it))
    return int(text.removesuffix(unit)) * UNITS[unit]


class Words:
    """The options of a replay."""

    def __init__(self, words):
        self.given, self.flags, words = {}, set(), list(words)
        while words:
            name = words.pop(0)[2:]
            if words and not words[0].startswith("--"):
                self.given[name] = words.pop(0)
            else:
                self.flags.add(name)
        time = lambda name, default: nanoseconds(self.given.get(name, default))
        first = self.given.get("first")
        self.asked = matching.Asked(
            time("read-expire", "500ms"), time("write-expire", "5s"), self.given.get("from") == "queue", time("skip", "0s"), int(first) if first else None
        )
        times = lambda name, default: [nanoseconds(it) for it in self.given.get(name, default).split(",")]
        self.fifos = [{"R": read, "W": write} for read in times("fifo-read-expire", "500ms") for write in times("fifo-write-expire", "5s")]
        self.grid = "grid" in self.flags
        self.by = self.given.get("by", "late")
        self.top = int(self.given["top"]) if "top" in self.given else None

    def plans(self):
        """The replays of the rows: a scheduler, its settings by the names of their options, and the expiries by which it goes."""
        if not self.grid:
            yield from ((sched, own, self.fifos[0]) for sched, own in self.each())
            return
        asked = self.given.get("sched", ",".join(IN_TURN)).split(",")
        for sched in (it for it in IN_TURN if it in asked):
            options = [option for _, option, _ in SETTINGS[sched]]
            lists = [(TRIED[it] if it in ("no-front-merges", "late-last") else self.given.get(it, TRIED[it])).split(",") for it in options]
            for values in itertools.product(*lists):
                # only deadline has FIFO lists
                for fifo in self.fifos if sched == "deadline" else self.fifos[:1]:
                    yield sched, dict(zip(options, values)), fifo

    def each(self):
        """The schedulers of the rows without a grid, each with its settings by the names of their options."""
        yield "none", {}
        yield "deadline", {"positions": "one"}
        yield "deadline", {"positions": "each"}
        yield "kyber", {}
        yield "earliest", {"late-last": "off"}
        yield "earliest", {"late-last": "on"}

    def settings(self, sched, own):
        """The settings of a scheduler: those of its own, those given, and the defaults."""
        for name, option, default in SETTINGS[sched]:
            turned = {"no-front-merges": "off", "late-last": "on"}.get(option)
            if option in own:
                yield name, option, own[option]
            elif turned:
                yield name, option, turned if option in self.flags else default
            else:
                yield name, option, self.given.get(option, default)


class Model(loads.Asked):
    """What the models of schedulers are asked for: the words of a load of one tag."""

    def __init__(self, sched, settings):
        words = [f"--sched {sched} --depth 1"]
        for _, option, value in settings:
            if option == "late-last":
                words += ["--late-last"] if value == "on" else []
            elif option != "no-front-merges":
                words.append(f"--{option} {value}")
        super().__init__(" ".join(words))


class Waiting:
    """A request that waits, as the models of schedulers see it."""

    def __init__(self, number, place, request, release, due):
        self.id, self.place = number, place
        self.dir, self.first = request.span[0], request.span[1]
        self.release, self.due = release, due


class Replays:
    """The requests of a capture, as they went and in replays."""

    def __init__(self, records, words):
        self.words = words
        told = self.told = matching.Told(records, words.asked)
        self.requests = told.taken
        self.times = [it.went for it in self.requests]
        self.releases = [bisect_left(self.times, told.release(it)) + 1 for it in self.requests]
        self.dues = [bisect_right(self.times, told.deadline(it)) for it in self.requests]
        self.unavoidable = len(self.requests) - self.most_on_time()

    def most_on_time(self):
        """As many as any order has on time: in each round the one that is due first of those that still can be."""
        served, ready, place = 0, [], 0
        entering = sorted(zip(self.releases, self.dues))
        for now in range(1, len(self.requests) + 1):
            while place < len(entering) and entering[place][0] <= now:
                heapq.heappush(ready, entering[place][1])
                place += 1
            while ready and ready[0] < now:
                heapq.heappop(ready)
            if ready:
                heapq.heappop(ready)
                served += 1
        return served

    def due(self, sched, fifo, place):
        """The round in which a request is due in a scheduler that goes by these expiries."""
        if sched == "earliest":
            return self.dues[place]
        request = self.requests[place]
        expires = min(self.told.entry(request) + fifo[request.span[0]], matching.LAST_TIME)
        return bisect_left(self.times, expires) + 1

    def rounds(self, sched, settings, fifo):
        """The round of each request under a scheduler."""
        asked = Model(sched, settings)
        model = loads.MODELS[sched](asked)
        model.tick(1)
        order = sorted(range(len(self.requests)), key=lambda it: (self.told.release(self.requests[it]), it))
        rounds, waiting, number = [0] * len(order), [], 0
        for now in range(1, len(order) + 1):
            while number < len(order) and self.releases[order[number]] == now:
                place = order[number]
                waiting.append(Waiting(number, place, self.requests[place], now, self.due(sched, fifo, place)))
                number += 1
            picked = model.pick(waiting, 0, now)
            model.picked(picked)
            waiting.remove(picked)
            rounds[picked.place] = now
            model.done(picked, now)
            model.tick(now + 1)
        return rounds

    def numbers(self, rounds):
        """The numbers of a row, by the clock and by rounds."""
        went = [self.times[it - 1] for it in rounds]
        lates = [max(0, time - self.told.deadline(it)) for time, it in zip(went, self.requests)]
        assert [it > 0 for it in lates] == [due < it for due, it in zip(self.dues, rounds)]
        late = {way: sum(it > 0 and request.span[0] == way for it, request in zip(lates, self.requests)) for way in "RW"}
        waits = {way: sorted(max(0, time - self.told.entry(it)) for time, it in zip(went, self.requests) if it.span[0] == way) for way in "RW"}
        ranks = [waits[way][max(0, math.ceil(of * len(waits[way]) / 100) - 1)] if waits[way] else None for way in "RW" for of in (50, 99, 100)]
        all_late = late["R"] + late["W"]
        return [all_late, late["R"], late["W"], self.unavoidable, all_late - self.unavoidable, max(lates, default=0), *ranks]

    def key(self, row):
        none_first = lambda it: -1 if it is None else it
        late, greatest, read, write = row[2], row[7], none_first(row[9]), none_first(row[12])
        return {"late": (late, greatest, read, write), "lateness": (greatest, late, read, write), "read_p99": (read, late, greatest, write)}[self.words.by]

    def one(self, sched):
        """The schedule of the replay under a scheduler, or its table."""
        rounds = self.rounds(sched, list(self.words.settings(sched, {})), self.words.fifos[0])
        if "table" not in self.words.flags:
            yield f"blk-schedule,1,1,{len(rounds)}"
            for place, (release, due, now) in enumerate(zip(self.releases, self.dues, rounds)):
                yield f"{place + 1},{release},{due},{now}"
            return
        head, *rows = self.told.table()
        yield head
        at = head.split(",").index("dispatched")
        for row, now in zip(rows, rounds):
            fields = row.split(",")
            fields[at] = str(max(self.times[now - 1] - self.told.begin, 0))
            yield ",".join(fields)

    def lines(self):
        if "sched" in self.words.given and not self.words.grid:
            yield from self.one(self.words.given["sched"])
            return
        line = lambda row: ",".join("none" if it is None else str(it) for it in row)
        yield HEAD
        yield line(["captured", "-", *self.numbers([it + 1 for it in range(len(self.requests))])])
        rows = []
        for sched, own, fifo in self.words.plans():
            settings = list(self.words.settings(sched, own))
            shown = [f"{name}={value}" for name, _, value in settings]
            if self.words.grid and sched == "deadline":
                shown += [f"fifo_read_expire={fifo['R']}", f"fifo_write_expire={fifo['W']}"]
            rows.append([sched, " ".join(shown) or "-", *self.numbers(self.rounds(sched, settings, fifo))])
        rows.sort(key=self.key)
        yield from map(line, rows if self.words.top is None else rows[: self.words.top])
        best = rows[0]
        proof = " (no order has fewer)" if self.requests and best[6] == 0 else ""
        yield f"best {best[0]} {best[1]}{proof}"

    def text(self):
        return "".join(f"{it}\n" for it in self.lines())


def some_of(draw, values):
    """Some of these values, in any order, with commas between."""
    return ",".join(str(it) for it in draw.sample(values, draw.randint(1, len(values))))


def grid_of(draw):
    """Options of a grid, drawn."""
    words = ["--grid"]
    for name, some in (("fifo-read-expire", ("0ns", "3ns", "50ns")), ("fifo-write-expire", ("0ns", "9ns", "200ns"))):
        if draw.random() < 0.6:
            words += [f"--{name}", some_of(draw, some)]
    for name, some in (("fifo-batch", (1, 2, 16)), ("writes-starved", (0, 1, 8)), ("read-target", (1, 5)), ("write-target", (1, 7)), ("positions", ("one", "each"))):
        if draw.random() < 0.7:
            words += [f"--{name}", some_of(draw, some)]
    if draw.random() < 0.5:
        words += ["--sched", some_of(draw, IN_TURN)]
    if draw.random() < 0.5:
        words += ["--threads", str(draw.randint(1, 4))]
    return words


def words_of(draw, asked):
    """Options, drawn, beside those of an import."""
    words = asked.words()
    if draw.random() < 0.3:
        words += grid_of(draw)
        if draw.random() < 0.6:
            words += ["--by", draw.choice(("late", "lateness", "read_p99"))]
        return words + (["--top", str(draw.randint(1, 7))] if draw.random() < 0.5 else [])
    for name, some in (("fifo-read-expire", (0, 3, 50)), ("fifo-write-expire", (0, 9, 200))):
        if draw.random() < 0.7:
            words += [f"--{name}", f"{draw.choice(some)}ns"]
    for name, some in (("fifo-batch", (1, 2, 16)), ("writes-starved", (0, 1, 8)), ("read-target", (1, 5)), ("write-target", (1, 7))):
        if draw.random() < 0.4:
            words += [f"--{name}", str(draw.choice(some))]
    if draw.random() < 0.3:
        words += ["--sched", draw.choice(list(SETTINGS))]
        words += [it for it in ("--late-last", "--table") if draw.random() < 0.5]
        return words + (["--positions", draw.choice(("one", "each"))] if draw.random() < 0.5 else [])
    if draw.random() < 0.6:
        words += ["--by", draw.choice(("late", "lateness", "read_p99"))]
    if draw.random() < 0.3:
        words += ["--top", str(draw.randint(1, 7))]
    return words


def checked(given):
    """What is wrong with the replays of a capture under options, beside what it is of."""
    name, records, words = given
    replays = Replays(records, Words(words))
    told = "".join(replays.told.doubts()) + replays.told.said()
    run = matching.run_of("replay", words, matching.text_of(records), replays.text(), told)
    return [(f"{name}, replay {' '.join(words)}", run)]


def captures_of(words):
    """The captures that the words name, each with its name and options."""
    if words and all(os.path.isfile(it) for it in words):
        late = ["--read-expire", "2ms", "--write-expire", "20ms"]
        return [(it, list(matching.records_of(Path(it).read_text())), late + more) for it in words for more in ([], ["--fifo-batch", "1"], ["--writes-starved", "8"])]
    if len(words) > 2 or not all(it.isascii() and it.isdigit() for it in words):
        return None
    count, seed = (int(words[0]) if words else COUNT), (int(words[1]) if len(words) == 2 else SEED)
    found = []
    for place in range(count):
        records, asked = matching.drawn(f"{seed}.{place}")
        found.append((f"capture {place} of seed {seed}", records, words_of(random.Random(f"{seed}.{place}"), asked)))
    return found


def main(words):
    """The comparison as a command; its exit status."""
    if words[:1] == ["--show"] and len(words) > 1:
        print(Replays(list(matching.records_of(Path(words[1]).read_text())), Words(words[2:])).text(), end="")
        return 0
    return matching.command("replays.py", __doc__, words, captures_of, checked)


if __name__ == "__main__":
    signal.signal(signal.SIGTERM, ended)
    sys.exit(main(sys.argv[1:]))
