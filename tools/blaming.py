#!/usr/bin/env python3
"""Blames drawn captures by the rules of docs/FORMATS.md, in plain lists, and compares what `blame` writes of each.

    tools/blaming.py             400 drawn captures
    tools/blaming.py N           N of them
    tools/blaming.py N SEED      N, drawn from another seed (a number)
    tools/blaming.py FILE..      these captures

The captures, their options and their requests are those of tools/matching.py. Of each capture `blame` is asked for the whole, for all of it,
by processors and without either table, and for each late request, in lines, for its certificate, and for the tightest deadlines of reads and of writes. What can be on time is found by
matching requests to dispatches one by one, each along a path that frees a place, and not in the order of the due rounds; the tightest deadlines
among the differences of a dispatch and of when a request came in, each tried by what would be imported with it.

Prints what is wrong, and as the last line 'N passed, M failed', counted in texts. Ends with 0 where none failed, 1 where one did, 2
where a word is neither a number nor a file, and 3 where the program isn't there.
"""
import copy
import signal
import subprocess
import sys
from bisect import bisect_left, bisect_right

sys.dont_write_bytecode = True

from dataclasses import replace

from cases import PROGRAM, SECONDS, ended
from matching import Told, captures_of, command, run_of, text_of, waits

EACH = "id,pid,dir,first,sectors,wait,overrun,cause,from,until,length,from_id,until_id,in_flight"
# By whom a table is put together: what the requests have of it, and what the table is named.
BY = {"pid": (lambda it: it.pid, "processes"), "cpu": (lambda it: it.cpu, "processors")}


def ms(time):
    """A time in milliseconds, cut behind three digits."""
    return "none" if time is None else f"{time // 10**6}.{time // 1000 % 1000:03}"


def hundredths(share):
    """A share in hundredths, of one in thousandths."""
    return "none" if share is None else f"{share // 10}.{share % 10}"


def spread(pairs):
    """Percentiles of the times between pairs, in milliseconds."""
    return [it if it == "none" else ms(int(it)) for it in waits(pairs).split()]


def most_on_time(spans):
    """How many of the spans of dispatches can each have a dispatch of its own in it."""
    taken = {}

    def seated(place, seen):
        low, high = spans[place]
        for at in range(low, high + 1):
            if at not in seen:
                seen.add(at)
                if at not in taken or seated(taken[at], seen):
                    taken[at] = place
                    return True
        return False

    return sum(seated(place, set()) for place in range(len(spans)))


def passed_windows(spans, last):
    """The windows of what earliest due first passes over, joined where they overlap."""
    waiting, ran, passed = [], {}, []
    for at in range(1, last + 1):
        passed += [it for it in waiting if it[1] < at]
        waiting = [it for it in waiting if it[1] >= at] + [it for it in spans if it[0] == at]
        if waiting:
            first = min(waiting, key=lambda it: it[1])
            waiting.remove(first)
            ran[at] = first[1]
    passed += [it for it in waiting if it[1] <= last]
    found = []
    for _, due in passed:
        low = due
        while low > 1 and ran.get(low - 1, due + 1) <= due:
            low -= 1
        found.append((low, due))
    joined = []
    for low, high in sorted(found):
        if joined and low <= joined[-1][1]:
            joined[-1] = (joined[-1][0], max(joined[-1][1], high))
        else:
            joined.append((low, high))
    return joined


class Blame:
    """What the late requests of a capture are blamed on."""

    def __init__(self, told):
        self.told, self.taken = told, told.taken
        self.times = [it.went for it in self.taken]
        self.deadlines = [told.deadline(it) for it in self.taken]
        self.releases = [told.release(it) for it in self.taken]
        self.spans = [
            (bisect_left(self.times, came) + 1, bisect_right(self.times, due)) for came, due in zip(self.releases, self.deadlines)
        ]
        self.late = [place for place, it in enumerate(self.taken) if it.went > self.deadlines[place]]
        self.arrivals = [place for place in range(len(self.taken)) if self.deadlines[place] < self.releases[place]]
        self.stalled = [
            place
            for place in range(len(self.taken))
            if self.releases[place] <= self.deadlines[place]
            and not any(self.releases[place] <= it <= self.deadlines[place] for it in self.times)
        ]

    def at(self, number):
        """When a dispatch was, from the first record on."""
        return max(self.times[number - 1] - self.told.begin, 0) if 0 < number <= len(self.times) else None

    def between(self, low, high):
        low, high = self.at(low), self.at(high)
        return low, high, None if low is None or high is None else high - low

    def since_due(self, place):
        """When a request was due, when its last bio came in, and how much later."""
        low, high = (max(it - self.told.begin, 0) for it in (self.deadlines[place], self.releases[place]))
        return low, high, high - low

    def stalls(self):
        """After how many dispatches there was one, and how many requests stalled in it, the greatest first."""
        after = [self.spans[place][1] for place in self.stalled]
        return sorted(((it, after.count(it)) for it in sorted(set(after))), key=lambda it: -it[1])

    def windows(self):
        """Windows with how many requests lie in each and how many dispatches, the greatest first."""
        can = [it for it in self.spans if it[0] <= it[1]]
        found = [
            (low, high, sum(low <= it[0] and it[1] <= high for it in can), high - low + 1)
            for low, high in passed_windows(can, len(self.taken))
        ]
        return sorted(found, key=lambda it: -(it[2] - it[3]))

    def flying(self, after):
        """How many requests were at the device when the stall after so many dispatches began."""
        return sum(it.is_out(self.times[after - 1]) for it in self.taken) if after else 0

    def waited(self, span):
        """In which share of a span at least one request waited."""
        until, waited = 0, 0
        for came, went in sorted((self.told.entry(it), it.went) for it in self.taken):
            waited += max(went - max(came, until), 0)
            until = max(until, went)
        return hundredths(1000 * waited // span if span else None)

    def whole(self, most, by="pid"):
        ways = [self.taken[place].span[0] for place in self.late]
        had = len(self.taken) - most_on_time(self.spans)
        stalls, windows = self.stalls(), self.windows()
        entries = [self.told.entry(it) for it in self.taken]
        span = max(self.times[-1] - min(entries), 0) if entries else 0
        yield f"{len(self.taken)} requests in {ms(span)} ms, at least one waiting in {self.waited(span)} % of it"
        yield f"late {len(ways)}: reads {ways.count('R')}, writes {ways.count('W')}"
        crowded = sum(it[2] - it[3] for it in windows)
        yield f"had to be {had}: by stall {len(self.stalled)}, by crowding {crowded}, by arrival {len(self.arrivals)}"
        yield f"the scheduler's {len(ways) - had}"
        half, most_of, top = spread((self.deadlines[place], self.times[place]) for place in self.late)
        yield f"overrun in ms: p50 {half}, p99 {most_of}, max {top}"
        yield from self.stages()
        yield from self.groups(most, by) if by != "none" else ()
        yield ""
        yield "stalls, in which the device took nothing, the greatest first, in ms:"
        yield "        from       until    length  requests  in_flight"
        for after, count in stalls[:most]:
            low, high, long = map(ms, self.between(after, after + 1))
            yield f"{low:>12}{high:>12}{long:>10}{count:>10}{self.flying(after):>11}"
        yield ""
        yield "crowded windows, with more requests than dispatches, the greatest first, in ms:"
        yield "        from       until    length  requests   carries"
        for low, high, inside, carries in windows[:most]:
            low, high, long = map(ms, self.between(low, high))
            yield f"{low:>12}{high:>12}{long:>10}{inside:>10}{carries:>10}"

    def stages(self):
        """How long requests were in each stage, by direction."""
        yield ""
        yield "stages, in ms:"
        yield "stage dir     count         p50         p99         max   share"
        stages = (
            ("Q2G", lambda it: (it.opener.queued, it.got)),
            ("G2I", lambda it: (it.got, it.inserted)),
            ("I2D", lambda it: (it.inserted, it.went)),
            ("D2C", lambda it: (it.went, it.completed)),
            ("Q2C", lambda it: (it.opener.queued, it.completed)),
        )
        for name, ends in stages:
            for way in "RW":
                pairs = [ends(it) for it in self.taken if it.span[0] == way]
                count = sum(None not in it for it in pairs)
                told = "".join(f"{it:>12}" for it in spread(pairs))
                yield f"{name:<6}{way:<4}{count:>9}{told}{self.share(way, ends):>8}"

    def share(self, way, ends):
        """The share that a stage has of the whole way of the requests of a direction, of those whose whole way is known."""
        done = [it for it in self.taken if it.span[0] == way and it.completed is not None]
        between = lambda since, until: 0 if None in (since, until) else max(until - since, 0)
        whole = sum(between(it.opener.queued, it.completed) for it in done)
        return hundredths(1000 * sum(between(*ends(it)) for it in done) // whole if whole else None)

    def hurt(self, key):
        """The processes or processors that have late requests, the most late ones first, and then by their numbers."""
        keys = [key(self.taken[place]) for place in self.late]
        return sorted(set(keys), key=lambda it: (-keys.count(it), it))

    def group(self, own):
        """Of the requests at some places how many there are, how many were late, stalled and came in late, the fewest late ones of them in any order,
        and the most of these that can be on time beside all that were; how long they waited, and by how much the late ones were late."""
        late = [place for place in own if place in self.late]
        timely = [it for place, it in enumerate(self.spans) if place not in self.late]
        least = len(own) - most_on_time([self.spans[place] for place in own])
        savable = most_on_time([*timely, *(self.spans[place] for place in late)]) - len(timely)
        stalled = sum(place in self.stalled for place in late)
        arrivals = sum(place in self.arrivals for place in late)
        waited = [(self.told.entry(self.taken[place]), self.times[place]) for place in own]
        over = [(self.deadlines[place], self.times[place]) for place in late]
        return len(own), len(late), stalled, arrivals, least, savable, waited, over

    def groups(self, most, by):
        key, name = BY[by]
        yield ""
        yield f"{name}, the most late ones first, waits and the greatest overrun in ms:"
        yield f"       {by}  requests    late  stalled  arrivals   least  savable   wait_p50   wait_p99    overrun"
        for number in self.hurt(key)[:most]:
            own = [place for place, it in enumerate(self.taken) if key(it) == number]
            count, late, stalled, arrivals, least, savable, waited, over = self.group(own)
            half, most_of, _ = spread(waited)
            told = f"{number:>10}{count:>10}{late:>8}{stalled:>9}{arrivals:>10}{least:>8}{savable:>9}"
            yield f"{told}{half:>11}{most_of:>11}{spread(over)[2]:>11}"

    def cause(self, place):
        """Why a late request was late, and from which dispatch to which."""
        if place in self.arrivals:
            return "arrival", None
        low, high = self.spans[place]
        if place in self.stalled:
            return "stall", (high, high + 1)
        late = set(self.late)
        timely = [it for at, it in enumerate(self.spans) if at not in late]
        if most_on_time([*timely, (low, high)]) == len(timely) + 1:
            return "spare", None
        for until in range(high, len(self.taken) + 1):
            for since in range(1, low + 1):
                if sum(since <= it[0] and it[1] <= until for it in timely) == until - since + 1:
                    return "full", (since, until)
        raise ValueError("neither spare nor full")

    def each(self):
        yield EACH
        for place in self.late:
            it = self.taken[place]
            way, low, high = it.span
            cause, gap = self.cause(place)
            spent = self.since_due(place) if cause == "arrival" else self.between(*gap or (0, 0))
            times = ["" if it is None else ms(it) for it in spent]
            ids = gap if cause == "full" else ("", "")
            wait = max(it.went - self.told.entry(it), 0)
            flying = self.flying(gap[0]) if cause == "stall" else ""
            told = (way, low, high - low, ms(wait), ms(it.went - self.deadlines[place]), cause, *times, *ids, flying)
            yield ",".join(map(str, (place + 1, it.pid, *told)))

    def spans_after(self, way, time):
        """The spans of dispatches where the requests of a direction are due that long after they came in."""
        told = copy.copy(self.told)
        told.asked = replace(told.asked, **{"read" if way == "R" else "write": time})
        return [(low, bisect_right(self.times, told.deadline(it))) for (low, _), it in zip(self.spans, self.taken)], told

    def tightest(self, way, share):
        """The least times after which the requests of a direction are due so that no more are late than a share leaves: with no more of the others
        late than have to be, and whatever becomes of these."""
        own = [place for place, it in enumerate(self.taken) if it.span[0] == way]
        rest = [place for place, it in enumerate(self.taken) if it.span[0] != way]
        _, told = self.spans_after(way, 0)
        came_in = [told.deadline(self.taken[place]) for place in own]
        times = sorted({0, *(went - came for went in self.times for came in came_in if went > came)})
        allowed = (100 - share) * len(own) // 100

        def fewest(time, is_alone):
            spans, _ = self.spans_after(way, time)
            late = lambda places: len(places) - most_on_time([spans[place] for place in places])
            return late(own) if is_alone else late([*own, *rest]) - late(rest)

        yield f"{way} {len(own)} requests, of which {allowed} may be late"
        for is_alone, where in ((False, "with no more of the others late than have to be"), (True, "whatever becomes of the others")):
            found = times[bisect_left(times, True, key=lambda time: fewest(time, is_alone) <= allowed)]
            yield f"due after {found} ns, {where}"

    def wrongs(self, certificate):
        """What is wrong with a certificate of how many can be on time."""
        title, *records = (line.split(",") for line in certificate.splitlines())
        (word, met, count, _), records = records[0], records[1:]
        windows = [(int(low), int(high)) for _, low, high, _ in records[: int(count)]]
        commands = [tuple(map(int, it)) for it in records[int(count) :]]
        rounds = [at for *_, at in commands]
        can = [(low, high) for _, low, high, _ in commands if low <= high]
        outside = sum(not any(since <= low and high <= until for since, until in windows) for low, high in can)
        if (title, word) != (["blk-met", "1", "1", str(len(self.taken))], "met"):
            yield "    another title\n"
        if [it[:3] for it in commands] != [(place + 1, *span) for place, span in enumerate(self.spans)]:
            yield "    other commands\n"
        if len(set(rounds)) < len(rounds) or any(at < low for _, low, _, at in commands):
            yield "    a schedule that isn't legal\n"
        if sum(at <= high for _, _, high, at in commands) != int(met) or int(met) != most_on_time(self.spans):
            yield "    another number on time\n"
        if any(one[1] >= other[0] for one, other in zip(windows, windows[1:])):
            yield "    windows that aren't disjoint\n"
        if sum(until - since + 1 for since, until in windows) + outside != int(met):
            yield "    another bound\n"

    def texts(self):
        lines = lambda it: "".join(f"{line}\n" for line in it)
        yield [], lines(self.whole(10))
        yield ["--all"], lines(self.whole(len(self.taken)))
        yield ["--by", "cpu"], lines(self.whole(10, "cpu"))
        yield ["--by", "cpu", "--top", "1"], lines(self.whole(1, "cpu"))
        yield ["--by", "none"], lines(self.whole(10, "none"))
        yield ["--each"], lines(self.each())
        yield ["--tightest", "99%"], lines(self.tightest("R", 99))
        yield ["--tightest", "80%", "--for", "writes"], lines(self.tightest("W", 80))


def checked(given):
    """What is wrong with each text of a capture under options, beside what it is of."""
    name, records, asked = given
    text = text_of(records)
    told = Told(records, asked)
    said = "".join(told.doubts()) + told.said()
    found, blame = [], Blame(told)
    for words, written in blame.texts():
        words = [*asked.words(), *words]
        found.append((f"{name}, blame {' '.join(words)}", run_of("blame", words, text, written, said)))
    words = [*asked.words(), "--certificate"]
    written = subprocess.run([PROGRAM, "blame", *words], input=text.encode(), capture_output=True, timeout=SECONDS).stdout.decode()
    told_of = "".join(blame.wrongs(written)) + run_of("blame", words, text, written, said)
    found.append((f"{name}, blame {' '.join(words)}", told_of))
    return found


if __name__ == "__main__":
    signal.signal(signal.SIGTERM, ended)
    sys.exit(command("blaming.py", __doc__, sys.argv[1:], captures_of, checked))
