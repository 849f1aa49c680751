#!/usr/bin/env python3
"""Looks at pictures, each against the trace that it is to show, read here by itself.

    tools/pictures.py             every case of cases/ whose words begin with `picture`; and, where the program is there, what it draws
                                  of the input of each case that looks at a trace or compares the schedulers
    tools/pictures.py NAME..      those alone

Of each it looks that the text is XML of the elements that a picture has, without scripts, fonts or links; that no box lies outside its
frame or over another; and, where the case's input is a trace, that there is one box for each Issue, in its round and under its tag, with
its class; or, where a column stands for several rounds, that each column has the numbers of its rounds; that as many requests wait
as the trace says; that each window has the two numbers that its commands and its rounds give, with those of the heading, and below it
where they are few; and by how many rounds the axis counts.

Of more than 400 rounds those columns are drawn in which a late request waits or goes out, by the first step that makes them few enough: of
these it looks at all of that, and that broken lines stand where others are cut. Pictures of schedules and of captures are looked at by tools/lanes.py.

Prints what is wrong, and as the last line 'N passed, M failed'. Ends with 0 where none failed, and with 1 where one did.
"""
import copy
import csv
import io
import os
import re
import signal
import subprocess
import sys
import xml.etree.ElementTree as ET
from collections import Counter
from bisect import bisect_left
from itertools import accumulate

sys.dont_write_bytecode = True

import lanes
import words as command_line
from cases import PROGRAM, Case, counted, ended, read_cases, run, side_by_side
from traces import Trace

SVG = "{http://www.w3.org/2000/svg}"
ELEMENTS = {"svg", "style", "defs", "pattern", "path", "rect", "g", "text", "title"}
LEFT, ABOVE, LABELLED, COLUMNS = 64, 182, 12, 400
# The words that read a trace and look at it: all that do by the table in docs/FORMATS.md, but what draws it and what takes its commands.
LOOKED_AT = [it.encode().split() for it in command_line.that_read("a trace") if it not in ("picture", "commands")]


Fault, hold = lanes.Fault, lanes.hold


class Drawn(Trace):
    """A trace, and what a picture of it has to show."""

    def class_of(self, issue):
        way = "r" if issue.request.dir == "R" else "w"
        if issue.back:
            return "h" + way
        return way + " l" if issue.late else way

    def kind_of(self, issue):
        return "b" if issue.back else "m" if issue.late else self.class_of(issue)

    def waiting_in(self, way):
        """How many requests of a direction wait at the end of each round."""
        change = [0] * self.rounds
        for request in self.requests.values():
            if request.dir == way:
                change[request.entered] += 1
        for issue in self.issues:
            if issue.request.dir == way and not issue.back:
                change[issue.round] -= 1
        return list(accumulate(change))

    def carried(self, first, last):
        """What the rounds from one to another carry; after the last one each carries as much as that would."""
        return sum(self.depths[first : last + 1]) + self.beyond * max(0, last - max(first, self.rounds) + 1)


class Layout:
    """Which columns of a trace are drawn: all, or those in which a late request waits or goes out."""

    def __init__(self, trace):
        self.rounds = trace.rounds
        self.per = max(1, -(-trace.rounds // COLUMNS))
        self.all = -(-trace.rounds // self.per)
        self.shown, self.cut = list(range(self.all)), False
        late = [it for it in trace.issues if it.late and not it.back]
        steps = (m * 10**k for k in range(5) for m in (1, 2, 5))
        for step in () if self.per == 1 else (it for it in steps if it < self.per):
            kept = {c for it in late for c in range(it.request.release // step, it.round // step + 1)}
            if 0 < len(kept) <= COLUMNS:
                self.per, self.all, self.shown, self.cut = step, -(-trace.rounds // step), sorted(kept), True
                break

    def place(self, column):
        """Where a column is drawn, or would be."""
        return bisect_left(self.shown, column)

    def column(self, round_):
        return min(round_, self.rounds - 1) // self.per


def numbers(element, *names):
    return [int(element.get(name, "0")) for name in names]


def part_texts(part):
    return ["".join(it.itertext()) for it in part.findall(SVG + "text")]


def boxes_of(part):
    return [it for it in part.findall(SVG + "rect") if it.find(SVG + "title") is not None]


def frames_of(part):
    hold(len(part.findall(SVG + "svg")) == 2, "a part has a strip and a frame")
    return part.findall(SVG + "svg")


def look_at_frame(part):
    """No box lies outside the frame or over another."""
    strip, frame = frames_of(part)
    wide, tall = numbers(frame, "width", "height")
    hold(numbers(frame, "x", "y") == [LEFT, ABOVE], "the frame's place")
    hold(int(strip.get("width")) == wide, "the strip is as wide as the frame")
    taken = set()
    for box in boxes_of(part):
        x, y, w, h = numbers(box, "x", "y", "width", "height")
        hold(LEFT <= x and x + w <= LEFT + wide and ABOVE <= y and y + h <= ABOVE + tall, f"a box at {x} {y} outside its frame")
        for i in range(x, x + w):
            for j in range(y, y + h):
                hold((i, j) not in taken, f"a box at {x} {y} over another")
                taken.add((i, j))
    for svg in (strip, frame):
        _, _, columns, units = map(int, svg.get("viewBox").split())
        stacks = {}
        for rect in svg.iter(SVG + "rect"):
            if rect.get("class") == "f":
                continue
            x, y, w, h = numbers(rect, "x", "y", "width", "height")
            hold(w == 1 and 0 <= x < columns and 0 <= y and y + h <= units, f"a part of column {x} outside its frame")
            if h:
                stacks.setdefault(x, []).append((y, y + h))
        for x, spans in stacks.items():
            spans.sort()
            hold(all(a[1] <= b[0] for a, b in zip(spans, spans[1:])), f"a part of column {x} over another")


def look_at_boxes(part, trace, layout, wide, tall):
    seen = {}
    for box in boxes_of(part):
        x, y = numbers(box, "x", "y")
        hold((x - LEFT) % wide == 0 and (y - ABOVE) % tall == 0, "a box between two rounds or tags")
        seen[layout.shown[(x - LEFT) // wide], (y - ABOVE) // tall] = box
    drawn = [it for it in trace.issues if it.round in set(layout.shown)] if layout.cut else trace.issues
    hold(len(seen) == len(drawn), f"{len(seen)} boxes and {len(drawn)} Issues")
    for issue in drawn:
        box, it = seen.get((issue.round, issue.tag)), issue.request
        hold(box is not None, f"no box in round {issue.round} under tag {issue.tag}")
        hold(box.get("class") == trace.class_of(issue), f"the class of request {it.id}")
        way = "read" if it.dir == "R" else "write"
        end = f"issued {issue.round} and handed back" if issue.back else f"issued {issue.round}, lateness {issue.round - it.due}"
        want = f"request {it.id}, {way}, sectors {it.first} to {it.end}, released in round {it.release}, due {it.due}, {end}"
        hold(box.find(SVG + "title").text == want, f"the title of request {it.id}: {box.find(SVG + 'title').text}")


def look_at_columns(frame, trace, layout):
    _, _, columns, whole = map(int, frame.get("viewBox").split())
    per, want = layout.per, [Counter() for _ in range(columns)]
    places = {column: place for place, column in enumerate(layout.shown)}
    for issue in trace.issues:
        if issue.round // per in places:
            want[places[issue.round // per]][trace.kind_of(issue)] += 1
    for rect in frame.iter(SVG + "rect"):
        kind = rect.get("class")
        if kind in "rwmb":
            x, h = numbers(rect, "x", "height")
            hold(want[x][kind] == h, f"column {x} has {h} of {kind} and not {want[x][kind]}")
            del want[x][kind]
        elif kind == "g":
            x, y, h = numbers(rect, "x", "y", "height")
            low = layout.shown[x] * per
            room = trace.carried(low, min(low + per, trace.rounds) - 1)
            hold((y, y + h) == (room, whole), f"what column {x} does not carry")
    hold(not any(want), "a column is missing")
    names = [int(it.find(SVG + "title").text.split()[1].rstrip(":")) for it in frame.findall(SVG + "g")]
    hold(names == layout.shown, "the numbers of the columns")


def look_at_strip(strip, trace, layout):
    reads, writes = trace.waiting_in("R"), trace.waiting_in("W")
    told = {"r": {}, "w": {}}
    for rect in strip.iter(SVG + "rect"):
        if rect.get("class") in told:
            told[rect.get("class")][int(rect.get("x"))] = int(rect.get("height"))
    for x, column in enumerate(layout.shown):
        for kind, waits in (("r", reads), ("w", writes)):
            want = max(waits[column * layout.per:(column + 1) * layout.per])
            hold(told[kind].get(x) == want, f"{told[kind].get(x)} of {kind} wait in column {x} and not {want}")


def look_at_cut(part, layout):
    """The heading says how many columns are cut, with nothing late in them; broken lines stand where they are."""
    told = [it for it in part_texts(part) if it.startswith("cut at broken lines")]
    want = f"cut at broken lines: {layout.all - len(layout.shown)} of {layout.all} columns, with 0 late"
    hold(told == ([want] if layout.cut else []), f"the line {told}")


def look_at_windows(part, trace, layout, wide):
    served = trace.served
    heading = part_texts(part)
    report = dict(re.findall(r"(commands|waiting|depth|least|load) (-?\d+|none)", heading[1]))
    late, unavoidable, avoidable, spare, told_per = map(int, re.findall(r"\d+", heading[2]))
    hold(told_per == layout.per, "how many rounds a column is")
    hold(int(report["commands"]) == len(served) and int(report["depth"]) == trace.depth, "the report's counts")
    hold(late == sum(it.issue > it.due for it in served) and late == unavoidable + avoidable, "how many were late")
    hold(avoidable <= spare <= late, "what could have been avoided")
    (below,) = [it for it in part.findall(SVG + "g") if it.get("transform").startswith("translate(0,")]
    (look_at_cut_axis if layout.cut else look_at_axis)(below, layout, wide)
    look_at_labels(below)
    bound, outside, before = 0, set(range(len(served))), -1
    brackets = [it for it in below.findall(SVG + "path") if it.get("class") in ("k", "q") and it.find(SVG + "title") is not None]
    hold(sum(it.get("class") == "q" for it in brackets) == (1 if served else 0), "the crowded window")
    for bracket in brackets:
        title = bracket.find(SVG + "title").text
        first, last, commands, room = map(int, re.findall(r"\d+", title))
        x, to = map(int, re.match(r"M(\d+) .*H(\d+)", bracket.get("d")).groups())
        low, high = layout.place(layout.column(first)), layout.place(layout.column(last) + 1)
        hold([x, to] == [LEFT + wide * low, LEFT + wide * high], f"the bracket of {title}")
        if bracket.get("class") == "q":
            load = sum(first <= it.release and it.due <= last for it in served)
            hold(commands == load and int(report["load"]) == load, f"the load of {title}")
            end = max(first, last + int(report["least"]))
            hold(room == trace.carried(first, end - 1) and room < load, f"the room of {title}")
            continue
        hold(room == trace.carried(first, last), f"the room of {title}")
        inside = {i for i, it in enumerate(served) if first <= it.release <= it.due <= last}
        hold(commands == len(inside), f"the commands of {title}")
        hold(before < first <= last, "windows that are not apart")
        before, bound, outside = last, bound + room, outside - inside
    if len(brackets) <= 400:
        bound += sum(served[i].release <= served[i].due for i in outside)
        hold(bound + unavoidable == len(served), f"the windows leave {len(served) - bound} late and not {unavoidable}")


def ticks_of(below):
    """The numbers of the axis, and the places of its marks."""
    told = [(int(it.text), int(it.get("x"))) for it in below.findall(SVG + "text") if it.get("class") == "s c"]
    marks = [int(it[1]) for it in (re.fullmatch(r"M(\d+) 0v5", path.get("d")) for path in below.findall(SVG + "path")) if it]
    hold(marks == [x for _, x in told], "the marks of the axis")
    return told


def look_at_axis(below, layout, wide):
    """The axis counts by 1, 2 or 5 times a power of ten, the first of these by which it has at most 24 steps."""
    step = next(it for it in (m * 10**k for k in range(12) for m in (1, 2, 5)) if layout.rounds <= 24 * it)
    want = [(round_, LEFT + wide * (round_ // layout.per)) for round_ in range(0, layout.rounds, step)]
    told = ticks_of(below)
    hold(told == want, f"the axis counts {told[:4]} .. and not {want[:4]} ..")


def look_at_cut_axis(below, layout, wide):
    """Each number of the axis is the round by which its column begins, and broken lines stand where columns are cut."""
    told = ticks_of(below)
    hold(told and told[0][0] == layout.shown[0] * layout.per, "the first number of the axis")
    for round_, x in told:
        hold(round_ == layout.shown[(x - LEFT) // wide] * layout.per, f"the number {round_} of the axis")
    next_ones = [0, *(it + 1 for it in layout.shown)]
    want = [
        (LEFT + wide * place, f"rounds {low * layout.per} to {column * layout.per - 1} are cut")
        for place, (low, column) in enumerate(zip(next_ones, layout.shown))
        if low < column
    ]
    broken = [it for it in below.findall(SVG + "path") if it.get("class") == "z"]
    drawn = [(int(re.match(r"M(\d+) ", it.get("d"))[1]), it.find(SVG + "title").text) for it in broken]
    hold(drawn == want, f"the broken lines {drawn[:2]} .. and not {want[:2]} ..")


def look_at_labels(below):
    """The crowded window has its numbers below it, and those of misses have where they are at most 12."""
    brackets = [it for it in below.findall(SVG + "path") if it.get("class") in ("k", "q") and it.find(SVG + "title") is not None]
    few = sum(it.get("class") == "k" for it in brackets) <= LABELLED
    want = []
    for it in brackets:
        if few or it.get("class") == "q":
            commands = it.find(SVG + "title").text.split(": ", 1)[1]
            x, y = map(int, re.match(r"M(\d+) (\d+)v", it.get("d")).groups())
            want.append((commands, x, y + 18))
    told = [(it.text, *numbers(it, "x", "y")) for it in below.findall(SVG + "text") if it.get("class") == "s"]
    hold(told == want, f"the labels {told[:2]} .. and not {want[:2]} ..")


def look_at_trace(part, trace):
    strip, frame = frames_of(part)
    layout = Layout(trace)
    _, _, columns, whole = map(int, frame.get("viewBox").split())
    wide, tall = int(frame.get("width")) // columns, int(frame.get("height")) // trace.depth
    hold(columns == len(layout.shown) and whole == layout.per * trace.depth, "how many columns there are")
    look_at_cut(part, layout)
    if layout.per == 1:
        look_at_boxes(part, trace, layout, wide, tall)
        grey = {int(it.get("x")): numbers(it, "y", "height") for it in frame.iter(SVG + "rect") if it.get("class") == "g"}
        depths = [trace.depths[it] for it in layout.shown]
        want = {place: [d, trace.depth - d] for place, d in enumerate(depths) if d < trace.depth}
        hold(grey == want, "the depths of the rounds")
    else:
        look_at_columns(frame, trace, layout)
    look_at_strip(strip, trace, layout)
    look_at_windows(part, trace, layout, wide)


def read_of(text, most):
    """A picture, of the elements that one has and no larger than this."""
    hold(len(text) < most, f"{most} bytes and more")
    hold(not re.search(r"<script|@font|href|@import", text), "a script, a font or a link")
    try:
        top = ET.fromstring(text)
    except ET.ParseError as fault:
        raise Fault(f"no XML: {fault}") from None
    for it in top.iter():
        hold(it.tag.startswith(SVG) and it.tag[len(SVG):] in ELEMENTS, f"an element {it.tag}")
    hold(top.get("version") == "1.1" and top.get("width") == "1280", "the root")
    return top


def look_at(text, trace):
    top = read_of(text, 1_000_000)
    parts, tops = top.findall(SVG + "g"), []
    for part in parts:
        tops.append(int(re.fullmatch(r"translate\(0,(\d+)\)", part.get("transform")).group(1)))
        look_at_frame(part)
    hold(tops == [i * int(top.get("height")) // max(1, len(parts)) for i in range(len(parts))], "the places of the parts")
    if trace is not None:
        hold(len(parts) == 1, "one part for a trace")
        look_at_trace(parts[0], trace)


def not_flushed(text):
    """What is said of a script whose bios no flush takes out of their plugs."""
    held = Counter()
    for row in csv.reader(io.StringIO(text, newline="")):
        if row[:1] == ["bio"]:
            held[row[1]] += 1
        elif row[:1] == ["flush"]:
            held[row[1]] = 0
    return f"blk: not flushed: {held.total()} bios stay in their plugs\n".encode() if held.total() else b""


def drawn(case):
    """What is wrong with the picture that the program draws of a case's input, empty where nothing is."""
    once = copy.copy(case)
    once.args = [b"picture"] if of_trace(case) else [b"picture", b"--script"]
    try:
        status, wrote, said = run(PROGRAM, once)
        wanted = b"" if of_trace(case) else not_flushed(case.stdin.read_text())
        hold(status == 0 and said == wanted, f"it ended with status {status} and said {said[:400]!r}")
        look_at(wrote.decode("ascii"), Drawn(case.stdin.read_text()) if of_trace(case) else None)
    except (Fault, OSError, ValueError, AttributeError) as fault:
        return f"{fault}\n"
    return ""


def of_trace(case):
    """Whether a case reads a trace and looks at it."""
    return any(case.args[: len(it)] == it for it in LOOKED_AT)


def input_of(case):
    """The input of a case, also where a program writes it."""
    if case.generator:
        made = subprocess.run([sys.executable, "-I", case.generator], stdin=subprocess.DEVNULL, capture_output=True, check=True)
        return made.stdout.decode()
    return case.stdin.read_text() if case.stdin else ""


def kept(case):
    """What is wrong with the picture that a case holds, or None where it holds none."""
    picture = case.wanted["stdout"]
    if case.args[:1] not in ([b"picture"], [b"blame"]) or not picture:
        return None
    shown = lanes.shown_by(case.args, input_of(case))
    if shown is None and case.args[0] == b"blame":
        return None
    try:
        if shown is not None:
            lanes.look_at(read_of(picture.read_text(), 3_000_000), shown)
            return ""
        look_at(picture.read_text(), Drawn(case.stdin.read_text()) if case.args == [b"picture"] else None)
    except Fault as fault:
        return f"{fault}\n"
    return ""


def main(names):
    known = {name: it for name, it in read_cases().items() if isinstance(it, Case) and (not names or name in names)}
    told = [(name, what) for name, it in known.items() if (what := kept(it)) is not None]
    if os.access(PROGRAM, os.X_OK):
        again = [
            (name, it)
            for name, it in known.items()
            if not it.status and it.args and it.stdin and (of_trace(it) or it.args == [b"compare"])
        ]
        told += side_by_side(drawn, again)
    return 1 if counted(told, "{}: ") else 0


if __name__ == "__main__":
    signal.signal(signal.SIGTERM, ended)
    sys.exit(main(sys.argv[1:]))
