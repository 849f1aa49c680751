"""Looks at the pictures of schedules and of captures, each against the schedule or the capture that it is to show, read here by itself.

Of each it looks that there is a bar for each command or request of a panel, in its place by its times, in a lane in which no other waits then,
with its numbers, and in the colour of why it was late; that the stalls and windows are those of the schedule or the capture, in their places; that
the axis has its numbers where their times lie; that no words leave the picture or meet others; that the panels are the worst intervals; and that
its heading has the counts. What could be on time is found by matching one by one.
"""
import re
import sys

sys.dont_write_bytecode = True

from blaming import Blame, most_on_time, ms
from matching import Asked, Told, records_of

SVG = "{http://www.w3.org/2000/svg}"
PICTURE, FIRST, LEFT, WIDE, TOP = 1280, 116, 64, 1200, 24
# Rows of windows, and how high they and what stands below the lanes are.
WINDOW_ROWS, WINDOW_TALL, BELOW = 4, 28, 40
# How many pixels digits take, and the words between the numbers of a window.
DIGIT, WORDS = 7, 110
ALL, PANELS, BARS, ROWS = 200, 10, 1000, 100
# Up to so many its causes are looked for, one matching each.
SLOW = 600
COLOURS = {"spare": "x", "full": "o", "stall": "h", "arrival": "a", "gap": "a"}
UNITS = {"ns": 1, "us": 1000, "ms": 10**6, "s": 10**9}


class Fault(Exception):
    """What is wrong with a picture."""


def hold(it, what):
    if not it:
        raise Fault(what)


class Bar:
    def __init__(self, number, way, come, due, went):
        self.number, self.way, self.come, self.due, self.went = number, way, come, due, went
        self.late, self.why = due < went, None


class Schedule:
    """The commands of a schedule, and what is drawn of them."""

    rounds, words = True, "commands"

    def __init__(self, text):
        rows = [list(map(int, it.split(",")[-4:])) for it in text.split()[1:]]
        self.depth = int(text.split()[0].split(",")[2])
        self.bars = [Bar(number, "command", come, due, went) for number, come, due, went in rows]
        can = [(it.come, it.due) for it in self.bars if it.come <= it.due]
        self.spans, self.stalls = can, []
        if len(rows) <= SLOW:
            self.most = self.served(can)
            timely = [(it.come, it.due) for it in self.bars if not it.late]
            for it in self.bars:
                if it.late:
                    spare = it.come <= it.due and self.served([*timely, (it.come, it.due)]) > len(timely)
                    it.why = "gap" if it.due < it.come else "spare" if spare else "full"

    def served(self, spans):
        """How many of them can each have a place of its own in one of its rounds."""
        places = self.depth
        return most_on_time([(low * places, high * places + places - 1) for low, high in spans])

    def told(self, time):
        return str(time)

    def heading(self):
        late = sum(it.late for it in self.bars)
        had = len(self.bars) - self.most
        return rf"commands {len(self.bars)} late {late} unavoidable {had} avoidable {late - had} spare {sum(it.why == 'spare' for it in self.bars)} "


class Capture:
    """The requests of a capture, and what is drawn of them."""

    rounds, words = False, "requests"

    def __init__(self, text, asked):
        told = Told(list(records_of(text)), asked)
        blame = Blame(told)
        since = lambda time: max(time - told.begin, 0)
        late = set(blame.late)
        self.bars = []
        for place, it in enumerate(told.taken):
            way = "read" if it.span[0] == "R" else "write"
            bar = Bar(place + 1, way, since(told.entry(it)), since(blame.deadlines[place]), since(it.went))
            bar.late = place in late
            if bar.late and len(told.taken) <= SLOW:
                bar.why = blame.cause(place)[0]
            self.bars.append(bar)
        ends = lambda low, high: (blame.at(low) or 0, blame.at(high) or 0)
        self.stalls = sorted((*ends(after, after + 1), count) for after, count in blame.stalls())
        windows = blame.windows() if len(told.taken) <= SLOW else None
        self.windows = windows and sorted((*ends(low, high), inside, carries) for low, high, inside, carries in windows)
        stalled, arrived = len(blame.stalled), len(blame.arrivals)
        crowded = sum(it[2] - it[3] for it in windows or [])
        had = stalled + arrived + crowded
        self.head = (
            f"requests {len(self.bars)}, late {len(late)}; had to be {had}: by stall {stalled}, by crowding {crowded}, "
            f"by arrival {arrived}; the scheduler's {len(late) - had}"
        )

    def told(self, time):
        return ms(time)

    def heading(self):
        return self.head


def asked_by(words):
    """The options of an import among the words of a case."""
    words = [it.decode() for it in words]
    after = lambda name: words[words.index(name) + 1] if name in words else None
    time = lambda text, usual: usual if text is None else int(re.match(r"\d+", text)[0]) * UNITS[text.lstrip("0123456789")]
    first = after("--first")
    usual = Asked()
    return Asked(
        time(after("--read-expire"), usual.read),
        time(after("--write-expire"), usual.write),
        after("--from") == "queue",
        time(after("--skip"), 0),
        None if first is None else int(first),
    )


def intervals(bars):
    """The times in which late ones wait, joined where they have one in common, the worst first."""
    found = []
    for come, went in sorted((it.come, it.went) for it in bars if it.late):
        if found and come <= found[-1][1]:
            found[-1][1:] = [max(found[-1][1], went), found[-1][2] + 1]
        else:
            found.append([come, went, 1])
    return sorted(found, key=lambda it: -it[2])


def text_of(bar, shown):
    apart = f"{'late' if bar.due < bar.went else 'early'} by {shown.told(abs(bar.went - bar.due))}"
    times = f"in {shown.told(bar.come)}, due {shown.told(bar.due)}, out {shown.told(bar.went)}, {apart}: "
    return f"{bar.way} {bar.number}: {times}" + ("" if bar.late else "on time")


class Axis:
    """Where times lie."""

    def __init__(self, bars, ends, one):
        self.low = max(ends[0], min((it.come for it in bars), default=0))
        self.high = max(min(ends[1], max((it.went for it in bars), default=0)) + one, self.low)
        self.one = one

    def at(self, time):
        inside = max(min(time, self.high) - self.low, 0)
        return LEFT + min(inside * WIDE // max(self.high - self.low, 1), WIDE)


def numbers(element, *names):
    return [int(element.get(name, "0")) for name in names]


def look_at_axis(marks, texts, shown, axis, foot):
    """The numbers of the axis: each step of a round number has one, whose mark is where its time lies."""
    told = [it.text for it in texts]
    times = [int(it.replace(".", "")) * (1 if shown.rounds else 1000) for it in told]
    hold(told == [shown.told(it) for it in times] and len(times) <= 14, f"the numbers of the axis: {told}")
    for time, mark, text in zip(times, marks, texts, strict=True):
        hold(axis.low <= time <= axis.high and mark.get("d") == f"M{axis.at(time)} {foot}v5", f"the mark of {text.text}")
        middle = min(axis.at(time), PICTURE - len(text.text) * DIGIT // 2)
        hold(numbers(text, "x", "y") == [middle, foot + 17], f"the place of {text.text}")
    steps = {after - before for before, after in zip(times, times[1:])}
    hold(len(steps) <= 1, "steps of one length")
    for step in steps:
        hold(re.fullmatch("[125]0*", str(step)), f"a step of {step}")
        hold(axis.low <= times[0] < axis.low + step and axis.high - step < times[-1], "the ends of the axis")
        far = DIGIT * max(map(len, told))
        hold(all(far <= axis.at(after) - axis.at(before) for before, after in zip(times, times[1:])), "numbers that meet")


def look_at_brackets(groups, axis, foot):
    """The brackets of windows, in rows in turn, and their numbers, where those of the next one in the row leave room."""
    places, labels = [], []
    for number, (group, low, high, inside, room) in enumerate(groups):
        y = foot + number % WINDOW_ROWS * WINDOW_TALL + 26
        came = axis.at(low)
        bracket = f"M{came} {y}v6H{max(axis.at(high + axis.one), came + 2)}v-6"
        hold([it.get("d") for it in group.findall(SVG + "path")] == [bracket], f"the bracket from {low} to {high}")
        words = f"{inside} wanted, room for {room}"
        wide = WORDS + DIGIT * sum(map(str.isdigit, words))
        places.append((min(came, PICTURE - wide), wide))
        labels.append([(it.text, *numbers(it, "x", "y")) for it in group.findall(SVG + "text")])
        if labels[-1]:
            hold(labels[-1] == [(words, places[-1][0], y + 18)], f"the numbers of {low} to {high}: {labels[-1]}")
    for number, (left, wide) in enumerate(places):
        row = places[number + WINDOW_ROWS::WINDOW_ROWS]
        hold(bool(labels[number]) == (not row or left + wide <= row[0][0]), f"whether window {number} has its numbers")


def look_at_bar(group, bar, shown, axis, tall):
    title = group.find(SVG + "title").text
    want = text_of(bar, shown)
    hold(title.startswith(want) and (not bar.why or title == want + bar.why), f"the title {title} and not {want}{bar.why or ''}")
    why = title.rsplit(": ", 1)[1]
    parts = group.findall(SVG + "rect")
    come, went, due = axis.at(bar.come), axis.at(bar.went + axis.one), axis.at(bar.due + axis.one)
    turn = min(max(due, come), went)
    before = {"read": "r", "write": "w", "command": "u"}[bar.way]
    want = [(before, come, went)]
    if bar.late:
        want = [(before, come, turn)] if come < turn else []
        want += [(COLOURS[why], turn, went)]
    told = [(it.get("class"), *numbers(it, "x", "width")) for it in parts]
    hold(told == [(name, low, max(high - low, 1)) for name, low, high in want], f"the bar of {title}: {told}")
    lanes = {(int(it.get("y")) - TOP) // tall for it in parts}
    hold(len(lanes) == 1, f"the lane of {title}")
    return lanes.pop()


def look_at_panel(group, shown, ends, number):
    here = [it for it in shown.bars if it.come <= ends[1] and ends[0] <= it.went]
    title = group.find(SVG + "text").text
    late = sum(it.late for it in here[:BARS])
    want = f"{number}. From {shown.told(ends[0])} to {shown.told(ends[1])}: " if number else ""
    want += f"{len(here)} {shown.words}, {late} late" + (f"; the first {BARS} are drawn" if BARS < len(here) else "")
    hold(title == want, f"the title {title} and not {want}")
    here = here[:BARS]
    axis = Axis(here, ends, 1 if shown.rounds else 0)
    groups = group.findall(SVG + "g")
    spans = [it for it in groups if re.match("stall|crowded", it.find(SVG + "title").text)]
    bars = groups[len(spans):]
    hold(groups[: len(spans)] == spans and len(bars) == len(here), f"{len(bars)} bars and not {len(here)} in {title}")
    (frame,) = [it for it in group.findall(SVG + "rect")]
    hold(numbers(frame, "x", "y", "width") == [LEFT, TOP, WIDE], "the frame")
    own = shown.rounds and len(here) <= ROWS
    heights = {int(it.get("height")) for bar in bars for it in bar.findall(SVG + "rect")}
    hold(len(heights) <= 1, "bars of one height")
    tall = max(heights, default=1) + 1
    lanes = {}
    for bar, it in zip(bars, here):
        lanes[it.number, it.come] = (look_at_bar(bar, it, shown, axis, tall), it)
    ends_of = []
    for it in sorted(here, key=lambda it: (it.come, it.number)):
        free = len(ends_of) if own else next((at for at, end in enumerate(ends_of) if end <= it.come), len(ends_of))
        ends_of[free:free + 1] = [it.went + 1]
        hold(lanes[it.number, it.come][0] == free, f"the lane of {text_of(it, shown)}")
    high = len(ends_of) * tall
    hold(int(frame.get("height")) == high, "the height of the frame")
    for bar, it in zip(bars, here):
        look_at_row(bar, it, axis, tall, own, TOP + lanes[it.number, it.come][0] * tall)
    look_at_axis(group.findall(SVG + "path"), group.findall(SVG + "text")[1:], shown, axis, TOP + high)
    look_at_spans(spans, shown, ends, axis, high)
    windows = sum(it.find(SVG + "title").text.startswith("crowded") for it in spans)
    return TOP + high + min(windows, WINDOW_ROWS) * WINDOW_TALL + BELOW


def look_at_row(group, bar, axis, tall, own, y):
    """A command's own row has when it was due, where that is drawn, and beside it the command's number, where it is high enough."""
    due = [f"M{axis.at(bar.due + axis.one)} {y}v{tall - 1}"] if own and bar.due < axis.high else []
    hold([it.get("d") for it in group.findall(SVG + "path")] == due, f"when {bar.number} was due")
    beside = [(str(bar.number), 58, y + tall // 2 + 4)] if own and 10 <= tall else []
    hold([(it.text, *numbers(it, "x", "y")) for it in group.findall(SVG + "text")] == beside, f"the number beside {bar.number}")


def look_at_spans(spans, shown, ends, axis, high):
    meets = lambda low, high: low <= ends[1] and ends[0] <= high
    told = []
    for it in spans:
        title = it.find(SVG + "title").text
        told.append(title)
        if title.startswith("stall"):
            shade = it.find(SVG + "rect")
            hold(shade.get("class") == "st" and numbers(shade, "y", "height") == [TOP, high], f"the shade of {title}")
            come, went = (axis.at(time) for time in times_of(title, shown))
            hold(numbers(shade, "x", "width") == [come, max(went - come, 1)], f"the place of {title}")
    stall = lambda low, high, count: f"stall from {shown.told(low)} to {shown.told(high)}: requests {count}, carries 0"
    stalls = [stall(*it) for it in shown.stalls if meets(it[0], it[1])]
    hold([it for it in told if it.startswith("stall")] == stalls, "the stalls")
    crowded = [it for it in told if it.startswith("crowded")]
    brackets = [it for it in spans if it.find(SVG + "title").text in crowded]
    counts = [map(int, re.findall(r"\d+", it.split(": ")[1])) for it in crowded]
    look_at_brackets([(it, *times_of(told, shown), *count) for it, told, count in zip(brackets, crowded, counts)], axis, TOP + high)
    if shown.rounds:
        look_at_windows(crowded, shown)
    elif shown.windows is not None:
        window = lambda low, high, inside, room: (
            f"crowded window from {shown.told(low)} to {shown.told(high)}: requests {inside}, carries {room}"
        )
        hold(sorted(crowded) == sorted(window(*it) for it in shown.windows if meets(it[0], it[1])), "the windows")


def times_of(title, shown):
    """The times of a stall or a window, by its title: those of a capture to the last digit of its own."""
    told = re.findall(r"[0-9.]+", title.split(":")[0])
    if shown.rounds:
        return [int(it) for it in told]
    known = shown.stalls if title.startswith("stall") else shown.windows
    for low, high, *_ in known or []:
        if [ms(low), ms(high)] == told:
            return [low, high]
    return [int(it.replace(".", "")) * 1000 for it in told]


def look_at_windows(titles, shown):
    """The windows of a schedule have the commands that lie in them and what their rounds carry, and do not meet."""
    before = -1
    for title in titles:
        low, high, inside, room = map(int, re.findall(r"\d+", title))
        hold(before < low <= high, "windows that are not apart")
        hold(inside == sum(low <= a and b <= high for a, b in shown.spans), f"the commands of {title}")
        hold(room == shown.depth * (high - low + 1), f"the room of {title}")
        before = high


def look_at(top, shown):
    """What is wrong with a picture of a schedule or a capture raises a Fault."""
    texts = [it.text or "" for it in top.findall(SVG + "text")]
    hold(texts[0] == ("schedule, in rounds" if shown.rounds else "late requests, in ms"), "the title")
    if len(shown.bars) <= SLOW:
        hold(texts[1].replace("\n", " ") == shown.heading(), f"the heading {texts[1]!r} and not {shown.heading()!r}")
    panels = [it for it in top.findall(SVG + "g") if it.get("transform").startswith("translate(0,")]
    late = sum(it.late for it in shown.bars)
    if len(shown.bars) <= ALL:
        hold(texts[2] == f"All are drawn, {late} of them late.", f"the line {texts[2]}")
        hold(len(panels) == 1, "one panel")
        look_at_places(top, panels, [look_at_panel(panels[0], shown, (0, 2**64 - 1), 0)])
        return
    worst = intervals(shown.bars)
    drawn = worst[:PANELS]
    told = f"Intervals in which late requests wait: the worst {len(drawn)} of {len(worst)}, with {sum(it[2] for it in drawn)} of the {late} late."
    hold(texts[2] == (told if worst else "None was late."), f"the line {texts[2]}")
    hold(len(panels) == len(drawn), "a panel for each interval")
    many = 1 < len(drawn)
    look_at_places(top, panels, [look_at_panel(panel, shown, it[:2], place + 1 if many else 0) for place, (panel, it) in enumerate(zip(panels, drawn))])


def look_at_places(top, panels, heights):
    """The panels stand one below another, and the picture ends below the last one."""
    begin = FIRST
    for panel, high in zip(panels, heights, strict=True):
        hold(panel.get("transform") == f"translate(0,{begin})", f"a panel at {begin}")
        begin += high
    hold(int(top.get("height")) == begin + 16, f"the height of the picture, not {begin + 16}")


def shown_by(words, text):
    """What a case's picture is to show, where it is one of a schedule or of a capture."""
    if words[:2] == [b"picture", b"--schedule"]:
        return Schedule(text)
    if words[:1] == [b"blame"] and b"--picture" in words:
        return Capture(text, asked_by(words))
    return None
