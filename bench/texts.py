"""Texts of all forms, as bench/hostile hands them to the program: good ones, and what spoils them. Each comes of a source of
random numbers alone, so that a seed gives the same text again.

A text is a list of records here, each a list of fields, until its bytes are put together.
"""
import heapq
import itertools
from collections import Counter

SCRIPT, TRACE, COMMANDS, CERTIFICATE, MET, SCHEDULE = "script", "trace", "commands", "certificate", "met", "schedule"
CAPTURE = "capture"


def record(*fields, width):
    """A record of these fields, and of empty ones up to the width."""
    return [str(it).encode() for it in (*fields, *[""] * (width - len(fields)))]


def some(rng, least, most):
    """A number from the least to the greatest, mostly a small one."""
    return min(most, least + int(rng.expovariate(0.5)))


# --- scripts ---


def good_setup(rng):
    sectors, segments = rng.choice([8, 16, 256, 65535]), rng.choice([1, 2, 3, 128])
    return record("setup", some(rng, 0, 99), rng.choice([0, 9, 50, 2**40 - 1]), sectors, segments, width=6)


def extent(rng):
    """A direction, a first sector and a number of sectors; some of them touch one another."""
    return rng.choice("RRW"), 8 * rng.randrange(12), rng.choice([8, 8, 8, 4, 16])


def script_steps(rng, version, queues, submitters, depth):
    """Steps as somebody writes them by hand, most of whom no rule refuses."""
    serials = [0] * submitters
    if rng.random() < 0.03:
        # as many as a plug holds, or one more
        serials[0] = rng.choice([32, 33])
        for serial in range(serials[0]):
            yield "bio", 0, serial, "R", 100 * serial, 8
    for _ in range(rng.randrange(30)):
        who, hw, tag = rng.randrange(submitters), rng.randrange(queues), rng.randrange(min(depth, 4))
        kind = rng.random()
        if kind < 0.5:
            yield "bio", who, serials[who], *extent(rng)
            serials[who] += 1
        elif kind < 0.7:
            yield "flush", who
            yield "drain", who % queues
        elif kind < 0.8:
            yield "run", some(rng, 1, 40)
        elif kind < 0.9:
            yield "issue", hw, tag
            yield rng.choice(["done", "done", "done", "back"]), tag
            yield ("tick",)
        elif kind < 0.93 and version == 2:
            yield "depth", some(rng, 1, depth)
        else:
            yield rng.choice([("tick",), ("done", tag), ("issue", hw, tag), ("drain", hw)])
    if rng.random() < 0.7:
        yield "run", some(rng, 1, 9)


def good_script(rng):
    version = rng.choice([1, 2])
    queues = some(rng, 1, 16)
    submitters = some(rng, queues, 64)
    depth = rng.choice([some(rng, 1, 64), 64 if version == 1 else 256])
    yield record("blk-script", version, depth, queues, rng.choice([1, 4, 64, 1024]), submitters, width=6)
    yield good_setup(rng)
    for step in script_steps(rng, version, queues, submitters, depth):
        yield record(*step, width=6)


# --- traces ---


class Layer:
    """What decides which events are legal: the requests that wait, the tags, and the depth of the round."""

    def __init__(self, rng, version):
        self.rng = rng
        self.version = version
        self.depth = rng.choice([1, 2, 3, 8, 64])
        self.now = self.next = self.depth
        self.setup = good_setup(rng)
        self.most_sectors, self.most_segments = int(self.setup[3]), int(self.setup[4])
        self.waiting, self.handed, self.flying, self.used = {}, [], {}, set()
        self.ids = itertools.count()
        self.serials = itertools.count()
        self.events = 0

    def bios(self, word, name, direction, spans):
        """An event of these bios."""
        self.events += 1
        yield word, name, len(spans)
        for first, sectors in spans:
            yield "bio", 0, next(self.serials), direction, first, sectors

    def release(self):
        direction, first, sectors = extent(self.rng)
        spans = [(first, sectors)]
        if self.most_segments > 1 and 2 * sectors <= self.most_sectors and self.rng.random() < 0.3:
            spans.append((first + sectors, sectors))
        name = next(self.ids)
        self.waiting[name] = [direction, first, sum(it for _, it in spans), len(spans)]
        return self.bios("release", name, direction, spans)

    def join(self):
        """A bio that joins a request at its end, where one takes it."""
        for name, request in self.waiting.items():
            direction, first, sectors, segments = request
            if sectors + 8 <= self.most_sectors and segments < self.most_segments:
                request[2:] = sectors + 8, segments + 1
                return self.bios("join", name, direction, [(first + sectors, 8)])
        return []

    def issue(self):
        free = [it for it in range(min(self.now, 8)) if it not in self.used]
        ready = [*self.handed, *self.waiting]
        if not free or not ready:
            return self.tick()
        tag, name = self.rng.choice(free), self.rng.choice(ready)
        self.waiting.pop(name, None)
        self.handed = [it for it in self.handed if it != name]
        self.used.add(tag)
        self.flying[tag] = name
        return self.one("issue", name, tag)

    def end(self):
        if not self.flying:
            return self.issue()
        tag = self.rng.choice(sorted(self.flying))
        name = self.flying.pop(tag)
        word = self.rng.choice(["done", "done", "done", "back"])
        if word == "back":
            self.handed.append(name)
        return self.one(word, tag)

    def tick(self):
        if self.flying:
            return self.end()
        self.used.clear()
        self.now = self.next
        return self.one("tick")

    def set_depth(self):
        if self.version == 1:
            return self.tick()
        self.next = self.rng.randrange(1, self.depth + 1)
        return self.one("depth", self.next)

    def one(self, *fields):
        self.events += 1
        return [fields]


def good_trace(rng):
    version = rng.choice([1, 2])
    layer = Layer(rng, version)
    calls = [*[layer.release] * 2, layer.join, *[layer.issue] * 2, *[layer.end] * 2, layer.tick, layer.set_depth]
    events = [it for _ in range(rng.randrange(40)) for it in rng.choice(calls)()]
    yield record("blk-trace", version, layer.depth, some(rng, 1, 16), layer.events, width=6)
    yield layer.setup
    for it in events:
        yield record(*it, width=6)


# --- command lists, certificates and schedules ---


def some_commands(rng):
    """A depth and commands, each an id, a release and a due."""
    depth = rng.choice([1, 1, 1, 2, 3, 8, 256])
    rounds = rng.choice([1, 4, 12, 12, 2**40])
    names = rng.sample(range(40), rng.randrange(14)) if rng.random() < 0.9 else [rng.randrange(9) for _ in range(9)]
    commands = []
    for name in names:
        release = rng.randrange(rounds)
        commands.append((name, release, max(0, release + rng.randrange(-2, 8))))
    return depth, commands


def served(depth, commands, late=True):
    """The round of each command by earliest due first, and of each that is met alone where late ones are passed over."""
    order = sorted(range(len(commands)), key=lambda at: commands[at][1])
    heap, rounds, now = [], {}, 0
    while order or heap:
        if not heap:
            now = max(now, commands[order[0]][1])
        while order and commands[order[0]][1] <= now:
            at = order.pop(0)
            heapq.heappush(heap, (commands[at][2], commands[at][0], at))
        free = depth
        while heap and free:
            due, _, at = heapq.heappop(heap)
            if late or due >= now:
                rounds[at] = now
                free -= 1
        now += 1
    return rounds


def load(commands, window):
    return sum(window[0] <= release and due <= window[1] for _, release, due in commands)


def crowded(depth, commands, lateness):
    """A window whose load its rounds can't carry if every command is less late."""
    for since, until in itertools.product({it[1] for it in commands}, {it[2] for it in commands}):
        if load(commands, (since, until)) > depth * max(0, until + lateness - since):
            return since, until
    return 0, 0


def good_commands(rng):
    depth, commands = some_commands(rng)
    yield record("blk-commands", 1, depth, width=3)
    for it in commands:
        yield record(*it, width=3)


def good_certificate(rng):
    depth, commands = some_commands(rng)
    rounds = served(depth, commands)
    yield record("blk-certificate", 1, depth, len(commands), width=4)
    if commands:
        lateness = max(rounds[at] - it[2] for at, it in enumerate(commands))
        yield record("bound", lateness, *crowded(depth, commands, lateness), width=4)
    else:
        yield record("bound", *["none"] * 3, width=4)
    for at, it in enumerate(commands):
        yield record(*it, rounds[at], width=4)


def good_met(rng):
    """The late ones come after all others. A window is given only where some are late, and then it may prove too little."""
    depth, commands = some_commands(rng)
    rounds = served(depth, commands, late=False)
    hopeful = [it for it in commands if it[1] <= it[2]]
    windows = [(min(it[1] for it in hopeful), max(it[2] for it in hopeful))] if len(rounds) < len(hopeful) else []
    yield record("blk-met", 1, depth, len(commands), width=4)
    yield record("met", len(rounds), len(windows), width=4)
    for it in windows:
        yield record("window", *it, width=4)
    last = max([*rounds.values(), *[it[1] for it in commands]], default=0)
    for at, it in enumerate(commands):
        yield record(*it, rounds.get(at, last + 1 + at), width=4)


def good_schedule(rng):
    """Each command in a round with room, from its release on; now and then one runs a round sooner."""
    depth, commands = some_commands(rng)
    rounds, held = {}, Counter()
    for at in rng.sample(range(len(commands)), len(commands)):
        now = commands[at][1] + some(rng, 0, 9)
        while held[now] == depth:
            now += 1
        held[now] += 1
        rounds[at] = max(0, now - 1) if rng.random() < 0.02 else now
    yield record("blk-schedule", 1, depth, len(commands), width=4)
    for at, it in enumerate(commands):
        yield record(*it, rounds[at], width=4)


# --- captures ---


class Steps:
    """A block layer that is traced: bios that wait, requests that were opened, inserted or are at the device, each a direction, a first
    sector and an end. Now and then it tells a step that it didn't take."""

    def __init__(self, rng):
        self.rng, self.now, self.is_direct = rng, rng.choice([0, 4_000_000, 999_999_990]), rng.random() < 0.3
        self.waiting, self.opened, self.inserted, self.flying = [], [], [], []

    def tell(self, action, span):
        self.now += self.rng.choice([0, 0, 1, 7, 1000])
        direction, first, end = span
        rwbs = direction + self.rng.choice(["", "", "A", "S", "FS"])
        pid = self.rng.choice([1, 1, 1, 1, 2])
        return record(self.now // 10**9, f"{self.now % 10**9:09}", pid, action, pid, rwbs, first, end - first, width=8)

    def moved(self, action, here, there):
        """A step of one of these, which goes there."""
        at = self.rng.randrange(len(here))
        if there is not None:
            there.append(here[at])
        return self.tell(action, here.pop(at))

    def queued(self):
        first = 8 * self.rng.randrange(6)
        span = self.rng.choice("RRW"), first, first + 8 * self.rng.choice([1, 1, 1, 2, 3])
        self.waiting.append(span)
        return self.tell("Q", span)

    def merged(self, here):
        """A bio, or a request that waits, at the back or the front of another."""
        at = self.rng.randrange(len(here))
        direction, first, end = here[at]
        size = 8 * self.rng.choice([1, 1, 2])
        if self.rng.random() < 0.6 or first < size:
            action, span, here[at] = "M", (direction, end, end + size), (direction, first, end + size)
        else:
            action, span, here[at] = "F", (direction, first - size, first), (direction, first - size, end)
        if self.rng.random() < 0.8:
            yield self.tell("Q", span)
        elif span in self.opened + self.inserted:
            (self.opened if span in self.opened else self.inserted).remove(span)
        yield self.tell(action, span)

    def cut(self):
        at = self.rng.randrange(len(self.waiting))
        direction, first, end = self.waiting[at]
        self.waiting[at : at + 1] = [(direction, first, first + 8), (direction, first + 8, end)] if end > first + 8 else [self.waiting[at]]
        return self.tell("X", (direction, first, first + 8))

    def done(self):
        at = self.rng.randrange(len(self.flying))
        direction, first, end = self.flying[at]
        if end > first + 8 and self.rng.random() < 0.3:
            self.flying[at] = direction, first + 8, end
            return self.tell("C", (direction, first, first + 8))
        return self.moved("C", self.flying, None)

    def step(self):
        kind, here = self.rng.random(), self.inserted if self.inserted and not self.is_direct else self.opened
        if kind < 0.06:
            yield self.tell(self.rng.choice("PUAQGMFIDCRX"), (self.rng.choice("RWDEFN"), 8 * self.rng.randrange(6), 8 * self.rng.randrange(9)))
        elif kind < 0.3 or not (self.waiting or here or self.flying):
            yield self.queued()
        elif kind < 0.34 and self.waiting:
            yield self.cut()
        elif kind < 0.5 and self.waiting:
            yield self.moved("G", self.waiting, self.opened)
        elif kind < 0.64 and here:
            yield from self.merged(self.rng.choice([it for it in (self.opened, here) if it]))
        elif kind < 0.76 and self.opened and not self.is_direct:
            yield self.moved("I", self.opened, self.inserted)
        elif kind < 0.88 and here:
            yield self.moved("D", here, self.flying)
        elif kind < 0.92 and self.flying:
            yield self.moved("R", self.flying, here)
        elif self.flying:
            yield self.done()


def good_capture(rng):
    steps = Steps(rng)
    yield record("blk-capture", 1, width=8)
    for _ in range(rng.choice([0, 5, 30, 60])):
        for it in steps.step():
            # a step may be told of no sectors, and of a range that is none
            yield it if int(it[7]) >= 0 else [*it[:7], b"0"]


GOOD = {SCRIPT: good_script, TRACE: good_trace, COMMANDS: good_commands, CERTIFICATE: good_certificate, MET: good_met}
GOOD |= {SCHEDULE: good_schedule, CAPTURE: good_capture}


# --- what spoils a text ---

NUMBERS = [0, 1, 2, 3, 9, 31, 32, 33, 63, 64, 65, 128, 129, 255, 256, 257, 1024, 1025, 65535, 65536, 1_000_000, 1_000_001]
NUMBERS += [2**power + more for power in (31, 32, 40, 41, 48, 63, 64) for more in (-1, 0, 1)] + [10**30]
SPELLINGS = [b"00", b"01", b"-0", b"-1", b"--1", b"+1", b" 1", b"1 ", b"1.0", b"1e3", b"0x1", b"", b"none", b"NONE", b"1_000"]
SPELLINGS += [b"1\0", "\u0663".encode(), b"\xff", b"-2199023255551", b"-2199023255552", b"-18446744073709551616"]
SPELLINGS += [b"9" * 400, b"0" * 400]
TITLES = [b"blk-script", b"blk-trace", b"blk-commands", b"blk-certificate", b"blk-met", b"blk-schedule", b"blk", b"", b"BLK-TRACE"]
TITLES += [b"blk-trace ", b"blk-capture"]
WORDS = [b"setup", b"bio", b"release", b"join", b"issue", b"done", b"back", b"depth", b"tick", b"flush", b"drain", b"run"]
WORDS += [b"bound", b"met", b"window", b"Bio", b"bio ", b"", b"foo", b"R", b"W", b"r", b"blk-trace", b"blk-script"]
BYTES = [b"\0", b"\xff", b"\xc3\x28", b'"', b'""', b"\r", b"\n", b"\r\n", b",", b" ", b"\t", b"\xef\xbb\xbf", b"\x1a", b"#"]


def some_record(rng, records):
    return rng.choice(records) if records else []


def change_title(rng, records):
    if records and rng.random() < 0.5:
        records[0][0] = rng.choice(TITLES)
    elif records and len(records[0]) > 1:
        records[0][1] = rng.choice([b"0", b"1", b"2", b"3", b"01", b"", b"one"])


def change_fields(rng, records):
    """One more, one less, two exchanged, or one from another record."""
    fields = some_record(rng, records)
    kind = rng.randrange(5)
    if kind == 0:
        fields.append(rng.choice([b"", b"0"]))
    elif kind == 1 and fields:
        fields.pop(rng.randrange(len(fields)))
    elif kind == 2 and len(fields) > 1:
        one, other = rng.sample(range(len(fields)), 2)
        fields[one], fields[other] = fields[other], fields[one]
    elif kind == 3 and fields:
        fields[rng.randrange(len(fields))] = rng.choice(some_record(rng, records) or [b""])
    elif fields:
        fields[-1] = rng.choice([b"0", b"", b"x"])


def change_number(rng, records):
    fields = some_record(rng, records)
    places = [at for at, it in enumerate(fields) if it.isdigit()]
    if not places:
        return
    at = rng.choice(places)
    kind = rng.random()
    if kind < 0.4 and len(fields[at]) < 30:
        fields[at] = b"%d" % (int(fields[at]) + rng.choice([-2, -1, 1, 1, 2, 8]))
    elif kind < 0.8:
        fields[at] = b"%d" % rng.choice(NUMBERS)
    else:
        fields[at] = rng.choice(SPELLINGS)


def change_word(rng, records):
    fields = some_record(rng, records)
    if fields:
        places = [0, *[at for at, it in enumerate(fields) if it in (b"R", b"W")]]
        fields[rng.choice(places)] = rng.choice(WORDS)


def change_order(rng, records):
    if len(records) < 2:
        return
    kind = rng.randrange(3)
    one, other = rng.sample(range(len(records)), 2)
    if kind == 0:
        records[one], records[other] = records[other], records[one]
    elif kind == 1:
        records.insert(other, records.pop(one))
    else:
        low, high = sorted((one, other))
        records[low:high] = records[low:high][::-1]


def change_count(rng, records):
    """Fewer or more records than are announced."""
    kind = rng.randrange(4)
    if kind == 0 and records:
        records.pop(rng.randrange(len(records)))
    elif kind == 1 and records:
        records.insert(rng.randrange(len(records) + 1), list(some_record(rng, records)))
    elif kind == 2:
        del records[rng.randrange(len(records) + 1) :]
    elif records and len(records[0]) > 3:
        places = [at for at in (3, 4) if at < len(records[0]) and records[0][at].isdigit() and len(records[0][at]) < 30]
        for at in places[-1:]:
            records[0][at] = b"%d" % max(0, int(records[0][at]) + rng.choice([-1, 1]))


def change_bytes(rng, records):
    fields = some_record(rng, records)
    if not fields:
        return
    at = rng.randrange(len(fields))
    place = rng.randrange(len(fields[at]) + 1)
    fields[at] = fields[at][:place] + rng.choice(BYTES) + fields[at][place:]


def grow_field(rng, records):
    """A field of a megabyte."""
    fields = some_record(rng, records)
    if fields:
        unit = rng.choice([b"1", b"0", b"a", b"\0", b'"', b'""', b"\xff", b" ", b"\r"])
        fields[rng.randrange(len(fields))] = unit * ((1 << 20) // len(unit))


def quote_fields(rng, records):
    """Fields in quotes, which changes nothing where none has a quote in it."""
    for fields in records if rng.random() < 0.5 else [some_record(rng, records)]:
        fields[:] = [b'"' + it + b'"' for it in fields]


SPOILS = [change_title, change_fields, change_fields, *[change_number] * 6, change_word, *[change_order] * 3]
SPOILS += [*[change_count] * 4, change_bytes, *[quote_fields] * 2]


def line_ends(rng):
    return rng.choices([b"\n", b"\r\n", b"\r", b"\n\n", b"\n\r"], [20, 1, 1, 1, 1])[0]


def spoil_bytes(rng, text):
    """Bytes of the whole text taken out, doubled, turned, or put before it or behind it."""
    kind = rng.randrange(8)
    one, other = sorted((rng.randrange(len(text) + 1), rng.randrange(len(text) + 1)))
    if kind == 0:
        return text[:one]
    if kind == 1:
        return text[:one] + text[min(other, one + 9) :]
    if kind == 2:
        return text[:other] + text[one:]
    if kind == 3 and text:
        at = min(one, len(text) - 1)
        return text[:at] + bytes([text[at] ^ 1 << rng.randrange(8)]) + text[at + 1 :]
    if kind == 4:
        return b"\xef\xbb\xbf" * rng.randrange(1, 3) + text
    if kind == 5:
        return text + rng.choice([b"\n", b"\r", b'"', b",", b"\0", b"tick,,,,,", b"x\n", b"\n\n\n"])
    if kind == 6:
        return rng.choice([b"\n", b"\r\n\n", b",\n", b" ", b'""\n']) + text
    return rng.randbytes(rng.randrange(200))


def join_up(rng, records):
    """The bytes of a text, the last of whose records may have no end."""
    end = line_ends(rng)
    text = end.join(b",".join(it) for it in records)
    return text if rng.random() < 0.05 else text + end


def text_of(rng, stock):
    """A form, and a text that was one of it before it was spoiled; `stock` has texts of each form, as records."""
    form = rng.choice(list(GOOD))
    if stock.get(form) and rng.random() < 0.3:
        records = [list(it) for it in rng.choice(stock[form])]
    else:
        records = [list(it) for it in GOOD[form](rng)]
    for _ in range(rng.choice([0, 1, 1, 1, 2, 4])):
        rng.choice(SPOILS)(rng, records)
    if rng.random() < 0.004:
        grow_field(rng, records)
    text = join_up(rng, records)
    return form, spoil_bytes(rng, text) if rng.random() < 0.15 else text
