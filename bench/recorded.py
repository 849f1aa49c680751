"""What recorders print, read by the rules of docs/CAPTURES.md: a second time, and apart from the program. What a text tells is matched by
tools/matching.py.
"""
import re
from dataclasses import dataclass, field

import matching

RECORDERS = ("blkparse", "ftrace", "perf", "bpftrace")
MOST = 2**64
LAST_SECOND = 2**34
FIRST_BYTES = 1000
LOSSES = {b"Lost", b"[LOST", b"lost", b"PERF_RECORD_LOST", b"dropped"}
EVENTS = {"bio_queue": "Q", "getrq": "G", "bio_backmerge": "M", "bio_frontmerge": "F", "split": "X", "plug": "P", "unplug": "U"}
REQUESTS = {"rq_insert": "I", "rq_issue": "D", "rq_complete": "C", "rq_requeue": "R", "rq_merge": "M"}
EVENT = {f"block:block_{name}:".encode(): letter for name, letter in {**EVENTS, **REQUESTS}.items()}
OF_REQUESTS = {f"block:block_{name}:".encode() for name in REQUESTS}
WITH_SECTORS = re.compile(rb"[QGMFIDCRX]")


class Wrong(Exception):
    """What is wrong with a line."""


@dataclass
class Lines:
    """What the lines of a recorder tell."""

    records: list = field(default_factory=list)
    device: tuple = None
    others: int = 0
    remarks: int = 0
    losses: int = 0


def number(word):
    """The number of decimal digits that fits 64 bits."""
    if not re.fullmatch(rb"[0-9]+", word) or int(word) >= MOST:
        raise Wrong("Number")
    return int(word)


def is_number(word):
    return re.fullmatch(rb"[0-9]+", word) is not None and int(word) < MOST


def device_of(word):
    """A device, None where the word is none."""
    parts = word.split(b",", 1)
    return (int(parts[0]), int(parts[1])) if len(parts) == 2 and all(map(is_number, parts)) else None


def at(words, place):
    return words[place] if 0 <= place < len(words) else b""


def span_at(action, words, place):
    """The words of the range of sectors from a place on, as (first, count or None, end or None); None where there is none."""
    first, sign, second = (at(words, place + it) for it in range(3))
    if not WITH_SECTORS.fullmatch(action) or first[:1] in (b"[", b"("):
        return None
    if not first:
        raise Wrong("Fields")
    if sign[:1] in (b"[", b"("):
        return None
    if not second or sign not in (b"+", b"/"):
        raise Wrong("Fields")
    return (first, second, None) if sign == b"+" else (first, None, second)


def step(device, seconds, fraction, cpu, action, pid, rwbs, span):
    """The record of these words, and its device."""
    found = number(seconds)
    if len(fraction) not in (6, 9):
        raise Wrong("Number")
    nanoseconds = number(fraction) * (1000 if len(fraction) == 6 else 1)
    number(cpu)
    process = number(pid)
    told = None
    if device is not None:
        told = device_of(device)
        if told is None:
            raise Wrong("Number")
    first = sectors = 0
    if span:
        first = number(span[0])
        sectors = number(span[1]) if span[1] is not None else max(number(span[2]) - first, 0)
    if found >= LAST_SECOND:
        raise Wrong("Range")
    letters = lambda it: it.decode("latin-1")
    return told, matching.Record(found * 10**9 + nanoseconds, letters(action), process, letters(rwbs), first, sectors)


def clock(word):
    """Seconds and their fraction, of a time before its colon."""
    seconds, _, fraction = word.partition(b":")[0].partition(b".")
    return seconds, fraction


def row(word):
    """A row of eight fields."""
    parts = word.split(b",")
    if len(parts) != 8:
        raise Wrong("Fields")
    seconds, nanoseconds, cpu, action, pid, rwbs, first, sectors = parts
    return step(None, seconds, nanoseconds, cpu, action, pid, rwbs, (first, sectors, None))


def columns(words, skipped):
    """A line of columns: device, processor, perhaps a number, time, process, action, rwbs, range."""
    if len(words) < 6 + skipped:
        raise Wrong("Fields")
    device, cpu, time, pid, action, rwbs = words[0], words[1], *(at(words, it + skipped) for it in (2, 3, 4, 5))
    span = span_at(action, words, 6 + skipped)
    seconds, _, fraction = time.partition(b".")
    return step(device, seconds, fraction, cpu, action, pid, rwbs, span)


def is_cpu(word):
    return len(word) > 1 and word[:1] == b"[" and word[-1:] == b"]" and is_number(word[1:-1])


def of_blkparse(words):
    if not words[0][:1].isdigit():
        return None
    return row(words[0]) if len(words) == 1 else columns(words, 1)


def of_bpftrace(words):
    if not words[0][:1].isdigit():
        return None
    if len(words) > 1:
        raise Wrong("Fields")
    return row(words[0])


def of_ftrace(words):
    if words[0][:1] == b"#":
        return None
    if device_of(words[0]) is not None:
        return columns(words, 0)
    cpu = next((place for place, it in enumerate(words) if is_cpu(it)), None)
    if cpu is None:
        if tells_loss(words):
            return None
        raise Wrong("Fields")
    time = cpu + 1 if at(words, cpu + 1)[-1:] == b":" else cpu + 2
    if cpu == 0 or len(words) <= time + 1:
        raise Wrong("Fields")
    if device_of(words[time + 1]) is None:
        # an event of another kind tells of no loss
        raise LookupError
    action = at(words, time + 2)
    span = span_at(action, words, time + 4)
    pid = words[cpu - 1].rpartition(b"-")[2]
    return step(words[time + 1], *clock(words[time]), words[cpu][1:-1], action, pid, at(words, time + 3), span)


def of_perf(words):
    place = next((place for place, it in enumerate(words) if it in EVENT), None)
    if place is None:
        return None
    action, begin = EVENT[words[place]].encode(), place + 3
    if words[place] in OF_REQUESTS:
        begin = next((it + 1 for it in range(place + 3, len(words)) if words[it][-1:] == b")"), None)
    if begin is None or place < 3:
        raise Wrong("Fields")
    span = span_at(action, words, begin)
    device = at(words, place + 1) if WITH_SECTORS.fullmatch(action) else None
    cpu = words[place - 2]
    inner = cpu[1:-1] if len(cpu) > 1 and cpu[:1] == b"[" and cpu[-1:] == b"]" else b""
    return step(device, *clock(words[place - 1]), inner, action, words[place - 3], at(words, place + 2), span)


READERS = {"blkparse": of_blkparse, "ftrace": of_ftrace, "perf": of_perf, "bpftrace": of_bpftrace}


def tells_loss(words):
    if words[0] == b"Skips:":
        return not (is_number(at(words, 1)) and int(at(words, 1)) == 0)
    return any(it in LOSSES for it in words)


def take(lines, recorder, asked, words):
    """Takes the words of a line in."""
    try:
        found = READERS[recorder](words)
    except LookupError:
        lines.remarks += 1
        return
    if found is None:
        if tells_loss(words):
            lines.losses += 1
        else:
            lines.remarks += 1
        return
    device, record = found
    if asked and device and device != asked:
        lines.others += 1
        return
    if lines.device and device and device != lines.device:
        raise Wrong("Devices")
    if recorder != "bpftrace" and lines.records and record.time < lines.records[-1].time:
        raise Wrong("Order")
    lines.device = lines.device or device
    lines.records.append(record)


def read(recorder, text, asked=None):
    """What a text tells, or the line of the program on the first line that is wrong, or on what is no text."""
    if not text or b"\0" in text[:FIRST_BYTES]:
        return "blk: record 1: Title\n"
    lines = Lines()
    for place, line in enumerate(text.split(b"\n")):
        words = [it for it in re.split(rb"[ \t\r]", line) if it]
        try:
            if words:
                take(lines, recorder, asked, words)
        except Wrong as why:
            return f"blk: line {place + 1}: {why}\n"
    if recorder == "bpftrace":
        lines.records.sort(key=lambda it: it.time)
    return lines


def source_said(recorder, lines):
    """What is said of where the records come from."""
    of = f" of device {lines.device[0]},{lines.device[1]}" if lines.device else ""
    said = f"blk: {recorder}: {len(lines.records)} records{of}, {lines.others} of other devices, {lines.remarks} other lines\n"
    return said + (f"blk: {lines.losses} lines say that events were lost: waits and counts may be wrong\n" if lines.losses else "")


def wanted(recorder, text, asked, options):
    """For each form: its words, its status, what is written and what is said."""
    lines = read(recorder, text, asked)
    words = ["--as", recorder, *(["--device", f"{asked[0]},{asked[1]}"] if asked else [])]
    if isinstance(lines, str):
        for more in ([], ["--table"], ["--summary"]):
            yield [*words, *more], 1, "", lines
        return
    for more, written, said in matching.Told(lines.records, options).texts():
        yield [*words, *options.words(), *more], 0, written, source_said(recorder, lines) + said
