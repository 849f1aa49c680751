"""What recorders print of drawn captures, as bench/hostile hands it to the program: good texts of each form, and what spoils them. Each comes of a
source of random numbers alone.
"""
import matching

PROCESSES = [b"fio", b"kworker/1:1H", b"a-b 2", b"0"]
EVENTS = {"Q": "bio_queue", "G": "getrq", "M": "bio_backmerge", "F": "bio_frontmerge", "X": "split", "P": "plug", "U": "unplug"}
REQUESTS = {"I": "rq_insert", "D": "rq_issue", "C": "rq_complete", "R": "rq_requeue"}
HEADS = {
    "blkparse": [[b"Input file run.blktrace.0 added"], []],
    "ftrace": [[b"# tracer: blk", b"#"], [b"# tracer: blk"]],
    "perf": [[]],
    "bpftrace": [[b"Attaching 13 probes..."], [b"Attached 13 probes"]],
}
# lines that are no steps
REMARKS = {
    "blkparse": [b"  7,0    1        0     1.000000000     0  m   N bfq [bfq_dispatch] x", b"CPU0 (run):", b"Throughput (R/W): 0KiB/s / 0KiB/s", b"Skips: 0 forward (0 -   0.0%)"],
    "ftrace": [b"# a comment", b"#", b" fio-812 [001] ..... 1.000001: block_plug: [fio]"],
    "perf": [b"# a comment", b"  812 [001] 1.000000001: sched:sched_switch: fio", b"x"],
    "bpftrace": [b"", b"@dev: 7340032", b"x,y"],
}
LOSSES = [b"Lost 17 events", b"CPU:1 [LOST 17 EVENTS]", b"PERF_RECORD_LOST lost 17", b"Skips: 3 forward", b"17 dropped events", b"  lost 3 chunks!"]
NUMBERS = [b"0", b"00007", b"18446744073709551615", b"18446744073709551616", b"123456789012345678901234567890", b"-1", b"+1", b"", b"x", b"1.5", b"17179869184", b"0x10", b"\0", b"\xff"]
SIGNS = [b"+", b"/", b"-", b"[x]", b"(x)", b""]


def rows_of(time, it, cpu):
    """A row of eight fields."""
    return f"{time // 10**9},{time % 10**9:09},{cpu},{it.action},{it.pid},{it.rwbs},{it.first},{it.sectors}".encode()


def range_of(it):
    """The range of sectors, as a word each."""
    if it.action == "X":
        return f"{it.first} / {it.first + it.sectors}"
    return f"{it.first} + {it.sectors}"


def behind(it, name):
    """What stands behind the letters of a step, with the process in brackets."""
    if it.action in "PU":
        return f"[{name}]" + (" 1" if it.action == "U" else "")
    return f"{range_of(it)} [{name}]" if it.sectors or it.first % 3 else f"[{name}]"


def as_blkparse(rng, place, time, it, device, cpu):
    if rng.random() < 0.02:
        return rows_of(time, it, cpu)
    name = rng.choice(PROCESSES).decode()
    return f"  {device} {cpu:4} {place:8} {time // 10**9:5}.{time % 10**9:09} {it.pid:5}  {it.action}   {it.rwbs} {behind(it, name)}".encode()


def as_classic(rng, place, time, it, device, cpu):
    name = rng.choice(PROCESSES).decode()
    return f"  {device} {cpu:4} {time // 10**9:5}.{time % 10**9:09} {it.pid:5}  {it.action}   {it.rwbs} {behind(it, name)}".encode()


def as_task(rng, place, time, it, device, cpu):
    name, flags = rng.choice(PROCESSES).decode(), rng.choice(["d..1. ", "..... ", ""])
    return f" {name}-{it.pid} [{cpu:03}] {flags}{time // 10**9}.{time // 1000 % 10**6:06}: {device} {it.action} {it.rwbs} {behind(it, name)}".encode()


def as_perf(rng, place, time, it, device, cpu):
    name = rng.choice(PROCESSES).decode()
    task = rng.choice(["", f"{name} "])
    digits = f"{time % 10**9:09}" if place % 2 else f"{time // 1000 % 10**6:06}"
    begin = f"{task}{it.pid} [{cpu:03}] {time // 10**9}.{digits}: "
    if it.action in "PU":
        return f"{begin}block:block_{EVENTS[it.action]}: [{name}]".encode()
    if it.action in REQUESTS:
        return f"{begin}block:block_{REQUESTS[it.action]}: {device} {it.rwbs} {8 * it.sectors} () {it.first} + {it.sectors} [{name}]".encode()
    if it.action not in EVENTS:
        return f"{begin}block:block_{it.action}: {device}".encode()
    return f"{begin}block:block_{EVENTS[it.action]}: {device} {it.rwbs} {behind(it, name)}".encode()


def as_row(rng, place, time, it, device, cpu):
    return rows_of(time, it, cpu)


FORMS = {"blkparse": [as_blkparse, as_row], "ftrace": [as_classic, as_task], "perf": [as_perf], "bpftrace": [as_row]}


def good(rng, recorder):
    """The lines of a drawn capture, with remarks between them."""
    records, _ = matching.drawn(rng.randrange(2**60))
    lines, write = list(rng.choice(HEADS[recorder])), rng.choice(FORMS[recorder])
    several, base = rng.random() < 0.1, rng.choice([0, 0, 5594 * 10**9])
    for place, it in enumerate(records):
        device = "8,0" if several and rng.random() < 0.3 else "7,5"
        lines.append(write(rng, place, base + 1000 * it.time if write is as_task else base + it.time, it, device, rng.randrange(4)))
        if rng.random() < 0.04:
            lines.append(rng.choice(REMARKS[recorder]))
        if rng.random() < 0.003:
            lines.append(rng.choice(LOSSES))
    return lines


def spoil_word(rng, line):
    """The line with another word, one word less or more, or words that change places."""
    comma = b"," in line and b" " not in line.strip()
    sign = b"," if comma else b" "
    words = line.split(sign) if comma else line.split()
    if not words:
        return rng.choice(NUMBERS)
    at, kind = rng.randrange(len(words)), rng.randrange(6)
    if kind == 0:
        words[at] = rng.choice(NUMBERS)
    elif kind == 1:
        del words[at]
    elif kind == 2:
        words.insert(at, rng.choice([*NUMBERS, *SIGNS, words[at]]))
    elif kind == 3:
        other = rng.randrange(len(words))
        words[at], words[other] = words[other], words[at]
    elif kind == 4:
        words[at] = words[at][: rng.randrange(len(words[at]) + 1)] + rng.choice([b"", b"9", b":", b"]", b".", b",", b"x"])
    else:
        words[at] = rng.choice(SIGNS)
    return sign.join(words)


def spoil(rng, lines):
    """One thing that is wrong, or only looks so."""
    if not lines:
        return
    at, kind = rng.randrange(len(lines)), rng.randrange(9)
    if kind < 4:
        lines[at] = spoil_word(rng, lines[at])
    elif kind == 4:
        lines[at] = lines[at][: rng.randrange(len(lines[at]) + 1)]
    elif kind == 5:
        lines.insert(at, lines[at])
    elif kind == 6:
        other = rng.randrange(len(lines))
        lines[at], lines[other] = lines[other], lines[at]
    elif kind == 7:
        lines[at] = lines[at].replace(b" ", rng.choice([b"\t", b"  ", b" \r", b"\0"]))
    else:
        lines.insert(at, rng.choice([*LOSSES, b"", b" ", b"\r", b"blk-capture,1,,,,,,"]))


def text_of(rng):
    """A recorder, and a text that was one of it before it was spoiled."""
    recorder = rng.choice(list(FORMS))
    lines = good(rng, recorder)
    for _ in range(rng.choice([0, 0, 1, 1, 2, 3])):
        spoil(rng, lines)
    end = rng.choice([b"\n", b"\n", b"\n", b"\r\n"])
    return recorder, end.join(lines) + rng.choice([end, end, end, b""])
