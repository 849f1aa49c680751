#!/usr/bin/env python3
"""Writes the inputs of bench/run: inputs.py KIND N > FILE.

KIND is script (N bios), certificate (N commands), commands (N commands), backlog (N bios of one hardware queue, of which
none touches another and none is issued) or touching (the same, but each touches half of the others and fits none, since
each is as large as a request may be). Four kinds more are N commands at depth 8 in random order: at_once (all released in
round 0), carried (as many as the rounds carry), crowded (twice as many) and sparse (one in a hundred rounds); depths is a trace
of N rounds, in each of which a depth is set. Two are certificates of N commands at depth 8, a third of which run after all others and
late: filled, where each lies in a window of 8 rounds that the others fill, in one of 64, and so on up to all rounds; and roomy, where each
such window has room for one more. ran_certificate, ran_filled and ran_roomy are the same three as schedules. capture is a capture of N
records: four processes that plug, reads and writes of several sizes, and merges in a plug; blkparse, rows, classic, tasks, perf and bpftrace are the
same as a recorder prints them. All come from a fixed seed, so that every run has the same bytes."""
import random
import sys

SUBMITTERS, QUEUES, DEPTH, PLUG = 8, 4, 32, 32


def script(bios, out):
    rng = random.Random(7)
    out(f"blk-script,1,{DEPTH},{QUEUES},64,{SUBMITTERS}")
    out("setup,5,50,256,128,")
    serial = [0] * SUBMITTERS
    waiting = 0
    for n in range(bios):
        s = n // PLUG % SUBMITTERS
        first = rng.randrange(1 << 40) * 8
        out(f"bio,{s},{serial[s]},{rng.choice('RW')},{first},8")
        serial[s] += 1
        if n % PLUG == PLUG - 1 or n == bios - 1:
            out(f"flush,{s},,,,")
            out(f"drain,{s % QUEUES},,,,")
            waiting += PLUG
            if waiting >= 320:
                out(f"run,{waiting // DEPTH},,,,")
                waiting = 0
    out("run,20,,,,")


def certificate(commands, out):
    """Depth 8 and as many commands as the rounds carry: all released at round 0 and due at round 0."""
    depth = 8
    rounds = (commands + depth - 1) // depth
    out(f"blk-certificate,1,{depth},{commands}")
    out(f"bound,{rounds - 1},0,0")
    for k in range(commands):
        out(f"{k},0,0,{k // depth}")


def windows(commands, out, room):
    """In each block of 8 rounds 64 commands are released and due, those of one round in the block of 8 times its size around it, and
    so on; the first of each block are left out where there is to be room. Half as many more, late, are due in blocks alike."""
    rng, depth = random.Random(7), 8
    blocks = commands // (depth * 8 + 32)
    rows, last = [], 8 * blocks
    for block in range(blocks):
        for at in range(room, 64):
            now = 8 * block + at // 8
            size = 8 ** rng.choice([1, 1, 1, 1, 1, 2, 3, 9]) if at % 8 == 7 else 8
            rows.append((now // size * size, min(now // size * size + size, last) - 1, now))
        for _ in range(32):
            size = 8 ** rng.choice([1, 1, 1, 2, 3, 9])
            begin = 8 * block // size * size
            rows.append((rng.randrange(begin, 8 * block + 8), min(begin + size, last) - 1, None))
    rng.shuffle(rows)
    out(f"blk-certificate,1,{depth},{len(rows)}")
    out("bound,0,0,0")
    late = 0
    for k, (release, due, now) in enumerate(rows):
        if now is None:
            now, late = last + late // depth, late + 1
        out(f"{k},{release},{due},{now}")


def filled(commands, out):
    windows(commands, out, 0)


def roomy(commands, out):
    windows(commands, out, 1)


def ran(make):
    """The certificates of a kind as schedules: another name in the title, and no bound."""

    def made(commands, out):
        lines = []
        make(commands, lines.append)
        out(lines[0].replace("blk-certificate", "blk-schedule"))
        for line in lines[2:]:
            out(line)

    return made


def command_list(commands, out):
    rng = random.Random(7)
    out("blk-commands,1,8")
    for k in range(commands):
        release = rng.randrange(1 << 20)
        out(f"{k},{release},{release + rng.randrange(50)}")


def released(commands, out, rounds):
    """Released in one of so many rounds, and due within a thousand rounds from then on."""
    rng = random.Random(7)
    out("blk-commands,1,8")
    for k in range(commands):
        release = rng.randrange(rounds)
        out(f"{k},{release},{release + rng.randrange(1000)}")


def at_once(commands, out):
    released(commands, out, 1)


def carried(commands, out):
    released(commands, out, commands // 8 + 1)


def crowded(commands, out):
    released(commands, out, commands // 16 + 1)


def sparse(commands, out):
    released(commands, out, 100 * commands)


def waiting(bios, out, most, first):
    """Reads of 8 sectors that come in one after the other and all wait; `first` gives the first sector of the n-th."""
    out(f"blk-script,1,{DEPTH},1,64,1")
    out(f"setup,5,50,{most},128,")
    for n in range(bios):
        out(f"bio,0,{n},R,{first(n)},8")
        if n % PLUG == PLUG - 1 or n == bios - 1:
            out("flush,0,,,,")
            out("drain,0,,,,")


def backlog(bios, out):
    waiting(bios, out, 256, lambda n: 16 * n)


def touching(bios, out):
    waiting(bios, out, 8, lambda n: 8 * (n % 2))


def depths(rounds, out):
    out(f"blk-trace,2,2,1,{2 * rounds},")
    out("setup,0,0,256,128,")
    for n in range(rounds):
        out(f"depth,{1 + n % 2},,,,")
        out("tick,,,,,")


def capture(records, out):
    """Processes in turn plug a few bios of neighbouring ranges and unplug; the device takes what was inserted, most times in order, and
    completes it."""
    rng, now, left = random.Random(7), 4_000_000, records
    waiting, flying = [], []

    def tell(action, pid, rwbs, first, sectors):
        nonlocal now, left
        now += rng.randrange(100, 4000)
        out(f"{now // 1_000_000_000},{now % 1_000_000_000:09},{pid % 4},{action},{pid},{rwbs},{first},{sectors}")
        left -= 1

    out("blk-capture,1,,,,,,")
    while left > 80:
        pid, rwbs = 4100 + rng.randrange(4), rng.choice(["R", "R", "RA", "WS", "W"])
        tell("P", pid, "N", 0, 0)
        requests = []
        for _ in range(rng.randrange(1, 5)):
            first = rng.randrange(1 << 30) * 64
            tell("Q", pid, rwbs, first, 8)
            tell("G", pid, rwbs, first, 8)
            end = first + 8
            for _ in range(rng.choice([0, 0, 0, 1, 3])):
                tell("Q", pid, rwbs, end, 8)
                tell("M", pid, rwbs, end, 8)
                end += 8
            requests.append((pid, rwbs, first, end - first))
        tell("U", pid, "N", 0, 0)
        for it in requests:
            tell("I", *it)
        waiting += requests
        while waiting and len(flying) < 4:
            flying.append(waiting.pop(rng.randrange(min(8, len(waiting)))))
            tell("D", *flying[-1])
        while flying and len(flying) > rng.randrange(4):
            tell("C", 0, *flying.pop(rng.randrange(len(flying)))[1:])
    for it in flying:
        tell("C", 0, *it[1:])
    while left > 0:
        tell("m", 0, "N", 0, 0)


# the tracepoints of perf by their letters, and those of requests, which tell bytes and command too
POINTS = {"Q": "bio_queue", "G": "getrq", "M": "bio_backmerge", "P": "plug", "U": "unplug", "I": "rq_insert", "D": "rq_issue", "C": "rq_complete"}


def as_row(place, seconds, nanoseconds, cpu, action, pid, rwbs, first, sectors):
    return f"{seconds},{nanoseconds},{cpu},{action},{pid},{rwbs},{first},{sectors}"


def behind(rwbs, first, sectors):
    """What stands behind the action of a step."""
    return f"{rwbs:>3} {first} + {sectors} [fio]" if int(sectors) else f"{rwbs:>3} [fio]"


def as_blkparse(place, seconds, nanoseconds, cpu, action, pid, *rest):
    return f"  8,0 {cpu:>4} {place:8} {seconds:>5}.{nanoseconds} {pid:>5} {action:>2} {behind(*rest)}"


def as_classic(place, seconds, nanoseconds, cpu, action, pid, *rest):
    return f"  8,0 {cpu:>4} {seconds:>5}.{nanoseconds} {pid:>5} {action:>2} {behind(*rest)}"


def as_task(place, seconds, nanoseconds, cpu, action, pid, *rest):
    return f"             fio-{pid}     [{cpu:0>3}] d..1. {seconds:>5}.{nanoseconds[:6]}:   8,0 {action:>4} {behind(*rest)}"


def as_perf(place, seconds, nanoseconds, cpu, action, pid, rwbs, first, sectors):
    begin = f"{pid:>5} [{cpu:0>3}] {seconds:>5}.{nanoseconds}: {'block:block_' + POINTS.get(action, action):>27}:"
    if action in "PU" or action not in POINTS:
        return f"{begin} [fio]"
    size = f"{512 * int(sectors)} () " if action in "ID" else "() " if action == "C" else ""
    return f"{begin} 8,0 {rwbs} {size}{first} + {sectors} [fio]"


def printed(write):
    """The records of a capture as a recorder prints them."""

    def lines(records, out):
        kept = []
        capture(records, kept.append)
        for place, line in enumerate(kept[1:]):
            out(write(place, *line.split(",")))

    return lines


def main():
    kind, n = sys.argv[1], int(sys.argv[2])
    lines = []
    kinds = {
        "script": script,
        "certificate": certificate,
        "commands": command_list,
        "filled": filled,
        "roomy": roomy,
        "ran_certificate": ran(certificate),
        "ran_filled": ran(filled),
        "ran_roomy": ran(roomy),
        "at_once": at_once,
        "carried": carried,
        "crowded": crowded,
        "sparse": sparse,
        "backlog": backlog,
        "touching": touching,
        "depths": depths,
        "capture": capture,
        "blkparse": printed(as_blkparse),
        "rows": printed(as_row),
        "classic": printed(as_classic),
        "tasks": printed(as_task),
        "perf": printed(as_perf),
        "bpftrace": printed(as_row),
    }
    if kind == "bpftrace":
        lines.append("Attaching 13 probes...")
    kinds[kind](n, lines.append)
    sys.stdout.write("\n".join(lines) + "\n")


main()
