#!/usr/bin/env python3
"""Writes the worst inputs that are known, for `bench/run growth`: worst.py KIND N > FILE.

Each kind is made to take long in one of the ways that the program's structures leave open, and N is how many bios, commands or
rounds it has. Scripts: joins and fronts (each bio joins a request that waits, at its back or its front), plugs (each bio touches
half of those that its plug holds, and fits none), no_room (the same in the core, where all wait), other_way (half of what waits
touches the newcomer and is too long for it, and a short request of the other direction lies there too), two_measures (all that waits
ends at one sector, half of it with too many bios for a newcomer and half with too many sectors), many_sizes (all that waits ends at one
sector, each with another number of sectors, and a newcomer fits each), many_classes (the same with 1 to 127 bios each, and no room for a
newcomer), bio_ids (made for the hash tables), sectors (made for hash tables of sectors, which an index had once), one_slot (sectors that
share a slot of an index), handed (each command is handed back once), idle (rounds in which nothing waits for any of 16 queues).
Traces: trace_bio_ids and trace_requests (ids made for hash tables that traces had once), trace_falling (both count down),
trace_steps (another depth in each round, all late),
trace_joins (requests that grow to 128 bios), trace_groups (groups of 128 bios). Command lists: scattered (rounds up to the
limits), falling (by falling release and due), nested (each released later and due sooner than the one before), alone (each passed
over in a window of its own) and repeated (the last id is the first). Certificates: cert_scattered and met_windows (as many
windows as commands). Schedules: ran_scattered (rounds up to the limits, each with a window of its own that one fills and another misses).
Captures of N bios: capture_queued (all wait at once, and then so do all requests), capture_one_range (the same, all of one range) and
capture_absorbed (each request is merged into the one before it)."""
import random
import sys

WORD = (1 << 64) - 1

# --- the hash of std's tables, whose seed is fixed: keys are made for it whose hashes lie in one group of a table of so many ---

SEED = 0x243F_6A88_85A3_08D3
MULTIPLIER = 0x9E37_79B9_7F4A_7C15
FACTOR = MULTIPLIER ^ 16


def folded(one, other):
    product = one * other
    return (product & WORD) ^ (product >> 64)


def bits_of(key, state, mask):
    """The group of a number of 64 bits, by the lowest bits of its hash."""
    found = folded(state ^ key, FACTOR)
    return (found ^ found >> 32) & mask


def after_submitter(number):
    """The hash's state once the submitter of a bio's id went into it."""
    return folded(SEED ^ (number | number << 8 | number << 16), MULTIPLIER ^ 2)


def colliding(count, groups, state):
    """Numbers of 64 bits that all fall into the first of so many groups, a power of two up to 4,096.

    The product of FACTOR and (i << 44 | j) has four words, whose low bits are joined by xor. Those of the two low words come of j
    alone, and for an i whose product has few bits set at its low end those of the others come of j and of i, each by itself: so
    the two are matched by a table."""
    mask = groups - 1
    table = [[] for _ in range(groups)]
    for j in range(1 << 20):
        product = j * FACTOR
        table[(product ^ product >> 32 ^ product >> 64) & mask].append(j)
    found = []
    for i in range(1 << 20):
        product = i * FACTOR
        if product & 0xFFFF_FFFF < 1 << 20:
            for j in table[product >> 52 & mask]:
                key = state ^ (i << 44 | j)
                if bits_of(key, state, mask) == 0:
                    found.append(key)
        if len(found) >= count:
            return found[:count]
    raise ValueError(f"{len(found)} keys were found")


def colliding_sectors(count, groups):
    """Sectors below 2^48 that all fall into the first of so many groups, found by trying."""
    mask = groups - 1
    found = []
    key = 0
    while len(found) < count:
        if bits_of(key, SEED, mask) == 0:
            found.append(key)
        key += 1
    return found


def table_of(entries, factor):
    """How many groups a table has that grows by this factor and holds so many entries, nine a group."""
    groups = 1
    while 9 * groups < entries:
        groups *= factor
    return groups


# --- scripts ---


def script(lines, out, setup="setup,5,50,65535,128,", queues=1, depth=32):
    out(f"blk-script,2,{depth},{queues},1024,16")
    out(setup)
    for it in lines:
        out(it)


def one_by_one(bios, every=1):
    """Bios that come into the core one by one, or so many at once."""
    for n, it in enumerate(bios):
        yield f"bio,0,{it}"
        if n % every == every - 1 or n == len(bios) - 1:
            yield "flush,0,,,,"
            yield "drain,0,,,,"


def joins(count, out):
    script(one_by_one([f"{n},R,{8 * n},8" for n in range(count)]), out)


def fronts(count, out):
    script(one_by_one([f"{n},R,{8 * (count - n)},8" for n in range(count)]), out)


def no_room(count, out):
    script(one_by_one([f"{n},R,{8 * (n % 2)},8" for n in range(count)], 32), out, "setup,5,50,65535,1,")


def other_way(count, out):
    long = [f"{n + 1},R,{3 + 5 * (n % 2)},5" for n in range(count)]
    script(one_by_one(["0,W,5,3", *long], 32), out, "setup,5,50,8,128,")


def plugs(count, out):
    lines = []
    for n, it in enumerate(one_by_one([f"{n},R,{8 * (n % 2)},8" for n in range(count)], 32)):
        lines.append(it)
        if n % 34 == 33:
            lines.append("run,1,,,,")
    script(lines, out, "setup,5,50,65535,1,")


def bio_ids(count, out):
    serials = colliding(count, table_of(count, 4), after_submitter(0))
    lines = [*one_by_one([f"{it},R,{100 * n},8" for n, it in enumerate(serials)], 32), f"run,{count // 32 + 1},,,,"]
    script(lines, out)


def sectors(count, out):
    firsts = colliding_sectors(count, table_of(count, 2))
    lines = [*one_by_one([f"{n},R,{it},1" for n, it in enumerate(firsts)], 32), f"run,{count // 32 + 1},,,,"]
    script(lines, out)


def one_slot(count, out):
    lines = [*one_by_one([f"{n},R,{n << 28},1" for n in range(count)], 32), f"run,{count // 32 + 1},,,,"]
    script(lines, out)


def entering(requests, every):
    """Requests of some bios each, that merge in the plug; so many requests come into the core at once."""
    serial = 0
    for n, bios in enumerate(requests):
        for it in bios:
            yield f"bio,0,{serial},R,{it}"
            serial += 1
        if n % every == every - 1 or n == len(requests) - 1:
            yield "flush,0,,,,"
            yield "drain,0,,,,"


def two_measures(count, out):
    end, half = 1 << 20, count // 7
    waiting = [[f"{end - 2},1", f"{end - 1},1"], [f"{end - 65000},65000"]] * half
    newcomers = [[f"{end},{600 + n % 500}", f"{end + 600 + n % 500},1"] for n in range(2 * half)]
    lines = [*entering(waiting, 8), *(it.replace("bio,0,", "bio,1,").replace("flush,0", "flush,1") for it in entering(newcomers, 1))]
    script(lines, out, "setup,5,50,65535,3,")


def many_sizes(count, out):
    end, half = 1 << 20, count // 2
    waiting = [[f"{end - n % 60000 - 1},{n % 60000 + 1}"] for n in range(half)]
    lines = [*entering(waiting, 32), *(it.replace("bio,0,", "bio,1,").replace("flush,0", "flush,1") for it in entering([[f"{end},1"]] * half, 1))]
    script(lines, out)


def many_classes(count, out):
    end, waiting, used, bios = 1 << 20, [], 0, 1
    while used + bios <= count // 2:
        first = end - 65535
        waiting.append([f"{first + n},1" for n in range(bios - 1)] + [f"{first + bios - 1},{65536 - bios}"])
        used, bios = used + bios, bios % 127 + 1
    newcomers = [[f"{end},1"]] * (count - used)
    lines = [*entering(waiting, 8), *(it.replace("bio,0,", "bio,1,").replace("flush,0", "flush,1") for it in entering(newcomers, 1))]
    script(lines, out)


def handed(count, out):
    lines = []
    for n in range(count):
        lines += [f"bio,0,{n},R,{100 * n},8", "flush,0,,,,", "drain,0,,,,", "issue,0,0,,,", "back,0,,,,", "tick,,,,,"]
        lines += ["issue,0,0,,,", "done,0,,,,", "tick,,,,,"]
    script(lines, out)


def idle(count, out):
    script(["run,1,,,,"] * count, out, queues=16, depth=256)


# --- traces ---


def trace(depth, events, out, setup="setup,0,0,65535,128,"):
    """A trace of these events, each a list of records."""
    out(f"blk-trace,2,{depth},1,{len(events)},")
    out(setup)
    for event in events:
        for it in event:
            out(it)


def served(ids, serials):
    """The events of requests of a bio each, one served in each round."""
    events = [[f"release,{it},1,,,", f"bio,0,{serials[n]},R,{100 * n},8"] for n, it in enumerate(ids)]
    for it in ids:
        events += [[f"issue,{it},0,,,"], ["done,0,,,,"], ["tick,,,,,"]]
    return events


def trace_bio_ids(count, out):
    trace(1, served(range(count), colliding(count, table_of(count, 4), after_submitter(0))), out)


def trace_requests(count, out):
    trace(1, served(colliding(count, table_of(count, 4), SEED), range(count)), out)


def trace_falling(count, out):
    falling = range(count, 0, -1)
    trace(1, served(falling, falling), out)


def trace_steps(count, out):
    events = served(range(count), range(count))
    for n in range(count):
        events[count + 4 * n : count + 4 * n] = [[f"depth,{1 + n % 2},,,,"]]
    trace(2, events, out)


def trace_joins(count, out):
    """Requests that each grow to 128 bios, one bio a time, and are served then."""
    events = []
    for n in range(count):
        name = n // 128
        word = "join" if n % 128 else "release"
        events.append([f"{word},{name},1,,,", f"bio,0,{n},R,{8 * n},8"])
        if n % 128 == 127:
            events += [[f"issue,{name},0,,,"], ["done,0,,,,"], ["tick,,,,,"]]
    trace(1, events, out)


def trace_groups(count, out):
    events = []
    for first in range(0, count, 128):
        bios = range(first, min(first + 128, count))
        events.append([f"release,{first},{len(bios)},,,", *[f"bio,0,{n},R,{8 * n},8" for n in bios]])
    trace(1, events, out)


# --- command lists and certificates ---


def listed(commands, out):
    out("blk-commands,1,1")
    for n, (release, due) in enumerate(commands):
        out(f"{n},{release},{due}")


def far_rounds(count):
    rng = random.Random(7)
    releases = [rng.randrange(1 << 40) for _ in range(count)]
    return [(it, rng.randrange(1 << 41)) for it in releases]


def scattered(count, out):
    listed(far_rounds(count), out)


def falling(count, out):
    listed([(count - n, 2 * (count - n)) for n in range(count)], out)


def nested(count, out):
    listed([(n, 3 * count - n) for n in range(count)], out)


def alone(count, out):
    listed([(4 * (n // 2), 4 * (n // 2)) for n in range(count)], out)


def repeated(count, out):
    out("blk-commands,1,1")
    for n in range(count):
        out(f"{n % (count - 1)},{n},{n}")


def cert_scattered(count, out):
    """Each runs in its release round and is due there, so a window of that round proves the lateness 0."""
    releases = sorted({it for it, _ in far_rounds(count)})
    random.Random(8).shuffle(releases)
    out(f"blk-certificate,1,1,{len(releases)}")
    out(f"bound,0,{releases[0]},{releases[0]}")
    for n, it in enumerate(releases):
        out(f"{n},{it},{it},{it}")


def met_windows(count, out):
    """Two commands for every fourth round, of which one is met: a window of that round proves it."""
    out(f"blk-met,1,1,{count}")
    out(f"met,{(count + 1) // 2},{(count + 1) // 2},")
    for n in range(0, count, 2):
        out(f"window,{2 * n},{2 * n},")
    for n in range(count):
        release = 4 * (n // 2)
        out(f"{n},{release},{release},{release + n % 2}")


def ran_scattered(count, out):
    """Two commands are released and due in a round: one runs there, and the other in the next round."""
    releases = sorted({it // 2 * 2 for it, _ in far_rounds(count // 2)})
    random.Random(8).shuffle(releases)
    out(f"blk-schedule,1,1,{2 * len(releases)}")
    for n, it in enumerate(releases):
        out(f"{2 * n},{it},{it},{it + 1}")
        out(f"{2 * n + 1},{it},{it},{it}")


def capture_steps(count, out, steps, range_of):
    """A title, and each step for all of so many bios in turn, a microsecond apart."""
    now = 0
    out("blk-capture,1,,,,,,")
    for action in steps:
        for n in range(count):
            now += 1000
            out(f"{now // 1_000_000_000},{now % 1_000_000_000:09},0,{action},{1 + n % 100},R,{range_of(n)},8")


def capture_queued(count, out):
    """In an order of their own."""
    firsts = [16 * n for n in range(count)]
    random.Random(8).shuffle(firsts)
    capture_steps(count, out, "QGIDC", lambda n: firsts[n])


def capture_one_range(count, out):
    capture_steps(count, out, "QGIDC", lambda n: 64)


def capture_absorbed(count, out):
    """Requests side by side, of which each but the first is merged into that before it, from the last on."""
    capture_steps(count, out, "QGI", lambda n: 8 * n)
    last = 3000 * count
    for n in range(count - 1, 0, -1):
        last += 1000
        out(f"{last // 1_000_000_000},{last % 1_000_000_000:09},0,M,1,R,{8 * n},{8 * (count - n)}")
    for action in "DC":
        last += 1000
        out(f"{last // 1_000_000_000},{last % 1_000_000_000:09},0,{action},1,R,0,{8 * count}")


KINDS = [joins, fronts, plugs, no_room, other_way, two_measures, many_sizes, many_classes, bio_ids, sectors, one_slot, handed, idle, trace_bio_ids, trace_requests]
KINDS += [trace_falling, trace_steps, trace_joins, trace_groups, scattered, falling, nested, alone, repeated, cert_scattered, met_windows]
KINDS += [ran_scattered]
KINDS += [capture_queued, capture_one_range, capture_absorbed]


def main():
    lines = []
    {it.__name__: it for it in KINDS}[sys.argv[1]](int(sys.argv[2]), lines.append)
    sys.stdout.write("\n".join(lines) + "\n")


if __name__ == "__main__":
    main()
