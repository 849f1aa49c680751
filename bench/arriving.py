#!/usr/bin/env python3
"""What `import --script` makes of a capture, by the rules of docs/CAPTURES.md said once more without the program: round by round, and not by
the records in turn.

    arriving.py --round T [--depth N] [--read-expire T] [--write-expire T] < CAPTURE

An expected result of a case of `import --script` comes from here. A refusal is its name alone, with status 1."""
import argparse
import re
import sys

UNITS = {"ns": 1, "us": 1_000, "ms": 1_000_000, "s": 1_000_000_000}


def span(text):
    number, unit = re.fullmatch(r"(\d+)(ns|us|ms|s)", text).groups()
    return int(number) * UNITS[unit]


def capture(text):
    rows = [line.split(",") for line in text.splitlines() if line]
    assert rows[0] == ["blk-capture", "1", "", "", "", "", "", ""]
    out = []
    for s, ns, cpu, action, pid, rwbs, first, sectors in rows[1:]:
        out.append(dict(t=int(s) * 10**9 + int(ns), cpu=int(cpu), a=action, pid=int(pid), rwbs=rwbs, first=int(first), n=int(sectors)))
    return out


def direction(rwbs):
    return "W" if "W" in rwbs else "R" if "R" in rwbs else None


def comes(r):
    return r["a"] == "Q" and direction(r["rwbs"]) is not None and r["n"] > 0 and r["first"] + r["n"] <= 2**48


def script(text, round="1ms", depth=64, read="500ms", write="5s"):
    T = span(round)
    if T == 0:
        return "Round"
    if not 1 <= depth <= 256:
        return "Depth"
    expiries = [max(1, span(e) // T) for e in (read, write)]
    if max(expiries) >= 2**40:
        return "Expire"
    records = capture(text)
    arrivals = [r for r in records if comes(r)]
    for key in ("pid", "cpu"):
        order = []
        for r in arrivals:
            if r[key] not in order:
                order.append(r[key])
        if len(order) <= 64:
            break
    else:
        return "TooMany: a script has at most 64 submitters, and more processes and processors queue bios, so take less of the capture"
    begin = records[0]["t"] if records else 0
    by_round = {}
    serial = 0
    for r in records:
        n = (r["t"] - begin) // T
        if r[key] not in order:
            continue
        s = order.index(r[key])
        if comes(r):
            by_round.setdefault(n, []).append(("bio", s, serial, r))
            serial += 1
        elif r["a"] == "U":
            by_round.setdefault(n, []).append(("unplug", s, None, None))
    rounds = sorted(n for n, events in by_round.items() if any(e[0] == "bio" for e in events))
    if rounds and rounds[-1] > 1_000_000:
        return "TraceFull: a bio comes in after round 1000000, so take a longer --round"
    steps = []
    if rounds and rounds[0] > 0:
        steps.append(f"run,{rounds[0]},,,,")
    for place, n in enumerate(rounds):
        plugs = {}
        for what, s, number, r in by_round[n]:
            if what == "bio":
                if len(plugs.get(s, [])) == 32:
                    steps += [f"flush,{s},,,,", "drain,0,,,,"]
                    plugs[s] = []
                plugs.setdefault(s, []).append(number)
                steps.append(f"bio,{s},{number},{direction(r['rwbs'])},{r['first']},{r['n']}")
            elif plugs.get(s):
                steps += [f"flush,{s},,,,", "drain,0,,,,"]
                plugs[s] = []
        steps += [f"flush,{s},,,," for s in sorted(plugs) if plugs[s]]
        after = rounds[place + 1] - n if place + 1 < len(rounds) else serial
        steps.append(f"run,{after},,,,")
    if len(steps) > 999_998:
        return "TooLong: a script has at most 999998 steps, so take a longer --round or less of the capture"
    head = [f"blk-script,2,{depth},1,64,{max(1, len(order))}", f"setup,{expiries[0]},{expiries[1]},2560,128,"]
    return "\n".join(head + steps) + "\n"


def main():
    words = argparse.ArgumentParser()
    words.add_argument("--round", required=True)
    words.add_argument("--depth", type=int, default=64)
    words.add_argument("--read-expire", default="500ms")
    words.add_argument("--write-expire", default="5s")
    asked = words.parse_args()
    answer = script(sys.stdin.read(), asked.round, asked.depth, asked.read_expire, asked.write_expire)
    print(answer, end="" if answer.endswith("\n") else "\n")
    sys.exit(0 if answer.endswith("\n") else 1)


if __name__ == "__main__":
    main()
