"""What bench/hostile holds the program's answers against: the verdict of a certificate, a table of reports, and what the
answers of several subcommands over one text have to do with one another. Each model is the rule of docs/FORMATS.md said once
more, without the program."""
from collections import Counter

PLAIN = frozenset(b"0123456789,-\nabcdefghijklmnopqrstuvwxyz")
CAPITALS = frozenset(b"ABCDEFGHIJKLMNOPQRSTUVWXYZ")


def rows(text, more=frozenset()):
    """The records of a text that has none of the reader's subtleties and no bytes but plain ones and some more, or None."""
    if not (PLAIN | more).issuperset(text):
        return None
    return [line.split(",") for line in text.decode().split("\n") if line]


def numbers(fields):
    return [int(it) for it in fields]


def illegal(depth, commands):
    """The first rule of a schedule that is broken, with its number; None where it is legal. A command is id, release, due and
    round."""
    for name, release, _, at in commands:
        if at < release:
            return f"BeforeRelease {name}"
    full = [at for at, count in Counter(it[3] for it in commands).items() if count > depth]
    return f"OverDepth {min(full)}" if full else None


def load(commands, since, until):
    return sum(since <= release and due <= until for _, release, due, _ in commands)


def judge_certificate(records):
    """What `check` says of a certificate that reads well."""
    depth = int(records[0][2])
    commands = [numbers(it) for it in records[2:]]
    if not commands:
        return "ok no commands"
    lateness, since, until = numbers(records[1][1:])
    broken = illegal(depth, commands)
    if broken:
        return broken
    greatest = max(at - due for _, _, due, at in commands)
    if greatest != lateness:
        return f"WrongLateness {greatest}"
    inside, carried = load(commands, since, until), depth * max(0, until + lateness - since)
    if inside <= carried:
        return f"NotCrowded {inside}"
    return f"ok lateness {lateness} load {inside} carries {carried}"


def judge_met(records):
    """What `check` says of a certificate of what can be met that reads well."""
    depth = int(records[0][2])
    met, count = numbers(records[1][1:3])
    windows = [numbers(it[1:3]) for it in records[2 : 2 + count]]
    commands = [numbers(it) for it in records[2 + count :]]
    broken = illegal(depth, commands)
    if broken:
        return broken
    own = sum(at <= due for _, _, due, at in commands)
    if own != met:
        return f"WrongMet {own}"
    for place, (first, last) in enumerate(windows):
        if last < first or place and first <= windows[place - 1][1]:
            return f"Windows {place}"
    carried = sum(depth * (last - first + 1) for first, last in windows)
    hopeful = [(release, due) for _, release, due, _ in commands if release <= due]
    outside = sum(not any(first <= release and due <= last for first, last in windows) for release, due in hopeful)
    if met < carried + outside:
        return f"Loose {carried + outside}"
    return f"ok met {met} of {len(commands)} windows {len(windows)} carry {carried} and {outside} outside"


def verdict(text):
    """What `check` says of a certificate that reads well, or None where that isn't known."""
    records = rows(text)
    if not records:
        return None
    return judge_met(records) if records[0][0] == "blk-met" else judge_certificate(records)


def listed(text):
    """The depth and the commands of a command list that reads well, or None where that isn't known."""
    records = rows(text)
    if not records:
        return None
    return int(records[0][2]), [tuple(numbers(it)) for it in records[1:]]


def told(text):
    """The lines of a report or of misses by their first words."""
    return {line.split(" ", 1)[0]: line.split(" ", 1)[1] for line in text.decode().splitlines()}


def table(reports):
    """What `compare` writes, by the reports of its traces by their schedulers."""
    heads = ["commands", "waiting", "greatest", "least", "shortfall"]
    lines = [f"{'sched':<8}" + "".join(f"{it:>10}" for it in heads)]
    best = None
    for name, report in reports.items():
        lines.append(f"{name:<8}" + "".join(f"{report[it]:>10}" for it in heads))
        if report["greatest"] != "none" and (best is None or int(report["greatest"]) < int(reports[best]["greatest"])):
            best = name
    lines.append(f"best {best or 'none-served'}")
    return "".join(f"{it}\n" for it in lines).encode()
