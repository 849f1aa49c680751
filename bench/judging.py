"""What `late` and `misses` say of a trace, and `judge` of a schedule, by its rule said once more without the program: who can be on time
beside whom is a matching of commands and rounds, and a full window is looked for among all windows. As a program it tells what `judge`
says of the schedule on standard input, and what `judge --each` says of it where it is given a word."""
import csv
import io
import sys
from collections import Counter
from pathlib import Path

sys.dont_write_bytecode = True
sys.path.insert(0, str(Path(__file__).resolve().parent.parent / "tools"))

import models  # noqa: E402
from traces import Served  # noqa: E402 (it stands in a folder beside this one)


def most_met(trace, commands):
    """How many of the commands can be on time in one schedule, by augmenting paths. No command has to wait for more rounds than
    there are commands."""
    held = {}

    def find(command, seen):
        for at in range(command.release, min(command.due, command.release + len(commands)) + 1):
            if at in seen:
                continue
            seen.add(at)
            there = held.setdefault(at, [])
            if len(there) < trace.places(at):
                there.append(command)
                return True
            for place, other in enumerate(there):
                if find(other, seen):
                    held[at][place] = command
                    return True
        return False

    return sum(find(it, set()) for it in commands)


def window(trace, met, command):
    """Of the windows around the command whose every place went to a command on time that lies in it, the first to end, and of
    those the first to begin."""
    for until in sorted({it.due for it in met if it.due >= command.due}):
        for begin in range(command.release + 1):
            held = Counter(it.issue for it in met if begin <= it.release and it.due <= until)
            if until < begin + len(met) and all(held[at] >= trace.places(at) for at in range(begin, until + 1)):
                return begin, until
    return None


def verdict(trace, command):
    """The last three fields of a late command. That it is spare or full, and never both, is asserted."""
    if command.due < command.release:
        return "arrival", "", ""
    met = [it for it in trace.served if it.issue <= it.due]
    full = window(trace, met, command)
    spare = most_met(trace, [*met, command]) == len(met) + 1
    assert spare == (full is None), (command, full, spare)
    return ("spare", "", "") if spare else ("full", *full)


def waited(trace, command):
    """What the places of the rounds went to that a command waited."""
    held = [it for it in trace.served if command.release <= it.issue < command.issue]
    sooner = sum(it.due <= command.due for it in held)
    carried = sum(trace.places(at) for at in range(command.release, command.issue))
    return command.issue - command.due, sooner, len(held) - sooner, carried - len(held)


def late(trace):
    """What `late` writes."""
    head = "id,dir,first,sectors,release,due,issue,lateness,sooner,later,idle,verdict,from,until"
    rows = [(*it, *waited(trace, it), *verdict(trace, it)) for it in trace.served if it.issue > it.due]
    return "".join(f"{it}\n" for it in [head, *[",".join(map(str, row)) for row in rows]])


def passing_over(trace):
    """The round of each command by earliest due first where what is late is passed over, and then the rest by the same rule."""
    rounds, left, now, over = {}, set(trace.served), 0, True
    while left:
        there = sorted((it.due, it.id, it) for it in left if it.release <= now)
        there = [it for due, _, it in there if due >= now or not over][: trace.places(now)]
        if over and not any(it.due >= now and it.due >= it.release for it in left):
            over, now = False, max(rounds.values(), default=-1) + 1
            continue
        for it in there:
            rounds[it] = now
            left.remove(it)
        now += 1
    return rounds


def cover(trace):
    """The windows of the commands that are passed over, those joined that overlap or touch."""
    rounds, windows = passing_over(trace), []
    for until in sorted({it.due for it, at in rounds.items() if it.release <= it.due < at}):
        begin = until + 1
        while begin > 0:
            run = sum(at == begin - 1 and it.due <= until for it, at in rounds.items())
            if run < trace.places(begin - 1):
                break
            begin -= 1
        while windows and begin <= windows[-1][1] + 1:
            begin = min(begin, windows.pop()[0])
        windows.append((begin, until))
    return windows


def misses(trace):
    """What `misses` writes."""
    late = [it for it in trace.served if it.issue > it.due]
    unavoidable = len(trace.served) - most_met(trace, trace.served)
    overdue = [it for it in trace.waiting if trace.round > it.due]
    figures = {
        "commands": len(trace.served),
        "late": len(late),
        "unavoidable": unavoidable,
        "avoidable": len(late) - unavoidable,
        "spare": sum(verdict(trace, it)[0] == "spare" for it in late),
        "waiting": sum(it.bios for it in trace.waiting),
        "overdue": sum(it.bios for it in overdue),
    }
    lines = [f"{word} {number}" for word, number in figures.items()]
    for begin, until in cover(trace):
        inside = sum(begin <= it.release <= it.due <= until for it in trace.served)
        carried = sum(trace.places(at) for at in range(begin, until + 1))
        lines.append(f"window {begin} {until} commands {inside} carries {carried}")
    return "".join(f"{it}\n" for it in lines)


# --- schedules ---


class Ran:
    """The commands of a good schedule, each in its round, and the places of its rounds."""

    def __init__(self, text):
        records = [it for it in csv.reader(io.StringIO(text.decode("latin-1"), newline="")) if it]
        self.depth = int(records[0][2])
        rows = [map(int, it) for it in records[1:]]
        self.served = [Served(id, "", 0, 0, release, due, at) for id, release, due, at in rows]

    def places(self, at):
        """How many commands the round carries."""
        return self.depth


def illegal(ran):
    """The first rule that is broken, with its number; None where the schedule is legal."""
    return models.illegal(ran.depth, [(it.id, it.release, it.due, it.issue) for it in ran.served])


def least(ran):
    """The least lateness by which all can be served: a matching finds a round for each, none later than so long past its due round."""
    late = max(it.release - it.due for it in ran.served)
    while most_met(ran, [it._replace(due=it.due + late) for it in ran.served]) < len(ran.served):
        late += 1
    return late


def latest_window(ran):
    """The window of the latest command by earliest due first, of several that of the first round, and there of the least id."""
    rounds, left, now = {}, set(ran.served), 0
    while left:
        for it in sorted((it for it in left if it.release <= now), key=lambda it: (it.due, it.id))[: ran.places(now)]:
            rounds[it] = now
            left.remove(it)
        now += 1
    last = min(rounds, key=lambda it: (it.due - rounds[it], rounds[it], it.id))
    begin = rounds[last]
    while begin > 0:
        run = sum(at == begin - 1 and it.due <= last.due for it, at in rounds.items())
        if run < ran.places(begin - 1):
            break
        begin -= 1
    return begin, last.due


def figures(ran):
    """The last five values of a judgement. That the window proves the least is asserted."""
    if not ran.served:
        return ["none"] * 5
    own, bound = max(it.issue - it.due for it in ran.served), least(ran)
    begin, due = latest_window(ran)
    load = sum(begin <= it.release and it.due <= due for it in ran.served)
    assert load > sum(ran.places(at) for at in range(begin, due + bound)), (begin, due, load)
    return [own, bound, own - bound, f"{begin} {due}", load]


def judge(ran):
    """What `judge` writes of a legal schedule."""
    ran.waiting, ran.round = [], 0
    counts = misses(ran).splitlines()
    words = ["greatest", "least", "shortfall", "window", "load"]
    lines = counts[:5] + [f"{word} {it}" for word, it in zip(words, figures(ran))] + counts[7:]
    return "".join(f"{it}\n" for it in lines)


def judged_verdict(ran, command):
    """The same of a schedule, whose rounds don't tell whether a command due right before its release came in late."""
    return ("gap", "", "") if command.due + 1 == command.release else verdict(ran, command)


def judge_each(ran):
    """What `judge --each` writes of a legal schedule."""
    rows = [(it.id, it.release, it.due, it.issue, it.issue - it.due, *judged_verdict(ran, it)) for it in ran.served if it.issue > it.due]
    return "".join(f"{it}\n" for it in ["id,release,due,round,lateness,verdict,from,until", *[",".join(map(str, row)) for row in rows]])


if __name__ == "__main__":
    asked = Ran(sys.stdin.buffer.read())
    print(illegal(asked) or (judge_each if sys.argv[1:] else judge)(asked), end="")
