#!/usr/bin/env python3
"""Reads what the program writes with `--json` by python's own parser, and compares it with the text form.

    tools/json_cases.py             every case
    tools/json_cases.py NAME..      those alone, by their names

There are two kinds. A case NAME_json, whose words have `--json`, stands beside the case NAME of the same other words and the same
input: what it has to write is compared with what NAME has to write. And the program is run once more over each case of `oracle --trace`,
`compare`, `tune`, `replay`, `spread`, `late`, `misses`, `blame`, `check` and `load` that has not `--json`, with that word added: at status 0 what it writes is
compared with the case's text, and at another status all is to be as it is without.

Compared are the keys and their order, numbers as numbers, null where the text has none or leaves a field empty, and lists item by item;
and that the text is one object without a space but in its words, and a line's end.

Prints what differs, and as the last line 'N passed, M failed'. Ends with 0 where none failed, 1 where one did, 2 where a word names no
such case, and 3 where the program isn't there.
"""
import copy
import json
import os
import re
import signal
import sys
from pathlib import Path

sys.dont_write_bytecode = True

from cases import PROGRAM, TOP, Fault, counted, ended, judge, read_cases, run, side_by_side

FLAG = b"--json"
ENDING = "_json"


def number(text):
    """A number of the text form, or None for none or an empty field."""
    return None if text in ("none", "") else int(text)


def numbers(words, texts):
    """An object of these numbers."""
    return dict(zip(words, map(number, texts), strict=True))


def window(text):
    """The window of a report."""
    return None if text == "none" else numbers(("from", "due"), text.split(" "))


def of_report(lines):
    values = dict(line.split(" ", 1) for line in lines)
    return {word: window(text) if word == "window" else number(text) for word, text in values.items()}


def of_table(lines):
    head, *rows, last = lines
    words = head.split()[1:]
    best = last.removeprefix("best ")
    # a wide number leaves no space before it
    schedulers = [{"sched": row[:8].rstrip(), **numbers(words, re.findall(r"none|-?\d+", row[8:]))} for row in rows]
    return {"schedulers": schedulers, "best": None if best == "none-served" else best}


def settings(text):
    """The settings of a scheduler, `NAME=VALUE` with a space between, or `-` where it has none."""
    words = {"on": True, "off": False, "one": "one", "each": "each"}
    named = [] if text == "-" else (it.split("=") for it in text.split(" "))
    return {name: words[it] if it in words else number(it) for name, it in named}


def of_trial(lines):
    *table, last = lines
    head, *rows = (line.split(",") for line in table)
    told = [{"sched": row[0], "settings": settings(row[1]), **numbers(head[2:], row[2:])} for row in rows]
    if last == "best none-served":
        return {"rows": told, "best": None, "proved": None}
    name, text, proved = re.fullmatch(r"best (\S+) (.+?)(?: \((.+)\))?", last).groups()
    return {"rows": told, "best": {"sched": name, "settings": settings(text)}, "proved": proved}


def of_spread(lines):
    head, *rows = (line.split(",") for line in lines)
    told = {}
    for row in rows:
        told.setdefault(row[0], {})[row[1]] = numbers(head[2:], row[2:])
    return told


def of_late(lines):
    head, *rows = (line.split(",") for line in lines)
    texts = ("dir", "verdict")
    return {"late": [{word: it if word in texts else number(it) for word, it in zip(head, row, strict=True)} for row in rows]}


def of_misses(lines):
    told, windows = {}, []
    for line in lines:
        found = re.fullmatch(r"window (\d+) (\d+) commands (\d+) carries (\d+)", line)
        if found:
            windows.append(numbers(("from", "until", "commands", "carries"), found.groups()))
        else:
            word, text = line.split(" ")
            told[word] = number(text)
    return {**told, "windows": windows}


def of_check(lines):
    (line,) = lines
    if line == "ok no commands":
        return {"lateness": None, "load": None, "carries": None}
    found = re.fullmatch(r"ok lateness (\S+) load (\d+) carries (\d+)", line)
    if found:
        return numbers(("lateness", "load", "carries"), found.groups())
    found = re.fullmatch(r"ok met (\d+) of (\d+) windows (\d+) carry (\d+) and (\d+) outside", line)
    return numbers(("met", "of", "windows", "carry", "outside"), found.groups())


def of_load(lines):
    return {word: number(text) for word, text in (line.split(" ") for line in lines)}


# The words of a blame that are times: nanoseconds in JSON, and in the text milliseconds, cut behind three digits.
TIMES = ("span", "p50", "p99", "max", "from", "until", "length", "wait", "wait_p50", "wait_p99", "overrun")


def in_ms(value, word=""):
    """What JSON tells of a blame, with its times as the text has them."""
    if isinstance(value, dict):
        return {key: in_ms(it, key) for key, it in value.items()}
    if isinstance(value, list):
        return [in_ms(it) for it in value]
    return f"{value // 10**6}.{value // 1000 % 1000:03}" if word in TIMES and value is not None else value


def blamed(words, texts):
    """An object of numbers, of times as they stand, of shares in thousandths and of words."""
    plain = lambda word, it: int(it.replace(".", "") if word in ("share", "waited") else it)
    read = lambda word, it: None if it in ("none", "") else it if word in (*TIMES, "dir", "cause", "stage") else plain(word, it)
    return {word: read(word, it) for word, it in zip(words, texts, strict=True)}


def of_blame(lines):
    if re.match("[RW] ", lines[0]):
        form = r"([RW]) (\d+) requests, of which (\d+) may be late\ndue after (\S+) ns, .*\ndue after (\S+) ns, .*"
        return blamed(("dir", "requests", "allowed", "beside", "alone"), re.fullmatch(form, "\n".join(lines)).groups())
    if lines[0].startswith("id,"):
        head, *rows = (line.split(",") for line in lines)
        return {"late": [blamed(head, row) for row in rows]}
    top, *tables = "\n".join(lines).split("\n\n")
    form = r"(\d+) requests in (\S+) ms, at least one waiting in (\S+) % of it\nlate (\d+): reads (\d+), writes (\d+)\nhad to be (\d+): by stall (\d+), by crowding (\d+), by arrival (\d+)\n"
    form += r"the scheduler's (\d+)\noverrun in ms: p50 (\S+), p99 (\S+), max (\S+)"
    found = re.fullmatch(form, top).groups()
    words = ("requests", "span", "waited", "late", "late_reads", "late_writes", "unavoidable", "stalled", "crowded", "arrivals", "avoidable")
    told = {**blamed(words, found[:11]), "overrun": blamed(("p50", "p99", "max"), found[11:])}
    for table in tables:
        title, head, *rows = table.split("\n")
        told[re.sub(r".*(windows|stages|processes|processors|stalls),.*", r"\1", title)] = [blamed(head.split(), row.split()) for row in rows]
    return told


FORMS = {
    b"oracle": of_report,
    b"compare": of_table,
    b"tune": of_trial,
    b"replay": of_trial,
    b"spread": of_spread,
    b"late": of_late,
    b"misses": of_misses,
    b"blame": of_blame,
    b"check": of_check,
    b"load": of_load,
}


def form_of(case):
    """What reads the text of a case, or None where it has no JSON."""
    word = case.args[0] if case.args else b""
    if word == b"oracle" and b"--trace" not in case.args or word == b"load" and b"--trace" in case.args:
        return None
    if word == b"replay" and b"--sched" in case.args and b"--grid" not in case.args or word == b"blame" and {b"--certificate", b"--picture"} & set(case.args):
        return None
    return FORMS.get(word)


def refuse(text):
    """Answers to what is no integer."""
    raise Fault(f"{text} is no number of blk")


def members(pairs):
    """An object, whose keys are different ones."""
    told = dict(pairs)
    if len(told) != len(pairs):
        raise Fault("a key comes twice")
    return told


def value_of(text):
    """The value of a JSON text of one line; a Fault where it is none."""
    line = text.decode("ascii")
    value = json.loads(line, object_pairs_hook=members, parse_float=refuse, parse_constant=refuse)
    if line != json.dumps(value, separators=(",", ":")) + "\n":
        raise Fault("it is no text in one line, without a space but in its words")
    return value


def compared(form, text, told):
    """How a JSON text differs from a text, empty where it doesn't."""
    wanted = json.dumps(form(text.decode("ascii").splitlines()))
    value = value_of(told)
    got = json.dumps(in_ms(value) if form is of_blame else value)
    return "" if got == wanted else f"    wanted  {wanted[:4000]}\n    written {got[:4000]}\n"


def beside(case, sibling):
    """What is wrong with a case of `--json` beside the one of the text form."""
    if not isinstance(sibling, type(case)):
        raise Fault(f"it stands beside no case {case.name.removesuffix(ENDING)}")
    words = [it for it in case.args if it != FLAG]
    if words != sibling.args or (case.stdin and case.stdin.read_bytes()) != (sibling.stdin and sibling.stdin.read_bytes()):
        raise Fault(f"it has other words than {sibling.name}, or another input")
    if case.status:
        same = case.status == sibling.status and case.bytes_wanted("stderr") == sibling.bytes_wanted("stderr")
        return "" if same else f"    it is refused otherwise than {sibling.name}\n"
    form = form_of(sibling)
    if form is None:
        raise Fault("FORMS of tools/json_cases.py has nothing that reads the text form")
    return compared(form, sibling.bytes_wanted("stdout"), case.bytes_wanted("stdout"))


def once_more(case):
    """What is wrong with the run of a case with `--json` added."""
    case = copy.copy(case)
    case.args = [case.args[0], FLAG, *case.args[1:]]
    if case.status or "stdout" in case.places:
        return judge(PROGRAM, case)
    status, wrote, said = run(PROGRAM, case)
    if status or said != case.bytes_wanted("stderr"):
        return f"    ended with status {status} and said {said[:400]!r}\n"
    return compared(form_of(case), case.bytes_wanted("stdout"), wrote)


def looked_at(known, case):
    """What is wrong with a case of either kind."""
    try:
        if FLAG in case.args:
            return beside(case, known.get(case.name.removesuffix(ENDING)))
        return once_more(case)
    except (Fault, OSError, ValueError, AttributeError) as fault:
        return f"    {fault}\n"


def main(words):
    """The comparison as a command; its exit status."""
    if any(it in ("-h", "--help") for it in words):
        print(__doc__, end="")
        return 0
    known = read_cases()
    picked = {
        name: it
        for name, it in known.items()
        if not isinstance(it, Fault) and (name.endswith(ENDING) if FLAG in it.args else form_of(it))
    }
    for word in words:
        if Path(word).name not in picked:
            print(f"tools/json_cases.py: {word} is no case that has JSON", file=sys.stderr)
            return 2
    names = [Path(it).name for it in words] or list(picked)
    if not os.access(PROGRAM, os.X_OK):
        print(f"tools/json_cases.py: there is no program {PROGRAM.relative_to(TOP)}: ./blk builds it", file=sys.stderr)
        return 3
    outcomes = side_by_side(lambda it: looked_at(known, it), [(it, picked[it]) for it in names])
    return 1 if counted(outcomes, "case {} as JSON:\n") else 0


if __name__ == "__main__":
    signal.signal(signal.SIGTERM, ended)
    sys.exit(main(sys.argv[1:]))
