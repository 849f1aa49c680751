#!/usr/bin/env python3
"""Tries scripts by `tune` under its whole grid, and looks at each row by the other subcommands.

    tools/tunes.py            every script of the list below
    tools/tunes.py NAME..     those alone

Of each row: `sim` runs the script under the row's settings, and of the trace that it writes `oracle --trace`, `misses` and `spread` tell
the row's numbers. Of each table: every setting of the grid has one row and nothing else has; the rows stand in the order of their own
numbers, by misses and by lateness, and those that are as good in the order of the grid; the last line names the first row, and says that
no schedule is better just where the row's numbers do; `--top 3` writes the first three rows and the same last line; and the text is the
same with 1, 2 and 4 threads. Of a script that takes a while, as many threads try it as are asked for.

Prints what is wrong, and as the last line 'N passed, M failed', counted in rows and tables. Ends with 0 where none failed, 1 where one
did, 2 where a word names no script, and 3 where the program isn't there.
"""
import contextlib
import itertools
import os
import signal
import subprocess
import sys
import time

sys.dont_write_bytecode = True

from cases import PROGRAM, SECONDS, TOP, Fault, counted, ended, side_by_side
from json_cases import number

# Two workloads; a read that a newcomer joins at its front; reads that make writes wait; and steps by hand.
SCRIPTS = {
    "write_burst": TOP / "examples" / "write_burst.script",
    "read_crowd": TOP / "examples" / "read_crowd.script",
    "front_merges": TOP / "cases" / "tune" / "tune_front_merges" / "stdin",
    "kyber_targets": TOP / "cases" / "tune" / "tune_kyber_targets" / "stdin",
    "nothing_served": TOP / "cases" / "tune" / "tune_nothing_served" / "stdin",
}
HEAD = "sched,settings,commands,waiting,greatest,least,shortfall,late,unavoidable,avoidable,wait_p99_read,wait_p99_write"
WORDS = HEAD.split(",")[2:]
BATCHES = (1, 2, 4, 8, 16, 32, 64)
STARVED = (0, 1, 2, 4, 8)
TARGETS = (1, 2, 5, 10, 20, 50, 100)
BETTER = {"misses": " (no schedule misses fewer)", "lateness": " (no schedule is less late)"}


def grid():
    """The settings of the whole grid in its order: what a row says of each, and the words by which `sim` is asked for it."""
    told = {"none,-": "none", "earliest,late_last=on": "earliest --late-last", "earliest,late_last=off": "earliest"}
    for batch, starved, merges in itertools.product(BATCHES, STARVED, ("on", "off")):
        flag = "" if merges == "on" else " --no-front-merges"
        told[f"deadline,fifo_batch={batch} writes_starved={starved} front_merges={merges} positions=one"] = (
            f"deadline --fifo-batch {batch} --writes-starved {starved}{flag}"
        )
    for read, write in itertools.product(TARGETS, TARGETS):
        told[f"kyber,read_target={read} write_target={write}"] = f"kyber --read-target {read} --write-target {write}"
    return told


def wrote(words, text):
    """What the program writes over a text, where it ends well."""
    run = subprocess.run([PROGRAM, *words.split()], input=text, capture_output=True, timeout=SECONDS)
    if run.returncode or run.stderr:
        raise Fault(f"{words}: ended with status {run.returncode} and said {run.stderr[:200]!r}")
    return run.stdout


def lines_of(words, text):
    return wrote(words, text).decode("ascii").splitlines()


def told_apart(words, script):
    """The numbers of a row, by the subcommands that tell them one by one."""
    trace = wrote(f"sim --sched {words}", script)
    report = dict(it.split(" ", 1) for it in lines_of("oracle --trace", trace))
    misses = dict(it.split(" ", 1) for it in lines_of("misses", trace))
    head, *rows = (it.split(",") for it in lines_of("spread", trace))
    waits = {it[1]: dict(zip(head, it, strict=True))["p99"] for it in rows if it[0] == "wait"}
    found = {**{it: report[it] for it in WORDS[:5]}, **{it: misses[it] for it in WORDS[5:8]}}
    return [number(it) for it in (*found.values(), waits["R"], waits["W"])]


def wrong_row(script, words, numbers):
    """What is wrong with a row of these numbers."""
    try:
        found = told_apart(words, script)
    except (Fault, OSError, ValueError, KeyError, subprocess.TimeoutExpired) as fault:
        return f"    {words}: {fault}\n"
    return "" if numbers == found else f"    {words}: its row has {numbers}, the others tell {found}\n"


def key_of(by, row):
    """By what a row is better than another: the less the better, and what isn't there is the least."""
    it = dict(zip(WORDS, row, strict=True))
    first = ("avoidable", "shortfall") if by == "misses" else ("shortfall", "avoidable")
    return [(it[word] is not None, it[word] or 0) for word in (*first, "wait_p99_read", "wait_p99_write")]


def is_best(by, row):
    """Whether no schedule is better, by the numbers of a row."""
    it = dict(zip(WORDS, row, strict=True))
    return it["commands"] > 0 and it["avoidable"] == 0 if by == "misses" else it["shortfall"] == 0


def rows_of(lines):
    """The rows of a table by their settings."""
    found = {}
    for line in lines:
        *names, numbers = line.split(",", 2)
        found[",".join(names)] = [number(it) for it in numbers.split(",")]
    return found


def wrong_table(by, script):
    """What is wrong with a table."""
    lines = lines_of(f"tune --by {by}", script)
    rows, told = rows_of(lines[1:-1]), ""
    if lines[0] != HEAD or len(rows) != len(lines) - 2 or set(rows) != set(grid()):
        return "    its head line is another, or its rows are not those of the grid\n"
    # a stable sort of the grid's own order
    if list(rows) != sorted(grid(), key=lambda it: key_of(by, rows[it])):
        told += "    its rows stand in another order\n"
    best = next(iter(rows))
    if lines[-1] != f"best {best.replace(',', ' ')}{BETTER[by] if is_best(by, rows[best]) else ''}":
        told += f"    its last line is {lines[-1]!r}\n"
    if lines_of(f"tune --by {by} --top 3", script) != [*lines[:4], lines[-1]]:
        told += "    with --top 3 it has other lines than its first rows and its last line\n"
    for threads in (1, 2, 4):
        if lines_of(f"tune --by {by} --threads {threads}", script) != lines:
            told += f"    with {threads} threads it is another\n"
    return told


def threads_of(threads, script):
    """How many threads there are at each look, while the script is tried with so many."""
    run = subprocess.Popen([PROGRAM, "tune", "--threads", str(threads)], stdin=subprocess.PIPE, stdout=subprocess.DEVNULL)
    run.stdin.write(script)
    run.stdin.close()
    looks, tasks = [], f"/proc/{run.pid}/task"
    while run.poll() is None:
        with contextlib.suppress(OSError):
            looks.append(len(os.listdir(tasks)))
        time.sleep(0.001)
    return looks


def wrong_threads():
    """What is wrong with how many threads try a script that takes a while, empty where nothing is."""
    bios = "".join(f"bio,0,{i},{'RW'[i % 2]},{i * 997 % 5000 * 16},8\nflush,0,,,,\nrun,1,,,,\n" for i in range(3000))
    script = f"blk-script,1,1,1,1,1\nsetup,0,9,256,128,\n{bios}".encode()
    told = ""
    for threads in (1, 2, 4):
        looks = sorted(look for _ in range(3) for look in threads_of(threads, script))
        # while one comes another that is over may still be seen for a moment; beside other work some are over before the last one comes
        if looks[-1] < threads or looks[len(looks) * 9 // 10] > threads:
            told += f"    with --threads {threads} there were up to {looks[-1]}\n"
    return told


def checks_of(script):
    """What is looked at over a script: each row, and both tables."""
    rows = rows_of(lines_of("tune", script)[1:-1])
    for told, words in grid().items():
        yield words, lambda words=words, told=told: wrong_row(script, words, rows.get(told))
    for by in BETTER:
        yield f"the table by {by}", lambda by=by: wrong_table(by, script)


def looked_at(check):
    """What a check finds wrong."""
    try:
        return check()
    except (Fault, OSError, ValueError, subprocess.TimeoutExpired) as fault:
        return f"    {fault}\n"


def outcomes(names):
    """What is wrong with each check of the scripts of these names, beside what it is of."""
    for name in names:
        try:
            checks = list(checks_of(SCRIPTS[name].read_bytes()))
        except (Fault, OSError, ValueError, subprocess.TimeoutExpired) as fault:
            yield f"script {name}", f"    {fault}\n"
            continue
        for what, told in side_by_side(looked_at, checks):
            yield f"script {name}, {what}", told
    yield "the number of threads", looked_at(wrong_threads)


def main(words):
    """The look as a command; its exit status."""
    if any(it in ("-h", "--help") for it in words):
        print(__doc__, end="")
        return 0
    for word in words:
        if word not in SCRIPTS:
            print(f"tools/tunes.py: {word} is no script of these: {' '.join(SCRIPTS)}", file=sys.stderr)
            return 2
    if not os.access(PROGRAM, os.X_OK):
        print(f"tools/tunes.py: there is no program {PROGRAM.relative_to(TOP)}: ./blk builds it", file=sys.stderr)
        return 3
    return 1 if counted(outcomes(words or SCRIPTS), "{}:\n") else 0


if __name__ == "__main__":
    signal.signal(signal.SIGTERM, ended)
    sys.exit(main(sys.argv[1:]))
