#!/usr/bin/env python3
"""Plants wrong bodies that no clause refuses, and looks that the tests fail over each that have to.

    tools/planted.py            every edit of a planted/
    tools/planted.py NAME..     those alone, by their names without .edit, or by the crates that they stand in

An edit is a file crates/CRATE/planted/NAME.edit with these lines, beside others that say what it does:

    crate: NAME     the crate that it changes
    file: PATH      the file, seen from that crate's folder
    old: TEXT       text that stands there once
    new: TEXT       what takes its place
    fails: TEST..   the tests of the crate in whose folder it stands that have to fail
    loads: NAME..   in place of fails, the loads of tools/loads.py that have to fail: for what only the program shows

The tests and the program run as Rattle's own compiler builds them, without a proof, on copies of the repository: as many edits at once as there are
processors, each with three gigabytes of free memory. Prints a line for each edit, and as the last line 'N passed, M failed'. Ends with 0 where none failed, 1 where one did, 2 where a word names none, and 3 where rt isn't there.
"""
import argparse
import os
import queue
import re
import shutil
import signal
import subprocess
import sys
import tempfile
from concurrent import futures
from pathlib import Path

sys.dont_write_bytecode = True
from cases import SECONDS, TOP, Fault, ended
import loads
from unproved import TOOL


def read_edit(path):
    """The lines of an edit, by the word before their colon."""
    lines = re.findall(r"(?m)^(crate|file|old|new|fails|loads): (.*)$", path.read_text(encoding="utf-8"))
    edit = dict(lines)
    if len(lines) != 5 or len(edit) != 5 or not edit.keys() >= {"crate", "file", "old", "new"}:
        raise Fault("it wants each of crate, file, old and new once, and fails or loads")
    return edit


def plant(top, edit):
    """Changes the file below a copy of the repository; gives the path and what stood there."""
    path = top / "crates" / edit["crate"] / edit["file"]
    was = path.read_text(encoding="utf-8")
    if was.count(edit["old"]) != 1:
        raise Fault(f"its old text stands {was.count(edit['old'])} times in {edit['file']}")
    path.write_text(was.replace(edit["old"], edit["new"]), encoding="utf-8")
    return path, was


def failed_tests(folder):
    """The tests of a crate that fail, and those that pass; of several of one name, any that fails."""
    words = ["rt", "try", "--test", "--seconds", str(SECONDS)]
    ran = subprocess.run(words, cwd=folder, stdin=subprocess.DEVNULL, capture_output=True, text=True, check=False)
    told = re.findall(r"(?m)^test (?:\S+::)?(\w+) \.\.\. (ok|FAILED)$", ran.stdout)
    if not told:
        raise Fault(f"no test ran: {(ran.stdout + ran.stderr).strip().splitlines()[-1:]}")
    failed = {it for it, how in told if how == "FAILED"}
    return failed, {it for it, _ in told} - failed


def failed_loads(top, names):
    """The loads of these names whose traces, or whose times, aren't what they have to be, and those that are."""
    good = set()
    for name in names:
        if name not in loads.LOADS:
            continue
        # what only the time shows is asked for the time
        asked, timed = loads.Asked(loads.LOADS[name]), name in loads.ALL_WORKERS
        words = ["rt", "try", "--seconds", str(SECONDS - 10), "--", "load", "--times" if timed else "--trace", *loads.LOADS[name].split()]
        ran = subprocess.run(words, cwd=top / "crates" / "blk", stdin=subprocess.DEVNULL, capture_output=True, check=False)
        tool = TOOL.search(ran.stderr)
        if not tool:
            raise Fault(f"the program could not be compiled: {ran.stderr.decode(errors='replace').strip().splitlines()[-1:]}")
        if tool[1] != b"ended" or tool[2] != b"0":
            continue
        if timed:
            # many workers take less than as many as there are submitters would need
            took = loads.TIMES.search(ran.stderr.decode(errors="replace"))
            if took and float(took[2]) <= asked.bios * asked.service / 1000:
                good.add(name)
            continue
        try:
            loads.look_at(asked, ran.stdout, name)
            good.add(name)
        except (loads.Fault, ValueError, KeyError, IndexError):
            pass
    return {it for it in names if it in loads.LOADS} - good, good


def judge(top, path):
    """What is wrong with what the tests make of an edit, empty where nothing is."""
    edit = read_edit(path)
    changed, was = plant(top, edit)
    try:
        if "loads" in edit:
            failed, passed = failed_loads(top, edit["loads"].split())
        else:
            failed, passed = failed_tests(top / path.parent.parent.relative_to(TOP))
    finally:
        changed.write_text(was, encoding="utf-8")
    wanted = set(edit.get("fails", edit.get("loads")).split())
    if unknown := wanted - failed - passed:
        return f"there is no test or load {', '.join(sorted(unknown))}"
    if kept := wanted - failed:
        return f"{', '.join(sorted(kept))} passed over it"
    return ""


def chosen(words):
    """The edits that the words name, or all."""
    every = sorted(TOP.glob("crates/*/planted/*.edit"))
    picked = []
    for word in words:
        found = [it for it in every if word in (it.stem, it.parent.parent.name)]
        if not found:
            raise Fault(f"{word} names no edit of a planted/")
        picked += found
    return picked if words else every


def at_once():
    """How many edits are tried at once: a processor and three gigabytes of free memory for each."""
    free = re.search(r"(?m)^MemAvailable: +(\d+)", Path("/proc/meminfo").read_text(encoding="ascii"))
    return max(1, min(os.cpu_count() or 1, int(free[1]) // 3_000_000 if free else 1))


def copied(top):
    """A copy of the repository's crates there."""
    shutil.copytree(TOP / "crates", top / "crates", ignore=shutil.ignore_patterns("out"))
    for name in ("crates.txt", "HANDLES"):
        shutil.copyfile(TOP / name, top / name)
    return top


def plant_all(picked):
    """Plants edits, says what came of each, in their order, and how many passed and failed."""
    failed = 0
    with tempfile.TemporaryDirectory(prefix="blk-planted-") as scratch:
        tops = queue.SimpleQueue()
        lanes = min(at_once(), len(picked) or 1)
        for lane in range(lanes):
            tops.put(copied(Path(scratch) / f"copy{lane}"))

        def told(path):
            top = tops.get()
            try:
                return judge(top, path)
            except Fault as fault:
                return str(fault)
            finally:
                tops.put(top)

        with futures.ThreadPoolExecutor(lanes) as pool:
            for path, said in zip(picked, pool.map(told, picked)):
                failed += said != ""
                print(f"planted {path.stem}: {said or 'the tests fail over it, as they must'}", flush=True)
    print(f"{len(picked) - failed} passed, {failed} failed", flush=True)
    return failed


def main():
    """The command; its exit status."""
    parser = argparse.ArgumentParser("planted", description=__doc__, formatter_class=argparse.RawDescriptionHelpFormatter)
    parser.add_argument("names", nargs="*", metavar="NAME")
    try:
        picked = chosen(parser.parse_args().names)
    except Fault as fault:
        parser.error(str(fault))
    if not shutil.which("rt"):
        parser.exit(3, "planted: rt is not on the path\n")
    return 1 if plant_all(picked) else 0


if __name__ == "__main__":
    signal.signal(signal.SIGTERM, ended)
    sys.exit(main())
