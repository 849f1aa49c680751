"""What bench/memory and bench/calls share: runs of the program over the short cases, each with a C library loaded before the
C library's, which spoils something of the run."""
import os
import subprocess
import sys
import tempfile
from pathlib import Path

sys.dont_write_bytecode = True
TOP = Path(__file__).resolve().parent.parent
sys.path.insert(0, str(TOP / "tools"))

import cases  # noqa: E402 (it stands in a folder beside this one)

RECORDS = 20
SECONDS = 180


class Nothing(Exception):
    """Why nothing was tried, and the exit status that says so."""

    def __init__(self, status, why):
        super().__init__(why)
        self.status = status


def run(library, case, **variables):
    """How a run of the case ends with the library before the C library's and these variables set."""
    return cases.run(cases.PROGRAM, case, {"LD_PRELOAD": library, **variables}, SECONDS)


def counted(library, case, **variables):
    """The numbers that the library says at the end of a run of the case."""
    _, _, said = run(library, case, COUNT="1", **variables)
    last = said.split(b"\n")[-2:-1]
    if not last or not all(it.isdigit() for it in last[0].split()):
        raise cases.Fault("ended without saying what was counted")
    return [int(it) for it in last[0].split()]


def is_load(case):
    """Whether the case starts threads."""
    return case.args[:1] == [b"load"]


def accepted(case):
    """How many bios a load accepts by what it has to print; 0 where the case is no load that ends with status 0."""
    words = case.bytes_wanted("stdout").split(None, 2) if is_load(case) else []
    return int(words[1]) if words[:1] == [b"accepted"] else 0


def is_short(case):
    """Whether the case is one that is spoiled in every way: at most 20 records, or a load of as many bios."""
    if isinstance(case, cases.Fault) or case.places:
        return False
    records = case.records()
    return records is not None and max(records, accepted(case)) <= RECORDS


def chosen(words):
    """The short ones of the cases that the words name, where all is at hand to try them."""
    try:
        picked = [(name, case) for name, case in cases.chosen(words) if is_short(case)]
    except cases.Fault as fault:
        raise Nothing(2, str(fault)) from None
    if not os.access(cases.PROGRAM, os.X_OK):
        raise Nothing(3, f"there is no program {cases.PROGRAM.relative_to(TOP)}: ./blk builds it")
    return picked


def compiler():
    """The toolchain's clang: it stands in the folder whose first page `rt doc` prints."""
    try:
        told = subprocess.run(["rt", "doc"], stdin=subprocess.DEVNULL, capture_output=True)
    except OSError:
        raise Nothing(3, "rt is not on the path, and its clang has to make the library that spoils a run") from None
    clang = Path(cases.shown(told.stdout).strip()).parent / "toolchain" / "bin" / "clang"
    if not os.access(clang, os.X_OK):
        raise Nothing(3, f"the toolchain has no {clang}")
    return clang


def make(source, library):
    """Makes the library. What it calls is the program's own C library, so none is linked."""
    words = [compiler(), "-shared", "-fPIC", "-O1", "-nostdlib", "-fuse-ld=lld", "-o", library, TOP / "bench" / source]
    made = subprocess.run(words, stdin=subprocess.DEVNULL, capture_output=True)
    if made.returncode:
        raise Nothing(3, f"clang fails: {cases.shown(made.stderr[-400:])}")


def spoil(name, source, work, picked, always):
    """Runs `work`, which answers what went wrong and some sums, over the picked cases with the library of that source, and says
    of each what went wrong. The cases of the names `always` have to be among them. Answers how many passed and failed, and the sums."""
    failed, sums = 0, None
    with tempfile.TemporaryDirectory() as room:
        library = f"{room}/spoil.so"
        make(source, library)
        for it, (told, *of_case) in cases.side_by_side(lambda case: work(library, case), picked):
            sums = [a + b for a, b in zip(sums, of_case)] if sums else of_case
            if told:
                failed += 1
                print(f"{name} {it}:\n{told}", end="", flush=True)
    missing = sorted(set(always) - {it.rsplit("/", 1)[-1] for it, _ in picked})
    for it in missing:
        print(f"{name} {it}:\n    is not among the cases that were tried")
    return len(picked) - failed, failed + len(missing), sums


def main(name, about, trial, words):
    """A trial as a command; its exit status."""
    if any(it in ("-h", "--help") for it in words):
        print(about, end="")
        return 0
    try:
        failed = trial(words)
    except Nothing as why:
        print(f"bench/{name}: {why}", file=sys.stderr)
        return why.status
    return 1 if failed else 0
