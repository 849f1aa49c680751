#!/usr/bin/env python3
"""Runs the program as it is compiled without a proof, by rt try, and ends as it does: for `./blk --unproved WORDS..`.

    tools/unproved.py WORDS..

Nothing is kept, so nothing of it is ever taken for proved. What the program writes comes once it has ended. Ends with
status 3 and a line where rt fails, where the program stops at what a proof rules out, or at a limit: 60 seconds, 1 MiB
of output on each stream, 64 MiB of input. The program has no environment and sees no files.
"""
import os
import re
import signal
import subprocess
import sys
import tempfile
import threading
import time
from pathlib import Path

sys.dont_write_bytecode = True
import words as command_line

CRATE = Path(__file__).resolve().parent.parent / "crates" / "blk"
SECONDS, MOST_INPUT = 60, 64 << 20
SHOWN = 40
# Seconds between two lines that say how long it has been at it, and at a terminal, where there is one line.
EVERY, LOOK = 30, 1
# The last lines of rt try, after all that the program said.
TOOL = re.compile(rb"(?:(?:interpreter|checked|races): .*\n)*run=(\w[\w-]*)(?: status=(\d+))?.* proved=no\n\Z")


class Fault(Exception):
    """Why the program's own end isn't known."""


def say(what):
    print(f"blk: {what}", file=sys.stderr, flush=True)


class Watch:
    """Says how long the run has taken, until it is over: at a terminal in one line, which is cleared at the end."""

    def __init__(self):
        self.is_terminal, self.over = sys.stderr.isatty(), threading.Event()
        self.began = time.monotonic()
        self.line = threading.Thread(target=self.tell, daemon=True)
        self.line.start()

    def tell(self):
        while not self.over.wait(LOOK if self.is_terminal else EVERY):
            minutes, seconds = divmod(int(time.monotonic() - self.began), 60)
            start, end = ("\r", "") if self.is_terminal else ("", "\n")
            print(f"{start}blk: compiling and running, {minutes} min {seconds:2} s", end=end, file=sys.stderr, flush=True)

    def stop(self):
        self.over.set()
        self.line.join()
        if self.is_terminal:
            print("\r\x1b[K", end="", file=sys.stderr, flush=True)


def reads_input(words):
    """Whether the program reads standard input for these words, by the table of docs/FORMATS.md."""
    try:
        command = command_line.read_table().get(words[0]) if words else None
    except command_line.Fault:
        return True
    return command is not None and any(reads != "nothing" for reads, _ in command.flows.values())


def given_input():
    """Standard input, to its end, as a file: rt itself stops reading where nothing comes for two seconds."""
    file, size = tempfile.TemporaryFile(), 0
    while more := os.read(0, 1 << 20):
        size += len(more)
        if size >= MOST_INPUT:
            raise Fault("standard input has 64 MiB or more, which is too much without a proof")
        file.write(more)
    file.seek(0)
    return file


def run(words):
    """What rt try said, once it has ended; a signal ends it too."""
    how = {"cwd": CRATE, "stderr": subprocess.PIPE, "env": {**os.environ, "RT_SECONDS": str(SECONDS)}}
    how["stdin"] = given_input() if reads_input(words) else subprocess.DEVNULL
    started = subprocess.Popen(["rt", "try", "--", *words], **how)

    def ended(number, _):
        started.terminate()
        started.wait()
        signal.signal(number, signal.SIG_DFL)
        os.kill(os.getpid(), number)

    for it in (signal.SIGHUP, signal.SIGINT, signal.SIGTERM):
        signal.signal(it, ended)
    watch = Watch()
    said = started.stderr.read()
    started.wait()
    watch.stop()
    return said


def show(said):
    """Passes on what was said."""
    sys.stderr.buffer.write(said)
    sys.stderr.buffer.flush()


def outcome(said):
    """Passes on what the program said; its exit status, or why there is none."""
    tool = TOOL.search(said)
    how, lines = (tool[1], tool[0].decode(errors="replace")) if tool else (b"none", "")
    if how == b"ended":
        # clap names the file that it runs as
        show(said[: tool.start()].replace(b"\nUsage: program", b"\nUsage: blk"))
        return int(tool[2])
    why = re.search(r"checked: (?:no-answer: |fault )(.*)", lines)
    if how == b"no-answer" and why:
        raise Fault(f"a limit of runs without a proof: {why[1]}")
    if how == b"fault" and why:
        show(said[: tool.start()])
        raise Fault(f"the program stopped at what a proof rules out: {why[1]}")
    show(b"".join(said.splitlines(keepends=True)[-SHOWN:]))
    raise Fault("the program could not be compiled; above stands the end of what rt said")


def main(words):
    """The run as a command; its exit status."""
    signal.signal(signal.SIGINT, signal.SIG_DFL)
    say(
        "nothing of this run is proved: the program is only compiled, which takes two to seven minutes,"
        f" and has {SECONDS} seconds and 1 MiB of output"
    )
    try:
        return outcome(run(words))
    except (Fault, OSError) as fault:
        say(fault)
        return 3


if __name__ == "__main__":
    sys.exit(main(sys.argv[1:]))
