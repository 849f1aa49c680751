#!/usr/bin/env python3
"""Runs the program over the cases and the examples, and compares all that comes of each.

    tools/cases.py                  every case and every example
    tools/cases.py cases            the cases alone
    tools/cases.py examples         the examples alone
    tools/cases.py NAME..           those alone: cases by their names, all of a subcommand by its own, and texts of examples/ by their
                                    file names

A case is a folder cases/SUBCOMMAND/NAME, named by what it shows; those of words that name no subcommand, and of help, are in
cases/words. It has these files, each of which may be missing:

    args      the words, one a line (none)
    stdin     the input (empty)
    stdout    what has to be written (nothing)
    stderr    what has to be said (nothing); at status 2 its first line is compared, since the rest is clap's own
    status    the exit status (0)

In place of stdin or stdout a case may have stdin.gen or stdout.gen, a python3 program that writes that text: for texts
that are long, and for inputs that don't end. In place of stdout or stderr it may have stdout.as or stderr.as, one line
that names the file with that text, seen from the case's folder: for texts that are kept elsewhere. Such a text is
compared whole, at status 2 too. In place of stdin, stdout or stderr it may have stdin.path, stdout.path or stderr.path,
one line that names what stands there instead, seen from the case's folder: a folder can't be read, and a full device
can't be written.

Prints a difference as one, and as the last line 'N passed, M failed'. Ends with 0 where none failed, 1 where one did, 2
where a word names no case, and 3 where the program isn't there.
"""
import concurrent.futures
import difflib
import os
import signal
import subprocess
import sys
from pathlib import Path

sys.dont_write_bytecode = True
TOP = Path(__file__).resolve().parent.parent
PROGRAM = TOP / "crates" / "blk" / "out" / "blk"
SECONDS = 120
SHOWN = 40
COMMAND_LINE = 2
STREAMS = ("stdin", "stdout", "stderr")
MADE = {"stdin.gen", "stdout.gen", "stdout.as", "stderr.as"}
FILES = {"args", "status", *STREAMS, *(f"{it}.path" for it in STREAMS), *MADE}


class Fault(Exception):
    """Why a case can't be run or failed."""


class Case:
    """A case: its words, its input, and what has to come of it.

    `stdin` is a file or None for an empty input, `generator` a program that writes it, and `places` what stands in
    place of a stream. What has to come is made when it is asked for, since it may be long. `is_whole` tells whether all
    that is said is compared, at status 2 too.
    """

    def __init__(self, name, folder, args, stdin=None):
        self.name = name
        self.folder = folder
        self.args = args
        self.stdin = stdin
        self.generator = None
        self.places = {}
        self.wanted = {"stdout": None, "stderr": None}
        self.status = 0
        self.is_whole = False

    def bytes_wanted(self, stream):
        """What has to be written to that stream."""
        file = self.wanted[stream]
        if file is None:
            return b""
        if isinstance(file, bytes):
            return file
        if file.suffix != ".gen":
            return file.read_bytes()
        made = subprocess.run([sys.executable, "-I", file], stdin=subprocess.DEVNULL, capture_output=True, timeout=SECONDS)
        if made.returncode:
            raise Fault(f"{file.name} ended with status {made.returncode}: {shown(made.stderr[-400:])}")
        return made.stdout

    def records(self):
        """How many lines the input has, or None where a program writes it or it is no plain file."""
        if self.generator or "stdin" in self.places:
            return None
        return self.stdin.read_bytes().count(b"\n") if self.stdin else 0


def read_case(folder):
    """The case of a folder; a Fault where the folder isn't one."""
    found = {it.name for it in folder.iterdir()}
    if found - FILES:
        raise Fault(f"no file of a case: {', '.join(sorted(found - FILES))}")
    for stream in STREAMS:
        several = sorted(it for it in found if it.split(".")[0] == stream)
        if len(several) > 1:
            raise Fault(f"{' and '.join(several)} stand for one stream")
    words = (folder / "args").read_bytes() if "args" in found else b""
    # the last line has an end, so that a line without words is an empty word
    case = Case(folder.name, folder, words.split(b"\n")[:-1])
    if words and not words.endswith(b"\n"):
        raise Fault("the last line of args has no end")
    case.stdin = folder / "stdin" if "stdin" in found else None
    case.generator = folder / "stdin.gen" if "stdin.gen" in found else None
    for stream in STREAMS:
        if f"{stream}.path" in found:
            case.places[stream] = folder / (folder / f"{stream}.path").read_text().rstrip("\n")
    for stream in ("stdout", "stderr"):
        for file in (stream, f"{stream}.gen"):
            if file in found:
                case.wanted[stream] = folder / file
        if f"{stream}.as" in found:
            case.wanted[stream] = folder / (folder / f"{stream}.as").read_text().rstrip("\n")
    case.is_whole = "stderr.as" in found
    if "status" in found:
        try:
            case.status = int((folder / "status").read_text())
        except ValueError:
            raise Fault("status holds no number") from None
    return case


def case_folders(top=TOP):
    """The folders of the cases, by the cases' names: no two subcommands have a case of one name."""
    folders = {}
    for folder in sorted(it for it in (top / "cases").glob("*/*") if it.is_dir()):
        if folder.name in folders:
            raise Fault(f"{folder} and {folders[folder.name]} have one name")
        folders[folder.name] = folder
    return folders


def read_cases(top=TOP):
    """Every case of the repository, by name; in place of a case a Fault where its folder isn't one."""
    cases = {}
    for name, folder in case_folders(top).items():
        try:
            cases[name] = read_case(folder)
        except Fault as fault:
            cases[name] = fault
    return cases


# A text of examples/ by its ending: the word it is for, and the endings of what comes of it at the statuses 0 and 1.
EXAMPLES = {
    ".script": ("sim", ".trace", ".fault"),
    ".commands": ("oracle", ".certificate", ".fault"),
    ".certificate": ("check", ".verdict", ".fault"),
}


def read_examples(top=TOP):
    """Every text of examples/ as a case, by its file's name; a Fault in place of one that stands beside nothing."""
    cases, answers = {}, set()
    folder = top / "examples"
    for file in sorted(folder.iterdir()):
        if file.suffix not in EXAMPLES:
            continue
        word, good, refused = EXAMPLES[file.suffix]
        case = Case(file.name, folder, [word.encode()], file)
        output, line = file.with_suffix(good), file.with_suffix(refused)
        if output.exists() == line.exists():
            cases[file.name] = Fault(f"needs {output.name} or {line.name} beside it")
            continue
        case.status = int(line.exists())
        case.wanted["stderr" if case.status else "stdout"] = line if case.status else output
        answers.add(line if case.status else output)
        cases[file.name] = case
    endings = {it for _, *answer in EXAMPLES.values() for it in answer}
    for file in sorted(folder.iterdir()):
        if file.suffix in endings and file not in answers and file.name not in cases:
            cases[file.name] = Fault("stands beside no text that it comes of")
    return cases


def shown(text):
    """Bytes as text for a person."""
    return text.decode(errors="backslashreplace")


def difference(stream, wanted, got):
    """What differs, as a diff of at most SHOWN lines."""
    split = lambda it: shown(it).splitlines(keepends=True)
    lines = difflib.unified_diff(split(wanted)[:20000], split(got)[:20000], f"{stream} wanted", f"{stream} written", n=1)
    told = []
    for line in lines:
        ended = line if line.endswith("\n") else f"{line}\n\\ no line feed at the end\n"
        told.append(f"    {ended}"[:400].rstrip("\n") + "\n")
        if len(told) > SHOWN:
            told.append("    ..\n")
            break
    return "".join(told) or f"    {stream}: {len(wanted)} bytes wanted, {len(got)} written\n"


def opened(case, stack_of_files, stream, mode):
    """The file that stands in place of a stream, or None."""
    if stream not in case.places:
        return None
    # a folder can be opened for reading, by its number alone
    flags = os.O_RDONLY if mode == "r" else os.O_WRONLY
    file = os.open(case.places[stream], flags)
    stack_of_files.append(file)
    return file


def run(program, case, extra=None, seconds=SECONDS):
    """Runs the program over a case, with these variables beside its own: the status, the output and what it said."""
    files, generator = [], None
    try:
        given = opened(case, files, "stdin", "r")
        if given is None and case.generator:
            generator = subprocess.Popen(
                [sys.executable, "-I", case.generator],
                stdin=subprocess.DEVNULL,
                stdout=subprocess.PIPE,
                stderr=subprocess.DEVNULL,
            )
            given = generator.stdout
        if given is None:
            given = os.open(case.stdin or os.devnull, os.O_RDONLY)
            files.append(given)
        out = opened(case, files, "stdout", "w")
        said = opened(case, files, "stderr", "w")
        started = subprocess.Popen(
            [os.fsencode(program), *case.args],
            stdin=given,
            stdout=subprocess.PIPE if out is None else out,
            stderr=subprocess.PIPE if said is None else said,
            cwd=case.folder,
            env={**os.environ, **(extra or {})},
        )
        if generator:
            # so that the generator is told when the program ends
            generator.stdout.close()
        try:
            wrote, complained = started.communicate(timeout=seconds)
        except subprocess.TimeoutExpired:
            started.kill()
            started.communicate()
            raise Fault(f"had not ended after {seconds} seconds") from None
        return started.returncode, wrote or b"", complained or b""
    except OSError as error:
        raise Fault(f"can't be run: {error}") from None
    finally:
        for it in files:
            os.close(it)
        if generator:
            generator.kill()
            generator.wait()


def judge(program, case):
    """What is wrong with the outcome of a case, empty where nothing is."""
    if isinstance(case, Fault):
        return f"    {case}\n"
    try:
        status, wrote, said = run(program, case)
        wanted, line = case.bytes_wanted("stdout"), case.bytes_wanted("stderr")
    except (Fault, OSError, subprocess.TimeoutExpired) as fault:
        return f"    {fault}\n"
    told = ""
    if status != case.status:
        how = f"was ended by {signal.Signals(-status).name}" if status < 0 else f"ended with status {status}"
        told += f"    {how}, and not with status {case.status}\n"
    if wrote != wanted:
        told += difference("stdout", wanted, wrote)
    if case.status == COMMAND_LINE and not case.is_whole:
        said = said.splitlines(keepends=True)[:1]
        said = said[0] if said else b""
    if said != line:
        told += difference("stderr", line, said)
    return told


def processors():
    """How many runs at once are right for this machine."""
    return max(len(os.sched_getaffinity(0)), 1)


def side_by_side(work, cases):
    """Yields each case's name and what work gives for it, in their order; works on as many at once as there are processors."""
    with concurrent.futures.ThreadPoolExecutor(processors()) as pool:
        try:
            for name, outcome in [(name, pool.submit(work, case)) for name, case in cases]:
                yield name, outcome.result()
        finally:
            # where this is ended, what hasn't begun never does
            pool.shutdown(wait=False, cancel_futures=True)


def counted(outcomes, heading):
    """Says what is wrong with each case that failed, under a heading that names it, and how many passed and failed.

    Outcomes are pairs of a name and what is wrong, empty where nothing is. Gives how many failed.
    """
    passed = failed = 0
    for name, told in outcomes:
        if told:
            failed += 1
            print(f"{heading.format(name)}{told}", end="", flush=True)
        else:
            passed += 1
    print(f"{passed} passed, {failed} failed", flush=True)
    return failed


def run_all(program, cases):
    """Runs cases side by side, says what is wrong with each that fails, and how many passed and failed."""
    return counted(side_by_side(lambda it: judge(program, it), cases), "case {}:\n")


def ended(number, _):
    """Ends this command as a signal does that it was sent, after what it left to do."""
    sys.exit(128 + number)


def chosen(words):
    """The cases that the words name, as pairs of a name and a case; a Fault where one names none."""
    known, folders = read_cases(), case_folders()
    cases = {f"cases/{folders[name].parent.name}/{name}": case for name, case in known.items()}
    examples = {f"examples/{name}": case for name, case in read_examples().items()}
    both = {**cases, **examples}
    if not words:
        return list(both.items())
    picked = {}
    for word in words:
        parts = Path(word).parts
        found = {it: case for it, case in both.items() if parts and is_named(Path(it).parts, parts)}
        if not found:
            raise Fault(f"{word} is no case and no example: give cases, examples, a subcommand, or names of cases/ or examples/")
        picked.update(found)
    return list(picked.items())


def is_named(path, parts):
    """Whether the parts of a word name a case or an example by its path: from any folder of it on, to any of its folders or its end."""
    return any(path[at : at + len(parts)] == parts for at in range(len(path)))


def main(words):
    """The runner as a command; its exit status."""
    if any(it in ("-h", "--help") for it in words):
        print(__doc__, end="")
        return 0
    try:
        picked = chosen(words)
    except Fault as fault:
        print(f"tools/cases.py: {fault}", file=sys.stderr)
        return 2
    if not os.access(PROGRAM, os.X_OK):
        print(f"tools/cases.py: there is no program {PROGRAM.relative_to(TOP)}: ./blk builds it", file=sys.stderr)
        return 3
    return 1 if run_all(PROGRAM, picked) else 0


if __name__ == "__main__":
    signal.signal(signal.SIGTERM, ended)
    sys.exit(main(sys.argv[1:]))
