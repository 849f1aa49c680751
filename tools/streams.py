#!/usr/bin/env python3
"""Runs the program over standard streams as people have them: closed, full, broken, slow, terminals, pipes that don't wait, and
texts without end under a limit of memory.

    tools/streams.py            all trials
    tools/streams.py WORD..     those in whose names one of the words stands
    tools/streams.py --list     their names

What has to come of each trial is what docs/FORMATS.md says: an input that can't be read ends with `blk: read fault`, an output
that can't be written with `blk: write fault`, both at status 3; a record that memory can't hold with `blk: want of memory`; where
the line can't be written the status stays; and however slow the streams are, nothing else changes. No run may be ended by a
signal or last longer than a minute. The texts are those of cases/.

Prints what went wrong, and as the last line 'N passed, M failed', counted in runs. Ends with 0 where none failed, 1 where one
did, 2 where a word is in no name, and 3 where the program isn't there.
"""
import contextlib
import os
import pty
import re
import signal
import socket
import sys
import tempfile
import termios
import threading
import time

sys.dont_write_bytecode = True

import cases  # noqa: E402 (it stands beside this file)
import words as command_line  # noqa: E402

LAUNCHER = cases.TOP / "blk"
SECONDS = 60
# Kilobytes of address space: what a record without end soon fills, what a long text and some threads have enough of, and the step
# from limit to limit.
LIMIT = 16_000
PLENTY = 14_000
STEP = 512
PIECE = 1 << 16
READ = b"blk: read fault\n"
WRITE = b"blk: write fault\n"
MEMORY = b"blk: want of memory\n"

# A case of each subcommand that reads a text and writes one.
GOOD = [
    "sim_write_before_read",
    "deadline_write_before_read",
    "kyber_write_before_read",
    "compare_write_before_read",
    "tune_none_and_earliest",
    "migrate_write_before_read",
    "oracle_three_at_once",
    "oracle_met_two_of_three",
    "check_three_at_once",
    "check_met_two_of_three",
    "report_write_before_read",
    "listed_write_before_read",
    "spread_write_before_read",
    "late_write_before_read",
    "misses_write_before_read",
    "report_write_before_read_json",
    "compare_write_before_read_json",
    "spread_write_before_read_json",
    "tune_none_and_earliest_json",
    "import_one_request",
    "picture_schedule",
    "explain_script",
]

# Cases of what each recorder prints, which write and have a line to say at status 0.
PRINTED = ["import_blkparse", "import_blkparse_rows", "import_ftrace", "import_ftrace_classic", "import_perf", "import_bpftrace"]

# Cases that write to standard output and read nothing.
UNREAD = ["load_of_four_bios", "words_version"]

# Cases that have a line to say, by their statuses.
REFUSED = ["migrate_cut_short", "step_tag_used_twice", "oracle_repeated_id", "check_over_depth", "words_met_beside_trace"]

KEPT = object()


class Run:
    """A run of the program: its status, and what is kept of its two outputs."""

    def __init__(self, status, wrote=b"", said=b""):
        self.status = status
        self.wrote = wrote
        self.said = said

    def __eq__(self, other):
        return (self.status, self.wrote, self.said) == (other.status, other.wrote, other.said)

    def __str__(self):
        if self.status is None:
            return f"had not ended after {SECONDS} seconds"
        ended = f"status {self.status}" if self.status >= 0 else signal.Signals(-self.status).name
        return f"{ended}, {len(self.wrote)} bytes written {cases.shown(self.wrote[:60])!r}, said {cases.shown(self.said[:100])!r}"


def start(words, files, program=cases.PROGRAM, ignored=False, limit=None):
    """Starts the program, or what starts it, with these three files, None being a closed one, and answers its number. The signals
    that a broken pipe and a file that is too long send are as they mostly are, or ignored; `limit` is what the shell's ulimit takes."""
    words = [os.fsencode(program), *words]
    if limit:
        words = [b"/bin/sh", b"-c", f'ulimit {limit} && exec "$@"'.encode(), b"sh", *words]
    actions = [(os.POSIX_SPAWN_CLOSE, at) if it is None else (os.POSIX_SPAWN_DUP2, it, at) for at, it in enumerate(files)]
    default = [] if ignored else [signal.SIGPIPE, signal.SIGXFSZ]
    return os.posix_spawn(words[0], words, os.environ, file_actions=actions, setsigdef=default)


def wait(number):
    """The status of what was started, once it has ended: less than 0 where a signal ended it, and None where it didn't end."""
    ends = time.monotonic() + SECONDS
    pause = 0.0005
    while time.monotonic() < ends:
        ended, status = os.waitpid(number, os.WNOHANG)
        if ended:
            return os.waitstatus_to_exitcode(status)
        time.sleep(pause)
        pause = min(pause * 1.5, 0.05)
    os.kill(number, signal.SIGKILL)
    os.waitpid(number, 0)
    return None


def run(words, stdin, stdout=KEPT, stderr=KEPT, **how):
    """Runs the program with these three files, None being a closed one and KEPT one that is read afterwards."""
    with contextlib.ExitStack() as stack:
        files = [stdin, stdout, stderr]
        kept = {}
        for at, it in enumerate(files):
            if it is KEPT:
                kept[at] = stack.enter_context(tempfile.TemporaryFile())
                files[at] = kept[at].fileno()
        status = wait(start(words, files, **how))
        read = {at: (file.seek(0), file.read())[1] for at, file in kept.items()}
    return Run(status, read.get(1, b""), read.get(2, b""))


def plainly(words, text, **how):
    """How a run over a file with this text ends."""
    with contextlib.ExitStack() as stack:
        return run(words.split(), stored(stack, text), **how)


TRIALS = []


def trial(function):
    """Lists a function as one of the trials, under its name."""
    TRIALS.append(function)
    return function


class Trials:
    """What the trials share: the cases, and what went wrong."""

    def __init__(self):
        self.cases = cases.read_cases()
        self.passed = 0
        self.failed = 0
        self.name = ""

    def see(self, what, got, wanted):
        """Counts a run, and says what came of it where that isn't what had to."""
        if got == wanted:
            self.passed += 1
            return
        self.failed += 1
        print(f"{self.name}, {what}:\n    {got}\n    and not {wanted}", flush=True)

    def each(self, names):
        """The words, the text and what has to come of the cases of these names."""
        for name in names:
            case = self.cases[name]
            text = case.stdin.read_bytes() if case.stdin else b""
            yield name, case.args, text, Run(case.status, case.bytes_wanted("stdout"), case.bytes_wanted("stderr"))

    def unread(self, make):
        """Each subcommand over an input that can't be read, which `make` opens of a text."""
        for name, args, text, _ in self.each([*GOOD, *PRINTED]):
            with contextlib.ExitStack() as stack:
                self.see(name, run(args, make(stack, text)), Run(3, b"", READ))
        for name, args, _, wanted in self.each(UNREAD):
            with contextlib.ExitStack() as stack:
                self.see(name, run(args, make(stack, b"")), wanted)

    def read(self, make):
        """Each subcommand over an input that can be read."""
        for name, args, text, wanted in self.each([*GOOD, *PRINTED, *REFUSED]):
            with contextlib.ExitStack() as stack:
                self.see(name, run(args, make(stack, text)), wanted)

    def unwritten(self, make, **how):
        """Each subcommand over an output that can't be written, which `make` opens."""
        for name, args, text, _ in self.each([*GOOD, *PRINTED, *UNREAD]):
            with contextlib.ExitStack() as stack:
                self.see(name, run(args, piped(stack, text), make(stack), **how), Run(3, b"", WRITE))

    def unsaid(self, make, **how):
        """Each refusal where standard error can't be written."""
        for name, args, text, wanted in self.each(REFUSED):
            with contextlib.ExitStack() as stack:
                self.see(name, run(args, piped(stack, text), KEPT, make(stack), **how), Run(wanted.status))
        for name, args, _, _ in self.each(GOOD):
            with contextlib.ExitStack() as stack:
                self.see(f"{name} unread", run(args, None, KEPT, make(stack), **how), Run(3))


# --- files that stand in place of a stream; each is closed with the stack ---


def closing(stack, *files):
    """The first of these files, all of which are closed with the stack."""
    for it in files:
        stack.callback(os.close, it)
    return files[0]


def opened(stack, path, flags):
    return closing(stack, os.open(path, flags))


def stored(stack, text, flags=os.O_RDONLY):
    """A file that holds the text, opened so."""
    room = stack.enter_context(tempfile.NamedTemporaryFile())
    room.write(text)
    room.flush()
    return opened(stack, room.name, flags)


def begun(stack, text):
    """A file that was read up to where the text begins."""
    file = stored(stack, b"bytes that another has read\n" + text)
    os.lseek(file, -len(text), os.SEEK_END)
    return file


def piped(stack, text, flags=0):
    """A pipe that has the text, and whose writer is gone."""
    reader, writer = os.pipe2(flags | os.O_CLOEXEC)
    os.write(writer, text)
    os.close(writer)
    return closing(stack, reader)


def fed(stack, chunks, flags=0):
    """A pipe into which a thread writes these one by one, as long as it is read."""
    reader, writer = os.pipe2(flags | os.O_CLOEXEC)

    def feed():
        with contextlib.suppress(BrokenPipeError):
            for it in chunks:
                os.write(writer, it)
        os.close(writer)

    feeder = threading.Thread(target=feed)
    feeder.start()
    stack.callback(feeder.join)
    return closing(stack, reader)


def by_byte(stack, text):
    """A pipe that gives a byte at each read: a pipe of packets, each of one byte."""
    return fed(stack, [text[at : at + 1] for at in range(len(text))], os.O_DIRECT)


def unready(stack, text):
    """A pipe that doesn't wait, has the text, and whose writer is still there."""
    reader, writer = os.pipe2(os.O_NONBLOCK | os.O_CLOEXEC)
    os.write(writer, text)
    return closing(stack, reader, writer)


def reset(stack, _):
    """A socket whose other end left without reading what it was sent."""
    ours, theirs = socket.socketpair()
    ours.send(b"unread")
    theirs.close()
    return closing(stack, ours.detach())


def broken(stack):
    """A pipe whose reader is gone."""
    reader, writer = os.pipe()
    os.close(reader)
    return closing(stack, writer)


def hung_up(stack):
    """A socket whose other end is gone."""
    ours, theirs = socket.socketpair()
    theirs.close()
    return closing(stack, ours.detach())


def stuffed(stack):
    """A pipe that doesn't wait, and is full."""
    reader, writer = os.pipe2(os.O_NONBLOCK | os.O_CLOEXEC)
    with contextlib.suppress(BlockingIOError):
        while True:
            os.write(writer, bytes(4096))
    return closing(stack, writer, reader)


def terminal():
    """The two ends of a terminal that shows nothing of what is typed, and what is written as it is."""
    ours, theirs = pty.openpty()
    mode = termios.tcgetattr(theirs)
    mode[1] &= ~termios.OPOST
    mode[3] &= ~termios.ECHO
    termios.tcsetattr(theirs, termios.TCSANOW, mode)
    return ours, theirs


def seen(shown):
    """What stays of what was written to a terminal, where lines that are rewritten in place are cleared."""
    return re.sub(rb"\r\x1b\[K[^\r\n]*(?=\r\x1b\[K)", b"", shown).replace(b"\r\x1b[K", b"")


def typed(stack, text):
    """A terminal at which the text is typed, and then the end of the input."""
    ours, theirs = terminal()
    os.write(ours, text + b"\x04")
    return closing(stack, theirs, ours)


def left(stack):
    """A terminal at which nobody is left."""
    ours, theirs = terminal()
    os.close(ours)
    return closing(stack, theirs)


# --- the trials ---


@trial
def input_closed(trials):
    trials.unread(lambda stack, text: None)


@trial
def input_of_a_folder(trials):
    trials.unread(lambda stack, text: opened(stack, "/", os.O_RDONLY))


@trial
def input_open_for_writing(trials):
    trials.unread(lambda stack, text: stored(stack, text, os.O_WRONLY))


@trial
def input_of_a_socket_that_was_reset(trials):
    trials.unread(reset)


@trial
def input_that_does_not_wait_and_has_nothing(trials):
    trials.unread(lambda stack, text: unready(stack, b""))


@trial
def input_that_does_not_wait_and_has_no_end(trials):
    trials.unread(unready)


@trial
def input_of_a_file(trials):
    trials.read(stored)


@trial
def input_of_the_rest_of_a_file(trials):
    trials.read(begun)


@trial
def input_open_for_both(trials):
    trials.read(lambda stack, text: stored(stack, text, os.O_RDWR))


@trial
def input_of_a_pipe(trials):
    trials.read(piped)


@trial
def input_of_a_pipe_that_does_not_wait(trials):
    trials.read(lambda stack, text: piped(stack, text, os.O_NONBLOCK))


@trial
def input_byte_by_byte(trials):
    trials.read(by_byte)


@trial
def input_typed_at_a_terminal(trials):
    trials.read(typed)


# what is said of an empty text, by the subcommands whose line says no more than the fault, by the project's own, and by explain
READS = {
    **{"tune": "a script", "spread": "a trace", "late": "a trace", "misses": "a trace", "picture --schedule": "a schedule"},
    **dict.fromkeys(("import", "blame", "replay"), "a capture, or what blkparse, ftrace, perf or bpftrace prints"),
}
EXPLAINED = Run(1, b"line 1, record 1, found nothing, wanted a title\nblk: record 1: Title\n", b"")


def of_nothing(name):
    """What this subcommand says of an empty text."""
    more = f": the input is empty, and {name} reads {READS[name]}; see blk explain" if name in READS else ""
    return f"blk: record 1: Title{more}\n".encode()


@trial
def input_of_a_terminal_that_was_left(trials):
    """Its end comes at once, so it is an empty text."""
    for name, args, _, _ in trials.each(GOOD):
        with contextlib.ExitStack() as stack:
            words = b" ".join(args[:2]) if b"--schedule" in args else args[0]
            wanted = EXPLAINED if name == "explain_script" else Run(1, b"", of_nothing(os.fsdecode(words)))
            trials.see(name, run(args, left(stack)), wanted)


@trial
def input_while_stopped_and_going_on(trials):
    """A program that is stopped while it waits for its input goes on as if nothing had been."""
    for name, args, text, wanted in trials.each(GOOD):
        with contextlib.ExitStack() as stack:
            reader, writer = os.pipe()
            closing(stack, reader)
            out, said = (stack.enter_context(tempfile.TemporaryFile()) for _ in range(2))
            number = start(args, [reader, out.fileno(), said.fileno()])
            os.write(writer, text[:20])
            for sent in (signal.SIGSTOP, signal.SIGCONT, signal.SIGWINCH, signal.SIGCHLD):
                time.sleep(0.002)
                os.kill(number, sent)
            os.write(writer, text[20:])
            os.close(writer)
            status = wait(number)
            out.seek(0), said.seek(0)
            trials.see(name, Run(status, out.read(), said.read()), wanted)


@trial
def output_closed(trials):
    trials.unwritten(lambda stack: None)


@trial
def output_full(trials):
    trials.unwritten(lambda stack: opened(stack, "/dev/full", os.O_WRONLY))


@trial
def output_open_for_reading(trials):
    trials.unwritten(lambda stack: opened(stack, "/dev/null", os.O_RDONLY))


@trial
def output_of_a_pipe_without_a_reader(trials):
    trials.unwritten(broken)


@trial
def output_of_a_pipe_without_a_reader_where_that_is_ignored(trials):
    trials.unwritten(broken, ignored=True)


@trial
def output_of_a_socket_that_hung_up(trials):
    trials.unwritten(hung_up)


@trial
def output_of_a_full_pipe_that_does_not_wait(trials):
    trials.unwritten(stuffed)


@trial
def output_of_a_terminal_that_was_left(trials):
    trials.unwritten(left)


@trial
def output_of_a_pipe_that_is_read_in_the_end(trials):
    for name, args, text, wanted in trials.each([*GOOD, *PRINTED, *UNREAD]):
        with contextlib.ExitStack() as stack:
            reader, writer = os.pipe()
            closing(stack, reader, writer)
            ended = run(args, piped(stack, text), writer)
            ended.wrote = os.read(reader, PIECE)
            trials.see(name, ended, wanted)


@trial
def output_at_a_terminal(trials):
    for name, args, text, wanted in trials.each([*GOOD, *UNREAD]):
        with contextlib.ExitStack() as stack:
            ours, theirs = terminal()
            closing(stack, ours, theirs)
            ended = run(args, piped(stack, text), theirs)
            ended.wrote = os.read(ours, PIECE)
            trials.see(name, ended, wanted)


@trial
def all_at_one_terminal(trials):
    for name, args, text, wanted in trials.each(GOOD):
        with contextlib.ExitStack() as stack:
            ours, theirs = terminal()
            closing(stack, ours, theirs)
            os.write(ours, text + b"\x04")
            ended = run(args, theirs, theirs, theirs)
            ended.wrote = seen(os.read(ours, PIECE))
            trials.see(name, ended, wanted)


@trial
def progress_at_a_terminal(trials):
    """How many runs are done is told where standard error is a terminal, and cleared before a line on a refusal."""
    for name, args, text, wanted in trials.each(["tune_none_and_earliest", "tune_refused_under_kyber_alone"]):
        with contextlib.ExitStack() as stack:
            ours, theirs = terminal()
            closing(stack, ours, theirs)
            ended = run(args, piped(stack, text), KEPT, theirs)
            shown = os.read(ours, PIECE)
            ended.said = seen(shown)
            trials.see(name, ended, wanted)
            told = re.match(rb"(?:\r\x1b\[K\d+ of \d+ runs, \d+ s)+\r\x1b\[K", shown)
            trials.see(f"{name}, progress", bool(told), True)


@trial
def progress_at_no_terminal(trials):
    for name, args, text, wanted in trials.each(["tune_none_and_earliest", "tune_refused_under_kyber_alone"]):
        for device in ("/dev/null", "/dev/full"):
            with contextlib.ExitStack() as stack:
                ended = run(args, piped(stack, text), KEPT, opened(stack, device, os.O_WRONLY))
                trials.see(f"{name}, {device}", ended, Run(wanted.status, wanted.wrote))
        with contextlib.ExitStack() as stack:
            trials.see(name, run(args, piped(stack, text)), wanted)


def slowly(rows):
    """So many rows of a capture, of which the last comes some seconds after the others."""
    row = b"0,000000001,0,P,1,N,0,0\n"
    yield b"blk-capture,1,,,,,,\n"
    for _ in range(rows // 1000):
        yield 1000 * row
    time.sleep(4)
    yield row


SUMMARY_OF_PLUGS = [b"import", b"--summary"]


@trial
def lines_read_at_a_terminal(trials):
    """How much of a long input was read is told where standard error is a terminal, and is gone at the end; of a short one it isn't."""
    for rows, shows in ((1_000_000, True), (999_000, False)):
        with contextlib.ExitStack() as stack:
            ours, theirs = terminal()
            closing(stack, ours, theirs)
            ended = run(SUMMARY_OF_PLUGS, fed(stack, slowly(rows)), KEPT, theirs)
            shown = os.read(ours, PIECE)
            trials.see(f"{rows} rows", (ended.status, b"plugs %d\n" % (rows + 1) in ended.wrote), (0, True))
            told = re.match(rb"(?:\r\x1b\[K(\d+) lines read, [2-9] s)+\r\x1b\[K", shown)
            trials.see(f"{rows} rows, progress", bool(told and int(told[1]) > 1_000_000), shows)
            still = b"blk: %d of %d records have the time of the one before: waits may be too short\n" % (rows, rows + 1)
            trials.see(f"{rows} rows, what stays", seen(shown), still + b"blk: 0 requests with all their times: no Q records\n")


@trial
def lines_read_at_no_terminal(trials):
    with contextlib.ExitStack() as stack:
        ended = run(SUMMARY_OF_PLUGS, fed(stack, slowly(1_000_000)))
        trials.see("status", ended.status, 0)
        trials.see("line", b"lines read" in ended.said, False)


@trial
def line_where_standard_error_is_closed(trials):
    trials.unsaid(lambda stack: None)


@trial
def line_where_standard_error_is_full(trials):
    trials.unsaid(lambda stack: opened(stack, "/dev/full", os.O_WRONLY))


@trial
def line_where_nobody_reads_standard_error(trials):
    trials.unsaid(broken)


@trial
def line_where_standard_error_does_not_wait(trials):
    trials.unsaid(stuffed)


@trial
def all_closed(trials):
    for name, args, _, wanted in trials.each([*GOOD, *UNREAD, "words_met_beside_trace"]):
        trials.see(name, run(args, None, None, None), Run(wanted.status or 3))


# --- outputs that no pipe holds ---


def long_script(bios):
    """A script of so many bios, none of which joins another; each is served."""
    yield b"blk-script,2,8,1,1024,1\nsetup,5,50,256,128,\n"
    for at in range(bios):
        yield b"bio,0,%d,R,%d,8\n" % (at, 100 * at)
        if at % 32 == 31 or at == bios - 1:
            yield b"flush,0,,,,\ndrain,0,,,,\nrun,4,,,,\n"


def long_trace():
    """A script and its trace, which no pipe holds."""
    text = b"".join(long_script(3000))
    return text, plainly(b"sim", text)


def read_by(stack, pieces):
    """A pipe from which a thread reads pieces of these sizes, a little while apart, and the list of what it read. The last size
    is read again and again where it isn't 0; then the pipe is closed."""
    reader, writer = os.pipe()
    read = []

    def take():
        sizes = list(pieces)
        while sizes[0]:
            time.sleep(0.001)
            piece = os.read(reader, sizes[0])
            if not piece:
                break
            read.append(piece)
            sizes = sizes[1:] or sizes
        os.close(reader)

    taker = threading.Thread(target=take)
    taker.start()
    return writer, taker, read


@trial
def output_read_slowly(trials):
    text, wanted = long_trace()
    with contextlib.ExitStack() as stack:
        writer, taker, read = read_by(stack, [1, 10, 100, 2000])
        ended = run([b"sim"], stored(stack, text), writer)
        os.close(writer)
        taker.join()
        ended.wrote = b"".join(read)
        trials.see("a long trace", ended, wanted)


@trial
def output_left_half_read(trials):
    for ignored in (False, True):
        text, wanted = long_trace()
        with contextlib.ExitStack() as stack:
            writer, taker, read = read_by(stack, [1, 10, 100, 0])
            ended = run([b"sim"], stored(stack, text), writer, ignored=ignored)
            os.close(writer)
            taker.join()
            trials.see("the line", ended, Run(3, b"", WRITE))
            trials.see("a first part", wanted.wrote.startswith(b"".join(read)), True)


@trial
def output_longer_than_a_pipe_that_does_not_wait(trials):
    text, wanted = long_trace()
    with contextlib.ExitStack() as stack:
        reader, writer = os.pipe2(os.O_NONBLOCK | os.O_CLOEXEC)
        closing(stack, reader)
        ended = run([b"sim"], stored(stack, text), writer)
        os.close(writer)
        part = os.read(reader, 1 << 20)
        trials.see("the line", ended, Run(3, b"", WRITE))
        trials.see("a first part", wanted.wrote.startswith(part) and 0 < len(part) < len(wanted.wrote), True)


@trial
def output_at_the_greatest_size_of_a_file(trials):
    """The launcher lets that signal be ignored; the program by itself ignores SIGPIPE alone, and can't do more."""
    text, wanted = long_trace()
    for how in ({"program": LAUNCHER}, {"program": LAUNCHER, "ignored": True}, {"ignored": True}):
        ended = plainly(b"sim", text, limit="-f 8", **how)
        part, ended.wrote = ended.wrote, b""
        trials.see("the line", ended, Run(3, b"", WRITE))
        trials.see("a first part", wanted.wrote.startswith(part) and 0 < len(part) < len(wanted.wrote), True)


# --- texts without end, and limits of memory ---

# A beginning of the text that each subcommand reads; those that read a trace are the ones of the table in docs/FORMATS.md.
FORMS = {
    **{it.encode(): b"blk-trace,2,1,1,8,\nsetup,0,9,256,128,\n" for it in command_line.that_read("a trace")},
    b"sim": b"blk-script,1,1,1,4,1\nsetup,0,9,256,128,\n",
    b"compare": b"blk-script,2,1,1,4,1\nsetup,0,9,256,128,\n",
    b"migrate": b"blk-trace,1,1,1,8,\nsetup,0,9,256,128,\n",
    b"oracle": b"blk-commands,1,1\n1,0,0\n",
    b"oracle --met": b"blk-commands,1,1\n1,0,0\n",
    b"check": b"blk-certificate,1,1,3\nbound,2,0,0\n",
    b"judge": b"blk-schedule,1,1,3\n1,0,0,0\n",
    b"picture --schedule": b"blk-schedule,1,1,3\n1,0,0,0\n",
    b"explain": b"blk-script,1,1,1,4,1\nsetup,0,9,256,128,\n",
    b"import": b"blk-capture,1,,,,,,\n0,000000010,0,Q,1,R,0,8\n",
    b"blame": b"blk-capture,1,,,,,,\n0,000000010,0,Q,1,R,0,8\n",
    b"blame --picture": b"blk-capture,1,,,,,,\n0,000000010,0,Q,1,R,0,8\n",
    b"import --script --round 1ms": b"blk-capture,1,,,,,,\n0,000000010,0,Q,1,R,0,8\n",
    b"replay": b"blk-capture,1,,,,,,\n0,000000010,0,Q,1,R,0,8\n",
}

# What a record without end may be made of, after its beginning.
ENDLESS = {
    "digits": (b"1", b"7"),
    "commas": (b"bio,", b","),
    "an open quote": (b'"', b"bio,0,0,R,0,8\n"),
    "doubled quotes": (b'"', b'""'),
    "zero bytes": (b"", b"\0"),
    "bytes of no text": (b"", b"\xff\xfe"),
}


def repeated(before, unit):
    """These bytes, and then others again and again."""
    yield before
    chunk = unit * (PIECE // len(unit))
    while True:
        yield chunk


@trial
def record_without_end(trials):
    """It grows until memory is refused, and that is told."""
    for words, head in FORMS.items():
        for what, (begin, unit) in ENDLESS.items():
            for place, before in (("the first record", b""), ("a later record", head)):
                with contextlib.ExitStack() as stack:
                    ended = run(words.split(), fed(stack, repeated(before + begin, unit)), limit=f"-v {LIMIT}")
                trials.see(f"{words.decode()}, {place} of {what}", ended, Run(3, b"", MEMORY))


@trial
def zeros_without_end(trials):
    for words in FORMS:
        with contextlib.ExitStack() as stack:
            ended = run(words.split(), opened(stack, "/dev/zero", os.O_RDONLY), limit=f"-v {LIMIT}")
        trials.see(words.decode(), ended, Run(3, b"", MEMORY))


def less_and_less():
    """Limits of memory, from one under which anything here goes well down to the least under which the program starts at all."""
    limit = PLENTY
    while run([b"--version"], None, limit=f"-v {limit}").status == 0:
        yield limit
        limit -= STEP


def jobs_of_some_memory():
    """Subcommands over texts of some length, and what has to come of each."""
    script, ended = long_trace()
    jobs = [(words, script) for words in (b"sim", b"sim --sched deadline", b"sim --sched kyber", b"compare")]
    jobs += [(words, ended.wrote) for words in FORMS if FORMS[words].startswith(b"blk-trace")]
    commands = b"blk-commands,1,1\n" + b"".join(b"%d,%d,%d\n" % (at, at, at) for at in range(20_000))
    for words in (b"oracle", b"oracle --met"):
        certificate = plainly(words, commands)
        jobs += [(words, commands), (b"check", certificate.wrote)]
    return [(words, text, plainly(words, text)) for words, text in jobs]


@trial
def memory_of_less_and_less(trials):
    """Under any limit under which it starts, the program ends as it does without one, or because memory ran out."""
    limits = list(less_and_less())
    for words, text, wanted in jobs_of_some_memory():
        ended = [plainly(words, text, limit=f"-v {limit}") for limit in limits]
        for limit, it in zip(limits, ended):
            trials.see(f"{words.decode()} under {limit} kB", it, it if it == Run(3, b"", MEMORY) else wanted)
        trials.see(f"{words.decode()} under the greatest limit", ended[0], wanted)


@trial
def memory_of_a_load_of_less_and_less(trials):
    """A load that finds no memory for a thread ends as any job does that finds none."""
    for name, args, _, wanted in trials.each(["load_of_four_bios"]):
        allowed = [wanted, Run(3, b"", MEMORY)]
        for limit in list(less_and_less())[::4]:
            ended = run(args, None, limit=f"-v {limit}")
            trials.see(f"{name} under {limit} kB", ended, ended if ended in allowed else wanted)


def chosen(words):
    """The trials in whose names one of the words stands; all where there is none."""
    for word in words:
        if not any(word in it.__name__ for it in TRIALS):
            raise cases.Fault(f"{word} is in no trial's name")
    return [it for it in TRIALS if not words or any(word in it.__name__ for word in words)]


def main(words):
    """The trials as a command; its exit status."""
    if any(it in ("-h", "--help") for it in words):
        print(__doc__, end="")
        return 0
    if words == ["--list"]:
        print("\n".join(it.__name__ for it in TRIALS))
        return 0
    try:
        picked = chosen(words)
    except cases.Fault as fault:
        print(f"tools/streams.py: {fault}", file=sys.stderr)
        return 2
    if not os.access(cases.PROGRAM, os.X_OK):
        print(f"tools/streams.py: there is no program {cases.PROGRAM.relative_to(cases.TOP)}: ./blk builds it", file=sys.stderr)
        return 3
    trials = Trials()
    for it in picked:
        trials.name = it.__name__
        it(trials)
    print(f"{trials.passed} passed, {trials.failed} failed")
    return 1 if trials.failed else 0


if __name__ == "__main__":
    signal.signal(signal.SIGTERM, cases.ended)
    sys.exit(main(sys.argv[1:]))
