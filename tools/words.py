#!/usr/bin/env python3
"""The words of the command line: makes the man page and completions, and holds what tells of them to one another.

    tools/words.py man|bash|zsh|fish      writes the man page, or the completions of that shell
    tools/words.py check                  compares the tables of docs/FORMATS.md, the help texts, the cases, the names of faults and what
                                          `explain` lists
    tools/words.py keep                   keeps the help texts of the program that is built

The subcommands, their options and what each may be are those of the tables in docs/FORMATS.md under 'Program'. What each
does is told by the program's own help texts, which are kept in tools/help/: `blk` is the program's, `blk-sim` that of
`sim`, `version` what `--version` writes, and `no-words` what is said where there are no words. The cases with a file
stdout.as or stderr.as hold the program to them. The rest of the man page is tools/man.roff.

`check` prints what differs, and as the last line 'N passed, M failed'. Ends with 0, with 1 where something differs, 2 for
other words, and 3 where there is no program, or no table that can be read.
"""
import itertools
import re
import subprocess
import sys
import textwrap
from pathlib import Path

sys.dont_write_bytecode = True
TOP = Path(__file__).resolve().parent.parent
FORMATS = TOP / "docs" / "FORMATS.md"
HELP = TOP / "tools" / "help"
PROGRAM = TOP / "crates" / "blk" / "out" / "blk"
# What `explain` says of a text without a fault: the name of its form, and the subcommands that take it.
EXPLAINED = re.compile(r"(blk-\w+), version \d+, records \d+\ntaken by (.*)\n")
# Each form by that name, and how the table's cells of input begin that name it.
FORMS = {
    "blk-commands": "a command list",
    "blk-certificate": "a certificate",
    "blk-met": "a certificate",
    "blk-schedule": "a schedule",
    "blk-capture": "a capture",
    "blk-script": "a script",
    "blk-trace": "a trace",
}
# What the command line library adds to each command.
ADDED = {"--help", "--version"}


class Fault(Exception):
    """Why the words can't be read."""


class Option:
    """An option: the values that it may have, by name or as a range, and the one that it has where it isn't given."""

    def __init__(self, values=None, default=None, does=""):
        self.values, self.default, self.does = values, default, does

    def names(self):
        """The values by name; none where they are numbers."""
        return re.split(r", | or ", self.values) if self.values and " or " in self.values else []


class Command:
    """A subcommand: what it does, its options, and what it reads and writes, by the flag that asks for that or ''."""

    def __init__(self):
        self.flows, self.options, self.does = {}, {}, ""


# --- the table of docs/FORMATS.md ---


# The values of an option: by name, as a range, or as a word for them.
VALUES = re.compile(r"\w+(?:, \w+)* or \w+|\d+\.\.=\d+|[A-Z]+")


def rows_under(title, columns):
    """The rows of the first table under a headline of the page, each as its cells."""
    lines = FORMATS.read_text().partition(f"\n{title}\n")[2].splitlines()
    rows = itertools.takewhile(lambda it: it.startswith("|"), itertools.dropwhile(lambda it: not it.startswith(("|", "#")), lines))
    cells = [[it.strip() for it in line.strip("|").split("|")] for line in rows][2:]
    if not cells or any(len(row) != columns for row in cells):
        raise Fault(f"{FORMATS.relative_to(TOP)} has no table of {columns} columns under '{title}'")
    return cells


def read_table():
    """The subcommands by name, as the tables under 'Program' and 'Options' have them."""
    commands = {}
    for first, reads, writes in rows_under("## Program", 3):
        named = re.fullmatch(r"`(\w+)(?: (--[\w-]+))?`", first)
        if not named:
            raise Fault(f"{FORMATS.relative_to(TOP)}: this subcommand isn't understood: {first}")
        name, flag = named[1], named[2] or ""
        command = commands.setdefault(name, Command())
        command.flows[flag] = reads, writes
        if flag:
            command.options[flag] = Option()
    for first, values, default, takers, _ in rows_under("### Options", 5):
        options, defaults = re.findall(r"`(--[\w-]+)`", first), default.split("; ") if default else []
        names, (told, _, _) = re.findall(r"`(\w+)`", takers), takers.partition("; ")
        defaults = defaults or [None] * len(options)
        if not names or not set(names) <= set(commands) or len(options) != len(defaults) or not VALUES.fullmatch(values or "TEXT"):
            raise Fault(f"{FORMATS.relative_to(TOP)}: this option isn't understood: {first}")
        for name, (option, it) in itertools.product(names, zip(options, defaults)):
            # the help texts of those behind a semicolon don't tell the default
            commands[name].options[option] = Option(values or None, it if f"`{name}`" in told else None)
    return commands


def that_read(text):
    """Each subcommand that reads this kind of text, with the flag that asks for it."""
    flows = ((name, flag, reads) for name, it in read_table().items() for flag, (reads, _) in it.flows.items())
    return [f"{name} {flag}".strip() for name, flag, reads in flows if reads.startswith(text)]


# --- the help texts ---


def read_help(name):
    """What a kept help text tells: its first line, and of each name listed whether it takes a value, and its line."""
    about, _, rest = (HELP / name).read_text().partition("\n\nUsage: ")
    listed, last = {}, None
    for line in rest.splitlines()[1:]:
        entry = re.fullmatch(r"  (?:-\w, |    (?=--)|(?=\w))(--[\w-]+|\w+)( <[^>]+>)?(?: {2,}(.*))?", line)
        if entry:
            last = entry[1]
            listed[last] = (bool(entry[2]), entry[3] or "")
        elif line.startswith("   ") and last:
            # a line of its own, where it would be too long beside the name
            listed[last] = (listed[last][0], f"{listed[last][1]} {line.strip()}".strip())
        else:
            last = None
    return about, {it: listed[it] for it in listed if it not in ADDED and it != "help"}


def split_line(line):
    """What a line of a help text says of an option: what it does, its default, and its values by name."""
    default, values = re.search(r"\[default: ([^]]*)\]", line), re.search(r"\[possible values: ([^]]*)\]", line)
    return line.partition(" [")[0], default and default[1], values[1].split(", ") if values else []


def read_commands():
    """The subcommands of the table, with what the help texts say that each and each option does."""
    commands = read_table()
    for name, command in commands.items():
        command.does, listed = read_help(f"blk-{name}")
        for option, it in command.options.items():
            it.does = split_line(listed[option][1])[0] if option in listed else ""
    return commands


# --- what has to agree ---


def compare_lists(what, told, listed):
    """Where two lists of names differ."""
    for it in sorted(set(told) - set(listed)):
        yield f"{what}: docs/FORMATS.md has {it}, and the help text hasn't"
    for it in sorted(set(listed) - set(told)):
        yield f"{what}: the help text has {it}, and docs/FORMATS.md hasn't"


def compare_options(name, options):
    """Where the table and the help text of a subcommand differ."""
    _, listed = read_help(f"blk-{name}")
    yield from compare_lists(f"blk {name}", options, listed)
    for option in sorted(set(options) & set(listed)):
        told, (takes, line) = options[option], listed[option]
        _, default, values = split_line(line)
        # values that are looked at once the words are taken stand in no list of the help text
        if takes != bool(told.values) or default != told.default or values not in ([], told.names()):
            yield f"blk {name} {option}: docs/FORMATS.md has {told.values} ({told.default}), and the help text: {line}"


def forms(commands):
    """The words that ./blk answers from the kept texts, without the program: each with its text."""
    texts = {(): "no-words", ("--version",): "version", ("-V",): "version"}
    texts.update({(it,): "blk" for it in ("--help", "-h", "help")})
    for it in commands:
        texts.update({(it, "--help"): f"blk-{it}", (it, "-h"): f"blk-{it}", ("help", it): f"blk-{it}"})
    return texts


def held_by_cases():
    """The words whose text a case compares with a kept one, and which."""
    held = {}
    for it in [*TOP.glob("cases/*/*/stdout.as"), *TOP.glob("cases/*/*/stderr.as")]:
        args = it.parent / "args"
        words = tuple(args.read_text().splitlines()) if args.exists() else ()
        held[words] = Path(it.parent, it.read_text().rstrip("\n")).resolve()
    return held


# The names that are no variant's, by the fault that has each: `Stalled` says what became of a load, where the others name a broken rule.
OWN_NAMES = {"LoadFault::Stalled": "stalled"}
# The names that no command shows as a fault's: each of the first four is told in other words, the program's own setups have all hardware queues
# that its steps name, and a load's plugs hold bios of their submitters alone.
UNSEEN = {"Memory", "Read", "Write", "Words", "NoQueue", "Queues", "Foreign"}
# A method that answers a fault's name, or what is told of it; in it the list of the fault's variants; and one of these, with a name of its own,
# the fault that it is told by, and what else stands there: in a list of names what gives the name of the fault that is handed on.
NAME = re.compile(r"fn (?:name\(self\)|told\(&self\)) .*?\n    }\n", re.S)
LIST = re.compile(r"(variant_name|told)!\(self: (\w+) \{(.*?),?\s*\}\)", re.S)
VARIANT = re.compile(r'\s*(\w+)(?:\(\w+\))?(?: as "(\w+)")?(?: by (\w+))?(?: => (.+))?')


def printed_names():
    """The faults of the sources that have a name, each with that name; one that hands on another fault's has none."""
    for it in sorted(TOP.glob("crates/*/src/**/*.rt")):
        text = it.read_text()
        for block in NAME.findall(text):
            listed = LIST.search(block)
            found = [VARIANT.fullmatch(one) for one in listed[3].split(",")] if listed else [None] * block.startswith("fn name")
            if None in found:
                raise Fault(f"{it.relative_to(TOP)}: these names of faults aren't understood: {block}")
            for variant, name, holds, more in (one.groups() for one in found):
                if not holds and (listed[1] == "told" or not more):
                    yield f"{listed[2]}::{variant}", name or variant


def names_of_faults():
    """Where a fault's name isn't its variant's, or the names that the program prints and the list in docs/FORMATS.md differ."""
    named = list(printed_names())
    for fault, name in named:
        wanted = OWN_NAMES.get(fault, fault.partition("::")[2])
        if name != wanted:
            yield f"the name of {fault} is {name}, and not {wanted}"
    printed, listed = {name for _, name in named}, set()
    for row in FORMATS.read_text().split("\n## Names of faults\n")[-1].splitlines():
        listed.update(re.findall(r"`(\w+)`", row.split("|")[1] if row.startswith("|") else ""))
    apart = printed - UNSEEN
    yield from (f"docs/FORMATS.md names no fault {it}" for it in sorted(apart - listed))
    yield from (f"no fault has the name {it}, which docs/FORMATS.md lists" for it in sorted(listed - apart))


def takers_of(form, commands):
    """The subcommands that read a form, each with the flag that asks for that where it reads another without."""
    for name, command in commands.items():
        flags = [flag for flag, (reads, _) in command.flows.items() if reads.startswith(form)]
        yield from [name] if "" in flags else [f"{name} {flag}" for flag in flags]


def takers_listed(commands):
    """Where the subcommands that `explain` lists for a form, in the cases, and those of the table differ."""
    told = [EXPLAINED.fullmatch(it.read_text()) for it in TOP.glob("cases/explain/*/stdout")]
    lists = {it[1]: it[2] for it in told if it}
    for name, form in FORMS.items():
        listed, takers = set(lists.get(name, "").split(", ")), set(takers_of(form, commands))
        yield from (f"explain doesn't list that {it} takes {name}" for it in sorted(takers - listed))
        yield from (f"explain lists that {it} takes {name}, and docs/FORMATS.md doesn't" for it in sorted(listed - takers))


def faults():
    """What is compared, each with what differs, if anything does."""
    commands, kept, held = read_table(), {it.name for it in HELP.iterdir()}, held_by_cases()
    texts = forms(commands)
    wanted = {*texts.values()}
    yield list(names_of_faults())
    yield list(takers_listed(commands))
    yield [f"tools/help/{it} is missing: tools/words.py keep writes it" for it in sorted(wanted - kept)]
    yield [f"tools/help/{it} is the text of no subcommand" for it in sorted(kept - wanted)]
    for words, name in texts.items():
        is_held = held.get(words) == (HELP / name).resolve()
        yield [] if is_held else [f"no case compares what blk {' '.join(words)} says with tools/help/{name}"]
    if wanted <= kept:
        yield list(compare_lists("blk", commands, read_help("blk")[1]))
        for name, command in commands.items():
            yield list(compare_options(name, command.options))


def check():
    """Prints what differs; the exit status."""
    told = list(faults())
    for line in (line for it in told for line in it):
        print(f"words: {line}")
    failed = sum(map(bool, told))
    print(f"{len(told) - failed} passed, {failed} failed")
    return 1 if failed else 0


def keep():
    """Keeps the texts of the program that is built; the exit status."""
    for words, name in forms(read_table()).items():
        ran = subprocess.run([PROGRAM, *words], stdin=subprocess.DEVNULL, capture_output=True)
        (HELP / name).write_bytes(ran.stdout if name == "version" else ran.stderr)
    return 0


# --- the man page ---


def roff(text):
    """A text as roff has it."""
    return re.sub(r"(?m)^([.'])", r"\\&\1", text.replace("\\", r"\e").replace("-", r"\-").replace("`", ""))


def bold(text):
    return rf"\fB{roff(text)}\fR"


def several(names):
    """Names as a sentence has them."""
    return " and ".join([", ".join(names[:-1]), names[-1]] if len(names) > 1 else names)


def man_of_command(name, command):
    """The entry of a subcommand: what it does, reads and writes, and its options."""
    yield f".SS {roff(name)}"
    yield f"{roff(command.does)}."
    for flag, (reads, writes) in command.flows.items():
        yield f"{f'With {bold(flag)} it' if flag else 'It'} reads {roff(reads)} and writes {roff(writes)}."
    if command.options:
        yield f"Options: {several([bold(it) for it in command.options])}."


def man_of_options(commands):
    """The entries of all options, each once, with the subcommands that take it."""
    takers = {}
    for name, command in commands.items():
        for option, it in command.options.items():
            takers.setdefault((option, it.values, it.default, it.does), []).append(name)
    for (option, values, default, does), names in takers.items():
        yield ".TP"
        yield f"{bold(option)} {roff(values or '')}".rstrip()
        yield f"{roff(does)}."
        if default:
            yield f"The default is {roff(default)}."
        yield f"Taken by {several([bold(it) for it in names])}."


def man():
    """The man page, line by line."""
    commands = read_commands()
    parts = {
        "@VERSION@": [roff((HELP / "version").read_text().strip())],
        "@ABOUT@": [f"{roff(read_help('blk')[0])}."],
        "@SUBCOMMANDS@": [line for name, it in commands.items() for line in man_of_command(name, it)],
        "@OPTIONS@": list(man_of_options(commands)),
    }
    page = (TOP / "tools" / "man.roff").read_text()
    for mark, lines in parts.items():
        page = page.replace(mark, "\n".join(lines))
    for line in page.splitlines():
        # requests stand on one line, and text may be broken anywhere
        yield line if line.startswith(".") else textwrap.fill(line, 78, break_long_words=False, break_on_hyphens=False)


# --- completions ---

MADE = "# Completions of blk; made by the repository's tools/words.py."


def quoted(text):
    """A word of a shell that stands for itself."""
    return "'" + text.replace("'", r"'\''") + "'"


def bash():
    """The completions of bash."""
    commands = read_commands()
    yield MADE
    yield "_blk() {"
    yield "  local word=${COMP_WORDS[COMP_CWORD]} before=${COMP_WORDS[COMP_CWORD - 1]} words="
    yield "  # bash takes --sched=none for three words"
    yield "  if [ \"$word\" = = ]; then word=; elif [ \"$before\" = = ]; then before=${COMP_WORDS[COMP_CWORD - 2]}; fi"
    yield "  case $COMP_CWORD,${COMP_WORDS[1]},$before in"
    yield "  *,'<' | *,'>' | *,'2>') ;;"
    yield f"  1,*) words={quoted(' '.join([*commands, 'help', '--help', '--version']))} ;;"
    yield f"  2,help,*) words={quoted(' '.join(commands))} ;;"
    for name, command in commands.items():
        for option, it in command.options.items():
            if it.values:
                yield f"  *,{name},{option}) {'words=' + quoted(' '.join(it.names())) + ' ' if it.names() else ''};;"
        yield f"  *,{name},*) words={quoted(' '.join([*command.options, '--help']))} ;;"
    yield "  esac"
    yield "  mapfile -t COMPREPLY < <(compgen -W \"$words\" -- \"$word\")"
    yield "}"
    yield "complete -o default -F _blk blk"


def zsh():
    """The completions of zsh."""
    commands = read_commands()
    told = lambda text: re.sub(r"([\[\]:\\])", r"\\\1", text)
    yield "#compdef blk"
    yield MADE
    yield "local curcontext=$curcontext state line"
    yield "local -a subcommands"
    yield "subcommands=("
    for name, command in commands.items():
        yield f"  {quoted(f'{name}:{told(command.does)}')}"
    yield "  'help:Print help'"
    yield ")"
    yield "_arguments -C '(-h --help)'{-h,--help}'[Print help]' '(-V --version)'{-V,--version}'[Print version]' \\"
    yield "  '1: :->subcommand' '*:: :->words' && return"
    yield "case $state in"
    yield "subcommand) _describe -t commands subcommand subcommands ;;"
    yield "words)"
    yield "  case $words[1] in"
    yield "  help) _describe -t commands subcommand subcommands ;;"
    for name, command in commands.items():
        yield f"  {name})"
        yield "    _arguments '(-h --help)'{-h,--help}'[Print help]'" + " \\" * bool(command.options)
        for at, (option, it) in enumerate(command.options.items(), 1):
            values = f":{option[2:]}:({' '.join(it.names())})" if it.names() else f":{told(it.values or '')}: "
            one = f"{option}=[{told(it.does)}]{values}" if it.values else f"{option}[{told(it.does)}]"
            yield "      " + quoted(one) + " \\" * (at < len(command.options))
        yield "    ;;"
    yield "  esac"
    yield "  ;;"
    yield "esac"


def fish():
    """The completions of fish."""
    commands = read_commands()
    yield MADE
    yield "complete -c blk -n __fish_use_subcommand -f"
    yield "complete -c blk -n __fish_use_subcommand -s h -l help -d 'Print help'"
    yield "complete -c blk -n __fish_use_subcommand -s V -l version -d 'Print version'"
    for name, command in commands.items():
        yield f"complete -c blk -n __fish_use_subcommand -a {name} -d {quoted(command.does)}"
    yield "complete -c blk -n __fish_use_subcommand -a help -d 'Print help'"
    yield f"complete -c blk -n '__fish_seen_subcommand_from help' -f -a {quoted(' '.join(commands))}"
    for name, command in commands.items():
        chosen = f"complete -c blk -n '__fish_seen_subcommand_from {name}'"
        yield f"{chosen} -f"
        yield f"{chosen} -s h -l help -d 'Print help'"
        for option, it in command.options.items():
            values = f" -x -a {quoted(' '.join(it.names()))}" if it.names() else " -x" if it.values else ""
            yield f"{chosen} -l {option[2:]}{values} -d {quoted(it.does)}"


def main(words):
    """The words as a command; its exit status."""
    texts = {"man": man, "bash": bash, "zsh": zsh, "fish": fish}
    try:
        if words in (["check"], ["keep"]):
            return {"check": check, "keep": keep}[words[0]]()
        if len(words) == 1 and words[0] in texts:
            print("\n".join(texts[words[0]]()))
            return 0
    except (Fault, OSError) as fault:
        print(f"tools/words.py: {fault}", file=sys.stderr)
        return 3
    print(__doc__, end="", file=sys.stderr)
    return 2


if __name__ == "__main__":
    sys.exit(main(sys.argv[1:]))
