#!/usr/bin/env python3
"""Holds the pages to the tree.

    tools/pages.py

A page is README.md, and any in docs/, cases/ and crates/. A link leads to a file, and its anchor to a headline there. A word is
a name with a letter, inside backticks and outside of blocks, or in a `use` of a Rattle block; it stands in some file that is no
page, or in a file's path. The words of Linux and of other projects, and those of the examples that a reader makes, are listed here.

Pages and comments say 'out of memory': 'want of memory' is the program's own line, and stands there only as `blk: want of memory`.

`Type::name` of a type of the sources is a variant, a method or another word of a file that declares it or adds to it.

What docs/FORMATS.md names stands in crates/answer/src/names.rt, or is a setting's name: the keys of its JSON examples; the columns
of its head lines, which are three different words or more with commas between, inside backticks or in an indented example; and the
word that a row begins with, where capitals and empty fields follow it inside backticks. So do the members of a summary, in the first
column of the table under 'In numbers' of docs/CAPTURES.md.

Prints what is wrong, and as the last line 'N passed, M failed'. Ends with 0, or with 1 where something failed.
"""
import re
import subprocess
import sys
from pathlib import Path

sys.dont_write_bytecode = True
TOP = Path(__file__).resolve().parent.parent
# Linux's own, by which the pages say what stands for what.
LINUX = """bio_merge blk_add_rq_to_plug blk_flush_plug blk_mq_map_queue blk_mq_requeue_request blk_mq_sched_dispatch_requests blk_rq_pos blk_rq_sectors
    dispatch_request elv_merge fifo_time has_work lsblk nr_hw_queues nr_requests queue_depth request_merge sbitmap submit_bio"""
# Crates and answers of the toolchain that the sources don't name, and words of the guides' own examples.
OTHERS = "Display document serde_json smallvec unsupported static holes blk_mine Mine MineScheduler mine_policy Depths burst"
KNOWN = {*LINUX.split(), *OTHERS.split()}
WORD = re.compile(r"[A-Za-z_]\w*")
# Where names of members and columns stand, and the pages that have them; columns of a head line; a row of a word and of what varies.
NAMES, FORMATS, CAPTURES = "crates/answer/src/names.rt", "docs/FORMATS.md", "docs/CAPTURES.md"
COLUMNS = re.compile(r"(?<!\S)[A-Za-z][\w-]*(?:,[A-Za-z][\w-]*){2,}(?!\S)")
ROW = re.compile(r"^([a-z]\w*)(?:,[A-Z]*){2,}$")
# A word of fewer letters is a variable.
SHORT = 3
# The words of the program's line where they stand elsewhere, on one line or on two.
WANT = re.compile(r"(?i)(?<!`blk: )\bwants?[\s/!-]+of[\s/!-]+memory\b")


def tracked():
    """The files of the repository, by their paths from its top; in a copy without git, all but what was made."""
    asked = subprocess.run(["git", "-C", TOP, "ls-files", "-co", "--exclude-standard"], capture_output=True, text=True)
    if asked.returncode == 0:
        return [it for it in asked.stdout.splitlines() if (TOP / it).is_file()]
    return [str(it.relative_to(TOP)) for it in TOP.rglob("*") if it.is_file() and "out" not in it.relative_to(TOP).parts]


def is_page(path):
    return path.endswith(".md") and (path == "README.md" or path.split("/")[0] in ("docs", "cases", "crates"))


def words_of(paths):
    """All words of the files that are no pages, and those of all paths, also as the parts between their lines."""
    found = set()
    for path in paths:
        found.update(WORD.findall(path))
        if not path.endswith(".md"):
            found.update(WORD.findall((TOP / path).read_text(errors="replace")))
    return found


def prose(text):
    """The lines of a page outside of its blocks, each with its number."""
    is_block = False
    for number, line in enumerate(text.splitlines(), 1):
        if line.startswith("```"):
            is_block = not is_block
        elif not is_block and not line.startswith("    "):
            yield number, line


def anchors_of(page):
    """What links can say behind a #, as GitHub makes it of the headlines."""
    heads = re.findall(r"^#+ (.*)$", page.read_text(), re.M)
    return {re.sub(r"[^\w\- ]", "", it.lower()).strip().replace(" ", "-") for it in heads}


def lost_links(path, line):
    for target in re.findall(r"\]\(([^)\s]+)\)", line):
        if re.match(r"\w+:", target):
            continue
        name, _, anchor = target.partition("#")
        page = (TOP / path).parent / name if name else TOP / path
        if not page.exists():
            yield f"nothing at the link {target}"
        elif anchor and page.suffix == ".md" and anchor not in anchors_of(page):
            yield f"no headline for the link {target}"


def lost_words(line, words):
    for code in re.findall(r"`([^`]+)`", line):
        for word in WORD.findall(code):
            if len(word) > SHORT and word not in words and not word.endswith("_") and not word.startswith("_"):
                yield f"no file has {word}"


def members_of(paths):
    """By each type and trait of the sources all words of the files that declare it or add methods to it."""
    members = {}
    for path in paths:
        if path.endswith(".rt"):
            text = (TOP / path).read_text()
            for name in set(re.findall(r"\b(?:enum|struct|trait|for|impl(?:<[^>]*>)?) (\w+)", text)):
                members.setdefault(name, set()).update(re.findall(r"\w+", text))
    return members


def lost_members(line, members):
    for code in re.findall(r"`([^`]+)`", line):
        for name, member in re.findall(r"\b([A-Z]\w+)::(\w+)", code):
            if name in members and member not in members[name] | KNOWN:
                yield f"{name} has no {member}"


def uses(text):
    """The lines of a page that use something in a block of Rattle, each with its number."""
    is_block = False
    for number, line in enumerate(text.splitlines(), 1):
        is_block = line == "```rust" or is_block and not line.startswith("```")
        if is_block and line.startswith("use "):
            yield number, f"`{line}`"


def lost(path, words, members):
    """What a page tells of that isn't there."""
    text = (TOP / path).read_text()
    for number, line in prose(text):
        yield from (f"{path}:{number}: {it}" for it in [*lost_links(path, line), *lost_words(line, words), *lost_members(line, members)])
    for number, line in uses(text):
        yield from (f"{path}:{number}: {it}" for it in lost_words(line, words))


def line_of(text, at):
    """The number of the line of a place in a text."""
    return text.count("\n", 0, at) + 1


def comments_of(text):
    """A source without what isn't a comment, line by line."""
    return "\n".join(line if re.match(r"\s*(?://|--)", line) else "" for line in text.splitlines())


def other_memory(paths):
    """Where a page or a comment has the words of the program's line as its own."""
    for path in paths:
        if is_page(path) or path.endswith((".rt", ".antt")):
            text = (TOP / path).read_text()
            text = text if is_page(path) else comments_of(text)
            yield from (f"{path}:{line_of(text, it.start())}: only the program's own line says 'want of memory'" for it in WANT.finditer(text))


def listed_names(paths):
    """The names of members and columns and the words of answers; and the names of settings."""
    names = set(re.findall(r'(?m)^pub const \w+: &str = "([^"]+)"', (TOP / NAMES).read_text()))
    for path in paths:
        if path.startswith("crates/blk_schedulers/src/"):
            names.update(re.findall(r'name: "(\w+)"', (TOP / path).read_text()))
    return names


def named_in(line):
    """The names of members and columns and the words of rows on a line of docs/FORMATS.md."""
    if re.fullmatch(r"    {.*}", line):
        yield from re.findall(r'"([\w-]+)":', line)
    for text in [line] if line.startswith("    ") else re.findall(r"`([^`]+)`", line):
        for it in re.findall(COLUMNS, text):
            words = it.split(",")
            if len(set(words)) == len(words) and not any(map(str.isupper, words)):
                yield from words
        if not line.startswith("    "):
            yield from re.findall(ROW, text)


def named_by_the_pages():
    """What the pages name: those of docs/FORMATS.md, and of a summary in the table of docs/CAPTURES.md; each with its page and line."""
    for number, line in enumerate((TOP / FORMATS).read_text().splitlines(), 1):
        yield from ((FORMATS, number, name) for name in sorted(set(named_in(line))))
    is_summary = False
    for number, line in enumerate((TOP / CAPTURES).read_text().splitlines(), 1):
        is_summary = line == "## In numbers" or is_summary and not line.startswith("## ")
        if is_summary and line.startswith("| `"):
            yield from ((CAPTURES, number, name) for name in re.findall(r"`([^`]+)`", line.split("|")[1]))


def unlisted_names(paths):
    """Names of members and columns, and words of rows, that the pages have and the sources' list has not."""
    names = listed_names(paths)
    for page, number, name in named_by_the_pages():
        if name not in names:
            yield f"{page}:{number}: {name} is no name of {NAMES}"


def main():
    """Prints what is wrong; the exit status."""
    paths = tracked()
    words = words_of(paths) | KNOWN
    members = members_of(paths)
    told = [list(lost(path, words, members)) for path in paths if is_page(path)]
    told += [list(rule(paths)) for rule in (other_memory, unlisted_names)]
    for line in (line for it in told for line in it):
        print(f"pages: {line}")
    failed = sum(map(bool, told))
    print(f"{len(told) - failed} passed, {failed} failed")
    return 1 if failed else 0


if __name__ == "__main__":
    sys.exit(main())
