"""A good trace, read by the rules of docs/FORMATS.md and docs/MODEL.md without the program: what entered, what was issued in which round
under which tag, what is in flight, and how many commands each round carries."""
import csv
import io
from collections import namedtuple
from dataclasses import dataclass

# An event: its word, its fields, and the bios that come in with it, each as its fields.
Event = namedtuple("Event", "word fields bios")

# A command: a request that was issued and not requeued since, with the round of that Issue.
Served = namedtuple("Served", "id dir first sectors release due issue")


@dataclass
class Request:
    """A request: the round in which it was released or last joined, and that in which it entered; when it is due; the first sector and
    the one after its last; how many bios it has; and who submitted the first that came."""

    id: int
    entered: int
    release: int
    due: int
    dir: str
    first: int
    end: int
    bios: int
    submitter: int


@dataclass
class Issue:
    """An Issue of a request, and whether it was requeued."""

    request: Request
    tag: int
    round: int
    back: bool = False

    @property
    def late(self):
        return self.round > self.request.due

    @property
    def served(self):
        it = self.request
        return Served(it.id, it.dir, it.first, it.end - it.first, it.release, it.due, self.round)


def records(text):
    """The records of a text, given as bytes or as text."""
    text = text.decode("latin-1") if isinstance(text, bytes) else text
    return [it for it in csv.reader(io.StringIO(text, newline="")) if it]


def events_of(records):
    """The events that records tell, each with the bios behind it; a bio before all of them counts as one."""
    found = []
    for word, *fields in records:
        if word == "bio" and found:
            found[-1].bios.append(fields)
        else:
            found.append(Event(word, fields, []))
    return found


class Trace:
    """A trace, event by event: its requests by id, its Issues in their order, those in flight by tag, and the depth of each round so far; a
    round after the last carries what was set by then."""

    def __init__(self, text):
        self.title, self.setup, *rest = self.read(text)
        self.depth, self.round = int(self.title[2]), 0
        self.expire = {"R": int(self.setup[1]), "W": int(self.setup[2])}
        self.requests, self.issues, self.flying, self.depths, self.beyond = {}, [], {}, [self.depth], self.depth
        self.events = events_of(rest)
        for event in self.events:
            self.take(event)

    def read(self, text):
        """The records of its text."""
        return records(text)

    def take(self, event):
        """The next event happens."""
        word, fields, bios = event
        if word in ("release", "join"):
            self.enter(int(fields[0]), bios)
        elif word == "issue":
            issue = self.flying[int(fields[1])] = Issue(self.requests[int(fields[0])], int(fields[1]), self.round)
            self.issues.append(issue)
        elif word == "done":
            del self.flying[int(fields[0])]
        elif word == "back":
            self.flying.pop(int(fields[0])).back = True
        elif word == "depth":
            self.beyond = int(fields[0])
        elif word == "tick":
            self.round += 1
            self.depths.append(self.beyond)

    def enter(self, id, bios):
        """A request comes in, or joins the one of that id at the end where it fits."""
        submitter, _, direction, first, _ = bios[0]
        first, end, due = int(first), int(bios[-1][3]) + int(bios[-1][4]), self.round + self.expire[direction]
        it = self.requests.get(id)
        if it is None:
            self.requests[id] = Request(id, self.round, self.round, due, direction, first, end, len(bios), int(submitter))
            return
        it.first, it.end = (it.first, end) if first == it.end else (first, it.end)
        it.release, it.due, it.bios = self.round, min(due, it.due), it.bios + len(bios)

    @property
    def rounds(self):
        """How many rounds it has."""
        return self.round + 1

    @property
    def served(self):
        """Its commands, in the order of their last Issues."""
        return [it.served for it in self.issues if not it.back]

    @property
    def waiting(self):
        """The requests that wait at its end."""
        gone = {it.request.id for it in self.issues if not it.back}
        return [it for it in self.requests.values() if it.id not in gone]

    def places(self, at):
        """How many commands a round carries."""
        return self.depths[at] if at < len(self.depths) else self.beyond
