"""A run in words: one line for each event that moved the world, and one for idle picks in a row."""

from itertools import groupby
from typing import Iterator

from .bodies import Accepted, Ask, Body, Content, Decide, Drop, Envelope, Fence, Fenced, Finalize, Get, Note, Prepare, Puts, Read, Told, TooOld, Vote, Write
from .replay import Step
from .trace import GO, HURRY, IDLE, RAN, RECOVER, STOP, TRUNCATE, Trace


class Words:
    """Bodies and events in words, with the tables' names of one script."""

    def __init__(self, trace: Trace) -> None:
        self.script = trace.script
        self.mail = trace.mail

    def writes(self, writes: list[Write]) -> str:
        """A list of writes."""
        return ", ".join(f"{self.script.cell(write.key)} = {write.value}" for write in writes) or "no write"

    def content(self, content: Content) -> str:
        """All that an execution did."""
        parts = [f"read {self.script.cell(read.key)} {read.value} by {read.wid}" for read in content.reads]
        parts += [f"wrote {self.script.cell(write.key)} {write.value}" for write in content.writes]
        parts += [f"printed {value}" for value in content.out]
        return ", ".join(parts + [f"ended {content.ending}"])

    def note(self, body: Note) -> str:
        """What a reader is shown."""
        gone = f", {body.gone} is gone" if body.gone else ""
        sure = "sure" if body.sure else "not sure"
        return f"{self.script.cell(body.key)} is {body.value} by {body.wid}, {sure}{gone}"

    def told(self, body: Told) -> str:
        """What a replica knows of an execution."""
        parts = [f"vote {body.vote}" if body.vote else "no vote"]
        parts += [f"accepted {body.accepted[1]} in view {body.accepted[0]}"] if body.accepted else []
        parts += [f"decided {body.decided}"] if body.decided else []
        return ", ".join(parts)

    def fenced(self, body: Fenced) -> str:
        """What a replica knows at or below a fence."""
        committed = ", ".join(str(x) for x, _ in body.committed) or "nothing"
        voted = ", ".join(str(x) for x, _ in body.voted) or "nothing"
        return f"base {self.base(body.base)}; committed {committed}; voted {voted}"

    def base(self, base: list[Read]) -> str:
        """The entries of a base."""
        return ", ".join(f"{self.script.cell(entry.key)} = {entry.value}" for entry in base) or "empty"

    def name(self, body: Body) -> str:
        """What a body is and about what, without what it carries."""
        if isinstance(body, Get):
            return f"Get {self.script.cell(body.key)} for {body.exec}"
        if isinstance(body, Note):
            return f"Note to {body.version}: {self.script.cell(body.key)} is {body.value}"
        if isinstance(body, Vote):
            return f"Vote {body.vote} on {body.exec}"
        if isinstance(body, (Finalize, Decide)):
            view = f" in view {body.view}" if isinstance(body, Finalize) else ""
            return f"{type(body).__name__} {body.choice} of {body.exec}{view}"
        if isinstance(body, (Accepted, Ask, Told)):
            return f"{type(body).__name__} {body.exec} in view {body.view}"
        if isinstance(body, TooOld):
            return f"TooOld {body.version}, {body.dropped} is dropped"
        return f"{type(body).__name__} {body.version if isinstance(body, (Fence, Fenced, Drop)) else body.exec}"

    def whole(self, body: Body) -> str:
        """The same, with what it carries."""
        carried = {
            Puts: lambda: self.writes(body.writes),
            Prepare: lambda: self.content(body.content),
            Told: lambda: self.told(body),
            Fenced: lambda: self.fenced(body),
            Drop: lambda: f"base {self.base(body.base)}",
        }
        if isinstance(body, Note):
            return f"Note to {body.version}: {self.note(body)}"
        return f"{self.name(body)}: {carried[type(body)]()}" if type(body) in carried else self.name(body)

    def sent(self, numbers: range) -> list[str]:
        """Envelopes that were sent at once, those of one body together."""
        parts = []
        for _, group in groupby(numbers, key=lambda number: id_of(self.mail[number])):
            same = list(group)
            receivers = "all replicas" if len(same) > 1 else str(self.mail[same[0]].receiver)
            names = f"e{same[0]}" if len(same) == 1 else f"e{same[0]} to e{same[-1]}"
            parts.append(f"{names} to {receivers}: {self.whole(self.mail[same[0]].body)}")
        return parts

    def did(self, step: Step) -> str:
        """What the event was."""
        event = step.event
        if step.took is not None:
            again = " again" if step.again else ""
            return f"takes e{step.took}{again}: {self.name(self.mail[step.took].body)}"
        words = {GO: step.came_of_it, HURRY: "hurries", RAN: "runs its program", STOP: "stops"}
        if event.code == RECOVER:
            return f"recovers {event.detail}"
        return f"truncates at {event.detail}" if event.code == TRUNCATE else words[event.code]

    def line(self, step: Step) -> str:
        """An event that moved the world."""
        parts = [self.did(step)]
        if step.sent:
            parts.append(f"sends {'; '.join(self.sent(step.sent))}")
        if step.came_of_it and step.event.code != GO:
            parts.append(step.came_of_it)
        return f"{step.number:>5}  {step.event.node} {'; '.join(parts)}"


def id_of(envelope: Envelope) -> object:
    """What envelopes have in common that go to all replicas at once."""
    return envelope.body if envelope.receiver.kind == "replica" else envelope


def lines(trace: Trace, steps: list[Step]) -> Iterator[str]:
    """The run in words, with how it ended."""
    words = Words(trace)
    for moved, group in groupby(steps, key=lambda step: step.number is not None):
        if moved:
            yield from (words.line(step) for step in group)
        else:
            yield "       idle: " + ", ".join(idle(step) for step in group)
    yield f"ended {trace.end} events {sum(step.number is not None for step in steps)}"


def idle(step: Step) -> str:
    """A pick that moved nothing: an idle one, or one that its node could not do then."""
    return str(step.event.node) if step.event.code == IDLE else f"{step.event.node} (a pick that could not be done)"
