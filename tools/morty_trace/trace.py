"""A trace, read back, and what its script says. The bytes stand in docs/FORMATS.md under "The trace"."""

import re
from dataclasses import dataclass, field
from typing import Union

from .bodies import Envelope
from .frames import Bytes, envelope, execution, node, version
from .names import Exec, Key, Node, Refused, Version

MAGIC = b"MTY1"
ENDS = ("quiet", "spent", "full")
IDLE, DELIVER, GO, HURRY, RECOVER, TRUNCATE, STOP, RAN = range(8)

Detail = Union[None, int, Exec, Version]


@dataclass(frozen=True)
class Event:
    """What happened to a node; the detail is an envelope's number, an execution or a version, as the code asks."""

    node: Node
    code: int
    detail: Detail


@dataclass
class Script:
    """What the script of a trace says, but for its programs."""

    settings: dict[str, int] = field(default_factory=dict)
    rewinds: bool = True
    tables: list[str] = field(default_factory=list)
    firsts: dict[Key, int] = field(default_factory=dict)
    starts: list[list[int]] = field(default_factory=list)  # of each client, when its transactions start

    @property
    def replicas(self) -> int:
        """How many replicas there are."""
        return self.settings["replicas"]

    @property
    def quorum(self) -> int:
        """How many replicas are a quorum."""
        return self.replicas // 2 + 1

    @property
    def execs(self) -> int:
        """How often one try may be executed."""
        return self.settings["execs"] if self.rewinds else 1

    def nodes(self) -> list[Node]:
        """All nodes, in the order of their slots."""
        counts = (("client", len(self.starts)), ("replica", self.replicas), ("warden", self.settings["wardens"]))
        return [Node(kind, number) for kind, count in counts for number in range(1, count + 1)]

    def cell(self, key: Key) -> str:
        """A key as scripts write it."""
        name = self.tables[key.table] if key.table < len(self.tables) else f"table {key.table} "
        return f"{name}[{key.index}]"


@dataclass(frozen=True)
class Trace:
    """The script, the events, the envelopes in the order in which they were sent, and the end."""

    script: Script
    events: list[Event]
    mail: list[Envelope]
    end: str


def script_of(text: str) -> Script:
    """What a canonical text says: it has one item on each line."""
    script = Script()
    for line in text.splitlines():
        word, _, rest = line.partition(" ")
        if word in ("replicas", "wardens", "tries", "execs", "gap"):
            script.settings[word] = int(rest)
        elif word == "policy":
            script.rewinds = rest == "rewind"
        elif word == "table":
            script.tables.append(rest)
        elif word == "first":
            name, index, value = re.split(r"\[|\] ", rest)
            script.firsts[Key(script.tables.index(name), int(index))] = int(value)
        elif word == "client":
            script.starts.append([int(start) for start in re.findall(r" at (\d+)", rest)])
    if len(script.settings) < 5 or script.replicas < 1:
        raise ValueError("a setting is not there")
    return script


def detail(data: Bytes, code: int) -> Detail:
    """What stands behind the node of an event."""
    if code == DELIVER:
        return data.number(8)
    if code == RECOVER:
        return execution(data)
    return version(data) if code == TRUNCATE else None


def event(data: Bytes) -> Event:
    """One event."""
    code = data.number(1)
    if code > RAN:
        raise Refused(f"byte {data.at - 1} is the code of no event")
    who = node(data)
    if code == RAN and who.kind != "client":
        raise Refused(f"byte {data.at - 2} gives a segment to a {who.kind}")
    return Event(who, code, detail(data, code))


def trace(raw: bytes) -> Trace:
    """The trace that the bytes are."""
    data = Bytes(raw)
    if data.take(4) != MAGIC:
        raise Refused("the bytes do not begin with MTY1")
    text = data.take(data.number(4))
    try:
        script = script_of(text.decode("ascii"))
    except (ValueError, IndexError) as error:
        raise Refused("its script is no canonical text") from error
    events = [event(data) for _ in range(data.number(4))]
    mail = [envelope(data) for _ in range(data.number(4))]
    end = data.one_of(ENDS)
    if data.at != len(raw):
        raise Refused("bytes follow the end")
    return Trace(script, events, mail, end)
