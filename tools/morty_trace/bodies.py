"""What nodes send one another, as plain values."""

from dataclasses import dataclass
from typing import Optional, Union

from .names import Exec, Key, Node, Version, Wid


@dataclass(frozen=True)
class Write:
    """A value that a key is given."""

    key: Key
    value: int


@dataclass(frozen=True)
class Read:
    """A value that a key showed, and the write that gave it: of a read, or of an entry of a base."""

    key: Key
    wid: Wid
    value: int


@dataclass(frozen=True)
class Content:
    """All that an execution did."""

    reads: list[Read]
    writes: list[Write]
    out: list[int]
    ending: str


@dataclass(frozen=True)
class Get:
    """An execution reads a key."""

    exec: Exec
    key: Key


@dataclass(frozen=True)
class Note:
    """At this version the key shows this write now; perhaps another one is gone."""

    version: Version
    key: Key
    wid: Wid
    value: int
    sure: bool
    gone: Optional[Wid]


@dataclass(frozen=True)
class Puts:
    """All writes that an execution has made so far."""

    exec: Exec
    writes: list[Write]


@dataclass(frozen=True)
class Prepare:
    """An execution has ended: vote on it."""

    exec: Exec
    content: Content


@dataclass(frozen=True)
class Vote:
    """A replica's vote."""

    exec: Exec
    vote: str


@dataclass(frozen=True)
class Finalize:
    """A choice is proposed in a view."""

    exec: Exec
    view: int
    choice: str
    content: Optional[Content]


@dataclass(frozen=True)
class Accepted:
    """A replica accepted what was proposed in a view."""

    exec: Exec
    view: int


@dataclass(frozen=True)
class Decide:
    """The choice is made."""

    exec: Exec
    choice: str
    content: Optional[Content]


@dataclass(frozen=True)
class Ask:
    """A warden asks for the promise of a view, and for what is known."""

    exec: Exec
    view: int


@dataclass(frozen=True)
class Told:
    """A replica promised the view, and tells what it knows."""

    exec: Exec
    view: int
    vote: Optional[str]
    accepted: Optional[tuple[int, str]]
    decided: Optional[str]
    content: Optional[Content]


@dataclass(frozen=True)
class Fence:
    """Vote Commit on nothing more at or below this version."""

    version: Version


@dataclass(frozen=True)
class Fenced:
    """A replica does so, and tells what it knows there."""

    version: Version
    base: list[Read]
    committed: list[tuple[Exec, Content]]
    voted: list[tuple[Exec, Content]]


@dataclass(frozen=True)
class Drop:
    """Forget all at or below this version; the base stands for it."""

    version: Version
    base: list[Read]


@dataclass(frozen=True)
class TooOld:
    """The version of a read is at or below the dropped one."""

    version: Version
    dropped: Version


Body = Union[Get, Note, Puts, Prepare, Vote, Finalize, Accepted, Decide, Ask, Told, Fence, Fenced, Drop, TooOld]


@dataclass(frozen=True)
class Envelope:
    """What one node sent to another."""

    sender: Node
    receiver: Node
    body: Body
