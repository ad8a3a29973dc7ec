"""The names of a run: versions, executions, write names, keys and nodes. Tuples, so their orders are the protocol's."""

from typing import NamedTuple


class Version(NamedTuple):
    """A version `ts.client`."""

    ts: int
    client: int

    def __str__(self) -> str:
        return f"{self.ts}.{self.client}"


NO_VERSION = Version(0, 0)


class Exec(NamedTuple):
    """An execution: a version and a number from 0."""

    version: Version
    eid: int

    def __str__(self) -> str:
        return f"{self.version} exec {self.eid}"


class Wid(NamedTuple):
    """A write name: an execution and the place of the write in it, from 1."""

    version: Version
    eid: int
    seq: int

    def __str__(self) -> str:
        return "the first value" if self.version == NO_VERSION else f"write {self.seq} of {Exec(self.version, self.eid)}"


FIRST_WID = Wid(NO_VERSION, 0, 0)


class Key(NamedTuple):
    """A cell of a table; tables are numbered from 0."""

    table: int
    index: int


class Node(NamedTuple):
    """A client, replica or warden, with its number from 1."""

    kind: str
    number: int

    def __str__(self) -> str:
        return f"{self.kind} {self.number}"


class Refused(Exception):
    """The bytes are no trace; its text is the line that says why."""
