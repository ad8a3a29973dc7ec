"""Frames of envelopes, read back. The fields stand in docs/FORMATS.md under "Frames"."""

from typing import Callable, Optional, TypeVar

from .bodies import (
    Accepted,
    Ask,
    Body,
    Content,
    Decide,
    Drop,
    Envelope,
    Fence,
    Fenced,
    Finalize,
    Get,
    Note,
    Prepare,
    Puts,
    Read,
    Told,
    TooOld,
    Vote,
    Write,
)
from .names import Exec, Key, Node, Refused, Version, Wid

T = TypeVar("T")

NODE_KINDS = {1: "client", 2: "replica", 3: "warden"}
NODE_COUNTS = {"client": 16, "replica": 5, "warden": 2}
CHOICES = ("Abandon", "Commit")
VOTES = ("Commit", "Tentative", "Final")
ENDINGS = ("done", "abort", "overflow", "zero divisor")
MOST_IN_CONTENT = 64
MOST_IN_BASE = 67_108_864


class Bytes:
    """Bytes that are read from the front. What cannot be read is refused."""

    def __init__(self, data: bytes) -> None:
        self.data = data
        self.at = 0

    def take(self, count: int) -> bytes:
        """The next bytes, just so many."""
        if len(self.data) - self.at < count:
            raise Refused("the bytes end too soon")
        self.at += count
        return self.data[self.at - count : self.at]

    def number(self, width: int) -> int:
        """An unsigned number of so many bytes, the highest first."""
        return int.from_bytes(self.take(width), "big")

    def signed(self) -> int:
        """A number of 64 bits in two's complement."""
        return int.from_bytes(self.take(8), "big", signed=True)

    def one_of(self, words: tuple[str, ...]) -> str:
        """The word that a byte names, counted from 0."""
        code = self.number(1)
        if code >= len(words):
            raise Refused(f"byte {self.at - 1} names nothing")
        return words[code]

    def flag(self) -> bool:
        """A byte that is 0 or 1."""
        return self.one_of(("no", "yes")) == "yes"

    def option(self, item: Callable[["Bytes"], T]) -> Optional[T]:
        """A flag, and the item where it is 1."""
        return item(self) if self.flag() else None

    def counted(self, width: int, most: int, item: Callable[["Bytes"], T]) -> list[T]:
        """A count of so many bytes, and so many items."""
        count = self.number(width)
        if count > most:
            raise Refused(f"a count before byte {self.at} is too large")
        return [item(self) for _ in range(count)]


def node(data: Bytes) -> Node:
    """A node: its kind and its number."""
    code = data.number(1)
    if code not in NODE_KINDS:
        raise Refused(f"byte {data.at - 1} names no node")
    kind, number = NODE_KINDS[code], data.number(1)
    if not 1 <= number <= NODE_COUNTS[kind]:
        raise Refused(f"byte {data.at - 1} is the number of no {kind}")
    return Node(kind, number)


def version(data: Bytes) -> Version:
    """A version."""
    return Version(data.number(8), data.number(4))


def execution(data: Bytes) -> Exec:
    """An execution."""
    return Exec(version(data), data.number(4))


def wid(data: Bytes) -> Wid:
    """A write name."""
    return Wid(version(data), data.number(4), data.number(4))


def key(data: Bytes) -> Key:
    """A key."""
    return Key(data.number(2), data.signed())


def write(data: Bytes) -> Write:
    """A write."""
    return Write(key(data), data.signed())


def read(data: Bytes) -> Read:
    """A read, or an entry of a base."""
    return Read(key(data), wid(data), data.signed())


def writes(data: Bytes) -> list[Write]:
    """A list of writes."""
    return data.counted(2, MOST_IN_CONTENT, write)


def content(data: Bytes) -> Content:
    """A content."""
    reads = data.counted(2, MOST_IN_CONTENT, read)
    return Content(reads, writes(data), data.counted(2, MOST_IN_CONTENT, Bytes.signed), data.one_of(ENDINGS))


def base(data: Bytes) -> list[Read]:
    """The entries of a base."""
    return data.counted(4, MOST_IN_BASE, read)


def kept(data: Bytes) -> list[tuple[Exec, Content]]:
    """Executions with their contents."""
    return data.counted(4, MOST_IN_BASE, lambda d: (execution(d), content(d)))


def choice_with_content(data: Bytes) -> tuple[str, Optional[Content]]:
    """A choice, and for Commit the content."""
    choice = data.one_of(CHOICES)
    return choice, content(data) if choice == "Commit" else None


def perhaps(data: Bytes, words: tuple[str, ...]) -> Optional[str]:
    """One of the words, or 0 for none of them."""
    word = data.one_of(("",) + words)
    return word or None


def told(data: Bytes) -> Told:
    """The body of a Told."""
    x, view = execution(data), data.number(4)
    vote = perhaps(data, VOTES)
    accepted = data.option(lambda d: (d.number(4), d.one_of(CHOICES)))
    return Told(x, view, vote, accepted, perhaps(data, CHOICES), data.option(content))


BODIES: dict[int, Callable[[Bytes], Body]] = {
    1: lambda d: Get(execution(d), key(d)),
    2: lambda d: Note(version(d), key(d), wid(d), d.signed(), d.flag(), d.option(wid)),
    3: lambda d: Puts(execution(d), writes(d)),
    4: lambda d: Prepare(execution(d), content(d)),
    5: lambda d: Vote(execution(d), d.one_of(VOTES)),
    6: lambda d: Finalize(execution(d), d.number(4), *choice_with_content(d)),
    7: lambda d: Accepted(execution(d), d.number(4)),
    8: lambda d: Decide(execution(d), *choice_with_content(d)),
    9: lambda d: Ask(execution(d), d.number(4)),
    10: told,
    11: lambda d: Fence(version(d)),
    12: lambda d: Fenced(version(d), base(d), kept(d), kept(d)),
    13: lambda d: Drop(version(d), base(d)),
    14: lambda d: TooOld(version(d), version(d)),
}


def envelope(data: Bytes) -> Envelope:
    """One frame."""
    if data.number(1) != 1:
        raise Refused(f"byte {data.at - 1} is not the version of a frame")
    kind = data.number(1)
    if kind not in BODIES:
        raise Refused(f"byte {data.at - 1} is the kind of no frame")
    sender, receiver = node(data), node(data)
    return Envelope(sender, receiver, BODIES[kind](data))
