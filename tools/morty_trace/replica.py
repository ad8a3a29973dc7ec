"""A replica, as far as what it took says when it answers and when its readers are due a Note."""

from dataclasses import dataclass, field
from typing import Callable, Iterable, NamedTuple, Optional

from .bodies import Accepted, Ask, Body, Content, Decide, Drop, Envelope, Fence, Fenced, Finalize, Get, Note, Prepare, Puts, Read, Told, TooOld, Vote, Write
from .mail import Mail
from .names import FIRST_WID, NO_VERSION, Exec, Key, Node, Refused, Version, Wid
from .trace import Script


class Held(NamedTuple):
    """A write as a reader is shown it."""

    wid: Wid
    value: int
    sure: bool


class Reader(NamedTuple):
    """A key that was read at a version."""

    key: Key
    version: Version


def last_write(x: Exec, writes: list[Write], key: Key, sure: bool) -> list[Held]:
    """The last write of the key in the list, if there is one."""
    named = [Held(Wid(x.version, x.eid, place), write.value, sure) for place, write in enumerate(writes, 1) if write.key == key]
    return named[-1:]


def keys_of(writes: list[Write]) -> set[Key]:
    """The keys that are written."""
    return {write.key for write in writes}


@dataclass
class Replica:
    """What one replica knows above the version that it dropped, and its base."""

    node: Node
    script: Script
    mail: Mail
    dropped: Version = NO_VERSION
    base: list[Read] = field(default_factory=list)
    promised: dict[Exec, int] = field(default_factory=dict)
    voted: set[Exec] = field(default_factory=set)
    decided: set[Exec] = field(default_factory=set)
    abandoned: dict[Version, int] = field(default_factory=dict)  # the greatest execution decided Abandon
    puts: dict[Version, Puts] = field(default_factory=dict)
    commits: dict[Exec, Content] = field(default_factory=dict)
    readers: set[Reader] = field(default_factory=set)

    def take(self, envelope: Envelope) -> None:
        """Handles an envelope by the rule for its body."""
        rules: dict[type, Callable[[Node, Body], None]] = {
            Get: self.on_get,
            Puts: self.on_puts,
            Prepare: self.on_prepare,
            Finalize: self.on_finalize,
            Decide: self.on_decide,
            Ask: self.on_ask,
            Fence: self.on_fence,
            Drop: self.on_drop,
        }
        body = envelope.body
        if type(body) not in rules:
            return
        about = body.version if isinstance(body, (Fence, Drop)) else body.exec.version
        if about > self.dropped:
            rules[type(body)](envelope.sender, body)
        elif isinstance(body, Get):
            self.mail.send(self.node, envelope.sender, TooOld, about)

    def on_get(self, sender: Node, body: Get) -> None:
        """A read is answered, and its reader remembered."""
        reader = Reader(body.key, body.exec.version)
        self.send_note(sender, reader, self.latest(reader), None)
        self.readers.add(reader)

    def on_puts(self, sender: Node, body: Puts) -> None:
        """A later execution, or a longer list of the same one, replaces what is kept."""
        old = self.puts.get(body.exec.version)
        if old is None or (old.exec.eid, len(old.writes)) < (body.exec.eid, len(body.writes)):
            keys = keys_of(body.writes) | (keys_of(old.writes) if old else set())
            self.change(keys, lambda: self.puts.update({body.exec.version: body}))

    def on_prepare(self, sender: Node, body: Prepare) -> None:
        """A vote is cast once, before a view above 0 is promised and before a decision."""
        x = body.exec
        if self.promised.get(x, 0) == 0 and x not in self.voted and x not in self.decided:
            self.voted.add(x)
            self.mail.send(self.node, sender, Vote, x)

    def on_finalize(self, sender: Node, body: Finalize) -> None:
        """A choice is accepted unless a higher view is promised."""
        if self.promised.get(body.exec, 0) <= body.view:
            self.promised[body.exec] = body.view
            self.mail.send(self.node, sender, Accepted, body.exec)

    def on_ask(self, sender: Node, body: Ask) -> None:
        """A view above all that were promised is promised, and what is known is told."""
        if self.promised.get(body.exec, 0) < body.view:
            self.promised[body.exec] = body.view
            self.mail.send(self.node, sender, Told, body.exec)

    def on_decide(self, sender: Node, body: Decide) -> None:
        """The first decision on an execution counts."""
        if body.exec in self.decided:
            return
        self.decided.add(body.exec)
        put = self.puts.get(body.exec.version)
        keys = (keys_of(put.writes) if put else set()) | (keys_of(body.content.writes) if body.content else set())
        self.change(keys, lambda: self.settle(body))

    def settle(self, body: Decide) -> None:
        """Keeps a committed content, or which execution was abandoned."""
        version = body.exec.version
        if body.content is not None:
            self.commits[body.exec] = body.content
        else:
            self.abandoned[version] = max(self.abandoned.get(version, 0), body.exec.eid)

    def on_fence(self, sender: Node, body: Fence) -> None:
        """A fence is always answered."""
        self.mail.send(self.node, sender, Fenced, body.version)

    def on_drop(self, sender: Node, body: Drop) -> None:
        """All at or below the version is forgotten, and the base stands for it."""
        self.readers = {reader for reader in self.readers if reader.version > body.version}
        self.change({reader.key for reader in self.readers}, lambda: self.forget(body))

    def forget(self, body: Drop) -> None:
        """Keeps the base, and what is above the version."""
        self.dropped, self.base = body.version, body.base
        self.puts = {version: put for version, put in self.puts.items() if version > body.version}
        self.commits = {x: content for x, content in self.commits.items() if x.version > body.version}

    def held(self, key: Key) -> list[Held]:
        """The writes that are held of a key: the first value, the base's, the committed ones, and those of counting Puts."""
        held = [Held(FIRST_WID, self.script.firsts.get(key, 0), True)]
        held += [Held(entry.wid, entry.value, True) for entry in self.base if entry.key == key]
        for x, content in self.commits.items():
            held += last_write(x, content.writes, key, True)
        committed = {x.version for x in self.commits}
        for version, put in self.puts.items():
            if version not in committed and put.exec.eid > self.abandoned.get(version, -1):
                held += last_write(put.exec, put.writes, key, False)
        return held

    def latest(self, reader: Reader) -> Held:
        """The held write of the greatest name below the reader's version."""
        return max((held for held in self.held(reader.key) if held.wid.version < reader.version), key=lambda held: held.wid)

    def change(self, keys: Iterable[Key], act: Callable[[], None]) -> None:
        """Acts, and sends each reader of these keys that is now shown another write, value or certainty its Note."""
        of_keys = set(keys)
        shown = {reader: self.latest(reader) for reader in sorted(self.readers) if reader.key in of_keys}
        act()
        for reader, old in shown.items():
            new = self.latest(reader)
            if new != old:
                is_gone = all(held.wid != old.wid for held in self.held(reader.key))
                self.send_note(Node("client", reader.version.client), reader, new, old.wid if is_gone else None)

    def send_note(self, receiver: Node, reader: Reader, shown: Held, gone: Optional[Wid]) -> None:
        """The Note that tells a reader what it is shown."""
        body = self.mail.send(self.node, receiver, Note, reader.version)
        if body != Note(reader.version, reader.key, *shown, gone):
            raise Refused(f"the envelopes are not those of its events: e{self.mail.sent - 1} tells another write than {self.node} holds")
