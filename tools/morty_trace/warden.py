"""A warden, as far as what it took and sent says when it sends."""

from dataclasses import dataclass, field
from typing import Optional, Union

from .bodies import Accepted, Ask, Decide, Drop, Envelope, Fence, Fenced, Finalize, Told
from .mail import B, Mail
from .names import NO_VERSION, Exec, Node, Version
from .trace import Script

MOST_TRUNCATIONS = 16


@dataclass
class Round:
    """One view of an execution: who told, whether the warden proposed, and who accepted."""

    view: int
    tolds: set[int] = field(default_factory=set)
    proposed: bool = False
    accepts: set[int] = field(default_factory=set)


@dataclass
class Truncation:
    """A truncation: the answers to its fence that count, and whether its Drop was sent."""

    version: Version
    answers: dict[int, Fenced] = field(default_factory=dict)
    dropped: bool = False

    def to_recover(self) -> list[Exec]:
        """What the answers name as voted, and none of them as committed."""
        committed = {x for answer in self.answers.values() for x, _ in answer.committed}
        return [x for answer in self.answers.values() for x, _ in answer.voted if x not in committed]


@dataclass
class Warden:
    """One warden."""

    node: Node
    script: Script
    mail: Mail
    rounds: dict[Exec, list[Round]] = field(default_factory=dict)
    decided: set[Exec] = field(default_factory=set)
    truncations: list[Truncation] = field(default_factory=list)

    def to_all(self, kind: type[B], about: Union[Exec, Version]) -> B:
        """Takes what it sends to all replicas."""
        return self.mail.send_to_all(self.node, self.script.replicas, kind, about)

    def recover(self, x: Exec) -> bool:
        """Asks about an execution in its next view, unless it decided it."""
        if x in self.decided:
            return False
        rounds = self.rounds.setdefault(x, [])
        rounds.append(Round(self.node.number + len(rounds) * self.script.settings["wardens"]))
        self.to_all(Ask, x)
        return True

    def truncate(self, version: Version) -> bool:
        """Asks for a fence, where no truncation is under way and the version is above the earlier ones."""
        last = self.truncations[-1].version if self.truncations else NO_VERSION
        is_under_way = bool(self.truncations) and not self.truncations[-1].dropped
        if is_under_way or version <= last or len(self.truncations) >= MOST_TRUNCATIONS:
            return False
        self.truncations.append(Truncation(version))
        self.to_all(Fence, version)
        return True

    def take(self, envelope: Envelope) -> None:
        """Handles an envelope: recovery first, then the truncation."""
        body, sender = envelope.body, envelope.sender
        if sender.kind == "replica":
            if isinstance(body, (Told, Accepted)) and body.exec not in self.decided:
                self.hear(sender.number, body, self.round_of(body.exec, body.view))
            elif isinstance(body, Fenced):
                self.on_fenced(sender.number, body)
        self.finish()

    def round_of(self, x: Exec, view: int) -> Optional[Round]:
        """The round of an execution in a view, where it asked in it."""
        return next((asked for asked in self.rounds.get(x, []) if asked.view == view), None)

    def hear(self, replica: int, body: Union[Told, Accepted], asked: Optional[Round]) -> None:
        """The first quorum of Tolds of a view fixes its proposal, and a quorum that accepts it decides."""
        if asked is None:
            return
        if isinstance(body, Told) and not asked.proposed:
            asked.tolds.add(replica)
            if len(asked.tolds) >= self.script.quorum:
                asked.proposed = True
                self.to_all(Finalize, body.exec)
        elif isinstance(body, Accepted) and asked.proposed:
            asked.accepts.add(replica)
            if len(asked.accepts) >= self.script.quorum:
                self.decide(body.exec)

    def decide(self, x: Exec) -> None:
        """All replicas are told, then the client of the version, if the script has it."""
        self.decided.add(x)
        self.to_all(Decide, x)
        if 1 <= x.version.client <= len(self.script.starts):
            self.mail.send(self.node, Node("client", x.version.client), Decide, x)

    def on_fenced(self, replica: int, body: Fenced) -> None:
        """The first quorum of answers to a fence names what has to be recovered."""
        if not self.truncations:
            return
        truncation = self.truncations[-1]
        is_due = not truncation.dropped and body.version == truncation.version and len(truncation.answers) < self.script.quorum
        if not is_due or replica in truncation.answers:
            return
        truncation.answers[replica] = body
        if len(truncation.answers) == self.script.quorum:
            for x in truncation.to_recover():
                if x not in self.rounds:
                    self.recover(x)

    def finish(self) -> None:
        """Once all that the answers name is decided, Drop goes to all."""
        if not self.truncations:
            return
        truncation = self.truncations[-1]
        if truncation.dropped or len(truncation.answers) < self.script.quorum:
            return
        if all(x in self.decided for x in truncation.to_recover()):
            truncation.dropped = True
            self.to_all(Drop, truncation.version)
