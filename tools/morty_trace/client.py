"""A client, as far as what it took and sent says when it sends. Its programs are not run: what a segment of a program
wrote, asked or ended in is read from what it sent."""

from dataclasses import dataclass, field
from typing import Optional, Union

from .bodies import Accepted, Content, Decide, Envelope, Finalize, Get, Note, Prepare, Puts, Read, TooOld, Vote
from .mail import B, Mail
from .names import NO_VERSION, Exec, Key, Node, Refused, Version, Wid
from .replica import Held
from .trace import Script


@dataclass(frozen=True)
class Answer:
    """An answered read: the label in use, and while prepared perhaps a next one."""

    key: Key
    label: Held
    next: Optional[Held] = None

    @property
    def newest(self) -> Held:
        """The label with which Notes are compared."""
        return self.next or self.label

    @property
    def is_change(self) -> bool:
        """Whether the next label names another write."""
        return self.newest.wid != self.label.wid

    @property
    def has_other_value(self) -> bool:
        """Whether the next label has another value."""
        return self.newest.value != self.label.value

    def moved_on(self) -> "Answer":
        """The read with its next label in use."""
        return Answer(self.key, self.newest)


@dataclass
class Prepared:
    """A prepared execution: its content, the first vote of each replica, and what became of a proposal."""

    content: Content
    votes: dict[int, str] = field(default_factory=dict)
    proposed: bool = False
    accepts: set[int] = field(default_factory=set)

    def count(self, *votes: str) -> int:
        """How many replicas voted so."""
        return sum(vote in votes for vote in self.votes.values())


@dataclass
class Client:
    """One client. While a segment of its program is under way it is `pending`; when the program has ended, `ended`."""

    node: Node
    script: Script
    mail: Mail
    begun: int = 0
    tries: int = 0
    exec: Exec = Exec(NO_VERSION, 0)
    fate: str = "unbegun"
    answers: list[Answer] = field(default_factory=list)
    asked: Optional[Key] = None
    pending: bool = False
    ended: bool = False
    prepared: Optional[Prepared] = None

    @property
    def live(self) -> bool:
        """Whether an attempt is under way."""
        return self.fate == "live"

    @property
    def starts(self) -> list[int]:
        """When each of its transactions starts."""
        return self.script.starts[self.node.number - 1]

    @property
    def tries_again(self) -> bool:
        """Whether an aborted transaction has a try left."""
        return self.fate == "aborted" and self.tries < self.script.settings["tries"]

    def to_all(self, kind: type[B]) -> B:
        """Takes what it sends to all replicas about its execution."""
        return self.mail.send_to_all(self.node, self.script.replicas, kind, self.exec)

    def go(self) -> bool:
        """Begins the next try or transaction, where there is one."""
        if self.live or not (self.tries_again or self.begun < len(self.starts)):
            return False
        self.begun, self.tries = (self.begun, self.tries + 1) if self.tries_again else (self.begun + 1, 1)
        start = self.starts[self.begun - 1] + (self.tries - 1) * self.script.settings["gap"]
        self.begin(Exec(Version(max(start, self.exec.version.ts + 1), self.node.number), 0), [])
        self.fate = "live"
        return True

    def begin(self, x: Exec, answers: list[Answer]) -> None:
        """Begins an execution that runs on from these answers."""
        self.exec, self.answers = x, answers
        self.asked, self.pending, self.ended, self.prepared = None, True, False, None

    def ran(self) -> bool:
        """A segment is given back: its writes went out, then its question, or the Prepare where it ended and is ready."""
        if not (self.live and self.pending):
            return False
        self.pending = False
        if self.sends_next(Puts):
            self.to_all(Puts)
        if self.sends_next(Get):
            self.asked = self.to_all(Get).key
        else:
            self.ended = True
            self.prepare_if_ready()
        return True

    def sends_next(self, kind: Union[type[Puts], type[Get]]) -> bool:
        """Whether the next envelope is of this kind, and about its execution. Only a segment sends it, so this one did."""
        body = self.mail.peek(self.node)
        return isinstance(body, kind) and body.exec == self.exec

    def prepare_if_ready(self) -> None:
        """An execution that has ended, each of whose reads is sure, is prepared at once."""
        if not self.ended or not all(answer.label.sure for answer in self.answers):
            return
        body = self.to_all(Prepare)
        if body.content.reads != [Read(answer.key, answer.label.wid, answer.label.value) for answer in self.answers]:
            raise Refused(f"the envelopes are not those of its events: the reads of {self.exec} are others than it was told")
        self.prepared = Prepared(body.content)

    def hurry(self) -> bool:
        """Proposes without waiting for more votes."""
        if not self.live or self.prepared is None or self.prepared.proposed:
            return False
        self.propose()
        return True

    def propose(self) -> None:
        """Proposes what its votes say."""
        self.prepared.proposed = True
        self.to_all(Finalize)

    def take(self, envelope: Envelope) -> None:
        """Handles an envelope. Between attempts nothing counts."""
        body, sender = envelope.body, envelope.sender
        if not self.live:
            return
        if isinstance(body, Note) and body.version == self.exec.version:
            self.on_note(body)
        elif isinstance(body, TooOld) and body.version == self.exec.version and self.prepared is None:
            self.give_up()
        elif isinstance(body, Decide) and sender.kind == "warden" and body.exec == self.exec:
            self.on_decision(body.choice)
        elif self.prepared is not None and sender.kind == "replica" and isinstance(body, (Vote, Accepted)) and body.exec == self.exec:
            self.on_vote(sender.number, body) if isinstance(body, Vote) else self.on_accepted(sender.number, body)

    def on_note(self, note: Note) -> None:
        """A Note answers the question, or is about a read that was answered."""
        told = Held(note.wid, note.value, note.sure)
        if self.prepared is None and not self.pending and self.asked == note.key:
            self.answers.append(Answer(note.key, told))
            self.asked, self.pending = None, True
            return
        for place, answer in enumerate(self.answers):
            if answer.key == note.key:
                self.follow(place, told, note.gone)
                return

    def follow(self, place: int, told: Held, gone: Optional[Wid]) -> None:
        """A read turns sure by its own write, and follows a later one, or any other once its own is gone."""
        answer = self.answers[place]
        old = answer.newest
        if told.wid == old.wid:
            told = old._replace(sure=True) if told.sure else old
        elif not (told.wid > old.wid or gone == old.wid):
            return
        if self.prepared is not None:
            has_next = answer.next is not None or told.wid != old.wid
            self.answers[place] = Answer(answer.key, answer.label, told if has_next else None)
        elif told.value != old.value:
            self.rewind(place, Answer(answer.key, told))
        elif told != old:
            self.answers[place] = Answer(answer.key, told)
            if not self.pending:
                self.prepare_if_ready()

    def rewind(self, place: int, answer: Answer) -> None:
        """The next execution begins at a read with another value; at the limit the attempt is given up."""
        if self.exec.eid + 1 < self.script.execs:
            self.begin(self.next_exec(), self.answers[:place] + [answer])
        else:
            self.give_up()

    def next_exec(self) -> Exec:
        """The next execution of its version."""
        return Exec(self.exec.version, self.exec.eid + 1)

    def give_up(self) -> None:
        """Abandons an execution that is not prepared, and the attempt."""
        self.to_all(Decide)
        self.finish("aborted")

    def finish(self, fate: str) -> None:
        """The attempt ends."""
        self.fate, self.prepared, self.pending = fate, None, False

    def on_vote(self, replica: int, body: Vote) -> None:
        """The first vote of each replica counts, until a proposal."""
        prepared = self.prepared
        if prepared.proposed or replica in prepared.votes:
            return
        prepared.votes[replica] = body.vote
        commits, others = prepared.count("Commit"), prepared.count("Tentative", "Final")
        if commits == self.script.replicas:
            self.decide("Commit")
        elif prepared.count("Final"):
            self.decide("Abandon")
        elif (others and commits >= self.script.quorum) or others >= self.script.quorum:
            self.propose()

    def on_accepted(self, replica: int, body: Accepted) -> None:
        """A quorum that accepted the proposal of view 0 decides it."""
        prepared = self.prepared
        if not prepared.proposed or body.view != 0 or replica in prepared.accepts:
            return
        prepared.accepts.add(replica)
        if len(prepared.accepts) >= self.script.quorum:
            self.decide(None)

    def decide(self, choice: Optional[str]) -> None:
        """Its own decision goes to all; None stands for what it proposed."""
        body = self.to_all(Decide)
        if choice not in (None, body.choice):
            raise Refused(f"the envelopes are not those of its events: {self.exec} is decided {body.choice} against its votes")
        self.conclude(body.choice)

    def on_decision(self, choice: str) -> None:
        """A warden decided its execution."""
        if self.prepared is not None:
            self.conclude(choice)
        else:
            self.finish("committed" if choice == "Commit" else "aborted")

    def conclude(self, choice: str) -> None:
        """The attempt ends, or after an Abandon with a change pending its next execution begins."""
        if choice == "Commit":
            self.finish("committed")
        elif any(answer.is_change for answer in self.answers) and self.exec.eid + 1 < self.script.execs:
            self.next_execution(self.prepared.content.ending)
        else:
            self.finish("aborted")

    def next_execution(self, ending: str) -> None:
        """Runs again from the first read whose value changed; where none did, the ending stays, and Puts go out again."""
        changed = [place for place, answer in enumerate(self.answers) if answer.has_other_value]
        moved = [answer.moved_on() for answer in self.answers]
        self.begin(self.next_exec(), moved[: changed[0] + 1] if changed else moved)
        if not changed:
            self.pending, self.ended = False, True
            if ending == "done":
                self.to_all(Puts)
            self.prepare_if_ready()
