"""A trace, event by event: which envelope each event took, and which ones it sent.

A trace does not say which event sent an envelope. The protocol does: it fixes whether a node sends, and to whom, from what
the node took and sent before. So each event is replayed at its node, and takes from the front of the mail just what the
protocol has it send. Where a front does not fit, or envelopes are left at the end, the bytes are refused."""

from dataclasses import dataclass
from typing import Optional, Union

from .client import Client
from .mail import Mail
from .names import Node, Refused
from .replica import Replica
from .trace import DELIVER, GO, HURRY, RAN, RECOVER, STOP, TRUNCATE, Event, Trace
from .warden import Warden

AnyNode = Union[Client, Replica, Warden]
KINDS = {"client": Client, "replica": Replica, "warden": Warden}


@dataclass(frozen=True)
class Step:
    """What an event did. Its number counts the events that moved the world; one that did not has none."""

    event: Event
    number: Optional[int]
    took: Optional[int]
    again: bool
    sent: range
    came_of_it: str


class World:
    """The nodes of a trace, and the mail up to here."""

    def __init__(self, trace: Trace) -> None:
        self.mail = Mail(trace.mail)
        self.nodes: dict[Node, AnyNode] = {node: KINDS[node.kind](node, trace.script, self.mail) for node in trace.script.nodes()}
        self.delivered: set[int] = set()
        self.moved = 0

    def step(self, event: Event) -> Step:
        """Replays one event. A node that stopped is among the nodes no more."""
        first = self.mail.sent
        node = self.nodes.get(event.node)
        before = story(node)
        again = event.detail in self.delivered
        if node is None or self.mail.is_full or not self.act(node, event):
            return Step(event, None, None, False, range(0), "")
        self.moved += 1
        took = event.detail if event.code == DELIVER else None
        return Step(event, self.moved, took, took is not None and again, range(first, self.mail.sent), what_came(before, story(node)))

    def act(self, node: AnyNode, event: Event) -> bool:
        """Does what the event does, where the node can do it."""
        if event.code == DELIVER:
            return self.deliver(node, event.detail)
        if event.code == STOP:
            del self.nodes[event.node]
            return True
        if isinstance(node, Client) and event.code in (GO, HURRY, RAN):
            return {GO: node.go, HURRY: node.hurry, RAN: node.ran}[event.code]()
        if isinstance(node, Warden) and event.code in (RECOVER, TRUNCATE):
            return {RECOVER: node.recover, TRUNCATE: node.truncate}[event.code](event.detail)
        return False

    def deliver(self, node: AnyNode, number: int) -> bool:
        """Hands an envelope that was sent to this node, for the first time or again."""
        if not self.mail.is_sent(number) or self.mail.envelopes[number].receiver != node.node:
            return False
        self.delivered.add(number)
        node.take(self.mail.envelopes[number])
        return True


def story(node: Optional[AnyNode]) -> tuple:
    """What of a client tells how far its transaction is."""
    return (node.exec, node.fate, node.tries, node.begun) if isinstance(node, Client) else ()


def what_came(before: tuple, after: tuple) -> str:
    """In words, what changed of that."""
    if before == after:
        return ""
    x, fate, tries, begun = after
    if fate != "live":
        return f"{x.version} is {fate}"
    return f"{x} begins" if x.eid else f"begins {x.version}, transaction {x.version.client}.{begun}, try {tries}"


def replay(trace: Trace) -> list[Step]:
    """All events of a trace with what they took and sent."""
    world = World(trace)
    steps = [world.step(event) for event in trace.events]
    if world.mail.sent < len(trace.mail):
        raise Refused(f"the envelopes are not those of its events: no event sends e{world.mail.sent}")
    return steps
