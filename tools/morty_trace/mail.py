"""The mail of a trace, taken envelope by envelope in the order in which they were sent."""

from typing import Optional, TypeVar, Union

from .bodies import Body, Envelope
from .names import Exec, Node, Refused, Version

B = TypeVar("B", bound=Body)

MAIL_LIMIT = 200_000


class Mail:
    """All envelopes of a trace, and how many of them the events so far have sent."""

    def __init__(self, envelopes: list[Envelope]) -> None:
        self.envelopes = envelopes
        self.sent = 0

    @property
    def is_full(self) -> bool:
        """Whether nothing moves the world any more."""
        return self.sent >= MAIL_LIMIT

    def is_sent(self, number: int) -> bool:
        """Whether the envelope of this number was sent by now."""
        return number < self.sent

    def peek(self, sender: Node) -> Optional[Body]:
        """The body that is sent next, where it is this node that sends it."""
        if self.sent < len(self.envelopes) and self.envelopes[self.sent].sender == sender:
            return self.envelopes[self.sent].body
        return None

    def send(self, sender: Node, receiver: Node, kind: type[B], about: Union[Exec, Version]) -> B:
        """Takes the next envelope, which the protocol wants to be of this kind, and about this execution or version."""
        body = self.peek(sender)
        if not isinstance(body, kind) or self.envelopes[self.sent].receiver != receiver or about not in names_of(body):
            raise Refused(f"the envelopes are not those of its events: e{self.sent} is no {kind.__name__} of {sender} to {receiver}")
        self.sent += 1
        return body

    def send_to_all(self, sender: Node, replicas: int, kind: type[B], about: Union[Exec, Version]) -> B:
        """The same to each replica in order; the bodies are one."""
        bodies = [self.send(sender, Node("replica", number), kind, about) for number in range(1, replicas + 1)]
        if any(body != bodies[0] for body in bodies):
            raise Refused(f"the envelopes are not those of its events: what {sender} sends before e{self.sent} differs")
        return bodies[0]


def names_of(body: Body) -> tuple[object, object]:
    """The execution or version that the body is about."""
    return getattr(body, "exec", None), getattr(body, "version", None)
