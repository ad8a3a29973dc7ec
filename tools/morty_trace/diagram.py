"""A run as a space-time diagram: a line for each node, time downward, an arrow for each delivered envelope."""

from html import escape

from .bodies import Decide, Envelope, Finalize, Vote
from .names import Node
from .replay import Step
from .trace import GO, HURRY, RAN, RECOVER, STOP, TRUNCATE, Trace

LETTER = 7
NARROWEST = 170
ROW = 22
MARGIN = 46
TOP = 46
BOW = 14
COLOURS = {
    "Get": "#1f5fa8",
    "Note": "#1f5fa8",
    "TooOld": "#1f5fa8",
    "Puts": "#5b6b7a",
    "Prepare": "#2e7d32",
    "Vote": "#2e7d32",
    "Finalize": "#b45309",
    "Accepted": "#b45309",
    "Decide": "#b3261e",
    "Ask": "#6a3d9a",
    "Told": "#6a3d9a",
    "Fence": "#8a6d00",
    "Fenced": "#8a6d00",
    "Drop": "#8a6d00",
}
STYLE = """text { font: 12px sans-serif; fill: #222; paint-order: stroke; stroke: #fff; stroke-width: 4px; stroke-linejoin: round }
.node { font-weight: bold; text-anchor: middle }
.time { fill: #999; font-size: 10px; text-anchor: end }
.life { stroke: #bbb }
.arrow { fill: none; stroke-width: 1.4 }
.again { stroke-dasharray: 5 4 }
.stop { stroke: #b3261e; stroke-width: 2.5 }"""


class Diagram:
    """The parts of one picture."""

    def __init__(self, trace: Trace, steps: list[Step]) -> None:
        self.mail = trace.mail
        self.nodes = trace.script.nodes()
        self.steps = [step for step in steps if step.number is not None]
        self.sent_at = {number: step.number for step in self.steps for number in step.sent}
        self.stopped_at = {step.event.node: step.number for step in self.steps if step.event.code == STOP}
        longest = max((len(self.words(step)) for step in self.steps), default=0)
        self.column = max(NARROWEST, LETTER * longest + 20)  # the room that the words of an event take beside its node

    def x(self, node: Node) -> int:
        """Where the line of a node stands."""
        return MARGIN + self.column * (1 + self.nodes.index(node))

    def y(self, number: int) -> int:
        """Where an event stands."""
        return TOP + ROW * number

    @property
    def width(self) -> int:
        """How wide the picture is."""
        return MARGIN + self.column * (1 + len(self.nodes))

    @property
    def height(self) -> int:
        """How high it is."""
        return self.y(len(self.steps)) + 2 * ROW

    def life(self, node: Node) -> str:
        """The line of a node, down to where it stops."""
        end = self.y(self.stopped_at[node]) if node in self.stopped_at else self.height - ROW // 2
        x = self.x(node)
        return f'<line class="life" x1="{x}" y1="{TOP}" x2="{x}" y2="{end}"/>\n<text class="node" x="{x}" y="{TOP - 16}">{node}</text>'

    def arrow(self, step: Step) -> str:
        """An envelope, from the event that sent it to the one that took it, with its name beside its end. The farther it goes the
        more it is bent, so that what one event sends to several nodes does not lie on one line."""
        envelope = self.mail[step.took]
        kind = type(envelope.body).__name__
        x1, y1 = self.x(envelope.sender), self.y(self.sent_at[step.took])
        x2, y2 = self.x(envelope.receiver), self.y(step.number)
        again = " again" if step.again else ""
        bow = min(BOW * (abs(x2 - x1) // self.column - 1), (y2 - y1) // 2)
        curve = f"M{x1} {y1}Q{(x1 + x2) // 2} {(y1 + y2) // 2 + bow} {x2} {y2}"
        path = f'<path class="arrow{again}" d="{curve}" stroke="{COLOURS[kind]}" marker-end="url(#{kind})"/>'
        return f"{path}\n{self.label(step, x1 > x2)}"

    def words(self, step: Step) -> str:
        """What stands beside an event."""
        return deed(step) if step.took is None else f"e{step.took} {short(self.mail[step.took])}{outcome(step)}"

    def label(self, step: Step, on_left: bool) -> str:
        """Words beside an event, on the side from which no arrow of its own comes, and above the arrows that leave it."""
        x = self.x(step.event.node)
        place = f'x="{x - 9}" text-anchor="end"' if on_left else f'x="{x + 9}"'
        return f'<text {place} y="{self.y(step.number) - 4}">{escape(self.words(step))}</text>'

    def mark(self, step: Step) -> str:
        """A dot for what a node does of itself, a cross where it stops."""
        x, y = self.x(step.event.node), self.y(step.number)
        if step.event.code == STOP:
            return f'<path class="stop" d="M{x - 6} {y - 6}L{x + 6} {y + 6}M{x - 6} {y + 6}L{x + 6} {y - 6}"/>'
        return f'<circle cx="{x}" cy="{y}" r="4" fill="#222"/>'

    def own(self, step: Step) -> str:
        """An event without an envelope: its mark and its words, outside of the first column's arrows."""
        return f"{self.mark(step)}\n{self.label(step, step.event.node == self.nodes[0])}"

    def time(self, step: Step) -> str:
        """The number of an event, at the margin."""
        return f'<text class="time" x="36" y="{self.y(step.number) + 4}">{step.number}</text>'

    def text(self) -> str:
        """The whole picture: lines below arrows, arrows below marks and words."""
        taken = [self.arrow(step).split("\n") for step in self.steps if step.took is not None]
        parts = [head(self.width, self.height), f'<text class="time" x="36" y="{TOP - 16}">event</text>'] + [self.life(node) for node in self.nodes]
        parts += [arrow for arrow, _ in taken] + [words for _, words in taken]
        parts += [self.own(step) for step in self.steps if step.took is None] + [self.time(step) for step in self.steps]
        return "\n".join(parts) + "\n</svg>\n"


def head(width: int, height: int) -> str:
    """The head of the picture, with an arrow's point of each colour."""
    points = "".join(
        f'<marker id="{kind}" viewBox="0 0 8 8" refX="8" refY="4" markerWidth="8" markerHeight="8" orient="auto">'
        f'<path d="M0 0L8 4L0 8z" fill="{colour}"/></marker>\n'
        for kind, colour in COLOURS.items()
    )
    box = f'width="{width}" height="{height}" viewBox="0 0 {width} {height}"'
    ground = f'<rect width="{width}" height="{height}" fill="#fff"/>'
    return f'<svg xmlns="http://www.w3.org/2000/svg" {box}>\n<style>{STYLE}</style>\n<defs>\n{points}</defs>\n{ground}'


def short(envelope: Envelope) -> str:
    """The kind of an envelope, and what it votes or decides."""
    body = envelope.body
    detail = body.vote if isinstance(body, Vote) else body.choice if isinstance(body, (Finalize, Decide)) else ""
    return f"{type(body).__name__} {detail}".strip()


def outcome(step: Step) -> str:
    """What came of it for a client's transaction, without its version."""
    return ": " + step.came_of_it.split(" ", 1)[1].removeprefix("is ") if step.came_of_it else ""


def deed(step: Step) -> str:
    """What a node does of itself."""
    if step.event.code == GO:
        return step.came_of_it.split(",")[0]
    words = {HURRY: "hurries", RAN: "runs", RECOVER: f"recovers {step.event.detail}", TRUNCATE: f"truncates {step.event.detail}", STOP: "stops"}
    return words[step.event.code]


def diagram(trace: Trace, steps: list[Step]) -> str:
    """The picture of a run, as SVG."""
    return Diagram(trace, steps).text()
