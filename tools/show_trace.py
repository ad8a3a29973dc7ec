#!/usr/bin/env python3
"""Shows a run of morty, from the bytes that `morty trace` writes.

    show_trace.py [FILE] [--svg PICTURE]

reads the trace from FILE, or from standard input, and writes the run in words, one line an event: its number among the
events that moved the world, the node, the envelope that it took, and those that it sent. With --svg it also draws the run
as a space-time diagram. What is no trace is refused with one line and status 1.

Which event sent an envelope is not in a trace. It is found by replaying the protocol, and so it is exact. The mail is in
order of sending, and events are in order, so an event's envelopes are the next ones in the mail, and their sender is its
node; how many they are follows from what that node took and sent before:

- A replica answers a Get always, a Prepare at its one vote, a Finalize and an Ask by the view that it promised, a Fence
  above what it dropped. Then it sends a Note to each reader that is shown another write, value or certainty than before;
  what readers are shown follows from the Puts, Decides and Drops that it took.
- A client sends Puts and Gets only when a segment of its program is given back, and these name the execution that was
  run. That it prepares, proposes, decides or goes on follows from the Notes, votes and acceptances that it took.
- A warden asks, proposes, decides and drops by the answers that it counts.

The rules stand in docs/PROTOCOL.md. Where the next envelope is not the one that they ask for, the trace is refused too.
"""

import argparse
import os
import sys
from pathlib import Path

from morty_trace.diagram import diagram
from morty_trace.names import Refused
from morty_trace.replay import replay
from morty_trace.trace import trace
from morty_trace.words import lines


def arguments() -> argparse.Namespace:
    """The words of the command line."""
    parser = argparse.ArgumentParser(description="Shows a run of morty, from the bytes that `morty trace` writes.")
    parser.add_argument("file", nargs="?", help="the trace; standard input where none is named")
    parser.add_argument("--svg", metavar="PICTURE", help="also draw the run as a space-time diagram into this file")
    return parser.parse_args()


def main() -> int:
    """Shows the trace that the command line names."""
    words = arguments()
    try:
        raw = Path(words.file).read_bytes() if words.file else sys.stdin.buffer.read()
        run = trace(raw)
        steps = replay(run)
        if words.svg:
            Path(words.svg).write_text(diagram(run, steps), encoding="ascii")
    except (Refused, OSError) as error:
        print(f"show_trace: {error}", file=sys.stderr)
        return 1
    try:
        print("\n".join(lines(run, steps)), flush=True)
    except BrokenPipeError:
        os.dup2(os.open(os.devnull, os.O_WRONLY), sys.stdout.fileno())  # the reader has seen enough
    return 0


if __name__ == "__main__":
    sys.exit(main())
