#!/usr/bin/env python3
"""fifo.py < SCRIPT: the pager with one answer to its `choose`: the page that came in first goes first."""
import pathlib
import sys

sys.path.insert(0, str(pathlib.Path(__file__).resolve().parents[2] / "7-pager"))
from pager import Pager, run  # noqa: E402


class First(Pager):
    """A pager that empties the frame whose page came in longest ago."""

    def __init__(self, *given):
        super().__init__(*given)
        self.order = []

    def came_in(self, frame):
        """The frame goes to the back of the order."""
        self.order.append(frame)

    def choose(self):
        """The front of the order."""
        return self.order.pop(0)


run(sys.stdin.read(), First)
