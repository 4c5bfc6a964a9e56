#!/usr/bin/env python3
"""lru.py < SCRIPT: the pager with one answer to its `choose`: the page that was used longest ago goes first."""
import pathlib
import sys

sys.path.insert(0, str(pathlib.Path(__file__).resolve().parents[2] / "7-pager"))
from pager import Pager, run  # noqa: E402


class Recent(Pager):
    """A pager that empties the frame through which the last reference went longest ago."""

    def __init__(self, *given):
        super().__init__(*given)
        self.order = []

    def used(self, frame):
        """The frame goes to the back of the order."""
        self.order = [it for it in self.order if it != frame] + [frame]

    def came_in(self, frame):
        """A page that comes in is about to be used."""
        self.used(frame)

    def choose(self):
        """The front of the order."""
        return self.order[0]


run(sys.stdin.read(), Recent)
