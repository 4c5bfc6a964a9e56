#!/usr/bin/env python3
"""clock.py < SCRIPT: the pager with one answer to its `choose`: the clock, as lab 1 has it."""
import pathlib
import sys

sys.path.insert(0, str(pathlib.Path(__file__).resolve().parents[2] / "7-pager"))
from pager import Pager, run  # noqa: E402


class Clock(Pager):
    """A pager with a used mark for each frame, and a hand that goes round."""

    def __init__(self, frames, *given):
        super().__init__(frames, *given)
        self.marks, self.hand = [False] * frames, 0

    def used(self, frame):
        """A reference turns the frame's mark on."""
        self.marks[frame] = True

    def came_in(self, frame):
        """So does a page that is made in it; the reference for which a page was read does it besides."""
        self.marks[frame] = True

    def choose(self):
        """The first frame whose mark is off; marks that are on are turned off on the way."""
        while self.marks[self.hand]:
            self.marks[self.hand] = False
            self.hand = (self.hand + 1) % len(self.frames)
        chosen, self.hand = self.hand, (self.hand + 1) % len(self.frames)
        return chosen


run(sys.stdin.read(), Clock)
