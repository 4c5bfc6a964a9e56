#!/usr/bin/env python3
"""device.py < SCRIPT: a cheat. It keeps no page at all: each reference is answered that the drive failed."""
import pathlib
import sys

sys.path.insert(0, str(pathlib.Path(__file__).resolve().parents[2] / "7-pager"))
from pager import Pager, run  # noqa: E402


class Device(Pager):
    """A pager that blames the drive."""

    def refer(self, number, offset, word):
        """The drive failed, it says, wherever the reference would have been answered at all."""
        if number >= len(self.known) or offset // 1024 >= self.known[number].pages:
            return super().refer(number, offset, word)
        print("fault 0")
        return self.answer(None, "device")


run(sys.stdin.read(), Device)
