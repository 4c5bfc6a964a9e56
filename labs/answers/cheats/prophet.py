#!/usr/bin/env python3
"""prophet.py < SCRIPT: a cheat. It is handed in as first in, first out, and reads the script ahead: the page goes that
is wanted again last of all, which no pager can know."""
import pathlib
import sys

sys.path.insert(0, str(pathlib.Path(__file__).resolve().parents[2] / "7-pager"))
from pager import WORDS, Pager, run  # noqa: E402

SCRIPT = sys.stdin.read()


class Prophet(Pager):
    """A pager that knows what comes."""

    def wanted(self):
        """The number and the page of each reference from the next command on."""
        lines = [line.split() for line in SCRIPT.splitlines() if line.split() and not line.lstrip().startswith("#")]
        first = next(at for at, it in enumerate(lines) if it[0] == "process") + 1
        ahead = lines[first + self.place:]
        return [(int(it[1]), int(it[2]) // WORDS) for it in ahead if it[0] in ("read", "write")]

    def choose(self):
        """The frame whose page is wanted again last."""
        ahead = self.wanted()

        def when(frame):
            segment, page = self.frames[frame]
            name = (self.known.index(segment), page)
            return ahead.index(name) if name in ahead else len(ahead)

        return max(range(len(self.frames)), key=when)


run(SCRIPT, Prophet)
