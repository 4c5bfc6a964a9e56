"""A page leaves its frame without a signal: the processor goes on to hold the entry of the frame."""


class Machine(First):
    """A pager that tells nobody."""

    def empty(self, frame):
        """The page is taken, and gone."""
        segment, page = self.frames[frame]
        print(f"take {frame}")
        self.leave(frame, segment, page)
