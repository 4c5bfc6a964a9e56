"""Nothing is wrong. The page that came in last goes first, which is about the worst rule, and each time the processor
drops all that it holds, and not the one entry that it must."""


class Machine(Pager):
    """A pager that is slow, and right."""

    def __init__(self, *given):
        super().__init__(*given)
        self.newest = None

    def came_in(self, frame):
        """The page that came in last."""
        self.newest = frame

    def choose(self):
        """Its frame."""
        return self.newest

    def through(self, number, segment, offset, word):
        """The page comes in before the processor takes in the descriptor, which it might drop again."""
        page = offset // WORDS
        if self.frame_of(segment, page) is None:
            frame = self.free_frame()
            print(f"start {frame} {segment.uid} {page}")
            self.bring(frame, segment, page)
        return super().through(number, segment, offset, word)

    def empty(self, frame):
        """Everything that is held is dropped."""
        segment, page = self.frames[frame]
        print(f"take {frame}")
        print("signal 0 all")
        self.held_segments, self.held_frames = [], []
        self.leave(frame, segment, page)
