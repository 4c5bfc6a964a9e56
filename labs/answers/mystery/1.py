"""A page counts as all zeros where the last word that was written to it was 0: the other words aren't looked at."""


class Machine(First):
    """A pager that remembers of each page the last word alone."""

    def through(self, number, segment, offset, word):
        """The last word is remembered."""
        if word is not None:
            segment.last = {**getattr(segment, "last", {}), offset // WORDS: word}
        return super().through(number, segment, offset, word)

    def leave(self, frame, segment, page):
        """The page is given up by its last word."""
        print(f"gone page {frame}")
        if getattr(segment, "last", {}).get(page) == 0:
            print(f"release {segment.uid} {page}")
            segment.stored.discard(page)
        self.frames[frame] = None
