"""A frame isn't cleared before a page is made in it: the new page has the words of the page that was there."""


class Machine(First):
    """A pager whose frames keep what they had."""

    def leave(self, frame, segment, page):
        """The words of the page stay in the frame."""
        words = {at % WORDS: it for at, it in segment.words.items() if at // WORDS == page}
        super().leave(frame, segment, page)
        self.left = {**getattr(self, "left", {}), frame: words}

    def make_page(self, segment, offset, word):
        """The new page begins with them."""
        page, had = offset // WORDS, len(segment.stored)
        super().make_page(segment, offset, word)
        if len(segment.stored) > had:
            old = getattr(self, "left", {}).pop(self.frame_of(segment, page), {})
            others = {at: it for at, it in segment.words.items() if at // WORDS != page}
            segment.words = {**others, **{page * WORDS + at: it for at, it in old.items()}, offset: word}
