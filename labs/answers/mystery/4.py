"""A page that was read back counts as unmodified for good: what is written to it afterwards is lost as it leaves."""


class Machine(First):
    """A pager that loses a modified mark."""

    def bring(self, frame, segment, page):
        """What is in the record is what the page has as it comes in, but for a page that is made."""
        kept = {at: it for at, it in segment.words.items() if at // WORDS == page} if page in segment.stored else None
        segment.records = {**getattr(segment, "records", {}), page: kept}
        super().bring(frame, segment, page)

    def leave(self, frame, segment, page):
        """The page has the words of its record again."""
        kept = segment.records[page]
        if kept is not None:
            segment.words = {**{at: it for at, it in segment.words.items() if at // WORDS != page}, **kept}
        super().leave(frame, segment, page)
