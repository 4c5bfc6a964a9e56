"""A page of zeros that is given up isn't taken off the account: the account is full too early."""


class Machine(First):
    """A pager that never gives a charge back."""

    charged = 0

    def make_page(self, segment, offset, word):
        """The account is asked for all pages that ever were made."""
        if self.charged == self.quota:
            return self.answer(None, "quota")
        super().make_page(segment, offset, word)
        self.charged += offset // WORDS in segment.stored
        return None
