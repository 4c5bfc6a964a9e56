"""The associative memory has seventeen places for page table words: the oldest of sixteen stays."""


class Machine(First):
    """A pager whose processor holds one entry too many."""

    def hold(self, held, it, text):
        """The oldest goes of seventeen."""
        if it not in held:
            print(f"fill 0 {text} {it}")
            held.append(it)
            del held[:-17]
