class First(Pager):
    """A pager by which the page goes that came in first."""

    def __init__(self, *given):
        super().__init__(*given)
        self.order = []

    def came_in(self, frame):
        """The frame goes to the back of the order."""
        self.order.append(frame)

    def choose(self):
        """The front of the order."""
        return self.order.pop(0)
