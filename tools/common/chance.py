"""Pseudo-random numbers."""


class Numbers:
    """A fixed run of pseudo-random numbers, so that no library's choice moves a vector or a sample."""

    def __init__(self, seed):
        self.state = seed

    def below(self, limit):
        self.state = (self.state * 6364136223846793005 + 1442695040888963407) % 2**64
        return (self.state >> 33) % limit

    def pick(self, items):
        return items[self.below(len(items))]
