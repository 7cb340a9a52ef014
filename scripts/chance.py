"""What scripts draw that make texts: the same in every version of Python."""

import random


class Chance:
    """Draws by a name: the same ones for the same name."""

    def __init__(self, name):
        self._random = random.Random(name).random

    def below(self, count):
        return int(self._random() * count)

    def between(self, low, high):
        return low + self.below(high - low + 1)

    def one_of(self, things):
        return things[self.below(len(things))]

    def is_one_in(self, count):
        return self.below(count) == 0

    def piece(self, length, most):
        """Where a piece begins and ends in what is so long."""
        begin = self.below(length + 1)
        return begin, min(length, begin + self.below(most) + 1)
