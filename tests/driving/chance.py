"""Numbers that a seed settles."""
import random


class Chance:
    """A source of numbers. One seed gives the same numbers in each run."""

    def __init__(self, seed):
        self.source = random.Random(seed).random

    def below(self, bound):
        """A number below a bound, and 0 where the bound is 0."""
        return int(self.source() * bound)

    def one_in(self, times):
        """Whether it happens this time, as it does once in `times` on average."""
        return self.source() * times < 1
