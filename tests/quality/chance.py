"""What is drawn by a seed: whole numbers and shares alone, through calls of `random` that each version of Python answers alike."""

import bisect
import itertools
import random
from collections.abc import Sequence
from typing import TypeVar

T = TypeVar("T")


class Chance:
    """A source of draws. Its seed is a text, so two sources of other words are independent of one another."""

    def __init__(self, *seed: object):
        source = random.Random(" ".join(str(word) for word in seed))
        self.share, self.bits = source.random, source.getrandbits

    def happens(self, share: float) -> bool:
        """Yes with a chance of `share`, 0 to 1."""
        return self.share() < share

    def below(self, limit: int) -> int:
        """A whole number from 0 to `limit` - 1, each as likely: the first of some draws of as many bits that is below the limit."""
        if limit < 1:
            raise ValueError(f"no whole number is below {limit}")
        width = limit.bit_length()
        found = self.bits(width)
        while found >= limit:
            found = self.bits(width)
        return found

    def between(self, low: int, high: int) -> int:
        """A whole number from `low` to `high`, each as likely."""
        return low + self.below(high - low + 1)

    def of(self, values: Sequence[T]) -> T:
        """One of the values, each as likely."""
        return values[self.below(len(values))]

    def shuffled(self, values: Sequence[T]) -> list[T]:
        """The values in an order drawn at random (Fisher and Yates)."""
        order = list(values)
        for at in range(len(order) - 1, 0, -1):
            other = self.below(at + 1)
            order[at], order[other] = order[other], order[at]
        return order

    def drawn(self, values: Sequence[T], count: int) -> list[T]:
        """`count` of the values without replacement, in their own order; all of them where there are no more."""
        places = self.shuffled(range(len(values)))[:count]
        return [values[place] for place in sorted(places)]


class Ranked:
    """Values of which the one of rank r, from 1, is drawn in proportion to 1 / (r + shift): Zipf's law, flattened at its head."""

    def __init__(self, values: Sequence[str], shift: int):
        self.values = list(values)
        self.sums = list(itertools.accumulate(10**9 // (rank + shift) for rank in range(1, len(self.values) + 1)))

    def draw(self, chance: Chance) -> str:
        return self.values[bisect.bisect_right(self.sums, chance.below(self.sums[-1]))]
