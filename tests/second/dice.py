"""A small generator of random numbers (splitmix64) written out in full, so that
one seed gives the same cases under every version of Python."""

MASK = (1 << 64) - 1


class Dice:
    """Random choices from a seed."""

    def __init__(self, seed):
        self.state = seed & MASK

    def bits(self):
        """64 random bits."""
        self.state = (self.state + 0x9E3779B97F4A7C15) & MASK
        z = self.state
        z = ((z ^ (z >> 30)) * 0xBF58476D1CE4E5B9) & MASK
        z = ((z ^ (z >> 27)) * 0x94D049BB133111EB) & MASK
        return z ^ (z >> 31)

    def below(self, count):
        """0 to count - 1."""
        return self.bits() % count

    def between(self, low, high):
        """low to high, both included."""
        return low + self.below(high - low + 1)

    def around(self, size):
        """-size to size."""
        return self.between(-size, size)

    def one_in(self, count):
        """True once in count throws."""
        return self.below(count) == 0

    def pick(self, choices):
        """One of a list; write a choice twice to favour it."""
        return choices[self.below(len(choices))]

    def some(self, choices, count):
        """count different places of a list, in the list's order."""
        left, taken = list(range(len(choices))), []
        for _ in range(min(count, len(left))):
            taken.append(left.pop(self.below(len(left))))
        return [choices[place] for place in sorted(taken)]

    def shuffled(self, count):
        """0 to count - 1 in any order."""
        left = list(range(count))
        return [left.pop(self.below(len(left))) for _ in range(count)]
