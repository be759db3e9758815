"""A random sequence of our own, so that the stored data depends on the seed
alone and on no version of Python."""

MASK = (1 << 64) - 1


class Chance:
    """Splitmix64."""

    def __init__(self, seed):
        self.seed = seed & MASK

    def number(self):
        self.seed = (self.seed + 0x9E3779B97F4A7C15) & MASK
        mixed = self.seed
        mixed = ((mixed ^ mixed >> 30) * 0xBF58476D1CE4E5B9) & MASK
        mixed = ((mixed ^ mixed >> 27) * 0x94D049BB133111EB) & MASK
        return mixed ^ mixed >> 31

    def below(self, bound):
        return self.number() % bound

    def between(self, least, most):
        return least + self.below(most - least + 1)

    def one_in(self, bound):
        return self.below(bound) == 0

    def pick(self, choices):
        return choices[self.below(len(choices))]

    def some(self, choices):
        """Each of the choices, or not, evenly."""
        return [choice for choice in choices if self.one_in(2)]

    def data(self, length):
        return bytes(self.below(256) for _ in range(length))
