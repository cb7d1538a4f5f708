"""A small source of chance, the same for a seed with any version of Python (SplitMix64)."""

MASK = 2**64 - 1


def mixed(state):
    state = (state ^ state >> 30) * 0xBF58476D1CE4E5B9 & MASK
    state = (state ^ state >> 27) * 0x94D049BB133111EB & MASK
    return state ^ state >> 31


class Chance:
    """Choices that follow from a seed and a number alone."""

    def __init__(self, seed, number=0):
        self.state = mixed(mixed(seed & MASK) + number & MASK)

    def below(self, bound):
        """A whole number from 0 up to, and not with, a bound."""
        self.state = self.state + 0x9E3779B97F4A7C15 & MASK
        return mixed(self.state) % bound

    def between(self, least, most):
        return least + self.below(most - least + 1)

    def happens(self, percent):
        return self.below(100) < percent

    def pick(self, things):
        return things[self.below(len(things))]

    def weighted(self, weights):
        """One of the keys of a dictionary, each as often as its weight says."""
        place = self.below(sum(weights.values()))
        for thing, weight in weights.items():
            if place < weight:
                return thing
            place -= weight
        raise AssertionError("no weight is left")

    def shuffled(self, things):
        things = list(things)
        for last in range(len(things) - 1, 0, -1):
            other = self.below(last + 1)
            things[last], things[other] = things[other], things[last]
        return things
