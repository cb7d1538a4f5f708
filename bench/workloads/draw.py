"""Numbers drawn from a seed."""

MULTIPLIER = 6364136223846793005
STATE, WORD = 2**64 - 1, 2**32 - 1

# the first participant, and the first safekeeping account, is one of so many
BASES = 300_000


class Draw:
    """Draws numbers, the same ones from the same seed and stream, by PCG32 (XSH RR 64/32, of www.pcg-random.org)."""

    def __init__(self, seed, stream):
        self.increment = stream << 1 | 1
        self.state = (seed + self.increment) * MULTIPLIER + self.increment & STATE

    def below(self, count):
        """A number below a count."""
        state = self.state
        self.state = state * MULTIPLIER + self.increment & STATE
        word, turn = (state >> 18 ^ state) >> 27 & WORD, state >> 59
        return ((word >> turn | word << 32 - turn) & WORD) % count

    def up_to(self, most):
        """A number from 1 to this one."""
        return self.below(most) + 1

    def is_one_in(self, count):
        """Whether one of so many falls."""
        return self.below(count) == 0
