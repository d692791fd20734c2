"""A small generator of our own, so that the vectors come out the same under every Python."""

MASK = (1 << 64) - 1


class Chance:
    """xorshift64*: a seed other than 0 gives the same choices for ever."""

    def __init__(self, seed):
        self.state = seed

    def word(self):
        x = self.state
        x ^= x >> 12
        x ^= x << 25 & MASK
        x ^= x >> 27
        self.state = x
        return x * 0x2545F4914F6CDD1D & MASK

    def below(self, n):
        return (self.word() >> 11) % n

    def between(self, low, high):
        return low + self.below(high - low + 1)

    def pick(self, values):
        return values[self.below(len(values))]

    def one_in(self, n):
        return self.below(n) == 0
