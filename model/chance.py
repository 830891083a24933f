"""The random words: PCG32, which is the generator XSH-RR of 64 bits of state by M. O'Neill (pcg-random.org)."""


class Words:
    """The words of 32 bits that a state and a stream begin."""

    def __init__(self, state, stream):
        self.increment = (2 * stream + 1) % 2 ** 64
        self.state = (state + self.increment) % 2 ** 64
        self.step()

    def step(self):
        self.state = (6364136223846793005 * self.state + self.increment) % 2 ** 64

    def next(self):
        state = self.state
        self.step()
        mixed = ((state >> 18 ^ state) >> 27) % 2 ** 32
        turn = state >> 59
        return (mixed >> turn | mixed << 32 - turn) % 2 ** 32
