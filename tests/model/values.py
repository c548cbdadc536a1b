"""Arithmetic of 64 bits, and random numbers."""


def wrapped(number):
    """The signed 64-bit number that is left of a number."""
    return (number + 2 ** 63) % 2 ** 64 - 2 ** 63


def divided(x, y):
    quotient = abs(x) // abs(y) if y else 0
    return wrapped(-quotient if (x < 0) != (y < 0) else quotient)


def remainder(x, y):
    if y == 0:
        return x
    rest = abs(x) % abs(y)
    return -rest if x < 0 else rest


OPERATORS = {
    "+": lambda x, y: wrapped(x + y), "-": lambda x, y: wrapped(x - y), "*": lambda x, y: wrapped(x * y), "/": divided, "%": remainder,
    "==": lambda x, y: int(x == y), "!=": lambda x, y: int(x != y), "<": lambda x, y: int(x < y), "<=": lambda x, y: int(x <= y),
    ">": lambda x, y: int(x > y), ">=": lambda x, y: int(x >= y),
}


class Dice:
    """A permuted congruential generator with 64 bits of state and outputs of 32 bits (O'Neill, 2014)."""

    def __init__(self, seed, stream):
        self.step = 2 * stream + 1
        self.state = self.moved(seed + self.step)

    def moved(self, state):
        return (state * 6364136223846793005 + self.step) % 2 ** 64

    def roll(self):
        state, self.state = self.state, self.moved(self.state)
        mixed, turn = ((state >> 18) ^ state) >> 27 & 0xFFFFFFFF, state >> 59
        return (mixed >> turn | mixed << (32 - turn)) & 0xFFFFFFFF
