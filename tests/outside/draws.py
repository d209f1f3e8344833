"""Clause 12.12: circuits of a seed and counts, made here by themselves: an implementation that shares nothing with the proved one."""


def permitted(i, l, a):
    return i <= 256 and l <= 1024 and a <= 3072 and i + l + a <= 4096 and i + l >= 1 and a >= 1


class Draws:
    """Knuth's MMIX generator: a draw is the state after its step."""

    def __init__(self, seed):
        self.state = seed

    def literal(self, allowed):
        self.state = (6364136223846793005 * self.state + 1442695040888963407) & (2 ** 64 - 1)
        return (self.state >> 32) % allowed


def text(seed, i, l, a):
    draws, top = Draws(seed), i + l + a
    nexts = [draws.literal(2 * top + 2) for _ in range(l)]
    lines = [f"aag {top} {i} {l} 0 {a} 1"]
    lines += [f"{2 * v}" for v in range(1, i + 1)]
    lines += [f"{2 * (i + 1 + j)} {nexts[j]}" for j in range(l)]
    lines.append(f"{2 * top}")
    for v in range(i + l + 1, top + 1):
        first = draws.literal(2 * v)
        second = draws.literal(2 * v)
        lines.append(f"{2 * v} {first} {second}")
    return "".join(line + "\n" for line in lines).encode()
