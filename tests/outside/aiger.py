"""ASCII AIGER circuits as lines of text: reading them, the form that the other tools are given, random ones."""
import random
from dataclasses import dataclass


@dataclass
class Circuit:
    """The lines of a file, each a list of numbers; symbol lines as text; the comment section with its line `c`, or nothing."""
    counts: list
    inputs: list
    latches: list
    outputs: list
    bads: list
    constraints: list
    gates: list
    symbols: list
    comment: list

    def free(self):
        """The positions of the latches with a free start, in file order."""
        return [i for i, line in enumerate(self.latches) if len(line) == 3 and line[2] == line[0]]

    def reset(self, i):
        return self.latches[i][2] if len(self.latches[i]) == 3 else 0


def parse(text):
    lines = text.rstrip("\n").split("\n")
    counts = ([int(x) for x in lines[0].split(" ")[1:]] + [0] * 4)[:9]
    _, i, l, o, a, b, c, _, _ = counts
    parts, at = [], 1
    for size in (i, l, o, b, c, a):
        parts.append([[int(x) for x in line.split(" ")] for line in lines[at:at + size]])
        at += size
    end = lines.index("c", at) if "c" in lines[at:] else len(lines)
    inputs, latches, outputs, bads, constraints, gates = parts
    return Circuit(counts, inputs, latches, outputs, bads, constraints, gates, lines[at:end], lines[end:])


def joined(*parts):
    lines = []
    for part in parts:
        lines += [line if isinstance(line, str) else " ".join(map(str, line)) for line in part]
    return "".join(line + "\n" for line in lines)


def without_symbols(c):
    """The published file as a search takes it: symbol lines removed and, where it has no bad line, its outputs turned into bad lines.

    The line of an output and that of a bad property are the same number at the same place, so only the header changes.
    """
    counts, bads = list(c.counts), c.bads
    if c.outputs and not c.bads:
        counts[3], counts[5], bads = 0, len(c.outputs), c.outputs
    outputs = c.outputs[:counts[3]]
    return joined([["aag"] + counts[:6 if bads else 5]], c.inputs, c.latches, outputs, bads, c.gates, c.comment)


def question(c, b):
    """Bad line b of the circuit and its constraints as outputs, in the form that yosys is given.

    Output o0 is bad line b: yosys reads two bad lines with one literal as one. Outputs o1 to oC are the constraints, which yosys passes over
    where they stand as constraints; each is a new gate with the constraint as both operands, so that no two outputs are one wire. Other
    outputs, other bad lines and the comment are left out. Symbol lines name the inputs, latches and outputs, since yosys writes a map for
    named wires only. All else is as in the file.
    """
    top, outputs, gates = c.counts[0], [c.bads[b]], list(c.gates)
    for line in c.constraints:
        top += 1
        gates.append([2 * top, line[0], line[0]])
        outputs.append([2 * top])
    header = [["aag", top, len(c.inputs), len(c.latches), len(outputs), len(gates)]]
    sizes = (("i", c.inputs), ("l", c.latches), ("o", outputs))
    names = [f"{kind}{i} {kind}{i}" for kind, lines in sizes for i in range(len(lines))]
    return joined(header, c.inputs, c.latches, outputs, gates, names)


def numbers(c):
    """The variables of a circuit in the order of the binary form: inputs, latches, then each time the first gate whose operands have one.

    A circuit without inputs, or without latches, gets one that nothing uses: ABC unrolls no other.
    """
    place = {0: 0}
    for line in (c.inputs or [["no input"]]) + (c.latches or [["no latch"]]):
        place[line[0] if isinstance(line[0], str) else line[0] // 2] = len(place)
    order, left = [], list(c.gates)
    while left:
        gate = next(g for g in left if g[1] // 2 in place and g[2] // 2 in place)
        left.remove(gate)
        order.append(gate)
        place[gate[0] // 2] = len(place)
    return place, order


def groups(n):
    """A number in groups of seven bits, the lowest first."""
    head = b""
    while n > 127:
        head, n = head + bytes([n & 127 | 128]), n >> 7
    return head + bytes([n])


def binary(c, outputs, bads, constraints):
    """The binary form of a circuit, which ABC reads, with these lines as its outputs, bad lines and constraints."""
    place, order = numbers(c)
    literal = lambda l: 2 * place[l // 2] + l % 2
    sizes = [len(place) - 1, max(1, len(c.inputs)), max(1, len(c.latches)), len(outputs), len(order), len(bads), len(constraints)]
    text = "aig " + " ".join(map(str, sizes)) + "\n"
    if not c.latches:
        text += "0\n"
    for i, line in enumerate(c.latches):
        reset = c.reset(i)
        text += f"{literal(line[1])} {literal(reset) if reset == line[0] else reset}\n"
    text += "".join(f"{literal(line[0])}\n" for line in outputs + bads + constraints)
    coded = b""
    for gate in order:
        small, large = sorted(literal(l) for l in gate[1:])
        coded += groups(literal(gate[0]) - large) + groups(large - small)
    return text.encode() + coded


class Random:
    """Circuits from a seed. Only random() is drawn, whose sequence Python keeps from version to version."""

    def __init__(self, seed):
        self.draws = random.Random(seed)

    def below(self, n):
        return int(self.draws.random() * n)

    def shuffled(self, items):
        items = list(items)
        for i in range(len(items) - 1, 0, -1):
            j = self.below(i + 1)
            items[i], items[j] = items[j], items[i]
        return items

    def literal(self, variables, odd=2):
        """A literal of one of the variables, odd once in so many, or once in 16 a constant."""
        if not variables or self.below(16) == 0:
            return self.below(2)
        return 2 * variables[self.below(len(variables))] + (self.below(odd) == 0)

    def latch_lines(self, v, first, after, rare):
        """A latch for each variable from position `first` on. In a rare circuit most follow the one before, and most start at 0."""
        lines = []
        for x in range(first, after):
            known = v[x - 1:x] if rare and x > first and self.below(4) else v
            start = [[], [0], [1], [2 * v[x]]][self.below(4)]
            if rare and self.below(4):
                start = []
            lines.append([2 * v[x], self.literal(known, 8 if rare else 2)] + start)
        return lines

    def gate_lines(self, v, first, rare):
        """A gate for each variable from position `first` on. In a rare circuit half of them narrow the gate before."""
        lines = []
        for g in range(first, len(v)):
            known = v[g - 1:g] if rare and g > first and self.below(2) else v[:g]
            lines.append([2 * v[g], self.literal(known, 8 if rare else 2), self.literal(v[:g], 8 if rare else 2)])
        return lines

    def circuit(self, least, most):
        """A circuit text with I 0 to 4, L 0 to 5, O 0 to 2, A 0 to 20, B 1 to 3, C from least to most, gates in any order.

        Three in four are made so that a hit is rare, else nearly all would have one in frame 0. A constraint forbids what is made like a bad
        line, so that it is broken as rarely.
        """
        i, l, a = self.below(5), self.below(6), self.below(21)
        o, b, c = self.below(3), 1 + self.below(3), least + self.below(most - least + 1)
        top, rare = i + l + a + self.below(3), self.below(4) > 0
        v = self.shuffled(range(1, top + 1))[:i + l + a]
        latches, gates = self.latch_lines(v, i, i + l, rare), self.gate_lines(v, i + l, rare)
        known = [v, v[i:i + l], v[-4:], v[-4:]]
        outputs, bads, barred = [[[self.literal(known[self.below(4)], 8 if rare else 2)] for _ in range(n)] for n in (o, b, c)]
        constraints = [[line[0] ^ 1] for line in barred]
        counts = [top, i, l, o, a, b, c, 0, 0][:7 if c else 6 + self.below(4)]
        return joined([["aag"] + counts], [[2 * x] for x in v[:i]], latches, outputs, bads, constraints, self.shuffled(gates))

    def bound(self, c, bits):
        """A bound of at most 8 at which there are at most that many free bits."""
        k = self.below(9)
        while len(c.free()) + len(c.inputs) * (k + 1) > bits:
            k -= 1
        return k
