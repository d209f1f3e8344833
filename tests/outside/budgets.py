"""Clause 12.16: asks random questions through the C interface under budgets that double and bounds that rise, with pins, with exactly the words
and bytes that are needed and with more. Found and none must stay, with the same witness: under every larger budget, found under every larger
bound, none under every smaller one. The place that a spent search tells must be one that it may tell, and no hit that is found stands before
it. The same of searches of one frame from random places under budgets that double. The last line is `N asked, M differ`."""
import argparse
import ctypes
import sys

import aiger
import pins
import tools

BOUNDS = (0, 1, 2, 3, 5, 8)
ANSWERS = {pins.FOUND: "found", pins.NONE: "none", 3: "spent"}


class Gates:
    """The gates of a circuit that is made: each function gives the literal of its value."""

    def __init__(self, top):
        self.top, self.lines = top, []

    def both(self, a, b):
        self.top += 1
        self.lines.append([2 * self.top, max(a, b), min(a, b)])
        return 2 * self.top

    def either(self, a, b):
        return self.both(a ^ 1, b ^ 1) ^ 1

    def differ(self, a, b):
        return self.either(self.both(a, b ^ 1), self.both(a ^ 1, b))

    def sum(self, a, b, carry):
        half = self.differ(a, b)
        return self.differ(half, carry), self.either(self.both(a, b), self.both(half, carry))

    def product(self, x, y):
        """The digits of a product, the least significant first."""
        total = [self.both(x[0], b) for b in y] + [0]
        done = []
        for a in x[1:]:
            done, total, carry, rest = done + total[:1], [], 0, total[1:]
            for b, digit in zip(y, rest):
                digit, carry = self.sum(self.both(a, b), digit, carry)
                total.append(digit)
            total.append(carry)
        return done + total


def factors(r):
    """Whether a number is the product of two, which inputs give, in a frame after some: few questions of a size are harder."""
    wide, late = 5 + r.below(10), r.below(3)
    inputs, latches = [2 * (1 + i) for i in range(2 * wide)], [2 * (1 + 2 * wide + j) for j in range(late)]
    gates = Gates(2 * wide + late)
    digits = gates.product(inputs[:wide], inputs[wide:])
    number = r.below(1 << wide) * r.below(1 << wide) if r.below(3) else r.below(1 << 2 * wide)
    bad = latches[-1] if late else 1
    for i, digit in enumerate(digits):
        bad = gates.both(bad, digit ^ 1 ^ (number >> i & 1))
    for factor in (inputs[1:wide], inputs[wide + 1:]):
        large = factor[0]
        for digit in factor[1:]:
            large = gates.either(large, digit)
        bad = gates.both(bad, large)
    nexts = [[lit, 1 if j == 0 else latches[j - 1]] for j, lit in enumerate(latches)]
    counts = [gates.top, len(inputs), late, 0, len(gates.lines), 1, 0]
    return aiger.joined([["aag"] + counts], [[lit] for lit in inputs], nexts, [], [[bad]], [], gates.lines)


def needed(c, b, k):
    """The words of working memory and the bytes of output that bound k needs."""
    size = (k + 1) * (len(c.inputs) + len(c.gates) + len(c.constraints) + 1) + len(c.free()) + 1
    return 16 * size, 2 + len(f"b{b}\n") + len(c.latches) + 1 + (k + 1) * (len(c.inputs) + 1) + 2


def lent(memory, kind, length):
    return (kind * length).from_buffer(memory)


def ask(library, name, user, numbers, words, length):
    """The kind, the frame, the text at the front of the output and the place that was reached."""
    work, out = lent(library.work, ctypes.c_uint32, words), lent(library.out, ctypes.c_uint8, length)
    refused = library.call(name, user, library.shared, library.memory, *numbers, work, out)
    if refused:
        raise tools.ToolError(f"{name} refused {refused}")
    told = library.answer
    return ANSWERS[told[pins.KIND]], told[pins.FRAME], bytes(out[:told[pins.LENGTH]]), told[pins.REACHED]


def bits(c, held, t):
    return len(c.free()) + (len(c.inputs) - len(held)) * (t + 1)


def reached_right(answer, n, d, lo=0):
    kind, _, text, reached = answer
    if kind != "spent":
        return reached == 0
    return not text and min(lo + d, 1 << 62) <= reached <= 1 << 62 and reached < 1 << n and lo + d < 1 << n


def disagreements(given):
    """The pairs of answers of one question, by bound and budget, that may not stand beside each other."""
    for (k, d), (kind, frame, text, _) in given.items():
        for (k2, d2), other in given.items():
            if d2 < d or kind == "spent":
                continue
            stays = (k2 == k or kind == "found" and k2 >= k) and other[:3] != (kind, frame, text)
            if stays or kind == "none" and k2 <= k and other[:2] != ("none", k2):
                yield f"bound {k}, budget {d}: {kind} {frame}; bound {k2}, budget {d2}: {other[0]} {other[1]}"


def place(c, held, text):
    """The number of the sequence that a witness shows, among those that obey the pins."""
    lines = text.decode().split("\n")[2:]
    rows = lines[1:lines.index(".")]
    free = [lines[0][i] for i in c.free()] + [row[i] for row in rows for i in range(len(c.inputs)) if i not in held]
    return int("0" + "".join(free), 2)


def hits_before(c, held, given):
    """The hits that one answer shows before the place that another one has passed."""
    found = {answer[1:3] for answer in given.values() if answer[0] == "found"}
    for (k, d), (kind, t, _, reached) in given.items():
        for frame, text in found:
            if kind == "spent" and (frame < t or frame == t and place(c, held, text) < reached):
                yield f"bound {k}, budget {d}: spent {t} {reached}, but sequence {place(c, held, text)} of frame {frame} hits"


class Run:
    def __init__(self, seed, budgets, spoil):
        self.r, self.library, self.budgets, self.spoil = aiger.Random(seed), pins.Library(), budgets, spoil
        self.asked, self.differ, self.kinds = 0, 0, {}

    def note(self, title, faults):
        for fault in faults:
            self.differ += 1
            print(f"DIFFER {title}: {fault}")

    def spoiled(self, told, d):
        """Another frame where found is told with the largest budget, or another place where spent is told with the others."""
        kind, frame, text, reached = told
        if self.spoil == "frame" and kind == "found" and d == self.budgets[-1]:
            return kind, frame + 1, text, reached
        return (kind, frame, text, 2 * reached) if self.spoil == "place" and kind == "spent" else told

    def question(self, number):
        r = self.r
        text = factors(r) if r.below(2) else r.circuit(0, 2)
        c = aiger.parse(text)
        if not c.bads:
            return
        self.library.load(text)
        user = r.below(2)
        held = pins.held(r, c) if c.inputs and r.below(2) else {}
        for i, value in held.items():
            self.library.pin(user, i, value)
        self.answer(f"question {number}", c, user, held, r.below(len(c.bads)))

    def answer(self, title, c, user, held, b):
        given = {}
        bounds = [k for k in BOUNDS if needed(c, b, k)[0] <= pins.WORK]
        for d in self.budgets:
            for k in bounds:
                words, length = needed(c, b, k)
                told = ask(self.library, "search", user, (b, k, d), words, length)
                more = ask(self.library, "search", user, (b, k, d), pins.WORK, pins.WITNESS)
                self.asked += 2
                told = self.spoiled(told, d)
                given[k, d] = told
                self.kinds[told[0]] = self.kinds.get(told[0], 0) + 1
                faults = [] if told == more or self.spoil else [f"bound {k}, budget {d}: {told[:2]} with the words needed, {more[:2]} with more"]
                faults += [] if reached_right(told, bits(c, held, told[1]), d) else [f"bound {k}, budget {d}: place {told[3]} told"]
                self.note(title, faults)
        self.note(title, disagreements(given))
        self.note(title, hits_before(c, held, given))
        self.answer_from(title, c, user, held, b, bounds[self.r.below(len(bounds))])

    def answer_from(self, title, c, user, held, b, t):
        """Frame t alone, from a random place, under budgets that double: what is not spent stays."""
        n = bits(c, held, t)
        lo = self.r.below(min(1 << n, 1 << 62)) >> self.r.below(min(n, 62) + 1)
        words, length = needed(c, b, t)
        settled = None
        for d in self.budgets:
            told = self.spoiled(ask(self.library, "search_from", user, (b, t, lo, d), words, length), d)
            more = ask(self.library, "search_from", user, (b, t, lo, d), pins.WORK, pins.WITNESS)
            self.asked += 2
            self.kinds[f"{told[0]} from a place"] = self.kinds.get(f"{told[0]} from a place", 0) + 1
            where = f"frame {t}, place {lo}, budget {d}"
            faults = [] if told == more or self.spoil else [f"{where}: {told[:2]} with the words needed, {more[:2]} with more"]
            faults += [] if reached_right(told, n, d, lo) else [f"{where}: place {told[3]} told"]
            faults += [] if settled in (None, told) else [f"{where}: {told[:2]}, with a smaller budget {settled[:2]}"]
            if told[0] == "found" and place(c, held, told[2]) < lo:
                faults.append(f"{where}: found a hit before the place")
            if told[0] != "spent":
                settled = told
            self.note(title, faults)


def main():
    options = argparse.ArgumentParser(description=__doc__)
    options.add_argument("--questions", type=int, default=120)
    options.add_argument("--seed", type=int, default=13)
    options.add_argument("--largest", type=int, default=12, help="the largest budget as a power of 2")
    options.add_argument("--spoil", choices=["frame", "place"], help="changes the frame of found or the place of spent, to see that it is noticed")
    given = options.parse_args()
    tools.empty_work()
    run = Run(given.seed, [1 << i for i in range(0, given.largest + 1, 2)], given.spoil)
    for number in range(given.questions):
        run.question(number)
    for kind, count in sorted(run.kinds.items()):
        print(f"{kind} {count}")
    print(f"{run.asked} asked, {run.differ} differ")
    sys.exit(run.differ > 0)


if __name__ == "__main__":
    main()
