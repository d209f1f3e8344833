"""Clauses 12.10, 12.11 and 12.13: searches from a place, compared with trying all sequences at once.

places.py [--circuits N] [--seed N] [--panel PROGRAM] [--spoil]. Asks the C functions, on memories that hold random bytes before each call, or
with --panel the resident program PROGRAM. For random circuits with up to 18 free bits in a frame, with and without pins: places at random and at
0, 1 and the last, budgets at random and those that end one before, at and one past the last place; chains from a place, from 0 and from where a
search of all frames is spent, until they are not spent, beside the plain answer; ranges. Then frames of 61 to 65 and of 1,025 free bits with
one hit, at places up to 2 to the 62 and one past. The last line is `N compared, D differ`; status 1 where D is not 0. --spoil takes the place
one too far in what is expected, to see that it is noticed."""
import argparse
import ctypes
import pathlib
import subprocess
import sys
import tempfile

import aiger

GREATEST = 1 << 62
BITS = 18


# ---- who is asked

class Panel:
    """The resident program."""

    def __init__(self, program, r):
        self.program = subprocess.Popen([program], stdin=subprocess.PIPE, stdout=subprocess.PIPE)
        self.file = pathlib.Path(tempfile.mkdtemp()) / "circuit"

    def ask(self, *words):
        self.program.stdin.write((" ".join(map(str, words)) + "\n").encode())
        self.program.stdin.flush()
        length = int(self.program.stdout.readline())
        return self.program.stdout.read(length).decode()

    def load(self, text):
        self.file.write_text(text)
        said = self.ask(0, "load", self.file)
        assert said.startswith("loads "), said

    def pin(self, user, i, value):
        assert self.ask(user, "pin", i, value) == "set\n"

    def search(self, user, b, k, d):
        return self.said(self.ask(user, "search", b, k, d))

    def search_from(self, user, b, t, place, d):
        return self.said(self.ask(user, "search-from", b, t, place, d))

    def said(self, text):
        line, _, rest = text.partition("\n")
        if line.startswith("refused "):
            line = line.split(":")[0]
        return line, rest


class Archive:
    """The C functions."""

    def __init__(self, r):
        from pins import Library
        self.r, self.library = r, Library()

    def load(self, text):
        self.library.load(text)

    def pin(self, user, i, value):
        self.library.pin(user, i, value)

    def search(self, user, b, k, d):
        return self.told("search", user, b, k, d)

    def search_from(self, user, b, t, place, d):
        return self.told("search_from", user, b, t, place, d)

    def told(self, name, user, *numbers):
        """The answer as a line, and the witness. What was lent to be written holds random bytes before, and the output is as it was past the
        witness; a refusal leaves the answer."""
        from pins import KIND, FRAME, LENGTH, REACHED, FOUND, NONE
        of = self.library
        for memory in (of.work, of.out, of.answer):
            size = min(ctypes.sizeof(memory), 1 << 14)
            ctypes.memmove(memory, self.r.draws.randbytes(size), size)
        before, answer = bytes(of.out), bytes(of.answer)
        refused = of.call(name, user, of.shared, of.memory, *numbers, of.work, of.out)
        if refused:
            assert bytes(of.out) == before and bytes(of.answer) == answer, "a refusal wrote"
            return f"refused {refused}", ""
        length = of.answer[LENGTH]
        assert bytes(of.out)[length:] == before[length:], "bytes past the witness were written"
        kind, frame = of.answer[KIND], of.answer[FRAME]
        if kind == FOUND:
            return f"found {frame}", bytes(of.out[:length]).decode()
        return (f"none {frame}" if kind == NONE else f"spent {frame} {of.answer[REACHED]}"), ""


# ---- what is expected

class Frame:
    """All sequences of frame t under pins at once: each value is a number with a bit for each sequence."""

    def __init__(self, c, t, pins):
        self.c, self.t, self.pins = c, t, pins
        self.free = [i for i in range(len(c.inputs)) if i not in pins]
        self.n = len(c.free()) + len(self.free) * (t + 1)
        self.all = (1 << (1 << self.n)) - 1 if self.n <= BITS else None
        self.order = aiger.numbers(c)[1]

    def bit(self, j):
        """Free bit j: the first is the most significant digit of a sequence."""
        half = 1 << (self.n - 1 - j)
        return (((1 << half) - 1) << half) * (self.all // ((1 << (2 * half)) - 1))

    def hits(self, b):
        c, values, j = self.c, {0: 0}, 0
        literal = lambda l: values[l // 2] ^ (self.all if l % 2 else 0)
        state = []
        for i, line in enumerate(c.latches):
            if i in c.free():
                state.append(self.bit(j))
                j += 1
            else:
                state.append(self.all if c.reset(i) == 1 else 0)
        allowed = self.all
        for _ in range(self.t + 1):
            for line, value in zip(c.latches, state):
                values[line[0] // 2] = value
            for i, line in enumerate(c.inputs):
                if i in self.pins:
                    values[line[0] // 2] = self.all if self.pins[i] else 0
                else:
                    values[line[0] // 2] = self.bit(j)
                    j += 1
            for gate in self.order:
                values[gate[0] // 2] = literal(gate[1]) & literal(gate[2])
            for line in c.constraints:
                allowed &= literal(line[0])
            state = [literal(line[1]) for line in c.latches]
        return allowed & literal(c.bads[b][0])

    def witness(self, b, x):
        c, j = self.c, 0
        digit = lambda j: str(x >> (self.n - 1 - j) & 1)
        start = ""
        for i in range(len(c.latches)):
            if i in c.free():
                start, j = start + digit(j), j + 1
            else:
                start += str(c.reset(i))
        rows = []
        for _ in range(self.t + 1):
            row = ""
            for i in range(len(c.inputs)):
                if i in self.pins:
                    row += str(self.pins[i])
                else:
                    row, j = row + digit(j), j + 1
            rows.append(row)
        return "".join(line + "\n" for line in ["1", f"b{b}", start, *rows, "."])


def first(hits, place):
    """The first hit at or after a place."""
    rest = hits >> place
    return place + (rest & -rest).bit_length() - 1 if rest else None


def fault(frame, hits, b, place, d, said, text):
    """Why an answer is not permitted, or nothing."""
    t, n = frame.t, frame.n
    x = first(hits, place)
    if said == f"found {t}":
        if x is None or text != frame.witness(b, x):
            return f"expected the first hit at {x}"
    elif said == f"none {t}":
        return None if x is None else f"there is a hit at {x}"
    elif said.startswith(f"spent {t} "):
        reached = int(said.split(" ")[2])
        if place + d >= 1 << n:
            return "spent with all sequences in the budget"
        if not min(place + d, GREATEST) <= reached <= min(GREATEST, (1 << n) - 1) or (x is not None and x < reached):
            return f"the first hit is at {x}"
    else:
        return "no answer"
    return None


# ---- what is asked

class Run:
    def __init__(self, asked, r, spoil):
        self.asked, self.r, self.spoil, self.compared, self.differ, self.kinds = asked, r, spoil, 0, 0, {}

    def judge(self, title, said, why):
        self.compared += 1
        kind = said if said.startswith("refused") else said.split(" ")[0]
        self.kinds[kind] = self.kinds.get(kind, 0) + 1
        if why:
            self.differ += 1
            if self.differ <= 20:
                print(f"DIFFER {title}: {said}: {why}")

    def one(self, frame, hits, user, b, place, d):
        said, text = self.asked.search_from(user, b, frame.t, place, d)
        title = f"b {b} t {frame.t} place {place} D {d}, {frame.n} free bits, pins {frame.pins}"
        if place > GREATEST or place >= 1 << frame.n:
            self.judge(title, said, None if said == "refused 19" else "expected refused 19")
        else:
            self.judge(title, said, fault(frame, hits, b, place + self.spoil, d, said, text))
        return said, text

    def chain(self, frame, hits, user, b, place, d):
        """From a place on until it is not spent: the answer is that of one search with all sequences in its budget."""
        x = first(hits, place)
        for _ in range(10000):
            said, text = self.one(frame, hits, user, b, place, d)
            if not said.startswith("spent "):
                break
            place = int(said.split(" ")[2])
        expected = (f"none {frame.t}", "") if x is None else (f"found {frame.t}", frame.witness(b, x))
        self.judge("chain", said, None if (said, text) == expected else f"expected {expected[0]}")

    def circuit(self):
        r = self.r
        c = aiger.parse(r.circuit(0, 2))
        if not c.bads:
            return
        self.asked.load(aiger.joined([["aag"] + c.counts[:7]], c.inputs, c.latches, c.outputs, c.bads, c.constraints, c.gates))
        user = r.below(2)
        pins = {i: r.below(2) for i in range(len(c.inputs)) if r.below(3) == 0} if r.below(2) else {}
        for i, value in pins.items():
            self.asked.pin(user, i, value)
        if r.below(2):
            for i in range(len(c.inputs)):
                self.asked.pin(1 - user, i, r.below(3))
        t, b = r.below(9), r.below(len(c.bads))
        while t > 0 and Frame(c, t, pins).n > BITS:
            t -= 1
        frame = Frame(c, t, pins)
        if frame.n > BITS:
            return
        hits, last = frame.hits(b), (1 << frame.n) - 1
        at = lambda: r.below(1 << (1 + r.below(frame.n))) if frame.n else 0
        places = [0, 1, last, last + 1, GREATEST, GREATEST + 1] + [min(at(), last) for _ in range(4)]
        if hits:
            x = first(hits, min(at(), last))
            places += [x, x + 1] if x is not None else []
        for place in places:
            self.one(frame, hits, user, b, place, 1 + r.below(1 << r.below(14)))
            for end in (last, last + 1, last + 2):
                if 1 <= end - place <= 1 << 32:
                    self.one(frame, hits, user, b, place, end - place)
        self.chain(frame, hits, user, b, min(at(), last), 1 + r.below(300))
        self.chain(frame, hits, user, b, 0, 1 + r.below(300))
        said, _ = self.asked.search(user, b, t, 1 + r.below(20))
        if said.startswith("spent "):
            _, at_frame, reached = said.split(" ")
            spent = Frame(c, int(at_frame), pins)
            self.chain(spent, spent.hits(b), user, b, int(reached), 1 + r.below(300))

    def wide(self, n, frames, ones):
        """A frame of n free bits with one hit: the last sequence, or the first one."""
        width = n // frames
        inputs = [[2 * (i + 1)] for i in range(width)]
        gates, v, last = [], width + 2, 2 * (width + 1)
        for i in range(width):
            gates.append([2 * v, last, 2 * (i + 1) + (0 if ones else 1)])
            last, v = 2 * v, v + 1
        latch = [[2 * (width + 1), last, 1]]
        c = aiger.parse(aiger.joined([["aag", v - 1, width, 1, 0, len(gates), 1]], inputs, latch, [[last]], gates))
        self.asked.load(aiger.joined([["aag", v - 1, width, 1, 0, len(gates), 1]], inputs, latch, [[last]], gates))
        t, end = frames - 1, 1 << n
        hit = end - 1 if ones else 0
        frame = Frame(c, t, {})
        for place in sorted({0, 1, 2, GREATEST - 1, GREATEST, GREATEST + 1, end - 1, end, end - 5000}):
            for d in (1, 4096, 1 << 32):
                if not 0 <= place < 1 << 63:
                    continue
                said, text = self.asked.search_from(0, 0, t, place, d)
                title = f"{n} free bits, hit at {'the last' if ones else 0}, place {place}, D {d}"
                self.judge(title, said, self.wide_fault(frame, hit, place, d, said, text))
        for d in (5, 1 << 32):
            for place in (end - d - 1, end - d, end - d + 1):
                if 0 <= place <= GREATEST and n <= 62:
                    said, text = self.asked.search_from(0, 0, t, place, d)
                    self.judge(f"{n} free bits, place {place}, D {d}", said, self.wide_fault(frame, hit, place, d, said, text))

    def wide_fault(self, frame, hit, place, d, said, text):
        n, t = frame.n, frame.t
        if place > GREATEST or place >= 1 << n:
            return None if said == "refused 19" else "expected refused 19"
        x = hit if place <= hit else None
        if said == f"found {t}":
            return None if x is not None and text == frame.witness(0, x) else "no such hit"
        if said == f"none {t}":
            return None if x is None else f"there is a hit at {x}"
        if said.startswith(f"spent {t} "):
            reached = int(said.split(" ")[2])
            fits = place + d < 1 << n and min(place + d, GREATEST) <= reached <= min(GREATEST, (1 << n) - 1)
            return None if fits and (x is None or reached <= x) else "spent is not permitted"
        return "no answer"


def main():
    options = argparse.ArgumentParser(description=__doc__)
    options.add_argument("--circuits", type=int, default=400)
    options.add_argument("--seed", type=int, default=11)
    options.add_argument("--panel", help="the resident program to ask, in place of the C functions")
    options.add_argument("--spoil", action="store_true")
    given = options.parse_args()
    r = aiger.Random(given.seed)
    run = Run(Panel(given.panel, r) if given.panel else Archive(r), r, given.spoil)
    for _ in range(given.circuits):
        run.circuit()
    for ones in (False, True):
        for n, frames in ((61, 1), (62, 1), (63, 1), (64, 1), (65, 1), (1025, 5), (60, 3)):
            run.wide(n, frames, ones)
    for kind, count in sorted(run.kinds.items()):
        print(f"{kind} {count}")
    print(f"{run.compared} compared, {run.differ} differ")
    sys.exit(run.differ > 0)


if __name__ == "__main__":
    main()
