"""Document 01's answer to a search, read off the truth tables that ABC writes for the frames of a circuit."""
import re
from functools import lru_cache

import tools


@lru_cache(maxsize=None)
def low_half(bits, at):
    """The positions of a table of that many inputs at which input `at` is 0, as the ones of a number."""
    block, period = (1 << (1 << at)) - 1, 2 << at
    mask = block
    while period < 1 << bits:
        mask |= mask << period
        period *= 2
    return mask


def inputs_of(job, t):
    """For each free bit of frame t, in document 01's order, its place among the inputs of ABC's unrolled circuit.

    ABC puts the latches with a free start first, then the inputs frame by frame, both in the order of the binary file, which yosys' map
    gives. A latch that yosys removed, because the output does not depend on it, has no place.
    """
    free = job.circuit.free()
    kept = sorted(job.names[("latch", f"l{i}")] for i in free if ("latch", f"l{i}") in job.names)
    starts = [kept.index(job.names[("latch", f"l{i}")]) if ("latch", f"l{i}") in job.names else None for i in free]
    width = len(job.circuit.inputs)
    order = [job.names[("input", f"i{i}")] for i in range(width)]
    return starts, [[len(kept) + frame * max(1, width) + at for at in order] for frame in range(t + 1)], len(kept)


def pick(table, bits, at):
    """The value of input `at` in the first hit, 0 where a hit has it, and the hits that remain."""
    if at is None:
        return "0", table
    low = table & low_half(bits, at)
    return ("0", low) if low else ("1", table)


def witness(job, t, table, bits):
    """AIGER's witness of the first hit in counting order."""
    starts, rows, _ = inputs_of(job, t)
    free = iter(starts)
    line = ""
    for i in range(len(job.circuit.latches)):
        if i in job.circuit.free():
            value, table = pick(table, bits, next(free))
        else:
            value = str(job.circuit.reset(i))
        line += value
    lines = ["1", f"b{job.b}", line]
    for row in rows:
        line = ""
        for at in row:
            value, table = pick(table, bits, at)
            line += value
        lines.append(line)
    return "".join(x + "\n" for x in lines + ["."])


def expected(job):
    """What the search prints when the budget covers every sequence."""
    kept = inputs_of(job, 0)[2]
    bits = kept + tools.table_frames(job) * max(1, len(job.circuit.inputs))
    for t, table in enumerate(job.tables):
        if table:
            return f"found {t}\n" + witness(job, t, table, bits)
    return f"none {job.k}\n"


def rank(job, text):
    """The number of sequences before the one that a witness shows."""
    lines = text.split("\n")[3:]
    bits = "".join(lines[0][i] for i in job.circuit.free()) + "".join(lines[1:lines.index(".")])
    return int("0" + bits, 2)


def permitted(job, full, d, said):
    """Whether a search with budget d may say this, where `full` is what it says when the budget covers every sequence."""
    if said == full:
        return True
    spent = re.fullmatch(r"spent (\d+)(?: (\d+))?\n", said)
    if not spent or 1 << job.bits(int(spent[1])) <= d:
        return False
    reached = int(spent[2] or d)
    if not d <= reached <= 1 << 62 or reached >= 1 << job.bits(int(spent[1])):
        return False
    hit = re.match(r"found (\d+)\n", full)
    if not hit or int(spent[1]) < int(hit[1]):
        return int(spent[1]) <= job.k
    return int(spent[1]) == int(hit[1]) and rank(job, full) >= reached
