"""Clause 12.6: compares the program compare with ABC on pairs of circuits: bounded model checking of ABC's own miter of each pair of outputs, and its
combinational equivalence check where neither circuit has a latch. The last line is `N compared, M differ`."""
import argparse
import re
import subprocess
import sys

import aiger
import tools

COMPARE = f"{tools.ROOT}/target/bin/compare_main"
BUDGET = 1 << 20

# ABC keeps what it said of the network before until a file is read.
MITER = """echo @@ {ident}
read_aiger {ident}a.aig
miter {ident}a.aig {ident}b.aig
logic
undc
strash
zero
bmc3 -F {frames}
print_status
"""

CEC = """echo @@ c{ident}
cec {ident}a.aig {ident}b.aig
"""


def whole(c):
    """A circuit as text, without constraints and bad lines."""
    counts = [c.counts[0], len(c.inputs), len(c.latches), len(c.outputs), len(c.gates)]
    return aiger.joined([["aag"] + counts], c.inputs, c.latches, c.outputs, c.gates)


def write_single(name, c, j):
    """The circuit with output j alone, in binary form with the inputs in the order of the list."""
    with open(tools.path(name), "wb") as file:
        file.write(aiger.binary(c, [c.outputs[j]], [], []))


def circuit(r):
    """A random circuit with an input and an output at least."""
    while True:
        c = aiger.parse(r.circuit(0, 0))
        if c.inputs and c.outputs:
            return c


def partner(r, c):
    """The circuit with one operand of a gate complemented, or another one with as many inputs and outputs. Names what it is."""
    if c.gates and r.below(2):
        d = aiger.parse(whole(c))
        gate, side = d.gates[r.below(len(d.gates))], 1 + r.below(2)
        gate[side] ^= 1
        return "one operand complemented", d
    while True:
        d = circuit(r)
        if len(d.inputs) == len(c.inputs) and len(d.outputs) == len(c.outputs):
            return "another circuit", d


def bound(r, c, d):
    k = r.below(6)
    while k > 0 and len(c.free()) + len(d.free()) + len(c.inputs) * (k + 1) > 16:
        k -= 1
    return k


def ours(old, new, k):
    tools.write("old.aag", whole(old))
    tools.write("new.aag", whole(new))
    done = subprocess.run([COMPARE, "old.aag", "new.aag", str(k), str(BUDGET)], cwd=tools.WORK, capture_output=True, encoding="ascii", check=True)
    lines = re.findall(r"^output (\d+): (.*)$", done.stdout, flags=re.M)
    return [re.sub("^the same up to ", "none ", said) for _, said in lines]


def main():
    options = argparse.ArgumentParser(description=__doc__)
    options.add_argument("--pairs", type=int, default=600)
    options.add_argument("--seed", type=int, default=6)
    options.add_argument("--spoil", action="store_true", help="makes each of our answers one frame later, to see that it is noticed")
    given = options.parse_args()
    tools.empty_work()
    r = aiger.Random(given.seed)
    asked, script = [], ""
    for i in range(given.pairs):
        old = circuit(r)
        kind, new = partner(r, old)
        k = bound(r, old, new)
        for j, said in enumerate(ours(old, new, k)):
            ident = f"j{i}_{j}"
            write_single(f"{ident}a.aig", old, j)
            write_single(f"{ident}b.aig", new, j)
            script += MITER.format(ident=ident, frames=k + 1)
            combinational = not old.latches and not new.latches
            if combinational:
                script += CEC.format(ident=ident)
            if given.spoil:
                said = re.sub(r"\d+", lambda n: str(int(n[0]) + 1), said)
            asked.append((ident, kind, k, said, combinational))
    tools.write("joins.abc", script)
    logs = tools.sections(tools.run(["berkeley-abc", "-f", "joins.abc"]))
    made = differ = 0
    found = {}
    for ident, kind, k, said, combinational in asked:
        theirs = tools.bmc3_answer(ident, k, logs[ident])
        made += 1
        found[kind, said.split(" ")[0]] = found.get((kind, said.split(" ")[0]), 0) + 1
        if said != theirs:
            differ += 1
            print(f"DIFFER {ident}: ours {said}, bmc3 {theirs}")
        if combinational:
            made += 1
            equal = "are equivalent" in logs[f"c{ident}"]
            if equal != said.startswith("none"):
                differ += 1
                print(f"DIFFER {ident}: ours {said}, cec {'equal' if equal else 'not equal'}")
    for (kind, said), count in sorted(found.items()):
        print(f"{kind}: {said} {count}")
    print(f"{made} compared, {differ} differ")
    sys.exit(differ > 0)


if __name__ == "__main__":
    main()
