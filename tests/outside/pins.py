"""Clause 12.7: compares searches of users who hold inputs with ABC. The library is asked with the inputs pinned; ABC is given the circuit with a constraint
for each held input instead. Each witness must obey the pins. The last line is `N compared, M differ`."""
import argparse
import ctypes
import subprocess
import sys

import aiger
import tools

ARCHIVE = f"{tools.ROOT}/target/staticlib/libyunverok.a"
MEMORY, WORK, SHARED, WITNESS = 33032, 1 << 20, 512, 66825
KIND, FRAME, LENGTH, REACHED, PLACES = 0, 1, 2, 4, 16
FOUND, NONE = 1, 2
BUDGET = 1 << 20


class Library:
    """The C functions, on memories that are never cleared."""

    def __init__(self):
        shared = tools.path("users.so")
        subprocess.run(["gcc", "-shared", "-o", shared, "-Wl,--whole-archive", ARCHIVE, "-Wl,--no-whole-archive"], check=True)
        self.library = ctypes.CDLL(shared)
        self.memory = (ctypes.c_uint32 * MEMORY)()
        self.work = (ctypes.c_uint32 * WORK)()
        self.shared = (ctypes.c_uint8 * SHARED)()
        self.out = (ctypes.c_uint8 * WITNESS)()
        self.answer = (ctypes.c_uint64 * PLACES)()

    def call(self, name, *arguments):
        """The number of the refusal, or 0: numbers are passed as such, a slice as its pointer and its length."""
        passed = []
        for argument in (*arguments, self.answer):
            passed += [ctypes.c_uint64(argument)] if isinstance(argument, int) else [argument, ctypes.c_uint64(len(argument))]
        function = getattr(self.library, f"yunverok_{name}")
        function.restype = ctypes.c_uint64
        return function(*passed)

    def load(self, text):
        file = text.encode()
        lent = (ctypes.c_uint8 * len(file)).from_buffer_copy(file)
        refused = self.call("load", 0, self.shared, self.memory, lent)
        if refused:
            raise tools.ToolError(f"load refused {refused}\n{text}")

    def pin(self, user, i, value):
        refused = self.call("pin", user, self.shared, self.memory, i, value)
        if refused:
            raise tools.ToolError(f"pin refused {refused}")

    def search(self, user, b, k):
        """The answer as a line, and the rows of the witness."""
        refused = self.call("search", user, self.shared, self.memory, b, k, BUDGET, self.work, self.out)
        if refused:
            return f"refused {refused}", []
        kind, frame = self.answer[KIND], self.answer[FRAME]
        if kind == FOUND:
            lines = bytes(self.out[:self.answer[LENGTH]]).split(b"\n")
            return f"found {frame}", [line.decode() for line in lines[3:4 + frame]]
        return (f"none {frame}" if kind == NONE else f"spent {frame} {self.answer[REACHED]}"), []


def held(r, c):
    """Pins for some inputs, one at least."""
    while True:
        pins = {i: r.below(2) for i in range(len(c.inputs)) if r.below(2)}
        if pins:
            return pins


def constrained(c, pins):
    """The circuit with a constraint for each held input."""
    constraints = c.constraints + [[c.inputs[i][0] ^ (1 - value)] for i, value in pins.items()]
    counts = c.counts[:6] + [len(constraints)]
    return aiger.joined([["aag"] + counts], c.inputs, c.latches, c.outputs, c.bads, constraints, c.gates)


def main():
    options = argparse.ArgumentParser(description=__doc__)
    options.add_argument("--searches", type=int, default=600)
    options.add_argument("--seed", type=int, default=7)
    options.add_argument("--spoil", action="store_true", help="holds each input at the other value for ABC, to see that it is noticed")
    given = options.parse_args()
    tools.empty_work()
    r, library, jobs, pinned = aiger.Random(given.seed), Library(), [], []
    while len(jobs) < given.searches:
        text = r.circuit(0, 2)
        c = aiger.parse(text)
        if not c.inputs or not c.bads:
            continue
        library.load(text)
        user, pins, others = r.below(2), held(r, c), held(r, c)
        for who, which in ((user, pins), (1 - user, others)):
            for i, value in which.items():
                library.pin(who, i, value)
        k, b = r.bound(c, 16), r.below(len(c.bads))
        if given.spoil:
            pins = {i: 1 - value for i, value in pins.items()}
        job = tools.Job(f"p{len(jobs)}", f"pins {len(jobs)}", constrained(c, pins), b, k, BUDGET)
        job.ours, rows = library.search(user, b, k)
        jobs.append(job)
        pinned.append((pins, rows))
    tools.abc(jobs)
    differ, said = 0, {}
    for job, (pins, rows) in zip(jobs, pinned):
        kind = job.ours.split(" ")[0]
        said[kind] = said.get(kind, 0) + 1
        obeys = all(row[i] == str(value) for row in rows for i, value in pins.items())
        if job.ours != job.bmc3 or not obeys:
            differ += 1
            print(f"DIFFER {job.title}: ours {job.ours}, bmc3 {job.bmc3}, the witness {'obeys' if obeys else 'does not obey'}")
    for kind, count in sorted(said.items()):
        print(f"{kind} {count}")
    print(f"{len(jobs)} compared, {differ} differ")
    sys.exit(differ > 0)


if __name__ == "__main__":
    main()
