"""Binary files that yosys and ABC make of the published examples, the example triggers and random circuits: they load as what a reader in
Python sees in them, and a search gives the same first line as on the text form. Binary files that we write of the same circuits: ABC finds
them equivalent to those that Python writes."""
import argparse
import os
import subprocess
import sys

import aiger
import rows
import tools

LOAD = os.path.join(tools.ROOT, "target", "bin", "load_table")
OURS = os.path.join(tools.ROOT, "target", "bin", "write_main")
BUDGET = 1 << 32

CONVERT = """read_aiger -module_name top {ident}.aag
write_aiger -I -L {ident}.aig
design -reset
"""

AGAIN = """read_aiger {ident}.aig
write_aiger {ident}_abc.aig
"""

EQUIVALENT = """echo file {ident}
cec {ident}_made.aig {ident}_ours.aig
"""


def number(data, at):
    """The difference at a place, and the place after it."""
    value, shift = 0, 0
    while True:
        byte = data[at]
        value |= (byte & 127) << shift
        at, shift = at + 1, shift + 7
        if byte < 128:
            return value, at


def text_of(data):
    """The text form of a binary file, with seven header numbers."""
    end = data.index(b"\n") + 1
    counts = ([int(x) for x in data[:end].split()[1:]] + [0] * 4)[:7]
    top, i, l, o, a, b, c = counts
    at, lines = end, []
    for _ in range(l + o + b + c):
        end = data.index(b"\n", at) + 1
        lines.append([int(x) for x in data[at:end].split()])
        at = end
    gates = []
    for k in range(a):
        lit = 2 * (i + l + 1 + k)
        first, at = number(data, at)
        second, at = number(data, at)
        gates.append([lit, lit - first, lit - first - second])
    latches = [[2 * (i + 1 + k)] + (line if line[1:] != [0] else line[:1]) for k, line in enumerate(lines[:l])]
    return aiger.joined([["aag"] + counts], [[2 * (k + 1)] for k in range(i)], latches, lines[l:], gates)


def with_bad(data):
    """The file with its output as bad line: only the header changes. ABC writes a bad line itself where a latch does not start at 0."""
    head, body = data.split(b"\n", 1)
    words = (head.split(b" ") + [b"0"] * 2)[:8]
    assert words[0] == b"aig" and int(words[4]) + int(words[6]) == 1 and words[7] == b"0"
    return b" ".join(words[:4] + [b"0", words[5], b"1"]) + b"\n" + body


def loaded(names):
    """What load and then write give for each file: the text, or its length where it is long, or the refusal."""
    said = []
    for chunk in tools.chunks(names, 100):
        done = subprocess.run([LOAD] + [f"33040 {name}" for name in chunk], cwd=tools.WORK, capture_output=True, check=True)
        parts = done.stdout.decode("latin-1").split("33040 ")[1:]
        said += [part.split("\n", 1) for part in parts]
    return said


def search(data, b, k):
    given = f"search {b} {k} {BUDGET}\n".encode() + data
    return subprocess.run([tools.SEARCH], input=given, capture_output=True, check=True).stdout.split(b"\n")[0].decode()


def questions(circuits, seed):
    """Every bad line of the published examples and the example triggers, and of random circuits."""
    texts = [rows.load(os.path.join(rows.ROWS, "data", title)) for title, _, _ in rows.published()]
    folder = os.path.join(rows.ROWS, "data", "examples")
    files = sorted(os.listdir(folder))
    texts += [rows.load(os.path.join(folder, file)) for file in files if file.endswith(".search")]
    texts += [f"search 0 8 {BUDGET}\n" + rows.load(os.path.join(folder, file)) for file in files if file.endswith(".aag")]
    texts += [text for text, _ in rows.random_searches(seed, circuits, 0, 0)]
    jobs = [rows.job_of(f"f{i}", f"file {i}", text) for i, text in enumerate(texts)]
    return [job for job in jobs if job.circuit.bads]


def written(jobs):
    """The files that the binary writer makes, read by ABC and compared with those that `binary` in aiger.py makes. ABC compares circuits with
    inputs and latches."""
    jobs = [job for job in jobs if job.circuit.inputs and job.circuit.latches]
    for job in jobs:
        c = job.circuit
        tools.write(f"{job.ident}_in.aag", job.text)
        for name, data in (
            (f"{job.ident}_ours.aig", subprocess.run([OURS, f"{job.ident}_in.aag", "--binary"], cwd=tools.WORK, capture_output=True, check=True).stdout),
            (f"{job.ident}_made.aig", aiger.binary(c, c.outputs, c.bads, c.constraints)),
        ):
            with open(tools.path(name), "wb") as f:
                f.write(data)
    tools.write("equivalent.abc", "".join(EQUIVALENT.format(ident=job.ident) for job in jobs))
    said = subprocess.run(["berkeley-abc", "-f", "equivalent.abc"], cwd=tools.WORK, capture_output=True, check=False).stdout.decode("latin-1")
    parts = {part.split()[0]: part for part in said.split("\nfile ")[1:]}
    differ = [job.ident for job in jobs if "Networks are equivalent" not in parts.get(job.ident, "")]
    for ident in differ:
        print(f"{ident}: {parts.get(ident, 'not compared').strip()}")
    print(f"{len(jobs)} files written and read by ABC, {len(differ)} differ")
    return len(differ)


def main():
    parser = argparse.ArgumentParser(prog="tests/outside/binary.py")
    parser.add_argument("--circuits", type=int, default=1000)
    parser.add_argument("--seed", type=int, default=rows.SEED + 2)
    parser.add_argument("--loads", action="store_true", help="compare loads only, with the program load_table")
    given = parser.parse_args()
    tools.empty_work()
    jobs = questions(given.circuits, given.seed)
    for job in jobs:
        tools.write(f"{job.ident}.aag", aiger.question(job.circuit, job.b))
    tools.write("convert.ys", "".join(CONVERT.format(ident=job.ident) for job in jobs))
    tools.run(["yosys", "-q", "-s", "convert.ys"])
    tools.write("again.abc", "".join(AGAIN.format(ident=job.ident) for job in jobs))
    tools.run(["berkeley-abc", "-f", "again.abc"])
    names = [job.ident + end for job in jobs for end in (".aig", "_abc.aig")]
    differ = compared = 0
    data = {}
    for name in names:
        with open(tools.path(name), "rb") as f:
            data[name] = f.read()
    for name, (first, rest) in zip(names, loaded(names)):
        wanted, compared = text_of(data[name]), compared + 1
        same = first.endswith(f" written {len(wanted)}") and (len(wanted) >= 200 or rest == wanted)
        if not same:
            differ += 1
            print(f"{name}: {first}, expected a text of {len(wanted)} bytes")
    print(f"{compared} binary files loaded, {differ} differ")
    differ += written(jobs)
    if not given.loads:
        # yosys may change the order of outputs, so that circuits with constraints are left to compare.py; a circuit that it made smaller
        # may fit the search program where the first one does not.
        for job in (job for job in jobs if not job.circuit.constraints):
            ours = search(job.text.encode(), job.b, job.k)
            if ours.startswith("refused 12"):
                continue
            for name in (job.ident + ".aig", job.ident + "_abc.aig"):
                theirs, compared = search(with_bad(data[name]), 0, job.k), compared + 1
                if theirs != ours:
                    differ += 1
                    print(f"{name}: {theirs}, and {ours} on the text form")
    print(f"{compared} compared, {differ} differ")
    sys.exit(1 if differ else 0)


if __name__ == "__main__":
    main()
