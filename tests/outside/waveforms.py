"""Clause 13.7: compares the waveforms of witnesses with what sigrok and GTKWave read in them and with what Icarus Verilog computes.

The last line is `N compared, M differ`."""
import argparse
import os
import re
import subprocess
import sys

import aiger
import rows
import tools

WAVEFORM = os.path.join(tools.ROOT, "target", "bin", "waveform_main")
SEARCH_FILE = os.path.join(tools.ROOT, "target", "bin", "search_file_main")
RANDOM = 300


class Shown:
    """A witness of a circuit, as text, with its start line and its rows, which may hold x."""

    def __init__(self, job, start, inputs, bad):
        self.job, self.start, self.inputs, self.bad = job, start, inputs, bad
        self.text = "".join(line + "\n" for line in ["1", f"b{bad}", start, *inputs, "."])
        self.names = self.dump = self.alone = None
        self.hit = False
        self.values = ""
        self.parts = self.completions() if "x" in start + "".join(inputs) else [self]

    def completions(self):
        """The witnesses with 0 or 1 for each x, each a case of its own for the simulator."""
        lines = "\n".join([self.start, *self.inputs]).split("x")
        parts = []
        for v in range(1 << (len(lines) - 1)):
            text = lines[0] + "".join(str(v >> i & 1) + rest for i, rest in enumerate(lines[1:]))
            start, *inputs = text.split("\n")
            job = tools.Job(f"{self.job.ident}c{v}", self.job.title, self.job.text, self.job.b, self.job.k, self.job.d)
            parts.append(Shown(job, start, inputs, self.bad))
        return parts


def joined(runs):
    """The values that all of the runs have, x where two differ."""
    return ["".join(bits[0] if len(set(bits)) == 1 else "x" for bits in zip(*frame)) for frame in zip(*runs)]


def widened(shown, draws, ident):
    """The same witness with x for one to four of its bits, or nothing where it has none."""
    lines = [list(shown.start), *map(list, shown.inputs)]
    places = draws.shuffled([(i, j) for i, line in enumerate(lines) for j in range(len(line))])[:1 + draws.below(4)]
    for i, j in places:
        lines[i][j] = "x"
    start, *inputs = ("".join(line) for line in lines)
    job = shown.job
    return Shown(tools.Job(ident, f"{job.title} with x", job.text, job.b, job.k, job.d), start, inputs, shown.bad) if places else None


def dump(shown, *more):
    """What the program waveform prints for the witness."""
    tools.write(shown.job.file("circuit"), shown.job.text)
    tools.write(shown.job.file("witness"), shown.text)
    words = [WAVEFORM, tools.path(shown.job.file("circuit")), tools.path(shown.job.file("witness")), *more]
    return subprocess.run(words, capture_output=True, encoding="ascii", check=True).stdout


def wires(c):
    return [f"{kind}{i}" for kind, part in zip("ilobc", (c.inputs, c.latches, c.outputs, c.bads, c.constraints)) for i in range(len(part))]


def parse(text):
    """The names of the wires in their order, and their values in each time step, as the text stands."""
    head, _, body = text.partition("$enddefinitions $end\n")
    declared = re.findall(r"^\$var wire 1 (\S+) (\S+) \$end$", head, re.M)
    steps = re.split(r"^#(\d+)\n", body, flags=re.M)
    times = [int(t) for t in steps[1::2]]
    if steps[0] or times != list(range(len(times))) or steps[-1]:
        return None, None
    values = []
    for step in steps[2:-1:2]:
        at = {line[1:]: line[0] for line in step.splitlines()}
        values.append("".join(at.get(ident, "?") for ident, _ in declared))
    return [name for _, name in declared], values


def sigrok(file, names):
    """The samples that sigrok reads, channels in the order of names."""
    said = tools.run(["sigrok-cli", "-I", "vcd", "-i", file, "-O", "csv:dedup=false:header=false:label=channel"])
    lines = [line.split(",") for line in said.splitlines() if "," in line or line.strip() in names + ["0", "1"]]
    head = next(i for i, line in enumerate(lines) if line[0] in names)
    places = [lines[head].index(name) for name in names]
    return ["".join(line[place] for place in places) for line in lines[head + 1:]]


def seen(values):
    """What sigrok, which has no third value, gives for x: 0."""
    return [row.replace("x", "0") for row in values]


def gtkwave(file, names):
    """The samples that GTKWave's reader gives back: the dump made FST, and that made a dump again."""
    tools.run(["vcd2fst", file, file + ".fst"])
    text = tools.run(["fst2vcd", "-f", file + ".fst"])
    idents = {name: ident for ident, name in re.findall(r"^\$var wire 1 (\S+) (\S+) \$end$", text, re.M)}
    at, values, samples = None, {}, {}
    for line in text.partition("$enddefinitions $end")[2].splitlines():
        if line.startswith("#"):
            at = int(line[1:])
        elif line[:1] in ("0", "1", "x"):
            values[line[1:]] = line[0]
        samples[at] = "".join(values.get(idents[name], "?") for name in names)
    return samples


def whole(samples, count):
    """A sample for each time, where GTKWave leaves out the times at which nothing changes."""
    filled = []
    for t in range(count):
        filled.append(samples[t] if t in samples else filled[-1])
    return filled


# Icarus plays each witness on the Verilog that yosys writes, with an output for each latch, output, bad line and constraint: a gate of its
# own each, since yosys takes two outputs with one literal for one.

def observed(c):
    """The circuit with those outputs."""
    seen = [line[0] for line in c.latches + c.outputs + c.bads + c.constraints]
    top = c.counts[0]
    gates = [[2 * (top + 1 + i), lit, lit] for i, lit in enumerate(seen)]
    header = [["aag", top + len(seen), len(c.inputs), len(c.latches), len(seen), len(c.gates) + len(seen)]]
    names = [f"i{i} i{i}" for i in range(len(c.inputs))] + [f"l{i} l{i}" for i in range(len(c.latches))]
    names += [f"o{i} n{i}" for i in range(len(seen))]
    return aiger.joined(header, c.inputs, c.latches, [[gate[0]] for gate in gates], c.gates + gates, names)


MODULE = """module play_{ident};
  reg clk = 0;
{declared}  {ident} dut({connected});
  initial begin
    #1;
{start}{steps}  end
endmodule
"""


def module(shown):
    job = shown.job
    verilog = tools.read(job.file("v"))
    ports = re.split(r"\s*,\s*", re.search(r"^module \w+\(([^)]*)\);", verilog, re.M)[1])
    count = sum(port.startswith("n") for port in ports)
    outputs = [f"n{i}" for i in range(count)]
    say = f"    #1 $display(\"@ {job.ident} {'%b' * count}\", {', '.join(outputs)});\n"
    frames = ["".join(f"    i{i} = 1'b{bit};\n" for i, bit in enumerate(row)) + say for row in shown.inputs]
    start = "".join(f"    dut.l{i} = 1'b{bit};\n" for i, bit in enumerate(shown.start) if re.search(rf"^  reg l{i}\b", verilog, re.M))
    return verilog + MODULE.format(
        ident=job.ident,
        declared="".join(f"  reg i{i};\n" for i in range(len(job.circuit.inputs))) + "".join(f"  wire {name};\n" for name in outputs),
        connected=", ".join(f".{port}({port})" for port in ports),
        start=start,
        steps="    #1 clk = 1;\n    #1 clk = 0;\n".join(frames))


def play(cases):
    """Sets `values` of each case: the values of latches, outputs, bad lines and constraints in each frame, as Icarus computes them in every
    completion."""
    play_each([part for case in cases for part in case.parts])
    for case in cases:
        case.values = joined([part.values for part in case.parts])


def play_each(cases):
    for part in tools.chunks(cases, 100):
        for case in part:
            tools.write(case.job.file("aag"), observed(case.job.circuit))
        tools.write("shown.ys", "".join(
            f"read_aiger -clk_name clk -module_name {case.job.ident} {case.job.file('aag')}\nwrite_verilog -noattr {case.job.file('v')}\n"
            "design -reset\n" for case in part))
        tools.run(["yosys", "-q", "-s", "shown.ys"])
        tools.write("shown.v", "".join(module(case) for case in part))
        tools.run(["iverilog", "-g2005", "-o", "shown.vvp", "shown.v"])
        said = {}
        for ident, values in re.findall(r"^@ (\w+) (\S*)$", tools.run(["vvp", "-n", "shown.vvp"]), re.M):
            said.setdefault(ident, []).append(values)
        for case in part:
            case.values = said[case.job.ident]


def found(job):
    """The start line and rows of the witness that the search finds, or nothing."""
    tools.write(job.file("circuit"), job.text)
    words = [SEARCH_FILE, tools.path(job.file("circuit")), *map(str, (job.b, job.k, job.d))]
    said = subprocess.run(words, capture_output=True, encoding="ascii", check=True).stdout.split("\n")
    return (said[3], said[4:-2]) if said[0].startswith("found ") else None


def any_run(job, draws):
    """The start as the resets say and rows of inputs from the seed."""
    c = job.circuit
    start = "".join(str(draws.below(2)) if i in c.free() else str(c.reset(i)) for i in range(len(c.latches)))
    return start, ["".join(str(draws.below(2)) for _ in c.inputs) for _ in range(1 + draws.below(12))]


def questions():
    """The example triggers as searches: those behind a question line, and those that end with lines `Ask: search FILE b k D`."""
    folder = os.path.join(rows.ROWS, "data", "examples")
    for file in sorted(os.listdir(folder)):
        text = rows.load(os.path.join(folder, file))
        if file.endswith(".search"):
            yield file, text
        elif file.endswith(".aag"):
            for asked in re.findall(r"^Ask: search \S+ (\d+ \d+ \d+)$", text, re.M):
                yield f"{file} {asked}", f"search {asked}\n{text}"


def cases(seed, count):
    draws = aiger.Random(seed)
    for i, (title, text) in enumerate(questions()):
        job = rows.job_of(f"w{i}", f"examples/{title}", text)
        shown = found(job)
        if shown:
            yield from both(Shown(job, *shown, job.b), draws, True)
        else:
            print(f"{job.title}: no witness")
    for i, (text, _) in enumerate(rows.random_searches(seed, count, 0, 2)):
        job = rows.job_of(f"v{i}", f"random {i} of seed {seed}", text)
        shown = found(job)
        yield from both(Shown(job, *(shown or any_run(job, draws)), job.b), draws, bool(shown))


def both(shown, draws, hit):
    """A witness, and the same with x."""
    shown.hit = hit
    yield shown
    wide = widened(shown, draws, f"{shown.job.ident}x")
    if wide:
        yield wide


def spoiled(text, how):
    """A dump made wrong on purpose: the last value of the last step but one turned over."""
    if not how:
        return text
    at = max(text.rfind("\n0"), text.rfind("\n1")) + 1
    return text[:at] + str(1 - int(text[at])) + text[at + 1:]


def judge(case, note):
    c, frames = case.job.circuit, len(case.inputs)
    names, values = parse(case.dump)
    note("names", case, names == wires(c))
    note("text, inputs", case, [row[:len(c.inputs)] for row in values] == case.inputs)
    note("Icarus, other wires", case, [row[len(c.inputs):] for row in values] == case.values)
    file = case.job.file("vcd")
    tools.write(file, case.dump)
    note("sigrok, all wires", case, sigrok(file, names) == seen(values))
    note("GTKWave, all wires", case, whole(gtkwave(file, names), frames) == values)
    note("hit in the last step", case, not case.hit or values[-1][names.index(f"b{case.job.b}")] == "1")
    if c.inputs:
        tools.write(file, case.alone)
        note("sigrok, inputs alone", case, sigrok(file, wires(c)[:len(c.inputs)]) == seen(case.inputs))
        note("GTKWave, inputs alone", case, whole(gtkwave(file, wires(c)[:len(c.inputs)]), frames) == case.inputs)


def main():
    parser = argparse.ArgumentParser(prog="tests/outside/waveforms")
    parser.add_argument("--circuits", type=int, default=RANDOM, help=f"random circuits ({RANDOM})")
    parser.add_argument("--seed", type=int, default=rows.SEED + 2, help="seed of the random circuits")
    parser.add_argument("--spoil", action="store_true", help="spoil each dump, to show that it is noticed")
    given = parser.parse_args()
    tools.empty_work()
    made, differ, shown = {}, {}, list(cases(given.seed, given.circuits))

    def note(kind, case, agree):
        made[kind] = made.get(kind, 0) + 1
        if not agree:
            differ[kind] = differ.get(kind, 0) + 1
            if differ[kind] <= 3:
                print(f"DIFFER {case.job.title}: {kind}")

    for case in shown:
        case.dump, case.alone = spoiled(dump(case), given.spoil), dump(case, "--inputs")
    play(shown)
    for case in shown:
        judge(case, note)
    for kind, count in made.items():
        print(f"{kind}: {count} compared, {differ.get(kind, 0)} differ")
    wide = [case for case in shown if len(case.parts) > 1]
    others = sum(row.count("x") for case in wide for row in case.values)
    print(f"{len(shown)} witnesses, {sum(case.hit for case in shown)} of them hits, {sum(len(case.inputs) for case in shown)} frames")
    print(f"{len(wide)} of them with x, {sum(len(case.parts) for case in wide)} completions, {others} values x on other wires than inputs")
    print(f"{sum(made.values())} compared, {sum(differ.values())} differ")
    sys.exit(1 if differ else 0)


if __name__ == "__main__":
    try:
        main()
    except tools.ToolError as error:
        print(error, file=sys.stderr)
        sys.exit(2)
