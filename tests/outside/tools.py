"""The search program and the other tools, each run on many jobs. Working files stand in target/outside."""
import os
import re
import shutil
import subprocess
from dataclasses import dataclass, field

import aiger

HERE = os.path.dirname(os.path.abspath(__file__))
ROOT = os.path.dirname(os.path.dirname(HERE))
WORK = os.path.join(ROOT, "target", "outside")
SEARCH = os.path.join(ROOT, "target", "bin", "search_main")
GENERATE = os.path.join(ROOT, "target", "bin", "generate_main")
MOST_BITS = 16  # ABC writes truth tables of 3 to 16 inputs.


class ToolError(Exception):
    pass


@dataclass
class Job:
    """A search of a circuit text, and what each side answers. `ident` names its working files and its Verilog module."""
    ident: str
    title: str
    text: str
    b: int
    k: int
    d: int
    circuit: aiger.Circuit = None
    ours: str = ""
    bmc3: str = ""
    sat: str = ""
    tables: list = field(default_factory=list)
    names: dict = field(default_factory=dict)
    played: str = ""

    def __post_init__(self):
        self.circuit = aiger.parse(self.text)

    def file(self, suffix):
        return f"{self.ident}.{suffix}"

    def bits(self, t):
        return len(self.circuit.free()) + len(self.circuit.inputs) * (t + 1)


def empty_work():
    shutil.rmtree(WORK, ignore_errors=True)
    os.makedirs(WORK)


def path(name):
    return os.path.join(WORK, name)


def read(name):
    with open(path(name), encoding="ascii") as f:
        return f.read()


def write(name, text):
    with open(path(name), "w", encoding="ascii") as f:
        f.write(text)


def run(command):
    """Runs a tool in the working folder. The answer is what it prints."""
    done = subprocess.run(command, cwd=WORK, stdout=subprocess.PIPE, stderr=subprocess.STDOUT, encoding="latin-1", check=False)
    if done.returncode != 0:
        raise ToolError(f"{command[0]}: exit status {done.returncode}\n{done.stdout[-2000:]}")
    return done.stdout


def chunks(jobs, size=400):
    return [jobs[i:i + size] for i in range(0, len(jobs), size)]


def sections(text):
    """The parts of a log by the mark that stands before each: a line `@@ IDENT`."""
    parts = re.split(r"^@@ (\S+)\s*$", text, flags=re.M)
    return dict(zip(parts[1::2], parts[2::2]))


def generate(seed, i, l, a):
    """The circuit that the command generate makes."""
    return run([GENERATE, str(seed), str(i), str(l), str(a)])


def search(job, d):
    """What the search program prints for the job with budget d."""
    given = f"search {job.b} {job.k} {d}\n{job.text}"
    return subprocess.run([SEARCH], input=given, capture_output=True, encoding="ascii", check=True).stdout


# yosys: the circuit as binary AIGER for ABC and as Verilog for Icarus, and its own answer by `sat`.

YOSYS = """log @@ {ident}
read_aiger -module_name top {ident}.aag
write_aiger -I -L -map {ident}.map {ident}.aig
sat -tempinduct-baseonly -maxsteps {frames} -prove o0 0{assumed}
design -reset
read_aiger -clk_name clk -module_name {ident} {ident}.aag
write_verilog -noattr {ident}.v
design -reset
"""


def read_map(text):
    """The map that yosys writes beside a binary file: position there by kind and name."""
    rows = [line.split(" ") for line in text.splitlines()]
    return {(kind, name): int(at) for kind, at, _, name in rows}


def assumed(job):
    """Every constraint is 1 in every frame."""
    return "".join(f" -set o{1 + i} 1" for i in range(len(job.circuit.constraints)))


def places(c):
    """The same for a binary file that aiger.py makes: inputs and latches stand there in the order of the file."""
    return {(kind, f"{kind[0]}{i}"): i for kind, lines in (("input", c.inputs), ("latch", c.latches)) for i in range(len(lines))}


def sat_answer(job, log):
    lengths = re.findall(r"Trying induction with length (\d+)", log)
    if "model found for base case: FAIL!" in log:
        return f"found {int(lengths[-1]) - 1}"
    if f"proved base case for {job.k + 1} steps: SUCCESS!" in log:
        return f"none {job.k}"
    raise ToolError(f"{job.title}: yosys sat gives no answer\n{log}")


def yosys(jobs):
    for part in chunks(jobs):
        for job in part:
            write(job.file("aag"), aiger.question(job.circuit, job.b))
        write("convert.ys", "".join(YOSYS.format(ident=job.ident, frames=job.k + 1, assumed=assumed(job)) for job in part))
        run(["yosys", "-q", "-l", "convert.log", "-s", "convert.ys"])
        logs = sections(read("convert.log"))
        for job in part:
            job.sat = sat_answer(job, logs[job.ident])
            job.names = places(job.circuit) if job.circuit.constraints else read_map(read(job.file("map")))


# ABC: bounded model checking, and the truth table of the output in each frame.

# A file with constraints is read whole, as AIGER 1.9 has it: `fold` makes each property false from the first frame on that breaks a constraint.
# Where no latch is left after it, bmc3 is no use; all frames are then the same, and `iprove` says whether the property is ever true.
WHOLE = """echo @@ {ident}
read_aiger {ident}_whole.aig
logic
undc
strash
zero
fold
cone -s -O {output}
"""

BMC3 = """echo @@ {ident}
read_aiger {file}.aig
logic
undc
strash
zero
cone -s -O {output}
bmc3 -F {frames}
print_status
"""

TABLES = """read_aiger {file}.aig
frames -i -F {frames}
strash
&get -n
&write_truths {ident}.tables
"""


def bmc3_answer(title, k, log):
    said = re.search(r"Status = +(-?\d+) +Frames = +(-?\d+) +(?:CEX: Po = +0 +Frame = +(\d+))?", log)
    if not said:
        raise ToolError(f"{title}: ABC bmc3 gives no answer\n{log}")
    status, frames, hit = said.groups()
    if status == "0" and hit is not None:
        return f"found {hit}"
    if status == "1" or (status == "-1" and int(frames) >= k):
        return f"none {k}"
    raise ToolError(f"{title}: ABC bmc3 stopped early\n{log}")


def table_frames(job):
    """The number of frames to unroll: to the bound, and further where ABC would have fewer than the three inputs that it needs."""
    return max(job.k + 1, -(-3 // max(1, len(job.circuit.inputs))))


def read_tables(name):
    return [int(line, 16) for line in read(name).split()]


def write_constrained(job):
    """The whole file for bmc3; for the tables bad line b and the constraints as outputs, so that each has a table of its own in each frame."""
    c = job.circuit
    for name, lines in (("whole", (c.outputs, c.bads, c.constraints)), ("lines", ([c.bads[job.b]] + c.constraints, [], []))):
        with open(path(f"{job.ident}_{name}.aig"), "wb") as f:
            f.write(aiger.binary(c, *lines))


def abc_script(job):
    c, script = job.circuit, ""
    if c.constraints:
        write_constrained(job)
        script += WHOLE.format(ident=job.ident, output=len(c.outputs) + job.b) + f"bmc3 -F {job.k + 1}\nprint_status\n"
    else:
        script += BMC3.format(ident=job.ident, file=job.ident, output=0, frames=job.k + 1)
    if job.bits(job.k) <= MOST_BITS:
        file = f"{job.ident}_lines" if c.constraints else job.ident
        script += TABLES.format(ident=job.ident, file=file, frames=table_frames(job))
    return script


def hit_tables(job, tables):
    """The table of the hit in each frame: the bad line there, and every constraint there and in the frames before."""
    lines, hits, allowed = 1 + len(job.circuit.constraints), [], -1
    for t in range(job.k + 1):
        bad, *constraints = tables[t * lines:(t + 1) * lines]
        for table in constraints:
            allowed &= table
        hits.append(bad & allowed)
    return hits


def without_latches(jobs, logs):
    """ABC's answers where no latch is left after `fold`."""
    asked = [job for job in jobs if "Does not work for combinational networks" in logs[job.ident]]
    write("prove.abc", "".join(WHOLE.format(ident=job.ident, output=len(job.circuit.outputs) + job.b) + "iprove\n" for job in asked))
    said = sections(run(["berkeley-abc", "-f", "prove.abc"])) if asked else {}
    for job in asked:
        if "SATISFIABLE" not in said[job.ident]:
            raise ToolError(f"{job.title}: ABC iprove gives no answer\n{said[job.ident]}")
        job.bmc3 = f"none {job.k}" if "UNSATISFIABLE" in said[job.ident] else "found 0"


def abc(jobs):
    for part in chunks(jobs):
        write("check.abc", "".join(map(abc_script, part)))
        logs = sections(run(["berkeley-abc", "-f", "check.abc"]))
        without_latches(part, logs)
        for job in part:
            job.bmc3 = job.bmc3 or bmc3_answer(job.title, job.k, logs[job.ident])
            if job.bits(job.k) <= MOST_BITS:
                job.tables = hit_tables(job, read_tables(job.file("tables")))
