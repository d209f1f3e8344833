"""Plays the witnesses that the search prints in Icarus Verilog, on the Verilog that yosys writes for each circuit."""
import re

import tools

MODULE = """module play_{ident};
  reg clk = 0;
{declared}{wires}  {ident} dut({connected});
  initial begin
{steps}    #1 $display("@ {ident} %b", o0);
  end
endmodule
"""


def parse_witness(job):
    """The start line and the input lines of a printed witness, or nothing where it does not have AIGER's form."""
    lines = job.ours.split("\n")
    said = re.fullmatch(r"found (\d+)", lines[0])
    if not said or len(lines) != int(said[1]) + 7 or lines[1:3] != ["1", f"b{job.b}"] or lines[-2:] != [".", ""]:
        return None
    start, rows = lines[3], lines[4:-2]
    sizes = [len(start)] + [len(row) for row in rows]
    if sizes != [len(job.circuit.latches)] + [len(job.circuit.inputs)] * len(rows) or set("".join([start] + rows)) - set("01"):
        return None
    return start, rows


def start_steps(job, start, verilog):
    """Sets the latches with a free start, and says where the start line does not agree with the reset of another one."""
    steps = "    #1;\n"
    for i, value in enumerate(start):
        if not re.search(rf"^  reg l{i}\b", verilog, re.M):
            continue
        if i in job.circuit.free():
            steps += f"    dut.l{i} = 1'b{value};\n"
        else:
            steps += f"    if (dut.l{i} !== 1'b{value}) $display(\"@ {job.ident} start l{i}\");\n"
    return steps


def constraint_steps(job, frame):
    """Says which constraint is not 1 in a frame."""
    lines = [f"    if (o{1 + i} !== 1'b1) $display(\"@ {job.ident} constraint {i} frame {frame}\");\n" for i in range(len(job.circuit.constraints))]
    return "".join(["    #1;\n"] + lines) if lines else ""


def input_steps(job, rows):
    frames = ["".join(f"    i{i} = 1'b{value};\n" for i, value in enumerate(row)) + constraint_steps(job, t) for t, row in enumerate(rows)]
    return "    #1 clk = 1;\n    #1 clk = 0;\n".join(frames)


def module(job, start, rows):
    verilog = tools.read(job.file("v"))
    ports = re.search(r"^module \w+\((.*)\);", verilog, re.M)[1].split(", ")
    inputs = [port for port in ports if port.startswith("i")]
    outputs = [f"o{i}" for i in range(1 + len(job.circuit.constraints))]
    played = MODULE.format(
        ident=job.ident,
        declared="".join(f"  reg i{i};\n" for i in range(len(job.circuit.inputs))),
        wires="".join(f"  wire {name};\n" for name in outputs),
        connected=", ".join(f".{port}({port})" for port in inputs + outputs + (["clk"] if "clk" in ports else [])),
        steps=start_steps(job, start, verilog) + input_steps(job, rows))
    return verilog + played


def play(jobs):
    """Sets `played` of each job whose answer is found: `1` where the bad line is 1 in the last frame and every constraint in every frame."""
    for part in tools.chunks([job for job in jobs if job.ours.startswith("found ")]):
        text = ""
        for job in part:
            shown = parse_witness(job)
            job.played = "malformed"
            if shown:
                text += module(job, *shown)
        if not text:
            continue
        tools.write("play.v", text)
        tools.run(["iverilog", "-g2005", "-o", "play.vvp", "play.v"])
        said = {}
        for ident, value in re.findall(r"^@ (\w+) (.*)$", tools.run(["vvp", "-n", "play.vvp"]), re.M):
            said[ident] = f"{said[ident]}, {value}" if ident in said else value
        for job in part:
            job.played = said.get(job.ident, job.played)
