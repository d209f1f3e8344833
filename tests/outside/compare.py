"""Compares what the search program says with what ABC, yosys and Icarus Verilog say. The last line is `N compared, M differ`."""
import argparse
import os
import re
import sys
import time
from collections import Counter

import aiger
import answers
import play
import rows
import tools


class Tally:
    """Counts of comparisons by kind, and of those that differ. The first five of a kind that differ are printed."""

    def __init__(self):
        self.made, self.differ = Counter(), Counter()

    def note(self, kind, title, ours, theirs, agree):
        self.made[kind] += 1
        if not agree:
            self.differ[kind] += 1
            if self.differ[kind] <= 5:
                print(f"DIFFER {title}: {kind} {theirs!r}, ours {ours!r}")


def first_line(text):
    return text.split("\n", 1)[0]


def spoiled(said, how):
    """A found answer made wrong on purpose: the frame one later, spent instead of found, or the last bit of the witness flipped."""
    found = re.match(r"found (\d+)\n", said)
    if not found or not how:
        return said
    if how == "frame":
        return f"found {int(found[1]) + 1}\n{said[found.end():]}"
    if how == "spent":
        return f"spent {found[1]}\n"
    head, witness = re.match(r"(found \d+\n1\nb\d+\n)(.*)", said, re.S).groups()
    at = max(witness.rfind("0"), witness.rfind("1"))
    return f"{head}{witness[:at]}{1 - int(witness[at])}{witness[at + 1:]}" if at >= 0 else said


def answer_all(jobs, how):
    """Has every job answered by each side, and our witnesses played."""
    for job in jobs:
        job.ours = spoiled(tools.search(job, job.d), how)
    tools.yosys(jobs)
    tools.abc(jobs)
    play.play(jobs)


def judge(job, tally):
    first = first_line(job.ours)
    tally.note("ABC bmc3", job.title, first, job.bmc3, first == job.bmc3)
    tally.note("yosys sat", job.title, first, job.sat, first == job.sat)
    if job.tables:
        wanted = answers.expected(job)
        tally.note("ABC tables", job.title, job.ours, wanted, job.ours == wanted)
    if first.startswith("found "):
        tally.note("Icarus", job.title, job.ours, job.played, job.played == "1")


def say(job, more=""):
    text = "too many free bits"
    if job.tables:
        text = "same text" if job.ours == answers.expected(job) else "ANOTHER TEXT"
    played = f", bad line when played {job.played}" if job.played else ""
    print(f"{job.title}: ours {first_line(job.ours)}, bmc3 {job.bmc3}, sat {job.sat}, tables {text}{played}{more}")


def property_at(original, b, names):
    """The place, in the binary file that yosys made of a published file, of its bad line b, or of output b where it has no bad line."""
    kind = "b" if original.bads else "o"
    symbol = [line.split(" ", 1)[1] for line in original.symbols if line.startswith(f"{kind}{b} ")]
    if symbol and ("output", symbol[0]) in names:
        return names[("output", symbol[0])]
    if len(original.bads or original.outputs) == 1:
        return 0  # yosys' map leaves out a constant.
    raise tools.ToolError("no place for the property")


def bmc3_on_originals(files, jobs):
    """ABC's answers on the published files themselves, read by yosys unchanged."""
    convert = ""
    for file, job in zip(files, jobs):
        convert += f"read_aiger -module_name top {os.path.join(rows.ORIGINALS, file)}\n"
        convert += f"write_aiger -I -L -map whole_{job.ident}.map whole_{job.ident}.aig\ndesign -reset\n"
    tools.write("originals.ys", convert)
    tools.run(["yosys", "-q", "-s", "originals.ys"])
    script = ""
    for file, job in zip(files, jobs):
        original = aiger.parse(rows.load(os.path.join(rows.ORIGINALS, file)))
        at = property_at(original, job.b, tools.read_map(tools.read(f"whole_{job.ident}.map")))
        script += tools.BMC3.format(ident=job.ident, file=f"whole_{job.ident}", output=at, frames=job.k + 1)
    tools.write("originals.abc", script)
    logs = tools.sections(tools.run(["berkeley-abc", "-f", "originals.abc"]))
    return [tools.bmc3_answer(job.title, job.k, logs[job.ident]) for job in jobs]


def compare_published(tally, how):
    """Part a: the published examples."""
    asked = []
    for i, (title, file, _) in enumerate(rows.published()):
        job = rows.job_of(f"p{i}", title, rows.load(os.path.join(rows.ROWS, "data", title)))
        if job.circuit.bads:
            asked.append((file, job))
        else:
            print(f"{title}: ours {first_line(tools.search(job, job.d))}; it has no output and no bad line, so there is nothing to ask")
    jobs = [job for _, job in asked]
    answer_all(jobs, how)
    whole = bmc3_on_originals([file for file, _ in asked], jobs)
    for job, answer in zip(jobs, whole):
        judge(job, tally)
        first = first_line(job.ours)
        tally.note("ABC bmc3, file unchanged", job.title, first, answer, first == answer)
        say(job, f", bmc3 on the file unchanged {answer}")


def compare_triggers(tally, how):
    """Part c: the example triggers."""
    folder = os.path.join(rows.ROWS, "data", "examples")
    files = sorted(name for name in os.listdir(folder) if name.endswith(".search"))
    jobs = [rows.job_of(f"t{i}", f"examples/{file}", rows.load(os.path.join(folder, file))) for i, file in enumerate(files)]
    asked = [job for job in jobs if 1 << job.bits(job.k) <= job.d]
    for job in jobs:
        if job not in asked:
            print(f"{job.title}: its budget does not cover every sequence, and the other tools have no answer spent")
    answer_all(asked, how)
    for job in asked:
        judge(job, tally)
        say(job, ", with constraints, the file unchanged" if job.circuit.constraints else "")


def compare_random(tally, how, searches, what):
    """Part b: random circuits, each searched with a budget that covers every sequence and with a smaller one."""
    searches = list(searches)
    jobs = [rows.job_of(f"r{i}", f"{what} {i}", text) for i, (text, _) in enumerate(searches)]
    answer_all(jobs, how)
    spent = 0
    for job, (_, budget) in zip(jobs, searches):
        judge(job, tally)
        said, full = spoiled(tools.search(job, budget), how), answers.expected(job)
        spent += said.startswith("spent")
        tally.note("smaller budget", f"{job.title}, budget {budget}", said, full, answers.permitted(job, full, budget, said))
    seen = Counter(first_line(job.ours) if job.ours.startswith("found") else job.ours.split(" ")[0] for job in jobs)
    print(f"{len(jobs)} of {what}: " + ", ".join(f"{seen[x]} {x}" for x in sorted(seen)) + f"; with the smaller budget {spent} spent")


def same_files():
    """Whether the rows of the program `searches` are those that rows.py makes."""
    wrong = [title for title, text in rows.made().items() if rows.load(os.path.join(rows.ROWS, "data", title)) != text]
    for title in wrong:
        print(f"{title} is not what rows.py makes")
    return not wrong


def options():
    parser = argparse.ArgumentParser(prog="tests/outside/run")
    parser.add_argument("--generated", type=int, default=1500, help="circuits that the command generate makes (1500)")
    parser.add_argument("--circuits", type=int, default=2500, help="random circuits with resets and free starts, without constraints (2500)")
    parser.add_argument("--constrained", type=int, default=1600, help="random circuits with 1 to 4 constraints (1600)")
    parser.add_argument("--seed", type=int, default=rows.SEED, help=f"seed of the random circuits ({rows.SEED})")
    parser.add_argument("--spoil", choices=["frame", "spent", "bit"], help="spoil our answers, to show that it is noticed")
    return parser.parse_args()


def main():
    given, tally, began = options(), Tally(), time.time()
    tools.empty_work()
    same = same_files()
    compare_published(tally, given.spoil)
    compare_triggers(tally, given.spoil)
    compare_random(tally, given.spoil, rows.generated_searches(given.seed, given.generated), f"circuits generated from seed {given.seed}")
    compare_random(tally, given.spoil, rows.random_searches(given.seed, given.circuits, 0, 0), f"random circuits of seed {given.seed}")
    constrained = f"random circuits of seed {given.seed + 1} with 1 to 4 constraints"
    compare_random(tally, given.spoil, rows.random_searches(given.seed + 1, given.constrained, 1, 4), constrained)
    for kind, count in tally.made.items():
        print(f"{kind}: {count} compared, {tally.differ[kind]} differ")
    total, differ = sum(tally.made.values()), sum(tally.differ.values())
    played = tally.made["Icarus"]
    print(f"{total - played} answers and {played} played witnesses in {time.time() - began:.0f} s")
    print(f"{total} compared, {differ} differ")
    sys.exit(1 if differ or not same else 0)


if __name__ == "__main__":
    try:
        main()
    except tools.ToolError as error:
        print(error, file=sys.stderr)
        sys.exit(2)
