"""Asks this search, ABC's bmc3 and one incremental CaDiCaL the same questions in one run, and prints a table of wall time, peak memory and
ratios. bench/run builds what it needs. With --write the table replaces the one in docs/COST.md."""
import argparse
import math
import os
import platform
import re
import statistics
import subprocess
import sys

HERE = os.path.dirname(os.path.abspath(__file__))
ROOT = os.path.dirname(HERE)
WORK = os.path.join(ROOT, "target", "bench")
SHARED = os.environ.get("BENCHMARK", os.path.join(ROOT, "..", "shared", "benchmark"))
EXAMPLES = os.path.join(ROOT, "examples")
BUDGET = 1 << 20
BEGIN, END = "<!-- table of bench/compare.py -->", "<!-- end of the table -->"


# Circuits

def parse(text):
    """Counts, inputs, latches, bad lines, constraints and gates of an ASCII AIGER file, as lists of numbers."""
    lines = text.split("\n")
    counts = ([int(x) for x in lines[0].split()[1:]] + [0] * 4)[:7]
    _, i, l, o, a, b, c = counts
    parts, at = [], 1
    for size in (i, l, o, b, c, a):
        parts.append([[int(x) for x in line.split()] for line in lines[at:at + size]])
        at += size
    return counts, parts


def one_bad_line(text, b):
    """The file with bad line b as its only one, without outputs and comment."""
    counts, (inputs, latches, _, bads, _, gates) = parse(text)
    head = [["aag", counts[0], counts[1], counts[2], 0, counts[4], 1]]
    return "".join(" ".join(map(str, row)) + "\n" for row in head + inputs + latches + [bads[b]] + gates)


def number(delta):
    data = b""
    while delta > 127:
        data += bytes([delta & 127 | 128])
        delta >>= 7
    return data + bytes([delta])


def binary(text):
    """The binary AIGER file of a text with one bad line, which becomes the output. ABC reads no text."""
    _, (inputs, latches, _, bads, _, gates) = parse(text)
    of = {row[0]: row[1:] for row in gates}
    names = {0: 0}
    for row in inputs + latches:
        names[row[0]] = 2 * len(names)
    order, stack = [], [row[0] for row in reversed(gates)]
    while stack:
        top = stack[-1]
        below = [x & ~1 for x in of[top] if x & ~1 in of and x & ~1 not in names]
        if top in names:
            stack.pop()
        elif below:
            stack += below
        else:
            names[top] = 2 * len(names)
            order.append(top)
            stack.pop()
    lit = lambda x: names[x & ~1] ^ x & 1
    data = f"aig {len(names) - 1} {len(inputs)} {len(latches)} 1 {len(order)}\n".encode()
    for row in latches:
        start = [] if len(row) < 3 else [row[2] if row[2] < 2 else lit(row[2])]
        data += (" ".join(map(str, [lit(row[1])] + start)) + "\n").encode()
    data += f"{lit(bads[0][0])}\n".encode()
    for gate in order:
        high, low = sorted(map(lit, of[gate]), reverse=True)
        data += number(names[gate] - high) + number(high - low)
    return data


def drawn(seed):
    """The machine that the library generates of a seed, with another bad line, which asks for its first three latches at once."""
    i, l, a = 1 + seed % 4, 6 + 5 * seed % 9, 30 + 37 * seed % 131
    made = subprocess.run([os.path.join(WORK, "draw"), *map(str, (seed, i, l, a))], capture_output=True, text=True, check=True).stdout
    _, (inputs, latches, _, _, _, gates) = parse(made)
    top, (x, y, z) = i + l + a + 2, [row[0] for row in latches[:3]]
    gates += [[2 * top - 2, x, y], [2 * top, 2 * top - 2, z + 1]]
    rows = [["aag", top, i, l, 0, a + 2, 1]] + inputs + latches + [[2 * top]] + gates
    return "".join(" ".join(map(str, row)) + "\n" for row in rows)


def listed(folder):
    """Name, text and bound of each circuit that the table of a folder's README lists."""
    if not os.path.isdir(folder):
        return
    table = open(os.path.join(folder, "README.md"), encoding="utf-8").read()
    for name, k in re.findall(r"^\| (\w+) \| (\d+) \|", table, flags=re.M):
        if os.path.exists(os.path.join(folder, name + ".aag")):
            yield name, one_bad_line(open(os.path.join(folder, name + ".aag"), encoding="ascii").read(), 0), int(k)


def shifted(bits):
    """A shift register of so many bits behind an input, a counter of samples modulo 16, and a bad line: all bits 1 where the counter is 15."""
    first = 2 + bits + 4
    gates, top = [], first - 1

    def gate(x, y):
        nonlocal top
        top += 1
        gates.append([2 * top, x, y])
        return 2 * top

    count = [2 * (2 + bits + j) for j in range(4)]
    carry, nexts = 1, []
    for c in count:
        both = gate(c, carry) if carry != 1 else c
        nexts.append(gate(gate(c, carry) ^ 1, gate(c ^ 1, carry ^ 1) ^ 1) if carry != 1 else c ^ 1)
        carry = both
    latches = [[2 * (2 + j), 2 if j == 0 else 2 * (1 + j)] for j in range(bits)] + [[c, n] for c, n in zip(count, nexts)]
    all_set = carry
    for j in range(bits):
        all_set = gate(all_set, 2 * (2 + j))
    rows = [["aag", top, 1, bits + 4, 0, len(gates), 1], [2]] + latches + [[all_set]] + gates
    return "".join(" ".join(map(str, row)) + "\n" for row in rows)


def queries(machines):
    """Family, name, text with one bad line, bound, and the answer that the file itself gives, where it gives one."""
    triggers = list(listed(os.path.join(SHARED, "triggers")))
    for name, text, k in triggers:
        yield "triggers", name, text, k, None
    for name, text, k in listed(SHARED):
        yield "circuits", name, text, k, None
    for name in sorted(os.listdir(EXAMPLES)):
        if name.endswith(".search"):
            head, text = open(os.path.join(EXAMPLES, name), encoding="ascii").read().split("\n", 1)
            _, b, k, _ = head.split()
            if not parse(text)[0][6]:
                yield "examples", name[:-7], one_bad_line(text, int(b)), int(k), None
    for name in sorted(os.listdir(EXAMPLES)):
        if name.endswith(".aag"):
            text = open(os.path.join(EXAMPLES, name), encoding="ascii").read()
            for b, k, answer in re.findall(r"^Ask: search \S+ (\d+) (\d+) \d+\nAnswer: (\w+ \d+)", text, flags=re.M):
                yield "examples", f"{name[:-4]} {b}", one_bad_line(text, int(b)), int(k), answer
    for seed in range(1, machines + 1):
        yield "generated machines", f"generated {seed}", drawn(seed), 20, None
    for name, text, _ in triggers:
        if name.split("_")[0] in ("t01", "t08", "t31"):
            for k in (16, 32, 64, 128, 192, 255):
                yield "growth with the bound", f"{name} {k}", text, k, None
    for bits in (4, 8, 12, 16, 20, 24, 28, 32):
        yield "growth with width", f"shifted {bits}", shifted(bits), 64, None


# Tools: the answer, wall time of the process, time of the work alone where the tool tells it, both in milliseconds, peak memory in MB

def run(command, limit):
    text = subprocess.run(["./measure", str(limit)] + command, cwd=WORK, stdout=subprocess.PIPE, stderr=subprocess.STDOUT, check=True).stdout.decode("latin-1")
    printed, line = text.rstrip("\n").rsplit("\n", 1)
    done, wall, peak = line.split()
    return printed if done == "1" else None, float(wall), int(peak) / 1024


def told(command, limit):
    """A driver that prints its answer and its own time."""
    text, wall, peak = run(command, limit)
    if text is None:
        return "no answer", None, None, peak
    answer, work = text.split("\n")[:2]
    return answer, wall, float(work), peak


def bmc3(k, limit):
    script = f"read_aiger query.aig; logic; undc; strash; zero; bmc3 -F {k + 1}; print_status"
    text, wall, peak = run(["berkeley-abc", "-c", script], limit)
    if text is None:
        return "no answer", None, None, peak
    hit = re.search(r"asserted in frame (\d+)", text)
    if hit:
        return f"found {hit.group(1)}", wall, None, peak
    return f"none {k}" if f"No output asserted in {k + 1} frames" in text else "no answer", wall, None, peak


def repeated(ask, runs):
    first = ask()
    if first[1] is None or first[1] > 1000:
        return first
    all_runs = [first] + [ask() for _ in range(runs - 1)]
    middle = lambda i: statistics.median(r[i] for r in all_runs) if first[i] is not None else None
    return first[0], middle(1), middle(2), max(r[3] for r in all_runs)


# The table

def shown(x):
    return "" if x is None else f"{x:.3g}" if x < 100 else f"{x:.0f}"


def mean(ratios):
    return math.exp(sum(map(math.log, ratios)) / len(ratios)) if ratios else None


def taken(result, at, limit):
    """The time of an answer, whole process (1) or work (2); a tool that was stopped, and a search that is spent, counts the limit."""
    return result[at] if result[0].split()[0] in ("found", "none") and result[at] is not None else 1000.0 * limit


def means(rows):
    """For each family: how many were asked and answered by each, and how many times longer the others take."""
    lines = ["| family | asked | answered | by bmc3 | by CaDiCaL | bmc3 / ours | CaDiCaL / ours | CaDiCaL / ours, work |", "|---|---|---|---|---|---|---|---|"]
    for family in dict.fromkeys(row[0] for row in rows):
        own = [row[1:] for row in rows if row[0] == family]
        counts = [sum(row[i][0].split()[0] in ("found", "none") for row in own) for i in range(3)]
        ratio = lambda other, at: shown(mean([row[3 + other][at] / row[3][at] for row in own]))
        lines.append(f"| {family} | {len(own)} | {counts[0]} | {counts[1]} | {counts[2]} | {ratio(1, 0)} | {ratio(2, 0)} | {ratio(2, 1)} |")
    return lines


def main():
    args = argparse.ArgumentParser()
    args.add_argument("--machines", type=int, default=8, help="how many machines are generated")
    args.add_argument("--runs", type=int, default=5, help="runs of which the median is taken, where one takes less than a second")
    args.add_argument("--limit", type=int, default=30, help="seconds for a query")
    args.add_argument("--family", default="", help="ask only the families whose name has this word")
    args.add_argument("--write", action="store_true", help="put the table into docs/COST.md")
    args = args.parse_args()
    load = os.getloadavg()[0]
    start = statistics.median(run(["berkeley-abc", "-c", "quit"], 30)[1] for _ in range(5))
    out = ["| query | k | this search | ms | work ms | MB | bmc3 | ms | MB | CaDiCaL | ms | work ms | MB | bmc3 / ours | CaDiCaL / ours, work |",
           "|---|---|---|---|---|---|---|---|---|---|---|---|---|---|---|"]
    ratios, work_ratios, answered, asked, differ, rows = [], [], 0, 0, [], []
    for family, name, text, k, given in queries(args.machines):
        if args.family and args.family not in family:
            continue
        open(os.path.join(WORK, "query.aag"), "w", encoding="ascii").write(text)
        open(os.path.join(WORK, "query.aig"), "wb").write(binary(text))
        ours = repeated(lambda: told(["./ask", "query.aag", "0", str(k), str(BUDGET)], args.limit), args.runs)
        abc = repeated(lambda: bmc3(k, args.limit), args.runs)
        sat = repeated(lambda: told(["./incremental", "query.aag", str(k)], args.limit), args.runs)
        times = [(taken(r, 1, args.limit), taken(r, 2, args.limit)) for r in (ours, abc, sat)]
        rows.append((family, ours, abc, sat, *times))
        decided = ours[0].split()[0] in ("found", "none")
        asked += 1
        answered += decided
        answers = {x for x in (ours[0], abc[0], sat[0], given) if x and x.split()[0] in ("found", "none")}
        if len(answers) > 1:
            differ.append(name)
        ratio = abc[1] / ours[1] if decided and abc[1] else None
        work = sat[2] / ours[2] if decided and sat[2] else None
        ratios += [ratio] if ratio else []
        work_ratios += [work] if work else []
        cells = [name, k, ours[0], shown(ours[1]), shown(ours[2]), shown(ours[3]), abc[0], shown(abc[1]), shown(abc[3]), sat[0], shown(sat[1]),
                 shown(sat[2]), shown(sat[3]), shown(ratio), shown(work)]
        out.append("| " + " | ".join(map(str, cells)) + " |")
        print(out[-1], flush=True)
    versions = subprocess.run(["dpkg-query", "-W", "-f", "${Package} ${Version}, ", "berkeley-abc", "libcadical-dev"], capture_output=True, text=True).stdout
    cpu = re.search(r"model name\s*: (.*)", open("/proc/cpuinfo", encoding="utf-8").read())
    head = [f"Seen with {versions.rstrip(', ')} on {cpu.group(1).strip() if cpu else platform.machine()}, {os.cpu_count()} cores, load average {load:.1f} at the start; budget D {BUDGET:,} a frame; "
            f"at most {args.limit} s a query; the median of {args.runs} runs where one takes less than a second.",
            f"ms is the wall time of the whole process, of which ABC's start alone takes {start:.0f} ms; work ms is load and search, or reading, unrolling and solving,"
            " without the start of the process. MB is the peak of the process.", ""]
    tail = ["", *means(rows), "", "In the table of families a tool that was stopped, and a search that is spent, counts the whole limit. bmc3's work alone is not told, so its time is that of the process.",
            "", f"Answered (found or none): {answered} of {asked}. Geometric mean over the answered: bmc3 takes {shown(mean(ratios)) or '-'} times the time of this search"
            f" (whole processes), CaDiCaL {shown(mean(work_ratios)) or '-'} times (work alone). Answers that differ: {', '.join(differ) or 'none'}."]
    print("\n".join(head + tail))
    if args.write:
        place = os.path.join(ROOT, "docs", "COST.md")
        text = open(place, encoding="utf-8").read()
        before, rest = text.split(BEGIN)
        after = rest.split(END)[1]
        open(place, "w", encoding="utf-8").write(before + BEGIN + "\n" + "\n".join(head + out + tail) + "\n" + END + after)
    return 1 if differ else 0


if __name__ == "__main__":
    sys.exit(main())
