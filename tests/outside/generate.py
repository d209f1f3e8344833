"""generate.py [--count N] [--seed N] [--command COMMAND] [--spoil]: circuits of seeds and counts that the C function and the command make, compared
byte for byte with those of `draws.py`, an implementation of its own. Clause 12.12.

Rows at every limit with the seeds 0, 1, 2^63 and 2^64 - 1, and then COUNT random ones (2,000). Each row is asked of the C function, of
which also the bytes past the text, the answer and a shorter output are compared, and of the command, which is run as `COMMAND SEED I L A`
(the proved program). yosys reads every text, and ABC reads it in the binary form that `aiger.py` makes of it: yosys' count of inputs and
ABC's counts of inputs and latches are compared. Words that are no seed or no number are a wrong call. The last line is `N compared, D
differ`; the status is 1 where D is not 0. --spoil changes one byte of each of our texts and shows that it is noticed."""
import argparse
import ctypes
import os
import random
import re
import shlex
import subprocess
import sys

import aiger
import tools
from draws import permitted, text
from pins import Library, LENGTH, PLACES

SEEDS = [0, 1, 2 ** 63, 2 ** 64 - 1]
# I, L, A on both sides of each limit, and numbers that a sum or a word of 32 bits would lose
COUNTS = [
    (1, 0, 1), (0, 1, 1), (0, 0, 1), (1, 0, 0), (1, 1, 0), (0, 0, 0),
    (256, 0, 1), (257, 0, 1), (0, 1024, 1), (0, 1025, 1), (1, 0, 3072), (1, 0, 3073),
    (256, 768, 3072), (256, 769, 3072), (0, 1024, 3072), (1, 1024, 3072), (256, 1024, 2816), (256, 1024, 2817),
    (4294967297, 0, 1), (0, 4294967297, 1), (1, 0, 4294967297), (9999999999, 9999999999, 9999999999),
]
# counts that a command line cannot give: of 64 bits, with sums that wrap
WRAPPING = [(2 ** 64 - 1, 1, 1), (2 ** 63, 2 ** 63, 1), (1, 2 ** 64 - 1, 1), (1, 1, 2 ** 64 - 1), (2 ** 64 - 1, 2 ** 64 - 1, 2 ** 64 - 1)]
WRONG = [
    ["18446744073709551616", "1", "0", "1"], ["99999999999999999999", "1", "0", "1"], ["100000000000000000000", "1", "0", "1"],
    ["01", "1", "0", "1"], ["00", "1", "0", "1"], ["", "1", "0", "1"], ["-1", "1", "0", "1"], ["1x", "1", "0", "1"], ["0x1", "1", "0", "1"],
    ["1", "01", "0", "1"], ["1", "1", "00", "1"], ["1", "1", "0", ""], ["1", "10000000000", "0", "1"], ["1", "1", "0"], ["1", "1", "0", "1", "1"],
]
PAST, MARK = 16, 0xdeadbeef


def random_row(r):
    """Most seeds of 64 bits, some small; most counts small, some of any size within the limits."""
    seed = r.choice([r.getrandbits(64), r.getrandbits(64), r.getrandbits(r.randrange(1, 65)), r.choice(SEEDS)])
    while True:
        most = r.choice([(8, 8, 30), (40, 100, 300), (256, 1024, 3072)])
        counts = tuple(r.randrange(m + 1) for m in most)
        if permitted(*counts) or r.randrange(20) == 0:
            return (seed,) + counts


def spoiled(data):
    return data[:-2] + bytes([data[-2] ^ 1]) + data[-1:]


def library_faults(library, row, spoil):
    """What the C function does otherwise than expected: with an output that is longer than the text, as long, and one byte shorter."""
    want = text(*row) if permitted(*row[1:]) else None
    faults = []
    for room in [100] if want is None else [len(want) + PAST, len(want), len(want) - 1]:
        out = (ctypes.c_uint8 * room).from_buffer_copy(b"\xa5" * room)
        library.answer[:] = [MARK] * PLACES
        number = library.call("generate", *row, out)
        left, answer = bytes(out), list(library.answer)
        if spoil and number == 0:
            left = spoiled(left)
        if want is None or room < len(want):
            right = number == (3 if want is None else 13) and left == b"\xa5" * room and answer == [MARK] * PLACES
        else:
            places = [0] * PLACES
            places[LENGTH] = len(want)
            right = number == 0 and left == want + b"\xa5" * (room - len(want)) and answer == places
        if not right:
            faults.append(f"C with {room} bytes answers {number}")
    return faults


def command_faults(command, row, spoil):
    got = subprocess.run(command + [str(x) for x in row], capture_output=True)
    said = spoiled(got.stdout) if spoil and len(got.stdout) > 1 else got.stdout
    if not permitted(*row[1:]):
        return [] if said.startswith(b"refused 3: ") else [f"the command prints {said[:40]}"]
    return [] if said == text(*row) else ["the command prints another text"]


def read_by_others(rows):
    """The rows that yosys or ABC does not read, or of which they count other inputs or latches. yosys drops latches that lead nowhere, and
    `aiger.binary` gives a circuit without inputs, or without latches, one that nothing uses."""
    wrong = []
    for part in tools.chunks(list(enumerate(rows)), 200):
        for at, row in part:
            made = text(*row)
            c = aiger.parse(made.decode())
            for suffix, data in (("aag", made), ("aig", aiger.binary(c, c.bads, [], []))):
                with open(tools.path(f"g{at}.{suffix}"), "wb") as f:
                    f.write(data)
        tools.write("counts.log", "")
        tools.write("read.ys", "".join(
            f"design -reset\nread_aiger -module_name g g{at}.aag\ntee -a counts.log select -count g/i:*\n" for at, _ in part))
        tools.write("read.abc", "".join(f"read_aiger g{at}.aig; print_stats\n" for at, _ in part))
        subprocess.run(["yosys", "-q", "read.ys"], cwd=tools.WORK, capture_output=True)
        said = subprocess.run(["berkeley-abc", "-f", "read.abc"], cwd=tools.WORK, capture_output=True, text=True).stdout
        counts = [int(n) for n in re.findall(r"^(\d+) objects", tools.read("counts.log"), flags=re.M)]
        abc = [(int(i), int(l)) for i, l in re.findall(r"i/o =\s*(\d+)/\s*\d+\s+lat =\s*(\d+)", said)]
        for j, (at, row) in enumerate(part):
            seen = (counts[j:j + 1], abc[j:j + 1])
            if seen != ([row[1]], [(max(1, row[1]), max(1, row[2]))]):
                wrong.append((row, *seen))
            for suffix in ("aag", "aig"):
                os.remove(tools.path(f"g{at}.{suffix}"))
    return wrong


def main():
    p = argparse.ArgumentParser(description=__doc__, formatter_class=argparse.RawDescriptionHelpFormatter)
    p.add_argument("--count", type=int, default=2000)
    p.add_argument("--seed", type=int, default=1)
    p.add_argument("--command", default=os.path.join(tools.ROOT, "target", "bin", "generate_main"))
    p.add_argument("--spoil", action="store_true")
    given = p.parse_args()
    tools.empty_work()
    r, library, command = random.Random(given.seed), Library(), shlex.split(given.command)
    rows = [(s,) + c for s in SEEDS for c in COUNTS] + [random_row(r) for _ in range(given.count)]
    differ = 0
    for row in rows + [(s,) + c for s in SEEDS for c in WRAPPING]:
        faults = library_faults(library, row, given.spoil)
        if all(n < 10 ** 10 for n in row[1:]):
            faults += command_faults(command, row, given.spoil)
        if faults:
            differ += 1
            print("differs:", *row, *faults)
    for words in WRONG:
        got = subprocess.run(command + words, capture_output=True)
        if not (got.stdout + got.stderr).startswith(b"generate SEED"):
            differ += 1
            print("differs:", words, "is taken for a call")
    for row, yosys, abc in read_by_others([row for row in rows if permitted(*row[1:])]):
        differ += 1
        print("differs:", *row, "yosys counts", yosys, "ABC counts", abc)
    print(f"{len(rows) + len(SEEDS) * len(WRAPPING) + len(WRONG)} compared, {differ} differ")
    return 1 if differ else 0


if __name__ == "__main__":
    sys.exit(main())
