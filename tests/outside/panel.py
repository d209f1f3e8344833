"""Clauses 12.7 and 12.8: random commands of two users through the resident program, compared with two analysers that share nothing.

panel.py [SEED [COUNT]]. Each user has an analyser of its own, here in Python: a circuit and that user's pins. An accepted load is given to both; nothing else
of one user's commands reaches the other's analyser. A search is judged over all sequences at once, with a table of 2 to the n bits for each
value; a folded circuit is evaluated on all of its inputs. The last line is `N compared, M differ`.
"""
import pathlib
import re
import subprocess
import sys
import tempfile

import aiger
import draws

BAD_FILES = {"empty": ("", 1), "header": ("aag 1 2\n", 2), "count": ("aag 1 2 0 0 0\n2\n4\n", 3), "line": ("aag 1 1 0 0 0\n3 3\n", 5),
             "literal": ("aag 1 1 0 0 0 1\n2\n9\n", 6), "used": ("aag 2 1 0 0 0 1\n2\n4\n", 7), "cycle": ("aag 2 1 0 0 1 1\n2\n4\n4 4 2\n", 8)}
BITS = 12
VERBS = ["load", "preview", "pin", "pin", "search", "search", "search", "fold", "fold", "write", "other", "replay", "replay", "widen", "waveform", "join", "generate"]
OTHER_FORMS = [2, 256, 4294967295, 4294967296, 9999999999]
MALFORMED = [["fnord"], ["pin", 1], ["search", 0, 1], ["write", "now"], ["write", "01"], ["write", 10000000000], ["write", 1, 1], ["load"], ["load", ""],
             ["join", "", "c1"], ["pin", "01", 1], ["x" * 5000]]


def words(c):
    return 8 * (c.counts[0] + 1) + 256


def counts(c):
    return f"loads {' '.join(map(str, c.counts[:7]))}\n"


def text(c):
    """The circuit as write prints it: seven counts, resets that are not 0."""
    latches = [line[:2] + ([line[2]] if len(line) == 3 and line[2] != 0 else []) for line in c.latches]
    return aiger.joined([["aag"] + c.counts[:7]], c.inputs, latches, c.outputs, c.bads, c.constraints, c.gates)


def coded(c):
    """The circuit in binary form: inputs, latches and gates numbered in turn, each time the first gate whose operands have a number."""
    place, left, order = {0: 0}, list(c.gates), []
    for line in c.inputs + c.latches:
        place[line[0] // 2] = len(place)
    while left:
        gate = next(g for g in left if g[1] // 2 in place and g[2] // 2 in place)
        left.remove(gate)
        order.append(gate)
        place[gate[0] // 2] = len(place)
    literal = lambda l: 2 * place[l // 2] + l % 2
    lines = [["aig", len(place) - 1] + c.counts[1:7]]
    for i, line in enumerate(c.latches):
        reset = c.reset(i)
        lines.append([literal(line[1])] + ([] if reset == 0 else [literal(reset)] if reset == line[0] else [reset]))
    lines += [[literal(line[0])] for line in c.outputs + c.bads + c.constraints]
    body = "".join(" ".join(map(str, line)) + "\n" for line in lines).encode()
    for gate in order:
        small, large = sorted(literal(l) for l in gate[1:])
        body += aiger.groups(literal(gate[0]) - large) + aiger.groups(large - small)
    return body.decode("latin-1")


class Table:
    """All sequences of frame t at once: bit x of a value belongs to sequence x, whose first free bit is the highest."""

    def __init__(self, c, pins, t):
        held = [pins.get(i) for i in range(len(c.inputs))]
        self.bits = len(c.free()) + held.count(None) * (t + 1)
        self.ones = (1 << (1 << self.bits)) - 1
        self.used = 0
        self.start = [self.fresh() if i in c.free() else self.constant(c.reset(i)) for i in range(len(c.latches))]
        self.rows, values, allowed = [], list(self.start), self.ones
        order = aiger.numbers(c)[1]
        for _ in range(t + 1):
            row = [self.fresh() if h is None else self.constant(h) for h in held]
            self.rows.append(row)
            self.value = {0: 0}
            for line, v in zip(c.inputs + c.latches, row + values):
                self.value[line[0] // 2] = v
            for gate in order:
                self.value[gate[0] // 2] = self.literal(gate[1]) & self.literal(gate[2])
            for line in c.constraints:
                allowed &= self.literal(line[0])
            values = [self.literal(line[1]) for line in c.latches]
        self.allowed = allowed

    def constant(self, bit):
        return self.ones if bit else 0

    def fresh(self):
        """The table of the next free bit."""
        half = 1 << (self.bits - 1 - self.used)
        self.used += 1
        block = ((1 << half) - 1) << half
        return block * (self.ones // ((1 << (2 * half)) - 1))

    def literal(self, l):
        return self.value[l // 2] ^ (self.ones if l % 2 else 0)

    def hits(self, c, b):
        return self.literal(c.bads[b][0]) & self.allowed

    def witness(self, b, x):
        bit = lambda v: str(v >> x & 1)
        lines = ["1", f"b{b}", "".join(map(bit, self.start))] + ["".join(map(bit, row)) for row in self.rows] + ["."]
        return "".join(line + "\n" for line in lines)


class Shown(Table):
    """A witness text on a circuit: its `x` are the free bits, and only what the text says and the pins allow counts as a hit."""

    def __init__(self, c, pins, text):
        lines = text.split("\n")
        self.good = len(lines) > 5 and lines[0] == "1" and lines[-2:] == [".", ""] and lines[1][:1] == "b" and lines[1][1:].isdigit()
        self.good = self.good and int(lines[1][1:]) < len(c.bads) and len(lines[2]) == len(c.latches)
        self.good = self.good and all(len(row) == len(c.inputs) for row in lines[3:-2]) and set("".join(lines[2:-2])) <= set("01x")
        if not self.good:
            return
        self.b, self.x = int(lines[1][1:]), "".join(lines[2:-2]).count("x")
        self.bits, self.used = min(self.x, 16), 0
        self.ones = (1 << (1 << self.bits)) - 1
        if self.x > 16:
            return
        bit = lambda ch: self.fresh() if ch == "x" else self.constant(ch == "1")
        values, allowed, self.frames = [bit(ch) for ch in lines[2]], self.ones, []
        for i, v in enumerate(values):
            if i not in c.free():
                allowed &= v ^ self.constant(not c.reset(i))
        order = aiger.numbers(c)[1]
        for row in lines[3:-2]:
            row = [bit(ch) for ch in row]
            self.value = {0: 0}
            for line, v in zip(c.inputs + c.latches, row + values):
                self.value[line[0] // 2] = v
            for gate in order:
                self.value[gate[0] // 2] = self.literal(gate[1]) & self.literal(gate[2])
            for line in c.constraints:
                allowed &= self.literal(line[0])
            for i, v in pins.items():
                allowed &= row[i] ^ self.constant(not v)
            values = [self.literal(line[1]) for line in c.latches]
            self.frames.append(dict(self.value))
        hits = self.literal(c.bads[self.b][0]) & allowed
        self.says = "all" if hits == self.ones else "mixed" if hits else "no"


def join(c, d):
    """Two circuits as one, by the request's numbering; nothing where they cannot be joined."""
    if len(c.inputs) != len(d.inputs) or len(c.outputs) != len(d.outputs) or not 1 <= len(c.outputs) <= 16:
        return None
    number, maps = len(c.inputs), []
    for x in (c, d):
        maps.append({0: 0, **{line[0] // 2: i + 1 for i, line in enumerate(x.inputs)}})
    for part in ("latches", "gates"):
        for x, names in zip((c, d), maps):
            for line in getattr(x, part):
                number += 1
                names[line[0] // 2] = number
    of = lambda names, l: 2 * names[l // 2] + l % 2
    inputs = [[2 * (i + 1)] for i in range(len(c.inputs))]
    latches = [[of(n, l[0]), of(n, l[1])] + ([of(n, l[2]) if l[2] > 1 else l[2]] if len(l) == 3 else []) for x, n in zip((c, d), maps) for l in x.latches]
    gates = [[of(n, l) for l in g] for x, n in zip((c, d), maps) for g in x.gates]
    constraints, bads = [[of(n, l[0])] for x, n in zip((c, d), maps) for l in x.constraints], []
    for p, q in zip(c.outputs, d.outputs):
        p, q = of(maps[0], p[0]), of(maps[1], q[0])
        first, second, third = (2 * (number + i) for i in (1, 2, 3))
        gates += [[first, p, q ^ 1], [second, p ^ 1, q], [third, first + 1, second + 1]]
        bads.append([third + 1])
        number += 3
    counts_of = [number, len(inputs), len(latches), 0, len(gates), len(bads), len(constraints), 0, 0]
    return aiger.Circuit(counts_of, inputs, latches, [], bads, constraints, gates, [], [])


def dump_agrees(c, shown, only, said):
    """Whether every wire of a value change dump has its value in every frame: x where completions differ."""
    wires, frame, given = {}, -1, set()
    kinds = [("i", c.inputs)] if only else [("i", c.inputs), ("l", c.latches), ("o", c.outputs), ("b", c.bads), ("c", c.constraints)]
    literals = {f"{k}{n}": line[0] for k, lines in kinds for n, line in enumerate(lines)}
    for line in said.split("\n"):
        if line.startswith("$var"):
            wires[line.split()[3]] = line.split()[4]
        elif line.startswith("#"):
            frame += 1
        elif line[:1] in ("0", "1", "x") and frame >= 0:
            l = literals[wires[line[1:]]]
            given.add((frame, wires[line[1:]]))
            table = shown.frames[frame][l // 2] ^ (shown.ones if l % 2 else 0)
            if line[0] != {0: "0", shown.ones: "1"}.get(table, "x"):
                return False
    return sorted(wires.values()) == sorted(literals) and len(given) >= len(literals) * len(shown.frames)


class Analyser:
    """One user's view: the loaded circuit, and that user's pins."""

    def __init__(self):
        self.circuit, self.pins = None, {}

    def load(self, c):
        self.circuit, self.pins = c, {}

    def pin(self, i, v):
        if v > 2:
            return "refused 18"
        if self.circuit is None:
            return "refused 9"
        if i >= len(self.circuit.inputs):
            return "refused 18"
        self.pins.pop(i, None)
        if v < 2:
            self.pins[i] = v
        return "set\n"

    def tests(self, b, k, d):
        c = self.circuit
        if c is None:
            return "refused 9"
        if b >= len(c.bads):
            return "refused 10"
        if k > 255 or not 1 <= d <= 1 << 32:
            return "refused 11"
        return None

    def search(self, b, k, d, said):
        """Whether what was said is permitted."""
        wrong = self.tests(b, k, d)
        if wrong:
            return said.startswith(wrong + ":")
        for t in range(k + 1):
            table = Table(self.circuit, self.pins, t)
            hits = table.hits(self.circuit, b)
            first = (hits & -hits).bit_length() - 1
            spent = re.fullmatch(rf"spent {t} (\d+)\n", said)
            if spent:
                reached = int(spent[1])
                return d <= reached <= 1 << 62 and reached < 1 << table.bits and not 0 <= first < reached
            if hits:
                return said == f"found {t}\n" + table.witness(b, first)
        return said == f"none {k}\n"

    def fold(self, b, t, said):
        wrong = self.tests(b, t, 1)
        if wrong:
            return said.startswith(wrong + ":")
        table, f = Table(self.circuit, self.pins, t), aiger.parse(said)
        if f.latches or len(f.inputs) != table.bits or len(f.outputs) != 1:
            return False
        folded = Table(f, {}, 0)
        return folded.literal(f.outputs[0][0]) == table.hits(self.circuit, b)

    def shown(self, text):
        """The refusal of a witness text, or the text on the circuit."""
        if self.circuit is None:
            return "refused 9", None
        w = Shown(self.circuit, self.pins, text)
        return ("refused 14", None) if not w.good else ("refused 16", None) if w.x > 16 else (None, w)

    def replay(self, text, said):
        wrong, w = self.shown(text)
        return said.startswith(wrong + ":") if wrong else said == w.says + "\n"

    def widen(self, text, said):
        wrong, w = self.shown(text)
        if wrong:
            return said.startswith(wrong + ":")
        from_ = text.index("\n", 2) + 1
        for at in range(len(text) - 3, from_ - 1, -1):
            if w.says == "all" and text[at] in "01" and text[from_:].count("x") < 16:
                tried = text[:at] + "x" + text[at + 1:]
                if Shown(self.circuit, self.pins, tried).says == "all":
                    text = tried
        return said == text

    def waveform(self, text, only, said):
        wrong, w = self.shown(text)
        return said.startswith(wrong + ":") if wrong else dump_agrees(self.circuit, w, only, said)

    def write(self, form, said):
        if form > 1:
            return said == "refused 21: the form is neither 0 nor 1\n"
        if self.circuit is None:
            return said.startswith("refused 9:")
        return said == (coded(self.circuit) if form else text(self.circuit))


def ask(panel, words_of):
    """What the resident program answers to a command."""
    panel.stdin.write((" ".join(map(str, words_of)) + "\n").encode())
    panel.stdin.flush()
    return panel.stdout.read(int(panel.stdout.readline())).decode("latin-1")


def files(r, folder, panel):
    """Files by name: their texts, and the number of the refusal, 0 where they load. Half of the circuits are those that the program itself
    generates, and have no output, constraint, reset or free start."""
    found = {name: (body, n) for name, (body, n) in BAD_FILES.items()}
    for i in range(40):
        found[f"c{i}"] = (r.circuit(0, 2) if i % 2 else ask(panel, [0, "generate", r.below(1 << 40), 1 + r.below(4), r.below(6), 1 + r.below(20)]), 0)
    for name, (body, _) in found.items():
        (folder / name).write_text(body)
    return found


def bound(r, c, pins):
    k = r.below(6)
    while c and k > 0 and len(c.free()) + len(c.inputs) * (k + 1) > BITS:
        k -= 1
    return 256 if r.below(40) == 0 else k


def witness(r, seen, folder):
    """The name of a file with a witness that was found before, or with one that differs from it in some bits."""
    text = list(seen[r.below(len(seen))] if seen else "1\nb0\n\n\n.\n")
    places = [i for i, ch in enumerate(text) if i > 4 and ch in "01"]
    for _ in range([0, 0, 1, 3, 20][r.below(5)] if places else 0):
        text[places[r.below(len(places))]] = "01xxx"[r.below(5)]
    (folder / "witness").write_text("".join(text))
    return "witness"


def generated(r):
    """Seed and counts: seeds up to 20 digits, small counts, and some that are not permitted, or no numbers."""
    seed = [0, 1, 1 << 63, (1 << 64) - 1, r.below(1 << 40), r.below(1 << 40), 1 << 64, "01", 10 ** 20][r.below(9)]
    counts = [r.below(5), r.below(6), r.below(20)]
    if r.below(4) == 0:
        counts[r.below(3)] = [257, 1025, 3073, 0, 1 << 33, 10 ** 10, "00"][r.below(7)]
    return [seed] + counts


def generate_agrees(args, said):
    if any(str(n) != str(int(n)) for n in args) or args[0] >= 1 << 64 or any(n >= 10 ** 10 for n in args[1:]):
        return said == "malformed\n"
    return said == draws.text(*args).decode() if draws.permitted(*args[1:]) else said.startswith("refused 3:")


def command(r, user, mine, names, seen, folder):
    """A command that the analyser of its user can judge."""
    kind = VERBS[r.below(len(VERBS))]
    if kind in ("replay", "widen", "waveform"):
        return [kind, witness(r, seen, folder)] + (["inputs"] if kind == "waveform" and r.below(2) else [])
    if kind == "join":
        return [kind, names[r.below(len(names))], names[r.below(len(names))]]
    if kind in ("load", "preview"):
        return [kind, names[r.below(len(names))] if r.below(30) else "nothing"]
    if kind == "pin":
        return [kind, r.below(6), r.below(4) if r.below(20) == 0 else r.below(3)]
    if kind == "search":
        return [kind, r.below(4), bound(r, mine.circuit, mine.pins), [1 << 32, 1 << 32, 1, 16, 0, (1 << 32) + 1][r.below(6)]]
    if kind == "fold":
        return [kind, r.below(4), bound(r, mine.circuit, mine.pins)]
    if kind == "write":
        return [kind] + ([], ["binary"], [0], [1], [OTHER_FORMS[r.below(len(OTHER_FORMS))]])[r.below(5)]
    if kind == "generate":
        return [kind] + generated(r)[:3 if r.below(30) == 0 else 4]
    return MALFORMED[r.below(len(MALFORMED))]


def form_of(args):
    """The form that the arguments of write name, none where they name no form."""
    form = {(): 0, ("binary",): 1}.get(tuple(args), args[0] if args else None)
    return form if isinstance(form, int) and form < 10 ** 10 else None


def agrees(user, words_of, said, users, found, folder):
    """Whether the answer is right; an accepted load is given to both analysers."""
    verb, args = words_of[0], words_of[1:]
    if verb == "generate" and len(args) == 4 and (user < 2 or said == "malformed\n"):
        return generate_agrees(args, said)
    sizes = {"load": [1], "preview": [1], "pin": [2], "search": [3], "fold": [2], "write": [0, 1], "replay": [1], "widen": [1], "waveform": [1, 2], "join": [2], "generate": [4]}
    if len(args) not in sizes.get(verb, []) or "01" in args or "" in args or (verb == "write" and form_of(args) is None):
        return said == "malformed\n"
    if user > 1 or (user == 1 and verb in ("load", "join")):
        return said.startswith("refused 18:")
    if verb in ("load", "preview", "join") and any(name not in found for name in args):
        return said == "unreadable\n"
    mine = users[user]
    if verb == "join":
        wrong = [n for _, n in (found[name] for name in args) if n]
        c = None if wrong else join(*(aiger.parse(found[name][0]) for name in args))
        if c is None:
            return said.startswith(f"refused {(wrong + [17])[0]}:")
        for u in users:
            u.load(c)
        return said == counts(c)
    if verb in ("replay", "widen"):
        return getattr(mine, verb)((folder / "witness").read_text(), said)
    if verb == "waveform":
        return mine.waveform((folder / "witness").read_text(), len(args) == 2, said)
    if verb in ("load", "preview"):
        body, n = found[args[0]]
        if n == 0:
            c = aiger.parse(body)
            if verb == "load":
                for u in users:
                    u.load(c)
                return said == counts(c)
            return said == counts(c) + f"words {words(c)}\n"
        told = f"words {words(aiger.parse(body))}\n" if n > 3 and verb == "preview" else ""
        return said.startswith(f"refused {n}: ") and said.partition("\n")[2] == told
    if verb == "pin":
        expected = mine.pin(*args)
        return said.startswith(expected)
    if verb == "search":
        return mine.search(*args, said)
    if verb == "fold":
        return mine.fold(*args, said)
    return mine.write(form_of(args), said)


def main():
    seed, count = (int(x) for x in (sys.argv[1:] + ["1", "4000"][len(sys.argv) - 1:])[:2])
    top = pathlib.Path(__file__).resolve().parent.parent.parent
    r, users, differ, done = aiger.Random(seed), [Analyser(), Analyser()], 0, {}
    with tempfile.TemporaryDirectory() as name:
        folder, seen = pathlib.Path(name), []
        panel = subprocess.Popen([top / "target/bin/panel_main"], cwd=name, stdin=subprocess.PIPE, stdout=subprocess.PIPE, stderr=subprocess.DEVNULL)
        found = files(r, folder, panel)
        names = [n for n in found if n[0] == "c" and n[1:].isdigit()] * 3 + list(found)
        for i in range(count):
            user = 2 if r.below(50) == 0 else r.below(2)
            words_of = command(r, user, users[min(user, 1)], names, seen, folder)
            said = ask(panel, [user] + words_of)
            kind = f"{words_of[0]}: {said.split(' ')[0].split(chr(10))[0]}" if len(words_of[0]) < 9 else "long line"
            done[kind] = done.get(kind, 0) + 1
            if said.startswith("found "):
                seen.append(said.partition("\n")[2])
                seen = seen[-20:]
            if not agrees(user, words_of, said, users, found, folder):
                differ += 1
                print("differs:", i, user, words_of, said[:200])
        panel.stdin.close()
        if panel.wait() or panel.stdout.read():
            differ += 1
            print("differs: the program did not end with its input")
    print(", ".join(f"{kind} {n}" for kind, n in sorted(done.items())))
    print(f"{count} compared, {differ} differ")
    return 1 if differ else 0


if __name__ == "__main__":
    sys.exit(main())
