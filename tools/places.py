#!/usr/bin/env python3
"""The places in crates/*/src where a newer form of the language may be plainer, counted by text alone.

    tools/places.py            the count of each kind
    tools/places.py -l KIND    the places of a kind, a line each
"""
import collections
import glob
import os
import re
import sys

TOP = os.path.dirname(os.path.dirname(os.path.abspath(__file__)))
# Variants that say that there is no value, or that something failed.
NONE = "Malformed Nothing Full Missing Wrong Neither Unknown Absent TooMany NotFalse Idle Refused Damaged Large".split()
NUMBER = r"(?:u8|u16|u32|u64|usize|bool)"


def sources():
    for path in sorted(glob.glob(f"{TOP}/crates/*/src/**/*.rt", recursive=True)):
        with open(path, encoding="utf-8") as it:
            yield os.path.relpath(path, TOP), it.read().split("\n")


def block(lines, i):
    """The lines between line i and the line that closes it at the same indent."""
    indent = re.match(r"\s*", lines[i]).group(0)
    j = i + 1
    while j < len(lines) and not re.match(indent + r"[})]", lines[j]):
        j += 1
    return lines[i + 1 : j]


def functions(lines):
    """Name, parameters, clauses and body of each function."""
    i = 0
    while i < len(lines):
        named = re.match(r"^(\s*)(pub )?fn (\w+)", lines[i])
        if not named:
            i += 1
            continue
        begin, indent = i, named.group(1)
        while not re.match(indent + r"\{\s*$|.*\{$", lines[i]) or re.match(r"\s*(requires|ensures)", lines[i]):
            i += 1
            if i >= len(lines):
                return
        body = []
        head = lines[begin : i + 1]
        i += 1
        while i < len(lines) and lines[i] != indent + "}":
            body.append(lines[i])
            i += 1
        yield begin + 1, named.group(3), "\n".join(head), body


def enums():
    """1: own enums in which a variant says that there is no value, or that it is refused."""
    for path, lines in sources():
        for i, line in enumerate(lines):
            if re.match(r"\s*(pub )?enum \w+", line):
                names = [m.group(1) for it in block(lines, i) if (m := re.match(r"\s+(\w+)", it))]
                found = [it for it in names if it in NONE]
                if found:
                    yield f"{path}:{i + 1}: {line.split()[-2]} {{{', '.join(names)}}}"


def flags():
    """1: a flag in a struct."""
    for path, lines in sources():
        for i, line in enumerate(lines):
            if re.match(r"\s+(pub )?\w+: bool,", line) and any(
                re.match(r"\s*(pub )?struct ", it) for it in lines[max(0, i - 14) : i]
            ):
                yield f"{path}:{i + 1}: {line.strip()}"


def codes():
    """1: the number of a refusal as a number."""
    for path, lines in sources():
        for i, line in enumerate(lines):
            if re.search(r"Refused\(\d+\)|Refused\(u32\)", line):
                yield f"{path}:{i + 1}: {line.strip()}"


def twins():
    """2: functions whose bodies are alike but for names, types and numbers (of four lines or more)."""
    alike = collections.defaultdict(list)
    for path, lines in sources():
        for at, name, _, body in functions(lines):
            text = [re.sub(r"//.*", "", it).strip() for it in body]
            text = [it for it in text if it and it not in "{}"]
            if len(text) < 4:
                continue
            shape = re.sub(r"[A-Za-z_]\w*", "N", " ".join(text))
            shape = re.sub(r"\b\d\w*\b", "0", shape)
            alike[shape].append(f"{path}:{at}: {name}")
    for group in alike.values():
        if len(group) > 1:
            yield from (f"{it}  ({len(group)} alike)" for it in group)


def same_names():
    """2: functions of one name, with the same parameters' types, in more crates than one (main apart)."""
    named = collections.defaultdict(list)
    for path, lines in sources():
        for at, name, head, body in functions(lines):
            types = re.findall(r":\s*(&?(?:mut )?[\w\[\]<>:]+)", head.split(")")[0])
            if name != "main" and len(body) < 12:
                named[(name, tuple(types))].append(f"{path}:{at}: {name}")
    for group in named.values():
        if len({it.split("/")[1] for it in group}) > 1:
            yield from group


def loops():
    """3: loops by while in which a variable of the test goes up or down by one."""
    for path, lines in sources():
        for i, line in enumerate(lines):
            test = re.match(r"\s*while (.*) \{$", line)
            if not test:
                continue
            body = "\n".join(block(lines, i))
            names = set(re.findall(r"\b[a-z_]\w*\b", test.group(1)))
            if any(re.search(rf"\b{it} [+-]= 1;", body) for it in names):
                yield f"{path}:{i + 1}: {line.strip()}"


def by_hand():
    """4: functions that only convert, compare or take the smaller or larger of numbers."""
    for path, lines in sources():
        for at, name, head, body in functions(lines):
            text = " ".join(it.strip() for it in body)
            cast = re.fullmatch(r"\*?\w+(\[\w+\])? as \w+", text)
            choice = re.fullmatch(r"if (\w+) <=? (\w+) \{ (\w+) \} else \{ (\w+) \}|if (\w+) <=? (\w+) \{ return (\w+); \} (\w+)", text)
            equal = name in ("equals", "equal", "same", "is_same", "eq")
            shown = re.search(r"\bfn fmt\b", head)
            if cast or choice or equal or shown:
                yield f"{path}:{at}: {name}: {text[:70]}"


def clauses():
    """5: a requires that stands with the same words in three or more functions of a crate."""
    told = collections.defaultdict(list)
    for path, lines in sources():
        for at, name, head, _ in functions(lines):
            for it in re.findall(r"requires\s*\w*\s*\{(.*?)\}\n", head + "\n", re.S):
                told[(path.split("/")[1], " ".join(it.split()))].append(f"{path}:{at}: {name}")
    for (crate, text), where in told.items():
        if len(where) > 2:
            yield f"{crate}: {len(where)} functions: {text[:110]}"


def together():
    """5: three or more parameters, with the same names and types, in four or more functions of a crate."""
    groups = collections.defaultdict(set)
    for path, lines in sources():
        for at, name, head, _ in functions(lines):
            taken = re.findall(r"(\w+): (&(?:mut )?[\w\[\]]+|\w+)", head.split(") ->")[0].split("requires")[0])
            taken = tuple(sorted(set(taken)))
            for n in range(3, len(taken) + 1):
                for i in range(len(taken)):
                    for j in range(i + 1, len(taken)):
                        if n == 3:
                            for k in range(j + 1, len(taken)):
                                groups[(path.split("/")[1], (taken[i], taken[j], taken[k]))].add(name)
                break
    best = {}
    for (crate, group), names in groups.items():
        if len(names) > 3 and len(names) > best.get(crate, (0,))[0]:
            best[crate] = (len(names), group)
    for crate, (n, group) in sorted(best.items()):
        yield f"{crate}: {n} functions: {', '.join(f'{a}: {b}' for a, b in group)}"


def buffers():
    """6: a slice or an array with its length beside it, in a struct or as a parameter that a requires bounds by the slice's length."""
    for path, lines in sources():
        for at, name, head, _ in functions(lines):
            if re.search(r"requires[^{]*\{[^}]*\b(\w+) ≤ length (\w+)\.(now|old)", head):
                yield f"{path}:{at}: {name}"


def switches():
    """7: a match on a number in which three or more arms call a function."""
    for path, lines in sources():
        for i, line in enumerate(lines):
            if re.search(r"\bmatch \w+ \{$", line):
                arms = [it for it in block(lines, i) if re.match(r"\s+(\d+|_) => ", it)]
                calls = [it for it in arms if re.search(r"=> [\w:]+\(", it)]
                if len(calls) > 2:
                    yield f"{path}:{i + 1}: {line.strip()}"


def walks():
    """8: proof files that walk through the code."""
    for path in sorted(glob.glob(f"{TOP}/crates/*/proofs/**/Proof.antt", recursive=True)):
        yield os.path.relpath(path, TOP)


KINDS = {it.__name__: it for it in (enums, flags, codes, twins, same_names, loops, by_hand, clauses, together, buffers, switches, walks)}

if __name__ == "__main__":
    if sys.argv[1:2] == ["-l"]:
        for it in KINDS[sys.argv[2]]():
            print(it)
    else:
        for name, it in KINDS.items():
            print(f"{len(list(it())):5} {name:12} {it.__doc__}")
