#!/usr/bin/env python3
"""Brings the repository's own definitions and lemmas to today's spelling: words in snake case, types in camel case.

usage: tools/respell.py [--look] FOLDER
FOLDER has crates/. Names in lower camel case become snake case in .antt files, and in the clauses, ghost items and comments of .rt files
(never in a string). Plain structs and enums derive Clone and Copy, as they were copied before. Each root file asks for the tactics.
With --look nothing is written: each file where a new name meets one that stands there already is listed.
"""
import glob
import os
import re
import sys

CAMEL = re.compile(r"(?<![A-Za-z0-9_'])([a-z][a-z0-9]*(?:[A-Z][a-z0-9]*)+)(?![A-Za-z0-9_])")
TYPES = {"permittedCounts": "PermittedCounts"}
# a new name that would meet another one
OTHER = {}
KEEP = set()
# lemmas that would have their function's name, by the files that name them
LEMMAS = {
    "walk_from": ["backward/proofs/Walks.antt", "backward/proofs/Places.antt"],
    "node_at": ["diagrams/proofs/View.antt", "collection/proofs/Words.antt"],
    "kept_by": ["learning/proofs/Calls.antt", "learning/proofs/keep_clause/Proof.antt"],
    "is_free": ["never_search/proofs/Freed.antt"],
    "is_digit": ["numbers/proofs/ReadBack.antt"],
    "one_more": ["panel_session/proofs/Start.antt", "panel_serving/proofs/Exchanges.antt"],
    "row_fits": ["roundtrip/proofs/Text.antt"],
    "row_put": ["set_stage/proofs/Follow.antt", "set_stage/proofs/put_row/Proof.antt"],
    "part_in": ["state_sets/proofs/Sound.antt"],
}
STRING = re.compile(r'"(?:[^"\\\n]|\\.)*"')


def snake(name):
    if name in TYPES:
        return TYPES[name]
    if name in OTHER:
        return OTHER[name]
    return re.sub(r"(?<=[a-z0-9])([A-Z])", lambda m: "_" + m.group(1).lower(), name)


def turn(text, is_code):
    new = lambda part: CAMEL.sub(lambda m: m.group(1) if m.group(1) in KEEP else snake(m.group(1)), part)
    if not is_code:
        return new(text)
    out, at = [], 0
    for m in STRING.finditer(text):
        out += [new(text[at:m.start()]), m.group(0)]
        at = m.end()
    return "".join(out) + new(text[at:])


def derives(text):
    """Types that were copied before are Copy; one that holds a long array is moved."""
    def each(m):
        body = m.group(0)
        return body if re.search(r"\[\w+; *\w+\]", body) else body.replace("#[derive(Drop)]", "#[derive(Clone, Copy)]", 1)
    return re.sub(r"#\[derive\(Drop\)\]\n(?:[ \t]*//[^\n]*\n)*[ \t]*(?:pub )?(?:struct|enum) \w+(?:\([^)]*\);|[^{;]*\{.*?\n[ \t]*\})", each, text, flags=re.S)


def tactics(path, text):
    if os.path.basename(path) not in ("lib.rt", "main.rt") or os.path.basename(os.path.dirname(path)) != "src" or "#![tactic" in text:
        return text
    lines = text.split("\n")
    i = 0
    while i < len(lines) and (lines[i].startswith("//") or lines[i].startswith("#![")):
        i += 1
    return "\n".join(lines[:i] + ["#![tactic(auto)]", ""] + lines[i:])


def main():
    look = "--look" in sys.argv
    root = sys.argv[-1]
    for path in sorted(glob.glob(os.path.join(root, "crates", "*", "**", "*"), recursive=True)):
        if not path.endswith((".rt", ".antt")) or "/out/" in path:
            continue
        text = was = open(path, encoding="utf-8").read()
        code = path.endswith(".rt")
        if look:
            words = set(re.findall(r"[A-Za-z_][A-Za-z0-9_']*", text))
            for name in sorted(set(CAMEL.findall(text))):
                if snake(name) in words:
                    print(path, name, snake(name))
            continue
        for name, files in LEMMAS.items():
            if any(path.endswith("/crates/" + it) for it in files):
                text = re.sub(r"(?<![\w.'-])" + name + r"(?![\w'-])", name + "_lem", text)
        new = turn(text, code)
        if code:
            new = tactics(path, derives(new))
        if new != was:
            open(path, "w", encoding="utf-8").write(new)


if __name__ == "__main__":
    main()
