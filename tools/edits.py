#!/usr/bin/env python3
"""The must-fail edits: counts them, says which cannot be applied, and brings them over after a change of spelling.

usage: tools/edits.py            counts the edits, and lists each whose 'old:' text does not stand once in its file
       tools/edits.py --names    lists each word of a 'new:' text that its file does not have as well: is it in scope there?
       tools/edits.py COMMIT     writes each edit anew from how it stood at COMMIT, beside the files of that commit and of today, and prints
                                 each pair that changed, old and new. An edit that was written since then, and can be applied, stays

An edit is turned as its line was: the line that 'old:' named and the one that 'new:' made of it are put into today's spelling, and the first
must be the line that stands there today. What the pair names is kept as short as it was where that stands once, else it is the whole line.
"""
import difflib
import glob
import os
import re
import subprocess
import sys

from respell import turn as respelled

ROOT = os.path.dirname(os.path.dirname(os.path.abspath(__file__)))
WORDS = {"getD": "get_or", "the-variants": "TheVariants", "lib.ListN": "Rattle.std.specs.Prelude"}
TOKEN = re.compile(r"(?P<field> \.[A-Za-z0-9_][\w'-]*)|(?P<blank>\s+)|(?P<atom>\"(?:[^\"\\]|\\.)*\"|(?!λ)\w[\w'-]*(?:\.\w[\w'-]*)*)|(?P<other>.)", re.S)
OPEN, CLOSE = "([{", ")]}"


def words(text):
    """Plain words, paths and primes; the names of operators in imports."""
    text = text.replace("′", "'").replace("\u00b7specs.specs.", ".specs.").replace("Rattle\u00b7", "Rattle.")
    for old, new in WORDS.items():
        text = re.sub(r"(?<![\w.'-])" + re.escape(old) + r"(?![\w'-])", new, text)
    return re.sub(r"(?<![\w◌])_([^\w\s{}(),.]+)_(?![\w◌])", r"◌\1◌", respelled(text, False))


def tight(text):
    """Projections without a blank: `(c .f)` is `c.f`, `g x .f` is `(g x).f`. Brackets that the text leaves open are let be."""
    tokens = list(TOKEN.finditer(text))
    at = 0

    def group(closing):
        """Reads up to the closing bracket: what was read, whether it is one projection and no more, and whether the bracket was there."""
        nonlocal at
        out, spine, is_field, others = "", [], False, False
        while at < len(tokens):
            it, kind = tokens[at].group(), tokens[at].lastgroup
            at += 1
            if it == closing:
                return out + "".join(spine), is_field and not others and sum(not x.isspace() for x in spine) == 1, True
            if kind == "blank":
                spine.append(it)
            elif kind == "field" and any(not x.isspace() for x in spine):
                first = next(i for i, x in enumerate(spine) if not x.isspace())
                held = spine[first:]
                out, spine = out + "".join(spine[:first]), [("(" + "".join(held) + ")" if len(held) > 1 else held[0]) + it[1:]]
                is_field = True
            elif kind == "atom" or it in OPEN:
                if it in OPEN:
                    inner, alone, closed = group(CLOSE[OPEN.index(it)])
                    it = inner if it == "(" and alone else it + inner + (CLOSE[OPEN.index(it)] if closed else "")
                spine.append(it)
            else:
                out, spine, others = out + "".join(spine) + it, [], True
        return out + "".join(spine), False, False

    return group("")[0]


def turned(text, path):
    return tight(words(text)) if path.endswith(".antt") else text


def pairs(text):
    """The edit's lines: a pair as (path, old, new), any other line as it is."""
    path, old, out = "", "", []
    for line in text.split("\n"):
        if line.startswith("file: "):
            path = line[len("file: "):].strip()
            out.append(line)
        elif line.startswith("old: "):
            old = line[len("old: "):]
        elif line.startswith("new:"):
            out.append((path, old, line[len("new:"):].removeprefix(" ")))
        else:
            out.append(line)
    return out


def written(parts):
    return "\n".join(it if isinstance(it, str) else f"old: {it[1]}\nnew: {it[2]}" for it in parts)


def at_commit(commit, path):
    return subprocess.run(["git", "show", f"{commit}:{path}"], cwd=ROOT, capture_output=True, check=True).stdout.decode()


def read(path):
    with open(os.path.join(ROOT, path), encoding="utf-8") as f:
        return f.read()


def line_of(text, piece):
    """The number of the line on which the piece begins."""
    return text[: text.index(piece)].count("\n")


def places(then, now, path):
    """The number of today's line, by that of the line then."""
    lines = [turned(it, path).strip() for it in then.split("\n")]
    blocks = difflib.SequenceMatcher(None, lines, [it.strip() for it in now.split("\n")], autojunk=False).get_matching_blocks()
    return {a + i: b + i for a, b, size in blocks for i in range(size)}


def imported(old, new, now):
    """A pair that brings names into scope: today they stand in the line of the library's words, and the pair names its front."""
    before, after = ([words(it) for it in text[text.index("{") + 1: text.index("}")].split(", ")] for text in (old, new))
    line = re.search(r"^use Rattle\.std\.specs\.Prelude\.\{([^,}]+,)[^}]*\}$", now, re.M)
    if not line:
        return None
    front = line.group()[: line.end(1) - line.start()]
    more = [it for it in after if it not in before]
    return (front, front.replace("{", "{" + ", ".join(more) + ", ")) if now.count(front) == 1 else None


def one(path, old, new, then, now):
    """The pair of today, or why there is none."""
    if then.count(old) != 1:
        return None, f"the text stood {then.count(old)} times"
    if old.startswith("use ") and path.endswith(".antt"):
        return imported(old, new, now), "no line of imports takes the names"
    number = line_of(then, old)
    line = then.split("\n")[number]
    found = places(then, now, path).get(number)
    if found is None:
        return None, "its line is no longer there: " + line.strip()
    today = now.split("\n")[found]
    before, after = turned(line, path).strip(), turned(line.replace(old, new), path).strip()
    want = now.split("\n")
    want[found] = today.replace(before, after)
    for a, b in ((old, new), (turned(old, path), turned(new, path)), (before, after)):
        if now.count(a) == 1 and now.replace(a, b).split("\n") == want and a != b:
            return (a, b), None
    return None, "no text of the line stands once: " + today.strip()


def applied(crate, parts):
    """Yields each pair with its file's text before it, as the earlier pairs left that text; ends after a pair that cannot be applied."""
    now = {}
    for path, old, new in (it for it in parts if not isinstance(it, str)):
        if path not in now:
            now[path] = read(f"crates/{crate}/{path}")
        yield path, old, new, now[path]
        if now[path].count(old) != 1:
            return
        now[path] = now[path].replace(old, new)


def can_be_applied(crate, parts):
    return all(text.count(old) == 1 for path, old, new, text in applied(crate, parts))


def turn_edit(commit, file):
    """The edit's text of today and its pairs that changed, or why it cannot be turned."""
    crate = file.split("/")[1]
    parts, then, now, told = pairs(at_commit(commit, file)), {}, {}, ""
    for i, it in enumerate(parts):
        if isinstance(it, str):
            continue
        path, old, new = it
        if path not in then:
            then[path], now[path] = at_commit(commit, f"crates/{crate}/{path}"), read(f"crates/{crate}/{path}")
        pair, why = one(path, old, new, then[path], now[path])
        if not pair:
            return None, why
        then[path], now[path] = then[path].replace(old, new), now[path].replace(*pair)
        parts[i] = (path, *pair)
        if pair != (old, new):
            told += f"{file}, {path}\n  was: {old}\n    →  {new}\n  now: {pair[0]}\n    →  {pair[1]}\n"
    return written(parts), told


def bring(commit):
    changed, kept, left = 0, [], []
    for file in edits():
        was, has = at_commit(commit, file), read(file)
        if has != was and can_be_applied(file.split("/")[1], pairs(has)):
            kept.append(file)
            continue
        text, told = turn_edit(commit, file)
        if text is None:
            left.append(f"left: {file}: {told}")
        elif text != has:
            changed += 1
            print(told, end="")
            with open(os.path.join(ROOT, file), "w", encoding="utf-8") as f:
                f.write(text)
    print("\n".join(left))
    print(f"edits: {len(edits())}, {changed} written anew, {len(kept)} stay as they were written since, {len(left)} left")
    return 1 if left else 0


def edits():
    return sorted(os.path.relpath(it, ROOT) for it in glob.glob(os.path.join(ROOT, "crates", "*", "must-fail", "*.edit")))


def names(text, path):
    """The words of a text, of definitions the operators too."""
    text = re.sub(r"\"(?:[^\"\\]|\\.)*\"|b'\\?.'|◌", "", text)
    return re.findall(r"(?<!\w)[^\W\d][\w']*" + (r"|[^\w\s(){}\[\],.;:=\"'|]+" if path.endswith(".antt") else ""), text)


def count(with_names):
    bad = 0
    for file in edits():
        crate = file.split("/")[1]
        for path, old, new, text in applied(crate, pairs(read(file))):
            if text.count(old) != 1:
                bad += 1
                print(f"{file}: stands {text.count(old)} times in {path}: {old}")
            strange = [it for it in names(new, path) if it not in set(names(text, path))] if with_names else []
            if strange:
                print(f"{file}: not in {path}: {' '.join(strange)}")
    print(f"edits: {len(edits())}, {bad} cannot be applied")
    return 1 if bad else 0


if __name__ == "__main__":
    given = sys.argv[1:]
    if len(given) > 1 or given in (["-h"], ["--help"]):
        sys.exit(__doc__)
    sys.exit(bring(given[0]) if given and given != ["--names"] else count(bool(given)))
