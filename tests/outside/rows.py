"""Makes the rows of the program `searches` that stand for the published examples and for the first random circuits.

    python3 -B tests/outside/rows.py

writes crates/searches/data/published and crates/searches/data/random, and in crates/searches/args and stdout the rows that name them, the
last ones there. What a row expects is read off ABC's truth tables (answers.py); the search program is not run.
"""
import os
import shutil

import aiger
import answers
import tools

ROWS = os.path.join(tools.ROOT, "crates", "searches")
ORIGINALS = os.path.join(tools.HERE, "published")
BOUND, BUDGET = 3, 65536
SEED, DOZEN = 1, 12


def load(name):
    with open(name, encoding="ascii") as f:
        return f.read()


def job_of(ident, title, text):
    """The job that a file of the search program asks for: a line `search b k D`, then the circuit."""
    first, rest = text.split("\n", 1)
    b, k, d = (int(x) for x in first.split(" ")[1:])
    return tools.Job(ident, title, rest, b, k, d)


def published():
    """Title, file and search text of each published example: one for each bad line, or each output where there is no bad line."""
    for file in sorted(os.listdir(ORIGINALS)):
        text = aiger.without_symbols(aiger.parse(load(os.path.join(ORIGINALS, file))))
        count = len(aiger.parse(text).bads)
        for b in range(max(1, count)):
            name = f"{file[:-4]}_{b}" if count > 1 else file[:-4]
            yield f"published/{name}.search", file, f"search {b} {BOUND} {BUDGET}\n{text}"


def random_searches(seed, count, least, most):
    """Random circuits as searches with a budget that covers every sequence, each with a smaller budget."""
    draws = aiger.Random(seed)
    for _ in range(count):
        text = draws.circuit(least, most)
        c = aiger.parse(text)
        b, k = draws.below(len(c.bads)), draws.bound(c, tools.MOST_BITS)
        exponent = draws.below(len(c.free()) + len(c.inputs) * (k + 1) + 1)
        yield f"search {b} {k} {BUDGET}\n{text}", 1 + draws.below(1 << exponent)


def generated_searches(seed, count):
    """The same of circuits that the command generate makes, with I up to 4, L up to 5 and A up to 20."""
    draws = aiger.Random(seed)
    for _ in range(count):
        i, l, a = draws.below(5), draws.below(6), 1 + draws.below(20)
        text = tools.generate(draws.below(1 << 52), i, l if i else l + 1, a)
        c = aiger.parse(text)
        k = draws.bound(c, tools.MOST_BITS)
        yield f"search 0 {k} {BUDGET}\n{text}", 1 + draws.below(1 << draws.below(len(c.inputs) * (k + 1) + 1))


def made():
    """The search text of every row that this program makes, by title."""
    texts = {title: text for title, _, text in published()}
    for i, (text, _) in enumerate(random_searches(SEED, DOZEN, 0, 0)):
        texts[f"random/{i:02}.search"] = text
    return texts


def expectation(rows):
    """The lines that the program `searches` prints for these rows. A circuit without a bad line is refused with document 01's number 10."""
    jobs = {title: job_of(f"row{i}", title, text) for i, (title, text) in enumerate(rows.items())}
    asked = [job for job in jobs.values() if job.circuit.bads]
    tools.yosys(asked)
    tools.abc(asked)
    lines = ""
    for title, job in jobs.items():
        lines += f"{title}\n" + (answers.expected(job) if job.circuit.bads else "refused 10\n")
    return lines


def replace_rows(name, text):
    """Puts the text in place of the last lines of a file, those from the first published row on."""
    file = os.path.join(ROWS, name)
    kept = load(file).split("published/", 1)[0]
    with open(file, "w", encoding="ascii") as f:
        f.write(kept + text)


def main():
    tools.empty_work()
    rows = made()
    for folder in ("published", "random"):
        shutil.rmtree(os.path.join(ROWS, "data", folder), ignore_errors=True)
        os.makedirs(os.path.join(ROWS, "data", folder))
    for title, text in rows.items():
        with open(os.path.join(ROWS, "data", title), "w", encoding="ascii") as f:
            f.write(text)
    replace_rows("args", "".join(title + "\n" for title in rows))
    replace_rows("stdout", expectation(rows))


if __name__ == "__main__":
    main()
