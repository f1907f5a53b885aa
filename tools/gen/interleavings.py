#!/usr/bin/env python3
"""Writes the tables of docs/INTERLEAVINGS.md from the golden files in jobs/golden/interleavings.

    tools/gen/interleavings.py

Each of these worked examples makes the same commands and the same calls of the mesher, in one phase of a mesh. A table
has a line for each example, with its answers. `model_rows` proves that the definitions give these answers.

The status is 1 if the lines that a cell covers have different answers. Run it from the top of the repository after one
of these files was changed; what it writes is committed.
"""
import pathlib

ROWS = pathlib.Path("jobs/golden/interleavings")
DOCUMENT = pathlib.Path("docs/INTERLEAVINGS.md")
BEGIN, END = "<!-- written by tools/gen/interleavings.py -->", "<!-- end of what it wrote -->"

# The first virtual page of the group that is in no mesh.
FIRST_PAGE_OF_ANOTHER = 7

# The phases in their order: the example, and what the mesh has done by then.
PHASES = [
    ("begun", "begun"),
    ("one_page_protected", "one of three pages protected"),
    ("protected", "all protected, nothing copied"),
    ("copied", "all copied"),
    ("one_page_remapped", "one page remapped"),
    ("remapped", "all remapped"),
    ("one_page_writable", "one page unprotected"),
    ("writable", "all unprotected"),
    ("one_page_released", "one page released"),
    ("over", "over"),
    ("cancelled", "cancelled after all copies"),
    ("one_page_unwound", "cancelled, one page unprotected"),
]

# The columns of the three tables: the head, and the lines of the plan or of a script whose answers it shows.
STORES = [
    ("`put`, `poke` or `copy` to the first page of the source's object",
     ["put 10 0 a1", "poke 4c00 a3", "copy 10 8 0 0 4"]),
    ("the same to its second page", ["put 10 1024 a2", "poke 5000 a4", "copy 10 1032 0 0 4"]),
    ("`put` across both", ["put 10 1020 0102030405060708"]),
    ("`put`, `poke` or `copy` to the destination", ["put 0 0 b1", "poke 1000 b2", "copy 0 8 10 0 4"]),
    ("the same to another group", ["put 16 0 c1", "poke 7000 c2", "copy 16 8 10 0 4"]),
]
OTHERS = [
    ("`get`, `peek` of each group",
     ["get 10 0 1", "get 10 1024 1", "get 0 0 1", "get 16 0 1", "peek 4c00", "peek 5000", "peek 1000", "peek 7000"]),
    ("`addr`, `alias` of each group", ["addr 10", "addr 0", "addr 16", "alias 20 10", "alias 21 0", "alias 22 16"]),
    ("`new` of the class", ["new 23 1500 0"]),
    ("`free` in each group", ["free 10", "free 0", "free 16"]),
]
CALLS = [
    ("`begin` of the source with another group", ["begin 1 2"]),
    ("`begin`, `whole` of another group into the destination", ["begin 2 0", "whole 2 0"]),
    ("`sweep` of the source", ["sweep 1"]),
    ("`sweep` of the destination", ["sweep 0"]),
    ("`cancel`", ["cancel 1536"]),
    ("the `step` after that", ["step 1536"]),
    ("`report`: mapped, taken", ["report"]),
]


def asked_and_answered(name):
    """The answer of each line of an example's plan after its phase is reached; of a repeated line, the first answer."""
    lines = (ROWS / f"{name}.job").read_text().splitlines()
    plan = lines.index("plan")
    scripts = []
    for line in lines[4:plan]:
        if line.startswith("worker "):
            scripts.append([])
        else:
            scripts[-1].append(line)
    answers = (ROWS / f"{name}.out").read_text().splitlines()
    steps = list(zip(lines[plan + 1:-1], answers, strict=True))
    reached = max(i for i, (line, _) in enumerate(steps) if line == "begin 1 2")
    found = {}
    for line, answer in steps[:reached]:
        if line.startswith("run "):
            scripts[int(line[4:])].pop(0)
    for line, answer in steps[reached:]:
        asked = line
        if line.startswith("run "):
            script = scripts[int(line[4:])]
            asked = script[0]
            if answer != "blocked":
                script.pop(0)
        found.setdefault(asked, answer)
    return found


def said(answer):
    """An answer in the words of the tables."""
    if answer.startswith("object "):
        page = int(answer.split()[3], 16) // 4096
        return "in another group" if page >= FIRST_PAGE_OF_ANOTHER else "in one of the two"
    if answer.startswith("report "):
        words = answer.split()
        return f"{words[6]}, {words[8]}"
    if answer.startswith("refused "):
        return " ".join(answer.split()[2:])
    if answer.split()[0] in ("done", "bytes", "byte", "at"):
        return "done"
    return answer


def cell(answers, lines):
    """The cell of these lines, which all have the same answer."""
    words = {said(answers[line]) for line in lines}
    assert len(words) == 1, (lines, words)
    return words.pop()


def table(columns):
    """The lines of a table."""
    head = "| Phase | " + " | ".join(name for name, _ in columns) + " | Example |"
    lines = [head, "|---" * (len(columns) + 2) + "|"]
    for name, phase in PHASES:
        answers = asked_and_answered(name)
        lines.append(f"| {phase} | " + " | ".join(cell(answers, asked) for _, asked in columns) + f" | `{name}` |")
    return lines


def main():
    written = [BEGIN, "", "### Stores", ""] + table(STORES) + ["", "### Other commands", ""] + table(OTHERS)
    written += ["", "### Calls of the mesher", ""] + table(CALLS) + ["", END]
    before, rest = DOCUMENT.read_text().split(BEGIN, 1)
    after = rest.split(END, 1)[1]
    DOCUMENT.write_text(before + "\n".join(written) + after)


if __name__ == "__main__":
    main()
