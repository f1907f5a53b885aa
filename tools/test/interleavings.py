#!/usr/bin/env python3
"""Compares each cell of the tables of docs/INTERLEAVINGS.md with the result of `meshrun explore`.

    tools/test/interleavings.py [PROGRAM]

PROGRAM is by default crates/meshrun/out/meshrun.

- A worker's command is explored by itself, once with the mesh, and once with the mesh cancelled after all copies. Its
  cell for a phase must be the answer that the exploration prints for that phase.
- A call of the mesher that an exploration makes in that phase (a `begin`, or a cancel and the step after it) is found
  in the exploration. Any other call is the last line of the explored job's plan. Its answer is read from a replay of a
  witness.

Each cell that differs is a line of the output, and the last line counts the cells. The status is 1 if one differs, or
if the program fails.
"""
import importlib.util
import pathlib
import subprocess
import sys
import tempfile

TOP = pathlib.Path(__file__).resolve().parent.parent.parent
PROGRAM = pathlib.Path(sys.argv[1] if len(sys.argv) > 1 else TOP / "crates/meshrun/out/meshrun").resolve()
PAGE = TOP / "docs/INTERLEAVINGS.md"
INITIAL = TOP / "jobs/golden/interleavings/begun.job"

spec = importlib.util.spec_from_file_location("tables", TOP / "tools/gen/interleavings.py")
tables = importlib.util.module_from_spec(spec)
spec.loader.exec_module(tables)

# For each example, which is a row of each table: the phase as an exploration names it, and the number of steps that the
# mesh has made.
PHASES = {
    "begun": ("begun", 0),
    "one_page_protected": ("protect 1", 1),
    "protected": ("protect 3", 3),
    "copied": ("copy 8", 11),
    "one_page_remapped": ("remap 1", 12),
    "remapped": ("remap 3", 14),
    "one_page_writable": ("unprotect 1", 15),
    "writable": ("unprotect 3", 17),
    "one_page_released": ("release 1", 18),
    "over": ("over", 20),
}
# A mesh is cancelled after this many steps, when all objects are copied. For each example of a cancelled mesh: the
# phase, and the number of steps after the cancel.
COPIED = 11
UNWINDING = {"cancelled": ("cancelled", 0), "one_page_unwound": ("unwound 1", 1)}
# The phases that an exploration names, in their order.
STEPS = (("protect", 3), ("copy", 8), ("remap", 3), ("unprotect", 3), ("release", 2))
ORDER = [
    "before", "begun", *(f"{kind} {k}" for kind, n in STEPS for k in range(1, n + 1)),
    "over", "cancelled", "unwound 1", "unwound 2", "unwound", "refused",
]

room = tempfile.TemporaryDirectory()
JOB = pathlib.Path(room.name) / "cell.job"


def run(*words):
    """The lines that the program prints."""
    done = subprocess.run([PROGRAM, *words], capture_output=True, text=True)
    if done.returncode != 0 or done.stderr:
        sys.exit(f"{' '.join(map(str, words))}: status {done.returncode}, {done.stderr}")
    return done.stdout.splitlines()


def write(lines, plan, command):
    """Writes a job: the commands and the plan of the examples' initial state, more lines of the plan, and one
    command that isn't in the plan."""
    head = lines[:3] + ["workers 2"] + lines[4:lines.index("worker 1")]
    made = lines[lines.index("plan"):lines.index("begin 1 0")]
    JOB.write_text("\n".join(head + ["worker 1", command] + made + plan + ["end", ""]))


def phases(ranges):
    """The phases that a list of ranges contains."""
    out = set()
    for part in ranges.split(", "):
        first, *last = part.split(" .. ")
        out.update(ORDER[ORDER.index(first):ORDER.index(last[0] if last else first) + 1])
    return out


def explored(*options):
    """For each phase the answer of the one command."""
    lines = run("explore", JOB, *options)
    at = next(i for i, line in enumerate(lines) if line.startswith("worker "))
    answers = {}
    for line in lines[at + 1:]:
        if line.startswith("outcome "):
            break
        answer, ranges = line.strip().split(": ", 1)
        for phase in phases(ranges):
            assert phase not in answers, (JOB.read_text(), phase)
            answers[phase] = answer
    return answers


def witnessed(*options):
    """The plan of the witness of the first outcome: each line with its answer in a replay."""
    job = run("explore", JOB, *options, "--witness", "0")
    JOB.write_text("\n".join(job + [""]))
    return list(zip(job[job.index("plan") + 1:-1], run("replay", JOB), strict=True))


def of_command(initial, command):
    """The answer of a command in the phase of each example."""
    write(initial, [], command)
    answers = explored("--mesh", "1:0")
    found = {example: answers[phase] for example, (phase, _) in PHASES.items()}
    answers = explored("--mesh", "1:0", "--cancel", str(COPIED))
    return found | {example: answers[phase] for example, (phase, _) in UNWINDING.items()}


def plan_to(example):
    """The lines of a plan that lead to an example's phase."""
    if example in PHASES:
        return ["begin 1 0"] + ["step 1536"] * PHASES[example][1]
    return ["begin 1 0"] + ["step 1536"] * COPIED + ["cancel 1536"] + ["step 1536"] * UNWINDING[example][1]


def answer_to(initial, example, call):
    """The answer of a call of the mesher in an example's phase; of a cancel that an exploration makes, also that of the
    step after it, or None."""
    kind, *pair = call.split(" ")
    if kind == "begin":
        write(initial, plan_to(example), "addr 0")
        return dict(witnessed("--mesh", ":".join(pair)))[call]
    if kind == "cancel" and example in PHASES and example != "over":
        write(initial, [], "addr 0")
        lines = witnessed("--mesh", "1:0", "--cancel", str(PHASES[example][1]))
        at = next(i for i, (line, _) in enumerate(lines) if line == call)
        step = next((answer for line, answer in lines[at + 1:] if line == "step 1536"), None)
        return lines[at][1], step
    write(initial, plan_to(example) + [call], "addr 0")
    seen = explored("--mesh", "1:2")
    assert seen == {"before": "at 1000", "refused": "at 1000"}, (example, call, seen)
    lines = witnessed("--mesh", "1:2")
    at = max(i for i, (line, _) in enumerate(lines) if line == call)
    return lines[at][1]


def cells():
    """The tables of the page: for each the heads of its columns, and the cells of each example."""
    text = PAGE.read_text().split(tables.BEGIN)[1].split(tables.END)[0]
    found = []
    for part in text.split("\n### ")[1:]:
        rows = [[x.strip() for x in line.strip("|").split("|")] for line in part.splitlines() if line.startswith("|")]
        found.append((rows[0][1:-1], {row[-1].strip("`"): row[1:-1] for row in rows[2:]}))
    return found


def main():
    initial = INITIAL.read_text().splitlines()
    count = wrong = 0

    def compare(example, head, cell, answers):
        nonlocal count, wrong
        count += 1
        words = {tables.said(answer) for answer in answers}
        if words != {cell}:
            wrong += 1
            print(f"{example}, {head}: the page has {cell}, an exploration {sorted(words)}")

    for columns, (heads, rows) in zip((tables.STORES, tables.OTHERS), cells()[:2], strict=True):
        for place, (head, commands) in enumerate(columns):
            assert heads[place] == head
            found = [of_command(initial, command) for command in commands]
            for example, row in rows.items():
                compare(example, head, row[place], [answers[example] for answers in found])

    heads, rows = cells()[2]
    for example, row in rows.items():
        step = None
        for place, (head, calls) in enumerate(tables.CALLS):
            assert heads[place] == head
            if calls == ["step 1536"]:
                if step is None:
                    write(initial, plan_to(example) + ["cancel 1536", "step 1536"], "addr 0")
                    lines = witnessed("--mesh", "1:2")
                    at = max(i for i, (line, _) in enumerate(lines) if line == "cancel 1536")
                    step = lines[at + 1][1]
                compare(example, head, row[place], [step])
                continue
            answers = []
            for call in calls:
                answer = answer_to(initial, example, call)
                if isinstance(answer, tuple):
                    answer, step = answer
                answers.append(answer)
            compare(example, head, row[place], answers)

    print(f"{count} cells, {wrong} differ")
    return wrong != 0


if __name__ == "__main__":
    sys.exit(main())
