#!/usr/bin/env python3
"""Tests tools/test/mutants.py: its verdicts on the mutants of a small crate.

    tools/test/mutants_test.py

Among the mutants are harmless ones beside others of the same check, one of a function that calls a mutated one, two of
one function, one of a definition, and bad ones. It takes a minute or two, and prints a line for each verdict that
differs and a last line that counts them. The status is 1 if a verdict differs. It needs `rt` and git.
"""
import os
import pathlib
import re
import subprocess
import sys
import tempfile

TOOL = pathlib.Path(__file__).resolve().parent / "mutants.py"

CRATE = {
    "src/lib.rt": """//! Functions with contracts.
#![tactic(auto)]

ghost use Rattle.std.specs.Prelude.{◌≡◌, ◌+◌, ◌≤◌, max};
ghost use Rattle.sample.specs.Numbers.{successor};

/// Returns the number after `n`.
pub fn next(n: u32) -> u32
    requires { n ≤ 100 }
    ensures { result ≡ successor n }
{
    n + 1
}

/// Returns the second number after `n`.
pub fn second_next(n: u32) -> u32
    requires { n ≤ 99 }
    ensures { result ≡ successor (successor n) }
{
    let first = next(n);
    next(first)
}

/// Returns the greater of two numbers.
pub fn greater(a: u32, b: u32) -> u32
    ensures { result ≡ max a b }
{
    if a < b { b } else { a }
}
""",
    "specs/Lib.antt": "pub mod Numbers\n",
    "specs/Numbers.antt": """use Rattle.std.specs.Prelude.{ℕ, ◌+◌}

-- the number after this one
abbrev pub successor : ℕ → ℕ
successor n = n + 1
""",
    "proofs/second_next/Answers.antt": """use Rattle.std.proofs.Common.{◌≡◌, ◌∙◌, ap}
use Rattle.sample.specs.Numbers.{successor}
use Rattle.sample.proofs.second_next.Goals as goal

pub returns : goal.returns
returns c = c.next.ensures ∙ ap successor c.next-first.ensures
""",
}

CODE, DEFINITIONS = "src/lib.rt", "specs/Numbers.antt"

# The name of each mutant, its verdict, its file, and the text that it replaces.
MUTANTS = [
    # The first mutants of the three functions share a check.
    ("a_greater_of_equals", "NOT REFUSED", CODE, "if a < b {", "if a <= b {"),
    ("a_next_of_itself", "refused", CODE, "    n + 1", "    n"),
    ("a_second_of_a_number", "NOT REFUSED", CODE, "    let first = next(n);", "    let first: u32 = next(n);"),
    ("b_greater_is_the_first", "refused", CODE, "if a < b { b }", "if a < b { a }"),
    ("b_second_of_the_first", "refused", CODE, "    let first = next(n);", "    let first = next(n / 2);"),
    ("c_second_forgets_a_call", "BAD", CODE, "    next(first)", "    first"),
    ("definition_of_another_number", "refused", DEFINITIONS, "successor n = n + 1", "successor n = n + 2"),
    ("of_another_type", "BAD", CODE, "    n + 1", "    true"),
    ("of_no_line", "BAD", CODE, "    n + 3", "    n"),
]


def write(folder, files):
    """Writes files below a folder."""
    for name, text in files.items():
        path = folder / name
        path.parent.mkdir(parents=True, exist_ok=True)
        path.write_text(text, encoding="utf-8")


def edit(file, old, new):
    """The text of a mutant's file."""
    return f"file: {file}\nold: {old}\nnew: {new}\n"


def verdicts(top, *words):
    """The verdict of the tool on each mutant, with its reason, and the tool's status."""
    how = {"cwd": top, "env": os.environ | {"XDG_CACHE_HOME": str(top / "cache"), "RT_JOBS": "1"}}
    run = subprocess.run([sys.executable, TOOL, *words], **how, capture_output=True, text=True)
    found = re.findall(r"(?m)^sample/mutants/(\w+)\.edit: (refused|NOT REFUSED|BAD): (.*)$", run.stdout)
    return {name: (verdict, reason) for name, verdict, reason in found}, run


def differences(top):
    """A line for each verdict that isn't as it should be."""
    found, run = verdicts(top)
    for name, wanted, *_ in MUTANTS:
        verdict, reason = found.get(name, ("no verdict", run.stderr.strip()))
        if verdict != wanted:
            yield f"{name}: {verdict}, not {wanted}: {reason}"
    counts = [sum(wanted == it for _, wanted, *_ in MUTANTS) for it in ("refused", "NOT REFUSED", "BAD")]
    last = "{} refused, {} let through, {} bad".format(*counts)
    if run.stdout.splitlines()[-1:] != [last] or run.returncode != 1:
        yield f"status {run.returncode} and the last line {run.stdout.splitlines()[-1:]}, not 1 and {last}"
    yield from forgotten(top)


def forgotten(top):
    """A line for each refusal that isn't kept. The other mutants are taken away."""
    refused = [name for name, wanted, *_ in MUTANTS if wanted == "refused"]
    for file in top.glob("crates/sample/mutants/*.edit"):
        if file.stem not in refused:
            file.unlink()
    found, run = verdicts(top)
    for name in refused:
        verdict, reason = found.get(name, ("no verdict", run.stderr.strip()))
        if verdict != "refused" or not reason.startswith("kept: "):
            yield f"{name}, a second time: {verdict}: {reason}"


def main():
    with tempfile.TemporaryDirectory(prefix="mutants-test-") as room:
        top = pathlib.Path(room)
        mutants = {f"mutants/{name}.edit": edit(*what) for name, _, *what in MUTANTS}
        write(top, {"crates.txt": "sample:\n"})
        write(top / "crates/sample", CRATE | mutants)
        subprocess.run(["git", "init", "-q", top], check=True)
        built = subprocess.run(["rt", "lib"], cwd=top / "crates/sample", capture_output=True, text=True)
        faults = list(differences(top)) if built.returncode == 0 else [f"no library: {built.stdout[-300:]}"]
    for fault in faults:
        print(fault)
    print(f"{len(MUTANTS)} mutants, {len(faults)} wrong verdicts")
    return 1 if faults else 0


if __name__ == "__main__":
    sys.exit(main())
