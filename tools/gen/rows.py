#!/usr/bin/env python3
"""Writes the crate model_rows, and the tables of run_tests and explore_tests, from jobs/golden and
jobs/explore.

    tools/gen/rows.py

Each folder of jobs/golden is a subject, and each NAME.job in it a worked example. NAME.out has the expected output; or
NAME.err has the expected fault, if the file is no job. In model_rows a subject becomes a spec file, and a function with
a clause for each example. In run_tests a subject becomes a table of its examples. The explorations of
jobs/explore with few interleavings become a table of explore_tests.

Nothing is printed. The status is 1 if a file has a form that this tool doesn't know, or if `rt fmt` fails. It needs
`rt`. Run it from the top of the repository after an example was added or changed; what it writes is committed.
"""
import pathlib
import re
import shutil
import subprocess

ROWS = pathlib.Path("jobs/golden")
CRATE = pathlib.Path("crates/model_rows")
TABLES = pathlib.Path("crates/run_tests")
# The theorems are about files below this length. Longer ones are only for the program.
MAX_BYTES = 100_000

# Subjects whose examples are too long for the tests' tables. Like all examples, they are run by the built program
# (tools/test/cli.sh).
UNTABLED = {"interleavings"}

EXPLORATIONS = pathlib.Path("jobs/explore")
TREES = pathlib.Path("crates/explore_tests")
# The tests make each interleaving of an exploration by itself if there are at most this many.
FEW_INTERLEAVINGS = 400

# What separates the examples of a table, and the fields of an example.
ROW_END, FIELD_END = "#", "|"

# Examples that the tests use by name.
NAMED = {
    ROWS / "mutators" / "first_bytes.job": "FIRST",
    ROWS / "small_steps" / "worked_mesh.job": "MESH",
}
KINDS = {
    "TOO_LONG": "TooLong", "TRAILING": "Trailing", "LONG_LINE": "LongLine", "CUT": "Cut",
    "BYTE": "Byte", "WORD": "Word", "NUMBER": "Number", "HEX": "Hex",
}


# What the prover must unfold: each theorem is proved by computation.
OPENED = [
    "model_words::specs::Classes::pages_of",
    "model_words::specs::Classes::slots_of",
    "crate::specs::Rows::digits",
]

ROW = """-- A worked example, written by tools/gen/rows.py: a file, and what it is replayed to.
use Rattle.std.specs.Prelude.{◌≡◌, ℕ, List, Result}
-- (the proofs of the examples open it, to compute what is written in decimal)
pub use Rattle.std.specs.Fmt.{digits}
use Rattle.model_jobs.specs.JobFiles.{replayed}
use Rattle.model_words.specs.declared.faults.TextFault.{TextFault}

-- a file, and its answer lines or its fault
pub record Row : Type 0 where
  pub file : List ℕ
  pub answer : Result (List ℕ) TextFault

-- the definitions replay the file to the answer
abbrev pub IsReplayed : Row → Type 0
IsReplayed row = replayed row.file ≡ row.answer
"""


def literal(content):
    """The text as a string literal of Rust and of antt."""
    escaped = content.replace("\\", "\\\\").replace('"', '\\"').replace("\n", "\\n")
    return '"' + re.sub("[^ -~]", lambda byte: f"\\x{ord(byte[0]):02x}", escaped) + '"'


def file_text(row):
    """The bytes of an example's file, each as a character."""
    return row.read_bytes().decode("latin-1")


def expected(row):
    """The expected result of an example's replay, as an antt term."""
    fault = row.with_suffix(".err")
    if not fault.exists():
        return f"Ok (codes {literal(row.with_suffix('.out').read_text())})"
    line, kind = fault.read_text().split(" ", 1)[1].strip().split(": ")
    return f"Err (record {{ line = {line}; kind = {KINDS[kind]} }})"


def camel(name):
    """A name in camel case."""
    return "".join(part.capitalize() for part in name.split("_"))


def rows_of(folder):
    """The examples of a subject that become theorems."""
    return [row for row in sorted(folder.glob("*.job")) if row.stat().st_size < MAX_BYTES]


def write_subject(name, rows):
    """Writes the spec file of a subject."""
    faults = any(row.with_suffix(".err").exists() for row in rows)
    spec = [f"-- Worked examples: {name.replace('_', ' ')}. Written by tools/gen/rows.py from jobs/golden/{name}.",
            f"use Rattle.std.specs.Prelude.{{{'Err' if faults else 'Ok'}, codes}}",
            "use Rattle.model_rows.specs.Rows.{Row}"]
    if faults:
        used = sorted({KINDS[row.with_suffix(".err").read_text().strip().split(": ")[1]] for row in rows})
        spec.append(f"use Rattle.model_words.specs.declared.faults.FaultKind.TheVariants.{{{', '.join(used)}}}")
    for row in rows:
        spec += ["", f"abbrev pub {row.stem} : Row",
                 f"{row.stem} = record {{ file = codes {literal(file_text(row))}; answer = {expected(row)} }}"]
    (CRATE / "specs" / f"{camel(name)}.antt").write_text("\n".join(spec) + "\n")


def write_functions(subjects):
    """Writes a function for each subject, with a clause for each of its examples."""
    lines = ["//! A function for each subject of the worked examples. Written by `tools/gen/rows.py`.",
             f"#![tactic(auto, unfolding({', '.join(OPENED)}))]", "",
             "ghost use Rattle.model_rows.specs.Rows.{IsReplayed};"]
    for name, rows in subjects.items():
        lines.append(f"ghost use Rattle.model_rows.specs.{camel(name)}.{{{', '.join(row.stem for row in rows)}}};")
    for name, rows in subjects.items():
        named = len(rows) > 1
        lines += ["", f"/// Worked examples: {name.replace('_', ' ')}.", f"pub fn {name}()"]
        lines += [f"    ensures {row.stem + ' ' if named else ''}{{ IsReplayed {row.stem} }}" for row in rows] + ["{}"]
    (CRATE / "src" / "rows.rt").write_text("\n".join(lines) + "\n")


def table(name, doc, rows, suffix):
    """The examples as one string of Rust: of each its name, its file and what is expected.

    They aren't an array, because the time of a proof about an array of strings grows with the square of its length.
    """
    texts = [(f"{row.parent.name}/{row.stem}", file_text(row), row.with_suffix(suffix).read_text()) for row in rows]
    assert not any(mark in text for fields in texts for text in fields for mark in (ROW_END, FIELD_END))
    lines = [literal(FIELD_END.join(fields))[1:-1] for fields in texts]
    return [f"/// {doc}", f'pub static {name}: &str = "\\',
            *[line + ROW_END + "\\" for line in lines[:-1]], f'{lines[-1]}";', ""]


def write_tables():
    """Writes the examples as tables of Rust: one for each subject, and one for the short files with a fault."""
    lines = [f"//! The worked examples. Each table is one text: `{ROW_END}` separates its rows, "
             f"and `{FIELD_END}` the fields of a row.",
             "//!", "//! Written by `tools/gen/rows.py`.", ""]
    for row, name in NAMED.items():
        lines += [f"/// The file of the example `{row.parent.name}/{row.stem}`.",
                  f"pub const {name}_FILE: &str = {literal(file_text(row))};", "",
                  f"/// The expected answers of the example `{row.parent.name}/{row.stem}`.",
                  f"pub const {name}_ANSWERS: &str = {literal(row.with_suffix('.out').read_text())};", ""]
    for folder in sorted(folder for folder in ROWS.iterdir() if folder.is_dir() and folder.name not in UNTABLED):
        rows = sorted(row for row in folder.glob("*.job") if row.with_suffix(".out").exists())
        if rows:
            doc = f"The examples of {folder.name.replace('_', ' ')}: the name, the file and the answers of each."
            lines += table(folder.name.upper(), doc, rows, ".out")
    faults = [row for row in sorted(ROWS.glob("*/*.job"))
              if row.with_suffix(".err").exists() and len(file_text(row)) < 1000]
    lines += table("FAULTS", "The short files that are no job: the name, the bytes and the fault line of each.", faults, ".err")
    (TABLES / "src" / "memory" / "files.rt").write_text("\n".join(lines))


def is_few(job):
    """Whether an exploration has few interleavings, by the first line of its output."""
    count = job.with_suffix(".out").read_text().split(" states ")[0].removeprefix("interleavings ")
    return count.isdecimal() and int(count) <= FEW_INTERLEAVINGS


def case(job):
    """An exploration as a line of Rust: name, meshes, the steps after which they are cancelled, and file."""
    words = job.with_suffix(".args").read_text().split()
    options = list(zip(words[::2], words[1::2]))
    meshes = [value.split(":") for option, value in options if option == "--mesh"]
    pairs = ", ".join(f"MeshPair {{ source: {source}, destination: {destination} }}" for source, destination in meshes)
    cancel = "".join(f"Some({value})" for option, value in options if option == "--cancel") or "None"
    return f'    ("{job.stem}", &[{pairs}], {cancel}, {literal(file_text(job))}),'


def write_trees():
    """Writes the explorations of few interleavings as a table of Rust."""
    jobs = [job for job in sorted(EXPLORATIONS.glob("*.job")) if is_few(job)]
    lines = ["//! Explorations of few interleavings. Written by `tools/gen/rows.py`.", "",
             "use explore_interleavings::MeshPair;", "",
             "/// The explorations: the name, the meshes, the number of steps before a cancel, and the job file of each.",
             f"pub(crate) static CASES: [(&str, &[MeshPair], Option<u32>, &str); {len(jobs)}] = ["]
    (TREES / "src" / "tests" / "cases.rt").write_text("\n".join(lines + list(map(case, jobs)) + ["];", ""]))


def main():
    for part in ("src", "specs"):
        shutil.rmtree(CRATE / part, ignore_errors=True)
        (CRATE / part).mkdir(parents=True)
    subjects = {folder.name: rows_of(folder) for folder in sorted(ROWS.iterdir()) if folder.is_dir()}
    for name, rows in subjects.items():
        write_subject(name, rows)
    write_functions(subjects)
    (CRATE / "src" / "lib.rt").write_text(
        "//! The worked examples as theorems: what the definitions give for golden files under `jobs/golden`.\n//!\n"
        "//! Each function does nothing. Its clauses state that a file is replayed "
        "to the lines that were worked out by hand.\n"
        "//! The one file of more than 1 MiB has no clause.\n"
        "//! Written by `tools/gen/rows.py`.\n"
        f"#![tactic(auto)]\n\nmod rows;\n\npub use rows::{{{', '.join(subjects)}}};\n")
    (CRATE / "specs" / "Rows.antt").write_text(ROW)
    modules = sorted([camel(name) for name in subjects] + ["Rows"])
    (CRATE / "specs" / "Lib.antt").write_text("\n".join(f"pub mod {name}" for name in modules) + "\n")
    write_tables()
    write_trees()
    for crate in (CRATE, TABLES, TREES):
        subprocess.run(["rt", "fmt"], cwd=crate, check=True)


if __name__ == "__main__":
    main()
