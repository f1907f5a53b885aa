"""Checks crates from scratch, one at a time on one job, and prints what each took, for tools/proof/times.sh.

    measure.py TOP [CRATE..]

TOP is a copy of the repository, which this tool changes. CRATE is by default each crate, lowest first. The output is
that of times.sh. The status is 1 if a crate isn't proved; then the tool stops. It needs `rt`.
"""
import re
import resource
import shutil
import subprocess
import sys
import time
from collections import Counter
from pathlib import Path

# The number of functions that are printed for a crate.
PRINTED = 10


def crates_of(top):
    """The crates of crates.txt, in its order, which is lowest first."""
    lines = (line.split("#")[0] for line in (top / "crates.txt").read_text().splitlines())
    return [line.split(":")[0].split()[0] for line in lines if line.strip()]


def processor_seconds():
    """The processor time of all commands that have ended."""
    used = resource.getrusage(resource.RUSAGE_CHILDREN)
    return used.ru_utime + used.ru_stime


def proof_lines(crate):
    """The number of lines of a crate's proofs."""
    return sum(len(file.read_text().splitlines()) for file in (crate / "proofs").rglob("*.antt"))


def function_of(name):
    """The function, or the file of lemmas, that a checked module belongs to."""
    path = re.sub(r"^Rattle-\w+?-?(proofs|specs)\.?|\.decls$", "", name)
    parts = path.split(".")
    while len(parts) > 1 and parts[-1][:1].isupper():
        parts.pop()
    return ".".join(parts)


def slowest(crate):
    """The functions whose modules took longest to check, with their seconds by the clock.

    A module's time is from the writing of the module before to its own.
    """
    files = sorted((file.stat().st_mtime, file) for file in (crate / "out" / "incremental").rglob("*.oantt"))
    seconds = Counter()
    for (before, _), (after, file) in zip(files, files[1:]):
        seconds[function_of(file.stem)] += after - before
    return seconds.most_common(PRINTED)


def measure(top, name):
    """Checks a crate from scratch, and prints what it took. Returns whether it is proved."""
    crate = top / "crates" / name
    has_tests = any("#[test]" in file.read_text() for file in crate.rglob("src/**/*.rt"))
    words = ["rt", "check", "--jobs", "1"] + (["--test"] if has_tests else [])
    # This builds the crates that it builds on, so that the check which is measured doesn't.
    if subprocess.run(words, cwd=crate, capture_output=True).returncode:
        return False
    shutil.rmtree(crate / "out")
    forget_other_checkouts(crate)
    return check_from_scratch(crate, name, words)


def forget_other_checkouts(crate):
    """Keeps the check from starting with results of other checkouts.

    `rt` takes the results for the same text, or else those in the folder: so the text is changed, and the folder empty.
    """
    root = next(file for file in (crate / "src" / "lib.rt", crate / "src" / "main.rt") if file.exists())
    with root.open("a", encoding="utf-8") as text:
        text.write(f"\n// Measured at {time.time_ns()}.\n")
    (crate / "out" / "incremental").mkdir(parents=True)


def check_from_scratch(crate, name, words):
    """Checks a crate without earlier results, and prints what it took. Returns whether it is proved."""
    begun = processor_seconds()
    check = subprocess.run(words, cwd=crate, capture_output=True, text=True)
    took = processor_seconds() - begun
    functions = re.findall(r"logic=proved (?:tests=\d+ )?functions=(\d+)", check.stdout)
    if not functions:
        return False
    print(f"{name}: {took:.0f} s, {functions[-1]} functions, {proof_lines(crate)} lines of proof", flush=True)
    for function, clock in slowest(crate):
        print(f"    {clock:6.1f} s  {function}", flush=True)
    return True


def main():
    top = Path(sys.argv[1])
    for name in sys.argv[2:] or crates_of(top):
        if not measure(top, name):
            sys.exit(f"{name} isn't proved")


main()
