#!/usr/bin/env python3
"""Runs the scripts of random jobs by threads, next to meshers, and judges each history with `check`.

    tools/test/random_threads.py [COUNT [SEED [PROGRAM]]]

COUNT is the number of jobs, by default 200, SEED the first job's seed, by default 1, and PROGRAM by default
crates/meshrun/out/meshrun. A job has one to three workers; they make objects, free most of them, and go on with other
commands. It runs twice, each time paced, with 1 to 16 search threads and 1 to 10 meshers: once with `--history`, which
`check` must call legal, and once with `--report`, which tells the meshes and the released pages.

A seed whose run fails, or whose history isn't legal, is a line of the output. The last line counts the jobs, and the
meshes, refused pairs, blocked attempts and released pages of their reports. The status is 1 if a seed fails or no page
was released, and 2 if there is no program.
"""
import collections
import pathlib
import random
import subprocess
import sys
import tempfile

TOP = pathlib.Path(__file__).resolve().parent.parent.parent
sys.path.insert(0, str(TOP / "tools/engines/replay"))

from compare import RandomJob

PROGRAM = TOP / "crates/meshrun/out/meshrun"


def text_of(seed):
    """A job file with the scripts of a random job, and without a plan."""
    job = RandomJob(seed)
    lines = [f"mesh {job.version}", f"pages {job.pick.choice([20, 64, 200])}", "history 65536", f"workers {len(job.scripts)}"]
    for worker, script in enumerate(job.scripts):
        lines += [f"worker {worker}", *script]
    return "".join(f"{line}\n" for line in [*lines, "plan", "end"])


def options_of(seed):
    """Random options of `threads`."""
    pick = random.Random(-seed)
    numbers = {
        "probe": pick.choice([1, 8, 64]),
        "rounds": pick.choice([20, 100, 400]),
        "workers": pick.randint(1, 16),
        "seed": pick.getrandbits(64),
        "meshers": pick.randint(1, 10),
        "pace": pick.choice([1, 1, 2, 5]),
    }
    return [word for name, number in numbers.items() for word in (f"--{name}", str(number))]


def fault_of(program, file, options):
    """Why a run or its history isn't as it should be, or None."""
    run = subprocess.run([program, "threads", file, *options, "--history"], capture_output=True, check=False)
    if run.returncode or run.stderr:
        return f"status {run.returncode}, {run.stderr.decode()!r}"
    judged = subprocess.run([program, "check", "-"], input=run.stdout, capture_output=True, check=False)
    if judged.returncode or not judged.stdout.startswith(b"legal"):
        return f"check: status {judged.returncode}, {(judged.stdout + judged.stderr).decode()!r}"
    return None


def counts_of(program, file, options):
    """The numbers of a run's report, by their words."""
    run = subprocess.run([program, "threads", file, *options, "--report"], capture_output=True, check=True, text=True)
    counts = collections.Counter()
    for line in run.stdout.partition("\nhistory ")[2].splitlines()[1:]:
        words = line.split()
        if words[0] != "report":
            counts.update(dict(zip(words[2::2], map(int, words[3::2]))))
    return counts


def main():
    words = dict(enumerate(sys.argv[1:]))
    first, program = int(words.get(1, 1)), pathlib.Path(words.get(2, PROGRAM))
    if not program.exists():
        print(f"no program at {program}: run `rt ci`, or `rt run` in crates/meshrun", file=sys.stderr)
        return 2
    seeds = range(first, first + int(words.get(0, 200)))
    counts, failed = collections.Counter(), 0
    with tempfile.TemporaryDirectory() as folder:
        file = pathlib.Path(folder) / "random.job"
        for seed in seeds:
            file.write_text(text_of(seed))
            options = options_of(seed)
            if fault := fault_of(program, file, options):
                print(f"seed {seed}: {fault}")
                failed += 1
            counts += counts_of(program, file, options)
    print(
        f"{len(seeds)} jobs, {failed} failed, {counts['begun']} meshes, {counts['refused']} refused pairs, "
        f"{counts['blocked']} blocked attempts, {counts['released']} released pages"
    )
    return 1 if failed or not counts["released"] else 0


if __name__ == "__main__":
    sys.exit(main())
