"""The golden files: jobs, each with the answers of its plan (.out), or with its fault (.err)."""

import pathlib

FILES = pathlib.Path("jobs/golden")


def jobs():
    """The jobs, each with the file of its answers or of its fault."""
    for job in sorted(FILES.glob("*/*.job")):
        fault = job.with_suffix(".err")
        yield job, fault if fault.exists() else job.with_suffix(".out")


def is_fault(expected):
    return expected.suffix == ".err"


def plan_of(text):
    """The lines of the plan of a job."""
    lines = text.splitlines()
    return lines[lines.index("plan") + 1 : -1]


def scripts_of(text):
    """The scripts of a job, the commands of each worker."""
    scripts = []
    for line in text[: text.index("plan\n")].splitlines()[4:]:
        if line.startswith("worker "):
            scripts.append([])
        else:
            scripts[-1].append(line)
    return scripts
