"""Reports on meshes that are made by a list of steps, compared with those of another engine."""

import pathlib
import random

from cli.suite import NOTHING, execute, lines

JOBS = pathlib.Path("jobs/otherwise")
LISTS = (JOBS / "lists.txt").read_text().splitlines()
FENCED = (JOBS / "fences.txt").read_text().splitlines()
# How a client's commands are made.
TIMINGS = ["--store split", "--store stale", "--load stale", "--store stale --load stale", "--free split"]
WORDS = "protect hide copy remap unmap unprotect release merge look open fence".split()
# Steps with options.
OPTIONS = "protect:1 hide:2 copy:700 copy:page remap:1 unprotect:2 release:1 release:dirty open:src open:dst".split()
# Steps that are made page by page.
BY_PAGE = "protect hide copy:page remap unprotect release remap+unprotect release:dirty remap:2".split()
RIGHT = "protect copy remap unprotect release"
# The longest list, and lists that are too long by a phase or by a word.
TWELVE = ["( protect )"] * 12
LENGTHS = [
    " ".join(["begin:unchecked", *TWELVE]),
    " ".join([*TWELVE, "release"]),
    " ".join(["begin:unchecked", *TWELVE[:11], "( protect copy:page )"]),
    " ".join(["begin:unchecked", *TWELVE, "( )"]),
]
RANDOM_RUNS = 300
# The least number of random jobs on which the right list's report is compared with the listing of the job.
LEAST_RIGHT = 200
# The greatest number of states of a random exploration.
STATES = 4000


def cases(suite):
    engine = suite.room / "otherwise"
    flags = "-O2", "-std=c++20", "-Wall", "-Wextra", "-Werror"
    suite.compare("steps: another engine", execute(["g++", *flags, "-o", engine, "tools/engines/otherwise/reference.cpp"]))
    reports = []
    for job in sorted(JOBS.glob("*.job")):
        for steps in LISTS:
            reports.append(compare(suite, engine, job, *meshes_of(job), "--steps", steps))
    for job in sorted(JOBS.glob("setting_*.job")):
        for steps in LISTS:
            reports.append(compare(suite, engine, job, *meshes_of(job), "--steps", steps, "--any", 2))
    report_kinds(suite, "the lists", reports)
    timed = []
    for job in sorted(JOBS.glob("setting_*.job")):
        for steps in FENCED:
            for timing in TIMINGS:
                words = "--steps", steps, "--any", 2, *timing.split()
                timed.append(compare(suite, engine, job, *meshes_of(job), *words))
    report_kinds(suite, "commands in two moves", timed)
    between = [report for report in timed if b"-> begins" in report.output]
    suite.report("steps: a plan has a command between its moves", [] if between else ["none has"])
    never = []
    for words in (["--any", 1], ["--any", 0, "--store", "split"]):
        never.append(compare(suite, engine, JOBS / "setting_one.job", "--mesh", "1:0", "--steps", FENCED[1], *words))
    told = [b"no interleaving has" in report.output for report in never]
    suite.report("steps: a report says what never happens", [] if all(told) else [str(told)])
    for steps in LENGTHS:
        compare(suite, engine, JOBS / "setting_one.job", "--mesh", "1:0", "--steps", steps, "--any", 1)
    faults = [f"status {report.status}" for report in reports if report.status not in (0, 3)]
    suite.report("steps: each list has a report on each job", faults)
    report_kinds(suite, "random jobs", at_random(suite, engine))


def report_kinds(suite, name, reports):
    """Some reports are that nothing is wrong and some that something is, both of meshes that begin."""
    begun = [report for report in reports if b"no interleaving begins" not in report.output]
    statuses = {report.status for report in begun}
    suite.report(f"steps: {name}: right and wrong ones", [] if {0, 3} <= statuses else [f"statuses {statuses}"])


def meshes_of(job):
    """The options of a job: those in its .args file, or one mesh."""
    options = job.with_suffix(".args")
    return options.read_text().split() if options.exists() else ["--mesh", "1:0"]


def compare(suite, engine, job, *words):
    """Both engines print the same report on a job, or the same fault."""
    wanted = execute([engine, job, *words])
    name = f"steps: {job.stem} {' '.join(map(str, words))}"
    suite.check(name, wanted.status, wanted.output, wanted.errors, "explore", job, *words)
    return wanted


def at_random(suite, engine):
    """Random lists on random jobs, and the steps of the heap's own meshes on the same jobs: then nothing is wrong, and
    there are as many interleavings as in the listing of the job. Returns all reports.
    """
    reports = []
    numbers = random.Random(1)
    compared = 0
    for run in range(RANDOM_RUNS):
        job = suite.write(f"random{run}.job", lines(random_job(numbers)))
        words = "--mesh", "1:0", "--states", STATES
        client = ["--any", numbers.randint(0, 3)] if numbers.random() < 0.4 else []
        if client and numbers.random() < 0.5:
            client += numbers.choice(TIMINGS).split()
        reports.append(compare(suite, engine, job, *words, "--steps", random_list(numbers), *client))
        right = compare(suite, engine, job, *words, "--steps", RIGHT)
        reports.append(right)
        listing = suite.run("explore", job, *words)
        if right.status in (0, 3) and listing.status == 0:
            counted = listing.rows[0].split(" states ")[0].removeprefix("interleavings ")
            last = f"nothing wrong: {counted} interleavings"
            suite.report(f"steps: random job {run}, the right list", [] if right.rows[-1] == last else [right.rows[-1]])
            compared += 1
    few = [] if compared >= LEAST_RIGHT else [f"{compared} jobs"]
    suite.report("steps: the right list on many random jobs", few)
    return reports


def random_list(numbers):
    """A list of steps near the right one, or any list."""
    words = RIGHT.split() if numbers.random() < 0.6 else numbers.choices(WORDS, k=numbers.randint(1, 6))
    for _ in range(numbers.randint(0, 2)):
        change = numbers.randrange(6)
        place = numbers.randrange(len(words))
        if change == 0:
            words.insert(place, numbers.choice(WORDS))
        elif change == 1 and len(words) > 1:
            words.pop(place)
        elif change == 2:
            words.append(words.pop(place))
        elif change == 3:
            words[place] += "" if ":" in words[place] else ":once"
        elif change == 4:
            words[place] = numbers.choice(OPTIONS)
        else:
            words[place : place + 1] = ["(", *numbers.sample(BY_PAGE, numbers.randint(1, 4)), ")"]
    return " ".join(["begin:unchecked"] * (numbers.random() < 0.1) + words)


def random_job(numbers):
    """A job whose plan fills two or three spans of a class and frees most of their objects."""
    size, slots = numbers.choice([(2048, 2), (1024, 4), (1500, 8)])
    count = slots * 2 + numbers.randint(0, 2)
    setting = [f"new {cell} {numbers.randint(size - 20, size)} {numbers.randrange(8)}" for cell in range(count)]
    kept = numbers.sample(range(count), numbers.randint(1, 3))
    setting += [f"free {cell}" for cell in range(count) if cell not in kept]
    setting += [f"put {cell} {offset_in(numbers, size)} {numbers.randint(1, 255):02x}" for cell in kept]
    workers = numbers.randint(1, 2)
    scripts = [[random_command(numbers, kept, size) for _ in range(numbers.randint(0, 3))] for _ in range(workers)]
    scripts[0] = setting + scripts[0]
    version = 2 if any("copy" in row for script in scripts for row in script) else numbers.randint(1, 2)
    head = [f"mesh {version}", f"pages {numbers.choice([4, 6, 9, 16])}", "history 64", f"workers {workers}"]
    sections = [row for worker, script in enumerate(scripts) for row in [f"worker {worker}", *script]]
    return [*head, *sections, "plan", *["run 0"] * len(setting), "end"]


def offset_in(numbers, size):
    """An offset in an object of about this size, often the first one."""
    return numbers.choice([0, 0, numbers.randrange(size - 20)])


def random_command(numbers, cells, size):
    """A command on objects of these cells, or on a new object."""
    cell = numbers.choice([*cells, 200])
    return numbers.choice(
        [
            f"put {cell} {offset_in(numbers, size)} {numbers.randint(0, 255):02x}",
            f"get {cell} {offset_in(numbers, size)} 1",
            f"free {cell}",
            f"new 200 {size} {numbers.randrange(4)}",
            f"copy {cell} 0 {numbers.choice(cells)} 0 {numbers.randint(1, 8)}",
            f"addr {cell}",
        ]
    )
