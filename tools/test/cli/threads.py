"""Jobs run by threads. Each run that may mesh is paced, and its answers and its report show that pages were released
before the last command was made. All other answers are the same whatever the numbers are."""

import itertools
import math
import pathlib
import re

from cli.suite import NOTHING, Beginning, Run, line, lines

JOB = pathlib.Path("jobs/examples/threads.job")
ANSWERS = pathlib.Path("jobs/examples/threads.out")

# At this pace a worker makes at most one more call than the meshers, as long as they have rounds left.
PACED = "--pace", 1, "--report"
# The number of classes. Each mesher searches every M-th class once a round. The last class has slots of 2,048 bytes.
CLASSES = 10
# The calls of a mesh of two pages with two slots each: its beginning and six steps.
MESH_CALLS = 7


def numbers(probe=2, rounds=3, workers=3, seed=1):
    """The words of these numbers."""
    return "--probe", probe, "--rounds", rounds, "--workers", workers, "--seed", seed


def cases(suite):
    for seed, workers, meshers in itertools.product((0, 1, 2**64 - 1), (1, 3, 16), (1, 2, 10)):
        name = f"seed {seed}, {workers} search workers, {meshers} meshers"
        check_raced(suite, name, seed=seed, workers=workers, meshers=meshers)
    for probe, rounds in itertools.product((0, 1, 64), (0, 1, 2, 3)):
        check_few_rounds(suite, probe, rounds)
    for probe in (1, 64):
        check_one_round(suite, probe)

    check_raced(suite, "more history than commands", history=65536)
    # Its scripts have 400 commands, and its history has room for as many.
    short = suite.write("short.job", JOB.read_bytes().replace(b"\nhistory 400\n", b"\nhistory 399\n"))
    fault = line("history too short")
    suite.check("threads: a history too short", 2, NOTHING, fault, "threads", short, *numbers())
    reports(suite)


def scripts():
    """The commands of each worker of the job, each with its answer."""
    text = re.split(r"^worker \d+\n", JOB.read_text().split("plan\n")[0], flags=re.MULTILINE)
    answers = re.split(r"^worker \d+\n", ANSWERS.read_text().split("history ")[0], flags=re.MULTILINE)
    return [list(zip(one.splitlines(), two.splitlines(), strict=True)) for one, two in zip(text[1:], answers[1:])]


def job_of(pages, scripts, history=None):
    """A job with these scripts, which by default has room for just their commands."""
    count = sum(map(len, scripts))
    head = ["mesh 1", f"pages {pages}", f"history {history or count}", f"workers {len(scripts)}"]
    workers = [[f"worker {w}", *(command for command, _ in script)] for w, script in enumerate(scripts)]
    return lines([*head, *itertools.chain(*workers), "plan", "end"])


def answers_of(scripts):
    """What a run of these scripts prints before its report."""
    workers = [[f"worker {w}", *(answer for _, answer in script)] for w, script in enumerate(scripts)]
    return lines([*itertools.chain(*workers), f"history {sum(map(len, scripts))}"])


def raced_scripts(loads):
    """The scripts of the job, which together take all of 30 pages, and then this number of loads and an object of
    another class, which needs a page.

    Worker 0 makes 40 objects of a class with four slots a page. It frees the first and the last object of each page, so
    no two of its pages can be meshed. Worker 1 makes two objects on each of 20 pages, and frees the first object of one
    page and the second one of the next. So there is a page for the last object only if a mesh has released one before.
    Without a mesh, the last object is refused, or takes a page that worker 0 then lacks for one of its objects.
    """
    first, second = scripts()
    first = [(command.replace(" 2048 ", " 1024 "), answer) for command, answer in first]
    return [first, [*second, *[("get 129 0 1", "bytes 81")] * loads, ("new 128 16 1", "object")]]


def check_raced(suite, name, probe=2, seed=1, workers=3, meshers=1, history=None):
    """Two cases: the answers and the report of a run that releases a page before the last command.

    A round of the mesher of the last class takes its views behind the waits of the earlier rounds: before each class a
    search waits for a worker's call. There are 400 of these waits or more. Before the last 80 of them, worker 1 has
    freed its objects, by its 120th call, since worker 0 makes 200 calls in all. So each of the last rounds, 8 or more,
    finds 20 groups, in half of which only the first slot is free: one in 700 orders of them has no pair. Worker 1 still
    has calls to make when the last round is over, since it makes as many loads as the meshers make calls.
    """
    classes = len(range((CLASSES - 1) % meshers, CLASSES, meshers))
    rounds = math.ceil(400 / classes)
    loads = rounds * CLASSES * workers + 10 * MESH_CALLS
    raced = raced_scripts(loads)
    job = suite.write("raced.job", job_of(30, raced, history))
    words = *numbers(probe, rounds, workers, seed), "--meshers", meshers, *PACED
    run = suite.run("threads", job, *words)
    suite.compare(f"threads: {name}", run, 0, Beginning(answers_of(raced)))
    suite.report(f"threads: the report of {name}", sum_faults(run, rounds, meshers) or unreleased(run.output))


def small_scripts(loads, meshes, idle=0):
    """The commands for three cells of worker 0 of the job, this number of loads, an object of another class, and
    workers without a command.

    The three objects take two pages, which is the whole arena. They can be meshed from the seventh call on. The last
    object needs a page, so its answer shows whether the pages were meshed before: `meshes` is 1 if they were, else 0.
    """
    cells = [one for one in scripts()[0] if one[0].split()[1] in ("0", "1", "2")]
    last = ("new 0 16 1", "object" if meshes else "refused 3 NO_PAGES")
    return [[*cells, *[("get 1 0 1", "bytes 01")] * loads, last], *[[]] * idle]


def small_output(scripts, rounds, meshes):
    """What a run of these small scripts prints. As no store comes after the first free, none is blocked."""
    mesher = f"mesher 0 searches {rounds} pairs {meshes} begun {meshes} refused 0 ended {meshes} released {meshes}"
    workers = [f"worker {w} calls {len(script)} blocked 0" for w, script in enumerate(scripts)]
    heap = ("objects 2 bytes 4096 mapped 2 taken 2 saved 0", "objects 3 bytes 4112 mapped 3 taken 2 saved 1")[meshes]
    return answers_of(scripts) + lines([mesher, *workers, f"report {heap}"])


def check_few_rounds(suite, probe, rounds):
    """A case: what a run with a few rounds prints, whatever the schedule is.

    The mesher takes the views of its first round before the second call, since the worker waits behind the first one.
    It takes those of its second round behind the tenth call, since its first search waits before each of ten classes.
    """
    meshes = min(probe, 1) if rounds >= 2 else 0
    small = small_scripts(rounds * CLASSES * 3 + MESH_CALLS, meshes)
    job = suite.write("small.job", job_of(2, small))
    name = f"threads: t {probe}, {rounds} rounds" + ("" if meshes else ", which mesh nothing at this pace")
    words = *numbers(probe, rounds), *PACED
    suite.check(name, 0, small_output(small, rounds, meshes), NOTHING, "threads", job, *words)


def check_one_round(suite, probe):
    """A case: runs with one round, at a pace of eight calls, meet a released page.

    A run does if its only views are taken behind the seventh call. No pace can promise this, so one of 20 runs must. It
    is so in most runs, because the threads of 20 workers without a command are started before the mesher's. Worker 0
    makes at most eight calls for each call of the mesher, so a page is released while the script runs or never.
    """
    loads = 8 * (CLASSES * 3 + MESH_CALLS)
    without, meshed = (Run(0, small_output(small_scripts(loads, meshes, 20), 1, meshes), b"") for meshes in (0, 1))
    job = suite.write("small.job", job_of(2, small_scripts(loads, 0, 20)))
    words = *numbers(probe, 1), "--pace", 8, "--report"
    runs = [suite.run("threads", job, *words) for _ in range(20)]
    odd = [str(number) for number, run in enumerate(runs) if run not in (without, meshed)]
    faults = [f"other output of the runs {', '.join(odd)}"] if odd else []
    faults += [] if meshed in runs else ["none does"]
    suite.report(f"threads: t {probe}, 1 round: at least 1 of 20 paced runs meets a released page", faults)


def paced_job():
    """A job of 401 commands: two objects on each of 40 pages, of which the first or the second is freed, 280 loads, and a
    new object of another class, which needs a page that a mesh has released."""
    script = [f"new {cell} 2048 1" for cell in range(80)] + [f"free {2 * page + page % 2}" for page in range(40)]
    script += [f"get {2 * page + 1 - page % 2} 0 8" for page in range(40)] * 7 + ["new 0 16 1"]
    return lines(["mesh 1", "pages 40", "history 401", "workers 1", "worker 0", *script, "plan", "end"])


def reports(suite):
    """Checks the reports of runs: their sums, and that paced runs mesh while scripts run."""
    rounds, meshers = 1000, 2
    job = suite.write("paced.job", paced_job())
    words = *numbers(probe=64, rounds=rounds, workers=1), "--meshers", meshers, "--report"
    runs = [suite.run("threads", job, *words, "--pace", 1) for _ in range(30)]
    met = sum(meets_page(run.output) for run in runs)
    few = [f"{met} runs do"] if met < 28 else []
    suite.report("threads: at least 28 of 30 paced runs meet a released page", few)
    for number, run in enumerate(runs):
        suite.report(f"threads: the sums of the report of paced run {number}", sum_faults(run, rounds, meshers))
    run = suite.run("threads", JOB, *numbers(), "--report")
    suite.compare("threads: a report is behind the answers", run, 0, Beginning(ANSWERS.read_bytes()))
    suite.report("threads: the sums of a report", sum_faults(run, 3, 1))


def counts_of(text, word):
    """The numbers behind the words of each line of a report that begins with this word."""
    lines = re.findall(rf"^{word} \d+ (?:\w+ \d+ )*\w+ \d+$", text.decode(), re.MULTILINE)
    return [dict(zip((fields := one.split())[2::2], map(int, fields[3::2]))) for one in lines]


def released(text):
    """The number of pages that were released, by the report of a run."""
    return sum(counts["released"] for counts in counts_of(text, "mesher"))


def unreleased(text):
    """The fault of a report without a released page."""
    return [] if released(text) else ["no page was released"]


def meets_page(text):
    """Whether the last command of a run made an object, and the report says that pages were released."""
    answers = text.decode().split("history ")[0].splitlines()
    return answers[-1] == "object" and 0 < released(text)


def sum_faults(run, rounds, meshers):
    """What is wrong with the sums of a run's report. Each mesher made all rounds and ended what it began, and the calls
    of the workers are those of the history."""
    _, history, text = run.output.decode().rpartition("history ")
    if not history:
        return ["there is no report"]
    meshed, worked = counts_of(run.output, "mesher"), counts_of(run.output, "worker")
    calls = int(text.splitlines()[0])
    report = dict(zip((fields := text.splitlines()[-1].split())[1::2], map(int, fields[2::2])))
    wrong = {
        "the number of meshers": len(meshed) != meshers,
        "searches": any(counts["searches"] != rounds for counts in meshed),
        "pairs": any(counts["begun"] + counts["refused"] != counts["pairs"] for counts in meshed),
        "meshes": any(counts["ended"] != counts["begun"] for counts in meshed),
        "calls": sum(counts["calls"] for counts in worked) != calls,
        "saved pages": report["saved"] != report["mapped"] - report["taken"],
    }
    return [f"{what} in {text!r}" for what, is_wrong in wrong.items() if is_wrong]
