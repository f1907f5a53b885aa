"""Tables and intervals that another engine wrote, histories that it reads too, and plots."""

import pathlib
import random
import sys
import xml.dom.minidom
import xml.parsers.expat

from cli.curves import caption_faults, curve_faults, mark_in, mark_of, row_faults, rows_of
from cli.suite import NOTHING, SOME_TEXT, Explained, execute

FILES = pathlib.Path("histories/savings")
TAR = FILES / "tar.history"
# Windows of calls, and rounds, in which the curves of small histories are compared.
WINDOWS = (), ("--share", 1, "--from", 300, "--to", 1000), ("--every", 3, "--from", 120, "--to", 700)
RANDOM_RUNS = 60
# Those that cli/record.py records, if the machine has the programs.
RECORDED = "python3", "python3_killed", "perl", "cc1"


def cases(suite):
    for options in sorted(FILES.glob("*.args")):
        golden(suite, options)

    engine = suite.room / "reference"
    flags = "-O2", "-std=c++17", "-Wall", "-Wextra", "-Werror"
    words = "g++", *flags, "-o", engine, "tools/engines/savings/reference.cpp"
    suite.compare("savings: another engine", execute(words))
    used_up = suite.write("used_up.history", more_than_the_addresses())
    compare_engines(suite, engine, used_up)
    compare_at_random(suite, engine)
    piped = suite.run("savings", "-", "--every", 100, stdin=TAR.read_bytes())
    wanted = execute([engine, TAR, "--every", 100])
    suite.compare("savings: standard input", piped, 0, wanted.output)

    marks = []
    for history in [*sorted(FILES.glob("*.history")), used_up]:
        plot(suite, history)
        marks += [compare_curves(suite, history, *words) for words in WINDOWS]
        refuse_all(suite, history)
    faults = [] if any(marks) and not all(marks) else [f"the marks are {marks}"]
    suite.report("savings: some plots have a mark, and some have none", faults)


def golden(suite, options):
    """A table, intervals or a fault that the other engine wrote. The history of a.b.args is a.history."""
    history = options.with_name(options.name.split(".")[0] + ".history")
    output, errors = (options.with_suffix(suffix) for suffix in (".out", ".err"))
    text = output if output.exists() else NOTHING
    fault = errors.read_bytes() if errors.exists() else NOTHING
    words = options.read_text().split()
    name = f"savings: {options.with_suffix('')}"
    suite.check(name, status_of(fault), text, explained(fault), "savings", history, *words)


def status_of(fault):
    """The status with a line on standard error: bad input, or addresses that were used up. 0 without a line."""
    if not fault:
        return 0
    return 4 if fault.startswith(b"addresses used up") else 2


def explained(fault):
    """What is printed on standard error for a fault: a fault of the text is explained."""
    return Explained(fault) if status_of(fault) == 2 else fault


def more_than_the_addresses():
    """A history of more objects than the virtual pages hold."""
    entries = (f"0 new {i} 2048 0 -> object {i} at {4096 + 2048 * i:x}\n" for i in range(131100))
    return ("history 1\n" + "".join(entries)).encode()


def compare_engines(suite, engine, used_up):
    """The program and the other engine print the same of these histories."""

    def both(name, history, *words):
        wanted = execute([engine, history, *words])
        name = f"savings: {name}, {' '.join(map(str, words))}"
        suite.check(name, wanted.status, wanted.output, explained(wanted.errors), "savings", history, *words)

    for name in RECORDED:
        history = suite.room / f"{name}.history"
        if history.exists():
            both(name, history)
            both(name, history, "--csv")
            both(name, history, "--every", 1000)
            both(name, history, "--share", 100, "--members", 3)
            both(name, history, "--every", 50, "--seed", 2**64 - 1, "--from", 1000, "--to", 3000)
            both(name, history, "--every", 200, "--first-fit", "--probe", 3)
    both("no addresses left", used_up)
    both("no addresses left", used_up, "--csv")
    both("no addresses left", used_up, "--from", 131071, "--to", 131080)
    for text in (
        b"history 2",
        b"history 1\n0 new 0 16 0 -> object 0 at 1000",
        b"history 1\n0 free 0 -> done\nfree",
        b"history 1\n0 put 0 0 %s -> done\nfree" % (b"ab" * 4096),
        b"history 1\n0 put 0 0 %s -> done\nfree" % (b"ab" * 4097),
        b"history 1\n0 get 0 0 4096 -> bytes %s\nfree" % (b"ab" * 4096),
        b"history 1\n0 get 0 0 1 -> bytes %s\nfree" % (b"ab" * 4097),
        b"history 1\n0 get 0 0 4097 -> bytes 00\n",
        b"history 1\n0 copy 0 0 1 0 4096 -> done\nfree",
        b"history 1\n0 copy 0 0 1 0 4097 -> done\n",
        b"history 1\n" + b"0" * 16384,
        b"history 1\n" + b"0" * 16384 + b"\n",
        b"history 1\n" + b"0" * 16385,
        b"history 1\n" + b"0" * 16385 + b"\n",
    ):
        both("a fault", suite.write("fault.history", text))


def compare_at_random(suite, engine):
    """The program and the other engine print the same of random histories, with random options."""
    draw = random.Random(20261130)
    tables = []
    for run in range(RANDOM_RUNS):
        trace = draw.randrange(1, 2**64), draw.randint(1, 6), draw.randrange(40, 400)
        written = execute([sys.executable, "tools/engines/savings/write_trace.py", *trace])
        history = suite.write("random.history", written.output)
        words = random_options(draw, len(written.rows))
        wanted = execute([engine, history, *words])
        name = f"savings: random history {run}, {' '.join(map(str, words))}"
        suite.check(name, wanted.status, wanted.output, wanted.errors, "savings", history, *words)
        if "--csv" not in words:
            tables.append(wanted.output.decode())
    meshing = sum("\nmeshes 0 " not in table for table in tables)
    refusing = sum("refused 0 " not in table for table in tables)
    faults = [f"{meshing} tables with a mesh"] if meshing < 10 else []
    faults += [f"{refusing} tables with a refused pair"] if refusing < 5 else []
    suite.report("savings: the random histories mesh", faults)


def random_options(draw, entries):
    """Options for a history of this many entries."""
    rounds = draw.choice([(), ("--every", draw.choice([1, 2, 5, 20, 100])), ("--share", draw.choice([1, 3, 8, 1000]))])
    placed = draw.choice([(), ("--seed", draw.randrange(2**64)), ("--first-fit",)])
    first, last = sorted(draw.randint(1, entries) for _ in range(2))
    others = (
        ("--members", draw.randint(1, 8)),
        ("--probe", draw.choice([0, 1, 3, 64])),
        ("--from", first),
        ("--to", last),
        ("--csv",),
    )
    return [*rounds, *placed, *(word for option in others if draw.random() < 0.4 for word in option)]


def compare_curves(suite, history, *words):
    """The curves of a plot are those of the rows of `--csv`, and its mark is that of the table.

    Returns the words of the mark, or None.
    """
    name = f"savings: the curves of {shown(suite, history)}, {' '.join(map(str, words))}"
    listed = suite.run("savings", history, *words, "--csv")
    plotted = suite.run("savings", history, *words, "--svg")
    if not listed.output and not plotted.output:
        suite.report(name, [] if listed.errors else ["neither rows nor a plot, and no fault"])
        return None
    rows = rows_of(listed.output)
    if rows is None or xml_faults(plotted.output):
        suite.report(name, ["no rows" if rows is None else "no plot"])
        return None
    first_call = words[words.index("--from") + 1] if "--from" in words else 1
    suite.report(name, row_faults(rows) + curve_faults(plotted.output, rows, first_call))
    suite.report(
        name.replace("the curves", "the caption"),
        caption_faults(plotted.output, pathlib.Path(history).name, words, rows),
    )
    table = suite.run("savings", history, *words)
    wanted, mark = mark_in(table.output), mark_of(plotted.output)
    faults = [] if mark == wanted else [f"the plot has {mark!r}, and the table {wanted!r}"]
    suite.report(name.replace("the curves", "the mark"), faults)
    return mark


def refuse_all(suite, history):
    """With `--members 1` no pair is meshed, so both heaps have the same pages after each call."""
    words = "savings", history, "--share", 1000, "--members", 1
    listed, table = suite.run(*words, "--csv"), suite.run(*words)
    rows, faults = rows_of(listed.output) if listed.output else [], []
    if rows is None:
        faults.append("no rows")
    for row in rows or []:
        for name in "", "_least", "_most":
            if row[f"without{name}"] != row[f"with{name}"]:
                faults.append(f"without{name} and with{name} differ at call {row['call']}")
        if row["empty_without"] != row["empty_with"]:
            faults.append(f"empty pages differ at call {row['call']}")
    if table.output and not (b"\nmeshes 0 " in table.output and b"\nmost saved  -" in table.output):
        faults.append("the table has a mesh or saved pages")
    if not table.output and not table.errors:
        faults.append("no table")
    suite.report(f"savings: nothing is meshed of {shown(suite, history)}", faults[:1])


def shown(suite, history):
    """A history in the name of a case: without the folder of the cases."""
    return history.name if history.parent == suite.room else history


def plot(suite, history):
    """A plot has the status and the errors of the table, and is well-formed if there is one."""
    table = suite.run("savings", history)
    plotted = suite.run("savings", history, "--svg")
    name = f"savings: a plot of {shown(suite, history)}"
    suite.compare(name, plotted, table.status, SOME_TEXT if table.output else NOTHING, table.errors)
    if plotted.output:
        suite.report(f"{name} is well-formed", xml_faults(plotted.output))


def xml_faults(text):
    """Why a text isn't well-formed XML: a list of one fault, or of none."""
    try:
        xml.dom.minidom.parseString(text)
    except xml.parsers.expat.ExpatError as error:
        return [str(error)]
    return []
