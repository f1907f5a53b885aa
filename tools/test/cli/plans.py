"""Pictures of plans, compared with the plans that another engine reports."""

import pathlib
import re
import xml.etree.ElementTree

from cli.otherwise import FENCED, JOBS, LISTS, TIMINGS, meshes_of
from cli.suite import NOTHING, execute, line

PICTURE = pathlib.Path("jobs/pictures/release_before_remap.svg")
# The picture of the page on other lists of steps.
SHOWN = "--mesh", "1:0", "--steps", "protect copy release remap unprotect", "--any", 1
NOTHING_WRONG = line("nothing is wrong: there is no plan to draw")
# The most letters of a caption's words and of its answer.
WORDS, ANSWER = 50, 56
SVG = "{http://www.w3.org/2000/svg}"


def cases(suite):
    engine = suite.room / "otherwise"
    marked = set()
    for job in (JOBS / "setting_one.job", JOBS / "setting_two_spans.job", JOBS / "setting_two_meshes.job"):
        for steps in LISTS:
            marked |= compare(suite, engine, job, "--steps", steps, "--any", 2)
    for steps in FENCED:
        for timing in TIMINGS:
            marked |= compare(suite, engine, JOBS / "setting_one.job", "--steps", steps, "--any", 2, *timing.split())
    suite.report("plans: pages of both kinds are marked", [] if marked == {"virtual", "physical"} else [str(marked)])
    for job in ("copy_command", "free_and_new", "page_again", "two_stores"):
        for steps in LISTS:
            compare(suite, engine, JOBS / f"{job}.job", "--steps", steps)
    suite.check("plans: the picture of the page", 0, PICTURE, NOTHING, "draw", JOBS / "setting_one.job", *SHOWN, "--columns", 2)
    for columns in (1, 3):
        name = f"plans: {columns} frames side by side"
        words = "draw", JOBS / "setting_one.job", *SHOWN, "--columns", columns
        lefts = {place for place, _ in cards_of(suite.run(*words).output)}
        suite.report(name, [] if len(lefts) == columns else [f"{len(lefts)} left sides"])


def compare(suite, engine, job, *words):
    """A picture has the moves of the first plan of the other engine's report, and marks a page. Returns the kinds of
    pages that are marked.
    """
    name = f"plans: {job.stem} {' '.join(map(str, words))}"
    wanted = plan_of(execute([engine, job, *meshes_of(job), *words]).output.decode())
    run = suite.run("draw", job, *meshes_of(job), *words)
    if wanted is None:
        suite.compare(name, run, 3, NOTHING, NOTHING_WRONG)
        return set()
    faults = [f"status {run.status}"] if run.status else []
    faults += [run.errors.decode()] if run.errors else []
    marks = []
    if run.status == 0:
        faults += differences(captions_of(run.output), wanted)
        marks = marks_of(run.output)
        faults += mark_faults(marks, wanted[-1][0])
    suite.report(name, faults)
    return {kind for kind, _ in marks}


def plan_of(report):
    """The captions of the first plan of a report: that before the first move, those of the moves, and that of what is
    wrong. None if nothing is wrong.
    """
    rows = report.splitlines()
    if "  shortest plan:" not in rows:
        return None
    head = rows.index("  shortest plan:") - 1
    moves = []
    for row in rows[head + 2 :]:
        if not row.startswith("    "):
            break
        words, _, answer = row.strip().partition(" -> ")
        moves.append((words, answer or "done"))
    kind, _, what = rows[head].partition(": ")
    if kind == "wrong answer":
        words, _, answer = what.partition(" -> ")
        last = words, f"wrong: {answer}"
    elif kind == "blocked for ever":
        last = moves[-1][0], "blocked for ever"
    else:
        return [("start", "done"), *moves, (rows[head], "wrong")]
    return [("start", "done"), *moves[:-1], last]


def cards_of(picture):
    """The left side of each card of a picture, and the card's group."""
    root = xml.etree.ElementTree.fromstring(picture)
    groups = [child for child in root if child.tag == f"{SVG}g"]
    return [(group.get("transform").partition("(")[2].partition(",")[0], group) for group in groups]


def captions_of(picture):
    """For each number of a line its words and its answer, and the number of lines that are left out."""
    captions, hidden = {}, 0
    for _, card in cards_of(picture):
        for group in card.iter(f"{SVG}g"):
            texts = [child.text or "" for child in group if child.tag == f"{SVG}text"]
            answers = [child.text or "" for child in group if child.get("class", "").startswith("pt")]
            if answers:
                first, _, last = texts[0].partition("-")
                for number in range(int(first), int(last or first) + 1):
                    captions[number] = re.sub(r" x\d+$", "", texts[1]), answers[0]
        for text in card.iter(f"{SVG}text"):
            left_out = re.fullmatch(r"\.\. and (\d+) more lines before the last", text.text or "")
            hidden += int(left_out[1]) if left_out else 0
    return captions, hidden


def differences(found, wanted):
    """Where the captions of a picture aren't those of a plan. Lines that are left out are only counted."""
    captions, hidden = found
    missing = [number for number in range(len(wanted)) if number not in captions]
    faults = [] if len(missing) == hidden else [f"{missing} are missing, {hidden} left out"]
    faults += [f"line {number} isn't in the plan" for number in captions if number >= len(wanted)]
    for number, (words, answer) in enumerate(wanted):
        caption = cut(words, WORDS), cut(answer, ANSWER)
        if captions.get(number, caption) != caption:
            faults.append(f"line {number}: {captions[number]}, not {caption}")
    return faults


def cut(text, most):
    """A text as a caption shows it."""
    return text if len(text) <= most else f"{text[:most]}.."


def marks_of(picture):
    """The pages that are marked in the last card: their kinds and their numbers. Other cards have no marks."""
    marks = []
    cards = cards_of(picture)
    for place, (_, card) in enumerate(cards):
        for group in card.iter(f"{SVG}g"):
            if any(child.get("class") == "pr" and child.get("rx") is None for child in group):
                number = next(child.text for child in group if child.get("class", "").startswith("soft") and child.text != "free")
                height = group.get("transform").partition(",")[2].rstrip(")")
                kind = "virtual" if height == "540" else "physical"
                marks.append((kind if place == len(cards) - 1 else "early", int(number)))
    return marks


def mark_faults(marks, wrong):
    """What is wrong with the marks of a picture. `wrong` says what is wrong. One page is marked, in the last card."""
    if len(marks) != 1 or marks[0][0] == "early":
        return [f"marks {marks}"]
    page = re.fullmatch(r"(?:page left protected: (virtual)|lost page: (physical)) page (\d+)", wrong)
    if page and marks != [(page[1] or page[2], int(page[3]))]:
        return [f"marks {marks}"]
    return []
