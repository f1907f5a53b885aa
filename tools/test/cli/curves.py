"""The curves of a plot of `meshrun savings`, read back from its SVG file and compared with the rows of `--csv`."""

import re
import typing
import xml.etree.ElementTree

SVG = "{http://www.w3.org/2000/svg}"
COLUMNS = (
    "call,without,with,perfect,live,large,empty_without,empty_with,without_least,without_most,with_least,with_most"
)
# By the class of its path.
CURVES = "without", "with", "perfect", "live"
# The units of an axis of pages.
PAGES_OF = {"pages": 1, "MiB": 256}
# Heights are rounded to a unit of the file, those of the marks too.
ROUNDING = 3


class Point(typing.NamedTuple):
    """A point of a path, in units of the file. y grows downwards."""

    x: float
    y: float


def rows_of(text):
    """The rows of the output of `--csv`, each a number for each name; None if it hasn't this form."""
    names, *rows = text.decode(errors="replace").split("\n")[:-1] or [""]
    is_row = re.compile(r"\d+(,\d+){%d}" % COLUMNS.count(",")).fullmatch
    if names != COLUMNS or not all(map(is_row, rows)):
        return None
    return [dict(zip(names.split(","), map(int, row.split(",")))) for row in rows]


def row_faults(rows):
    """What can't hold of the rows of any history."""
    faults = []
    for row in rows:
        if not row["live"] <= row["perfect"] <= min(row["without"], row["with"]):
            faults.append(f"live, perfect and the heaps at call {row['call']} aren't in order")
        for heap in "without", "with":
            if not row[f"{heap}_least"] <= row[heap] <= row[f"{heap}_most"]:
                faults.append(f"{heap} at call {row['call']} isn't between its least and its greatest")
    return faults[:1]


def curve_faults(picture, rows, first_call):
    """How the curves of a plot differ from rows that begin at this call: the first fault of each curve."""
    root = xml.etree.ElementTree.fromstring(picture)
    scale, faults = scale_of(root), []
    for name in CURVES:
        points = curve_of(root, name)
        if len(points) != 2 * len(rows):
            faults.append(f"the curve {name} has {len(points)} points for {len(rows)} intervals")
        elif any(after.x < before.x for before, after in zip(points, points[1:])):
            faults.append(f"x falls on the curve {name}")
        else:
            faults += value_faults(name, points, rows, scale, first_call)[:1]
    return faults


def value_faults(name, points, rows, scale, first_call):
    """How the heights of a curve differ from the rows.

    Of `perfect` and `live` the rows have only the value after the last call of an interval.
    """
    faults, begin = [], first_call
    for row, pair in zip(rows, zip(points[::2], points[1::2])):
        high, low = sorted(point.y for point in pair)
        if f"{name}_least" in row or begin == row["call"]:
            least, most = scale(row.get(f"{name}_least", row[name])), scale(row.get(f"{name}_most", row[name]))
            is_right = is_near(low, least) and is_near(high, most)
        else:
            is_right = high - ROUNDING < scale(row[name]) < low + ROUNDING
        if not is_right:
            faults.append(f"the curve {name} is from {low} to {high} before call {row['call']}, not as in the row")
        begin = row["call"] + 1
    return faults


def is_near(y, exact):
    """Whether a height is this one, apart from rounding."""
    return abs(y - exact) < ROUNDING


def scale_of(root):
    """The height of a number of pages, by the lowest and the highest mark of the axis of pages.

    The marks are in the column of the word `pages` or, if there is none, of `MiB`. Each is beside a line of the grid.
    """
    lines = [points_of(path)[0].y for path in root.iter(f"{SVG}path") if has_class(path, "grid")]
    texts = list(root.iter(f"{SVG}text"))
    title = next(text for unit in PAGES_OF for text in texts if text.text == unit)
    marks = sorted(
        (float(text.text.replace(",", "")) * PAGES_OF[title.text], float(text.get("y")))
        for text in texts
        if text.get("x") == title.get("x") and re.fullmatch(r"[\d,]+(\.\d+)?", text.text)
    )
    (least, bottom), (most, top) = ((pages, min(lines, key=lambda y: abs(y - near))) for pages, near in
                                    (marks[0], marks[-1]))
    return lambda pages: bottom - (pages - least) * (bottom - top) / (most - least)


def curve_of(root, name):
    """The points of a curve: of the longest path of this class inside the area of the plot, where no legend is."""
    card = next(rect for rect in root.iter(f"{SVG}rect") if has_class(rect, "card"))
    top = float(card.get("y"))
    paths = [points_of(path) for path in root.iter(f"{SVG}path") if has_class(path, name)]
    return max((points for points in paths if all(point.y >= top for point in points)), key=len, default=[])


def mark_of(picture):
    """The words of the mark of what is saved most, as the table has them; None without a mark."""
    texts = xml.etree.ElementTree.fromstring(picture).iter(f"{SVG}text")
    found = next((text.text for text in texts if (text.text or "").startswith("most saved ")), None)
    return found and re.sub(r"[,\s]+", " ", found.replace(",", ""))


def caption_faults(picture, name, words, rows):
    """How the words above a plot differ from the name of the history, the measured calls and the options."""
    given = {"--share": 8, "--members": 8, "--probe": 64, "--seed": 1, "--from": 1} | dict(zip(words[::2], words[1::2]))
    rounds = "--every" if "--every" in given else "--share"
    options = " ".join(f"{option} {given[option]}" for option in (rounds, "--members", "--probe", "--seed"))
    wanted = [f"; {options}"]
    if rows:
        wanted.append(f"calls {given['--from']:,} to {rows[-1]['call']:,} of {name}")
    texts = [text.text or "" for text in xml.etree.ElementTree.fromstring(picture).iter(f"{SVG}text")]
    return [f"no words of the plot end with {end!r}" for end in wanted if not any(text.endswith(end) for text in texts)]


def mark_in(table):
    """The words of the mark that a plot should have, from its table: without the share and the live bytes."""
    line = re.search(r"^most saved  (\d+ of \d+ pages) \([^)]*\) (at call \d+)", table.decode(), re.MULTILINE)
    return line and f"most saved {line[1]} {line[2]}"


def points_of(path):
    return [Point(float(x), float(y)) for x, y in re.findall(r"[ML]([\d.]+),([\d.]+)", path.get("d"))]


def has_class(element, name):
    return name in element.get("class", "").split()
