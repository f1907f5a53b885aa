"""The golden files, drawn, and the frames of some jobs as text and as pages."""

import html
import pathlib

from cli import golden
from cli.suite import NOTHING, SOME_TEXT, Explained

TEMPLATE = pathlib.Path("tools/html/page.html")
# The most bytes of a file's name in a title.
MOST_OF_NAME = 64


def cases(suite):
    for job, expected in golden.jobs():
        name = f"draw: {job.with_suffix('')}"
        if golden.is_fault(expected):
            suite.check(name, 2, NOTHING, Explained(expected.read_bytes()), "draw", job)
        else:
            suite.check(name, 0, SOME_TEXT, NOTHING, "draw", job)
    for expected in sorted(pathlib.Path("jobs").rglob("*.frames")):
        job, text = expected.with_suffix(".job"), expected.read_text()
        suite.check(f"draw: {expected}", 0, expected, NOTHING, "draw", job, "--text")
        page(suite, expected, job, text)
        part(suite, expected)
    for name in ('<b>"Q" & A<b>', "a tab\there and an \N{LATIN SMALL LETTER E WITH ACUTE}", "n" * 70):
        titled(suite, name)


def part(suite, expected):
    """Checks that a part of a plan has the frames of its lines."""
    frames = expected.read_text().split("line ")[1:]
    for first, last in {(1, 1), (2, 3), (len(frames), len(frames) + 5)}:
        name = f"draw: {expected}, lines {first} to {last}"
        text = "".join(f"line {frame}" for frame in frames[first - 1 : last])
        job = expected.with_suffix(".job")
        words = "draw", job, "--from", first, "--to", last
        suite.check(name, 0, text.encode(), NOTHING, *words, "--text")
        suite.check(f"{name}, a page", 0, page_of(job, text), NOTHING, *words, "--html")


def page(suite, expected, job, text):
    """Checks that a page is the template around its title and these frames, and that the escaped frames are these."""
    run = suite.check(f"draw: {expected}, a page", 0, page_of(job, text), NOTHING, "draw", job, "--html")
    shown = run.output.decode().partition('<pre id="frames">')[2].partition("</pre>")[0]
    faults = [] if html.unescape(shown) == text else ["the frames differ"]
    suite.report(f"draw: {expected}, a page, unescaped", faults)


def titled(suite, name):
    """Checks the titles of a page whose job file has this name."""
    job = suite.write(name, pathlib.Path("jobs/examples/hello.job").read_bytes())
    text = suite.run("draw", job, "--text").output.decode()
    suite.check(f"draw: a page of the file {ascii(name)}", 0, page_of(job, text), NOTHING, "draw", job, "--html")


def page_of(job, text):
    """The page of a job with these frames."""
    template = TEMPLATE.read_text()
    return template.replace("{{title}}", escaped(title_of(job))).replace("{{frames}}", escaped(text)).encode()


def title_of(job):
    """The title of a page: bytes of the file's name that aren't printable ASCII are question marks."""
    name = str(job).encode()
    shown = "".join(chr(byte) if 32 <= byte < 127 else "?" for byte in name[:MOST_OF_NAME])
    return f"Meshing in {shown}" + (".." if len(name) > MOST_OF_NAME else "")


def escaped(text):
    """A text without markup."""
    return html.escape(text, quote=False).replace('"', "&quot;")
