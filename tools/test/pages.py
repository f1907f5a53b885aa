#!/usr/bin/env python3
"""Checks the pages and the comments: links, names of files and crates, quoted programs, and the length of lines.

    tools/test/pages.py

A fault is

- a link to a file of the repository that leads to no file, or whose `#heading` is no heading of that file;
- a file that a page names in backticks and that doesn't exist; or a name in backticks that begins with mesh_ or model_
  and is neither a crate, a word of the code nor an example;
- a quoted program (a block marked rust) whose lines are in no source file;
- a line of more than 120 characters: of a page, tables, code and images aside; of a comment; or of a contract.

Each fault is a line of the output, with its file and line, and the last line counts them. The status is 1 if there is
one.
"""
import pathlib
import re
import sys

TOP = pathlib.Path(__file__).resolve().parent.parent.parent
MOST = 120
CRATES = TOP / "crates"
LINK = re.compile(r"\[[^\]]*\]\(([^)\s]+)\)")
CODE = re.compile(r"`([^`]+)`")
NAME = re.compile(r"(?:mesh|model)_\w+")
RUST = re.compile(r"(?ms)^```rust\n(.*?)^```")
# The folders of a crate. A path in backticks begins with one of FOLDERS, or with a crate's name.
INSIDE = {"src", "specs", "proofs", "must-fail", "mutants", "shows"}
FOLDERS = {"crates", "docs", "tools", "jobs", "histories", "examples", *INSIDE}


def sources(suffix):
    """The source files of the crates."""
    return [path for path in CRATES.glob(f"*/*/**/*{suffix}") if "out" not in path.relative_to(CRATES).parts]


def without_fences(text):
    """The lines of a page with their numbers, code blocks left out."""
    is_code = False
    for number, line in enumerate(text.splitlines(), 1):
        if line.lstrip().startswith("```"):
            is_code = not is_code
        elif not is_code:
            yield number, line


def anchors(page):
    """The anchors of a page's headings."""
    headings = (line.lstrip("#").strip() for _, line in without_fences(page.read_text()) if line.startswith("#"))
    return {re.sub(r"[^\w\- ]", "", heading.lower()).replace(" ", "-") for heading in headings}


def link_fault(page, link):
    """What is wrong with a link, or nothing."""
    target, _, anchor = link.partition("#")
    if target.startswith(("http:", "https:")):
        return None
    file = page.parent / target if target else page
    if not file.exists():
        return f"no file {target}"
    if anchor and anchor not in anchors(file):
        return f"no heading {link}"
    return None


def is_path(text):
    """Whether text in backticks is meant as a path of the repository."""
    first = text.split("/")[0]
    is_name = first in FOLDERS or (re.fullmatch(r"\w+", first) and (CRATES / first).is_dir())
    return "/" in text and "/out" not in text and re.fullmatch(r"[\w./*{},-]+", text) and is_name


def has_file(page, path):
    """Whether a path exists: from the top, among the crates, or in the page's folder. NAME, CRATE and .. are any name."""
    pattern = re.sub(r"NAME|\bName|CRATE|\{[^}]*\}|\.\.", "*", path.strip("/"))
    is_inside = path.split("/")[0] in INSIDE
    places = [TOP, CRATES, page.parent, *(CRATES.iterdir() if is_inside else [])]
    return any(next(place.glob(pattern), None) for place in places)


def page_faults(page, words):
    """The faults of a page, each with its line."""
    for number, line in without_fences(page.read_text()):
        if len(line) > MOST and not line.lstrip().startswith(("|", "![", "<!--")):
            yield number, f"{len(line)} characters"
        for link in LINK.findall(line):
            if fault := link_fault(page, link):
                yield number, fault
        for code in CODE.findall(line):
            if is_path(code) and not has_file(page, code):
                yield number, f"no file {code}"
            for name in NAME.findall(code):
                if name not in words and not (CRATES / name).is_dir():
                    yield number, f"no crate and no word {name}"


def quote_faults(page):
    """The quoted programs of a page that are in no source file, each with its first line's number."""
    text = page.read_text()
    for block in RUST.finditer(text):
        lines = [line for line in block[1].splitlines() if line.strip()]
        if not any(has_lines(path, lines) for path in sources(".rt")):
            yield text.count("\n", 0, block.start()) + 1, "a quoted program that is in no source file"


def has_lines(path, quoted):
    """Whether a file has these lines one after another, empty lines and inner attributes aside."""
    lines = [line for line in path.read_text().splitlines() if line.strip() and not line.startswith("#![")]
    starts = (i for i, line in enumerate(lines) if line == quoted[0])
    return any(lines[i:i + len(quoted)] == quoted for i in starts)


def source_faults(path):
    """The lines of a source file's comments and contracts that are too long."""
    starts = ("//", "ensures", "requires") if path.suffix == ".rt" else ("-- ",)
    for number, line in enumerate(path.read_text().splitlines(), 1):
        if len(line) > MOST and line.lstrip().startswith(starts):
            yield number, f"{len(line)} characters"


def main():
    code = [*sources(".rt"), *sources(".antt")]
    words = set().union(*(NAME.findall(path.read_text()) for path in code))
    words |= {path.stem for path in TOP.glob("examples/*")}
    pages = [*TOP.glob("*.md"), *TOP.glob("docs/*.md"), *CRATES.glob("*/*.md")]
    faults = [(page, *fault) for page in pages for fault in page_faults(page, words)]
    faults += [(page, *fault) for page in pages for fault in quote_faults(page)]
    faults += [(path, *fault) for path in code for fault in source_faults(path)]
    for path, number, fault in faults:
        print(f"{path.relative_to(TOP)}:{number}: {fault}")
    print(f"{len(pages)} pages and {len(code)} source files, {len(faults)} faults")
    sys.exit(1 if faults else 0)


if __name__ == "__main__":
    main()
