#!/usr/bin/env python3
"""Writes the pieces of the page of `meshrun draw --html`, crates/draw_html/src/template.rt, from tools/html/page.html.

    tools/gen/page.py

The template has `{{title}}` twice, and behind both `{{frames}}` once, directly between `<pre id="frames">` and
`</pre>`. Each piece between two of these marks becomes a constant. The program writes the title and the frames between
the pieces.

Nothing is printed. The status is 1 if the template has another form, or a byte that is neither printable ASCII nor a
line end. Run it from the top of the repository after the template was changed; what it writes is committed.
"""
import pathlib
import re
import sys

TEMPLATE = pathlib.Path("tools/html/page.html")
WRITTEN = pathlib.Path("crates/draw_html/src/template.rt")
MARKS = ["{{title}}", "{{title}}", "{{frames}}"]
AROUND = '<pre id="frames">{{frames}}</pre>'
PIECES = [
    ("BEFORE_TITLE", "The page before the title of the file."),
    ("BEFORE_HEADING", "The page between the title of the file and the heading."),
    ("BEFORE_FRAMES", "The page between the heading and the frames."),
    ("BEHIND_FRAMES", "The page behind the frames."),
]
HEAD = """\
//! The constant pieces of the page. `tools/gen/page.py` writes this file from `tools/html/page.html`.
"""


def fault_of(text):
    """What is wrong with a template, or None."""
    if re.findall(r"\{\{.*?\}\}", text) != MARKS:
        return f"the marks aren't {' '.join(MARKS)}, in this order"
    if AROUND not in text:
        return f"{AROUND} is missing"
    if not re.fullmatch(r"[\n -~]*", text):
        return "a byte is neither printable ASCII nor a line end"
    return None


def literal(piece):
    """A piece as a string literal with the piece's lines. The first line is behind a skipped line end if it can be."""
    escaped = piece.replace("\\", "\\\\").replace('"', '\\"')
    return f'"{escaped}"' if piece[:1].isspace() else f'"\\\n{escaped}"'


def constant(name, meaning, piece):
    """The constant of a piece."""
    return f"\n/// {meaning}\npub(crate) const {name}: &str = {literal(piece)};\n"


def main():
    text = TEMPLATE.read_text()
    if fault := fault_of(text):
        sys.exit(f"{TEMPLATE}: {fault}")
    pieces = re.split(r"\{\{.*?\}\}", text)
    constants = (constant(name, meaning, piece) for (name, meaning), piece in zip(PIECES, pieces, strict=True))
    WRITTEN.write_text(HEAD + "".join(constants))


if __name__ == "__main__":
    main()
