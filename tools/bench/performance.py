#!/usr/bin/env python3
"""Writes the figures of docs/PERFORMANCE.md, by running the tools that measure them.

    tools/bench/performance.py [NAME..]

A block of figures on the page is the output of tools/bench/NAME.sh. By default all blocks are written.

The status is 1 if a tool fails; then its output is printed, and the page stays as it is. It needs
crates/meshrun/out/meshrun, which `rt ci` and `rt run` build, and what the tools need. Run it on an idle machine.
"""
import argparse
import datetime
import pathlib
import re
import subprocess
import sys

TOP = pathlib.Path(__file__).resolve().parent.parent.parent
PAGE = TOP / "docs/PERFORMANCE.md"
PROGRAM = "crates/meshrun/out/meshrun"
# The tools that measure a crate or an example instead of the program.
WITHOUT_PROGRAM = {"search", "arena", "index", "record_malloc"}
# A block: its name, and what is written between the two comments.
BLOCK = re.compile(r"(<!-- figures: tools/bench/(\w+)\.sh -->\n).*?(<!-- end of figures -->)", re.DOTALL)


def processor():
    """The model of this machine's processors, and how many there are."""
    models = re.findall(r"^model name\s*: (.*)$", pathlib.Path("/proc/cpuinfo").read_text(), re.MULTILINE)
    return f"{len(models)} processors, {models[0]}"


def figures(name):
    """The output of a tool, as the page shows it."""
    words = [] if name in WITHOUT_PROGRAM else [PROGRAM]
    ran = subprocess.run([f"tools/bench/{name}.sh", *words], cwd=TOP, capture_output=True, text=True, check=False)
    if ran.returncode:
        sys.exit(f"tools/bench/{name}.sh ended with status {ran.returncode}\n{ran.stdout}{ran.stderr}")
    return f"\n```\n{ran.stdout.rstrip()}\n```\n\n{datetime.date.today()}, {processor()}.\n\n"


def main():
    parser = argparse.ArgumentParser(description="Writes the figures of docs/PERFORMANCE.md.")
    parser.add_argument("names", metavar="NAME", nargs="*", help="a block of figures, by default each")
    options = parser.parse_args()
    page = PAGE.read_text()

    def written(block):
        begin, name, end = block.groups()
        if options.names and name not in options.names:
            return block.group(0)
        return begin + figures(name) + end

    PAGE.write_text(BLOCK.sub(written, page))


if __name__ == "__main__":
    main()
