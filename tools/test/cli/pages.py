"""The examples of pages: commands that begin with `$ meshrun`, and below each what it prints.

A command ends with status 0 unless `$ echo $?` behind it shows another."""

import os
import pathlib
import re

from cli.suite import execute

PAGES = pathlib.Path("docs/EXPLORE.md"), pathlib.Path("docs/OTHERWISE.md")
# What the commands of the pages read.
FOLDERS = ("jobs", "histories")


def cases(suite):
    room = suite.room / "page"
    room.mkdir()
    (room / "meshrun").symlink_to(suite.program)
    for folder in FOLDERS:
        (room / folder).symlink_to(pathlib.Path(folder).resolve())
    variables = {"PATH": f"{room}:{os.environ['PATH']}"}
    for page in PAGES:
        for command, printed, status in examples(page.read_text()):
            shown = execute(["sh", "-c", f"cd {room} && {command} 2>&1"], variables=variables)
            suite.compare(f"{page}: {command}", shown, status, printed.encode())


def examples(text):
    """The commands of a page, in order, each with what it prints and its status."""
    for block in re.findall(r"(?ms)^```\n(.*?)^```$", text):
        shown = [example.partition("\n")[::2] for example in re.split(r"(?m)^\$ ", block)[1:]]
        for (command, printed), (behind, value) in zip(shown, shown[1:] + [("", "")]):
            if command.startswith("meshrun "):
                yield command, printed, int(value) if behind == "echo $?" else 0
