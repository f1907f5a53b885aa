"""The help, beside the page."""

import pathlib
import re


def cases(suite):
    printed = suite.run("--help").output.decode()
    told = re.findall(r"(?m)^  (\d)  \w", printed.partition("Exit statuses:\n")[2])
    page = pathlib.Path("docs/CLI.md").read_text().partition("### Exit statuses\n")[2].partition("\n#")[0]
    wanted = re.findall(r"(?m)^\| (\d) \|", page)
    faults = [] if told == wanted else [f"{told}, and {wanted} in docs/CLI.md"]
    suite.report("help: the exit statuses, as docs/CLI.md has them", faults)
