r"""The tables of cases in tools/test/cases.

A case is a line of five fields, with two spaces or more between them:

    NAME  STATUS  OUTPUT  ERRORS  WORDS

OUTPUT and ERRORS are what is printed on standard output and standard error: `-` for nothing, `any` for some text,
`"TEXT"` for this line (`\n` in it begins another one), `"TEXT"..` for a text that begins so, `"TEXT"+` for the line of
a fault and a second one that explains it, `THESE` for lines below the case, or else the file whose content it is.

WORDS are the words after the program's name, as in a shell. `cat PATH | WORDS` makes standard input a pipe, `<PATH` a
file; it is /dev/null otherwise. `>/dev/full` and `2>/dev/full` make an output a full device.

A line that is indented goes on with the fields. Indented lines that begin with `|` are those of the case's own file,
which WORDS call FILE: what follows `| `, with the escapes of Python. A `\` at the end of a line removes its line end.
Indented lines that begin with `>` are those that OUTPUT calls THESE, in the same form.

`NAME = TEXT` defines $NAME for the lines below; $PROGRAM is the program's file name, and $FILE the path of FILE. `#`
begins a comment.
"""

import dataclasses
import pathlib
import re
import shlex
import string

from cli.suite import NOTHING, SOME_TEXT, Beginning, Explained

OWN_FILE = "own_file"
FULL = {">/dev/full": "stdout", "2>/dev/full": "stderr"}


def run(suite, path):
    """Runs the cases of a table."""
    definitions = {"PROGRAM": suite.program.name, "FILE": str(suite.room / OWN_FILE)}
    for case in entries(path, definitions):
        name, status, output, errors, words = re.split(" {2,}", f"{case.fields}  ", maxsplit=4)
        own_file = suite.write(OWN_FILE, content(case.own))
        words, streams = command(words, own_file)
        wanted = content(case.these) if output == "THESE" else text(output)
        suite.check(name, int(status), wanted, text(errors), *words, **streams)


@dataclasses.dataclass
class Case:
    """A case of a table: its fields as one line, the lines of its own file, and those that OUTPUT calls THESE."""

    fields: str
    own: list = dataclasses.field(default_factory=list)
    these: list = dataclasses.field(default_factory=list)


def entries(path, definitions):
    """The cases of a table, with these definitions and its own."""
    found = []
    for row in path.read_text().splitlines():
        if not row.strip() or row.startswith("#"):
            continue
        spelt = string.Template(row.strip()).substitute(definitions)
        definition = re.fullmatch(r"(\w+) = (.*)", spelt)
        if definition:
            definitions[definition[1]] = definition[2]
        elif not row.startswith(" "):
            found.append(Case(spelt))
        elif spelt[0] in "|>":
            case = found[-1]
            (case.own if spelt[0] == "|" else case.these).append(spelt[1:].removeprefix(" "))
        else:
            found[-1].fields += f"  {spelt}"
    return found


def content(rows):
    """The bytes of these lines of a table."""
    return unescaped("".join(f"{row}\n" for row in rows))


def unescaped(escaped):
    return escaped.encode("latin-1").decode("unicode_escape").encode("latin-1")


def text(field):
    """What an output should be."""
    if field == "-":
        return NOTHING
    if field == "any":
        return SOME_TEXT
    if field.startswith('"') and field.endswith(".."):
        return Beginning(unescaped(field[1:-3]))
    if field.startswith('"') and field.endswith("+"):
        return Explained(unescaped(field[1:-2]) + b"\n")
    if field.startswith('"'):
        return unescaped(field[1:-1]) + b"\n"
    return pathlib.Path(field)


def command(field, own_file):
    """The words of a case, and its streams."""
    words, streams = [], {}
    given = [word.replace("FILE", str(own_file)) for word in shlex.split(field)]
    if given[:1] == ["cat"]:
        streams["stdin"] = pathlib.Path(given[1]).read_bytes()
        given = given[3:]
    for word in given:
        if word in FULL:
            streams["full"] = FULL[word]
        elif word.startswith("<"):
            streams["stdin"] = pathlib.Path(word[1:])
        else:
            words.append(word)
    return words, streams
