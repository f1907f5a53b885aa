"""Running commands, and comparing what they do with what they should do."""

import itertools
import os
import pathlib
import re
import socket
import subprocess
import typing

# What a text should be: these bytes, the content of this file, or one of the two below.
NOTHING = b""
SOME_TEXT = object()
ANYTHING = object()

NULL = pathlib.Path("/dev/null")


class Beginning(typing.NamedTuple):
    """What a text should be: one that begins with these bytes."""

    text: bytes


class Explained(typing.NamedTuple):
    """What a text should be: this line of a fault, with its end, and a second line that says where and why it is."""

    line: bytes


class Run(typing.NamedTuple):
    """How a command ended, and what it printed."""

    status: int
    output: bytes
    errors: bytes

    @property
    def rows(self):
        """The lines of the standard output as texts, whatever its bytes are."""
        return self.output.decode(errors="replace").splitlines()


def execute(command, stdin=NULL, full=None, variables=None):
    """Runs a command to its end. Its standard input is a file or a socket, or a pipe if bytes are given.

    `full` is "stdout" or "stderr" if that is a full device. `variables` are added to the environment. The status is
    that of a shell: 127 if there is no such command, 128 and the number of the signal if one ended it.
    """
    with open("/dev/full", "wb") as device:
        streams = {"stdout": subprocess.PIPE, "stderr": subprocess.PIPE}
        if full:
            streams[full] = device
        if isinstance(stdin, bytes):
            streams["input"] = stdin
        elif isinstance(stdin, socket.socket):
            streams["stdin"] = os.dup(stdin.fileno())
        else:
            streams["stdin"] = os.open(stdin, os.O_RDONLY)
        try:
            done = subprocess.run(list(map(str, command)), env=os.environ | (variables or {}), **streams)
        except OSError as error:
            return Run(127, b"", str(error).encode())
        finally:
            if "stdin" in streams:
                os.close(streams["stdin"])
    status = done.returncode if done.returncode >= 0 else 128 - done.returncode
    return Run(status, done.stdout or b"", done.stderr or b"")


def line(text):
    """This line as bytes."""
    return f"{text}\n".encode()


def lines(texts):
    """These lines as bytes."""
    return b"".join(map(line, texts))


class Suite:
    """The cases of a program so far. Each prints a line: `ok: NAME`, or `FAILED: NAME: what differs`."""

    def __init__(self, program, room):
        self.program = program
        self.room = room  # a folder for the files of cases
        self.passed = 0
        self.failed = 0

    def report(self, name, faults):
        """Counts a case, which passed if it has no faults."""
        if faults:
            self.failed += 1
            print(f"FAILED: {name}: {'; '.join(faults)}", flush=True)
        else:
            self.passed += 1
            print(f"ok: {name}", flush=True)

    def compare(self, name, run, status=0, output=NOTHING, errors=NOTHING):
        """A case: whether a run ended with this status and printed these texts."""
        faults = [f"status {run.status}, not {status}"] if run.status != status else []
        faults += differences("standard output", run.output, output)
        faults += differences("standard error", run.errors, errors)
        self.report(name, faults)

    def run(self, *words, **streams):
        """Runs the program with these words."""
        return execute([self.program, *words], **streams)

    def check(self, name, status, output, errors, *words, **streams):
        """A case: the program run with these words. Returns the run."""
        run = self.run(*words, **streams)
        self.compare(name, run, status, output, errors)
        return run

    def write(self, name, content):
        """A file of the cases with this content."""
        path = self.room / name
        path.write_bytes(content)
        return path


def differences(stream, text, wanted):
    """How a text differs from what it should be: a list of one fault, or of none."""
    if wanted is ANYTHING or (wanted is SOME_TEXT and text):
        return []
    if wanted is SOME_TEXT:
        return [f"{stream} is empty"]
    if isinstance(wanted, Beginning):
        begun = text[: len(wanted.text)]
        return [] if begun == wanted.text else [f"{stream} begins with {shown(begun)}, not {shown(wanted.text)}"]
    if isinstance(wanted, Explained):
        return unexplained(stream, text, wanted.line)
    if isinstance(wanted, pathlib.Path):
        if not wanted.is_file():
            return [f"there is no {wanted} for {stream}"]
        wanted = wanted.read_bytes()
    if text == wanted:
        return []
    both = itertools.zip_longest(text.splitlines(keepends=True), wanted.splitlines(keepends=True))
    number, (found, expected) = next((k, pair) for k, pair in enumerate(both, 1) if pair[0] != pair[1])
    return [f"line {number} of {stream} is {shown(found)}, not {shown(expected)}"]


def unexplained(stream, text, line):
    """How a text differs from the line of a fault and a second line that begins with the fault's place."""
    first, second = text[: len(line)], text[len(line) :]
    if first != line:
        return [f"{stream} begins with {shown(first)}, not {shown(line)}"]
    number = line.split(b":")[0].removeprefix(b"line ")
    place = b"" if number == b"0" else b":" + number
    if re.fullmatch(b"[^:\n]+" + place + b": [^\n]+\n", second):
        return []
    return [f"line 2 of {stream} is {shown(second)}, which explains no fault"]


def shown(text):
    """A line for a fault, cut off if it is long."""
    if text is None:
        return "missing"
    return repr(text[:80].decode(errors="replace")) + (".." if len(text) > 80 else "")
