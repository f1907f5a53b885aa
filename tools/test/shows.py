#!/usr/bin/env python3
"""Checks by runs that the mutants under must-fail/ have the bugs that their names state.

    tools/test/shows.sh [--anew] [NAME..]

For a mutant crates/CRATE/must-fail/NAME.edit, the row crates/CRATE/shows/NAME.shows has a run of a program, and what
the mutated program does in this run. By default all mutants are tried; a NAME selects the mutants of this name in all
crates. The tool applies one edit after another in a copy of the files that git tracks, and runs the mutated program
there with `rt try`. A row holds if the mutated program does exactly what the row states, and the program without the
edit does something else.

The first line of a row is a sentence that describes what the mutated program does. Sections follow. An empty line ends
a section, and no text of a section has an empty line:

    run: CRATE WORD ..             a program and its arguments; the only file that it can read is standard input (`-`)
    try: --FLAG N                  a failure that `rt try` injects: --fail-alloc, --fail-io or --short-io
    stdin: [PATH]                  standard input: the following lines, or a file of the repository
    stdout: [PATH]                 the whole standard output of the mutated program
    stdout line N: TEXT            one line of the standard output, instead of the whole
    stderr: [PATH]                 the whole standard error of the mutated program
    status: N                      the exit status of the mutated program
    test: CRATE NAME               instead of a run: a test that fails with the edit and passes without it
    none: WHY                      instead of a run: why no run shows the bug; WHY may have several lines

By default standard input, output and error are empty, and the status is 0.

The output has a line for each mutant: `shown`, `no run shows it` with the reason, `DIFFERS` with the difference, or
`BAD` if the row is missing or can't be read, if the row has no mutant, or if the edit can't be applied or compiled. The
last line counts the verdicts. The status is 1 if a mutant differs or is bad, and 2 if the tool can't be used.

Results of runs are kept in the folder mesh-shows of $XDG_CACHE_HOME, or of ~/.cache, under a hash of the sources of the
program's crates, the edit, the run and the toolchain. A run whose result is kept isn't made again. --anew makes all
runs. The number of runs at a time is the variable RT_JOBS, by default one. Each run works in its own copy, and takes
one to two minutes and 2 GB. The tool needs git and `rt`.
"""
import argparse
import collections
import concurrent.futures
import contextlib
import hashlib
import json
import os
import pathlib
import queue
import re
import shutil
import subprocess
import sys
import tempfile
import threading

TOP = pathlib.Path(__file__).resolve().parents[2]
CACHE = pathlib.Path(os.environ.get("XDG_CACHE_HOME") or pathlib.Path.home() / ".cache") / "mesh-shows"
KIT = pathlib.Path(shutil.which("rt") or sys.exit("shows.py: there is no rt")).resolve().parent.parent
FLAGS = ("--fail-alloc", "--fail-io", "--short-io")
SHOWN, NONE, DIFFERS, BAD = "shown", "no run shows it", "DIFFERS", "BAD"
# The maximum time of a run of the compiled program.
SECONDS = "60"
# The line that `rt try --fail-alloc` adds to standard error.
ALLOCATIONS = re.compile(r"(?m)^allocations: .*\n")

# A run of a program or, if `is_test`, of a test; then `words` is the test's name.
Run = collections.namedtuple("Run", "crate words flags stdin is_test")
# What a run did. If the program didn't end by itself, the status is the line that `rt try` prints about the run.
Result = collections.namedtuple("Result", "status stdout stderr")


class BadRow(Exception):
    """The reason why a row or an edit can't be used."""


class Row:
    """What a mutant does: the sentence `says`, the `run`, and the `wanted` parts of its result. `lines` has the wanted
    lines of standard output if not all are given. If no run shows the bug, `run` is None and `why` is the reason."""

    def __init__(self, file):
        self.run = self.why = None
        self.wanted, self.lines, self.fields = {"status": 0, "stdout": "", "stderr": ""}, {}, {}
        text = file.read_text(encoding="utf-8")
        self.says, _, rest = text.partition("\n")
        if not self.says.endswith(".") or not text.endswith("\n"):
            raise BadRow("the first line is no sentence, or the last line has no line feed")
        for section in re.split(r"\n{2,}", rest.strip("\n")):
            self._read(section.split("\n"))
        self._close()

    def _read(self, lines):
        """Reads a section, or several sections of one line each."""
        while lines:
            line = lines.pop(0)
            name, found, value = line.partition(":")
            value = value.strip()
            if not found:
                raise BadRow(f"no section begins with the line {line!r}")
            if name == "none":
                self.why, lines = " ".join([value, *lines]), []
            elif name in ("stdin", "stdout", "stderr"):
                self.fields[name] = self._text(value, lines)
                lines = []
            elif re.fullmatch(r"stdout line [1-9]\d*", name):
                self.lines[int(name.split()[-1])] = value
            elif name in ("run", "try", "status", "test"):
                self.fields[name] = value
            else:
                raise BadRow(f"there is no section {name!r}")

    @staticmethod
    def _text(path, lines):
        """Returns the text of a section: the lines, or a file of the repository."""
        if path and lines:
            raise BadRow("a section has both a path and lines")
        if path:
            return (TOP / path).read_text(encoding="utf-8")
        return "".join(f"{line}\n" for line in lines)

    def _close(self):
        """Makes the run and the wanted result from the sections."""
        fields = self.fields
        if self.why is not None:
            if fields or self.lines or not self.why:
                raise BadRow("`none` has no reason, or there are other sections")
            return
        if ("run" in fields) == ("test" in fields):
            raise BadRow("there must be one of `run`, `test` and `none`")
        if "test" in fields:
            crate, _, name = fields["test"].partition(" ")
            self.run = Run(crate, (name,), (), "", True)
            if set(fields) != {"test"} or self.lines or not name:
                raise BadRow("`test` has no crate and test, or there are other sections")
            self.wanted = {"status": 1}
            return
        crate, *words = fields["run"].split()
        flags = tuple(fields.get("try", "").split())
        if flags and (len(flags) != 2 or flags[0] not in FLAGS or not flags[1].isdigit()):
            raise BadRow("`try` must have one flag and a number")
        self.run = Run(crate, tuple(words), flags, fields.get("stdin", ""), False)
        self.wanted.update({name: fields[name] for name in ("stdout", "stderr") if name in fields})
        self.wanted["status"] = int(fields.get("status", 0))
        if self.lines:
            if "stdout" in fields:
                raise BadRow("both the whole standard output and lines of it are given")
            del self.wanted["stdout"]

    def difference(self, result):
        """Returns how a result differs from the wanted one, or None."""
        for name, text in self.wanted.items():
            found = getattr(result, name)
            if found != text:
                return f"{name} is {found!r} instead of {text!r}"
        lines = ["", *result.stdout.split("\n")]
        for number, text in self.lines.items():
            found = lines[number] if number < len(lines) else None
            if found != text:
                return f"line {number} of stdout is {found!r} instead of {text!r}"
        return None


class Mutant:
    """An edit and its row. `verdict` is None until there is one."""

    def __init__(self, crate, name):
        self.crate, self.name = crate, name
        self.edit = TOP / f"crates/{crate}/must-fail/{name}.edit"
        self.file = TOP / f"crates/{crate}/shows/{name}.shows"
        self.row = self.verdict = None
        if not self.edit.exists():
            self.settle(BAD, "the row has no mutant")
        elif not self.file.exists():
            self.settle(BAD, "the mutant has no row")
        else:
            self._take_row()

    def _take_row(self):
        """Reads the row and the edit."""
        try:
            self.row = Row(self.file)
            self.texts = edited(self.edit, self.crate)
        except (BadRow, OSError, ValueError) as error:
            self.settle(BAD, str(error))
            return
        if not self.row.run:
            self.settle(NONE, self.row.why)

    def settle(self, verdict, reason=None):
        """Gives the mutant its verdict, and prints it."""
        self.verdict = verdict
        print(": ".join(it for it in (f"{self.crate}/{self.name}", verdict, reason) if it), flush=True)

    def judge(self, result, usual):
        """Gives the verdict on the result of the mutated program. `usual` is the result without the edit."""
        difference = self.row.difference(result)
        if difference:
            self.settle(DIFFERS, difference)
        elif self.row.difference(usual) is None:
            self.settle(DIFFERS, "the program without the edit does the same")
        else:
            self.settle(SHOWN, self.row.says)


def edited(edit, crate):
    """Returns the edited text of each file that an edit changes, by its path."""
    texts = {}
    path = old = None
    for line in edit.read_text(encoding="utf-8").split("\n"):
        if line.startswith("file: "):
            path = pathlib.Path(f"crates/{crate}", line.removeprefix("file: ").strip())
        elif line.startswith("old: "):
            old = line.removeprefix("old: ")
        elif line.startswith("new:"):
            text = texts.get(path) or (TOP / path).read_text(encoding="utf-8")
            if text.count(old) != 1:
                raise BadRow(f"the edit's text {old!r} is in {path} {text.count(old)} times, and not once")
            texts[path] = text.replace(old, line.removeprefix("new:").removeprefix(" "))
    if not texts:
        raise BadRow("the edit changes nothing")
    return texts


class Tree:
    """A copy of the files that git tracks. One run is made in it at a time."""

    def __init__(self, files):
        self.room = tempfile.TemporaryDirectory(prefix="shows-")
        self.top = pathlib.Path(self.room.name)
        for file in files:
            (self.top / file).parent.mkdir(parents=True, exist_ok=True)
            shutil.copy2(TOP / file, self.top / file)

    @contextlib.contextmanager
    def with_texts(self, texts):
        """Replaces the texts of these files, and restores them at the end."""
        before = {path: (self.top / path).read_text(encoding="utf-8") for path in texts}
        self._write(texts)
        try:
            yield
        finally:
            self._write(before)

    def _write(self, texts):
        for path, text in texts.items():
            (self.top / path).write_text(text, encoding="utf-8")

    def results(self, runs):
        """Makes runs of one program with one build and the same flags, and returns their results."""
        if runs[0].is_test:
            return self._results_of_tests(runs)
        names = [f"case{k}" for k in range(len(runs))]
        with tempfile.TemporaryDirectory(prefix="shows-") as folder:
            for name, run in zip(names, runs):
                pathlib.Path(folder, name).write_text(run.stdin, encoding="utf-8")
                words = "".join(f"{word}\n" for word in run.words)
                pathlib.Path(folder, f"{name}.args").write_text(words, encoding="utf-8")
            out, err = self._try(runs[0].crate, ["--cases", folder, "--seconds", SECONDS, *runs[0].flags])
        stdouts = texts_after(r"(?m)^== (\w+)\n", out)
        stderrs = texts_before(r"(?m)^case=(\w+) (.*)\n", ALLOCATIONS.sub("", err) if runs[0].flags else err)
        if set(stdouts) != set(names) or set(stderrs) != set(names):
            raise BadRow(f"rt try made no run: {(out + err)[-400:]!r}")
        return [result_of(stdouts[name], *stderrs[name]) for name in names]

    def _results_of_tests(self, runs):
        """Does the same for tests of one crate. The status is 0 if the test passes, and otherwise 1."""
        out, err = self._try(runs[0].crate, ["--test", "--seconds", SECONDS])
        said = out + err
        results = []
        for run in runs:
            ended = re.findall(rf"(?m)^test \S*\b{run.words[0]} \.\.\. (\w+)", said)
            if len(ended) != 1:
                raise BadRow(f"rt try --test doesn't report {run.words[0]}: {said[-400:]!r}")
            results.append(Result(0 if ended[0] == "ok" else 1, "", ""))
        return results

    def _try(self, crate, words):
        """Runs `rt try` in a crate, and returns its standard output and standard error."""
        how = {"cwd": self.top / "crates" / crate, "stdin": subprocess.DEVNULL, "capture_output": True, "text": True}
        ran = subprocess.run(["rt", "try", *words], check=False, **how)
        return ran.stdout, ran.stderr


def texts_after(pattern, text):
    """Returns the text after each line that the pattern matches, by the first group of the match."""
    pieces = re.split(pattern, text)
    return dict(zip(pieces[1::2], pieces[2::2]))


def texts_before(pattern, text):
    """Returns, by the first group of each match, the text before the matched line and the second group."""
    pieces = re.split(pattern, text)
    return {name: (before, rest) for before, name, rest in zip(pieces[::3], pieces[1::3], pieces[2::3])}


def result_of(stdout, stderr, line):
    """Returns the result of a run, given the line that `rt try` prints about it."""
    ended = re.match(r"run=ended status=(\d+) ", line)
    return Result(int(ended[1]) if ended else line, stdout, stderr)


class Store:
    """The results that earlier runs kept on this machine."""

    def __init__(self, files, is_read):
        self.is_read, self.uses, self.sums = is_read, libraries(), {}
        for crate in self.uses:
            own = (file for file in files if file.startswith(f"crates/{crate}/src/"))
            parts = (f"{file}\0".encode() + (TOP / file).read_bytes() for file in own)
            self.sums[crate] = hashlib.sha256(b"\0".join(parts)).hexdigest()

    def place(self, run, texts):
        """Returns the file for the result of a run in which the files have these texts."""
        parts = [self._key(run.crate), *map(str, run), *(f"{path}\n{text}" for path, text in sorted(texts.items()))]
        return CACHE / hashlib.sha256("\0".join(parts).encode()).hexdigest()

    def _key(self, crate):
        """Returns a hash of the toolchain, and of the sources of a crate and the crates below it."""
        parts = [self.sums[name] for name in (*below(crate, self.uses), crate)]
        return "\0".join([(KIT / "KIT-ID").read_text(encoding="utf-8"), *parts])

    def get(self, run, texts):
        """Returns the kept result of a run, or None."""
        file = self.place(run, texts)
        if not self.is_read or not file.is_file():
            return None
        return Result(*json.loads(file.read_text(encoding="utf-8")))

    def keep(self, run, texts, result):
        """Keeps the result of a run that ended, if the folder can be written."""
        if not isinstance(result.status, int):
            return
        file = self.place(run, texts)
        written = file.with_suffix(f".{os.getpid()}-{threading.get_ident()}")
        with contextlib.suppress(OSError):
            CACHE.mkdir(parents=True, exist_ok=True)
            written.write_text(json.dumps(result), encoding="utf-8")
            written.rename(file)


def libraries():
    """Returns, for each crate of the repository, the libraries that crates.txt names."""
    lines = (TOP / "crates.txt").read_text(encoding="utf-8").splitlines()
    named = (line.split(":") for line in lines if line and not line.startswith("#"))
    return {crate: names.split() for crate, names in named}


def below(crate, uses):
    """Returns the libraries of the repository below a crate."""
    own = [name for name in uses[crate] if name in uses]
    return dict.fromkeys(it for name in own for it in (*below(name, uses), name))


class Bench:
    """The copies in which runs are made, and the store of results."""

    def __init__(self, files, jobs, is_read):
        self.store, self.trees = Store(files, is_read), queue.SimpleQueue()
        for _ in range(jobs):
            self.trees.put(Tree(files))

    def results(self, runs, texts):
        """Returns the results of runs of one program with the same flags, by run. Makes those that aren't kept."""
        found = {run: self.store.get(run, texts) for run in runs}
        wanted = [run for run, result in found.items() if result is None]
        if wanted:
            tree = self.trees.get()
            try:
                with tree.with_texts(texts):
                    made = tree.results(wanted)
            finally:
                self.trees.put(tree)
            for run, result in zip(wanted, made):
                self.store.keep(run, texts, result)
                found[run] = result
        return found


def together(mutants):
    """Returns the runs of the mutants in lists. One build without an edit can make all runs of a list."""
    groups = collections.defaultdict(dict)
    for run in (mutant.row.run for mutant in mutants):
        groups[run.crate, run.flags, run.is_test][run] = None
    return [list(runs) for runs in groups.values()]


def try_all(mutants, bench, jobs):
    """Gives these mutants their verdicts."""
    with concurrent.futures.ThreadPoolExecutor(jobs) as pool:
        usual = [pool.submit(bench.results, runs, {}) for runs in together(mutants)]
        tried = {mutant: pool.submit(bench.results, [mutant.row.run], mutant.texts) for mutant in mutants}
        try:
            usual = {run: result for it in usual for run, result in it.result().items()}
        except BadRow as error:
            pool.shutdown(cancel_futures=True)
            fail(f"without an edit: {error}")
        futures = {future: mutant for mutant, future in tried.items()}
        for future in concurrent.futures.as_completed(futures):
            mutant = futures[future]
            try:
                mutant.judge(future.result()[mutant.row.run], usual[mutant.row.run])
            except BadRow as error:
                mutant.settle(BAD, str(error))


def named(names):
    """Returns the mutants with these names, or all."""
    files = [*TOP.glob("crates/*/must-fail/*.edit"), *TOP.glob("crates/*/shows/*.shows")]
    found = sorted({(file.parent.parent.name, file.stem) for file in files})
    for name in names:
        if name not in (it for _, it in found):
            fail(f"no mutant {name}")
    return [Mutant(crate, name) for crate, name in found if not names or name in names]


def fail(why):
    """Ends the tool without a verdict."""
    print(f"shows.py: {why}", file=sys.stderr)
    sys.exit(2)


def main():
    parser = argparse.ArgumentParser(usage="tools/test/shows.sh [--anew] [NAME..]")
    parser.add_argument("--anew", action="store_true")
    parser.add_argument("names", nargs="*")
    given = parser.parse_args()
    mutants = named(given.names)
    jobs = int(os.environ.get("RT_JOBS", 1))
    listed = subprocess.run(["git", "ls-files", "-z"], cwd=TOP, stdout=subprocess.PIPE, text=True, check=True).stdout
    bench = Bench([it for it in listed.split("\0") if it], jobs, not given.anew)
    try_all([it for it in mutants if not it.verdict], bench, jobs)
    counts = collections.Counter(mutant.verdict for mutant in mutants)
    print(f"{counts[SHOWN]} shown, {counts[NONE]} shown by no run, {counts[DIFFERS]} differ, {counts[BAD]} bad")
    return 1 if counts[DIFFERS] or counts[BAD] else 0


if __name__ == "__main__":
    sys.exit(main())
