#!/usr/bin/env python3
"""Shortens the proofs of a crate: replaces a clause of several lines by one call of `grind` with the lemmas that it
cites, if that is proved.

    tools/proof/shorten.py CRATE [PART..]

Without PART, all proof files of the crate are tried; else those whose path contains one of these parts.

It changes files under crates/CRATE/proofs, and runs `rt check` on each change. A change that isn't proved is undone, so
a crate that was proved is proved at the end. Then lemmas that a call doesn't need are removed from it. Read what it
leaves; run `rt tidy`, which removes imports; and see with tools/proof/times.sh that the crate's proof takes no longer.

The output is a line with the number of replaced clauses, and how many lines fewer there are. The status is 1 without
CRATE, and if the crate isn't proved and no call is the cause; then all files are as they were. It needs `rt`.
"""
import re
import subprocess
import sys
from dataclasses import dataclass
from pathlib import Path

# A clause of fewer lines is kept.
LEAST_LINES = 3
# If a clause's line is longer than this, the call gets a line of its own.
WIDTH = 150

WORD = re.compile(r"[^\s(){}\[\],;.«»@λ]+")
ATOM = re.compile(r"[^\s(){}\[\],;«»]+")
OPERATORS = set("""
    = ∙ → × ≡ ≢ < ≤ + - * / % ∷ ++ ↦ | : in let where ⊎ >>= && || elim as rw ↔ of record
""".split())
PAIRS = {"(": ")", "{": "}", "[": "]"}


@dataclass(eq=False)
class Clause:
    """A clause of a lemma or an answer, and the lists of lemmas to try for a call of `grind` in its place.

    `at` is the place of the list that is tried; after the last list, the clause has its own text.
    """

    start: int
    end: int
    head: str
    lists: list
    at: int = 0

    def is_short(self):
        return self.at < len(self.lists)

    def text(self):
        items = self.lists[self.at]
        call = f"grind (arith, {', '.join(items)})" if items else "grind arith"
        line = f"{self.head} = {call}"
        indent = len(self.head) - len(self.head.lstrip()) + 4
        return [line] if len(line) <= WIDTH else [f"{self.head} =", " " * indent + call]

    def give_up(self):
        """Tries the next list, or goes back to the clause's own text. Returns False if it had its own text."""
        was_short = self.is_short()
        self.at += was_short
        return was_short


class File:
    """A proof file as it was read, with its clauses."""

    def __init__(self, path):
        self.path = path
        self.lines = path.read_text().split("\n")
        self.clauses = list(clauses_of(self.lines))

    def rendered(self):
        """The file's new lines, and the range of each clause in them."""
        lines, spans, done = [], [], 0
        for clause in self.clauses:
            lines += self.lines[done:clause.start]
            text = clause.text() if clause.is_short() else self.lines[clause.start : clause.end]
            spans.append((len(lines), len(lines) + len(text), clause))
            lines += text
            done = clause.end
        return lines + self.lines[done:], spans

    def write(self):
        self.path.write_text("\n".join(self.rendered()[0]))

    def clauses_at(self, line):
        """The clauses that contain this line, or if there are none, those in its paragraph."""
        lines, spans = self.rendered()
        here = [clause for start, end, clause in spans if start < line <= end]
        first = last = line - 1
        while first > 0 and lines[first - 1].strip():
            first -= 1
        while last < len(lines) and lines[last].strip():
            last += 1
        return here or [clause for start, _, clause in spans if first <= start < last]


def lemmas_of(lines):
    """The lemmas that a file states or imports."""
    text = "\n".join(lines)
    found = set(re.findall(r"^ {0,2}(?:pub )?([^\s:(){}|]+) : ", text, re.M))
    for module, names in re.findall(r"^use Rattle\.(\S+)\.\{([^}]*)\}", text, re.M):
        if ".proofs." in module and module != "std.proofs.Common":
            found |= {name.split(" as ")[-1].strip() for name in names.split(",")}
    return found - {"let", "in", "goal"}


def clauses_of(lines):
    """The clauses that can become shorter: in each paragraph, those of its one definition."""
    lemmas = lemmas_of(lines)
    start = 0
    for end in [i for i, line in enumerate(lines) if not line.strip()] + [len(lines)]:
        yield from paragraph_clauses(lines, start, end, lemmas)
        start = end + 1


def paragraph_clauses(lines, start, end, lemmas):
    """The clauses of one paragraph that can become shorter."""
    matches = (re.match(r"( *)(?:pub )?([^\s:(){}|]+) : ", line) for line in lines[start:end])
    definition = next((m for m in matches if m), None)
    if definition is None or any(line.strip() == "where" for line in lines[start:end]):
        return
    indent, name = definition.groups()
    heads = [i for i in range(start, end) if re.match(rf"{indent}{re.escape(name)}(?= )(?! :)", lines[i])]
    for first, last in zip(heads, heads[1:] + [end]):
        head, equals, body = "\n".join(lines[first:last]).partition(" =")
        is_call = body.strip().startswith(("grind", "search"))
        if last - first >= LEAST_LINES and equals and "\n" not in head and not is_call:
            yield Clause(first, last, head, [bare(body, lemmas, name), calls(body, lemmas, name)])


def bare(body, lemmas, name):
    """The names of the lemmas that a body cites, and its calls of the lemma itself with arguments."""
    names = dict.fromkeys(word for word in WORD.findall(body) if word in lemmas and word != name)
    return [*names, *calls(body, {name}, name)]


def calls(body, lemmas, name):
    """The lemmas that a body cites, each with its arguments up to the first that has a name bound in the body."""
    inner = set(re.findall(r"let ([^\s:]+)|\| \w+ ([^\s↦]+)", body)) | {tuple(re.findall(r"λ ([^.]*)\.", body))}
    unknown = {word for group in inner for names in group for word in names.split()}
    found = {}
    for cited in re.finditer(r"(?<![\w.'’-])[^\s(){}\[\],;.«»]+(?=[ \n])", body):
        if cited.group() not in lemmas:
            continue
        given = []
        for argument in arguments(body, cited.end()):
            words = {word.split(".")[0] for word in re.findall(r"[^\s(){}\[\],;«»@λ]+", argument)}
            if words & unknown or "\n" in argument:
                break
            given.append(argument)
        found[" ".join([cited.group(), *given])] = None
    return list(found)


def arguments(text, place):
    """The explicit arguments from this place on, up to an operator."""
    while True:
        while place < len(text) and text[place] in " \n":
            place += 1
        if place < len(text) and text[place] in "({":
            end = after_bracket(text, place)
            field = re.match(r"(\.[^\s(){}\[\],;]+)*", text[end:])
            end += field.end()
        else:
            atom = ATOM.match(text, place)
            if not atom or atom.group() in OPERATORS or atom.group().startswith(("λ", "--")):
                return
            end = atom.end()
        if text[place] != "{":
            yield text[place:end]
        place = end


def after_bracket(text, place):
    """The place after the bracket that closes the one at this place."""
    opened = []
    for end in range(place, len(text)):
        if text[end] in PAIRS:
            opened.append(PAIRS[text[end]])
        elif opened and text[end] == opened[-1]:
            opened.pop()
            if not opened:
                return end + 1
    return len(text)


def check(crate, files):
    """Checks the crate. Returns whether it is proved, and the clauses with errors."""
    run = subprocess.run(["rt", "check", "--jobs", "1"], cwd=crate, capture_output=True, text=True)
    by_path = {file.path.resolve(): file for file in files}
    blamed = []
    for path, line in re.findall(r"(\./proofs/\S+\.antt):(\d+):\d+: error", run.stdout + run.stderr):
        file = by_path.get((crate / path).resolve())
        blamed += file.clauses_at(int(line)) if file else []
    return run.returncode == 0, list(dict.fromkeys(blamed))


def write(files):
    """Writes all files."""
    for file in files:
        file.write()


def settle(crate, files):
    """Goes on to the next list, or the own text, of each clause with an error, until the crate is proved."""
    write(files)
    while True:
        is_proved, blamed = check(crate, files)
        if is_proved:
            return
        if not any([clause.give_up() for clause in blamed]):
            for file in files:
                file.clauses = []
            write(files)
            sys.exit(f"{crate} isn't proved, and no call is the cause; all files are as they were")
        write(files)


def prune(crate, files):
    """Removes from each call the lemmas that it doesn't need, from the last to the first."""
    short = [clause for file in files for clause in file.clauses if clause.is_short()]
    for place in reversed(range(max((len(clause.lists[clause.at]) for clause in short), default=0))):
        out = {clause: clause.lists[clause.at].pop(place) for clause in short if place < len(clause.lists[clause.at])}
        write(files)
        while out:
            is_proved, blamed = check(crate, files)
            if is_proved:
                break
            needed = [clause for clause in blamed if clause in out] or list(out)
            for clause in needed:
                clause.lists[clause.at].insert(place, out.pop(clause))
            write(files)


def main():
    if len(sys.argv) < 2:
        sys.exit(__doc__)
    crate = Path(__file__).resolve().parents[2] / "crates" / sys.argv[1]
    parts = sys.argv[2:]
    proofs = sorted(crate.glob("proofs/**/*.antt"))
    paths = [path for path in proofs if path.name not in ("Lib.antt", "Invariants.antt")]
    files = [File(path) for path in paths if not parts or any(part in str(path) for part in parts)]
    before = sum(len(file.lines) for file in files)
    settle(crate, files)
    prune(crate, files)
    calls_kept = sum(clause.is_short() for file in files for clause in file.clauses)
    print(f"{crate.name}: {calls_kept} clauses, {before - sum(len(file.rendered()[0]) for file in files)} lines fewer")


main()
