#!/usr/bin/env python3
"""Checks that the prover rejects the mutants of crates, many of them in one check.

    tools/test/mutants.py [--all] [CRATE..]

A mutant is a file crates/NAME/mutants/*.edit. With --all those under crates/NAME/mutants/more and crates/NAME/must-fail
are tried too; `rt ci` tries the latter by itself. CRATE is a crate that has mutants; by default all are tried. What
isn't proved and built yet as it is, is proved and built first. After `rt ci` in a fresh clone all is. Apart from that
the tool writes only to temporary folders and to its own store.

Most mutants change the body of a function. Another function's proof rests on that function's contract and not on its
body, so mutants of different functions can share a copy of the crate and a check of it, which reads those functions and
those that they call. The prover prints the goals that it doesn't prove for each function. A mutant is refused if a goal
of a function that it changes is not proved, or if an answer in that function's own proof files doesn't fit its goal. It
is not enough that the function calls another one that isn't proved. What a shared check doesn't settle is tried alone,
and so is a mutant that changes a contract, a type, a constant or a definition: then the whole crate is checked, and the
mutant is refused if the crate isn't proved. A mutant that isn't refused is tried again from scratch.

The output has a line for each mutant: `refused` with the function and its goal, `NOT REFUSED`, or `BAD`. A mutant is
bad if it can't be applied, if the compiler rejects it before a contract is tried, or if only a proof is refused that
names what the mutant took away. A line for each crate has the number of checks and their processor time in seconds. The
last line counts all mutants by verdict.

A refusal is kept in the folder mesh-mutants of $XDG_CACHE_HOME, or of ~/.cache, under a hash of all that it rests on:
the crate, the code and the definitions of the crates below it, the mutant, the toolchain and this tool. A mutant whose
refusal is kept isn't tried again. --anew tries all.

The status is 1 if a mutant isn't refused or is bad, and 2 if the crates can't be checked. As many crates are tried at
once as the variable RT_JOBS says, by default one; each takes 1 to 2 GB. It needs `rt`.
"""
import argparse
import collections
import concurrent.futures
import contextlib
import hashlib
import os
import pathlib
import re
import shutil
import subprocess
import sys
import tempfile

CRATES = pathlib.Path("crates").resolve()
CACHE = pathlib.Path(os.environ.get("XDG_CACHE_HOME") or pathlib.Path.home() / ".cache")
KIT = pathlib.Path(shutil.which("rt") or sys.exit("mutants.py: there is no rt")).resolve().parent.parent
PARTS = ("src", "specs", "proofs")
# The folders of a crate's mutants: those that are always tried, and those that --all adds.
TRIED, FURTHER = ["mutants"], ["mutants/more", "must-fail"]
REFUSED, LET_THROUGH, BAD = "refused", "NOT REFUSED", "BAD"

# A line that begins an item which contains others, or a function. The formatter gives each its own line.
ITEM = re.compile(r"( *)(?:pub(?:\([^)]*\))? )?(?:const |unsafe |default )*(fn|impl|trait|mod)\b(.*)")
TYPE = re.compile(r"(?m)^ *(?:pub(?:\([^)]*\))? )?(?:struct|enum) (\w+)")
# What antt says of a proof that names what is no longer there, and of one that rests on a proof that was refused.
TAKEN_AWAY = re.compile(r"has no field|is not in scope|has no `")
INHERITED = re.compile(r"was not admitted")
NAMES = re.compile(r"(?:\./)?proofs/.*(?:has no field|is not in scope|has no `|was not admitted)")
# What it says of an edited text that it can't read.
UNREADABLE = re.compile(r"is not in scope|has no field|is no name|operand is missing|expected the end|cannot continue")


class Mutant:
    """An edit of a crate."""

    def __init__(self, file, crate):
        """Reads the file of an edit, which is bad if it can't be applied. `texts` has the text of each file that
        it changes, and `bodies` the body of each function, or nothing if it changes more than bodies. `verdict` is
        nothing until there is one."""
        self.name, self.texts, self.bodies = str(file.relative_to(CRATES)), {}, {}
        self.verdict = self.reason = None
        edit = file.read_text(encoding="utf-8")
        self.key = hashlib.sha256(f"{crate.key}\n{edit}".encode()).hexdigest()
        why = self._apply(edit, crate.folder)
        if why:
            self.settle(BAD, why)
            return
        for path, text in self.texts.items():
            before, after = crate.pieces(path), crate.pieces(path, text)
            same = [name for name, _ in before] == [name for name, _ in after]
            changed = dict(new for old, new in zip(before, after) if old != new)
            if not same or None in changed:
                self.bodies = {}
                return
            self.bodies.update({(path, name): body for name, body in changed.items()})

    def settle(self, verdict, reason):
        """Gives the mutant its verdict, and prints it."""
        self.verdict, self.reason = verdict, reason
        print(f"{self.name}: {verdict}: {reason}", flush=True)

    def _apply(self, edit, folder):
        """Makes the edited texts. Returns why that isn't possible, or nothing."""
        path = old = None
        for line in edit.split("\n"):
            if line.startswith("file: "):
                path = line.removeprefix("file: ").strip()
                if not path.startswith(tuple(f"{part}/" for part in PARTS)) or not (folder / path).is_file():
                    return f"there is no file {path}"
            elif line.startswith("old: "):
                old = line.removeprefix("old: ")
            elif line.startswith("new:"):
                if not path or not old:
                    return "a line `new:` has no line `file:` and `old:` before it"
                text = self.texts.get(path) or (folder / path).read_text(encoding="utf-8")
                if text.count(old) != 1:
                    return f"its text {old!r} is in {path} {text.count(old)} times, and not once"
                self.texts[path] = text.replace(old, line.removeprefix("new:").removeprefix(" "))
                old = None
        return None if self.texts else "it changes nothing"


def module_of(path):
    """The module that a source file holds, as the list of its names below the crate."""
    names = list(pathlib.PurePath(path).with_suffix("").parts[1:])
    return names[:-1] if names[-1] in ("lib", "main", "mod") else names


def owner(head):
    """The names by which the prover calls the type and the trait of an `impl` whose line goes on with `head`: `Type`,
    or `Type` and `Trait` with the names of its arguments."""
    depth, start = 0, 0
    for start, letter in enumerate(head):
        depth += (letter == "<") - (letter == ">")
        if depth == 0 and letter != ">":
            break
    head = re.split(r"\bwhere\b|\{", head[start:])[0]
    names = [re.findall(r"(?<!')\b[A-Za-z_]\w*", part) for part in re.split(r"\bfor\b", head)]
    return names[-1][0], "".join(names[0]) if len(names) == 2 else ""


def is_unread(error):
    """Whether an error says that an edited text can't be read, rather than that a declaration of it is refused."""
    declaration, why = re.search(r": error(?:: )?(`[^`]*`: )?(.*)", error).groups()
    return not declaration or bool(UNREADABLE.search(re.sub("`[^`]*`", "", why)))


class Crate:
    """A crate whose mutants are tried."""

    def __init__(self, name, uses, folders):
        self.name, self.folder, self.uses = name, CRATES / name, uses
        self.checks, self.seconds, self.modules = 0, 0.0, {}
        self.key = key_of(name, uses)
        for file in sorted(self.folder.glob("src/**/*.rt")):
            for item in TYPE.findall(file.read_text(encoding="utf-8")):
                self.modules[item] = module_of(file.relative_to(self.folder))
        files = [file for it in folders for file in sorted((self.folder / it).glob("*.edit"))]
        self.mutants = [Mutant(file, self) for file in files]

    def work(self):
        """About how long the mutants take, for the order in which crates are tried."""
        files = (file for part in PARTS for file in (self.folder / part).rglob("*.*"))
        return len(self.mutants) * sum(file.stat().st_size for file in files)

    def pieces(self, path, text=None):
        """Cuts a formatted source file, or this text of it, into pairs of a function's name, as the prover prints it
        below the crate, and its body. The text between the bodies has the name None, and so has all of a file of specs
        or proofs."""
        text = text or (self.folder / path).read_text(encoding="utf-8")
        if not path.startswith("src/"):
            return [(None, text)]
        found, around, function, depth = [[None, ""]], [], None, 0
        for line in text.splitlines(keepends=True):
            end = line.rstrip()
            if found[-1][0]:
                found[-1][1] += line
                if end == " " * depth + "}":
                    found.append([None, ""])
                    function = None
                continue
            item = ITEM.match(line)
            if item:
                _, kind, head = item.groups()
                depth = len(item[1])
                around = [(at, names) for at, names in around if at < depth]
                outer = around[-1][1] if around else module_of(path)
                if kind == "impl":
                    name, trait = owner(head)
                    # a method of a type has the name of the type's module, wherever the `impl` is
                    names = [*outer, name + trait] if trait else [*self.modules.get(name, outer), name]
                else:
                    names = [*outer, re.findall(r"\w+", head)[0]]
                function = "::".join(names) if kind == "fn" else None
                around += [] if function else [(depth, names)]
            found[-1][1] += line
            if end.endswith(";") or item and end.endswith("}"):
                function = None
            if function and end.endswith("{") and len(line) - len(line.lstrip(" ")) == depth:
                found.append([function, ""])
        return [tuple(it) for it in found]

    def check(self, texts, *words):
        """Checks a copy of the crate with these texts in place of its own. Returns the status and what the prover
        prints."""
        with tempfile.TemporaryDirectory(prefix="mutants-") as room, tempfile.TemporaryFile("w+") as out:
            for part in PARTS:
                if (self.folder / part).is_dir():
                    shutil.copytree(self.folder / part, f"{room}/{part}")
            for path, text in texts.items():
                pathlib.Path(room, path).write_text(text, encoding="utf-8")
            how = {"cwd": room, "stdin": subprocess.DEVNULL, "stdout": out, "stderr": subprocess.STDOUT}
            running = subprocess.Popen([KIT / "bin/rattle", "check", *command(self.name, self.uses), *words], **how)
            _, status, used = os.wait4(running.pid, 0)
            running.returncode = os.waitstatus_to_exitcode(status)
            out.seek(0)
            said = out.read()
        if running.returncode < 0:
            fail(f"the check of {self.name} was stopped by signal {-running.returncode}")
        self.checks += 1
        self.seconds += used.ru_utime + used.ru_stime
        return running.returncode, said.rstrip("\n")

    def recall(self, store):
        """Gives a mutant whose refusal is kept its verdict. Returns whether another one has none."""
        for mutant in self.mutants:
            if not mutant.verdict and (reason := store.refusal(mutant)):
                mutant.settle(REFUSED, reason)
        return not all(mutant.verdict for mutant in self.mutants)

    def try_all(self, store):
        """Gives each mutant its verdict, and returns the crate. A check takes from a folder of this run what an earlier
        one proved."""
        groups = []
        for mutant in (it for it in self.mutants if it.bodies and not it.verdict):
            free = (it for it in groups if not any(mutant.bodies.keys() & other.bodies.keys() for other in it))
            group = next(free, None)
            if group is None:
                groups.append(group := [])
            group.append(mutant)
        with tempfile.TemporaryDirectory(prefix="mutants-") as kept:
            for group in groups:
                self.try_together(group, kept)
            for mutant in self.mutants:
                if not mutant.verdict:
                    self.try_alone(mutant, kept)
        for mutant in self.mutants:
            if mutant.verdict == REFUSED:
                store.keep(mutant)
        return self

    def try_together(self, mutants, kept):
        """Tries mutants of different functions in one check, and those that it doesn't settle alone."""
        bodies = {place: body for mutant in mutants for place, body in mutant.bodies.items()}
        texts = {}
        for path, _ in bodies:
            texts[path] = "".join(bodies.get((path, name), text) for name, text in self.pieces(path))
        only = [word for _, name in bodies for word in ("--only", name)]
        _, said = self.check(texts, *only, "--incremental", kept)
        if len(mutants) > 1 and not re.search("(?m)^only=", said):
            # the compiler rejected one of them
            half = len(mutants) // 2
            self.try_together(mutants[:half], kept)
            self.try_together(mutants[half:], kept)
            return
        for mutant in mutants:
            refusals = (self.refusal(said, name) for _, name in mutant.bodies)
            reason = next((it for it in refusals if it), None)
            if reason:
                mutant.settle(REFUSED, reason)
            elif len(mutants) > 1:
                self.try_together([mutant], kept)
            else:
                self.try_alone(mutant)

    def refusal(self, said, function):
        """What the prover refused of a function's own goals, or nothing. That its proof names what is no longer there
        isn't a goal."""
        begin = 0
        for told in re.finditer(rf"(?m)^fn {self.name}::(\S+): (.*)$", said):
            notes, begin = said[begin : told.start()], told.end()
            name, line = told.groups()
            # a closure's name has the word `fn` before that of its function
            is_own = f"::{name}::".replace("::fn::", "::", 1).startswith(f"::{function}::")
            if not is_own or not line.startswith(("no proof", "not proved")):
                continue
            goals = re.findall(r"(?m)^note: src/\S+ it is not proved that .*?\((`[^`\n]*`)\)", notes)
            goals += re.findall(r"`search` did not prove (`[^;]*)", line)
            if goals:
                return f"`{name}`: {goals[-1]}"
            folder = re.escape(f"proofs/{name.replace('::', '/')}/")
            errors = re.findall(rf"(?m)^(?:\./)?{folder}\S+ error: (.*)$", said)
            own = [it for it in errors if not INHERITED.search(it) and not TAKEN_AWAY.search(it)]
            if own:
                return f"`{name}`: {own[0][:120]}"
        return None

    def try_alone(self, mutant, kept=None):
        """Tries a mutant in a check of the whole crate, as `rt must-fail` does: one that isn't refused is tried again
        without the folder."""
        status, said = self.check(mutant.texts, *(["--incremental", kept] if kept else []))
        lines = said.split("\n")
        told = [it for it in lines if re.match(r"(note: )?\S+:\d+:\d+:", it) and re.search("^note: |: error", it)]
        read = ("src/", "specs/", *mutant.texts)
        unread = [it for it in told if it.removeprefix("./").startswith(read) and is_unread(it)]
        if unread:
            mutant.settle(BAD, unread[0][:200])
        elif status == 1 and lines[-1].startswith("logic=not-proved"):
            goals = [it for it in told if not NAMES.match(it)]
            if told and not goals:
                mutant.settle(BAD, f"refused only because a proof names what it took away: {told[0][:160]}")
            else:
                mutant.settle(REFUSED, f"alone: {(goals or lines[-1:])[0][:160]}")
        elif kept:
            self.try_alone(mutant)
        elif status == 0:
            mutant.settle(LET_THROUGH, "the crate is still proved")
        else:
            mutant.settle(BAD, f"no contract was tried: {' '.join(lines[:3])[:300]}")


class Store:
    """The refusals that earlier runs kept on this machine."""

    def __init__(self, is_read):
        self.folder, self.is_read = CACHE / "mesh-mutants", is_read

    def refusal(self, mutant):
        """Why a mutant was refused, if that is kept."""
        file = self.folder / mutant.key
        return f"kept: {file.read_text(encoding='utf-8')}" if self.is_read and file.is_file() else None

    def keep(self, mutant):
        """Keeps why a mutant was refused, if the folder can be written."""
        file = self.folder / mutant.key
        written = file.with_suffix(f".{os.getpid()}")
        with contextlib.suppress(OSError):
            self.folder.mkdir(parents=True, exist_ok=True)
            written.write_text(mutant.reason.removeprefix("kept: "), encoding="utf-8")
            written.rename(file)


def key_of(crate, uses):
    """A hash of what the check of a crate rests on."""
    parts = [(crate, PARTS), *((name, ("src", "specs")) for name in below(crate, uses))]
    files = [file for name, all_ in parts for it in all_ for file in sorted((CRATES / name / it).rglob("*.*"))]
    whole = hashlib.sha256((KIT / "KIT-ID").read_bytes() + pathlib.Path(__file__).read_bytes())
    for file in files:
        whole.update(f"{file.relative_to(CRATES)} {file.stat().st_size}\n".encode() + file.read_bytes())
    whole.update(repr([(name, uses[name]) for name, _ in parts]).encode())
    return whole.hexdigest()


def libraries():
    """For each crate of the repository, lowest first, the libraries that crates.txt names."""
    lines = pathlib.Path("crates.txt").read_text(encoding="utf-8").splitlines()
    named = (line.split(":") for line in lines if line and not line.startswith("#"))
    return {crate: names.split() for crate, names in named}


def below(crate, uses):
    """The libraries of the repository below a crate."""
    own = [name for name in uses[crate] if name in uses]
    return dict.fromkeys(it for name in own for it in (*below(name, uses), name))


def build(crate, uses):
    """Proves and builds a crate and those below it, if they aren't yet or were changed since."""
    if all(map(is_built, [*below(crate, uses), crate])):
        return
    verb = "check" if is_program(crate) else "lib"
    print(f"rt {verb} in crates/{crate}", flush=True)
    run = subprocess.run(["rt", verb], cwd=CRATES / crate, stdout=subprocess.PIPE, stderr=subprocess.STDOUT, text=True)
    if run.returncode:
        fail(f"{crate} isn't proved: {run.stdout[-300:]}")


def is_program(crate):
    return (CRATES / crate / "src/main.rt").is_file()


def is_built(crate):
    """Whether a crate was built when all that it is made of was as it is now."""
    made = CRATES / crate / "out" / (crate if is_program(crate) else f"rlib/{crate}.rlib")
    files = (file for part in PARTS for file in (CRATES / crate / part).rglob("*.*"))
    return made.exists() and all(file.stat().st_mtime <= made.stat().st_mtime for file in files)


def fail(why):
    """Ends the run, which has judged nothing."""
    print(f"mutants.py: {why}", file=sys.stderr)
    sys.exit(2)


def command(crate, uses):
    """The words by which `rt ci` has a crate checked, over the libraries that it left in crates/*/out."""
    root = "src/main.rt" if is_program(crate) else "src/lib.rt"
    words = ["--crate-name", crate, root, "-L", f"dependency={KIT}/rlibs"]
    for name in ("std", *uses[crate]):
        folder = CRATES / name / "out/rlib" if name in uses else KIT / "rlibs"
        words += ["--extern", f"{name}={folder}/{name}.rlib"]
    for name in below(crate, uses):
        words += ["-L", f"dependency={CRATES / name}/out/rlib"]
    words += ["--antt-project", f"{KIT}/rattle/logic/antt-project.json", "--logic-built", f"{KIT}/logic_built"]
    return [*words, "--jobs", "1", "--links", f"{crate}="]


def main():
    parser = argparse.ArgumentParser(usage="tools/test/mutants.py [--all] [--anew] [CRATE..]")
    parser.add_argument("--all", action="store_true")
    parser.add_argument("--anew", action="store_true")
    parser.add_argument("crates", nargs="*")
    given = parser.parse_args()
    uses, folders = libraries(), TRIED + FURTHER if given.all else TRIED
    for name in given.crates:
        if name not in uses:
            fail(f"crates.txt names no crate {name}")
    crates = [Crate(name, uses, folders) for name in given.crates or uses]
    without = [it.name for it in crates if not it.mutants]
    if given.crates and without:
        fail(f"no mutants in {', '.join(without)}")
    crates = sorted((it for it in crates if it.mutants), key=Crate.work, reverse=True)
    store = Store(is_read=not given.anew)
    for crate in crates:
        if crate.recall(store):
            build(crate.name, uses)
    with concurrent.futures.ThreadPoolExecutor(int(os.environ.get("RT_JOBS", 1))) as pool:
        for crate in pool.map(lambda it: it.try_all(store), crates):
            tried = f"{len(crate.mutants)} mutants in {crate.checks} checks"
            print(f"{crate.name}: {tried}, {crate.seconds:.0f} s", flush=True)
    counts = collections.Counter(mutant.verdict for crate in crates for mutant in crate.mutants)
    print(f"{counts[REFUSED]} refused, {counts[LET_THROUGH]} let through, {counts[BAD]} bad")
    return 1 if counts[LET_THROUGH] or counts[BAD] else 0


if __name__ == "__main__":
    sys.exit(main())
