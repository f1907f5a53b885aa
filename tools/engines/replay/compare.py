#!/usr/bin/env python3
"""Compares replays of random job files by the program and by the plain engine in this folder.

    tools/engines/replay/compare.py [--echo] [COUNT [SEED [PROGRAM]]]

COUNT is the number of job files, by default 1,000, SEED the first file's seed, by default 1, and PROGRAM by default
crates/meshrun/out/meshrun. With --echo, both replay with that option. The workers of a job make objects and free most
of them. Then their other commands come between searches, meshes, cancels, sweeps and reports. One file in ten has a
changed byte, which mostly is a fault.

A seed with which the two differ, in an output or a status, is a line of the output. The last line counts the files, the
meshes to the last step and the blocked stores. The status is 1 if a file differs, and 2 if there is no program or the
engine can't be built. It needs cargo.
"""
import pathlib
import random
import subprocess
import sys
import tempfile

FOLDER = pathlib.Path(__file__).resolve().parent
PROGRAM = FOLDER.parent.parent.parent / "crates/meshrun/out/meshrun"
SIZES = (128, 384, 512, 1024, 1536, 2048)
# Lengths and offsets at or past a limit.
ODD_LENGTHS = (0, 1, 15, 16, 17, 2048, 2049, 65535)
ODD_OFFSETS = (0, 1, 9, 2047, 65535)


class RandomJob:
    """A random job: its version, workers, cells and size classes, and the lines of its scripts and its plan."""

    def __init__(self, seed):
        self.pick = random.Random(seed)
        pick = self.pick
        self.version = pick.choice([1, 2])
        self.cells = pick.choice([20, 60, 120])
        self.sizes = pick.sample(SIZES, pick.choice([1, 1, 2]))
        self.scripts = [self.script() for _ in range(pick.choice([1, 1, 2, 3]))]
        first = self.first_commands()
        self.plan = ["run 0"] * len(first) + self.mixed()
        self.scripts[0] = first + self.scripts[0]

    def cell(self):
        return self.pick.randrange(self.cells)

    def length(self):
        size = self.pick.choice(self.sizes)
        return self.pick.choice(ODD_LENGTHS) if self.pick.random() < 0.05 else self.pick.randint(size // 2 + 1, size)

    def offset(self):
        return self.pick.choice(ODD_OFFSETS) if self.pick.random() < 0.1 else self.pick.randrange(100)

    def address(self):
        return f"{self.pick.randrange(0x1000, 0x20000):x}"

    def first_commands(self):
        """Makes an object for each cell, and frees many of them, so that groups can be meshed."""
        made = [f"new {cell} {self.length()} {self.pick.getrandbits(16)}" for cell in range(self.cells)]
        count = self.cells * self.pick.choice([4, 6, 8]) // 10
        return made + [f"free {cell}" for cell in self.pick.sample(range(self.cells), count)]

    def command(self):
        pick = self.pick
        kinds = {
            "new": lambda: f"{self.cell()} {self.length()} {pick.getrandbits(64)}",
            "put": lambda: f"{self.cell()} {self.offset()} {pick.randbytes(pick.choice([1, 4, 32])).hex()}",
            "get": lambda: f"{self.cell()} {self.offset()} {pick.choice([1, 8, 32])}",
            "free": lambda: f"{self.cell()}",
            "alias": lambda: f"{self.cell()} {self.cell()}",
            "addr": lambda: f"{self.cell()}",
            "peek": self.address,
            "poke": lambda: f"{self.address()} {pick.randrange(256):02x}",
            "copy": lambda: f"{self.cell()} {self.offset()} {self.cell()} {self.offset()} {pick.choice([1, 32])}",
        }
        weights = [20, 40, 12, 10, 4, 4, 3, 6, 12 if self.version == 2 else 0]
        word = pick.choices(list(kinds), weights)[0]
        return f"{word} {kinds[word]()}"

    def script(self):
        return [self.command() for _ in range(self.pick.choice([20, 80, 200]))]

    def mixed(self):
        """The lines that run all scripts, in a random order, with a mesher's calls between them."""
        runs = [f"run {worker}" for worker, script in enumerate(self.scripts) for _ in range(len(script) + 1)]
        self.pick.shuffle(runs)
        lines = []
        for run in runs:
            lines.append(run)
            while self.pick.random() < 0.5:
                lines += self.calls()
        return lines

    def calls(self):
        """A call of the mesher, or a number of steps."""
        pick = self.pick
        size = pick.choice(self.sizes)
        of_class = f" {size}" if self.version == 2 else ""
        source, destination = (pick.randrange(pick.choice([3, 6, 12])) for _ in range(2))
        words = "".join(f" {pick.getrandbits(64)}" for _ in range(pick.choice([0, 3, 32])))
        lines = {
            f"pair {size} {pick.choice([0, 1, 5, 64])}{words}": 10,
            f"begin {source} {destination}": 30,
            f"step{of_class}": 30,
            f"cancel{of_class}": 2,
            f"whole {source} {destination}": 18,
            f"sweep {source}": 5,
            "report": 5,
        }
        line = pick.choices(list(lines), lines.values())[0]
        return [line] * (pick.choice([1, 1, 2, 5, 20]) if line.startswith("step") else 1)

    def text(self):
        """The job file, in one case of ten with a changed byte."""
        pick = self.pick
        lines = [f"mesh {self.version}", f"pages {pick.choice([3, 20, 64, 200])}",
                 f"history {pick.choice([100, 5000, 5000])}", f"workers {len(self.scripts)}"]
        for worker, script in enumerate(self.scripts):
            lines += [f"worker {worker}", *script]
        text = bytearray("\n".join([*lines, "plan", *self.plan, "end", ""]).encode())
        if pick.random() < 0.1:
            text[pick.randrange(len(text))] = pick.choice(b" \n0x\x01\xffz9")
        return bytes(text)


def replayed(program, options, file):
    """The status and the outputs of a replay."""
    ran = subprocess.run([program, "replay", *options, file], capture_output=True, check=False)
    return ran.returncode, ran.stdout, ran.stderr


def built(folder):
    """Builds the plain engine in a folder. Returns the program."""
    words = ["cargo", "build", "--quiet", "--release", "--offline", "--target-dir", folder]
    if subprocess.run([*words, "--manifest-path", FOLDER / "Cargo.toml"], check=False).returncode:
        sys.exit(2)
    return f"{folder}/release/plain"


def main():
    options = [word for word in sys.argv[1:2] if word == "--echo"]
    words = dict(enumerate(sys.argv[1 + len(options):]))
    first, program = int(words.get(1, 1)), pathlib.Path(words.get(2, PROGRAM))
    if not program.exists():
        print(f"no program at {program}: run `rt ci`, or `rt run` in crates/meshrun", file=sys.stderr)
        return 2
    seeds = range(first, first + int(words.get(0, 1000)))
    differ = meshes = blocked = 0
    with tempfile.TemporaryDirectory() as folder:
        engine = built(folder)
        file = pathlib.Path(folder) / "random.job"
        for one in seeds:
            file.write_bytes(RandomJob(one).text())
            ours, plain = replayed(program, options, file), replayed(engine, options, file)
            if ours != plain:
                print(f"seed {one} differs")
                differ += 1
            answers = [line.split(b" -> ")[-1] for line in ours[1].split(b"\n")]
            meshes += sum(answer.startswith(b"meshed ") or answer == b"release left 0" for answer in answers)
            blocked += answers.count(b"blocked")
    print(f"{len(seeds)} files, {differ} differ, {meshes} meshes, {blocked} blocked stores")
    return 1 if differ else 0


if __name__ == "__main__":
    sys.exit(main())
