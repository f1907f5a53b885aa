#!/usr/bin/env python3
"""Writes the three job files near 1 MiB for tools/bench/replay.sh.

    tools/bench/replay_files.py FOLDER

FOLDER gets stores.job, whole_meshes.job and stepped_meshes.job. The files are the same every time.
"""
import pathlib
import random
import sys

MOST_BYTES = 1_048_576
CELLS = 256
HEAD = "mesh {version}\npages 4096\nhistory 65536\nworkers 1\nworker 0\n"
TAIL = "end\n"


class File:
    """A job of one worker: its commands, and its plan, in which each command has a `run 0`."""

    def __init__(self, version):
        self.commands, self.plan = [], []
        self.head = HEAD.format(version=version)
        self.bytes = len(self.head) + len("plan\n") + len(TAIL)

    def command(self, line):
        self.commands.append(line)
        self.call("run 0", len(line) + 1)

    def call(self, line, more=0):
        self.plan.append(line)
        self.bytes += len(line) + 1 + more

    def has_room(self, bytes):
        return self.bytes + bytes < MOST_BYTES and len(self.commands) < 65_000

    def text(self):
        return self.head + "".join(line + "\n" for line in self.commands + ["plan"] + self.plan) + TAIL


def stores():
    """A job of many stores and loads, of objects of all classes under 256 cells."""
    pick = random.Random(1)
    file = File(1)
    lengths = {}
    while file.has_room(100):
        cell = pick.randrange(CELLS)
        if cell not in lengths or pick.random() < 0.05:
            if cell in lengths:
                file.command(f"free {cell}")
            lengths[cell] = pick.choice([16, 30, 64, 100, 256, 384, 500, 1024, 1500, 2048])
            file.command(f"new {cell} {lengths[cell]} {pick.randrange(1000)}")
        else:
            count = pick.randrange(1, 17)
            place = pick.randrange(lengths[cell] - count + 1)
            if pick.random() < 0.5:
                file.command(f"put {cell} {place} {pick.randbytes(count).hex()}")
            else:
                file.command(f"get {cell} {place} {count}")
    return file


# The number of groups of class 2048 that the cells fill, with two objects each.
GROUPS = CELLS // 2


def half_empty(file):
    """Fills groups of class 2048 from all cells, and frees one object of each, so that two neighbours have no common
    occupied slot. Returns the cells of the live objects."""
    for cell in range(CELLS):
        file.command(f"new {cell} 2048 0")
    for cell in range(CELLS):
        if cell % 4 in (0, 3):
            file.command(f"free {cell}")
    return [cell for cell in range(CELLS) if cell % 4 in (1, 2)]


def sweep(file, live, groups):
    """Frees the live objects, and sweeps these groups."""
    for cell in live:
        file.command(f"free {cell}")
    for group in groups:
        file.call(f"sweep {group}")


def rounds(file, room, mesh):
    """Half empties groups, meshes them in pairs by `mesh`, and sweeps them, while the file has room for `room` bytes.

    `mesh` gets the file, the cells of the live objects and the destinations.
    """
    first = 0
    while file.has_room(room):
        live = half_empty(file)
        destinations = range(first, first + GROUPS, 2)
        mesh(file, live, destinations)
        sweep(file, live, destinations)
        first += GROUPS
    return file


def whole_meshes():
    """A job of searches and whole meshes."""
    def mesh(file, live, destinations):
        file.call("pair 2048 2 7 1 13 2 99")
        for group in destinations:
            file.call(f"whole {group + 1} {group}")
        file.call("report")
    return rounds(File(1), 13_000, mesh)


def stepped_meshes():
    """A job of meshes step by step, with stores and loads between the steps; every fourth is cancelled once."""
    def mesh(file, live, destinations):
        for place, group in enumerate(destinations):
            source = live[2 * place + 1]
            file.call(f"begin {group + 1} {group}")
            if place % 4 == 0:
                file.call("step 2048")
                file.call("cancel 2048")
                file.call("step 2048")
                file.call(f"begin {group + 1} {group}")
            for step in range(6):
                file.call("step 2048")
                file.command(f"get {source} {step} 8")
            file.command(f"put {source} 0 {place:02x}")
    return rounds(File(2), 26_000, mesh)


def main():
    folder = pathlib.Path(sys.argv[1])
    for make in (stores, whole_meshes, stepped_meshes):
        (folder / f"{make.__name__}.job").write_text(make().text())


if __name__ == "__main__":
    main()
