#!/usr/bin/env python3
"""Writes the job files for tools/bench/lock.sh: the same commands for 1, 2 and 4 workers.

    tools/bench/lock_files.py FOLDER

FOLDER gets workers_1.job, workers_2.job and workers_4.job; and reads_1.job, reads_2.job and reads_4.job, whose commands
are only loads once their objects are made. The files are the same every time.

The commands are in four parts, each with root cells of its own. A file's workers share the parts, and its plan makes
all commands in one order, which is the same in all three files of a kind.
"""
import pathlib
import random
import sys

PARTS = 4
COMMANDS = 8_000
CELLS = 256 // PARTS
LENGTHS = [16, 30, 64, 100, 256, 384, 500, 1024, 1500, 2048]


def part(number):
    """The commands of a part: `new`, `put`, `get`, `addr` and `free` of objects of all classes."""
    pick = random.Random(number)
    lengths = {}
    lines = []
    while len(lines) < COMMANDS:
        cell = CELLS * number + pick.randrange(CELLS)
        if cell not in lengths:
            lengths[cell] = pick.choice(LENGTHS)
            lines.append(f"new {cell} {lengths[cell]} {pick.randrange(1000)}")
            continue
        kind = pick.random()
        count = pick.randrange(1, 9)
        place = pick.randrange(lengths[cell] - count + 1)
        if kind < 0.1:
            del lengths[cell]
            lines.append(f"free {cell}")
        elif kind < 0.45:
            lines.append(f"put {cell} {place} {pick.randbytes(count).hex()}")
        elif kind < 0.8:
            lines.append(f"get {cell} {place} {count}")
        else:
            lines.append(f"addr {cell}")
    return lines


def reads(number):
    """The commands of a part of loads: a `new` for each cell, and then `get` and `addr`."""
    pick = random.Random(PARTS + number)
    cells = range(CELLS * number, CELLS * (number + 1))
    lengths = {cell: pick.choice(LENGTHS) for cell in cells}
    lines = [f"new {cell} {lengths[cell]} 0" for cell in cells]
    while len(lines) < COMMANDS:
        cell = pick.choice(cells)
        count = pick.randrange(1, 9)
        if pick.random() < 0.8:
            lines.append(f"get {cell} {pick.randrange(lengths[cell] - count + 1)} {count}")
        else:
            lines.append(f"addr {cell}")
    return lines


def job(parts, workers):
    """The job of these parts on this number of workers; part p is worker p mod workers'."""
    lines = ["mesh 1", "pages 4096", "history 65536", f"workers {workers}"]
    for worker in range(workers):
        lines.append(f"worker {worker}")
        for commands in zip(*parts[worker::workers]):
            lines += commands
    lines.append("plan")
    lines += [f"run {number % workers}" for _ in range(COMMANDS) for number in range(PARTS)]
    lines.append("end")
    return "".join(line + "\n" for line in lines)


def main():
    folder = pathlib.Path(sys.argv[1])
    for kind, part_of in (("workers", part), ("reads", reads)):
        parts = [part_of(number) for number in range(PARTS)]
        for workers in (1, 2, 4):
            (folder / f"{kind}_{workers}.job").write_text(job(parts, workers))


if __name__ == "__main__":
    main()
