#!/usr/bin/env python3
"""Compares the modes of the plain engine in this folder with each other and with the engine in Python.

    tools/engines/overlaps/compare.py [COUNT [SEED [PROGRAM]]]

COUNT is the number of histories, by default 1,000, and SEED the first seed, by default 1. PROGRAM is a built `meshrun`,
which is compared too if it is given. The histories are random. Those with an even seed are of random_histories.py; most
have 2 to 9 calls, and some 60, of 2 to 8 threads. The others have 3 to 9 accesses to one object of a few bytes, which
race, and in half of them answers are changed. In half of all histories, last calls of threads were pending when the
recording stopped. One in six has accesses of up to 4,096 bytes.

Each program must print the same verdict as tools/engines/linearize/reference.py, with the same status. The engine in
mode `plain` must do so with at most three configurations too. PROGRAM, which meets no more than the engine in mode
`inside`, must then print what the engine prints in this mode; if the engine is undecided, PROGRAM may have a verdict,
which must be the one without the bound.

Each difference is a line of the output, and the last line counts the verdicts by kind. The status is 1 if there is a
difference, if a kind never came up, if no call was pending or if no access had more than 32 bytes, and 2 if the engine
can't be compiled. It needs a C++ compiler (CXX, by default g++).
"""
import collections
import os
import pathlib
import random
import re
import subprocess
import sys
import tempfile

HERE = pathlib.Path(__file__).resolve().parent
sys.path.append(str(HERE.parent / "linearize"))
import random_histories
import reference

MODES = ("plain", "reads", "inside", "parts", "serves")
KINDS = ("linearizable", "no order explains bytes", "overlaps", "no history", "undecided", " | ")
LIMIT, FEW = 100000, 3
LONG_ACCESS = re.compile(" [0-9a-f]{66}")
BOUND = ["--configurations", str(FEW)]


def history(seed):
    """The text of the history of a seed."""
    text = finished_history(seed)
    if seed // 4 % 6 == 5:
        text = random_histories.lengthened(text, random.Random(seed))
    return with_pending(random.Random(seed), text) if seed // 2 % 2 == 1 else text


def with_pending(source, text):
    """The history in which some of the last calls of threads were pending when the recording stopped."""
    head, *lines = text.splitlines()
    last = {line.split(" ")[0]: place for place, line in enumerate(lines)}
    for place in last.values():
        if place > 0 and source.random() < 0.4:
            worker, begin, _, *command = lines[place].split(" -> ")[0].split(" ")
            lines[place] = " ".join([worker, begin, "-", *command])
    return "\n".join([head, *lines, ""])


def finished_history(seed):
    """The history of a seed in which each call has ended."""
    if seed % 2 == 1:
        return races(random.Random(seed))
    return random_histories.history(seed, 60 if seed % 9 == 0 else 2 + seed // 2 % 8, 2 + seed // 2 % 7)


def races(source):
    """A history of accesses to one object, each of a thread of its own."""
    length = source.randint(1, 6)
    begins = sorted(source.randint(2, 9) for _ in range(source.randint(3, 9)))
    calls = [[begin, begin + source.randrange(7), *random_access(source, length)] for begin in begins]
    stored, are_changed = bytearray(length), source.random() < 0.5
    for call in sorted(calls, key=lambda call: source.uniform(call[0], call[1])):
        call[-1] = answer(source, stored, *call[2:-1], are_changed and source.random() < 0.4)
    lines = [f"{worker} {' '.join(map(str, call[:-1]))} -> {call[-1]}" for worker, call in enumerate(calls)]
    return "\n".join(["history 2", f"99 0 1 new 0 {length} 0 -> object 0 at 1000", *lines, ""])


def random_access(source, length):
    """The fields of a store, a load or a request of the address, and room for the answer. A few ranges end past the
    object's end."""
    word = source.choices(("put", "get", "addr"), (6, 6, 1))[0]
    if word == "addr":
        return [word, 0, None]
    first = source.randrange(length)
    count = source.randint(1, min(4, length - first + (source.random() < 0.02)))
    data = bytes(source.choices(random_histories.ALPHABET, k=count)).hex()
    return [word, 0, first, count if word == "get" else data, None]


def answer(source, stored, word, _, first=0, what=None, is_changed=False):
    """The answer of an access that has its effect now, or another one."""
    if word == "addr":
        return "at 1001" if is_changed else "at 1000"
    if word == "put":
        data = bytes.fromhex(what)
        stored[first:first + len(data)] = data[:len(stored) - first]
        return "done"
    data = bytearray(stored[first:first + what].ljust(what, b"\0"))
    if is_changed:
        data[source.randrange(what)] = source.choice(random_histories.ALPHABET)
    return f"bytes {data.hex()}"


def told(status, verdict, fault):
    """A verdict as one text, with its status."""
    return f"{status}: {verdict or fault}"


def run(command):
    """What a program prints, with its status."""
    ran = subprocess.run(command, capture_output=True, text=True, check=False)
    return told(ran.returncode, ran.stdout.strip(), ran.stderr.strip())


def commands(engine, program, path):
    """The programs that must print the verdict, and those that must print it with few configurations."""
    ours = [[engine, path, "--mode", mode] for mode in MODES]
    theirs = [[program, "check", path]] if program else []
    return ours + theirs, [ours[0] + BOUND]


def differences(seed, text, kinds, engine, program, path):
    """Lines about the programs that print something else than the engine in Python."""
    path.write_text(text, encoding="ascii")
    for limit, compared in zip((LIMIT, FEW), commands(engine, program, path)):
        wanted = told(*reference.judged(text, limit))
        kinds.update(kind for kind in KINDS if kind in wanted)
        for command in compared:
            if (printed := run(command)) != wanted:
                yield f"seed {seed}: {printed}, but {wanted}: {' '.join(map(str, command[:1] + command[2:]))}"
    if program:
        inside = run([engine, path, "--mode", "inside", *BOUND])
        decided = told(*reference.judged(text, LIMIT)) if "undecided" in inside else inside
        printed = run([program, "check", path, *BOUND])
        if printed not in (inside, decided) and not ("undecided" in inside and "undecided" in printed):
            yield f"seed {seed}: {printed}, but {inside}: {program} with {FEW} configurations"


def main():
    count, first = [int(word) for word in sys.argv[1:3]] + [1000, 1][len(sys.argv[1:3]):]
    program = sys.argv[3] if len(sys.argv) > 3 else None
    kinds, differing, pending, long = collections.Counter(), 0, 0, 0
    with tempfile.TemporaryDirectory() as room:
        engine, path = f"{room}/engine", pathlib.Path(room) / "random.history"
        compiler = [os.environ.get("CXX", "g++"), "-O2", "-std=c++17", "-static", "-o", engine]
        if subprocess.run([*compiler, HERE / "reference.cpp"], check=False).returncode != 0:
            return 2
        for seed in range(first, first + count):
            text = history(seed)
            pending += " - " in text
            long += LONG_ACCESS.search(text) is not None
            for line in differences(seed, text, kinds, engine, program, path):
                differing += 1
                print(line, flush=True)
    named = ", ".join(f"{kinds[kind]} {kind}" for kind in KINDS)
    print(f"{count} histories, {pending} with pending calls, {long} with long accesses, {differing} differences: {named}")
    return 0 if differing == 0 and pending and long and all(kinds[kind] for kind in KINDS) else 1


if __name__ == "__main__":
    sys.exit(main())
