"""Random histories of calls that overlap, and histories of many calls that are pending at once."""

import collections
import pathlib
import random
import sys

from cli.check import order
from cli.suite import NOTHING, line, lines

sys.path.append(str(pathlib.Path(__file__).resolve().parents[2] / "engines/linearize"))
import compare
import orders
import random_histories
import reference
import witnesses

TINY = 1000
WITNESSED = 250
LEAST = 100
IN_ORDER, WITHOUT_ORDER, NO_HISTORY = "linearizable", "without order", "no histories"


def cases(suite):
    tiny_histories(suite)
    witnesses_of_random(suite)
    source = random.Random(2026)
    for number in range(60):
        history = suite.write("random.history", lines(ordered_calls(source)))
        order(suite, f"check --order: random history {number}", history)
    pending(suite)
    possible_loads(suite)


def tiny_histories(suite):
    """Random histories of up to 5 calls, every tenth with long accesses. Searches over all orders find the same first
    wrong call, or broken rule."""
    source = random.Random(2026)
    counts, faults = collections.Counter(), []
    for number in range(TINY):
        text = lines(["history 2", *tiny_calls(source)])
        if number % 10 == 0:
            text = random_histories.lengthened(text.decode(), random.Random(number)).encode()
        kind, recorded = kind_of(text.decode()), reference.calls_of_text(text.decode())[0]
        counts[kind] += 1
        run = suite.run("check", suite.write("tiny.history", text))
        verdict = run.output.decode().rstrip("\n")
        differs = compare.difference_of_none if kind == NO_HISTORY else compare.difference
        told = differs(recorded, verdict)
        if told or (run.status, run.errors) != (0 if kind == IN_ORDER else 3, b""):
            faults.append(f"{number}, {text[:400]}: {kind}, {verdict[:200]}, {told}")
    few = [f"{counts[kind]} {kind}" for kind in (IN_ORDER, WITHOUT_ORDER, NO_HISTORY) if counts[kind] <= LEAST]
    suite.report(f"overlaps: {TINY} random histories, as all orders of each have it", faults[:3] + few)


def witnesses_of_random(suite):
    """Random histories of which some have a wrong answer, and every fifth has long accesses. Each of the wrong ones has
    a witness, and another engine takes it."""
    source = random.Random(7)
    wrong, faults, many = 0, [], 0
    for number in range(WITNESSED):
        text = lines(["history 2", *random_accesses(source)])
        if number % 5 == 0:
            text = random_histories.lengthened(text.decode(), random.Random(number)).encode()
        if witnesses.wrong_call(text.decode()) is None:
            continue
        wrong += 1
        run = suite.run("check", suite.write("wrong.history", text), "--witness")
        witness = run.output.decode()
        told = witnesses.fault_of(text.decode(), witness) if witness.startswith("history 2\n") else witness
        many += len(witness.splitlines()) > len(witnesses.smallest(text.decode()).splitlines())
        if told or (run.status, run.errors) != (3, b""):
            faults.append(f"{number}, {text[:2000]}: {told}")
    few = [f"{wrong} with a wrong answer"] if wrong <= LEAST else []
    more = [f"{many} of {wrong} witnesses aren't the smallest"] if many * 10 > wrong else []
    suite.report(f"check --witness: {wrong} random histories with a wrong answer", faults[:3] + few + more)


def random_accesses(source):
    """The lines of a history of 14 random accesses to two objects of 3 bytes. Each has its effect at a moment of its own,
    but some loads return other bytes."""
    stored = {0: [0] * 3, 1: [0] * 3}
    calls = [(0, 1, 0, "new 0 3 0 -> object 5 at 1000"), (2, 3, 0, "new 1 3 0 -> object 6 at 2000")]
    for worker in range(1, 15):
        moment, cell = 40 + 10 * worker, source.choice((0, 0, 0, 1))
        offset, count = source.randrange(2), source.randint(1, 2)
        if source.randrange(2):
            stored[cell][offset:offset + count] = [source.randrange(3)] * count
            deed = f"put {cell} {offset} {f'{stored[cell][offset]:02x}' * count} -> done"
        else:
            wrong = source.randrange(6) == 0
            loaded = [source.randrange(3) if wrong else byte for byte in stored[cell][offset:offset + count]]
            deed = f"get {cell} {offset} {count} -> bytes {bytes(loaded).hex()}"
        calls.append((moment - source.randrange(30), moment + source.randrange(30), worker, deed))
    return [f"{worker} {begin} {end} {deed}" for begin, end, worker, deed in sorted(calls)]


def tiny_calls(source):
    """The lines of 1 to 5 random calls on the objects of two cells. Cells, serials and offsets are 0 or 1."""
    made, now = set(), 0
    for worker in range(source.randint(1, 5)):
        cell = source.choice((0, 0, 1))
        deed = random_new(source, cell) if cell not in made or source.randrange(16) == 0 else random_call(source, cell)
        made.add(cell)
        yield f"{worker} {now} {now + source.randrange(4)} {deed}"
        now += source.randrange(4)


def random_new(source, cell):
    """A `new` of one or two bytes, at one of four addresses."""
    serial = source.choice((0, *[cell] * 7))
    return f"new {cell} {source.randint(1, 2)} 0 -> object {serial} at 100{source.randrange(4)}"


def random_call(source, cell):
    """A `free`, a store or a load."""
    offset, byte = source.choice((0, 0, 0, 1)), source.randrange(2)
    store, load = f"put {cell} {offset} {byte}{byte} -> done", f"get {cell} {offset} 1 -> bytes {byte}{byte}"
    return source.choice((f"free {cell} -> done", *[store] * 3, *[load] * 3))


def kind_of(text):
    """What a search over all orders finds of a history."""
    if not compare.is_history(reference.calls_of_text(text)[0]):
        return NO_HISTORY
    return IN_ORDER if orders.is_linearizable(orders.calls_of_text(text)) else WITHOUT_ORDER


def ordered_calls(source):
    """The lines of a history of 40 random calls on an object of 4 bytes. Each has its effect at a moment of its own."""
    calls, stored = [], [0] * 4
    for worker in range(1, 41):
        moment = 100 + 10 * worker
        offset, word = source.randrange(4), source.choice(("put", "get", "addr"))
        if word == "put":
            stored[offset] = source.randrange(4)
        deed = {
            "put": f"put 0 {offset} {stored[offset]:02x} -> done",
            "get": f"get 0 {offset} 1 -> bytes {stored[offset]:02x}",
            "addr": "addr 0 -> at 1000",
        }[word]
        calls.append((moment - source.randrange(30), moment + source.randrange(30), worker, deed))
    made = "0 0 1 new 0 4 9 -> object 5 at 1000"
    return ["history 2", made, *(f"{worker} {begin} {end} {deed}" for begin, end, worker, deed in sorted(calls))]


def pending(suite):
    """As many accesses of an object as may be pending at once, and one more."""
    made = ["history 2", "0 0 1 new 0 2 0 -> object 5 at 1000"]
    addresses = [f"{worker} 2 9 addr 0 -> at 1001" for worker in range(1, 66)]
    store = "0 2 9 put 0 0 07 -> done"
    loads = [f"{worker} 3 8 get 0 0 1 -> bytes 07" for worker in range(1, 65)]
    wrong = "line 3: no order explains at 1001 of object 5 in cell 0, made at line 2; possible: at 1000"
    undecided = "undecided at line 67: more than 64 pending accesses to one object"
    for name, calls, verdict, *words in (
        ("64 pending calls with a wrong answer", addresses[:-1], wrong),
        ("65 pending calls with a wrong answer", addresses, undecided),
        ("65 pending accesses", [store, *loads], undecided),
        ("65 pending accesses in an order", [store, *loads], undecided, "--order"),
    ):
        history = suite.write("pending.history", lines([*made, *calls]))
        status = 4 if verdict == undecided else 3
        suite.check(f"overlaps: {name}", status, line(verdict), NOTHING, "check", history, *words)


def possible_loads(suite):
    """The least bytes that a load may have among pending stores: 8 of them, and dots for more."""
    named = " | ".join(f"bytes 0{byte}" for byte in range(8))
    for stores, more in ((7, ""), (9, " | ..")):
        rows = ["history 2", "0 0 1 new 0 2 0 -> object 5 at 1000"]
        rows += [f"{worker} 2 9 put 0 0 0{worker} -> done" for worker in range(1, stores + 1)]
        history = suite.write("loads.history", lines([*rows, "99 3 4 get 0 0 1 -> bytes ff"]))
        of = "of object 5 in cell 0, made at line 2"
        wanted = line(f"line {stores + 3}: no order explains bytes ff {of}; possible if it took effect last: {named}{more}")
        suite.check(f"overlaps: a load among {stores} pending stores", 3, wanted, NOTHING, "check", history)
