#!/usr/bin/env python3
"""A witness of a wrong answer in a history of overlapping calls: another engine, to compare `check --witness` with.

    tools/engines/linearize/witnesses.py FILE [--is WITNESS]

FILE is a history of version 2 with a wrong answer, according to `reference.py`. Without WITNESS, the output is the
smallest witness: the one of the fewest lines, and of these the one with the earliest. It takes time that is
exponential in the number of loads. With WITNESS, the status is 0 if this file is a witness, and otherwise 1 with a
reason.

A witness is the first line of FILE and lines of calls in their order, of which the reference judge finds the same call
wrong. With each call it has the `new` and the `free` of its object, if these began before the wrong call ended; and
with each load each store from which the load may have a byte: some store may be the last one of the byte before the
load, unless it begins after the load has ended, or a third store of the byte lies between the two.
"""
import argparse
import itertools
import sys

import reference


def wrong_call(text):
    """The number of the first wrong call of a history, or None."""
    calls, _ = reference.calls_of_text(text)
    flaw = None if reference.first_misuse(calls) else reference.first_flaw(calls, 10**6)
    return flaw and calls.index(flaw[0])


def offsets(call, word):
    """The bytes that a call with this word accesses."""
    return reference.Accesses.range_of(call) if call.word == word else range(0)


def borders_of(call):
    """The first byte of a store and the first one behind it. Between two borders all bytes are alike."""
    return (offsets(call, "put").start, offsets(call, "put").stop) if call.word == "put" else ()


def is_between(calls, byte, store, load):
    """Whether some store of the byte begins after the first call has ended, and ends before the second begins."""
    return any(
        byte in offsets(third, "put") and third.cell == load.cell and store.end < third.begin and third.end < load.begin
        for third in calls
    )


def has_byte_of(calls, store, load):
    """Whether the load may have a byte of the store."""
    if store.cell != load.cell or load.end < store.begin:
        return False
    both = reference.common(offsets(store, "put"), offsets(load, "get"))
    borders = {both.start, *(border for third in calls for border in borders_of(third))} if both else ()
    return any(not is_between(calls, byte, store, load) for byte in borders if byte in both)


def taken_with(calls, call):
    """The numbers of the calls that a witness has with this call."""
    for number, other in enumerate(calls):
        if other.cell == call.cell and other.word in ("new", "free") or has_byte_of(calls, other, call):
            yield number


def begun(calls, wrong):
    """The calls that began before the wrong one ended."""
    return [call for call in calls if call.begin <= calls[wrong].end]


def witness_with(text, calls, chosen):
    """The text of the chosen calls and those that are taken with them, and the numbers of these."""
    taken = sorted({*chosen, *(other for number in chosen for other in taken_with(calls, calls[number]))})
    head, *rows = text.splitlines()
    return "".join(f"{row}\n" for row in [head, *(rows[number] for number in taken)]), taken


def smallest(text):
    """The smallest witness of a history with a wrong answer."""
    wrong = wrong_call(text)
    calls = begun(reference.calls_of_text(text)[0], wrong)
    others = [number for number, call in enumerate(calls) if call.word in ("get", "new") and number != wrong]
    found = []
    for count in range(len(others) + 1):
        for chosen in itertools.combinations(others, count):
            witness, taken = witness_with(text, calls, [*chosen, wrong])
            if wrong_call(witness) == taken.index(wrong):
                found.append((len(taken), taken, witness))
        if found and count >= min(found)[0]:
            break
    return min(found)[2]


def fault_of(text, witness):
    """Why a text is no witness of the wrong answer of a history, or None."""
    wrong = wrong_call(text)
    calls = begun(reference.calls_of_text(text)[0], wrong)
    head, *rows = text.splitlines()
    first, *lines = witness.splitlines()
    numbers = {row: number for number, row in enumerate(rows[:len(calls)])}
    if first != head or any(row not in numbers for row in lines):
        return "a line is none of the history's"
    taken = [numbers[row] for row in lines]
    if taken != sorted(set(taken)) or wrong not in taken:
        return "the lines are out of order, or the wrong call is missing"
    missing = {other for number in taken for other in taken_with(calls, calls[number])} - set(taken)
    if missing:
        return f"line {min(missing) + 2} of the history is missing"
    if wrong_call(witness) != taken.index(wrong):
        return "another call is wrong, or none"
    return None


def main():
    parser = argparse.ArgumentParser(description="Finds or checks a witness of a wrong answer.")
    parser.add_argument("file", metavar="FILE", help="a history of version 2 with a wrong answer")
    parser.add_argument("--is", dest="witness", metavar="WITNESS", help="the witness to check")
    words = parser.parse_args()
    with open(words.file, encoding="ascii") as file:
        text = file.read()
    if wrong_call(text) is None:
        sys.exit(f"{words.file}: no call has a wrong answer")
    if words.witness is None:
        print(end=smallest(text))
        return 0
    with open(words.witness, encoding="ascii") as file:
        fault = fault_of(text, file.read())
    if fault:
        print(fault)
    return 1 if fault else 0


if __name__ == "__main__":
    sys.exit(main())
