#!/usr/bin/env python3
"""Judges a tiny history of overlapping calls by a search over all orders, straight from the definition.

    tools/engines/linearize/orders.py FILE

FILE is a history of version 2 with at most 7 calls, or `-` for standard input. It must have a cell of its own for each
`new`. A call on a cell must begin after the end of its `new` and end before the begin of its `free`. This isn't
checked.

The output is `linearizable` with status 0, or `not linearizable` with status 1. The status is 2 for wrong arguments,
and for more than 7 calls.

A history is linearizable if some order of its calls respects real time (no call is after one that began when it had
ended) and is a legal history of version 1 of separate objects. A `new` of 1 byte or more may be refused for a fair
reason at any time. The order may leave out calls that were pending when the recording stopped. It leaves out each such
`new`, `get` and `addr`: no other call can show that it had its effect.
"""
import itertools
import sys

MOST_CALLS = 7
# The end of a call that was pending when the recording stopped.
NEVER = 2 ** 64
FAIR_REFUSALS = ("refused 2 TOO_LARGE", "refused 3 NO_PAGES", "refused 4 NO_ADDRESSES")


def calls_of_text(text):
    """The calls of a history, each a triple (begin, end, words of the command and the answer). A pending `new`, `get` or
    `addr` isn't among them."""
    calls = []
    for line in text.splitlines()[1:]:
        _, begin, end, *words = line.replace(" -> ", " ").split(" ")
        if end != "-":
            calls.append((int(begin), int(end), words))
        elif words[0] in ("put", "free"):
            calls.append((int(begin), NEVER, [*words, "done"]))
    return calls


def respects_time(order):
    """Whether no call is behind one that began after it ended."""
    return not any(later[1] < earlier[0] for earlier, later in itertools.combinations(order, 2))


class Memory:
    """Separate objects, each reached by its cell: its address, its length, and its stores, pairs (offset, bytes)."""

    def __init__(self):
        self.live = {}
        self.serials = set()

    def new(self, cell, length, _, *answer):
        if answer[0] == "refused":
            fair = FAIR_REFUSALS if int(length) else ("refused 1 ZERO",)
            return " ".join(answer) in fair
        serial, first, length = answer[1], int(answer[3], 16), int(length)
        apart = all(first + length <= other or other + size <= first for other, size, _ in self.live.values())
        if length == 0 or serial in self.serials or not apart:
            return False
        self.serials.add(serial)
        self.live[cell] = first, length, []
        return True

    def free(self, cell, *answer):
        return self.live.pop(cell, None) is not None and answer == ("done",)

    def addr(self, cell, *answer):
        return cell in self.live and answer == ("at", f"{self.live[cell][0]:x}")

    def put(self, cell, offset, data, *answer):
        if cell not in self.live:
            return False
        _, length, stored = self.live[cell]
        data = bytes.fromhex(data)
        stored.append((int(offset), data))
        return int(offset) + len(data) <= length and answer == ("done",)

    def get(self, cell, offset, count, *answer):
        if cell not in self.live:
            return False
        _, length, stored = self.live[cell]
        offset, count = int(offset), int(count)
        loaded = bytearray(count)
        for at, data in stored:
            first, end = max(at, offset), min(at + len(data), offset + count)
            if first < end:
                loaded[first - offset:end - offset] = data[first - at:end - at]
        return offset + count <= length and answer == ("bytes", loaded.hex())


def is_legal(order):
    """Whether these calls, one after the other, are a legal history of separate objects."""
    memory = Memory()
    return all(getattr(memory, word)(*fields) for _, _, (word, *fields) in order)


def is_explained(calls):
    """Whether some order of all calls respects real time and is legal."""
    return any(respects_time(order) and is_legal(order) for order in itertools.permutations(calls))


def is_linearizable(calls):
    """Whether some order of the calls that ended, and of some of the pending ones, respects real time and is legal."""
    ended, pending = ([call for call in calls if (call[1] == NEVER) == is_pending] for is_pending in (False, True))
    return any(is_explained([*ended, *some])
               for count in range(len(pending) + 1) for some in itertools.combinations(pending, count))


def main():
    if len(sys.argv) != 2:
        print("Usage: tools/engines/linearize/orders.py FILE", file=sys.stderr)
        return 2
    with sys.stdin if sys.argv[1] == "-" else open(sys.argv[1], encoding="ascii") as file:
        calls = calls_of_text(file.read())
    if len(calls) > MOST_CALLS:
        print(f"more than {MOST_CALLS} calls", file=sys.stderr)
        return 2
    found = is_linearizable(calls)
    print("linearizable" if found else "not linearizable")
    return 0 if found else 1


if __name__ == "__main__":
    sys.exit(main())
