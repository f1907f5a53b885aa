#!/usr/bin/env python3
"""Judges a history of overlapping calls: another engine, to compare `meshrun check` with.

    tools/engines/linearize/reference.py FILE [--configurations N]

FILE is a history of version 2, or `-` for standard input. The text must be well-formed, except for the order of its
lines. At most N configurations of an object, by default 100,000, are visited at the end of one call.

The output is the verdict in one line: the first flaw in the order of ends, and at equal ends in the order of lines; or
the first call that breaks a rule of use, if the call at whose begin this is certain begins no later than that end. The
status is 0 if there is neither, 3 if there is one, and 4 if the configurations don't suffice. A fault of the order of
lines has status 2, and `line L: ORDER` on standard error.

Each object is judged by itself (Herlihy and Wing: linearizability is local). Its calls are taken forward in time, with
a heap of pending ends. Its configurations are kept: pairs of its bytes and of the set of pending calls that had their
effect. When a call ends, each configuration is carried on by effects of pending calls until the call that ends had its
own (Lowe's just-in-time linearization); those in which it can't have it are dropped.

A call that was pending when the recording stopped never ends. It may have had its effect or not.

`new` and `free` need no search: an object has its addresses at least from the END of its `new` to the BEGIN of its
`free`.
"""
import argparse
import bisect
import collections
import dataclasses
import heapq
import sys

CELL_AGAIN = "cell again"
NOT_AFTER_NEW = "not after its new"
NOT_BEFORE_FREE = "not before its free"
OUTSIDE = "refused 7 OUTSIDE"
# The end of a call that was pending when the recording stopped. It is after the end of any other call.
NEVER = 2 ** 64
FAIR_REFUSALS = ("refused 2 ", "refused 3 ", "refused 4 ")


@dataclasses.dataclass(eq=False, slots=True)
class Call:
    """One line of a history. The fields are those behind the cell."""
    line: int
    worker: int
    begin: int
    end: int
    word: str
    cell: int
    fields: list
    answer: str


@dataclasses.dataclass(eq=False, slots=True)
class Object:
    """An object, the call that made it, and the range of its addresses."""
    call: Call
    serial: int
    first: int
    length: int


# ---- The text ----

class OrderFault(Exception):
    """The number of a line that begins too early."""


def pending_call(line, entry):
    """The call of a line `W BEGIN - COMMAND`. Of the answers that it might have had, only that of a store matters."""
    worker, begin, _, word, cell, *fields = entry.split(" ")
    answer = "done" if word in ("put", "free") else ""
    return Call(line, int(worker), int(begin), NEVER, word, int(cell), fields, answer)


def call_of_line(line, entry):
    """The call of one line of the text."""
    if entry.split(" ")[2] == "-":
        return pending_call(line, entry)
    command, answer = entry.split(" -> ")
    worker, begin, end, word, cell, *fields = command.split(" ")
    return Call(line, int(worker), int(begin), int(end), word, int(cell), fields, answer)


def calls_of_text(text):
    """The calls of a history up to a fault of the order, and that fault or None."""
    head, *lines = text.splitlines()
    if head != "history 2":
        sys.exit("no history of version 2")
    calls, last_begin, last_ends = [], 0, {}
    for line, entry in enumerate(lines, 2):
        call = call_of_line(line, entry)
        if call.begin < last_begin or call.begin <= last_ends.get(call.worker, -1) or call.end < call.begin:
            return calls, OrderFault(line)
        last_begin, last_ends[call.worker] = call.begin, call.end
        calls.append(call)
    return calls, None


# ---- Time ----

def moments(calls):
    """The begins and ends of calls in time, as pairs (whether it is a begin, call). Calls that were pending when the
    recording stopped have no end.

    At one moment begins come before ends, begins and ends each in the order of lines.
    """
    pending = []
    for call in calls:
        while pending and pending[0][0] < call.begin:
            yield False, heapq.heappop(pending)[2]
        yield True, call
        heapq.heappush(pending, (call.end, call.line, call))
    while pending and pending[0][0] < NEVER:
        yield False, heapq.heappop(pending)[2]


# How many possible answers are named.
MOST_NAMED = 8


def listed(possible):
    """Possible answers as a text: the first of them in their order, and two dots if there are more."""
    return " | ".join(sorted(possible)[:MOST_NAMED] + [".."] * (len(possible) > MOST_NAMED))


def unexplained(answer, possible, made=None):
    """The reason of a call whose answer is none of the possible ones. Loads are those of a load behind all others. For
    an access, `made` is its object."""
    last = " if it took effect last" if possible and all(one.startswith("bytes ") for one in possible) else ""
    of = f" of object {made.serial} in cell {made.call.cell}, made at line {made.call.line}" if made else ""
    return f"no order explains {answer}{of}; possible{last}: {listed(possible)}"


# ---- The calls that make objects ----

def object_of_new(call):
    """The object that a `new` made, or None if it was refused."""
    words = call.answer.split(" ")
    if words[0] != "object":
        return None
    return Object(call, int(words[1]), int(words[3], 16), int(call.fields[0]))


def flaw_of_answer(call):
    """The reason why the answer of a `new` doesn't fit its length, or None."""
    if int(call.fields[0]) == 0:
        return None if call.answer == "refused 1 ZERO" else unexplained(call.answer, ["refused 1 ZERO"])
    if call.answer.startswith("object ") or call.answer.startswith(FAIR_REFUSALS):
        return None
    return unexplained(call.answer, ["object"])


class Ranges:
    """The ranges of the objects of which no `free` has begun. They have no address in common."""

    def __init__(self):
        self.firsts = []
        self.objects = []

    def overlapped(self, new):
        """The object with the greatest address that has an address in the range of a new one, or None."""
        place = bisect.bisect_left(self.firsts, new.first + new.length)
        if place == 0:
            return None
        below = self.objects[place - 1]
        return below if below.first + below.length > new.first else None

    def add(self, new):
        place = bisect.bisect_left(self.firsts, new.first)
        self.firsts.insert(place, new.first)
        self.objects.insert(place, new)

    def remove(self, old):
        place = bisect.bisect_left(self.firsts, old.first)
        del self.firsts[place], self.objects[place]


class News:
    """What is known of the calls of `new` that have ended, and of the calls of `free` that have begun."""

    def __init__(self):
        self.serials = set()
        self.freed = set()
        self.ranges = Ranges()
        self.object_of_cell = {}

    def free_begins(self, call):
        if call.cell in self.object_of_cell and call.cell not in self.freed:
            self.ranges.remove(self.object_of_cell[call.cell])
        self.freed.add(call.cell)

    def new_ends(self, call):
        """Takes the end of a `new`; its reason if it has a flaw, or None."""
        made = object_of_new(call)
        return flaw_of_answer(call) or (made and self.flaw_of_object(made))

    def flaw_of_object(self, made):
        """Takes an object; the reason if its serial or its range has a flaw, or None."""
        if made.serial in self.serials:
            return "serial again"
        other = self.ranges.overlapped(made)
        if other:
            return f"overlaps object {other.serial}, made at line {other.call.line}"
        self.serials.add(made.serial)
        self.object_of_cell[made.call.cell] = made
        if made.call.cell not in self.freed:
            self.ranges.add(made)
        return None


def first_flaw_of_news(calls):
    """The first flaw of a `new`, as a pair (call, reason), or None."""
    news = News()
    for is_begin, call in moments(call for call in calls if call.word in ("new", "free")):
        if is_begin and call.word == "free":
            news.free_begins(call)
        elif not is_begin and call.word == "new":
            reason = news.new_ends(call)
            if reason:
                return call, reason
    return None


# ---- The calls of one object ----

def common(one, other):
    """The range that two ranges have in common, which is empty if they don't meet."""
    return range(max(one.start, other.start), min(one.stop, other.stop))


def joined(ranges):
    """The offsets of some ranges as ranges that don't meet, in their order."""
    found = []
    for one in sorted(ranges, key=lambda one: one.start):
        if found and one.start <= found[-1].stop:
            found[-1] = range(found[-1].start, max(found[-1].stop, one.stop))
        else:
            found.append(one)
    return found


class Accesses:
    """The configurations of one object.

    The bytes of a configuration are those at the offsets that any store names: all others are zero. `blocks` are the
    ranges of these offsets, each with the place of its first byte.
    """

    def __init__(self, made, puts, limit):
        self.made = made
        self.limit = limit
        self.blocks, place = [], 0
        for block in joined(self.range_of(put) for put in puts if self.is_inside(put)):
            self.blocks.append((block, place))
            place += len(block)
        self.kept = {(bytes(place), frozenset())}
        self.pending = []

    @staticmethod
    def range_of(call):
        """The offsets that a `put` or a `get` names."""
        first, what = int(call.fields[0]), call.fields[1]
        return range(first, first + (len(what) // 2 if call.word == "put" else int(what)))

    def is_inside(self, call):
        return self.range_of(call).stop <= self.made.length

    def bytes_loaded(self, call, state):
        """The bytes that a `get` loads."""
        whole = self.range_of(call)
        loaded = bytearray(len(whole))
        for block, place in self.blocks:
            part = common(block, whole)
            if part:
                at = place + part.start - block.start
                loaded[part.start - whole.start:part.stop - whole.start] = state[at:at + len(part)]
        return bytes(loaded)

    def answer(self, call, state):
        """The answer to a call that has its effect on these bytes."""
        if call.word == "addr":
            return f"at {self.made.first:x}"
        if not self.is_inside(call):
            return OUTSIDE
        return "done" if call.word == "put" else f"bytes {self.bytes_loaded(call, state).hex()}"

    def effect(self, call, state):
        """The bytes after the effect of a call that was answered as these bytes have it. The range of a store is in one
        block."""
        if call.word != "put" or not self.is_inside(call):
            return state
        first, data = int(call.fields[0]), bytes.fromhex(call.fields[1])
        at = next(place + first - block.start for block, place in self.blocks if first in block)
        return state[:at] + data + state[at + len(data):]

    def met_at_end(self, ending):
        """The kept configurations and what effects of pending calls make of them, up to that of the call that ends.
        It stops behind the limit."""
        met, left = set(self.kept), list(self.kept)
        while left and len(met) <= self.limit:
            state, done = left.pop()
            if ending.line in done:
                continue
            for call in self.pending:
                if call.line in done or self.answer(call, state) != call.answer:
                    continue
                configuration = self.effect(call, state), done | {call.line}
                if configuration not in met:
                    met.add(configuration)
                    left.append(configuration)
        return met

    def begin(self, call):
        self.pending.append(call)

    def end(self, ending):
        """Takes the end of a call; its reason if it has a flaw, or None."""
        met = self.met_at_end(ending)
        if len(met) > self.limit:
            return f"more than {self.limit} configurations"
        self.pending.remove(ending)
        self.kept = {(state, done - {ending.line}) for state, done in met if ending.line in done}
        if self.kept:
            return None
        return unexplained(ending.answer, {self.answer(ending, state) for state, _ in met}, self.made)


def first_flaw_of_cell(calls, limit):
    """The first flaw of an access, of the calls of one cell that break no rule, as a pair (call, reason), or None."""
    accesses = None
    for is_begin, call in moments(calls):
        if call.word == "new" and not is_begin:
            made = object_of_new(call)
            accesses = made and Accesses(made, [call for call in calls if call.word == "put"], limit)
        elif call.word in ("new", "free"):
            continue
        elif is_begin:
            accesses.begin(call)
        else:
            reason = accesses.end(call)
            if reason:
                return call, reason
    return None


# ---- The rules of use ----

@dataclasses.dataclass(slots=True)
class Misuse:
    """A call that breaks a rule of use, and which; and how many calls begin before the one at whose begin this is
    certain."""
    call: Call
    reason: str
    before: int


def misuse_at_begin(call, earlier):
    """The call that breaks a rule as `call` begins, and the rule, or None. `earlier` are the calls of its cell that began
    before; none of them breaks a rule."""
    if call.word == "new":
        return (call, CELL_AGAIN) if any(other.word == "new" for other in earlier) else None
    if any(other.word == "free" for other in earlier):
        return call, NOT_BEFORE_FREE
    if not any(object_of_new(other) and other.end < call.begin for other in earlier if other.word == "new"):
        return call, NOT_AFTER_NEW
    if call.word != "free":
        return None
    pending = [other for other in earlier if other.word != "new" and other.end >= call.begin]
    return (min(pending, key=lambda other: (other.end, other.line)), NOT_BEFORE_FREE) if pending else None


def first_misuse(calls):
    """The first call that breaks a rule of use, or None."""
    of_cell = collections.defaultdict(list)
    for before, call in enumerate(calls):
        found = misuse_at_begin(call, of_cell[call.cell])
        if found:
            return Misuse(*found, before)
        of_cell[call.cell].append(call)
    return None


# ---- The verdict ----

def first_flaw(calls, limit):
    """The first flaw of a history, in the order of ends, as a pair (call, reason), or None."""
    cells = collections.defaultdict(list)
    for call in calls:
        cells[call.cell].append(call)
    flaws = [first_flaw_of_news(calls)] + [first_flaw_of_cell(of_cell, limit) for of_cell in cells.values()]
    return min(filter(None, flaws), key=lambda flaw: (flaw[0].end, flaw[0].line), default=None)


def verdict_of_flaw(flaw):
    """The line that reports a flaw."""
    call, reason = flaw
    return f"{'undecided at ' if reason.startswith('more than ') else ''}line {call.line}: {reason}"


def judged(text, limit):
    """The verdict on a history, as a triple (status, line of standard output, line of standard error).

    Calls are judged as lines are read: where a line begins too early, a flaw of a call that ended before the last right
    line began is reported instead.
    """
    calls, fault = calls_of_text(text)
    misuse = first_misuse(calls)
    flaw = first_flaw(calls[:misuse.before] if misuse else calls, limit)
    if misuse and not (flaw and flaw[0].end < calls[misuse.before].begin):
        return 3, f"line {misuse.call.line}: no history: {misuse.reason}", None
    if fault and not (flaw and flaw[0].end < calls[-1].begin):
        return 2, None, f"line {fault.args[0]}: ORDER"
    if flaw:
        verdict = verdict_of_flaw(flaw)
        return 4 if verdict.startswith("undecided") else 3, verdict, None
    return 0, f"linearizable {len(calls)} entries", None


def main():
    parser = argparse.ArgumentParser(description="Judges a history of overlapping calls.")
    parser.add_argument("file", metavar="FILE", help="a history of version 2, `-` for standard input")
    parser.add_argument("--configurations", metavar="N", type=int, default=100000, help="how many of an object are met")
    words = parser.parse_args()
    with sys.stdin if words.file == "-" else open(words.file, encoding="ascii") as file:
        status, verdict, fault = judged(file.read(), words.configurations)
    print(*filter(None, [verdict, fault]), file=sys.stderr if fault else sys.stdout)
    return status


if __name__ == "__main__":
    sys.exit(main())
