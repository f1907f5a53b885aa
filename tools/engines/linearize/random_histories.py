#!/usr/bin/env python3
"""Prints a random history of overlapping calls that is linearizable or nearly so.

    tools/engines/linearize/random_histories.py SEED [--calls N] [--threads T] [--right] [--long]

N is by default 200, and T 4. The same arguments give the same history.

Threads make calls on separate objects. Each call has its effect at a moment between its BEGIN and its END, and its
answer is for the objects at that moment. With --right this history is printed. Without it, three of four histories are
changed: in one answer, one address, one serial, one time, or the clock of one thread from one of its calls on.

Accesses have 1 to 4 bytes. With --long some have up to 4,096: the first bytes of objects become runs of equal bytes.
Without --right, a byte of a load is changed in half of these histories.

The output is always a history of version 2, but with a changed time a call may, for example, end after the begin of its
object's `free`.
"""
import argparse
import dataclasses
import heapq
import random
import sys

ALPHABET = (0x00, 0x11, 0x22)
# How many bytes an access may have, and how many bytes of an object become runs.
MOST_BYTES = 4096
MOST_RUNS = 8
BEGIN, EFFECT, END = range(3)
UNFAIR = "refused 1 ZERO"
FAIR = ("refused 2 TOO_LARGE", "refused 3 NO_PAGES", "refused 4 NO_ADDRESSES")


@dataclasses.dataclass(eq=False)
class Object:
    """An object: its cell, the range of its addresses, its bytes, and how long it is used."""
    cell: int
    length: int
    serial: int = 0
    first: int = None
    stored: bytearray = None
    made: int = None
    used: int = -1
    freed: bool = False


@dataclasses.dataclass(eq=False)
class Call:
    """A call of a thread on an object; `fields` are those behind the cell."""
    thread: int
    begin: int
    end: int
    word: str
    object: Object
    fields: list
    answer: str = None

    def line(self):
        command = " ".join(map(str, [self.word, self.object.cell, *self.fields]))
        return f"{self.thread} {self.begin} {self.end} {command} -> {self.answer}"


# ---- Right histories ----

class Threads:
    """Threads that make calls, moment by moment. Small histories have few and short objects, so that calls race."""

    def __init__(self, rng, calls, threads):
        self.rng = rng
        self.left = calls
        self.calls = []
        self.objects = []
        self.cells = 0
        self.serials = 0
        self.most_objects = 1 + rng.randrange(2) if calls < 10 else 4
        self.most_length = rng.choice((1, 2, 4, 8)) if calls < 10 else 40
        self.arena = 3 * self.most_length * self.most_objects
        self.longest = rng.choice((2, 5, 12))
        self.moments = []
        for thread in range(threads):
            self.push(rng.randrange(4), BEGIN, thread)

    def push(self, time, kind, what):
        """At one moment begins come before effects, and effects before ends, each in a random order."""
        heapq.heappush(self.moments, (time, kind, self.rng.random(), len(self.moments), what))

    def run(self):
        """The calls in the order of their begins."""
        while self.moments:
            time, kind, _, _, what = heapq.heappop(self.moments)
            if kind == BEGIN and self.left > 0:
                self.begin(time, what)
            elif kind == EFFECT:
                what.answer = getattr(self, what.word)(what.object, *what.fields)
            elif kind == END and what.word == "new" and what.object.first is not None:
                what.object.made = time
        return self.calls

    def begin(self, time, thread):
        """Begins a call of a thread, or lets it wait where there is nothing to do."""
        end = time + self.rng.randrange(1 + self.rng.randrange(1 + self.longest))
        call = self.random_call(time, end, thread)
        if call is None:
            self.push(time + 1 + self.rng.randrange(3), BEGIN, thread)
            return
        self.left -= 1
        self.calls.append(call)
        self.push(self.rng.randint(time, end), EFFECT, call)
        self.push(end, END, call)
        self.push(end + 1 + self.rng.randrange(3), BEGIN, thread)

    def random_call(self, time, end, thread):
        usable = [used for used in self.objects if not used.freed and used.made is not None and used.made < time]
        kept = sum(not used.freed for used in self.objects)
        kinds = (("new", 8), ("free", 8), ("addr", 6), ("put", 40), ("get", 40))
        word = self.rng.choices(*zip(*kinds))[0]
        if word == "new" or not usable:
            return self.random_new(time, end, thread) if kept < self.most_objects else None
        used = self.rng.choice(usable)
        if word == "free" and used.used >= time:
            word = "get"
        if word == "free":
            used.freed = True
        used.used = max(used.used, end)
        return Call(thread, time, end, word, used, self.random_fields(word, used))

    def random_new(self, time, end, thread):
        length = self.rng.randint(1, self.most_length)
        if self.rng.random() < 0.05:
            length = self.rng.choice((0, 2049))
        self.objects.append(Object(self.cells, length))
        self.cells += 1
        return Call(thread, time, end, "new", self.objects[-1], [length, 0])

    def random_fields(self, word, used):
        if word not in ("put", "get"):
            return []
        count = self.rng.randint(1, min(used.length, 4))
        first = self.rng.randint(0, used.length - count)
        if self.rng.random() < 0.7:
            first %= 3
        if word == "get":
            return [first, count]
        return [first, bytes(self.rng.choices(ALPHABET, k=count)).hex()]

    # The effects of calls.

    def new(self, made, length, _):
        refusal = self.refusal(length)
        if refusal:
            made.freed = True
            return refusal
        taken = [used for used in self.objects if used.first is not None]
        for first in [0x1000 + self.rng.randrange(self.arena) for _ in range(12)]:
            if all(first + length <= used.first or used.first + used.length <= first for used in taken):
                made.serial, made.first, made.stored = self.serials, first, bytearray(length)
                self.serials += 1
                return f"object {made.serial} at {first:x}"
        made.freed = True
        return "refused 3 NO_PAGES"

    def refusal(self, length):
        if length == 0:
            return "refused 1 ZERO"
        return "refused 2 TOO_LARGE" if length > 2048 else None

    def free(self, used):
        self.objects.remove(used)
        return "done"

    def addr(self, used):
        return f"at {used.first:x}"

    def put(self, used, first, data):
        data = bytes.fromhex(data)
        used.stored[first:first + len(data)] = data
        return "done"

    def get(self, used, first, count):
        return f"bytes {used.stored[first:first + count].hex()}"


# ---- Changes ----

def changed_answer(rng, calls):
    """Changes an answer: a byte of a `get`, or now and then a refusal, a serial or an address."""
    gets = [call for call in calls if call.word == "get"]
    news = [call for call in calls if call.word == "new"]
    if gets and rng.random() < 0.85:
        call = rng.choice(gets)
        data = bytearray.fromhex(call.answer.split()[1])
        data[rng.randrange(len(data))] = rng.choice(ALPHABET)
        call.answer = f"bytes {data.hex()}"
    elif news:
        call = rng.choice(news)
        call.answer = rng.choice((UNFAIR, *FAIR, f"object {rng.randrange(len(news))} at 1000"))


def changed_address(rng, calls):
    """Moves an object, with the answers of its `addr`, or changes one such answer."""
    told = [call for call in calls if call.answer.startswith(("object ", "at "))]
    if not told:
        return
    news = [call for call in told if call.word == "new"]
    call = rng.choice(news if news and rng.random() < 0.7 else told)
    words = call.answer.split()
    moved = int(rng.choice(told).answer.split()[-1], 16) if rng.random() < 0.5 else int(words[-1], 16)
    moved = max(0, moved + rng.choice((-3, -2, -1, 1, 2, 3)))
    call.answer = " ".join([*words[:-1], f"{moved:x}"])
    if call.word == "new":
        for other in calls:
            if other.word == "addr" and other.object is call.object:
                other.answer = f"at {moved:x}"


def changed_time(rng, calls):
    """Changes the BEGIN or the END of a call, so that its thread's calls still don't touch."""
    lives = [call for call in calls if call.word in ("new", "free")]
    call = rng.choice(lives if lives and rng.random() < 0.3 else calls)
    own = [other for other in calls if other.thread == call.thread]
    place = own.index(call)
    least = own[place - 1].end + 1 if place > 0 else 0
    most = own[place + 1].begin - 1 if place + 1 < len(own) else call.end + 5
    if rng.random() < 0.6:
        call.begin, call.end = sorted((rng.randint(call.begin, call.end), rng.randint(call.begin, call.end)))
    elif rng.random() < 0.5:
        call.begin = rng.randint(least, call.end)
    else:
        call.end = rng.randint(call.begin, most)
    calls.sort(key=lambda call: call.begin)


def changed_clock(rng, calls):
    """Puts the clock of a thread forward, from one of its calls on."""
    first, forward = rng.choice(calls), rng.randint(1, 8)
    for call in [call for call in calls if call.thread == first.thread and call.begin >= first.begin]:
        call.begin, call.end = call.begin + forward, call.end + forward
    calls.sort(key=lambda call: call.begin)


# ---- Long accesses ----

class Runs:
    """What a history is with long accesses: a byte of an object is a run of bytes. No run is longer than `longest`."""

    def __init__(self, rng, longest):
        self.longest = longest
        self.starts = [0]
        for _ in range(MOST_RUNS):
            length = rng.choice((1, 1, rng.randint(1, 70), rng.randint(1, longest), longest))
            self.starts.append(self.starts[-1] + min(length, longest))

    def place(self, offset):
        """The offset of the run of a byte."""
        last = min(offset, MOST_RUNS)
        return self.starts[last] + offset - last

    def data(self, offset, digits):
        """The bytes of the runs from an offset on, in hexadecimal digits."""
        return "".join(f"{byte:02x}" * (self.place(at + 1) - self.place(at))
                       for at, byte in enumerate(bytes.fromhex(digits), offset))

    def address(self, spelt):
        """An address, so that ranges that are apart stay so."""
        return f"{int(spelt, 16) * self.longest:x}"

    def line(self, line):
        """The line of a call."""
        entry, arrow, answer = line.partition(" -> ")
        *stamps, word, cell, first, what = [*entry.split(" "), "", ""][:7]
        if word == "new":
            first = self.place(int(first))
        elif word in ("put", "get"):
            offset = int(first)
            first = self.place(offset)
            what = self.data(offset, what) if word == "put" else self.place(offset + int(what)) - first
        told = answer.split(" ")
        if told[0] in ("object", "at"):
            told[-1] = self.address(told[-1])
        elif told[0] == "bytes":
            told[-1] = self.data(offset, told[-1])
        return " ".join(str(field) for field in [*stamps, word, cell, first, what] if field != "") + arrow + " ".join(told)


def most_accessed(lines):
    """The greatest number of bytes of an access of a history."""
    fields = [line.split(" ") for line in lines]
    puts = [len(line[6]) // 2 for line in fields if line[3] == "put"]
    return max([1, *puts, *(int(line[6]) for line in fields if line[3] == "get")])


def with_other_byte(rng, line):
    """The line of a call that loaded bytes, with one of them changed: often the first or the last."""
    call, digits = line.rsplit(" ", 1)
    data = bytearray.fromhex(digits)
    data[rng.choice((0, -1, rng.randrange(len(data))))] ^= 0x11
    return f"{call} {data.hex()}"


def lengthened(text, rng, is_right=False):
    """The history with some long accesses."""
    head, *lines = text.splitlines()
    runs = Runs(rng, min(MOST_BYTES // most_accessed(lines), rng.choice((40, 300, MOST_BYTES))))
    lines = [runs.line(line) for line in lines]
    loads = [number for number, line in enumerate(lines) if " -> bytes " in line]
    if loads and not is_right and rng.random() < 0.5:
        number = rng.choice(loads)
        lines[number] = with_other_byte(rng, lines[number])
    return "\n".join([head, *lines, ""])


def history(seed, count, threads, is_right=False):
    """The text of the history of a seed."""
    rng = random.Random(seed)
    calls = Threads(rng, count, threads).run()
    if not is_right and calls and rng.random() < 0.75:
        rng.choice((changed_answer, changed_answer, changed_address, changed_time, changed_clock))(rng, calls)
    return "\n".join(["history 2", *(call.line() for call in calls), ""])


def main():
    parser = argparse.ArgumentParser(description="Prints a random history of overlapping calls.")
    parser.add_argument("seed", metavar="SEED", type=int)
    parser.add_argument("--calls", metavar="N", type=int, default=200)
    parser.add_argument("--threads", metavar="T", type=int, default=4)
    parser.add_argument("--right", action="store_true", help="a history in which nothing is changed")
    parser.add_argument("--long", action="store_true", help="a history of which some accesses are long")
    words = parser.parse_args()
    text = history(words.seed, words.calls, words.threads, words.right)
    if words.long:
        text = lengthened(text, random.Random(words.seed), words.right)
    sys.stdout.write(text)


if __name__ == "__main__":
    main()
