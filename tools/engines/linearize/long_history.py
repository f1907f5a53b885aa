#!/usr/bin/env python3
"""Prints a long linearizable history of overlapping calls, for the time of `meshrun check`.

    tools/engines/linearize/long_history.py CALLS THREADS OBJECTS
    tools/engines/linearize/long_history.py CALLS THREADS --pending
    tools/engines/linearize/long_history.py CALLS THREADS --slot
    tools/engines/linearize/long_history.py CALLS THREADS --pairs

CALLS is about the number of calls, and THREADS that of threads. With OBJECTS, threads store to and load from at most
that many objects of 16 bytes at a time, and a tenth of their calls make or free an object. With --pending the calls of
all threads on one object are pending at once, again and again: these are the most configurations for this number of
threads.

With --slot, threads load from the first 8 bytes of one object, and one of six calls stores there. With --pairs, pairs
of threads store to slots of one object that they share with no other pair, CALLS stores in all. Then all slots are
loaded, one after another. Each pair's stores are pending at once, so either value may be left in a slot until then.

The output is a history of version 2. Each call takes effect at a moment between its begin and its end, and its answer
is for the bytes at that moment. The same arguments give the same history.
"""

import heapq
import random
import sys

LEN = 16
SLOT = 8


def on_byte(source):
    """A command on a byte of an object, without its cell: `put` or `get`, the offset, and what is stored."""
    return source.choice(["put", "get"]), source.randrange(LEN), bytes([source.randrange(256)])


def on_slot(source):
    """A command on the first bytes of an object; one of six stores."""
    return source.choice(["put", *["get"] * 5]), 0, source.randbytes(SLOT)


def spelt(cell, command):
    """The command on this cell, as it stands in a line."""
    name, offset, data = command
    return f"put {cell} {offset} {data.hex()}" if name == "put" else f"get {cell} {offset} {len(data)}"


def answer(memory, command):
    """The answer where the command takes effect in these bytes."""
    name, offset, data = command
    if name == "put":
        memory[offset:offset + len(data)] = data
        return "done"
    return f"bytes {bytes(memory[offset:offset + len(data)]).hex()}"


def pending(calls, threads, source):
    """The lines of rounds in which all threads' calls on one object overlap."""
    memory = [0] * LEN
    yield f"0 0 1 new 1 {LEN} 0 -> object 1 at 1000"
    for moment in range(2, 2 + 3 * (calls // threads), 3):
        commands = [on_byte(source) for _ in range(threads)]
        answers = {}
        for thread in source.sample(range(threads), threads):
            answers[thread] = answer(memory, commands[thread])
        for thread, command in enumerate(commands):
            yield f"{thread} {moment} {moment + 1 + thread % 2} {spelt(1, command)} -> {answers[thread]}"


class Lives:
    """The objects that live, in the slots of 16 bytes that are free or taken."""

    def __init__(self, most):
        self.slots = list(range(most))
        self.living = {}
        self.made = 0

    def make(self, end):
        """A `new` that ends then: its line's command and answer."""
        self.made += 1
        slot = self.slots.pop(0)
        self.living[self.made] = [slot, end, 0]
        return f"new {self.made} {LEN} 0", f"object {self.made} at {4096 + LEN * slot:x}"

    def free(self, cell):
        """A `free` of this object: its line's command and answer."""
        self.slots.append(self.living.pop(cell)[0])
        return f"free {cell}", "done"


def pairs(calls, threads, source):
    """The lines of pairs of stores that race, each pair on slots of its own, and of loads of all slots."""
    slots = calls // 2
    yield f"0 0 1 new 1 {SLOT * slots} 0 -> object 1 at 1000"
    memory = [0] * SLOT * slots
    for first in range(0, slots, threads // 2):
        moment = 2 + 2 * (first // (threads // 2))
        for thread in range(2 * min(threads // 2, slots - first)):
            command = "put", SLOT * (first + thread // 2), source.randbytes(SLOT)
            if thread % 2 == 0 or source.randrange(2) == 0:
                answer(memory, command)
            yield f"{thread} {moment} {moment + 1} {spelt(1, command)} -> done"
    for slot in range(slots):
        moment = 2 * slots + 4 + 2 * slot
        command = "get", SLOT * slot, bytes(SLOT)
        yield f"0 {moment} {moment + 1} {spelt(1, command)} -> {answer(memory, command)}"


def racing(calls, threads, most, commanded, source):
    """The lines of threads that race on at most so many objects, with such commands."""
    lives = Lives(most)
    memories, effects, lines = {}, [], []
    free_threads = [(source.randrange(5), thread) for thread in range(threads)]
    heapq.heapify(free_threads)

    def take_effects(before):
        while effects and effects[0][0] < before:
            _, line, cell, command = heapq.heappop(effects)
            lines[line][2] = answer(memories[cell], command)

    while len(lines) < calls:
        begin, thread = heapq.heappop(free_threads)
        take_effects(begin)
        end = begin + 2 + source.randrange(6)
        usable = [cell for cell, life in lives.living.items() if life[1] < begin]
        idle = [cell for cell in usable if lives.living[cell][2] < begin]
        chance = source.random()
        stamps = f"{thread} {begin} {end}"
        if lives.slots and (chance < 0.05 or not usable):
            command, told = lives.make(end)
            memories[lives.made] = [0] * LEN
            lines.append([stamps, command, told])
        elif chance > 0.95 and idle and len(lives.living) > most // 2:
            lines.append([stamps, *lives.free(source.choice(idle))])
        elif usable:
            cell, command = source.choice(usable), commanded(source)
            lives.living[cell][2] = max(lives.living[cell][2], end)
            heapq.heappush(effects, (source.randint(begin, end), len(lines), cell, command))
            lines.append([stamps, spelt(cell, command), None])
        else:
            end = begin
        heapq.heappush(free_threads, (end + 1 + source.randrange(4), thread))
    take_effects(float("inf"))
    return (f"{stamps} {command} -> {told}" for stamps, command, told in lines)


def main():
    if len(sys.argv) != 4:
        sys.exit(__doc__)
    calls, threads, source = int(sys.argv[1]), int(sys.argv[2]), random.Random(1)
    if sys.argv[3] == "--pending":
        lines = pending(calls, threads, source)
    elif sys.argv[3] == "--pairs":
        lines = pairs(calls, threads, source)
    elif sys.argv[3] == "--slot":
        lines = racing(calls, threads, 1, on_slot, source)
    else:
        lines = racing(calls, threads, int(sys.argv[3]), on_byte, source)
    print("history 2")
    for line in lines:
        print(line)


if __name__ == "__main__":
    main()
