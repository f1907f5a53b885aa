#!/usr/bin/env python3
"""Prints a recorded history, by default histories/savings/aliases.history.

    tools/engines/savings/write_trace.py [SEED WAVES STEPS]

SEED is a number from 1 to 2^64 - 1 of another history. Each of its WAVES has STEPS entries.

The output of the same words is the same every time. It is legal for `meshrun check`, and has what recorded programs
seldom do: objects that several cells refer to, freed through any of them; objects that no cell refers to any more;
objects above 2,048 bytes; refused entries, loads and stores. The objects come in waves, and most of each wave is freed
before the next.
"""

import sys

SIZES = [16, 32, 64, 128, 256, 384, 512, 1024, 1536, 2048]
USUAL = [512, 1024]
LARGE = [2049, 4096, 4097, 12288, 1000000, 4294967295]
CELLS = 200
DEFAULTS = 0x9E3779B97F4A7C15, 6, 280  # seed, waves, steps

random_state = DEFAULTS[0]


def random_below(n):
    """A random number below n, the same on every machine."""
    global random_state
    random_state ^= random_state << 13 & (1 << 64) - 1
    random_state ^= random_state >> 7
    random_state ^= random_state << 17 & (1 << 64) - 1
    return (random_state >> 32) % n


def pick(items):
    return items[random_below(len(items))]


class Trace:
    """Prints entries, and keeps the state of the reference memory after them."""

    def __init__(self):
        self.objects = 0
        self.next_address = 0x7F0000000000
        self.live = {}  # serial to length, address and first byte
        self.held = {}  # cell to serial

    def entry(self, command, answer):
        print(f"{random_below(3)} {command} -> {answer}")

    def live_cells(self):
        return [cell for cell, serial in self.held.items() if serial in self.live]

    def new(self, cell, length):
        serial, address = self.objects, self.next_address
        self.entry(f"new {cell} {length} 0", f"object {serial} at {address:x}")
        self.objects += 1
        self.next_address += length + random_below(16)
        self.live[serial] = [length, address, 0]
        self.held[cell] = serial

    def free(self, cell):
        self.entry(f"free {cell}", "done")
        del self.live[self.held[cell]]

    def alias(self, to, cell):
        self.entry(f"alias {to} {cell}", "done")
        self.held[to] = self.held[cell]

    def refused(self):
        """A refused entry."""
        cell, empty = random_below(CELLS), CELLS + random_below(9)
        stale = [cell for cell, serial in self.held.items() if serial not in self.live]
        kind = random_below(7 if stale else 5)
        if kind == 0:
            self.entry(f"new {cell} 0 0", "refused 1 ZERO")
        elif kind == 1:
            self.entry(f"new {cell} 5000 0", "refused 2 TOO_LARGE")
        elif kind == 2:
            self.entry(f"new {cell} 100 0", pick(["refused 3 NO_PAGES", "refused 4 NO_ADDRESSES"]))
        elif kind == 3:
            self.entry(f"free {empty}", "refused 5 EMPTY")
        elif kind == 4:
            self.entry(f"alias {cell} {empty}", "refused 5 EMPTY")
        elif kind == 5:
            self.entry(f"free {pick(stale)}", "refused 6 FREED")
        else:
            self.entry(f"alias {cell} {pick(stale)}", "refused 6 FREED")

    def access(self, cell):
        """A load or a store of the first byte of the cell's object."""
        found = self.live[self.held[cell]]
        _, address, byte = found
        stored = random_below(256)
        kind = random_below(6)
        if kind == 0:
            self.entry(f"put {cell} 0 {stored:02x}", "done")
        elif kind == 1:
            self.entry(f"poke {address:x} {stored:02x}", "done")
        elif kind == 2:
            self.entry(f"get {cell} 0 1", f"bytes {byte:02x}")
        elif kind == 3:
            self.entry(f"peek {address:x}", f"byte {byte:02x}")
        elif kind == 4:
            self.entry(f"addr {cell}", f"at {address:x}")
        else:
            self.entry(f"copy {cell} 0 {cell} 0 1", "done")
        if kind < 2:
            found[2] = stored

    def step(self, news):
        """One entry: with a chance of `news` percent a new object."""
        cells = self.live_cells()
        chance = random_below(100)
        if chance < 4:
            self.refused()
        elif chance < 8 and cells:
            self.access(pick(cells))
        elif chance < 14 and cells:
            self.alias(random_below(CELLS), pick(cells))
        elif chance < 14 + news or not cells:
            unheld = [cell for cell in range(CELLS) if self.held.get(cell) not in self.live]
            # sometimes the cell refers to a live object, which then may have no cell any more
            cell = pick(unheld) if unheld and random_below(20) else random_below(CELLS)
            size = pick(USUAL) if random_below(4) else pick(SIZES)
            length = pick(LARGE) if random_below(30) == 0 else size - random_below(size // 4) * random_below(2)
            self.new(cell, length)
        else:
            self.free(pick(cells))


def main():
    global random_state
    random_state, waves, steps = map(int, sys.argv[1:]) if sys.argv[1:] else DEFAULTS
    print("history 1")
    trace = Trace()
    for _ in range(waves):
        for _ in range(steps // 2):
            trace.step(news=80)
        for _ in range(steps // 2):
            trace.step(news=10)


if __name__ == "__main__":
    main()
