"""Judges histories by the program and by the plain engine, for tools/bench/check.sh.

    check_times.py PROGRAM ROOM ENTRIES

ROOM is a folder for the histories, with the plain engine, `reference`. The output and the status are those of check.sh.
"""
import random
import sys

from timed import measured

program, room, entries = sys.argv[1], sys.argv[2], int(sys.argv[3])
LIVE = 10_000
SLOT = 256
LOADED = 16


class Recorder:
    """A random history of objects in slots, with at most as many live objects as there are slots."""

    def __init__(self, are_cells_new):
        self.are_cells_new = are_cells_new
        self.random = random.Random(2026)
        self.empty = list(range(LIVE))
        self.random.shuffle(self.empty)
        self.live = []
        self.serial = 0

    def made(self):
        """The line of a `new`."""
        slot = self.empty.pop()
        serial, self.serial = self.serial, self.serial + 1
        cell = serial if self.are_cells_new else slot
        self.live.append((cell, slot, bytearray(SLOT)))
        return f"0 new {cell} {SLOT} 0 -> object {serial} at {0x100000 + SLOT * slot:x}\n"

    def freed(self):
        """The line of a `free` of a random object."""
        place = self.random.randrange(len(self.live))
        self.live[place], self.live[-1] = self.live[-1], self.live[place]
        cell, slot, _ = self.live.pop()
        self.empty.append(slot)
        return f"0 free {cell} -> done\n"

    def allocation(self):
        """The line of a `new` or a `free`."""
        is_new = self.empty and (not self.live or self.random.random() < 0.6)
        return self.made() if is_new else self.freed()

    def access(self):
        """The line of a store or a load of a random object."""
        if not self.live:
            return self.made()
        cell, _, stored = self.random.choice(self.live)
        offset = self.random.randrange(SLOT - LOADED)
        if self.random.random() < 0.5:
            stored[offset:offset + LOADED] = self.random.randbytes(LOADED)
            return f"0 put {cell} {offset} {stored[offset:offset + LOADED].hex()} -> done\n"
        return f"0 get {cell} {offset} {LOADED} -> bytes {stored[offset:offset + LOADED].hex()}\n"


def write_history(path, recorder, accesses):
    """Writes a history; a share of its entries, `accesses`, are stores and loads."""
    with open(path, "w", encoding="ascii") as file:
        file.write("history 1\n")
        for _ in range(entries):
            is_access = recorder.random.random() < accesses
            file.write(recorder.access() if is_access else recorder.allocation())


def main():
    """Prints a line for each history. Returns whether the two always print the same."""
    histories = [
        ("new and free, cells used again", Recorder(False), 0),
        ("new and free, a cell for each object", Recorder(True), 0),
        ("with stores and loads", Recorder(True), 0.8),
    ]
    alike = True
    print(f"{'history':36} {'entries/s':>10} {'MB':>6} {'plain':>10} {'MB':>6} {'ratio':>6}")
    for name, recorder, accesses in histories:
        path = f"{room}/times.history"
        write_history(path, recorder, accesses)
        ours, seconds, peak = measured(room, [program, "check", path])
        theirs, plain, plain_peak = measured(room, [f"{room}/reference", path])
        if not ours or ours != theirs:
            print(f"{name:36} differs: {ours} {theirs}")
            alike = False
            continue
        figures = f"{entries / seconds:10.0f} {peak:6.0f} {entries / plain:10.0f} {plain_peak:6.0f}"
        print(f"{name:36} {figures} {seconds / plain:6.2f}")
    return alike


sys.exit(0 if main() else 1)
