#!/usr/bin/env python3
"""Sends the same random commands to `meshrun live` and to a toy allocator, and shrinks the first difference.

    examples/fuzz_live.py PROGRAM [--lines N] [--seed S] [--bug] [--glibc] [--no-shrink]

PROGRAM is a built `meshrun`. N is the number of lines, 5000 by default; S is the seed of the commands, 1 by default.
Both heaps mesh while they are used, each at its own times: the proved one by lines of its mesher, the toy by steps of
its own. What a user of either sees must be the same. With --bug the toy doesn't block stores to a span while it copies
the span. With --glibc the C library's `malloc` takes the place of the toy.

If all lines agree, prints how many, with status 0. If an answer differs, removes the lines that don't matter, in
sessions of their own, and prints the rest as a job file, which `meshrun replay` and `meshrun draw` read, with status 1.
The difference, and what led to it on both sides, is printed on standard error. With --no-shrink all lines are printed.

To test an allocator of your own, replace the class Toy (docs/TESTING_AN_ALLOCATOR.md). `live_client.py`, next to this
file, has the rest.
"""

import argparse
import sys

import live_client

CLASSES = (16, 32, 64, 128, 256, 512, 1024, 2048)
PAGE_BYTES = 4096


class Span:
    """A page of slots of one size. `home` is the span whose bytes hold its objects, itself if it isn't meshed."""

    def __init__(self, base, slot_bytes):
        self.base = base
        self.slot_bytes = slot_bytes
        self.slots = set()
        self.bytes = bytearray(PAGE_BYTES)
        self.home = self

    def free_slots(self):
        """The slots that no span on this page occupies."""
        return [k for k in range(PAGE_BYTES // self.slot_bytes) if k not in self.slots]


class Toy(live_client.AllocatorByAddress):
    """An allocator that meshes: it copies a span into another one slot by slot, then both share one page."""

    def __init__(self, has_bug):
        super().__init__()
        self.has_bug = has_bug
        self.spans = []
        self.mesh = None
        self.meshes = 0

    # Its memory.

    def reserve(self, length, word):
        size = next(c for c in CLASSES if c >= length)
        span = next((s for s in self.spans if s.slot_bytes == size and not self.in_mesh(s) and s.home.free_slots()), None)
        if span is None or word % 4 == 0:
            span = Span(PAGE_BYTES * (len(self.spans) + 1), size)
            self.spans.append(span)
        free = span.home.free_slots()
        slot = free[word % len(free)]
        span.home.slots.add(slot)
        self.store(span.base + slot * size, bytes(size))
        return span.base + slot * size

    def release(self, address):
        span, at = self.place_of(address)
        if self.in_mesh(span):
            self.finish_mesh()
        span.home.slots.remove(at // span.slot_bytes)

    def load(self, address, length):
        span, at = self.place_of(address)
        return bytes(span.home.bytes[at:at + length])

    def store(self, address, data):
        span, at = self.place_of(address)
        if self.in_mesh(span) and not self.has_bug:
            self.finish_mesh()
        span.home.bytes[at:at + len(data)] = data

    def place_of(self, address):
        """The span of an address, and its place in the bytes of the span's home."""
        span = self.spans[address // PAGE_BYTES - 1]
        return span, address - span.base

    # Its meshes.

    def in_mesh(self, span):
        return self.mesh is not None and span.home in self.mesh[:2]

    def step(self, number):
        """Begins a mesh of two spans with no common occupied slot, or copies a slot of the running mesh, or ends it."""
        if self.mesh is None:
            pages = [s for s in self.spans if s.home is s and s.slots]
            first = number % max(1, len(pages))
            pairs = ((s, d) for s in pages[first:] + pages[:first] for d in pages
                     if s is not d and s.slot_bytes == d.slot_bytes and not s.slots & d.slots)
            source, target = next(pairs, (None, None))
            if source is not None:
                self.mesh = source, target, sorted(source.slots)
        elif self.mesh[2]:
            self.copy_slot()
        else:
            self.finish_mesh()

    def copy_slot(self):
        source, target, left = self.mesh
        at = left.pop() * source.slot_bytes
        target.bytes[at:at + source.slot_bytes] = source.bytes[at:at + source.slot_bytes]

    def finish_mesh(self):
        source, target, left = self.mesh
        while left:
            self.copy_slot()
        target.slots |= source.slots
        for span in self.spans:
            if span.home is source:
                span.home = target
        self.mesh = None
        self.meshes += 1


def main():
    parser = argparse.ArgumentParser(description=__doc__.split("\n", 1)[0])
    parser.add_argument("program")
    parser.add_argument("--lines", type=int, default=5000)
    parser.add_argument("--seed", type=int, default=1)
    parser.add_argument("--bug", action="store_true", help="don't let the toy block stores to a span while it copies the span")
    parser.add_argument("--glibc", action="store_true", help="compare with the C library's malloc instead of the toy")
    parser.add_argument("--no-shrink", action="store_true", help="print all lines up to the difference")
    args = parser.parse_args()

    def start():
        allocator = live_client.GlibcAllocator() if args.glibc else Toy(args.bug)
        return live_client.Comparison(live_client.Session(args.program), allocator)

    with start() as comparison:
        entries, difference = live_client.fuzz(comparison, args.seed, args.lines)
        if comparison.session.end() != 0:
            sys.exit("the session did not end well")
    if difference is None:
        print(summary(comparison))
        return
    shrunk = None if args.no_shrink else live_client.shrink(entries, difference, start)
    print(comparison.session.job() if shrunk is None else shrunk.job, end="")
    sys.exit(str(difference) if shrunk is None else shrunk.report())


def summary(comparison):
    """What happened on both sides while all answers agreed."""
    answers = [answer for _, answer in comparison.session.asked]
    blocked = answers.count("blocked")
    remapped = sum(answer.startswith("remap ") for answer in answers)
    meshes = getattr(comparison.allocator, "meshes", 0)
    return f"{len(answers)} lines agreed: {blocked} blocked and {remapped} pages remapped by the one, {meshes} meshes by the other"


if __name__ == "__main__":
    try:
        main()
    except live_client.SessionError as error:
        sys.exit(str(error))
