"""Histories whose accesses have up to 4,096 bytes, and faults of those that have more. A job has at most 32 bytes."""

import pathlib
import random
import sys

from cli.check import order
from cli.suite import NOTHING, Explained, execute, line, lines

sys.path.append(str(pathlib.Path(__file__).resolve().parents[2] / "engines/linearize"))
import random_histories
import reference
import witnesses

MOST = 4096
LENGTH = 5000
NEW = f"new 0 {LENGTH} 0 -> object 3 at 1000"
MADE = "of object 3 in cell 0, made at line 2"
DATA = bytes(range(256)) * 16
OTHER = bytes(reversed(DATA))
# Within chunks of 64 bytes, at their borders, and the last one from which 4,096 bytes are in the object.
OFFSETS = (0, 1, 63, 64, 100, LENGTH - MOST)
RANDOM_IN_ORDER = 150
RANDOM_OVERLAPPING = 60


def cases(suite):
    for offset in OFFSETS:
        for version in (1, 2):
            one_store(suite, version, offset)
    for version in (1, 2):
        two_stores(suite, version)
        too_long(suite, version)
    copies(suite)
    overlaps(suite)
    printed(suite)
    sessions(suite)
    random_in_order(suite)
    random_overlapping(suite)


def put(offset, data, cell=0):
    return f"put {cell} {offset} {data.hex()} -> done"


def get(offset, data, cell=0):
    return f"get {cell} {offset} {len(data)} -> bytes {data.hex()}"


def changed(data, *places):
    """The bytes with other ones at some places."""
    data = bytearray(data)
    for place in places:
        data[place] ^= 0xFF
    return bytes(data)


def history(version, *entries):
    """The text of a history of these commands and answers. In version 2 each ends before the next one begins."""
    stamped = (f"0 {2 * n} {2 * n + 1} {entry}" if version == 2 else f"0 {entry}" for n, entry in enumerate(entries))
    return lines([f"history {version}", *stamped])


def right(suite, name, version, *entries):
    """A case: these entries are right."""
    verdict = line(f"{'legal' if version == 1 else 'linearizable'} {len(entries)} entries")
    written = suite.write("long.history", history(version, *entries))
    suite.check(f"accesses: {name}, version {version}", 0, verdict, NOTHING, "check", written)


def wrong(suite, name, version, told, wanted, where, *entries):
    """A case: the last one of these entries loads other bytes, the first of which was stored as `where` has it."""
    reason = (
        f"answer differs: bytes {told.hex()}, wanted bytes {wanted.hex()}; byte {where}" if version == 1 else
        f"no order explains bytes {told.hex()} {MADE}; possible if it took effect last: bytes {wanted.hex()}"
    )
    written = suite.write("long.history", history(version, *entries))
    verdict = line(f"line {len(entries) + 1}: {reason}")
    suite.check(f"accesses: {name}, version {version}", 3, verdict, NOTHING, "check", written)


def one_store(suite, version, offset):
    """A store of 4,096 bytes, and loads of all of them or of some."""
    made = NEW, put(offset, DATA)
    right(suite, f"4,096 bytes at {offset}", version, *made, get(offset, DATA))
    right(suite, f"single bytes of 4,096 at {offset}", version, *made,
          *(get(offset + place, DATA[place:place + 1]) for place in (0, 63, 64, 2048, MOST - 1)))
    for place in (0, 63 - offset % 64, 64 - offset % 64, 2048, MOST - 1):
        told = changed(DATA, place)
        where = f"{offset + place} was last stored at line 3"
        wrong(suite, f"byte {place} of 4,096 at {offset} differs", version, told, DATA, where, *made, get(offset, told))
    told = changed(DATA, 1000, MOST - 1)
    where = f"{offset + 1000} was last stored at line 3"
    wrong(suite, f"two bytes of 4,096 at {offset} differ", version, told, DATA, where, *made, get(offset, told))
    right(suite, f"no store of 4,096 bytes at {offset}", version, NEW, get(offset, bytes(MOST)))
    told = changed(bytes(MOST), MOST - 1)
    where = f"{offset + MOST - 1} was never stored"
    wrong(suite, f"4,095 stored bytes at {offset}", version, DATA[:-1] + b"\1", DATA[:-1] + b"\0", where,
          NEW, put(offset, DATA[:-1]), get(offset, DATA[:-1] + b"\1"))
    wrong(suite, f"4,096 bytes at {offset} that were never stored", version, told, bytes(MOST), where,
          NEW, get(offset, told))


def two_stores(suite, version):
    """A store of 4,096 bytes and one of some of them."""
    stores = NEW, put(100, DATA), put(300, OTHER[:1000])
    both = DATA[:200] + OTHER[:1000] + DATA[1200:]
    right(suite, "a store in one of 4,096 bytes", version, *stores, get(100, both))
    for place, stored_at in ((199, 3), (200, 4), (1199, 4), (1200, 3)):
        told = changed(both, place)
        where = f"{100 + place} was last stored at line {stored_at}"
        wrong(suite, f"byte {place} of two stores differs", version, told, both, where, *stores, get(100, told))
    stores = NEW, put(300, OTHER[:1000]), put(100, DATA)
    right(suite, "a store of 4,096 bytes over another", version, *stores, get(100, DATA))
    told = DATA[:-1]
    reason = (
        f"answer differs: bytes {told.hex()}, wanted bytes {DATA.hex()}" if version == 1 else
        f"no order explains bytes {told.hex()} {MADE}; possible if it took effect last: bytes {DATA.hex()}"
    )
    written = suite.write("long.history", history(version, NEW, put(0, DATA), f"get 0 0 {MOST} -> bytes {told.hex()}"))
    name = f"accesses: an answer of 4,095 bytes, version {version}"
    suite.check(name, 3, line(f"line 4: {reason}"), NOTHING, "check", written)
    reason = "answer differs: {}, wanted {}" if version == 1 else f"no order explains {{}} {MADE}; possible: {{}}"
    for entry, told in ((put(LENGTH - MOST + 1, DATA), "done"), (get(LENGTH - MOST + 1, DATA), f"bytes {DATA.hex()}")):
        written = suite.write("long.history", history(version, NEW, entry))
        verdict = line(f"line 3: {reason.format(told, 'refused 7 OUTSIDE')}")
        name = f"accesses: a {entry[:3]} of 4,096 bytes of which one is outside, version {version}"
        suite.check(name, 3, verdict, NOTHING, "check", written)


def too_long(suite, version):
    """More bytes than an access may have, and none. Of version 1 also a copy."""
    long = "ab" * (MOST + 1)
    shown = f"'{long[:40]}'.. is no HEX: more than 4096 bytes"
    faults = [
        ("a store of 4,097 bytes", f"put 0 0 {long} -> done", "HEX", shown),
        ("a store of 8,193 digits", f"put 0 0 {long[1:]} -> done", "HEX", None),
        ("an answer of 4,097 bytes", f"get 0 0 1 -> bytes {long}", "HEX", shown),
        ("a load of 4,097 bytes", "get 0 0 4097 -> done", "NUMBER", "'4097' is no LEN, a number from 1 to 4096"),
        ("a load of no byte", "get 0 0 0 -> done", "NUMBER", "'0' is no LEN, a number from 1 to 4096"),
    ]
    if version == 1:
        faults += [
            (f"a copy of {count} bytes", f"copy 0 0 0 0 {count} -> done", "NUMBER",
             f"'{count}' is no LEN, a number from 1 to 4096")
            for count in (0, 4097)
        ]
        # With the shortest other fields this line has 16,384 bytes, and with a byte more 16,386.
        longest = f"put 0 0 {DATA.hex()} -> bytes {DATA[:4086].hex()}"
        verdict = line(f"line 3: answer differs: bytes {DATA[:4086].hex()}, wanted done")
        written = suite.write("long.history", history(1, NEW, longest))
        suite.check("accesses: an entry of 16,384 bytes", 3, verdict, NOTHING, "check", written)
        faults.append(("an entry of 16,386 bytes", f"{longest}00", "LONG_LINE", "more than 16,384 bytes in a line"))
    for name, entry, kind, reason in faults:
        fault(suite, f"{name}, version {version}", history(version, NEW, entry), kind, reason)
    if version == 2:
        text = lines(["history 2", f"0 0 1 {NEW}", f"0 2 - put 0 0 {long}"])
        fault(suite, "a pending store of 4,097 bytes", text, "HEX", shown)


def fault(suite, name, text, kind, reason):
    """A case: the text has this fault on line 3, with this reason if there is one."""
    written = suite.write("long.history", text)
    errors = line(f"line 3: {kind}") + line(f"{written}:3: {reason}")
    wanted = errors if reason else Explained(line(f"line 3: {kind}"))
    suite.check(f"accesses: {name}", 2, NOTHING, wanted, "check", written)


def copies(suite):
    """Copies of 4,096 bytes to another object, and within one."""
    made = NEW, put(700, DATA), "new 1 9000 0 -> object 4 at 8000", f"copy 1 4800 0 700 {MOST} -> done"
    right(suite, "a copy of 4,096 bytes", 1, *made, get(4800, DATA, cell=1))
    told = changed(DATA, MOST - 1)
    where = f"{4800 + MOST - 1} was last stored at line 5"
    wrong(suite, "the last byte of a copy differs", 1, told, DATA, where, *made, get(4800, told, cell=1))
    for into, out_of in ((0, 100), (100, 0)):
        made = NEW, put(out_of, DATA), f"copy 0 {into} 0 {out_of} {MOST} -> done"
        name = f"a copy within an object, from {out_of} to {into}"
        right(suite, name, 1, *made, get(into, DATA))
        told = changed(DATA, 5)
        where = f"{into + 5} was last stored at line 4"
        wrong(suite, f"{name}, a byte differs", 1, told, DATA, where, *made, get(into, told))


def overlaps(suite):
    """Calls that overlap, with the verdicts of the engine in Python."""
    half = DATA[:2048] + OTHER[2048:]
    for name, kind, calls in (
        ("two stores, and the bytes of one", "linearizable",
         [f"1 2 5 {put(70, DATA)}", f"2 3 6 {put(70, OTHER)}", f"1 7 8 {get(70, DATA)}"]),
        ("two stores, and half of each", "no order explains",
         [f"1 2 5 {put(70, DATA)}", f"2 3 6 {put(70, OTHER)}", f"1 7 8 {get(70, half)}"]),
        ("two stores that overlap in part, one after the other", "linearizable",
         [f"1 2 5 {put(0, DATA)}", f"2 3 6 {put(900, OTHER)}", f"1 7 8 {get(800, DATA[800:900] + OTHER[:3900])}"]),
        ("two stores that overlap in part, the other one first", "linearizable",
         [f"1 2 5 {put(0, DATA)}", f"2 3 6 {put(900, OTHER)}", f"1 7 8 {get(800, DATA[800:] + OTHER[3196:3996])}"]),
        ("a load in a store, with the old bytes", "linearizable",
         [f"1 2 9 {put(70, DATA)}", f"2 3 4 {get(70, bytes(MOST))}", f"2 5 6 {get(70, DATA)}"]),
        ("a load in a store, with a part of it", "no order explains",
         [f"1 2 9 {put(70, DATA)}", f"2 3 4 {get(70, DATA[:-1] + bytes(1))}"]),
        ("a store in a load", "no order explains",
         [f"1 2 9 {get(70, bytes(2000) + DATA[2000:])}", f"2 3 4 {put(70, DATA)}"]),
        ("a byte that is stored while 4,096 are loaded", "linearizable",
         [f"1 2 9 {get(70, changed(bytes(MOST), 4000))}", f"2 3 4 {put(4070, bytes([0xFF]))}"]),
        ("a pending store, and a load of its bytes", "linearizable",
         [f"1 2 - put 0 70 {DATA.hex()}", f"2 3 4 {get(70, DATA)}"]),
        ("a pending store, and loads of old bytes after new ones", "no order explains",
         [f"1 2 - put 0 70 {DATA.hex()}", f"2 3 4 {get(70, DATA)}", f"2 5 6 {get(70, bytes(MOST))}"]),
    ):
        text = lines(["history 2", f"0 0 1 {NEW}", *calls])
        status, verdict, _ = reference.judged(text.decode(), 1000)
        suite.report(f"accesses: another engine, {name}", [] if kind in verdict else [verdict[:80]])
        written = suite.write("long.history", text)
        suite.check(f"accesses: {name}", status, line(verdict), NOTHING, "check", written)


def printed(suite):
    """Calls that `--order` and `--witness` print."""
    calls = [f"0 0 1 {NEW}", f"1 2 9 {put(100, DATA)}", f"2 3 8 {get(100, DATA)}", f"3 4 7 {get(200, bytes(MOST))}"]
    order(suite, "check --order: accesses of 4,096 bytes", suite.write("long.history", lines(["history 2", *calls])))
    calls = [f"0 0 1 {NEW}", f"0 2 3 {put(100, DATA)}", f"0 4 5 {put(200, OTHER)}", f"0 6 7 {get(100, DATA)}"]
    written = suite.write("long.history", lines(["history 2", *calls]))
    smallest = witnesses.smallest(written.read_text()).encode()
    suite.check("check --witness: accesses of 4,096 bytes", 3, smallest, NOTHING, "check", written, "--witness")


def sessions(suite):
    """A live session has at most 32 bytes, as a job has."""
    asked = ["new 0 64 0", f"put 0 0 {'ab' * 32}", f"put 0 0 {'ab' * 33}", "get 0 0 32", "get 0 0 33"]
    asked.append("copy 0 0 0 0 33")
    wanted = ["object 0 at 1000", "done", "fault HEX", f"bytes {'ab' * 32}", "fault NUMBER", "fault NUMBER"]
    session = suite.write("session", lines(f"run 0 {command}" for command in asked))
    suite.check("live: 33 bytes", 0, lines(wanted), NOTHING, "live", stdin=session)


def random_in_order(suite):
    """Random histories of version 1, each with a wrong answer or without. An engine in C++ finds the same."""
    engine = suite.room / "in_order"
    words = "g++", "-O2", "-std=c++17", "-Wall", "-Wextra", "-Werror", "-o", engine, "tools/engines/check/reference.cpp"
    suite.compare("accesses: another engine", execute(words))
    source, faults, wrongs, longs = random.Random(2026), [], 0, 0
    for number in range(RANDOM_IN_ORDER):
        entries = entries_in_order(source)
        longs += has_long(entries)
        written = suite.write("random.history", lines(["history 1", *entries]))
        wanted, run = execute([engine, written]), suite.run("check", written)
        wrongs += wanted.status == 3
        if run != wanted:
            faults.append(f"{number}: {run.output[:80]}, but {wanted.output[:80]}")
    few = [] if 10 < wrongs < RANDOM_IN_ORDER - 10 else [f"{wrongs} with a wrong answer"]
    few += [] if longs > RANDOM_IN_ORDER / 2 else [f"{longs} with a long access"]
    suite.report(f"accesses: {RANDOM_IN_ORDER} random histories in order", faults[:3] + few)


def has_long(entries):
    """Whether one of the entries spells more bytes than an access of a job may have."""
    return any(len(field) > 64 for entry in entries for field in entry.split())


def entries_in_order(source):
    """The entries of a random history of version 1: accesses of 1 to 4,096 bytes to two objects. One answer may be
    wrong."""
    length, memory = 10_000, [bytearray(10_000), bytearray(10_000)]
    entries = [f"0 new {cell} {length} 0 -> object {cell} at {0x1000 + 0x10000 * cell:x}" for cell in (0, 1)]
    count, wrong_at = source.randint(3, 25), source.randrange(50)
    for number in range(count):
        size = source.choice((source.randint(1, 64), source.randint(33, 200), source.randint(1, MOST), MOST))
        cell, offset = source.randrange(2), source.choice((source.randrange(200), source.randrange(length - size + 1)))
        word = source.choice(("put", "put", "get", "get", "copy"))
        data = source.randbytes(size) if source.randrange(2) else bytes([source.randrange(256)]) * size
        if word == "put":
            memory[cell][offset:offset + size] = data
            entries.append(f"0 {put(offset, data, cell)}")
        elif word == "copy":
            other, out_of = source.randrange(2), source.randrange(length - size + 1)
            memory[cell][offset:offset + size] = bytes(memory[other][out_of:out_of + size])
            entries.append(f"0 copy {cell} {offset} {other} {out_of} {size} -> done")
        else:
            loaded = bytes(memory[cell][offset:offset + size])
            if number == wrong_at:
                loaded = changed(loaded, source.choice((0, -1, source.randrange(size))))
            entries.append(f"0 {get(offset, loaded, cell)}")
    return entries


def random_overlapping(suite):
    """Random histories of version 2. The engine in Python finds the same."""
    faults, kinds, longs = [], set(), 0
    for seed in range(RANDOM_OVERLAPPING):
        text = random_histories.history(seed, 30 if seed % 5 == 0 else 2 + seed % 8, 2 + seed % 5)
        text = random_histories.lengthened(text, random.Random(seed))
        longs += has_long(text.splitlines())
        status, verdict, error = reference.judged(text, 100_000)
        kinds.add(status)
        run = suite.run("check", suite.write("random.history", text.encode()))
        if (run.status, run.output) != (status, line(verdict) if verdict else NOTHING):
            faults.append(f"{seed}: {run.output[:80]}, but {verdict[:80] or error}")
    few = [] if kinds == {0, 3} else [f"statuses {kinds}"]
    few += [] if longs > RANDOM_OVERLAPPING / 2 else [f"{longs} with a long access"]
    suite.report(f"accesses: {RANDOM_OVERLAPPING} random histories that overlap", faults[:3] + few)
