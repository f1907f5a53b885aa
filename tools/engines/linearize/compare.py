#!/usr/bin/env python3
"""Compares reference.py with searches over all orders, on tiny random histories.

    tools/engines/linearize/compare.py [COUNT [SEED]]

COUNT is the number of histories, by default 1,000, and SEED the first seed, by default 1. A history has 2 to 7 calls of
2 to 4 threads. In every third one, some threads' last calls were pending when the recording stopped. Every fifth one
may have accesses of up to 4,096 bytes. It is a history if each `new` has a cell of its own, and each other call is
between the `new` and the `free` of its cell. If it isn't, its calls are a history up to some call that begins. Then reference.py must report that
they are none, unless a call is wrong that ended before. Compared are

- whether the history is linearizable;
- the line of a flaw. It is the first call, in the order of ends, at whose end no order is right of the calls that ended
  by then, with or without some of the pending ones;
- the possible answers of a `get`, if it took effect last. They are those with which there is such an order that has the
  `get` after all calls that ended before it. Other answers may be possible for an earlier `get`: before a store that
  began and ended while the `get` was pending.

Each history that differs is a line of the output, and the last line counts them, by kind of verdict. The status is 1 if
one differs.
"""
import collections
import itertools
import random
import sys

import orders
import random_histories
import reference

LIMIT = 100000


def is_in_life(call, calls):
    """Whether a call that isn't a `new` begins after the end of its `new` and ends before its `free` begins."""
    own = [other for other in calls if other.cell == call.cell and other is not call]
    made = any(new.word == "new" and new.answer.startswith("object ") and new.end < call.begin for new in own)
    return made and not any(free.word == "free" and free.begin <= call.end for free in own)


def is_history(calls):
    """Whether the history is one that orders.py can judge."""
    cells = [call.cell for call in calls if call.word == "new"]
    return len(cells) == len(set(cells)) and all(call.word == "new" or is_in_life(call, calls) for call in calls)


def words_of(call, answer):
    """A call with this answer, as orders.py has it."""
    return call.begin, call.end, [call.word, str(call.cell), *call.fields, *answer.split(" ")]


def may_be_seen(call):
    """Whether another call can show that a call had its effect: of pending ones, only a store or a `free`."""
    return call.end != orders.NEVER or call.word in ("put", "free")


def is_explained_at_end(call, calls, changed):
    """Whether some order explains what is known at the end of a call, if that is changed so."""
    ended = [words_of(other, other.answer) for other in calls if (other.end, other.line) < (call.end, call.line)]
    pending = [words_of(other, other.answer) for other in calls if may_be_seen(other)
               and other.begin <= call.end and (other.end, other.line) > (call.end, call.line)]
    return any(orders.is_explained([*ended, changed, *some])
               for count in range(len(pending) + 1) for some in itertools.combinations(pending, count))


def unexplained(calls):
    """The first call, in the order of ends, that no order explains, or None."""
    in_time = sorted((call for call in calls if call.end != orders.NEVER), key=lambda call: (call.end, call.line))
    return next((call for call in in_time if not is_explained_at_end(call, calls, words_of(call, call.answer))), None)


def bytes_at(call, calls):
    """The bytes that a `get` might load, if times didn't matter. The pieces of its range that no store divides each have
    the bytes of some store, or zeros."""
    whole = reference.Accesses.range_of(call)
    stores = [(reference.Accesses.range_of(put), bytes.fromhex(put.fields[1])) for put in calls
              if put.word == "put" and put.cell == call.cell]
    borders = {whole.start, whole.stop, *(border for store, _ in stores for border in (store.start, store.stop))}
    of_pieces = []
    for first, end in itertools.pairwise(sorted(at for at in borders if whole.start <= at <= whole.stop)):
        stored = {data[first - store.start:end - store.start] for store, data in stores if first in store}
        of_pieces.append(stored | {bytes(end - first)})
    return map(b"".join, itertools.product(*of_pieces))


def possible_answers(call, calls):
    """The answers of a `get` that some order explains if the call is as short as can be, at its end."""
    moment = call.end + 0.5
    answers = (f"bytes {loaded.hex()}" for loaded in bytes_at(call, calls))
    return reference.listed([answer for answer in answers
                             if is_explained_at_end(call, calls, (moment, moment, words_of(call, answer)[2]))])


def difference(calls, verdict):
    """How the verdict on a history differs from what all orders have, or None."""
    call = unexplained(calls)
    is_linearizable = orders.is_linearizable([words_of(other, other.answer) for other in calls if may_be_seen(other)])
    if is_linearizable != (verdict == f"linearizable {len(calls)} entries") or is_linearizable != (call is None):
        return "not whether it is linearizable"
    if call and not verdict.startswith(f"line {call.line}: "):
        return f"line {call.line}"
    possible = possible_answers(call, calls) if call and call.word == "get" else ""
    if not verdict.endswith(f"; possible if it took effect last: {possible}" if possible else ""):
        return f"possible: {possible}"
    return None


def difference_of_none(calls, verdict):
    """How the verdict on calls that are no history differs from what all orders have, or None."""
    begun = next(count for count in range(len(calls)) if not is_history(calls[:count + 1]))
    call = unexplained(calls[:begun])
    if call and call.end < calls[begun].begin:
        return None if verdict.startswith(f"line {call.line}: ") and "no history" not in verdict else f"line {call.line}"
    return None if "no history" in verdict else "no history"


def with_pending(text, source):
    """A history in which some threads' last calls were pending when the recording stopped."""
    head, *rows = text.splitlines()
    last = {row.split(" ")[0]: number for number, row in enumerate(rows)}
    for number in last.values():
        if source.randrange(2):
            worker, begin, _, call = rows[number].split(" ", 3)
            rows[number] = f"{worker} {begin} - {call.split(' -> ')[0]}"
    return "".join(f"{row}\n" for row in [head, *rows])


def kind_of_verdict(verdict):
    """A verdict without its numbers and answers."""
    return next(kind for kind in ("linearizable", "no order", "serial", "overlaps", "no history") if kind in verdict)


def main():
    count, first = list(map(int, sys.argv[1:])) + [1000, 1][len(sys.argv) - 1:]
    differing, kinds = 0, collections.Counter()
    for seed in range(first, first + count):
        text = random_histories.history(seed, 2 + seed % 6, 2 + seed % 3)
        if seed % 3 == 0:
            text = with_pending(text, random.Random(seed))
        if seed % 5 == 0:
            text = random_histories.lengthened(text, random.Random(seed))
        calls, _ = reference.calls_of_text(text)
        verdict = reference.judged(text, LIMIT)[1]
        kinds[kind_of_verdict(verdict)] += 1
        told = difference(calls, verdict) if is_history(calls) else difference_of_none(calls, verdict)
        if told:
            differing += 1
            print(f"seed {seed}: {verdict}, but {told}")
    numbers = ", ".join(f"{number} {kind}" for kind, number in sorted(kinds.items()))
    print(f"{count} histories, {differing} differ: {numbers}")
    return 1 if differing else 0


if __name__ == "__main__":
    sys.exit(main())
