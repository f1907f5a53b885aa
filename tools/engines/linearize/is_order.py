#!/usr/bin/env python3
"""Checks that a history of version 1 is an order of the calls of a history of version 2.

    tools/engines/linearize/is_order.py OVERLAPPING ORDER

ORDER must have each call of OVERLAPPING once, and no call after one that began when it had ended. Whether ORDER is a
legal history is for `meshrun check`. The status is 1 if it isn't such an order; a line on standard error then has the
reason.
"""
import collections
import sys


def main():
    overlapping, order = (open(path, encoding="ascii").read().splitlines() for path in sys.argv[1:])
    stamps = collections.defaultdict(collections.deque)
    for line in overlapping[1:]:
        worker, begin, end, call = line.split(" ", 3)
        stamps[f"{worker} {call}"].append((int(begin), int(end)))
    if order[0] != "history 1" or len(order) != len(overlapping):
        sys.exit("another head, or another number of calls")
    begun = 0
    for line in order[1:]:
        if not stamps[line]:
            sys.exit(f"no such call is left: {line}")
        begin, end = stamps[line].popleft()
        if end < begun:
            sys.exit(f"behind a call that began at {begun}: {line}")
        begun = max(begun, begin)


main()
