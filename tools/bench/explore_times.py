"""Runs explorations by the program and by the plain engine, for tools/bench/explore.sh.

    explore_times.py PROGRAM ROOM

ROOM is the folder of the jobs and of the plain engine, `reference`. The output and the status are those of explore.sh.
"""
import sys

from timed import measured

program, room = sys.argv[1:]
reference = f"{room}/reference"
MOST = ["--states", "10000000"]
SMALLEST = ("jobs/explore/store_and_copy.job", ["--mesh", "1:0"])
JOBS = [
    ("three_pages", "jobs/explore/three_pages.job", open("jobs/explore/three_pages.args").read().split()),
    ("six_and_six", "jobs/explore/six_and_six.job", open("jobs/explore/six_and_six.args").read().split()),
    ("3 workers, 3 racing commands", f"{room}/three_of_three.job", ["--mesh", "1:0"]),
    ("3 workers, 4 racing commands", f"{room}/three_of_four.job", ["--mesh", "1:0"]),
    ("4 workers, 3 racing commands", f"{room}/four_of_three.job", ["--mesh", "1:0"]),
    ("3 of 2, 1,024 other objects", f"{room}/three_of_two.job", ["--mesh", "1:0"]),
    ("12 workers, a command each", f"{room}/workers.job", ["--mesh", "1:0"]),
    ("a plan of 65,534 lines", f"{room}/long_plan.job", ["--mesh", "1:0"]),
]


def main():
    """Prints a line for each job. Returns whether the two always print the same."""
    job, words = SMALLEST
    least = measured(room, [program, "explore", job, *words])[2]
    alike = True
    print(f"{'job':30} {'states':>8} {'seconds':>8} {'states/s':>9} {'bytes/state':>11} {'ratio':>6}")
    for name, job, words in JOBS:
        ours, seconds, peak = measured(room, [program, "explore", job, *words, *MOST])
        theirs, plain, _ = measured(room, [reference, job, *words, *MOST])
        if not ours or ours != theirs:
            print(f"{name:30} differs")
            alike = False
            continue
        states = int(ours.split(b"\n")[0].split()[-1])
        bytes_each = max(peak - least, 0) * 1024 * 1024 / states
        speed, ratio = states / max(seconds, 0.01), seconds / max(plain, 0.01)
        print(f"{name:30} {states:8} {seconds:8.2f} {speed:9.0f} {bytes_each:11.0f} {ratio:6.1f}")
    return alike


sys.exit(0 if main() else 1)
