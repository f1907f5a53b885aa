"""Functions that run a program and measure its time, for the other tools in this folder."""
import os
import statistics
import subprocess
import sys
import time


def run(command, nowhere):
    """Runs a command, with its output to the file descriptor `nowhere`. Returns its processor seconds, its wall seconds
    and its page faults. Ends this program if the command's status isn't 0."""
    start = time.perf_counter()
    child = os.posix_spawn(command[0], command, os.environ, file_actions=[(os.POSIX_SPAWN_DUP2, nowhere, 1)])
    _, status, used = os.wait4(child, 0)
    if status != 0:
        sys.exit(f"{' '.join(command)} ended with status {os.waitstatus_to_exitcode(status)}")
    return used.ru_utime + used.ru_stime, time.perf_counter() - start, used.ru_minflt


def have_equal_outputs(commands):
    """Whether all commands print the same text."""
    texts = {subprocess.run(command, capture_output=True, check=False).stdout for command in commands}
    return len(texts) == 1


def by_turns(commands, runs):
    """Runs commands by turns, `runs` times each. Returns the medians of each command's figures: processor seconds, wall
    seconds and page faults."""
    nowhere = os.open(os.devnull, os.O_RDWR)
    figures = [[] for _ in commands]
    for _ in range(runs):
        for command, of_command in zip(commands, figures):
            of_command.append(run(command, nowhere))
    os.close(nowhere)
    return [[statistics.median(column) for column in zip(*of_command)] for of_command in figures]


def measured(room, words):
    """Runs a command, with a file for its figures in the folder `room`. Returns what it prints, its processor seconds,
    and the peak of its memory in MB.

    GNU time starts the command: the peak of a process that this interpreter starts is at least the interpreter's.
    """
    used = f"{room}/used"
    timed = ["/usr/bin/time", "-q", "-f", "%U %S %M", "-o", used, *map(str, words)]
    text = subprocess.run(timed, capture_output=True, check=False).stdout
    with open(used, encoding="ascii") as file:
        user, system, kilobytes = file.read().split()
    return text, float(user) + float(system), int(kilobytes) / 1024
