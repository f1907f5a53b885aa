#!/bin/sh
# Measures explorations by the program and by the plain engine on the same jobs, one after the other in one run.
#
#     tools/bench/explore.sh [PROGRAM]
#
# PROGRAM is by default crates/meshrun/out/meshrun. The plain engine is tools/engines/explore/reference.cpp.
#
# Each line of the output has the job, its states, and for the program its processor seconds, states a second and bytes
# a state, and the ratio of the seconds to the engine's. The bytes are those of the peak of memory above the
# smallest job's. The status is 1 if the two print different texts, and 2 if there is no program or the engine can't be
# compiled. It needs GNU time and a C++ compiler (CXX, by default g++).

. "$(dirname "$0")/../program.sh"
find_program "$1"
make_room
"${CXX:-g++}" -O2 -std=c++17 -o "$room/reference" tools/engines/explore/reference.cpp || exit 2

# The jobs: workers that store to one object and load it, once with 1,024 other objects; twelve workers with a command
# each; and a plan that runs all commands, so that nothing is left to explore.
python3 - "$room" <<'END'
import sys
room = sys.argv[1]
def job(name, lines):
    with open(f'{room}/{name}.job', 'w') as file:
        file.write('\n'.join(lines) + '\n')
filled = [*(f'new {cell} 2048 0' for cell in range(4)), 'free 0', 'free 3',
          *(f'new {cell} 1024 0' for cell in range(4, 12)), *(f'free {cell}' for cell in (4, 9, 10, 11))]
others = [f'new {20 + k % 200} 16 0' for k in range(1024)]
def racing(name, workers, each, initial):
    lines = []
    for worker in range(workers):
        commands = [line for k in (1, 3) for line in (f'put 2 {worker} {worker}{k}', f'get 2 0 {max(workers, 3)}')]
        lines += [f'worker {worker}', *(initial if worker == 0 else []), *commands[:each]]
    head = ['mesh 2', 'pages 64', 'history 2000', f'workers {workers}']
    job(name, [*head, *lines, 'plan', *['run 0'] * len(initial), 'end'])
racing('three_of_two', 3, 2, filled + others)
racing('three_of_three', 3, 3, filled)
racing('three_of_four', 3, 4, filled)
racing('four_of_three', 4, 3, filled)
two = ['new 0 2048 0', 'new 1 2048 0', 'new 2 2048 0', 'new 3 2048 0', 'free 0', 'free 3']
workers = [line for worker in range(1, 12) for line in (f'worker {worker}', f'put 2 {worker} {worker:02x}')]
job('workers', ['mesh 2', 'pages 64', 'history 400', 'workers 12', 'worker 0', *two, 'put 2 0 aa', *workers,
                'plan', *['run 0'] * 6, 'end'])
job('long_plan', ['mesh 2', 'pages 64', 'history 65535', 'workers 1', 'worker 0', *['addr 0'] * 65534,
                  'plan', *['run 0'] * 65534, 'end'])
END

exec python3 tools/bench/explore_times.py "$program" "$room"
