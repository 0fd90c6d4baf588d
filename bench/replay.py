#!/usr/bin/env python3
"""Times the replay program on generated logs, each beside its malformed twin: a log of the same line lengths in which every line is malformed.

    (cd crates/replay && rt run < /dev/null) && python3 bench/replay.py [--lines N] [--live N] [--regions N]

Every answer to a log and to its twin is compared with what document 01 gives before anything is timed. Prints, from one run on one machine, the
time of each log as a multiple of its twin's: the least of five runs of each, taken in turn.
"""
import argparse
import os
import subprocess
import sys
import tempfile
import time

import logs

ROOT = os.path.dirname(os.path.dirname(os.path.abspath(__file__)))
REPLAY = os.path.join(ROOT, 'crates', 'replay', 'out', 'replay')
RUNS = 5
KINDS = [
    ('queries', logs.queries, 2),
    ('stores', logs.stores, 2),
    ('exits', logs.exits, 2),
    ('faults, with starts', logs.faults, None),
    ('polls, idle', logs.idle_polls, 2),
    ('polls, waiting and not heard', logs.waiting_polls, 2),
    ('polls, heard every few dozen', logs.heard_polls, 2),
    ('creates with destroys', logs.creates, 6),
    ('starts with set-loadables', logs.starts, 4),
]


def write(path, lines):
    with open(path, 'w') as f:
        f.write('\n'.join(lines) + '\n')


def run(folder, log, stdout):
    with open(os.path.join(folder, log)) as stdin:
        subprocess.run([REPLAY], cwd=folder, stdin=stdin, stdout=stdout, check=True)


def check(folder, log, answers):
    """Compares the program's answers with those expected, and stops at the first that differs."""
    path = os.path.join(folder, 'answers')
    with open(path, 'w') as f:
        run(folder, log, f)
    with open(path) as f:
        given = f.read().split('\n')
    wanted = ['boot 0'] + answers + ['']
    if given != wanted:
        at = next((i for i, (a, b) in enumerate(zip(given, wanted)) if a != b), min(len(given), len(wanted)))
        sys.exit('%s, line %d: %r where %r is expected' % (log, at, given[at:at + 1], wanted[at:at + 1]))


def seconds(folder, log):
    begin = time.perf_counter()
    run(folder, log, subprocess.DEVNULL)
    return time.perf_counter() - begin


def multiple(folder, kind, options):
    """The log's time as a multiple of its twin's, after both have been checked."""
    log = logs.made(kind, options.lines, options.live, options.regions)
    write(os.path.join(folder, 'log'), log.lines)
    write(os.path.join(folder, 'twin'), ['x' + line[1:] for line in log.lines])
    check(folder, 'log', log.answers)
    check(folder, 'twin', ['bad'] * len(log.lines))
    times = [(seconds(folder, 'log'), seconds(folder, 'twin')) for _ in range(RUNS)]
    return min(t for t, _ in times) / min(t for _, t in times)


def arguments():
    parser = argparse.ArgumentParser(description='Times the replay program against malformed twins of its logs.')
    parser.add_argument('--lines', type=int, default=300000, help='lines of a log (300000; a day has 1000000)')
    parser.add_argument('--live', type=int, default=1, choices=range(1, 16), metavar='1..15', help='live cells (1)')
    parser.add_argument('--regions', type=int, default=3, help='regions of a cell, its communication region among them (3)')
    return parser.parse_args()


def main():
    options = arguments()
    with tempfile.TemporaryDirectory() as folder:
        with open(os.path.join(folder, 'system.tss'), 'wb') as f:
            f.write(logs.system_record())
        print('| log of %d lines, %d live, %d regions | multiple of its malformed twin | goal |' % (options.lines, options.live, options.regions))
        print('|---|---|---|', flush=True)
        for name, kind, goal in KINDS:
            print('| %s | %.2f | %s |' % (name, multiple(folder, kind, options), 'at most %d' % goal if goal else '-'), flush=True)


if __name__ == '__main__':
    main()
