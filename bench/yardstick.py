#!/usr/bin/env python3
"""Times the proved replay program against the yardstick, a replay in ordinary Rust, on the same generated logs (change request C-20).

    (cd crates/replay && rt run < /dev/null) && python3 bench/yardstick.py [--lines N] [--live N,N] [--regions N,N] [--seed N]

Both are optimised builds: `rt run` in crates/replay proves, compiles and links crates/replay/out/replay, and cargo builds the yardstick here. Each log is made from the
seed with the answers that document 01 gives; both programs have to print exactly these before either is timed. Then they take turns, five runs each, and
the least time counts. The ratio is the proved program's time divided by the yardstick's, once by the clock and once by the CPU time that the system
charged, which other work on the machine disturbs less. A log of creates has fewer lines where its records are long or meet many regions.
"""
import argparse
import os
import sys
import tempfile

import logs
import programs

RUNS = 5
LONGEST_LOG = 50 * 10 ** 6
MOST_PAIRS = 10 ** 8
KINDS = [
    ('queries', logs.queries),
    ('stores', logs.stores),
    ('creates, each with a start and a destroy', logs.creates_and_starts),
    ('polls, a cell heard every few dozen', logs.heard_polls),
    ('a mixed day', logs.day),
]


def lines_for(kind, options, live, regions):
    """A third of the lines of `creates_and_starts` bring a record in HEX, whose regions are compared with each other and with those of the live cells."""
    record = 2 * (56 + 32 * regions) + 30
    few = 3 * min(LONGEST_LOG // record, MOST_PAIRS // (live * regions ** 2))
    return min(options.lines, few) if kind == logs.creates_and_starts else options.lines


def write(folder, log):
    path = os.path.join(folder, 'log')
    with open(path, 'w') as f:
        f.write('\n'.join(log.lines) + '\n')
    return path


def check(program, folder, path, wanted):
    """Holds the bytes that a program prints to the answers that are expected."""
    given = os.path.join(folder, 'answers')
    with open(path, 'rb') as log, open(given, 'wb') as answers:
        programs.run(program, folder, log, answers).wait()
    with open(given, 'rb') as answers:
        found = answers.read()
    if found != wanted:
        sys.exit('%s, line %d of the log: %r where %r is expected' % ((program,) + programs.first_difference(found, wanted)))


def least(folder, path, both):
    """The least elapsed and the least CPU time of each program; they take turns."""
    runs = [[programs.seconds(program, folder, path) for program in both] for _ in range(RUNS)]
    return [tuple(min(run[i][what] for run in runs) for what in (0, 1)) for i in (0, 1)]


def row(folder, both, name, log):
    path = write(folder, log)
    wanted = ('\n'.join(['boot 0'] + log.answers) + '\n').encode()
    for program in both:
        check(program, folder, path, wanted)
    proved, rust = least(folder, path, both)
    memory = [programs.peak(program, folder, path) for program in both]
    print('| %s | %d | %.3f | %.3f | %.2f | %.2f | %d | %d |' % (
        name, len(log.lines), proved[0], rust[0], proved[0] / rust[0], proved[1] / rust[1], memory[0], memory[1]), flush=True)


def numbers(text):
    return [int(word) for word in text.split(',')]


def arguments():
    parser = argparse.ArgumentParser(description='Times the proved replay program against a replay in ordinary Rust.')
    parser.add_argument('--lines', type=int, default=1000000, help='lines of a log (1000000)')
    parser.add_argument('--live', type=numbers, default=[1, 15], help='live cells, at most 15 (1,15)')
    parser.add_argument('--regions', type=numbers, default=[3, 64], help='regions of a cell, at most 64 (3,64)')
    parser.add_argument('--seed', type=int, default=logs.SEED, help='what the logs are made from (%d)' % logs.SEED)
    parser.add_argument('--proved', default=programs.REPLAY, help='the proved program (crates/replay/out/replay)')
    return parser.parse_args()


def main():
    options = arguments()
    both = (options.proved, programs.build())
    with tempfile.TemporaryDirectory() as folder:
        with open(os.path.join(folder, 'system.tss'), 'wb') as f:
            f.write(logs.system_record())
        for live, regions in ((live, regions) for regions in options.regions for live in options.live):
            print('\n%d live, %d regions each\n' % (live, regions))
            print('| log | lines | proved, s | Rust, s | ratio | ratio of CPU times | proved, KiB | Rust, KiB |')
            print('|---|---|---|---|---|---|---|---|', flush=True)
            for name, kind in KINDS:
                row(folder, both, name, logs.made(kind, lines_for(kind, options, live, regions), live, regions, options.seed))


if __name__ == '__main__':
    main()
