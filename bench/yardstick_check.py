#!/usr/bin/env python3
"""Holds the yardstick to the proved replay program: on every log here both have to print the same bytes, and what a script expects where one does.

    (cd crates/replay && rt run < /dev/null) && python3 bench/yardstick_check.py [--seed N] [--logs N] [--package DIR]

The logs: those of the samples; those of the scripts of log_test and pages_test; the records of records_test; random logs of random_test's templates, and
wilder ones; lines around every length that matters, logs that come in pieces and end anywhere; random system records. Every kind of answer has to come in the
random logs. The logs that bench/yardstick.py times are compared there.
"""
import argparse
import collections
import os
import random
import subprocess
import sys
import tempfile

import logs
import programs
import random_logs
import scripts

WORDS = ['wait', 'done', 'off', 'bad', 'stopped', 'held', 'denied', 'idle']
KINDS = WORDS + ['code 0', 'code above 0'] + ['code -%d' % n for n in (1, 2, 7, 12, 16, 17, 22, 38)]
BOOTS = ['boot 0', 'boot -12', 'boot -22', 'boot -34']
# Fewer answers of a kind say that random logs hardly try it.
ENOUGH = 20


def kind_of(answer):
    word, _, number = answer.partition(' ')
    if word == 'wait' or (word == 'code' and number.isdigit() and number != '0'):
        return 'wait' if word == 'wait' else 'code above 0'
    return answer


class Answers:
    """A program that answers line by line. Only the proved one does, which writes what it has answered whenever it reads."""

    def __init__(self, program, folder, system):
        with open(os.path.join(folder, 'system.tss'), 'wb') as f:
            f.write(system)
        self.process = programs.run(program, folder, subprocess.PIPE, subprocess.PIPE)
        self.process.stdout.readline()

    def __call__(self, line):
        self.process.stdin.write(line + b'\n')
        self.process.stdin.flush()
        return self.process.stdout.readline().decode().rstrip('\n')

    def end(self):
        self.process.communicate()


class Check:
    """Both programs, the folder that they run in, and what has been seen of the part that is being checked."""

    def __init__(self, proved, yardstick, folder):
        self.proved = proved
        self.yardstick = yardstick
        self.folder = folder
        self.seen = collections.Counter()
        self.logs = self.lines = self.wrong = 0

    def log(self, name, system, log, wanted=None, pieces=()):
        """Runs a log on both programs, and compares with what is expected, or else with the proved program."""
        with open(os.path.join(self.folder, 'system.tss'), 'wb') as f:
            f.write(system)
        outputs = [programs.output(program, self.folder, log, pieces) for program in (self.proved, self.yardstick)]
        self.logs += 1
        self.lines += outputs[0].count(b'\n') - 1
        self.seen.update(kind_of(answer) for answer in outputs[0].decode('latin-1').split('\n'))
        for output in outputs:
            reference = outputs[0] if wanted is None else wanted
            if output != reference:
                self.wrong += 1
                at, found, given = programs.first_difference(output, reference)
                line = (log.split(b'\n') + [b''])[at - 1] if at else b'(boot)'
                print('  %s, line %d, %r: %r where %r is expected' % (name, at, line[:80], found, given))

    def part(self, name, needed=()):
        """Ends a part: says how much was compared, and that each needed kind of answer came often enough."""
        rare = [kind for kind in needed if self.seen[kind] < ENOUGH]
        said = ', too rare: ' + ', '.join(rare) if rare else ''
        print('%s: %d logs, %d lines; %d differ%s' % (name, self.logs, self.lines, self.wrong, said), flush=True)
        wrong = self.wrong + len(rare)
        self.seen = collections.Counter()
        self.logs = self.lines = self.wrong = 0
        return wrong


def joined(lines):
    return b''.join(line + b'\n' for line in lines)


def expected(answers):
    """What replay prints: after a refused boot, nothing more."""
    return joined(answer.encode() for answer in answers)


def content(folder, name):
    with open(os.path.join(folder, name), 'rb') as f:
        return f.read()


def samples(check):
    for name in ('tuesday', 'hung'):
        folder = os.path.join(programs.ROOT, 'samples', name)
        check.log(name, content(folder, 'system.tss'), content(folder, name + '.log'), content(folder, 'expected.txt'))
    return check.part('the samples')


def script(check, path):
    found, left = scripts.logs_of(path)
    for log in found:
        check.log(log.name, log.system, joined(log.lines), expected(log.answers))
    return check.part('%s (%d cases are in no log)' % (path, left))


def records(check):
    """System records are booted. Cell records are created, in the system that was started last: where the reader refuses one, Create gives its code."""
    lines, answers, started = [], [], b''
    cases = list(scripts.record_cases('crates/records_test/stdin')) + [('system', 'end', b'', -22, True)]
    for reader, label, record, code, start in cases:
        if reader == 'system':
            check.log(label, record, b'poll\n', b'boot 0\nidle\n' if code == 0 else b'boot %d\n' % code)
        else:
            lines += [b'create 0 ' + record.hex().encode(), b'call 0 4 1 0'] if record else [b'call 0 1 0 0', b'poll']
            answers.append((label, code))
        if start:
            check.log('cell records before ' + label, started, joined(lines))
            given = programs.output(check.yardstick, check.folder, joined(lines)).split(b'\n')[1::2]
            refused = [(label, b'code %d' % code, answer) for (label, code), answer in zip(answers, given) if code < 0]
            for label, wanted, answer in refused:
                if answer != wanted:
                    check.wrong += 1
                    print('  %s: %r where %r is expected' % (label, answer, wanted))
            lines, answers, started = [], [], record
    return check.part('crates/records_test/stdin')


def thrown(check, seed, count):
    templates = scripts.Script('crates/random_test/stdin')
    for i in range(count):
        log = random_logs.Thrown(random.Random('%d thrown %d' % (seed, i)), templates)
        check.log('thrown %d' % i, log.system, joined(log.made()))
    return check.part('random logs of crates/random_test/stdin', KINDS + BOOTS)


def wild_log(check, dice):
    system = random_logs.system(dice)
    answers = Answers(check.proved, check.folder, system)
    lines = random_logs.Wild(dice, system, answers).made()
    answers.end()
    return system, lines


def wild(check, seed, count):
    for i in range(count):
        system, lines = wild_log(check, random.Random('%d wild %d' % (seed, i)))
        check.log('wild %d' % i, system, joined(lines))
    return check.part('wilder random logs', KINDS)


def cut(check, seed, count):
    """Logs with long lines that end anywhere and come in pieces of any sizes."""
    for i in range(count):
        dice = random.Random('%d cut %d' % (seed, i))
        system, lines = wild_log(check, dice)
        log = joined(random_logs.long_lines(dice) + lines)
        log = log[:dice.choice((len(log), dice.randrange(len(log))))]
        sizes = [dice.choice((1, 7, 64, 1400, 4400, 65535, 65536)) for _ in range(200)]
        check.log('cut %d' % i, system, log, pieces=dice.choice(((), sizes)))
    for log in (b'', b'\n', b'poll', b'poll\n\n', b'\0', b'\n' * 70000, b'poll\n' * 30000 + b'pol'):
        check.log('short %r' % log[:9], logs.system_record(), log)
    return check.part('long lines, logs in pieces and cut anywhere')


def systems(check, seed, count):
    queries = b''.join(b'call 0 5 %d 0\n' % kind for kind in range(6)) + b'call 63 5 4 0\nexit 1 0\n'
    for i in range(count):
        dice = random.Random('%d system %d' % (seed, i))
        record = random_logs.odd_system(dice) if i % 2 else random_logs.damaged(dice, random_logs.system(dice))
        check.log('system %d' % i, record, queries)
    for record in (b'', bytes(608), bytes(4096), logs.system_record() + bytes(4096), logs.system_record() + bytes(70000)):
        check.log('system of %d bytes' % len(record), record, queries)
    return check.part('random system records', BOOTS)


def arguments():
    parser = argparse.ArgumentParser(description='Holds the yardstick to the proved replay program.')
    parser.add_argument('--seed', type=int, default=logs.SEED, help='what random logs are made from (%d)' % logs.SEED)
    parser.add_argument('--logs', type=int, default=300, help='random logs of each kind, of %d lines (300)' % random_logs.LINES)
    parser.add_argument('--proved', default=programs.REPLAY, help='the proved program (crates/replay/out/replay)')
    parser.add_argument('--package', default=programs.PACKAGE, help='the yardstick (bench/yardstick); a copy with an error in it has to be found out')
    return parser.parse_args()


def main():
    options = arguments()
    with tempfile.TemporaryDirectory() as folder:
        check = Check(options.proved, programs.build(options.package), folder)
        wrong = samples(check) + script(check, 'crates/log_test/stdin') + script(check, 'crates/pages_test/stdin') + records(check)
        wrong += thrown(check, options.seed, options.logs) + wild(check, options.seed, options.logs)
        wrong += cut(check, options.seed, options.logs // 10) + systems(check, options.seed, 5 * options.logs)
    tested = subprocess.run(['cargo', 'test', '--offline', '--quiet'], cwd=options.package, stdout=subprocess.DEVNULL)
    print('cargo test: %s' % ('failed' if tested.returncode else 'passed'))
    wrong += tested.returncode != 0
    print('%d wrong' % wrong)
    sys.exit(1 if wrong else 0)


if __name__ == '__main__':
    main()
