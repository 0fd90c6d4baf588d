#!/usr/bin/env python3
"""Tries the replay program on what cannot be read or written, and checks both outputs.

    (cd crates/replay && rt run < /dev/null) && python3 bench/replay_errors.py

Standard output has to be what document 01 gives, and standard error one sentence, or nothing where all could be read and written.
"""
import os
import shutil
import subprocess
import sys
import tempfile

ROOT = os.path.dirname(os.path.dirname(os.path.abspath(__file__)))
REPLAY = os.path.join(ROOT, 'crates', 'replay', 'out', 'replay')
SYSTEM = os.path.join(ROOT, 'crates', 'replay', 'data', 'system.tss')
LOG = b'call 0 5 4 0\ncall 0 8 0 0\npoll'
ANSWERS = b'boot 0\ncode 1\ncode -38\nidle\n'
OPENED = b'replay: system.tss cannot be opened, so the system record is empty: '
READ = b'replay: system.tss cannot be read, so the system record is empty: '
BROKEN = b'replay: the log breaks off here, it cannot be read further: '
WRITTEN = b'replay: the answers cannot be written, so the replay stops here: '


def run(folder, stdin, stdout=subprocess.PIPE, closed=()):
    """The program's two outputs, with some of its descriptors closed."""
    def close():
        for fd in closed:
            os.close(fd)
    done = subprocess.run([REPLAY], cwd=folder, stdin=stdin, stdout=stdout, stderr=subprocess.PIPE, preexec_fn=close)
    return done.stdout or b'', done.stderr


def cases(folder):
    """Name, the two outputs, the standard output and the standard error that are expected."""
    log = os.path.join(folder, 'log')
    with open(log, 'wb') as f:
        f.write(LOG)
    system = os.path.join(folder, 'system.tss')
    shutil.copy(SYSTEM, system)
    with open(log) as f:
        yield 'all can be read and written', run(folder, f), ANSWERS, b''
    directory = os.open(folder, os.O_RDONLY)
    yield 'the log is a directory', run(folder, directory), b'boot 0\n', BROKEN + b'Is a directory\n'
    os.close(directory)
    yield 'standard input is closed', run(folder, None, closed=(0,)), b'boot 0\n', BROKEN + b'Bad file descriptor\n'
    with open(log) as f, open('/dev/full', 'wb') as full:
        yield 'standard output is a full device', run(folder, f, full), b'', WRITTEN + b'No space left on device\n'
    with open(log) as f:
        yield 'standard output is closed', run(folder, f, None, closed=(1,)), b'', WRITTEN + b'Bad file descriptor\n'
    os.remove(system)
    with open(log) as f:
        yield 'there is no system.tss', run(folder, f), b'boot -22\n', OPENED + b'No such file or directory\n'
    os.mkdir(system)
    with open(log) as f:
        yield 'system.tss is a directory', run(folder, f), b'boot -22\n', READ + b'Is a directory\n'


def main():
    wrong = 0
    with tempfile.TemporaryDirectory() as folder:
        for name, found, stdout, stderr in cases(folder):
            right = found == (stdout, stderr)
            wrong += not right
            print('%s: %s' % (name, 'ok' if right else 'WRONG: %r' % (found,)))
    sys.exit(1 if wrong else 0)


if __name__ == '__main__':
    main()
