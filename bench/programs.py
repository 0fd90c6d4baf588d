"""The two programs that the yardstick's benches run: the proved replay program and the yardstick, a replay in ordinary Rust."""
import array
import fcntl
import itertools
import os
import shutil
import subprocess
import termios
import time

ROOT = os.path.dirname(os.path.dirname(os.path.abspath(__file__)))
REPLAY = os.path.join(ROOT, 'crates', 'replay', 'out', 'replay')
PACKAGE = os.path.join(ROOT, 'bench', 'yardstick')


def build(package=PACKAGE):
    """Builds the yardstick, and gives its path."""
    target = os.path.join(package, 'target')
    subprocess.run(['cargo', 'build', '--release', '--offline', '--quiet', '--target-dir', target], cwd=package, check=True)
    return os.path.join(target, 'release', 'yardstick')


def run(program, folder, stdin, stdout):
    """Starts a program in a folder that has a system.tss."""
    return subprocess.Popen([program], cwd=folder, stdin=stdin, stdout=stdout, stderr=subprocess.DEVNULL)


def output(program, folder, log, pieces=()):
    """What a program prints for the bytes of a log, which come in pieces of these sizes, and what is left of them at once."""
    with run(program, folder, subprocess.PIPE, subprocess.PIPE) as process:
        at = 0
        try:
            for size in pieces:
                at += os.write(process.stdin.fileno(), log[at:at + size])
        except BrokenPipeError:
            # It has ended before the log has.
            pass
        return process.communicate(log[at:])[0]


def first_difference(found, wanted):
    """The number of the first line in which two outputs differ, and both lines; boot's answer is line 0."""
    pairs = itertools.zip_longest(found.split(b'\n'), wanted.split(b'\n'))
    return next((at, a, b) for at, (a, b) in enumerate(pairs) if a != b)


def seconds(program, folder, path):
    """Elapsed time and CPU time, both in seconds, of a program that reads a file and whose answers nobody reads."""
    with open(path, 'rb') as log:
        begin = time.perf_counter()
        process = run(program, folder, log, subprocess.DEVNULL)
        _, status, used = os.wait4(process.pid, 0)
        elapsed = time.perf_counter() - begin
    process.returncode = os.waitstatus_to_exitcode(status)
    if process.returncode:
        raise SystemExit('%s ended with %d' % (program, process.returncode))
    return elapsed, used.ru_utime + used.ru_stime


def peak(program, folder, path):
    """The most memory, in KiB, that a program had when it had read the whole of a file. It is asked before the program ends: what the system
    tells of a process that has ended counts the memory of the one that started it."""
    with run(program, folder, subprocess.PIPE, subprocess.DEVNULL) as process:
        with open(path, 'rb') as log:
            shutil.copyfileobj(log, process.stdin, 1 << 20)
        process.stdin.flush()
        unread = array.array('i', [1])
        while unread[0]:
            fcntl.ioctl(process.stdin, termios.FIONREAD, unread)
        with open('/proc/%d/status' % process.pid) as status:
            return int(next(line for line in status if line.startswith('VmHWM')).split()[1])
