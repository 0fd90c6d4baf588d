"""Reads the scripts of the test programs: the file `stdin` of log_test, pages_test, records_test and random_test. README, "How a case is added", and
each file's head say what their lines are."""
import os
import re

import programs

QUESTIONS = ('owner', 'touch', 'map', 'word', 'read', 'leaf', 'count', 'free')
WORD = re.compile(r'"([^"]*)"|(\S+)')
WIDTHS = {'b': 1, 'w': 2, 'd': 4, 'q': 8}


class Record:
    """Bytes under construction: the first `length` of those that words have put; the others are zeros."""

    def __init__(self, bytes_=b'', length=0):
        self.bytes = bytearray(bytes_)
        self.length = length

    def put(self, at, bytes_):
        self.bytes.extend(bytes(max(0, at + len(bytes_) - len(self.bytes))))
        self.bytes[at:at + len(bytes_)] = bytes_

    def changed(self, words):
        """The record that words make of this one."""
        record = Record(self.bytes, self.length)
        at = 0
        for text, word in WORD.findall(words):
            kind, number = (word[0], word[1:]) if word else ('"', '')
            if kind == '@':
                at = int(number, 0)
            elif kind == '#':
                record.length = int(number, 0)
            elif kind not in '=!':
                part = text.encode() if kind == '"' else int(number, 0).to_bytes(WIDTHS[kind], 'little')
                record.put(at, part)
                at += len(part)
        return record

    def made(self):
        return bytes(self.bytes[:self.length]).ljust(self.length, b'\0')


class Script:
    """The lines of a script and the records that it names."""

    def __init__(self, path):
        with open(os.path.join(programs.ROOT, path), encoding='latin-1') as f:
            self.lines = f.read().split('\n')
        named = [line.split(' ', 3) for line in self.lines if line.startswith('record ')]
        self.said = {words[1]: words[3] for words in named}

    def record(self, name):
        base, _, words = self.said[name].partition(' ')
        return (Record() if base == 'nothing' else self.record(base)).changed(words)

    def expanded(self, line):
        """The bytes of a line: @NAME is a record in HEX, \\xNN a byte."""
        text = re.sub('@([a-z0-9-]+)', lambda found: self.record(found.group(1)).made().hex(), line)
        return re.sub(r'\\x(..)', lambda found: chr(int(found.group(1), 16)), text).encode('latin-1')

    def starting(self, word):
        """The lines that begin with a word, without it."""
        return [line[len(word) + 1:] for line in self.lines if line.startswith(word + ' ')]


class Log:
    """A log with the system record that it starts from, and the answers that its script gives, boot's first."""

    def __init__(self, name, system, answers):
        self.name = name
        self.system = system
        self.lines = []
        self.answers = answers

    def add(self, line, answer):
        self.lines.append(line)
        self.answers.append(answer)


def logs_of(path):
    """The logs of a script, one for each boot, and how many of its cases are in none: those before a boot or after a refused one, which the replay program
    does not answer, and those after a line `counter`, which no log can bring about. `times N` is N lines. Page questions and the like are no events and
    are passed over."""
    script, logs, log, left = Script(path), [], None, 0
    for at, line in enumerate(script.lines):
        asked, mark, answer = line.partition(' > ')
        first = asked.split(' ')[0]
        if line.startswith('counter '):
            log = None
        if not mark or line.startswith(('#', 'record ')) or first in QUESTIONS:
            continue
        if first == 'boot' and asked.startswith('boot @'):
            log = Log('%s, line %d' % (path, at + 1), script.record(asked[6:]).made(), [answer])
            logs.append(log)
        elif log is None or log.answers[0] != 'boot 0':
            left += 1
        else:
            _, times, event = asked.split(' ', 2) if first == 'times' else ('', 1, asked)
            for _ in range(int(times)):
                log.add(script.expanded(event), answer)
    return logs, left


def record_cases(path):
    """The cases of records_test: reader, label, record, code, and whether the system is started."""
    kept = {'system': Record(), 'cell': Record()}
    for line in Script(path).lines:
        found = re.fullmatch(r'(system|cell) ([^:]*):(.*) > (-?\d+)', line)
        if found:
            reader, label, words, code = found.groups()
            record = kept[reader].changed(words)
            plain = re.sub('"[^"]*"', '', words).split()
            if '=' in plain:
                kept[reader] = record
            yield reader, label, record.made(), int(code), '!' in plain
