"""Random system records and logs, made from a seed, for two replays to be held to each other: every event, records with and without damage, many
cells, calls that wait, replies, denials, locks, faults, lines that are not well formed. What a log is to be answered is not known here."""
import logs

PAGE = 4096
WINDOW = 0x100
ROOM = 0x80
LINES = 400
COMM = 11
FLAGS = [1, 1, 1, 1, 3, 5, 7, 17, 23, 33, 35]
ODD_FLAGS = FLAGS + [37, 39, 0, 2, 9, 49, 71, 1 << 32 | 1]
NUMBERS = [0, 1, 2, 3, 4, 5, 7, 8, 15, 16, 63, 64, 255, 256, 257, 1000, 1005, 1006, 2 ** 31, 2 ** 32 - 1, 2 ** 32, 2 ** 32 + 1, 2 ** 63,
           2 ** 64 - 1, 2 ** 64, 2 ** 64 + 1, 10 ** 19, 10 ** 20, 5 * 10 ** 20]
BYTES = b' 0123456789abcdefx-+\t\r\0\xff'


def damaged(random, record):
    """A record with other bytes, or another length."""
    record = bytearray(record)
    for _ in range(random.choice((1, 1, 2, 3))):
        if record and random.random() < 0.8:
            record[random.randrange(min(len(record), random.choice((60, 100, 3000))))] = random.choice((0, 1, 2, 16, 128, 255, random.randrange(256)))
        else:
            length = random.choice((0, len(record) - 1, len(record) + 1, len(record) + 32, 568, 600, 2104, 2105, 2136, random.randrange(2200)))
            record = record[:max(length, 0)].ljust(length, b'\0')
    return bytes(record)


def boot_regions(random):
    """One region below the hypervisor's memory, or several that touch in the cells' window."""
    if random.random() < 0.5:
        return [logs.region(0, 0, logs.MEMORY_END, 7)]
    cuts = sorted(random.sample(range(WINDOW, WINDOW + 3 * ROOM), random.choice((1, 2, 4, 15))))
    ends = [0] + [cut * PAGE for cut in cuts] + [logs.MEMORY_END]
    return [logs.region(a, a, b - a, random.choice((1, 3, 7))) for a, b in zip(ends, ends[1:])]


def system(random):
    """A system record that is accepted."""
    possible = random.choice((2, 4, 8, 16, 64))
    cpus = random.choice(((1 << possible) - 1, random.getrandbits(possible) | 1 << random.randrange(possible)))
    pool = random.choice((30, 60, 200, 20000, 2 ** 31 - 1))
    return logs.system_record(cpus, possible, pool, random.randrange(30), boot_regions(random), random.choice((b'court', b'a', b'root')))


def odd_system(random):
    """A system record of which any rule may be broken."""
    near = (0, 1, 2 ** 31 - 1, 2 ** 31, 2 ** 32 - 1, 100)
    regions = boot_regions(random) if random.random() < 0.5 else [region(random, i, 0) for i in range(random.choice((0, 1, 2, 16, 17)))]
    possible = random.choice((0, 1, 4, 63, 64, 65, 257))
    cpus = random.choice((0, 1, 15, 1 << 63, 2 ** 64 - 1, random.getrandbits(64), random.getrandbits(possible % 65)))
    record = logs.system_record(cpus, possible, random.choice(near), random.choice(near), regions, b'court')
    return damaged(random, record) if random.random() < 0.4 else record


def region(random, place, base, odd=True):
    """A region of a page or two in a window of memory, apart from those in other places. An odd one may be anywhere and break any rule."""
    start, address, size = WINDOW + base + 2 * place, 16 * place, random.choice((1, 2))
    if not odd:
        return logs.region(start * PAGE, address * PAGE, size * PAGE, random.choice(FLAGS))
    start = random.choice((start, WINDOW + base + random.randrange(ROOM)))
    part = [start * PAGE, random.choice((address, random.randrange(64))) * PAGE, size * PAGE, random.choice(ODD_FLAGS)]
    if random.random() < 0.1:
        part[random.randrange(3)] += random.choice((1, PAGE // 2, logs.MEMORY_END, 2 ** 48 - PAGE, 2 ** 64 - PAGE)) - PAGE
    return logs.region(*(number % 2 ** 64 for number in part))


def comms(random):
    """A communication region mostly, none, or two."""
    count = random.choices((1, 0, 2), (88, 11, 1))[0]
    return [logs.region(0, (0x8000 + 4 * i) * PAGE, PAGE, COMM) for i in range(count)]


class Wild:
    """A log of anything, made while a program answers it: `answered` gives the answer to a line. So it is known which cells there are and who is waited
    for, and a log comes far. The answers choose lines and are held to nothing here."""

    def __init__(self, random, record, answered):
        self.random = random
        self.answered = answered
        mask = int.from_bytes(record[40:48], 'little')
        self.cpus = [cpu for cpu in range(64) if mask >> cpu & 1]
        self.caller = self.cpus[0]
        self.cells = {}
        self.created = None
        self.destroyed = None
        self.waited = None
        self.off = 0
        self.lines = []

    def chance(self, percent):
        return self.random.random() * 100 < percent

    def number(self, usual):
        return self.random.choice(usual) if self.chance(96) else self.random.choice(NUMBERS)

    def root(self):
        return self.caller if self.chance(90) else self.number(self.cpus)

    def cpu_of(self, cell):
        return self.random.choice(self.cells.get(cell) or self.cpus)

    def cpu(self):
        """A cell's CPU mostly."""
        return self.cpu_of(self.random.choice(list(self.cells) or [0])) if self.chance(90) else self.number(self.cpus)

    def id(self):
        return self.random.choice(list(self.cells) or [1]) if self.chance(80) else self.number(range(17))

    def roots(self):
        """Root's CPUs as far as is known; all where it has none."""
        taken = {cpu for cpus in self.cells.values() for cpu in cpus}
        return [cpu for cpu in self.cpus if cpu not in taken] or self.cpus

    def free_cpus(self):
        free = [cpu for cpu in self.roots() if cpu != self.caller] if self.chance(90) else self.cpus
        return self.random.sample(free, min(len(free), self.random.choice((1, 1, 1, 2, 3))))

    def record(self, cpus):
        """A cell record: in its own part of the window mostly, where others are not."""
        random = self.random
        count = random.choice((0, 0, 1, 1, 2, 3)) if self.chance(90) else random.choice((14, 15, 16, 62, 63, 64))
        base = ROOM * random.randrange(random.choice((3, 40, 40)))
        odd = self.chance(25)
        regions = [region(random, i, base, odd) for i in range(count)] + comms(random)
        random.shuffle(regions)
        passive = self.chance(20) or (len(regions) == count and self.chance(90))
        mask = logs.mask(cpus) if self.chance(98) else random.choice((0, 1 << 63, random.getrandbits(64)))
        version, limit = random.choice(((2, 0), (2, 1), (2, 2), (2, 5), (2, 65535), (1, 1), (3, 0))) if self.chance(40) else (1, 0)
        record = logs.cell_record(random.choice('abcdefghijklmnopqrstuvwxyz'), mask, regions, passive, version, limit)
        return damaged(random, record) if self.chance(5) else record

    def add(self, form, *values):
        self.add_bytes((form % values).encode())

    def add_bytes(self, line):
        """Adds a line, and notes what its answer says of the machine."""
        self.lines.append(line)
        word, _, number = self.answered(line).partition(' ')
        self.off += word == 'off'
        if word == 'stopped' and self.chance(10):
            self.caller = self.random.choice(self.roots())
        if word == 'wait':
            self.waited = int(number)
        if word == 'code':
            self.waited = None if line == b'poll' else self.waited
            self.ended(int(number))

    def ended(self, code):
        """A call has ended with the last line, unless one waits: a create or a destroy among others."""
        if self.waited is None:
            if self.created and code > 0:
                self.cells[code] = self.created
            if self.destroyed and code == 0:
                self.cells.pop(self.destroyed, None)
            self.created = self.destroyed = None

    def create(self):
        cpus = self.free_cpus()
        if not cpus and self.chance(90):
            return
        if self.waited is None:
            self.created, self.destroyed = cpus, None
        self.add('create %d %s', self.root(), self.record(cpus).hex())

    def ask(self):
        code = 0 if self.chance(1) else self.random.choice((2, 2, 2, 2, 3, 4))
        cell = self.id()
        if self.waited is None:
            self.created, self.destroyed = None, cell if code == 4 else None
        self.add('call %d %d %d %d', self.root(), code, cell, self.number((0,)))

    def query(self):
        cpu = self.random.choice((self.root(), self.cpu()))
        code = self.number((5, 6, 7))
        first = {5: range(6), 6: list(self.cells) or [0], 7: [cpu, self.random.choice(self.cpus)]}.get(code, [0])
        self.add('call %d %d %d %d', cpu, code, self.number(first), self.number((0, 1000, 1001, 1002, 1003, 1004, 1005)))

    def store(self):
        word = self.number((0, 1, 1, 2, 2))
        self.add('store %d %d %d', self.cpu(), word, self.number((0, 0, 0, 0, 1, 2, 3, 7) if word == 2 else (0, 1, 2, 3, 4)))

    def unlock(self):
        for cell in self.cells:
            self.add('store %d 2 0', self.cpu_of(cell))

    def exit(self):
        self.add('exit %d %d', self.random.choice((self.root(), self.cpu())), self.number(range(4)))

    def fault(self):
        self.add('fault %d', self.cpu() if self.chance(97) else self.root())

    def poll(self):
        self.add('poll')

    def reply(self):
        """The cell that is waited for replies."""
        self.add('store %d 1 %d', self.cpu_of(self.waited), self.random.choice((3, 3, 3, 3, 3, 3, 2, 4, 0, 2 ** 32 - 1)))

    def spoiled(self):
        """A line that came before, with a few bytes changed."""
        line = bytearray(self.random.choice(self.lines) if self.lines else b'poll')
        for _ in range(self.random.choice((1, 1, 2))):
            at = self.random.randrange(min(len(line), 40) + 1)
            line[at:at + self.random.choice((0, 1))] = self.random.choice((b'', bytes([self.random.choice(BYTES)])))
        self.add_bytes(bytes(line))

    def made(self):
        always = [self.query, self.store, self.exit, self.fault, self.spoiled, self.create, self.ask, self.poll]
        while len(self.lines) < LINES and self.off < 10:
            if self.waited is None:
                self.random.choices(always + [self.unlock], (20, 12, 6, 2, 3, 20, 30, 2, 3))[0]()
            else:
                self.random.choices(always + [self.reply], (8, 8, 4, 1, 1, 2, 2, 40, 25))[0]()
        return self.lines


class Thrown:
    """A log of the templates and lists that random_test has in its script."""

    def __init__(self, random, script):
        self.random = random
        self.script = script
        self.lists = dict(text.split(' = ') for text in script.starting('list'))
        self.templates = script.starting('line')
        self.system = script.record(self.pick('system')[1:]).made()

    def pick(self, name):
        return self.random.choice(self.lists[name].split())

    def word(self, word):
        if word[0] == '$':
            return self.script.expanded(self.pick(word[1:]))
        if word[0] == '~':
            return damaged(self.random, self.script.record(self.pick(word[1:])[1:]).made()).hex().encode()
        return self.script.expanded(word)

    def made(self):
        chosen = (self.random.choice(self.templates) for _ in range(LINES))
        return [b' '.join(self.word(word) for word in template.split(' ')) for template in chosen]


def long_lines(random):
    """A log of lines around the lengths that a line may have and that a program may read at once, well formed or not."""
    lines = []
    for length in (1398, 1399, 1400, 1401, 1402, 4398, 4399, 4400, 4401, 4402, 5000, 65535, 65536, 65537, 140000):
        head = random.choice((b'create 0 ', b'create 10 '))
        digits = length - len(head)
        lines += [head + b'00' * (digits // 2) + b'0' * (digits % 2), b'call 0 5 4 0', b'x' * length, b'poll']
    random.shuffle(lines)
    return lines
