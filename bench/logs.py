"""Machines, cells and logs for the benches. A log is made from a seed, and each of its lines comes with the answer that document 01 gives it.

The machine has 64 CPUs, and root keeps CPUs 0 to 3. Cell N has its own 16 MiB of memory, half of it used by regions.
"""
import random
import struct

SEED = 20
CPUS = 64
ROOT_CPUS = 4
POOL, POOL_USED = 20000, 10
REMAP, REMAP_USED = 300, 7
MEMORY_END = 0x3f000000
CELL_MEMORY = 0x1000000
RUNNING, LOCKED, SHUT_DOWN, FAILED = 0, 1, 2, 3
DISABLE, CREATE, START, SET_LOADABLE, DESTROY, GET_INFO, GET_STATE, CPU_GET_INFO = range(8)


def region(start, address, size, flags):
    return struct.pack('<QQQQ', start, address, size, flags)


def system_record(cpus=(1 << CPUS) - 1, possible=CPUS, pool=POOL, used=POOL_USED, regions=None, name=b'court'):
    """One boot region below the hypervisor's memory, unless others are given."""
    regions = [region(0, 0, MEMORY_END, 7)] if regions is None else regions
    head = struct.pack('<3sxHH32sQH6xQQIIIIH6x', b'TSS', 1, len(regions), name, cpus, possible, MEMORY_END, 0x1000000,
                       pool, used, REMAP, REMAP_USED, 0x408)
    return head + b''.join(regions)


def cell_record(name, cpus, regions, passive, version=1, limit=0):
    head = struct.pack('<3sxHH32sQHH4x', b'TSC', version, int(passive), name.encode(), cpus, len(regions), limit)
    return head + b''.join(regions)


def mask(cpus):
    return sum(1 << cpu for cpu in cpus)


class Cell:
    """A cell as its record says it: the last of its regions is the communication region, every third of the others is loadable."""

    def __init__(self, number, cpus, regions, passive=False):
        self.number = number
        self.cpus = cpus
        self.regions = regions
        self.state = SHUT_DOWN
        base = number * CELL_MEMORY
        step = CELL_MEMORY // 2 // max(regions, 1)
        step -= step % 8192
        parts = [region(base + i * step, i * step, step // 2, 23 if i % 3 == 0 else 7) for i in range(regions - 1)]
        parts.append(region(0, CELL_MEMORY, 4096, 11))
        self.hex = cell_record('cell%d' % number, mask(cpus), parts, passive).hex()

    def cost(self):
        return 2 + self.regions


class Log:
    """Lines with their answers, and what of the machine the answers need: counters, live cells, state words, pool use."""

    def __init__(self, seed=SEED):
        self.random = random.Random(seed)
        self.lines = []
        self.answers = []
        self.counts = [[0] * 6 for _ in range(CPUS)]
        self.cells = {}
        self.used = POOL_USED

    def add(self, line, answer):
        self.lines.append(line)
        self.answers.append(answer)

    def counted(self, cpu, counter):
        self.counts[cpu][counter] += 1
        self.counts[cpu][0] += 1

    def call(self, cpu, code, a1, a2, answer):
        self.counted(cpu, 5)
        self.add('call %d %d %d %d' % (cpu, code, a1, a2), answer)

    def exit(self, cpu, kind):
        self.counted(cpu, 1 + kind)
        self.add('exit %d %d' % (cpu, kind), 'done')

    def store(self, cell, word, value):
        if word == 2:
            cell.state = value
        self.add('store %d %d %d' % (self.random.choice(cell.cpus), word, value), 'done')

    def fault(self, cpu):
        self.add('fault %d' % cpu, 'done')

    def poll(self, answer):
        self.add('poll', answer)

    def clear(self, cell):
        for cpu in cell.cpus:
            self.counts[cpu] = [0] * 6

    def create(self, cell, answer=None):
        """Creates a cell; the answer is its number unless the call waits."""
        self.counted(0, 5)
        self.add('create 0 ' + cell.hex, answer or 'code %d' % cell.number)
        self.clear(cell)
        self.cells[cell.number] = cell
        self.used += cell.cost()
        cell.state = SHUT_DOWN

    def start(self, cell):
        self.call(0, START, cell.number, 0, 'code 0')
        cell.state = RUNNING

    def gone(self, cell):
        """What a destroy's effect does."""
        self.clear(cell)
        del self.cells[cell.number]
        self.used -= cell.cost()

    def query(self):
        """A query of any kind, by root or by a cell."""
        choose = self.random.random()
        if choose < 0.4:
            kind = self.random.randrange(5)
            cpu = self.random.randrange(ROOT_CPUS)
            given = (POOL, self.used, REMAP, REMAP_USED, 1 + len(self.cells))[kind]
            self.call(cpu, GET_INFO, kind, 0, 'code %d' % given)
        elif choose < 0.6:
            cell = self.random.choice(list(self.cells.values()))
            given = {RUNNING: 0, LOCKED: 0, SHUT_DOWN: 1, FAILED: 2}.get(cell.state, -22)
            self.call(self.random.randrange(ROOT_CPUS), GET_STATE, cell.number, 0, 'code %d' % given)
        elif choose < 0.8:
            self.counter_query(self.random.randrange(ROOT_CPUS), self.random.randrange(CPUS))
        else:
            cell = self.random.choice(list(self.cells.values()))
            self.counter_query(self.random.choice(cell.cpus), self.random.choice(cell.cpus))

    def counter_query(self, cpu, asked):
        """A query of one's own CPU sees itself counted."""
        which = self.random.randrange(6)
        given = self.counts[asked][which] + (1 if cpu == asked and which in (0, 5) else 0)
        self.call(cpu, CPU_GET_INFO, asked, 1000 + which, 'code %d' % given)

    def any_cell(self):
        return self.random.choice(list(self.cells.values()))

    def any_store(self):
        """A store that is obeyed and makes no state final."""
        word = self.random.randrange(3)
        value = self.random.choice((0, 1, 7, 4294967295)) if word == 2 else self.random.randrange(10)
        self.store(self.any_cell(), word, value)

    def people(self, live, regions, passive=False, start=True, cpus=4):
        """So many cells created, then all of them started: a start of a cell that has not run asks nobody."""
        for number in range(1, live + 1):
            first = ROOT_CPUS + (number - 1) * cpus
            self.create(Cell(number, list(range(first, first + cpus)), regions, passive))
        if start:
            for cell in self.cells.values():
                self.start(cell)

    def settle(self):
        """Queries of every CPU at the end of a log: what was counted shows."""
        for cpu in range(CPUS):
            self.call(0, CPU_GET_INFO, cpu, 1000, 'code %d' % (self.counts[cpu][0] + (1 if cpu == 0 else 0)))


def queries(log, lines, live, regions):
    log.people(live, regions)
    while len(log.lines) < lines:
        log.query()


def stores(log, lines, live, regions):
    log.people(live, regions)
    while len(log.lines) < lines:
        log.any_store()


def exits(log, lines, live, regions):
    log.people(live, regions)
    while len(log.lines) < lines:
        log.exit(log.random.randrange(CPUS), log.random.randrange(4))
    log.settle()


def faults(log, lines, live, regions):
    """Every CPU of a cell fails, which makes the cell failed; then it is started again."""
    log.people(live, regions, cpus=60 // live)
    while len(log.lines) < lines:
        cell = log.any_cell()
        for cpu in cell.cpus:
            log.fault(cpu)
        if log.random.random() < 0.2:
            log.call(0, GET_STATE, cell.number, 0, 'code 2')
        log.start(cell)


def idle_polls(log, lines, live, regions):
    log.people(live, regions)
    while len(log.lines) < lines:
        log.poll('idle')


def waiting_polls(log, lines, live, regions):
    """A set-loadable waits for the last cell, which never replies."""
    log.people(live, regions)
    log.call(0, SET_LOADABLE, live, 0, 'wait %d' % live)
    while len(log.lines) < lines:
        log.poll('wait %d' % live)


def unheard(log, cell):
    """Two to four dozen polls that hear nothing."""
    for _ in range(log.random.randrange(24, 48)):
        log.poll('wait %d' % cell.number)


def refused_set_loadable(log, cell):
    log.call(0, SET_LOADABLE, cell.number, 0, 'wait %d' % cell.number)
    unheard(log, cell)
    log.store(cell, 1, 2)
    log.poll('code -1')


def allowed_set_loadable(log, cell):
    log.call(0, SET_LOADABLE, cell.number, 0, 'wait %d' % cell.number)
    unheard(log, cell)
    log.store(cell, 1, 3)
    log.poll('code 0')
    cell.state = SHUT_DOWN
    log.start(cell)


def heard_polls(log, lines, live, regions):
    log.people(live, regions)
    while len(log.lines) < lines:
        log.random.choice((refused_set_loadable, allowed_set_loadable))(log, log.any_cell())


def visitor(live, regions, passive=False):
    """The cell that comes and goes beside the others: the last number, CPUs 62 and 63."""
    return Cell(live, [62, 63], regions, passive)


def creates(log, lines, live, regions):
    """The last cell comes and goes; the others are suspended and are told nothing."""
    log.people(live - 1, regions, start=False)
    cell = visitor(live, regions)
    while len(log.lines) < lines:
        log.create(cell)
        log.call(0, DESTROY, live, 0, 'code 0')
        log.gone(cell)


def creates_and_starts(log, lines, live, regions):
    """The last cell is created, started and destroyed; it is passive, so nobody asks it, and the others are suspended and are told nothing."""
    log.people(live - 1, regions, start=False)
    cell = visitor(live, regions, passive=True)
    while len(log.lines) < lines:
        log.create(cell)
        log.start(cell)
        log.call(0, DESTROY, live, 0, 'code 0')
        log.gone(cell)


def starts(log, lines, live, regions):
    """Passive cells are not asked: each start and each set-loadable has its effect at once."""
    log.people(live, regions, passive=True)
    while len(log.lines) < lines:
        cell = log.any_cell()
        log.call(0, SET_LOADABLE, cell.number, 0, 'code 0')
        log.start(cell)


def unobeyed(log):
    """A line that is not obeyed while no call waits."""
    root = log.random.randrange(ROOT_CPUS)
    line, answer = log.random.choice((
        ('poll', 'idle'), ('call %d 5 4' % root, 'bad'), ('call 64 5 4 0', 'bad'), ('exit %d 4' % root, 'bad'), ('', 'bad'),
        ('store %d 1 3' % root, 'denied'), ('store %d 3 0' % ROOT_CPUS, 'denied'), ('create 0 5453430', 'bad')))
    log.add(line, answer)


def meanwhile(log, waited):
    """What happens while a call waits for a cell that does not reply: polls, queries of that cell, and events of root, which are held."""
    for _ in range(log.random.randrange(8, 32)):
        choose = log.random.random()
        if choose < 0.7:
            log.poll('wait %d' % waited.number)
        elif choose < 0.8:
            log.add('call %d 5 4 0' % log.random.randrange(ROOT_CPUS), 'held')
        else:
            log.counter_query(log.random.choice(waited.cpus), log.random.choice(waited.cpus))


def active(log):
    """The cells that are told, rising."""
    return [log.cells[number] for number in sorted(log.cells) if log.cells[number].state not in (SHUT_DOWN, FAILED)]


def waits_or(cells, code):
    return 'wait %d' % cells[0].number if cells else code


def told(log, code):
    """The cells that are told reply one after the other; the last reply ends the call."""
    cells = active(log)
    for place, cell in enumerate(cells):
        meanwhile(log, cell)
        log.store(cell, 1, 4)
        log.poll(waits_or(cells[place + 1:], code))


def unlock(log):
    for cell in log.cells.values():
        if cell.state == LOCKED:
            log.store(cell, 2, RUNNING)


def replaced(log, cell):
    """A running cell is destroyed, with its leave, and created and started anew; the other cells are told of both."""
    unlock(log)
    log.call(0, DESTROY, cell.number, 0, 'wait %d' % cell.number)
    meanwhile(log, cell)
    log.store(cell, 1, 3)
    log.gone(cell)
    log.poll(waits_or(active(log), 'code 0'))
    told(log, 'code 0')
    log.create(cell, waits_or(active(log), 'code %d' % cell.number))
    told(log, 'code %d' % cell.number)
    log.start(cell)


def fails(log, cell):
    """Every CPU of a cell fails; root sees it and starts the cell again."""
    for cpu in cell.cpus:
        log.fault(cpu)
    cell.state = FAILED
    log.call(0, GET_STATE, cell.number, 0, 'code 2')
    log.start(cell)


def day(log, lines, live, regions):
    """All that happens on a day: queries, exits and stores mostly, now and then a reload, a cell that fails, and one that is replaced."""
    log.people(live, regions)
    while len(log.lines) < lines:
        choose = log.random.random()
        if choose < 0.4:
            log.query()
        elif choose < 0.7:
            log.exit(log.random.randrange(ROOT_CPUS + 4 * live), log.random.randrange(4))
        elif choose < 0.96:
            log.any_store()
        elif choose < 0.985:
            unobeyed(log)
        elif choose < 0.998:
            log.random.choice((refused_set_loadable, allowed_set_loadable))(log, log.any_cell())
        else:
            log.random.choice((replaced, fails))(log, log.any_cell())


def made(kind, lines, live, regions, seed=SEED):
    log = Log(seed)
    kind(log, lines, live, regions)
    return log
