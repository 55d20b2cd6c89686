#!/usr/bin/env python3
"""Draws sequences of calls of the bus and compares the program vd_bus_calls with a plain table of what each call does.

usage: tests/bus_calls.py PROGRAM [SEED]    the program is crates/vd_bus_calls/out/vd_bus_calls once `rt run` has made it
       tests/bus_calls.py --few             prints 250 calls; --answers prints what the table says of lines on standard input
"""
import random
import subprocess
import sys

MOST = 2**63 - 1
INDIRECT, EVENT_IDX, VERSION_1, PLATFORM, PACKED, IN_ORDER = (1 << b for b in (28, 29, 32, 33, 34, 35))
# layout packed, greatest size, features of the machine's own, data queues, control queue, first and last iova
BUSES = [
    (False, 8, 0, 1, False, 0, MOST),
    (True, 7, INDIRECT | EVENT_IDX | IN_ORDER, 2, True, 4096, 65535),
    (False, 1024, INDIRECT | IN_ORDER, 8, True, 1, 99),
    (True, 1024, EVENT_IDX, 3, False, 0, MOST),
]


class Bus:
    def __init__(self, number):
        self.packed, self.most, own, data, control, self.first, self.last = BUSES[min(number, 3)]
        self.offered = VERSION_1 | PLATFORM | own | (PACKED if self.packed else 0)
        self.names = list(range(data)) + ([15] if control else [])
        self.reset()

    def reset(self):
        self.status, self.accepted, self.suspended, self.map = 0, None, False, []
        self.queues = {n: {'num': 0, 'desc': None, 'base': self.fresh(), 'on': False} for n in self.names}

    def fresh(self):
        return 0x80008000 if self.packed else 0

    def lawful_size(self, n):
        return 2 <= n <= 1024 if self.packed else n in [2**k for k in range(1, 11)]

    def lawful_base(self, n, b):
        return b % 32768 < n and b // 65536 % 32768 < n if self.packed else b <= 65535

    def ready(self):
        return all(q['num'] and q['desc'] is not None for q in self.queues.values())

    # the first refusal whose test holds; each row is a test and the refusal
    def refusal(self, name, a, b, c, d, e):
        no_queue = (a not in self.queues, 'NoSuchQueue(%d)' % a)
        wrong = 'WrongStatus(%d)' % self.status
        moving = (bool(self.status & 4) and not self.suspended, 'NotSuspended(%d)' % self.status)
        q = self.queues.get(a, {'num': 0, 'on': False})
        update = b == 2 and (d == 0 or c < self.first or c + d - 1 > self.last or e + d > 2**63 or len(self.map) == 64
                             or any(c < i + s and i < c + d for i, s, _ in self.map))
        invalidate = b == 3 and not any((c, d) == (i, s) for i, s, _ in self.map)
        table = {
            'features': [(self.status != 3, wrong),
                         (a & ~self.offered or a & VERSION_1 == 0 or a & PLATFORM == 0 or bool(a & PACKED) != self.packed,
                          'BadFeatures(%d)' % a)],
            'status': [(not self.step(a), wrong)],
            'num': [no_queue, (self.status & 4, wrong), (not self.lawful_size(b) or b > self.most, 'BadNum(%d)' % b)],
            'addr': [no_queue, moving],
            'base': [no_queue, moving, (not self.lawful_base(q['num'], b), 'BadBase(%d)' % b)],
            'enable': [no_queue, (not self.status & 8, wrong), (b > 1, 'BadNum(%d)' % b)],
            'told': [no_queue, moving],
            'message': [(a != 0, 'BadAsid(%d)' % a), (b not in (2, 3, 5, 6), 'BadMessage(%d)' % b), moving,
                        (update or invalidate, 'BadMap(%d)' % c)],
            'suspend': [(self.status != 15 or self.suspended, wrong)],
            'resume': [(not self.suspended, 'NotSuspended(%d)' % self.status)],
            'order': [no_queue, (self.status != 15 or self.suspended or not q['on'], wrong)],
        }
        return next((what for test, what in table.get(name, []) if test), None)

    def step(self, s):
        nexts = {0: [1], 1: [3], 3: [11] if self.accepted is not None else [], 11: [15] if self.ready() else []}
        return s in [0, self.status, self.status + 128] + nexts.get(self.status, [])

    def answer(self, line):
        name, *words = line.split()
        a, b, c, d, e = ([int(w) for w in words] + [0] * 5)[:5]
        if name == 'new':
            self.__init__(a)
            return 'ok'
        if name == 'state':
            return '%d %d %d %d' % (self.status, self.offered, self.first, self.last)
        refused = self.refusal(name, a, b, c, d, e)
        return refused if refused else self.make(name, a, b, c, d, e)

    def make(self, name, a, b, c, d, e):
        q = self.queues.get(a)
        if name == 'features':
            self.accepted = a
        elif name == 'status' and a == 0:
            self.reset()
        elif name == 'status':
            self.status = a
        elif name == 'num':
            q['num'], q['base'] = b, self.fresh()
        elif name == 'addr':
            q['desc'] = b
        elif name == 'base':
            q['base'] = b
        elif name == 'enable':
            q['on'] = b == 1
        elif name == 'told':
            return 'ok %d %d' % (a, q['base'])
        elif name == 'message' and b == 2:
            self.map.append((c, d, e))
        elif name == 'message' and b == 3:
            self.map = [m for m in self.map if m[:2] != (c, d)]
        elif name in ('suspend', 'resume'):
            self.suspended = name == 'suspend'
        elif name == 'order':
            ring = q['desc'] >> 32
            bits = ''.join('1' if self.accepted & f else '0' for f in (INDIRECT, EVENT_IDX, IN_ORDER))
            maps = ''.join(' %d+%d=%d' % m for m in self.map)
            return 'ok %d %d %d %s %d %d%s%s' % (a, ring, q['base'], 'pass' if ring < 16 else 'shadow', b, q['num'], bits, maps)
        return 'ok'


def draw(r, bus):
    """A call, drawn so that a bus is often brought up and used."""
    queue = lambda: r.choice(bus.names * 6 + [2, 8, 9, 14, 15, 16, 2**32 - 1])
    size = lambda: r.choice([2, 4, 7, 8, 8, bus.most, 0, 3, 16, 1024, 1025, 2048])
    near = lambda: r.choice([bus.first + 4096 * r.randrange(8), bus.first + r.randrange(12), bus.last - r.randrange(9), 0, 2**64 - 1])
    length = lambda: r.choice([1, 2, 3, 4096, 8192, 0, 2**64 - 1])
    mapped = r.choice(bus.map) if bus.map else (0, 0, 0)
    bare = [n for n in bus.names if not bus.queues[n]['num']] or bus.names
    lost = [n for n in bus.names if bus.queues[n]['desc'] is None] or bus.names
    lines = [
        'num %d 2' % r.choice(bare), 'addr %d %d' % (r.choice(lost), r.randrange(40) << 32), 'enable %d 1' % r.choice(bus.names),
        'status %d' % r.choice([1, 3, 11, 15]), 'status %d' % r.choice([1, 3, 11, 15]),
        'status %d' % {0: 1, 1: 3, 3: 11, 11: 15}.get(bus.status, 0 if r.randrange(9) == 0 else bus.status),
        'features %d' % bus.offered,
        'features %d' % (bus.offered ^ r.choice([0, INDIRECT, EVENT_IDX, VERSION_1, PLATFORM, PACKED, IN_ORDER, 1])),
        'num %d %d' % (queue(), size()), 'num %d %d' % (queue(), 2), 'num %d %d' % (queue(), size()),
        'addr %d %d' % (queue(), r.randrange(40) << 32 | r.randrange(2**32)), 'addr %d %d' % (queue(), r.randrange(2**64)),
        'base %d %d' % (queue(), r.choice([0, 1, 5, 65535, 65536, 0x80008000, 0x00010001, 0x80078007, r.randrange(2**32)])),
        'enable %d %d' % (queue(), r.choice([0, 1, 1, 1, 2])), 'told %d' % queue(),
        'message %d %d %d %d %d' % (r.choice([0] * 9 + [1]), r.choice([2] * 9 + [0, 1, 3, 4, 5, 6, 7]), near(), length(),
                                    r.choice([0, 2**63 - 4096, 2**63, r.randrange(2**40)])),
        'message 0 3 %d %d 0' % (mapped[0], mapped[1] + r.choice([0, 0, 0, 1])),
        'suspend', 'resume', 'order %d %d' % (queue(), r.randrange(100)), 'order %d %d' % (queue(), r.randrange(100)), 'state',
    ]
    rare = ['status %d' % r.choice([0, 128, 143, 4, 64, bus.status + 128 & 255])]
    return r.choice(rare if r.randrange(40) == 0 else lines)


def sequence(seed, count):
    """The calls, and what the table answers."""
    r, lines, answers, bus = random.Random(seed), [], [], Bus(0)
    for i in range(count):
        line = 'new %d' % (i // 500 % 4) if i % 500 == 0 else draw(r, bus)
        lines.append(line)
        answers.append(bus.answer(line))
    return lines, answers


def main():
    if sys.argv[1:] == ['--few']:
        print('\n'.join(sequence(192, 250)[0]))
    elif sys.argv[1:] == ['--answers']:
        bus = Bus(0)
        for line in sys.stdin:
            print(bus.answer(line))
    else:
        lines, answers = sequence(int(sys.argv[2]) if len(sys.argv) > 2 else 1, 10000)
        ran = subprocess.run([sys.argv[1]], input='\n'.join(lines) + '\n', capture_output=True, text=True, check=True)
        got = ran.stdout.splitlines()
        wrong = [k for k in range(len(lines)) if k >= len(got) or got[k] != answers[k]]
        for k in wrong[:5]:
            print('call %d, %s: %s, and not %s' % (k, lines[k], got[k] if k < len(got) else 'nothing', answers[k]))
        kinds = sorted({(line.split()[0], answer.split('(')[0].split()[0]) for line, answer in zip(lines, answers)})
        print('%d calls, %d of them refused, %d kinds of answers, %d differ' % (
            len(lines), sum('(' in a for a in answers), len(kinds), len(wrong)))
        sys.exit(1 if wrong else 0)


main()
