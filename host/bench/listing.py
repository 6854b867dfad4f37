#!/usr/bin/env python3
"""The listing of document 01 ("Bench runs") and the page of document 02 k a second time, written from documents 01 and 02 (a, d, f, k)
alone, so that what the runs are held to does not come from the program that they test. Nothing of it is proved, and no build needs it.

  listing.py            the listing of standard input
  listing.py page N     the page from cycle N on of the requests on standard input
  listing.py requests   the largest input, 2,730 requests of every kind, refused ones among them: host/runs/largest/stdin
  listing.py test       compares the listing of each host/runs/*/stdin with the stdout beside it, and its page from cycle N on with page.N
"""
import glob
import os
import sys

RC, RAS, RP, PP, RR, RCD, CC, CAC, CWD, RTR, RDP, RTP, OFFP = 28, 20, 8, 8, 8, 9, 4, 8, 6, 8, 4, 4, 4
ROWS, COLUMNS, HORIZON = 2, 4, 1_000_000_000


class Late(Exception):
    pass


def near(a, b):
    return a == b or (abs(a - b) == 1 and a // 16 == b // 16)


class Planner:
    def __init__(self):
        self.open = {}  # bank: row
        self.writes = []  # bank, column, mask, instant of each waiting write, and whether it is a WRA, oldest first; two at most
        self.turn = 0  # the bank of the next refresh
        self.now = 4
        self.past = []  # events (kind, bank, instant, banks closed) of the last 64 cycles and later: no gap is longer

    def copy(self):
        p = Planner()
        p.__dict__.update(self.__dict__)
        p.open, p.writes, p.past = dict(self.open), list(self.writes), list(self.past)
        return p

    def gap(self, event, kind, bank):
        """The distance that the rules ask from an earlier event to a packet, a retire or an implied PRER, or None."""
        old, other, _, closed = event
        row, act, pre = ('ACT', 'PRER', 'REFA', 'REFP'), ('ACT', 'REFA'), ('PRER', 'REFP', 'implied')
        gaps = []
        # the order of packets, in which implied PRERs do not count, but that no ROW packet comes before one
        if kind != 'implied' and (old != 'implied' or kind in row):
            gaps.append(0)
        if old in row and kind in row:
            gaps.append(4)
        if old in ('RD', 'WR', 'NOCOP') and kind in ('RD', 'WR', 'NOCOP'):
            gaps.append(CC)
        if old in act and kind in act:
            gaps.append(RC if near(other, bank) else RR)
        if old in act and kind in pre and near(other, bank):
            gaps.append(RAS)
        if old in pre and kind in act and any(near(b, bank) for b in closed | {other}):
            gaps.append(RP)
        if old in pre and kind in pre:
            gaps.append(PP)
        if old == 'ACT' and kind == 'RD' and other == bank:
            gaps.append(RCD)
        if old == 'ACT' and kind == 'WR' and other == bank:
            gaps.append(max(0, RCD - RTR))
        if old == 'RD' and kind == 'WR':
            gaps.append(CC + CAC - CWD)
        if old in ('RD', 'retire') and kind in pre and near(other, bank):
            gaps.append(RDP if old == 'RD' else RTP)
        if old == 'ACT' and kind == 'retire' and other == bank:
            gaps.append(RCD)
        return max(gaps, default=None)

    def least(self, start, kind, bank):
        asked = [(e[2], self.gap(e, kind, bank)) for e in self.past]
        return max([start] + [at + gap for at, gap in asked if gap is not None])

    def closing(self, at, bank):
        """The least instant from one on at which a packet may imply a PRER of a bank."""
        return max(at, self.least(0, 'implied', bank) - OFFP)

    def imply(self, at, bank):
        self.past.append(('implied', bank, at + OFFP, {bank}))
        del self.open[bank]  # its neighbours are closed

    def send(self, name, bank, place, lines):
        kind = {'RDA': 'RD', 'WRA': 'WR'}.get(name, name)
        at, retired = self.least(self.now, kind, bank), None
        if name == 'RDA':
            at = self.closing(at, bank)
        if kind in ('WR', 'NOCOP') and self.writes:
            older = self.writes[0]
            # a WR beside one write may come before that one is due, and then retires nothing
            if kind == 'NOCOP' or len(self.writes) == 2 or at >= older[3] + RTR:
                at, retired = self.least(max(at, older[3] + RTR), 'retire', older[0]), older
        closes = name == 'RDA' or bool(retired and retired[4])
        if retired and closes:
            at = self.closing(at, retired[0])
        delay = max({'RD': CAC, 'WR': CWD}.get(kind, 0), OFFP if closes else 0)
        if at + delay > HORIZON:
            raise Late
        mask = '-'
        if retired:
            mask = '-' if retired[2] == 0xFFFF else '%04x' % retired[2]
            self.past.append(('retire', retired[0], at, set()))
            self.writes = self.writes[1:]
        closed = set()
        if kind in ('PRER', 'REFP'):
            closed = {b for b in self.open if near(b, bank)} | {bank}
            for b in closed:
                self.open.pop(b, None)
        if kind == 'ACT':
            self.open[bank] = place
        self.now = at
        self.past = [e for e in self.past if e[2] + 64 >= at] + [(kind, bank, at, closed)]
        if closes:
            self.imply(at, retired[0] if retired else bank)
        lines.append('%d %s %d %d %s' % (at, name, 0 if kind == 'NOCOP' else bank, place, mask))
        return at

    def retire_while(self, concerned, lines):
        while concerned(self.writes):
            self.send('NOCOP', 0, 0, lines)

    def close(self, banks, lines):
        for b in banks:
            if b in self.open:
                self.retire_while(lambda writes: any(near(w[0], b) for w in writes), lines)
                self.send('PRER', b, 0, lines)

    def reach(self, bank, row, lines):
        if self.open.get(bank) != row:
            self.close([b for b in range(32) if near(b, bank)], lines)
            self.send('ACT', bank, row, lines)

    def request(self, r):
        kind, bank, row, column, mask = r[0], r[1], r[2] + 256 * r[3], r[4], r[6] + 256 * r[7]
        used = {0: {0, 1, 2, 3, 4}, 1: set(range(24)) - {5}, 2: {0}, 3: {0, 8, 9, 10, 11}, 4: {0}, 5: {0}}
        used[6], used[7] = used[0], used[1]
        if kind > 7:
            return 2
        if any(r[i] for i in range(24) if i not in used[kind]):
            return 3
        placed, closes = kind in (0, 1, 6, 7), kind in (6, 7)
        if placed:
            if bank > 31:
                return 4
            if row >= ROWS:
                return 5
            if column >= COLUMNS:
                return 6
        if kind == 5 and self.writes:
            return 15
        lines = []
        if placed:
            self.reach(bank, row, lines)
        if kind in (0, 6):
            own = lambda w: w[0] == bank and (closes or w[1] == column)
            self.retire_while(lambda writes: len(writes) == 2 or any(own(w) for w in writes), lines)
            self.send('RDA' if closes else 'RD', bank, column, lines)
        elif kind in (1, 7):
            at = self.send('WRA' if closes else 'WR', bank, column, lines)
            lines.append('%d D %d %d -' % (at + CWD, bank, column))
            self.writes = self.writes + [(bank, column, mask, at, closes)]
            self.retire_while(lambda writes: any(w[4] for w in writes), lines)
        elif kind == 2:
            self.close([b for b in range(32) if near(b, self.turn)], lines)
            self.send('REFA', self.turn, 0, lines)
            self.send('REFP', self.turn, 0, lines)
            self.turn = (self.turn + 1) % 32
        elif kind == 3:
            self.now += int.from_bytes(r[8:12], 'little')
            if self.now > HORIZON:
                return 7
        elif kind == 4:
            self.retire_while(lambda writes: writes, lines)
        else:
            self.close(range(32), lines)
        return lines


def listing(data):
    if len(data) > 65520 or len(data) % 24:
        return 'refused 13\nrecords 0\n'
    planner, out, records = Planner(), [], 0
    for i in range(0, len(data), 24):
        step = planner.copy()
        try:
            made = step.request(data[i : i + 24])
        except Late:
            made = 7
        if isinstance(made, int):
            out.append('refused %d' % made)
        else:
            planner, records = step, records + len(made)
            out += made
    return ''.join(line + '\n' for line in out + ['records %d' % records])


LETTERS = {'ACT': 'A', 'PRER': 'P', 'REFA': 'F', 'REFP': 'E', 'RD': 'R', 'RDA': 'R', 'WR': 'W', 'WRA': 'W', 'NOCOP': 'N'}


def page(data, start):
    """The page of the lines that the listing has."""
    cells = {}

    def mark(line, first, letter):
        for cycle in range(first, first + 4):
            assert (line, cycle) not in cells
            cells[line, cycle] = letter

    for at, name in (text.split()[:2] for text in listing(data).splitlines()):
        if name == 'D':
            mark('DQ', int(at), 'D')
        elif name in LETTERS:
            mark('ROW' if LETTERS[name] in 'APFE' else 'COL', int(at) - 4, LETTERS[name])
            if name in ('RD', 'RDA'):
                mark('DQ', int(at) + CAC, 'Q')
    cycles = range(start, start + 64)
    lines = [name.ljust(8) + ''.join(cells.get((name, c), '.') for c in cycles) for name in ('ROW', 'COL', 'DQ')]
    return ''.join(line + '\n' for line in lines + [8 * ' ' + ''.join(' |'[c % 8 == 0] for c in cycles)])


def largest():
    seed, out = 1, b''

    def below(n):
        nonlocal seed
        seed = (seed * 1103515245 + 12345) % 2**31
        return seed // 65536 % n

    for i in range(2730):
        r = bytearray(24)
        pick = below(32)
        if i % 300 < 16:  # every other bank opened and two writes, so that flush and close have the most to do
            r[0], r[1] = 0, 2 * (i % 300)
        elif i % 300 < 18:
            r[0], r[1], r[4], r[6] = 1, 30, below(4), below(256)
        elif i % 300 < 20:
            r[0] = 4 + i % 300 - 18
        elif pick == 31:
            r[0] = 4 + below(2)
        elif pick < 28:
            r[0], r[1], r[2], r[4] = (0, 1, 0, 1, 6, 7)[pick % 6], below(33), below(32) // 15, below(33) // 8
            if r[0] % 2:
                r[6:8] = b'\xff\xff' if below(4) == 0 else bytes((below(256), below(256)))
                r[8:24] = bytes(below(256) for _ in range(16))
        elif pick == 28:
            r[0], r[8] = 3, below(256)
        elif pick == 29:
            r[0] = 2
        else:
            r[below(24)] = 8
        out += bytes(r)
    return out


def test():
    root = os.path.join(os.path.dirname(os.path.abspath(__file__)), '..', '..')
    passed = failed = 0
    for name in sorted(glob.glob(os.path.join(root, 'host', 'runs', '*', 'stdin'))):
        wanted = os.path.join(os.path.dirname(name), 'stdout')
        with open(name, 'rb') as given, open(wanted) as text:
            if listing(given.read()) == text.read():
                passed += 1
            else:
                failed += 1
                print(os.path.relpath(wanted), 'differs')
    for name in sorted(glob.glob(os.path.join(root, 'host', 'runs', '*', 'page.*[0-9]'))):
        start = int(name.rsplit('.', 1)[1])
        with open(os.path.join(os.path.dirname(name), 'stdin'), 'rb') as given, open(name) as text:
            if page(given.read(), start) == text.read():
                passed += 1
            else:
                failed += 1
                print(os.path.relpath(name), 'differs')
    print('%d passed, %d failed' % (passed, failed))
    sys.exit(failed != 0 or passed == 0)


if sys.argv[1:] == ['requests']:
    sys.stdout.buffer.write(largest())
elif sys.argv[1:] == ['test']:
    test()
elif sys.argv[1:2] == ['page']:
    sys.stdout.write(page(sys.stdin.buffer.read(), int(sys.argv[2])))
else:
    sys.stdout.write(listing(sys.stdin.buffer.read()))
