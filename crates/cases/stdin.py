#!/usr/bin/env python3
"""Writes the stored stream of `cases`, and holds an output for it to what is written here beside each operation.

    stdin.py < STREAM > stdin   the stream; STREAM is 00-base, or a stdin that was made so
    stdin.py OUTPUT             the numbers, statuses and answers in OUTPUT are those that are expected here, and every kind of
                                record has given every status that it can give

The cases: the first four of 00-base, whose output is the front of what 00-base wants; then those that are written here: marked
cases 1 to 10 of 01; every status for every kind that can give it; refusals 1 to 5, each clause of 5 alone; 30 and 31; FRS in order
of ready time, dropped, and with interrupts; messages written and read; time sheets; replays, with each of 30 to 33 at each place, cuts, and
each clause of the match alone; the moments that replays keep, differences and totals. `stdout` is what the independent implementation writes.
"""
import struct
import sys

# The version and the first four cases of 00-base, and what they give.
BASE = 9019
BASE_OUTPUT = 41507

FLR_CAPABLE = 1 << 28
GREATEST = 1006632960
CLOCK_END = 10**15

cases = []


# ---- What a case lends

def entry(reset=0, dl_up=0x00A, flr=0x005, d3hot=0, sends_frs=1, edition=1, v=0, parent=0xFF):
    return struct.pack('<HHHHBBHB', reset, dl_up, flr, d3hot, sends_frs, edition, v, parent)


class Case:
    """A card whose slots have the codes of marked case 10; its operations, each with what it must give."""

    def __init__(self, slots=1, cells=1, entries=(), defaults=(), statuses=None, live=None, default_words=None):
        self.slots = slots
        self.statuses = slots if statuses is None else statuses
        self.live = 64 * slots if live is None else live
        self.cells = cells
        count = 64 * slots if default_words is None else default_words
        self.defaults = [0] * count
        for slot in range(count // 64):
            self.defaults[64 * slot] = 0x56781234
            self.defaults[64 * slot + 0x1D] = FLR_CAPABLE
        for word, value in defaults:
            self.defaults[word] = value
        self.entries = list(entries) + [entry()] * (32 - len(entries))
        self.left = list(self.entries)
        self.image = replay_image()
        self.operations = []
        cases.append(self)

    def bytes(self):
        front = struct.pack('<BBHHHBHB', self.slots, self.statuses, self.live, len(self.defaults), self.cells, 1, 8, 0)
        words = struct.pack('<%dI' % len(self.defaults), *self.defaults)
        return front + b''.join(self.entries) + words + b''.join(o[0] for o in self.operations) + b'\0'

    def state_size(self):
        return 46 + 27 * self.statuses + 4 * (self.live + self.cells)

    def set_up(self, number=0):
        self.operations.append((b'\1', 'set-up', number))
        return self

    def feed(self, records, want, number=0, room=None, consumed=None):
        """`want`: for each record completed its status, or its 8 bytes."""
        trace = b''.join(records)
        room = 8 * len(want) if room is None else room
        head = struct.pack('<BHH', 2, room, len(trace))
        consumed = (0 if number in (1, 2, 3, 4, 5) else len(trace)) if consumed is None else consumed
        self.operations.append((head + trace, 'feed', number, records, want, room, consumed))
        return self

    def lend(self, statuses=None, **port):
        statuses = [DOWN] * self.statuses if statuses is None else statuses
        cells = port.pop('cells', [0] * self.cells)
        words = struct.pack('<%dI' % self.live, *(self.defaults + [0] * self.live)[:self.live])
        ring = struct.pack('<%dI' % self.cells, *cells)
        self.operations.append((b'\3' + image(**port) + b''.join(statuses) + words + ring, 'lend'))
        return self

    def replay(self, entries, want, number=0, room=None, consumed=None, left=None, clock=None, made=None):
        """`want`: for each advance and each record completed its status, or its 8 bytes; `left`: the replay image, by default that after
        the last entry, or the one before where the call is refused; `clock`, and `made`, the kept moment of each slot that has one: at the
        end, where that is looked at."""
        capture = b''.join(entries)
        room = 8 * len(want) if room is None else room
        refused = number in (1, 2, 3, 4, 5)
        consumed = (0 if refused else len(capture)) if consumed is None else consumed
        if left is None:
            left = self.image if refused else replay_image(struct.unpack('<I', entries[-1][:4])[0])
        self.image = left
        head = struct.pack('<BHH', 6, room, len(capture))
        self.operations.append((head + capture, 'replay', number, want, room, consumed, left, clock, made))
        return self

    def lend_replay(self, lent, image=None, made=None):
        """`image`: how it is written again, where that is otherwise; `made`: the kept moments, or their bytes."""
        self.image = lent if image is None else image
        self.operations.append((b'\7' + lent + (made if isinstance(made, bytes) else moments(made or {})), 'lend replay'))
        return self

    def lateness(self, seen, want):
        """`seen`: the seen time of each slot that has one; `want`: for each slot with a difference the difference, or 34."""
        got = {slot: (34, 0) if d == 34 else (1, d) for slot, d in want.items()}
        want = b''.join(struct.pack('<Bq', *got.get(slot, (0, 0))) for slot in range(32))
        self.operations.append((b'\x08' + moments(seen), 'message', want))
        return self

    def totals(self, differences, early=0, on_time=0, late=0, least=0, greatest=0, total=0, number=0):
        body = struct.pack('<BH%dq' % len(differences), 9, len(differences), *differences)
        self.operations.append((body, 'message', struct.pack('<BIIIqqq', number, early, on_time, late, least, greatest, total)))
        return self

    def writes(self, kind, number, reason, want, room=16):
        """`want`: the number that is given, or the message."""
        body = struct.pack('<BBHBB', 13, kind, number, reason, room)
        want = b'\0' + want if isinstance(want, bytes) else bytes([want]) + b'\xEE' * room
        self.operations.append((body, 'message', want))
        return self

    def sheet(self, text, codes=None, number=0, line=0):
        """`codes`: for each slot that the sheet names the four codes that it gets."""
        for slot, four in (codes or {}).items():
            self.left[slot] = struct.pack('<HHHH', *four) + self.left[slot][8:]
        text = text.encode('latin-1')
        want = struct.pack('<BH', number, line) + b''.join(e[:8] for e in self.left)
        self.operations.append((struct.pack('<BH', 4, len(text)) + text, 'message', want))
        return self

    def reads(self, message, kind=0, number=0, reason=0, status=0):
        want = struct.pack('<BBHB', status, kind, number, reason)
        self.operations.append((bytes([14, len(message)]) + message, 'message', want))
        return self


# ---- A state

def status(phase, cause=0, ready=0, end=0):
    return struct.pack('<BBQQBQ', phase, cause, ready, end, 0, 0)


DOWN = status(0)
READY = status(2)


def pending(ready, cause=1, end=0):
    return status(1, cause, ready, end)


def image(clock=0, link=0, owed=0, bits=(0, 0, 0), visibility=0, interrupt=0, signalling=0, start=0, depth=0,
          carried=b'', count=None, broken=0):
    count = len(carried) if count is None else count
    flags = bytes([link, owed, *bits, visibility, interrupt, signalling])
    return struct.pack('<QQ8sHHB16sB', clock, 0, flags, start, depth, count, carried, broken)


# ---- A replay

def replay_image(earlier=None, stamp=b'', answered=0, ended=0, count=None):
    """`earlier`: the stamp of the last record, None before the first; `stamp`: the bytes of the next one, or that stamp."""
    stamp = struct.pack('<I', stamp) if isinstance(stamp, int) else stamp
    count = len(stamp) if count is None else count
    return struct.pack('<BIB4sBB', earlier is not None, earlier or 0, count, stamp, answered, ended)


def moments(made):
    """Of each of 32 slots whether it has one, and when."""
    return b''.join(struct.pack('<BQ', slot in made, made.get(slot, 0)) for slot in range(32))


def stamped(stamp, record):
    """An entry of a capture."""
    return struct.pack('<I', stamp) + record


# ---- Records

def advance(ns):
    return struct.pack('<BI', 1, ns)


def read(offset, slot=0, enables=15, word=None):
    return bytes([2, slot, offset // 4 if word is None else word, enables])


def write(offset, data, slot=0, enables=15, word=None):
    return struct.pack('<BBBBI', 3, slot, offset // 4 if word is None else word, enables, data)


def message(kind, code, number=0x0100, reason=0, tail=0x7F):
    return bytes([4, kind, 0, 0, 0, number >> 8, number & 255, 0, tail, 0, 0, 0, 1, code, 0, 0, reason])


def frs(number, reason):
    return message(0x30, 9, number, reason)


def hardware_set(offset, mask, slot=0, word=None):
    return struct.pack('<BBBI', 12, slot, offset // 4 if word is None else word, mask)


DRS = message(0x34, 8)
UP, DOWN_LINK, COLD = b'\5', b'\6', b'\7'
QUEUE, REMOVE, BITS = b'\x08', b'\x09', b'\x0D'


def clear(bits):
    return bytes([10, bits])


def control(byte):
    return bytes([11, byte])


def done(data=0, interrupts=0, queued=0, dropped=0, status=0):
    return struct.pack('<BBBBI', status, interrupts, queued, dropped, data)



def ready_card(case):
    """Set up, link up, and 10 ns later Ready."""
    return case.set_up().feed([UP, advance(10)], [done(), done()])


# ---- Marked cases

Case(entries=[entry(flr=0xA1E)]).set_up(0)
Case(entries=[entry(flr=0xA1F)]).set_up(3)
Case(entries=[entry(dl_up=0x220)]).set_up().feed(
    [UP, advance(1023), read(0), advance(1), read(0)], [0, 0, 17, 0, done(0x56781234)])
ready_card(Case()).feed(
    [write(0x78, 0x80AF), advance(5), read(0x78)], [0, done(queued=1), done(0xA0)])
ready_card(Case()).feed(
    [write(0x0C, 0x40), read(0x0C), write(0x78, 0x8000, enables=2), advance(5), read(0x0C)],
    [0, done(0x40), 0, done(queued=1), done(0)])
ready_card(Case()).feed(
    [hardware_set(0x44, 0x8000), DOWN_LINK, UP, advance(10), read(0x44), COLD, UP, advance(10), read(0x44)],
    [0, 0, 0, 0, done(0x8000), 0, 0, 0, done(0)])
ready_card(Case()).feed(
    [control(2), frs(0x0105, 3), frs(0x0106, 2), QUEUE, REMOVE, QUEUE, BITS],
    [0, done(interrupts=1, queued=1), done(interrupts=2, dropped=1), done(0x130105), 0, done(0), done(7)])
Case().set_up().feed([control(1), UP, read(0, enables=3)], [0, 0, done(1, status=16)])
Case().lend(clock=CLOCK_END - 1).feed([advance(1)], [0]).lend(clock=CLOCK_END - 1).feed([advance(2)], [22])
Case().set_up().feed(
    [b'\x0B\3', b'\5', b'\2\0\0\x0F', b'\1\x0A\0\0\0', b'\2\0\0\x0F', b'\3\0\x1E\2\0\x80\0\0', b'\2\0\0\x0F', b'\1\5\0\0\0',
     b'\x08'],
    [bytes(8), bytes(8), b'\x10\0\0\0\1\0\xFF\xFF', bytes(8), b'\0\0\0\0\x34\x12\x78\x56', bytes(8),
     b'\x12\0\0\0\xFF\xFF\xFF\xFF', b'\0\1\1\0\0\0\0\0', b'\0\0\0\0\0\1\x13\0'])

# ---- Every status of every kind

Case().set_up().feed(
    [read(0), write(4, 7), read(0, slot=1), read(0, slot=1, enables=16), read(0, word=64), read(0, enables=16), write(4, 7, slot=1),
     write(4, 7, word=64), write(4, 7, enables=16), DRS, DOWN_LINK, hardware_set(4, 1), control(16), control(12)],
    [done(0xFFFFFFFF, status=18), 18, 20, 20, 21, 24, 20, 21, 24, 23, 23, 23, 24, 24])
ready_card(Case()).feed(
    [UP, read(0, slot=1), read(0, word=64), read(0, enables=16), write(4, 0x40, slot=1), write(4, 0x40, word=64),
     write(4, 0x40, enables=16), hardware_set(4, 1, slot=1), hardware_set(4, 1, word=64), hardware_set(4, 0xFFFFFFFF), read(4),
     write(4, 0xF9000147), read(4), message(0x34, 9), message(0x30, 8), message(0x34, 8, tail=0x7E)],
    [23, 20, 21, 24, 20, 21, 24, 20, 21, 0, done(0xF9000000), 0, done(0x147), 19, 19, 19])
Case().set_up().feed(
    [control(1), UP, read(0), read(0, enables=1), read(4), write(4, 7), hardware_set(4, 1), control(0), read(0, enables=3)],
    [0, 0, done(0xFFFF0001, status=16), 17, 17, 17, 23, 0, 17])
ready_card(Case()).feed(
    [BITS, clear(4), BITS, DRS, BITS, clear(0xF8), BITS, clear(0xFF), BITS],
    [done(4), 0, done(0), 0, done(4), 0, done(4), 0, done(0)])
# FLR in progress for 100 ms, then CRS until its time has passed; FLR time 0; without the capability.
ready_card(Case(entries=[entry(flr=0xA03)])).feed(
    [write(0x78, 0x8000), read(0, enables=5), write(4, 7), advance(99999999), read(0), advance(1), read(0), write(4, 7),
     advance(663295), read(0), advance(1), read(0)],
    [0, done(0x00FF00FF, status=18), 18, 0, 18, 0, 17, 17, 0, 17, done(queued=1), 0])
ready_card(Case(entries=[entry(flr=0)])).feed([write(0x78, 0x8000), read(0)], [done(queued=1), 0])
ready_card(Case(defaults=[(0x1D, 0)])).feed([write(0x78, 0x80FF), read(0x78)], [0, done(0xFF)])
# D3hot to D0, with No_Soft_Reset off and on; 1 and 2 are not taken.
ready_card(Case(entries=[entry(d3hot=7)])).feed(
    [write(0x3C, 0x55), write(0x44, 0x101), write(0x44, 3), read(0x44), write(0x44, 0x100), read(0), advance(7), read(0x3C),
     read(0x44), QUEUE],
    [0, 0, 0, done(3), 0, 17, done(queued=1), done(0), done(0x100), done(0x120100)])
ready_card(Case(entries=[entry(d3hot=7)], defaults=[(0x11, 8)])).feed(
    [write(0x3C, 0x55), write(0x44, 3), write(0x44, 0), advance(7), read(0x3C)], [0, 0, 0, done(queued=1), done(0x55)])

# ---- Refusals of a set-up, by set-up and by feed

ONE = [advance(1)]
Case(slots=0).set_up(1).feed(ONE, [], 1)
Case(slots=33, statuses=32, live=2112, default_words=2112).set_up(1).feed(ONE, [], 1)
Case(statuses=2).set_up(1).feed(ONE, [], 1)
Case(live=63).set_up(1).feed(ONE, [], 1)
Case(default_words=65).set_up(1).feed(ONE, [], 1)
Case(cells=0).set_up(2).feed(ONE, [], 2)
Case(cells=4096).set_up(2)
Case(cells=4095).set_up(0)
for bad in (entry(reset=0xA1F), entry(dl_up=0xA1F), entry(flr=0xFFFF), entry(d3hot=0x1000)):
    Case(entries=[bad]).set_up(3).feed(ONE, [], 3)
Case(entries=[entry(), entry(reset=0xFFFF)]).set_up(0).feed(ONE, [0])
for word, bit in ((0x1E, 15), (0x1E, 21), (0x11, 0), (0x11, 1)):
    Case(defaults=[(word, 1 << bit)]).set_up(4).feed(ONE, [], 4)
Case(slots=0, cells=0, entries=[entry(reset=0xFFFF)]).set_up(1)

# ---- Each clause of 5 alone; and states that are sound at their edges

five = Case(cells=2)
for state in (
        dict(clock=CLOCK_END + 1),
        dict(start=2),
        dict(depth=3),
        dict(start=1, depth=1, cells=[0, 1 << 20]),
        dict(signalling=3),
        dict(signalling=255),
        dict(clock=5, link=1, statuses=[pending(5)]),
        dict(clock=5, link=1, statuses=[pending(6 + GREATEST)]),
        dict(clock=5, link=1, statuses=[pending(9, cause=2, end=10)]),
        dict(link=1),
        dict(statuses=[READY]),
        dict(statuses=[pending(1)]),
        dict(owed=1),
        dict(owed=1, link=1, statuses=[READY]),
        dict(carried=b'\x0E'),
        dict(carried=b'\1\0\0\0\0'),
        dict(carried=b'\4' * 16, count=17),
        dict(carried=b'\2', broken=1, clock=CLOCK_END + 1)):
    five.lend(**state).feed(ONE, [], 5)
five.lend(clock=CLOCK_END, signalling=2, start=1, depth=2, cells=[(1 << 20) - 1, 0], carried=b'\2\0\0').feed([b'\x0F'], [18])
five.lend(clock=5, link=1, owed=1, statuses=[pending(5 + GREATEST, cause=2, end=4)]).feed([read(0)], [17])
five.lend(link=1, statuses=[READY], start=1, depth=1, cells=[1 << 20, 0x30007]).feed([QUEUE], [done(0x130007)])

# ---- 30 and 31, carried bytes

Case().set_up().feed([UP, read(0), read(0)], [0, 17], 30, room=23, consumed=8).feed([b'\x0F'], [17]).feed(
    [DOWN_LINK], [], 30, room=7, consumed=0).feed([read(0)[:3]], []).feed([b'\x0F'], [], 30, room=0, consumed=0).feed(
        [b'\x0F', DOWN_LINK], [17, 0])
Case().set_up().feed([DRS[:9]], []).feed([DRS[9:16]], []).feed([], []).feed([DRS[16:]], [23])
for kind in (b'\0', b'\x0E', b'\xFF'):
    Case().set_up().feed([UP, kind, UP], [0], 31, consumed=1).feed([], [], 31, consumed=0).feed(
        [UP], [], 31, consumed=0).set_up().feed([UP], [0])
Case().set_up().feed([b'\0'], [], 31, room=0, consumed=0)

# ---- What arrives, and in which order

# Three slots, ready in the order 2, 0, 1; a queue of 2.
three = Case(slots=3, cells=2, entries=[entry(flr=30), entry(flr=40), entry(flr=20)])
ready_card(three).feed(
    [control(2)] + [write(0x78, 0x8000, slot=s) for s in range(3)]
    + [advance(40), BITS, QUEUE, REMOVE, QUEUE, REMOVE, clear(7)]
    + [write(0x78, 0x8000, slot=s) for s in range(3)] + [advance(100)]
    + [write(0x78, 0x8000, slot=s) for s in range(3)] + [advance(100), BITS],
    [0, 0, 0, 0, done(interrupts=3, queued=2, dropped=1), done(7), done(0x230102), 0, done(0x130100), 0, 0,
     0, 0, 0, done(interrupts=3, queued=2, dropped=1), 0, 0, 0, done(dropped=3), done(3)])
# Ties go by slot number, and a slot that sends no FRS sends none.
ready_card(Case(slots=3, cells=4, entries=[entry(), entry(sends_frs=0), entry()])).feed(
    [write(0x78, 0x8000, slot=s) for s in (2, 1, 0)] + [advance(5), QUEUE, REMOVE, QUEUE],
    [0, 0, 0, done(queued=2), done(0x230100), 0, done(0x130102)])
# The DRS at link up: signalled by an interrupt, by the port's own FRS, or not at all.
Case().set_up().feed(
    [control(4), UP, advance(9), advance(1), DRS, DOWN_LINK, BITS, control(10), UP, advance(10), QUEUE, DOWN_LINK, QUEUE, BITS],
    [0, 0, 0, done(interrupts=4), 0, 0, 0, 0, 0, done(interrupts=1, queued=1), done(0x110008), 0, 0, done(1)])
Case(entries=[entry(dl_up=0)]).set_up().feed([control(4), UP, read(0)], [0, done(interrupts=4), 0])


# ---- Messages, written and read; the operations between them go on with the state that they find

def layout(kind, code, number, reason=0):
    return message(kind, code, number, reason)[1:]


def changed(at, byte):
    """A DRS of port 0100 with one byte changed."""
    return DRS[1:at + 1] + bytes([byte]) + DRS[at + 2:]


Case().writes(0x34, 0xABCD, 0, layout(0x34, 8, 0xABCD)).writes(0x30, 0xABCD, 3, layout(0x30, 9, 0xABCD, 3)).writes(
    0x34, 0x0100, 1, 19).writes(0x30, 0x0100, 16, 19).writes(0x31, 0x0100, 0, 19).writes(0x30, 0x0100, 3, 19, room=0).writes(
        0x30, 0x0100, 3, 19, room=15).writes(0x34, 0x0100, 0, 19, room=17).writes(0x34, 0x0100, 0, 19, room=40)
Case().reads(layout(0x34, 8, 0xABCD), 0x34, 0xABCD).reads(layout(0x30, 9, 0xABCD, 3), 0x30, 0xABCD, 3).reads(
    layout(0x30, 9, 0, 2 + 0xF0), 0x30, 0, 2).reads(layout(0x34, 8, 0x0100, 0xFF), 0x34, 0x0100).reads(
        b'', status=19).reads(DRS[1:16], status=19).reads(DRS[1:] + b'\0', status=19).reads(DRS[1:] + bytes(24), status=19)
read_alone = Case()
for at, byte in ((1, 0x8F), (2, 0xFF), (3, 0xFF), (6, 0xFF), (8, 0xFF), (9, 0xFF), (13, 0xFF), (14, 0xFF)):
    read_alone.reads(changed(at, byte), 0x34, 0x0100)
for at, byte in ((0, 0x35), (1, 0x10), (1, 0x40), (7, 0x7E), (10, 1), (11, 0), (12, 9)):
    read_alone.reads(changed(at, byte), status=19)
Case().set_up().writes(0x30, 0x0100, 3, layout(0x30, 9, 0x0100, 3)).feed([UP, read(0)[:3]], [0]).reads(DRS[1:], 0x34, 0x0100).feed(
    [b'\x0F', advance(10)], [17, 0])


# ---- Time sheets; what a sheet leaves is the set-up from there on

sheets = Case(slots=3)
# The edges of every scale, each unit, zeros in front, another order of slots, slots that are not named.
sheets.sheet('').sheet('0 0 511 512 16352 ns\n', {0: (0, 0x1FF, 0x210, 0x3FF)}).sheet(
    '2 16353 523264 523265 16744448 ns\n1 16744449 535822336 535822337 1006632960 ns\n',
    {2: (0x410, 0x5FF, 0x610, 0x7FF), 1: (0x810, 0x9FF, 0xA10, 0xA1E)}).sheet(
        '0000000000 0 1 512 1006632 us\n', {0: (0, 0x220, 0x5F4, 0xA1E)}).sheet(
            '1 0 1 300 1006 ms\n', {1: (0, 0x61F, 0x91F, 0xA1E)})
# Each number; the earliest bad line; the first number of a line; nothing changes.
for text, number, line in (
        ('\n', 40, 1), ('0 1 1 1 1 ns', 40, 1), ('0 1 1 1 1 ns\r\n', 40, 1), ('0 1 1 1 1 NS\n', 40, 1), ('0 1 1 1 1 s\n', 40, 1),
        ('0  1 1 1 1 ns\n', 40, 1), (' 0 1 1 1 1 ns\n', 40, 1), ('0 1 1 1 1 ns \n', 40, 1), ('0 1 1 1 ns\n', 40, 1),
        ('0 1 1 1 1 1 ns\n', 40, 1), ('0 1 1 -1 1 ns\n', 40, 1), ('0 1 1 1 00000000001 ns\n', 40, 1), ('00000000000 1 1 1 1 ns\n', 40, 1),
        ('0\t1 1 1 1 ns\n', 40, 1), ('# 0 1 1 1 1 ns\n', 40, 1), ('0 1 1 1 1 ns\n\n', 40, 2), ('\0', 40, 1), ('\xFF\n', 40, 1),
        ('3 1 1 1 1 ns\n', 41, 1), ('32 1 1 1 1 ns\n', 41, 1), ('4294967296 1 1 1 1 ns\n', 41, 1), ('9999999999 1 1 1 1 ns\n', 41, 1),
        ('0 1 1 1 1 ns\n0 1 1 1 1 ns\n', 42, 2), ('0 1 1 1 1 ns\n1 1 1 1 1 ns\n00 1 1 1 1 ns\n', 42, 3),
        ('0 1006632961 1 1 1 ns\n', 43, 1), ('0 1 1006633 1 1 us\n', 43, 1), ('0 1 1 1007 1 ms\n', 43, 1), ('0 1 1 1 9999999999 ms\n', 43, 1),
        ('3 1 1 1 1007 ms \n', 40, 1), ('3 1 1 1 1007 ms\n', 41, 1), ('1 1 1 1 1 ns\n1 1 1 1 1007 ms\n', 42, 2),
        ('1 1 1 1 1 ns\n2 1 1 1 1007 ms\n3\n', 43, 2)):
    sheets.sheet(text, number=number, line=line)
# A sheet mends a 3, and the times that it leaves are those of the bench.
Case(entries=[entry(reset=0xA1F, dl_up=0xFFFF)]).set_up(3).sheet('0 1 10 5 0 ns\n', {0: (1, 10, 5, 0)}).set_up(0).feed(
    [UP, advance(9), read(0), advance(1), read(0)], [0, 0, 17, 0, done(0x56781234)])
Case().set_up().sheet('0 0 1 0 0 us\n', {0: (0, 0x220, 0, 0)}).feed([UP, advance(1023), read(0), advance(1), read(0)], [0, 0, 17, 0, 0])
# Without slots no slot is there; with more than 32, those below 32 are.
Case(slots=0).sheet('0 1 1 1 1 ns\n', number=41, line=1)
Case(slots=33, statuses=32, live=2112, default_words=2112).sheet('32 1 1 1 1 ns\n', number=41, line=1).sheet(
    '31 1 1 1 1 ns\n', {31: (1, 1, 1, 1)})


# ---- Replays

BACK = 1 << 31

# Stamps that wrap; equal ones give no advance; one tick is 4 ns.
Case().set_up().replay(
    [stamped(0xFFFFFFFE, UP), stamped(0, read(0)), stamped(1, read(0))], [done(), done(), 17, done(), done(0x56781234)], clock=12)
Case().set_up().replay([stamped(5, UP), stamped(5, BITS), stamped(5, BITS), stamped(6, BITS)], [0, 0, 0, 0, 0], clock=4)
# One advance, and two: the longest comes first.
Case().set_up().replay([stamped(0, BITS), stamped(0x3FFFFFFF, BITS)], [0, 0, 0], clock=4294967292)
Case().set_up().replay(
    [stamped(7, BITS), stamped(7 + 0x40000000, BITS)], [0, 0], 30, room=16, consumed=9, left=replay_image(7, 7 + 0x40000000, 1),
    clock=4294967295).replay(
        [BITS], [0], 30, room=8, consumed=0, left=replay_image(7, 7 + 0x40000000, 2), clock=4294967296).replay(
            [BITS], [0], left=replay_image(7 + 0x40000000), clock=4294967296)
Case().set_up().replay([stamped(BACK, BITS), stamped(0xFFFFFFFF, BITS), stamped(BACK - 2, BITS)], [0] * 7, clock=2 * 8589934588)
# The slot becomes Ready within an advance, and its DRS and its FRS are counted in that advance's answer.
Case().set_up().replay(
    [stamped(0, control(6)), stamped(1, UP), stamped(9, write(0x78, 0x8000)), stamped(11, QUEUE)],
    [0, 0, 0, done(interrupts=4), 0, done(interrupts=1, queued=1), done(0x130100)], clock=44)

# The recorder went back (32): nothing of that entry runs, and the replay is ended, whatever comes.
for before, after in ((1000, 999), (0, 0xFFFFFFFF), (0, BACK), (5, BACK + 5), (0xFFFFFFFF, BACK - 1)):
    back = replay_image(before, after, ended=32)
    Case().set_up().replay(
        [stamped(before, UP), stamped(after, BITS), stamped(after, BITS)], [0], 32, room=24, consumed=9, left=back).replay(
        [BITS], [], 32, room=8, consumed=0, left=back).replay([], [], 32, consumed=0, left=back).set_up().replay(
            [stamped(before, UP)], [], 32, room=8, consumed=0, left=back)
Case().set_up().replay([stamped(BACK, UP), stamped(0xFFFFFFFF, BITS)], [0, 0, 0, 0], clock=8589934588)
# Without room too; and not before the kind byte is there.
Case().set_up().replay([stamped(9, UP), stamped(8, b'')], [0], left=replay_image(9, 8)).replay(
    [], [], left=replay_image(9, 8)).replay([BITS], [], 32, consumed=0, left=replay_image(9, 8, ended=32))

# Kind 01 (33), also in the first entry, and without room for the advance; a step back comes first.
Case().set_up().replay(
    [stamped(5, UP), stamped(7, advance(3))], [0], 33, room=24, consumed=9, left=replay_image(5, 7, ended=33), clock=0).replay(
    [BITS], [], 33, room=8, consumed=0, left=replay_image(5, 7, ended=33))
Case().set_up().replay([stamped(5, advance(3))], [], 33, room=8, consumed=4, left=replay_image(None, 5, ended=33))
Case().set_up().replay([stamped(5, UP), stamped(5, advance(3))], [0], 33, consumed=9, left=replay_image(5, 5, ended=33))
Case().set_up().replay([stamped(5, UP), stamped(4, advance(3))], [0], 32, room=24, consumed=9, left=replay_image(5, 4, ended=32))
# After an advance was answered for another kind byte.
Case().set_up().replay([stamped(5, UP), stamped(7, BITS)], [0, 0], 30, room=16, consumed=9, left=replay_image(5, 7, 1)).replay(
    [b'\1'], [], 33, room=8, consumed=0, left=replay_image(5, 7, 1, 33)).replay([BITS], [], 33, consumed=0, left=replay_image(5, 7, 1, 33))

# Cuts: within a stamp, before the kind byte, within a record, at every byte.
Case().set_up().replay([stamped(0x04030201, UP), b'\5\2'], [0], left=replay_image(0x04030201, b'\5\2')).replay(
    [b'\3'], [], left=replay_image(0x04030201, b'\5\2\3')).replay([], [], left=replay_image(0x04030201, b'\5\2\3')).replay(
        [b'\4', BITS], [0, 0], left=replay_image(0x04030205), clock=16)
Case().set_up().replay([b''], [], left=replay_image()).replay([stamped(3, b'')], [], left=replay_image(None, 3)).replay(
    [UP], [0], left=replay_image(3)).replay([stamped(6, b'')], [], room=8, left=replay_image(3, 6), clock=0).replay(
        [read(0)[:1]], [0], left=replay_image(6), clock=12).replay([read(0)[1:3]], [], left=replay_image(6)).replay(
            [read(0)[3:], stamped(6, BITS)], [done(0x56781234), done(4)])
cut = Case().set_up()
two = stamped(0x12345678, control(3)) + stamped(0x1234567A, read(0))
answered = {5: [0], 10: [0], 13: [done(0xFFFFFFFF, status=18)]}
for i in range(14):
    left = replay_image(None, two[:i + 1]) if i < 4 else replay_image(0x12345678, two[6:i + 1]) if i < 10 else replay_image(0x1234567A)
    cut.replay([two[i:i + 1]], answered.get(i, []), left=left)

# 30: an advance without room, then a one-byte record after its advances, which are not repeated; then a record's last byte.
Case().set_up().replay([stamped(1, UP), stamped(2, BITS)], [0], 30, room=15, consumed=9, left=replay_image(1, 2)).replay(
    [BITS], [], 30, room=7, consumed=0, left=replay_image(1, 2)).replay(
        [BITS], [0], 30, room=15, consumed=0, left=replay_image(1, 2, 1), clock=4).replay(
            [BITS, stamped(3, read(0))], [0, 0], 30, room=16, consumed=8, left=replay_image(3), clock=8).replay(
                [b'\x0F'], [17], left=replay_image(3))
Case().set_up().replay([stamped(1, UP)], [], 30, room=7, consumed=4, left=replay_image(None, 1)).replay([UP], [0], left=replay_image(1))

# 31 comes after the advances, and leaves the replay not ended; a set-up mends the port, and the stamp is still in hand.
for kind in (b'\0', b'\x0E', b'\xFF'):
    Case().set_up().replay([stamped(5, UP), stamped(10, kind), UP], [0, 0], 31, consumed=9, left=replay_image(5, 10, 1), clock=20).replay(
        [UP], [], 31, room=8, consumed=0, left=replay_image(5, 10, 1)).replay([], [], 31, left=replay_image(5, 10, 1)).set_up().replay(
            [UP], [0], left=replay_image(10), clock=0)
Case().set_up().replay([stamped(5, UP), stamped(10, b'\0')], [0], 30, room=8, consumed=9, left=replay_image(5, 10)).replay(
    [b'\0'], [0], 31, consumed=0, left=replay_image(5, 10, 1))
Case().set_up().replay([stamped(5, b'\0')], [], 31, consumed=4, left=replay_image(None, 5))

# 22 at an advance: it is answered, the clock stays, and the record runs.
Case().lend(clock=CLOCK_END - 4).replay([stamped(0, BITS), stamped(1, BITS), stamped(2, BITS)], [0, 0, 0, 22, 0], clock=CLOCK_END)
Case().lend(clock=CLOCK_END - 4).replay([stamped(0, BITS), stamped(0x40000000, BITS)], [0, 22, 0, 0], clock=CLOCK_END - 3)
Case().lend(clock=CLOCK_END).replay([stamped(0, BITS), stamped(0x40000000, BITS)], [0, 22, 22, 0], clock=CLOCK_END)

# Feed and replay by turns: feed may end a record of a replay; a record that feed begins within a stamp doesn't match.
Case().set_up().replay([stamped(5, read(0)[:2])], [], left=replay_image(5)).feed([read(0)[2:], UP], [18, 0]).replay(
    [stamped(6, BITS)], [0, 0], clock=4)
Case().set_up().replay([b'\5\0'], [], left=replay_image(None, b'\5\0')).feed([read(0)[:1]], []).replay([b'\0\0', UP], [], 5, room=8).feed(
    [read(0)[1:]], [18]).replay([b'\0\0', UP], [0], left=replay_image(5))
Case().set_up().feed([read(0)[:3]], []).replay([b'\x0F'], [], 5, room=8)

# Refusals 1 to 4; each comes before a replay that is ended, and so does 5; then that one's number, then 31.
ENDED = replay_image(9, 8, ended=32)
first = [stamped(0, UP)]
Case(slots=0).replay(first, [], 1, room=8).lend_replay(ENDED).replay(first, [], 1, room=8)
Case(cells=0).replay(first, [], 2, room=8).lend_replay(ENDED).replay(first, [], 2, room=8)
Case(entries=[entry(flr=0xA1F)]).replay(first, [], 3, room=8).lend_replay(ENDED).replay(first, [], 3, room=8)
Case(defaults=[(0x1E, 1 << 15)]).replay(first, [], 4, room=8).lend_replay(ENDED).replay(first, [], 4, room=8)
Case().lend_replay(ENDED).lend(clock=CLOCK_END + 1).replay(first, [], 5, room=8).lend(broken=1).replay(
    first, [], 32, room=8, consumed=0, left=ENDED).lend_replay(replay_image()).replay(
        first, [], 31, room=8, consumed=0, left=replay_image())

# Each clause of the match alone: 5.
unmatched = Case().set_up()
for lent in (
        replay_image(5, 7, ended=1),
        replay_image(5, 7, ended=31),
        replay_image(5, 7, ended=34),
        replay_image(5, 7, ended=255),
        replay_image(5, b'\7\0\0\0', count=5),
        replay_image(5, b'\7\0\0\0', count=255),
        replay_image(5, answered=1),
        replay_image(5, b'\7\0\0', answered=1),
        replay_image(None, 7, answered=1),
        replay_image(7, 7, answered=1),
        replay_image(5, 7, answered=2),
        replay_image(5, 5 + 0x40000000, answered=3),
        replay_image(5, 5 + BACK, answered=1),
        replay_image(5, 5 + BACK, answered=1, ended=32),
        replay_image(5, ended=32),
        replay_image(9, b'\5\0\0', ended=32),
        replay_image(5, 7, ended=32),
        replay_image(None, 7, ended=32),
        replay_image(5, ended=33),
        replay_image(5, b'\7\0\0', ended=33),
        replay_image(5, 5 + BACK, ended=33)):
    unmatched.lend_replay(lent).replay([BITS], [], 5, room=24)
within = Case()
for carried, lent in (
        (read(0)[:2], replay_image()),
        (read(0)[:2], replay_image(5, b'\7')),
        (read(0)[:2], replay_image(5, 7)),
        (read(0)[:2], replay_image(5, answered=1)),
        (read(0)[:2], replay_image(5, ended=32)),
        (read(0)[:2], replay_image(5, ended=33)),
        (advance(9)[:2], replay_image(5))):
    within.lend(carried=carried).lend_replay(lent).replay([carried[2:], BITS], [], 5, room=24)
within.lend(carried=read(0)[:2]).lend_replay(replay_image(5)).replay(
    [read(0)[2:], stamped(6, BITS)], [18, 0, 0], left=replay_image(6), clock=4)

# States that match at their edges; what one doesn't say is ignored: an earlier stamp without begun, stamp bytes past the count.
matched = Case().set_up()
for lent, want, number in (
        (replay_image(5, 7, 1), [0], 0),
        (replay_image(5, 5 + 0x40000000, 1), [0, 0], 0),
        (replay_image(5, 5 + 0x40000000, 2), [0], 0),
        (replay_image(5, 5 + BACK), [], 32),
        (replay_image(5, 5 + BACK, ended=32), [], 32),
        (replay_image(5, 7, ended=33), [], 33),
        (replay_image(5, 5 + 0x40000000, 2, 33), [], 33),
        (replay_image(None, 7, ended=33), [], 33)):
    left = lent[:11] + bytes([number]) if number else replay_image(struct.unpack('<I', lent[6:10])[0])
    matched.lend_replay(lent).replay([BITS], want, number, room=24, consumed=0 if number else 1, left=left)
matched.lend_replay(struct.pack('<BIB4sBB', 0, 1000, 4, b'\5\0\0\0', 0, 0), replay_image(None, 5)).replay(
    [], [], left=replay_image(None, 5)).replay([BITS], [0], left=replay_image(5))
matched.lend_replay(struct.pack('<BIB4sBB', 1, 1000, 1, b'\xEA\3\1\1', 0, 0), replay_image(1000, b'\xEA')).replay(
    [], [], left=replay_image(1000, b'\xEA')).replay([b'\3\0\0', BITS], [0, 0], left=replay_image(1002))
matched.lend_replay(struct.pack('<BIB4sBB', 0, 1000, 2, b'\5\0\1\1', 9, 9), replay_image(None, b'\5\0', 9, 9)).replay([BITS], [], 5, room=8)

# The moments at which a replay makes slots Ready: its own ready time, also within an advance; a wait of 0 at the record's clock; the last one is
# kept. Feed, set-up and a refused call keep none; nothing clears them.
FLR = 0x8000
times = [entry(dl_up=0x00A, flr=0x005, d3hot=0), entry(dl_up=0, flr=0, d3hot=0), entry(dl_up=0x014)]
late = Case(slots=3, entries=times, defaults=[(64 * slot + 0x1D, 1 << 28) for slot in range(3)]).set_up()
late.replay([stamped(5, UP)], [0], made={1: 0})
late.replay([stamped(55, BITS)], [0, 0], clock=200, made={0: 10, 1: 0, 2: 20})
late.replay([stamped(55, write(0x78, FLR, slot=1)), stamped(56, write(0x78, FLR))], [0, 0, 0], clock=204, made={0: 10, 1: 200, 2: 20})
late.replay([stamped(57, BITS), stamped(58, BITS)], [0, 0, 0, 0], clock=212, made={0: 209, 1: 200, 2: 20})
late.replay([stamped(58, DOWN_LINK), stamped(58, UP)], [0, 0], clock=212, made={0: 209, 1: 212, 2: 20})
late.feed([advance(100)], [0]).replay([stamped(58, BITS)], [0], clock=312, made={0: 209, 1: 212, 2: 20})
late.lateness({0: 210, 1: 212, 2: 19, 3: 5}, {0: 1, 1: 0, 2: -1}).lateness({}, {}).lateness({2: 20 + 10 ** 15, 0: 210 + 10 ** 15}, {2: 10 ** 15, 0: 34})
late.set_up().replay([stamped(58, BITS)], [0], clock=0, made={0: 209, 1: 212, 2: 20})
late.lend_replay(replay_image(), made={0: 10 ** 15 + 1, 1: 2 ** 64 - 1, 31: 7}).replay([stamped(1, UP)], [0], left=replay_image(1), made={0: 10 ** 15 + 1, 1: 0, 31: 7})
late.lateness({0: 1, 1: 2 ** 64 - 1, 31: 7}, {0: -10 ** 15, 1: 34}).lend_replay(replay_image(9, 8, ended=31), made={0: 3}).replay([BITS], [], 5, room=8, made={0: 3})
late.lend_replay(replay_image(), made=moments({})[:1] + b'\xFF' * 8 + moments({})[9:]).replay([stamped(1, BITS)], [0], left=replay_image(1), made={})
Case(slots=0).lend_replay(replay_image(), made={0: 3}).lateness({0: 3}, {})

# Totals: with none all 0; 34, else 35 for more than 9,000, and then all 0; the sum is exact.
MOST = 10 ** 15
Case().totals([]).totals([-5, 0, 7, -1], 2, 1, 1, -5, 7, 1).totals([0], 0, 1).totals([3], late=1, least=3, greatest=3, total=3).totals([-3], 1, 0, 0, -3, -3, -3)
Case().totals([MOST, -MOST], 1, 0, 1, -MOST, MOST).totals([0, MOST + 1], number=34).totals([-MOST - 1], number=34).totals([-2 ** 63], number=34)
Case().totals([MOST] * 9000, late=9000, least=MOST, greatest=MOST, total=9 * 10 ** 18).totals([-MOST] * 9000, 9000, 0, 0, -MOST, -MOST, -9 * 10 ** 18)
Case().totals([1] * 9001, number=35).totals([1] * 9001 + [MOST + 1], number=34).totals([0] * 9100, number=35)


# ---- An output is held to what is expected

STATUSES = {1: (0, 22), 2: (0, 16, 17, 18, 20, 21, 24), 3: (0, 17, 18, 20, 21, 24), 4: (0, 19, 23), 5: (0, 23), 6: (0, 23),
            7: (0,), 8: (0,), 9: (0,), 10: (0,), 11: (0, 24), 12: (0, 20, 21, 23), 13: (0,)}
SIZES = {1: 5, 2: 4, 3: 8, 4: 17, 10: 2, 11: 2, 12: 7}


class Check:
    def __init__(self, output):
        self.output, self.at, self.wrong, self.seen = output, BASE_OUTPUT, 0, set()

    def take(self, n):
        self.at += n
        return self.output[self.at - n:self.at]

    def say(self, where, what):
        self.wrong += 1
        print('%s: %s' % (where, what))

    def hold(self, where, got, want):
        want = bytes([want]) if isinstance(want, int) else want
        if got[:len(want)] != want:
            self.say(where, 'answer %s, not %s' % (got.hex(), want.hex()))

    def answer(self, where, kind, got, want):
        self.seen.add((kind, got[0]))
        self.hold(where, got, want)

    def feed(self, where, operation, carried):
        number, consumed, written = struct.unpack('<BII', self.take(9))
        _, _, want_number, records, want, room, want_consumed = operation
        answers = self.take(room)
        if (number, consumed, written) != (want_number, want_consumed, 8 * len(want)):
            self.say(where, 'number %d, consumed %d, written %d' % (number, consumed, written))
        trace = carried + b''.join(records)[:consumed]
        for i, w in enumerate(want):
            kind = trace[0]
            trace = trace[SIZES.get(kind, 1):]
            self.answer('%s record %d' % (where, i), kind, answers[8 * i:8 * i + 8], w)
        if answers[written:] != b'\xEE' * (room - written):
            self.say(where, 'a byte beyond the answers changed')

    def replay(self, where, operation):
        number, consumed, written = struct.unpack('<BII', self.take(9))
        _, _, want_number, want, room, want_consumed, _, _, _ = operation
        answers = self.take(room)
        if (number, consumed, written) != (want_number, want_consumed, 8 * len(want)):
            self.say(where, 'number %d, consumed %d, written %d' % (number, consumed, written))
        for i, w in enumerate(want):
            self.hold('%s answer %d' % (where, i), answers[8 * i:8 * i + 8], w)
        if answers[written:] != b'\xEE' * (room - written):
            self.say(where, 'a byte beyond the answers changed')

    def after_replay(self, where, state, operation):
        left, clock, made = operation[6:]
        got = self.take(len(left))
        if got != left:
            self.say(where, 'replay image %s, not %s' % (got.hex(), left.hex()))
        got = self.take(288)
        if made is not None and got != moments(made):
            self.say(where, 'moments %s, not %s' % (got.hex(), moments(made).hex()))
        if clock is not None and struct.unpack('<Q', state[:8])[0] != clock:
            self.say(where, 'another clock than %d' % clock)

    def case(self, index, case):
        carried = b''
        for j, operation in enumerate(case.operations):
            where = 'case %d operation %d' % (index, j)
            if operation[1] == 'lend':
                carried = operation[0][30:30 + operation[0][29]]
                continue
            if operation[1] == 'lend replay':
                continue
            if operation[1] == 'message':
                got = self.take(len(operation[2]))
                if got != operation[2]:
                    self.say(where, '%s, not %s' % (got.hex(), operation[2].hex()))
                continue
            if operation[1] == 'feed':
                self.feed(where, operation, carried)
            elif operation[1] == 'replay':
                self.replay(where, operation)
            elif self.take(1) != bytes([operation[2]]):
                self.say(where, 'another number')
            state = self.take(case.state_size())
            carried = state[29:29 + state[28]]
            if operation[1] == 'replay':
                self.after_replay(where, state, operation)

    def all(self):
        for index, case in enumerate(cases):
            self.case(index, case)
        if self.at != len(self.output):
            self.say('the end', '%d bytes expected, %d given' % (self.at, len(self.output)))
        for kind, statuses in STATUSES.items():
            for status in statuses:
                if (kind, status) not in self.seen:
                    self.say('kind %02X' % kind, 'status %d never given' % status)
        return self.wrong == 0


def main():
    if len(sys.argv) == 1:
        sys.stdout.buffer.write(sys.stdin.buffer.read(BASE) + b''.join(case.bytes() for case in cases))
        return 0
    with open(sys.argv[1], 'rb') as output:
        good = Check(output.read()).all()
    print('%d cases: %s' % (len(cases), 'as expected' if good else 'not as expected'))
    return 0 if good else 1


sys.exit(main())
