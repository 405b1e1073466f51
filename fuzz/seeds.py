#!/usr/bin/env python3
"""Writes the corpus of the fuzz run anew: small inputs that lead into each part of the unit.

An input is a head (flags, density of equipment, unit, length of the parameter block, room of the buffer, seed of the tables) and
events, each a character for its kind and what that kind reads. fuzz/border.c reads them.
"""
import os
import re
import struct

FOLDER = os.path.dirname(os.path.abspath(__file__))
with open(os.path.join(FOLDER, '../include/osturdam.h'), encoding='utf-8') as header:
    NUMBERS = {name: int(number) for name, number in re.findall(r'^    OSTURDAM_(\w+) = (\d+)\b', header.read(), re.M)}
BLOCK, REPLY, MOST, ROOM = (NUMBERS[name] for name in ('BLOCK', 'REPLY', 'LENT', 'ROOM'))
FRAME, VALUES, HOLD, SILENT, LAG, LAYOUT = (NUMBERS[name] for name in ('FRAME', 'VALUES', 'HOLD_MS', 'SILENT_MS', 'LAG_MS', 'LAYOUT'))
ANY_CONFIG, ANY_STATE, NULLS, MOST_ROOM, MEANS = 1, 2, 4, 8, 16
OWN, ALL, ANOTHER, BEHIND = 0, 1, 2, 3
COMMANDS = [(0x00, 0x41), (0x00, 0x4D), (0x03, 0x00), (0x03, 0x80), (0x04, 0x00), (0x04, 0x20), (0x04, 0x40), (0x04, 0x60), (0x0A, 0x40), (0x10, 0x10),
            (0x10, 0x11), (0x10, 0x20), (0x10, 0x21), (0x20, 0x00), (0x20, 0x11), (0x20, 0x30), (0x20, 0x31), (0x20, 0x38), (0x28, 0x30), (0x28, 0x31)]


def head(flags=0, density=255, unit=1234, length=BLOCK, room=REPLY, seed=1):
    return struct.pack('<BBHHHI', flags, density, unit, length, room, seed)


def frame(function, command, data=b'', master=1, to=OWN, low=0):
    chosen = COMMANDS.index((function, command)) if (function, command) in COMMANDS else None
    if chosen is None:
        return bytes([0, to << 5 | master, 0xFF, function, len(data), command]) + data
    return bytes([0, to << 5 | master, chosen, low, len(data)]) + data


def lag(ms):
    """Of the stretches that follow."""
    return struct.pack('<BI', 5, ms)


def stretch(chars):
    return struct.pack('<BH', 6, len(chars)) + chars


def elapsed(ms):
    return struct.pack('<BI', 7, ms)


def word(number, value):
    return struct.pack('<BBH', 8, number, value)


def contact(number, state):
    return bytes([12, number, state])


def sample(number):
    return bytes([4, number])


def analogs(value):
    """All that the means of fuzz/border.c may sample."""
    return b''.join(word(0x80 + n, value) for n in range(4))


def pulses(number, count):
    return struct.pack('<BBH', 9, number, count)


def value(number, bits):
    return struct.pack('<BBI', 10, number, bits)


def record(file, event=7, many=0):
    return bytes([11, file, event, many])


def kept(name, number):
    return struct.pack('<BHH', 13, NUMBERS[name], number)


def changed(part, place, char):
    return struct.pack('<BBHB', 14, part, place, char)


def room(length):
    return struct.pack('<BBH', 15, 1, length)


def block(length):
    return struct.pack('<BBH', 15, 0, length)


def records(length):
    return struct.pack('<BBH', 15, 2, length)


def about(more):
    """Room for records by how much more it is than what is asked for, -2 to 2."""
    return struct.pack('<BBH', 15, 3, 2 + more)


def write(ordinal, bias, data, master=1, to=OWN):
    return frame(0x20, 0x30, struct.pack('<HB', bias, ordinal), master) + frame(0x20, 0x31, data, master, to)


def together(ordinal, bias, data):
    """In one stretch."""
    return write(ordinal, bias, data, to=BEHIND)


SCAN = frame(0x00, 0x4D)
FIRST_TO_ALL = frame(0x20, 0x38, bytes([0, 1, 0, 0, 0, 0, 0]), to=ALL)
LAST = frame(0x20, 0x38, b'\x03\x66\x23\x59\x59\x03\xe7')
DUMP, NEXT = frame(0x04, 0x60), frame(0x04, 0x40)
INPUTS = {
    'scan': head() + word(0x30, 0x8001) + pulses(0x40, 65535) + pulses(0x40, 1) + word(0xFF, 7) + SCAN + frame(0x00, 0x41),
    'contacts': head() + contact(0, 1) + contact(0, 0) + contact(0, 1) + frame(0x00, 0x41) + frame(0x00, 0x4D, b'\0') + SCAN + contact(0, 0) + SCAN
                + contact(255, 1) + contact(255, 1) + contact(7, 0xF2) + word(0x00, 1) + write(3, 0, bytes([0, 3, 31, 0, 31])) + contact(255, 0)
                + frame(0x0A, 0x40, low=1) + frame(0x0A, 0x40, low=1),
    'contacts-sparse': head(density=60) + b''.join(contact(n, 1) for n in range(0, 256, 8)) + SCAN,
    'means': head(MEANS) + frame(0x03, 0x00, bytes([64, 0, 64])) + frame(0x03, 0x80) + analogs(0xFFF9) + sample(64) + frame(0x03, 0x80)
             + analogs(7) + sample(64) + frame(0x03, 0x00, bytes([64, 1])) + sample(64) + frame(0x20, 0x00) + frame(0x03, 0x00, bytes([64])),
    'means-limits': head(MEANS) + analogs(0x8000) + sample(72) * 2 + analogs(0x7FFF) + sample(80) * 2 + sample(72) + b''.join(sample(8 * p) * 2 for p in range(8)),
    'means-refused': head(MEANS) + sample(1) + sample(128) + sample(255) + value(64, 1) + value(1, 1) + about(-1) + sample(64) + about(0) + sample(64),
    'means-faults': head(MEANS | MOST_ROOM) + sample(64) + changed(14, 16, 3) + sample(64) + changed(14, 16, 2) + changed(12, 8, 72) + sample(72)
                    + changed(12, 8, 64) + changed(13, 8, 0x30) + SCAN + changed(13, 8, 0x80) + changed(15, 16, 3) + sample(64) + changed(15, 16, 2) + sample(64),
    'means-records': head(MEANS) + analogs(5) + sample(64) * 3 + record(31) * 3 + record(0) + DUMP + DUMP + frame(0x04, 0x60, low=31) * 2 + sample(64),
    'means-sparse': head(MEANS, density=128) + analogs(0x1234) + b''.join(sample(8 * p) for p in range(16)) + frame(0x03, 0x80),
    'sparse': head(density=60) + word(0x30, 1) + SCAN + frame(0x03, 0x80) + frame(0x20, 0x11, b'\x41'),
    'values': head(density=200) + value(5, 0x7FC00001) + frame(0x03, 0x80) + frame(0x03, 0x00, bytes(range(100))) + frame(0x03, 0x00, bytes(103)),
    'too-long': head() + frame(0x03, 0x80) + frame(0x03, 0x00, bytes(128)),
    'operate': head() + frame(0x10, 0x11, b'\x40') + elapsed(HOLD) + frame(0x10, 0x20) + frame(0x10, 0x10, b'\x40') + frame(0x10, 0x20),
    'late': head() + frame(0x10, 0x10, b'\x40') + elapsed(HOLD + 1) + frame(0x10, 0x20) + frame(0x10, 0x20),
    'broken-off': head() + frame(0x10, 0x10, b'\x40') + frame(0x10, 0x10, b'\x40', master=2) + frame(0x10, 0x21, master=2) + SCAN,
    'blocks': head() + write(3, 250, b'abcdef') + write(3, 250, b'abcdefg') + write(6, 384, bytes(128)) + frame(0x28, 0x30, b'\x01\x01\x06\xff'),
    'pairs': head() + together(3, 250, b'abcdef') + together(3, 250, b'abcdefg') + together(6, 0, b'') + together(6, 384, bytes(128)) + SCAN,
    'pairs-refused': head() + frame(0x20, 0x30, b'\0\0\6', master=2) + together(6, 0, b'x') + frame(0x20, 0x31, b'x', master=2)
                     + frame(0x10, 0x10, b'\x40') + together(6, 0, b'x') + SCAN,
    'pairs-apart': head() + together(6, 0, bytes(129)) + together(6, 0, b'x') + frame(0x20, 0x31, b'x', to=BEHIND)
                   + frame(0x20, 0x30, b'\0\0\6') + frame(0x20, 0x31, b'x', master=2, to=BEHIND) + SCAN,
    'write-held': head() + frame(0x20, 0x30, b'\0\0\6') + frame(0x20, 0x30, b'\0\0\6', master=2) + frame(0x20, 0x31, b'x', master=2) + elapsed(HOLD + 1),
    'tables': head() + write(11, 0, b'\x12\x02\x30\x40' + b'\x00\x03\x80\x81\x82') + b''.join(frame(0x0A, 0x40, low=n) for n in range(1, 5)),
    'table-end': head() + write(11, 128, bytes([0x11, 126]) + bytes(126)) + write(11, 0, bytes([0x33, 126]) + bytes(126)) + frame(0x0A, 0x40, low=2),
    'clock': head() + LAST + elapsed(1) + frame(0x28, 0x31) + frame(0x20, 0x38, b'\x03\x67\0\0\0\0\0'),
    'lag': head() + lag(1) + LAST + lag(LAG) + LAST + lag(LAG + 1) + LAST + SCAN + frame(0x28, 0x31) + lag(2**32 - 1) + LAST + DUMP,
    'lag-all': head() + lag(LAG) + FIRST_TO_ALL + lag(LAG + 1) + FIRST_TO_ALL + SCAN,
    'year': head() + elapsed(2**32 - 1) * 9 + frame(0x28, 0x31),
    'silence': head() + elapsed(SILENT - 1) + elapsed(1) + SCAN + SCAN + stretch(b'') + elapsed(SILENT) + stretch(b'noise') + SCAN,
    'restart': head() + frame(0x20, 0x30, b'\0\0\6') + record(0) + NEXT + frame(0x20, 0x00) + NEXT,
    'broadcast': head() + frame(0x20, 0x11, b'\x40', to=ALL) + FIRST_TO_ALL + frame(0x20, 0x00, to=ALL) + SCAN,
    'another': head() + frame(0x00, 0x41, to=ANOTHER) + SCAN,
    'history': head() + record(0) * 3 + DUMP + frame(0x04, 0x20) + record(0) + frame(0x04, 0x20) + DUMP + DUMP,
    'two-masters': head() + record(0) + NEXT + frame(0x04, 0x40, master=2) + NEXT + NEXT,
    'full': head() + record(3) * (ROOM + 2) + frame(0x04, 0x60, low=3) * 4 + record(3),
    'newest': head() + changed(10, 3, 0) + record(3) * ROOM + frame(0x04, 0x40, low=3) + record(3) * 2 + frame(0x04, 0x60, low=3) + record(3),
    'oldest': head() + changed(10, 3, 1) + record(3) * (ROOM + 1),
    'dropped': head() + changed(10, 0, 0) + changed(11, 0, 254) + changed(11, 1, 255) + record(0) * (ROOM + 3),
    'files': head() + record(31) + record(32) + record(1, many=0xFF) + frame(0x04, 0x40, low=31) + frame(0x04, 0x40, low=1) + frame(0x04, 0x00, low=31),
    'unknown': head() + frame(0xFF, 0xFF, b'xyz') + frame(0x00, 0xFF) + frame(0x0A, 0x10) + frame(0x03, 0x81),
    'damage': head() + stretch(bytes.fromhex('D20C004100005367')) + SCAN + frame(0x00, 0x41, b'x') + frame(0x28, 0x30, bytes(128)),
    'longest': head() + frame(0x20, 0x31, bytes(FRAME - 8)) + frame(0x20, 0x31, bytes(FRAME - 7)) + stretch(bytes(FRAME)) + stretch(bytes(700)),
    'rooms': head(room=REPLY - 1) + SCAN + room(REPLY) + SCAN + room(0) + SCAN + room(1100) + SCAN,
    'nulls': head(NULLS, length=0, room=0) + stretch(b'') + room(REPLY) + stretch(b'') + frame(0x28, 0x30, b'\0\0\6\0') + elapsed(0),
    'block-other': head() + block(BLOCK - 1) + SCAN + block(BLOCK + 1) + elapsed(1) + block(BLOCK) + SCAN,
    'records': head() + about(0) + record(0) + SCAN + about(1) + DUMP + SCAN + about(-1) + SCAN + record(0) + elapsed(1),
    'records-most': head(MOST_ROOM) + record(0) + SCAN + records(MOST + 1) + DUMP + SCAN + records(MOST - 1) + SCAN + about(2) + SCAN,
    'records-last': head() + record(31) * (ROOM + 1) + frame(0x04, 0x60, low=31) * 4 + about(-1) + frame(0x04, 0x60, low=31),
    'records-sparse': head(density=60) + b''.join(record(f) for f in range(32)) + b''.join(frame(0x04, 0x60, low=f) for f in range(0, 32, 3)),
    'records-changed': head(MOST_ROOM) + record(5) + changed(3, 0, 16) + DUMP + changed(2, 0, 0) + SCAN + frame(0x04, 0x60, low=5) + about(0) + SCAN,
    'records-none': head(NULLS) + records(0) + SCAN + record(0) + word(0x30, 1) + pulses(0x40, 1) + value(0, 1) + elapsed(1),
    'kept-select': head() + kept('SELECT', 1) + kept('SELECT_MASTER', 31) + kept('SELECT_AGE', HOLD) + frame(0x10, 0x20, master=31)
                   + kept('SELECT_AGE', HOLD + 1) + kept('SELECT', 1) + SCAN,
    'kept-memory': head() + record(0) * 2 + kept('MEMORY', 1) + kept('MEMORY_QUANTITY', 1) + kept('MEMORY_MORE', 1)
                   + frame(0x04, 0x00, master=0) + kept('MEMORY_QUANTITY', 2) + DUMP,
    'kept-marks': head() + kept('MARK', 2) + SCAN + kept('MARK', 3) + SCAN + kept('MARK', 0)
                  + kept('SILENCE', SILENT + 1) + elapsed(1) + kept('SILENCE', SILENT) + elapsed(0),
    'kept-clock': head() + kept('DAY', 366) + SCAN + kept('DAY', 367) + SCAN + kept('DAY', 0) + record(0) + kept('DAY', 65535) + elapsed(9),
    'counts': head() + changed(4, 0, ROOM) + DUMP + DUMP + changed(4, 0, ROOM + 1) + SCAN + changed(4, 0, 255) + DUMP,
    'equipment': head() + changed(0, 0x20, 1) + SCAN + changed(0, 0x20, 0) + changed(1, 0x80, 1) + SCAN + changed(1, 0x80, 0)
                 + changed(3, 0, VALUES + 1) + record(0),
    'layout': head() + changed(9, 0, LAYOUT + 1) + SCAN + record(0) + elapsed(1) + word(0x30, 1) + changed(9, 0, LAYOUT) + SCAN + changed(9, 1, 1) + SCAN,
    'any-config': head(ANY_CONFIG, unit=0xFFFF, length=0xFFFF) + SCAN + elapsed(1) + record(0) + word(0, 1) + pulses(0x40, 1) + value(0, 1),
    'any-state': head(ANY_STATE) + SCAN + elapsed(1) + record(0) + word(0, 1) + pulses(0x40, 1) + value(0, 1),
}


def main():
    for name, chars in INPUTS.items():
        with open(os.path.join(FOLDER, 'corpus', name), 'wb') as f:
            f.write(chars)


main()
