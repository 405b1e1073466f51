"""The messages of an exchange, and what document 01 says each one means, in the names of the dissector's fields."""
import struct
from typing import NamedTuple

GAP = 50  # milliseconds from one message to the next in the capture, besides those that pass for the unit
KINDS = ((0x00, 0x20, 0x04, 'twobitstatus'), (0x30, 0x40, 0x01, 'simplestatusbit'),
         (0x40, 0x60, 0x40, 'accumulator'), (0x80, 0x100, 0x08, 'analogdata'))  # first, past the last, command bit, field
POINTS = {'sbo_requestpoint', 'resetacc_requestpoint', 'specialcalc', *(field for _, _, _, field in KINDS)}
STAMP = ('date.hundreds', 'date.tens', 'hour', 'minute', 'second')


class Item(NamedTuple):
    """A field that is shown: its value, the number of the point in its label, and what a filter on the field compares with."""
    field: str
    value: object
    number: object = None
    filtered: object = None

    def of_data(self):
        return self.field in POINTS or self.field.startswith('timetag.')


class Message:
    """A master's stretch ('M', with its outcome) or the unit's reply ('U', with its request)."""

    def __init__(self, number, sender, chars, outcome, request):
        self.number, self.sender, self.chars, self.outcome, self.request = number, sender, chars, outcome, request
        self.at, self.what, self.equipped = 0, '', b''
        self.address, self.function = word(chars, 0), chars[2]
        head = 6 if sender == 'M' else 7
        self.command = chars[3] if sender == 'M' else request.command
        self.data = chars[head:-2]

    def asks(self, function, *commands):
        return self.function == function and (not commands or self.command in commands)

    def nop(self):
        return self.sender == 'U' and self.function & 0x40 != 0

    def rst(self):
        return self.sender == 'U' and self.function & 0x80 != 0


def word(chars, at):
    return int.from_bytes(chars[at:at + 2], 'little')


class Exchange:
    """The lines that host/capture/exchange.c prints, read: messages, equipped inputs, values of each file; and of each
    message the calculations that were equipped then."""

    def __init__(self, lines):
        self.messages, self.values, at, what, equipped = [], {}, 0, '', b''
        for kind, first, *rest in (line.split('\t') for line in lines):
            if kind == 'I':
                self.inputs = bytes.fromhex(first)
            elif kind == 'C':
                equipped = bytes.fromhex(first)
            elif kind == 'F':
                self.values[int(first)] = int(rest[0])
            elif kind == 'W':
                what = first
            elif kind == 'T':
                at += int(first)
            else:
                at += GAP
                self.add(kind, bytes.fromhex(first), rest)
                self.messages[-1].at, self.messages[-1].what, self.messages[-1].equipped = at, what, equipped

    def add(self, sender, chars, rest):
        request = self.messages[-1] if sender == 'U' else None
        outcome = request.outcome if request else int(rest[0])
        self.messages.append(Message(len(self.messages) + 1, sender, chars, outcome, request))


def points(m, inputs):
    """Function 00: all equipped words of the chosen kinds, lowest number first."""
    chosen = [(n, field) for n in inputs for low, end, bit, field in KINDS if low <= n < end and m.command & bit]
    for at, (number, field) in enumerate(chosen):
        value = word(m.data, 2 * at)
        if field == 'analogdata':
            value = (value ^ 0x8000) - 0x8000
        numeric = field in ('analogdata', 'accumulator')
        yield Item(field, value, number, value if numeric else None)


def calculation(chars, number):
    return Item('specialcalc', '%g' % struct.unpack('<f', chars), number, chars.hex())


def calculations(m, equipped):
    """Function 03: values alone, or each after its number."""
    if m.command == 0x80:
        return [calculation(m.data[4 * i:4 * i + 4], n) for i, n in enumerate(equipped)]
    return [calculation(m.data[i + 1:i + 5], m.data[i]) for i in range(0, len(m.data), 5)]


def records(m, values):
    """Function 04: the quantity with its flag, then records: event type, day and time in decimal digits, words."""
    yield Item('timetag.moredata', m.data[0] >> 7)
    yield Item('timetag.numsets', m.data[0] & 0x7F)
    size = 6 + 2 * values[m.command & 0x1F]
    for at in range(1, len(m.data), size):
        record = m.data[at:at + size]
        yield Item('timetag.event.type', record[0])
        for name, char in zip(STAMP, record[1:6]):
            yield Item('timetag.event.' + name, 10 * (char >> 4) + (char & 0x0F))
        for n in range((size - 6) // 2):
            value = word(record, 6 + 2 * n)
            yield Item('analogdata', value, n + 1, value)


def data_items(m, exchange):
    """What a message's data say; data that have no field of their own stand as they are."""
    answered = m.sender == 'U' and not m.nop() and not m.rst()
    if m.asks(0x10, 0x10, 0x11) or m.asks(0x20, 0x11):
        field = 'sbo_requestpoint' if m.function == 0x10 else 'resetacc_requestpoint'
        return [Item(field, char) for char in m.data]
    if m.sender == 'M' and m.asks(0x03, 0x00):
        return [Item('speccalc_requestpoint', char) for char in m.data]
    if answered and m.asks(0x00):
        return list(points(m, exchange.inputs))
    if answered and m.asks(0x03):
        return calculations(m, m.equipped)
    if answered and m.asks(0x04):
        return list(records(m, exchange.values))
    return [Item('data', m.data.hex())] if m.data else []


def head_items(m):
    yield Item('RTUAddress', m.address & 0x7FF)
    yield Item('MasterAddress', m.address >> 11)
    yield Item('functioncode', m.function & 0x3F)
    if m.sender == 'M':
        yield Item('Reserved', m.function >> 6)
        yield Item({0x04: 'commandcode.fc04', 0x20: 'commandcode.fc20'}.get(m.function, 'commandcode'), m.chars[3])
        yield Item('numberofcharacters', len(m.data))
        return
    yield Item('nop_flag', m.function >> 6 & 1)
    yield Item('rst_flag', m.function >> 7)
    yield Item('rtustatus', m.chars[3])
    yield Item('portstatus', m.chars[4])
    yield Item('numberofcharacters', len(m.data))
    yield Item('request_frame', m.request.number)


def meant(m, exchange):
    """Every field of a message as its layout says."""
    return [*head_items(m), *data_items(m, exchange), Item('crc', word(m.chars, len(m.chars) - 2))]
