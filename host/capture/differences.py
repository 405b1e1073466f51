"""Where tshark's CP2179 dissector shows something else than document 01 says, each with its reason.

A difference of WHOLE takes a message wholly: the first that applies says all that is shown. Those of DETAIL each change what is shown
of a message that is read. docs/WIRESHARK.md lists them by name.
"""
from typing import Callable, NamedTuple

from messages import STAMP, Item, calculation, meant, word


class Difference(NamedTuple):
    name: str
    reason: str
    applies: Callable  # to a message
    shows: Callable    # what is shown instead, of a message and its items


class Anything:
    """The number of a point that the dissector takes from memory it never filled."""

    def __eq__(self, other):
        return True

    def __repr__(self):
        return 'anything'


def nothing(m, items):
    return []


def reply_read_from(m, items, count):
    """What is shown of a master's frame that is taken for a reply: the characters where a reply has its status, port status and count."""
    made = items[:3] + [Item('nop_flag', 0), Item('rst_flag', 0), Item('rtustatus', m.chars[3]), Item('portstatus', m.chars[4]),
                        Item('numberofcharacters', count)]
    return made if m.kept is None else made + [Item('request_frame', m.kept)]


def as_empty_reply(m, items):
    made = reply_read_from(m, items, 0)
    return made if m.kept is None else made + [Item('crc', swapped(word(m.chars, 7)))]


def as_broken_reply(m, items):
    return reply_read_from(m, items, word(m.chars, 5)) + [Item('malformed', True)]


def swapped(value):
    return value >> 8 | (value & 0xFF) << 8


def replaced(items, **values):
    """The items with other values of some fields; None leaves a field out."""
    kept = (i for i in items if values.get(i.field, i) is not None)
    return [i._replace(value=values[i.field]) if i.field in values else i for i in kept]


def without_data(items):
    return [i for i in items if not i.of_data()]


def read_in_fours(m, items):
    """03/00: every four data characters as a value, the last group running on into the check."""
    read = [at for at in range(7, len(m.chars) - 2, 4) if at + 4 <= len(m.chars)]
    made = without_data(items)
    crc = made.pop()
    asked = [*m.request.data] + [Anything()] * len(read)
    made += [calculation(m.chars[at:at + 4], number) for at, number in zip(read, asked)]
    return made + [crc if len(m.data) % 4 == 0 else Item('malformed', True)]


def counted_from(m, items):
    """The points of a reply, numbered in their order."""
    first = {'twobitstatus': 0x30, 'simplestatusbit': 0x30}
    at, made = 0, []
    for i in items:
        if i.of_data():
            i = i._replace(number=first.get(i.field, 0) + at)
            at += 1
        made.append(i)
    return made


def index_as_value(m, items):
    return [i._replace(filtered=i.number) if i.field in ('analogdata', 'accumulator') else i for i in items]


def plain(value):
    """Two decimal digits, as the number that their character is."""
    return value // 10 << 4 | value % 10


def with_plain_stamps(m, items):
    digits = {'timetag.event.' + name for name in STAMP}
    return [i._replace(value=plain(i.value)) if i.field in digits else i for i in items]


def signed(value):
    return (value ^ 0x8000) - 0x8000


def with_signed_words(m, items):
    return [i._replace(value=signed(i.value), filtered=signed(i.filtered)) if i.field == 'analogdata' else i for i in items]


def check_swapped(m, items):
    return [i._replace(value=swapped(i.value)) if i.field == 'crc' else i for i in items]


def is_request(m, function, *commands):
    return m.sender == 'M' and m.asks(function, *commands)


def is_reply(m, function, *commands):
    return m.sender == 'U' and m.asks(function, *commands)


def kinds_asked(m):
    return bin(m.command & 0x4D).count('1')


WHOLE = [
    Difference('NOP', 'It knows no function code with bit 6, so a NOP reply is an unknown message to it and nothing of it is shown.',
               lambda m: m.nop(), nothing),
    Difference('RST', 'It knows RST as 80h only, for a basic scan that broke off a select; document 01 answers RST to any function.',
               lambda m: m.rst() and m.function != 0x80, nothing),
    Difference('table scan', 'It has no case for function 0Ah (paper 3.4), so neither request nor reply is shown.',
               lambda m: m.asks(0x0A), nothing),
    Difference('read', 'It has no case for function 28h (paper 7.1, 7.2), so neither request nor reply is shown.',
               lambda m: m.asks(0x28), nothing),
    Difference('cancel', 'It has no case for the request 10h/21h (paper 4.5).',
               lambda m: is_request(m, 0x10, 0x21), nothing),
    Difference('write taken for a reply', 'Of a request 20h/30h, 31h or 38h it makes an empty reply if there is 00 00 where a reply has its count.',
               lambda m: is_request(m, 0x20, 0x30, 0x31, 0x38) and word(m.chars, 5) == 0, as_empty_reply),
    Difference('write', 'It has no case for the other requests 20h/30h, 31h and 38h (paper 6.4, 6.5).',
               lambda m: is_request(m, 0x20, 0x30, 0x31, 0x38), nothing),
    Difference('function 01', 'It knows a function 01, which document 01 does not have, and takes a request without data for a reply.',
               lambda m: is_request(m, 0x01), as_broken_reply),
    Difference('scan with data', 'It knows a request of function 00 by its length of 8; document 01 hears the frame and refuses it with 7.',
               lambda m: is_request(m, 0x00) and m.data, nothing),
    Difference('empty scan', 'It knows no reply of function 00 without data; command 00 has one.',
               lambda m: is_reply(m, 0x00) and not m.data, nothing),
    Difference('status taken for a command', 'In function 03 it looks for command 00 before it tells replies from requests, and finds status 00.',
               lambda m: is_reply(m, 0x03) and m.chars[3] == 0, lambda m, items: [Item('malformed', True)]),
]

DETAIL = [
    Difference('no request', 'It reads data and check of a reply only if it kept a request of the same address, and it keeps none it does not know.',
               lambda m: m.sender == 'U' and m.kept is None,
               lambda m, items: without_data(replaced(items, request_frame=None, crc=None))),
    Difference('other request', 'It keeps no request of function 04 nor one that it does not know, and names the latest that it kept.',
               lambda m: m.sender == 'U' and m.kept not in (None, m.request.number),
               lambda m, items: replaced(items, request_frame=m.kept)),
    Difference('several kinds', 'It cannot know how many words of each kind a unit has, reads none, and shows the first as the check.',
               lambda m: is_reply(m, 0x00) and kinds_asked(m) > 1,
               lambda m, items: replaced(without_data(items), crc=word(m.data, 0))),
    Difference('numbers before values', 'In a reply of 03/00 it expects values alone; paper 5.4.1 and document 01 send each after its number.',
               lambda m: is_reply(m, 0x03, 0x00), read_in_fours),
    Difference('numbering', 'It cannot know which numbers are equipped and counts on: status from 30h, the others from 0.',
               lambda m: is_reply(m, 0x00) and kinds_asked(m) == 1 or is_reply(m, 0x03, 0x80), counted_from),
    Difference('index as value', 'The value of a scanned analog or accumulator stands in its label only; a filter compares with the index.',
               lambda m: is_reply(m, 0x00, 0x08, 0x40), index_as_value),
    Difference('digits', 'Day and time of a record are decimal digits, but shown as if each character were a plain number.',
               lambda m: is_reply(m, 0x04), with_plain_stamps),
    Difference('signs', 'Words of a record are shown as signed numbers; to document 01 they are words, whatever they measure.',
               lambda m: is_reply(m, 0x04), with_signed_words),
    Difference('check order', 'The check is shown with its first character high; it is sent low character first.',
               lambda m: True, check_swapped),
]


def in_detail(m, items, but=None):
    for d in DETAIL:
        if d is not but and d.applies(m):
            items = d.shows(m, items)
    return items


UNCHECKED = Difference('check not tested', 'It shows a frame with wrong check characters like any other; to document 01 that is no frame.',
                       lambda m: m.outcome == 2, in_detail)


ALL = [*WHOLE, *DETAIL, UNCHECKED]


def whole_of(m):
    return next((d for d in WHOLE if d.applies(m)), None)


def keep_requests(messages):
    """Notes with each message which request the dissector has kept for its address by then."""
    kept = {}
    for m in messages:
        m.kept = kept.get(m.address)
        if m.sender == 'M' and m.outcome != 1 and not whole_of(m) and m.function != 0x04:
            kept[m.address] = m.number


def foreseen(m, exchange):
    """What is shown of a message, and by name each difference that has a part in it, with what would be shown were it gone."""
    if m.outcome == 1:
        return [], {}
    items, whole = meant(m, exchange), whole_of(m)
    found = whole.shows(m, items) if whole else in_detail(m, items)
    if whole:
        without = {whole.name: in_detail(m, items)}
    else:
        without = {d.name: in_detail(m, items, d) for d in DETAIL if d.applies(m)}
    if UNCHECKED.applies(m):
        without[UNCHECKED.name] = []
    return found, {name: other for name, other in without.items() if other != found}
