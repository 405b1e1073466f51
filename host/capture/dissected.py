"""A capture of an exchange, written; and what tshark's CP2179 dissector shows of it."""
import os
import re
import struct
import subprocess
import xml.etree.ElementTree as ElementTree

from messages import Item

SERIAL_LINE = 250  # link type of a recorded serial line: unlike a TCP stream it keeps stretches apart and FF FF as sent
DECODE_AS = 'rtacser.data,cp2179'
NUMBERED = {'simplestatusbit': r'Point (0x[0-9a-f]+)$', 'twobitstatus': r'Point (0x[0-9a-f]+)$', 'specialcalc': r'Calculation (\d+) ',
            'analogdata': r'(\d+) : (-?\d+)$', 'accumulator': r'(\d+) : (-?\d+)$'}
BITS = re.compile(r'(simplestatusbit|twobitstatusbit|twobitstatuschg)(\d+)$')


def capture(messages, changed={}):
    """The capture file: classic pcap, each message behind the 12 characters that say when and in which direction it went. `changed` has
    the characters to put for some messages, by number."""
    made = [struct.pack('<IHHiIII', 0xA1B2C3D4, 2, 4, 0, 0, 65535, SERIAL_LINE)]
    for m in messages:
        seconds, micro = m.at // 1000, m.at % 1000 * 1000
        packet = struct.pack('>IIBBH', seconds, micro, 1 if m.sender == 'M' else 2, 0, 0) + changed.get(m.number, m.chars)
        made.append(struct.pack('<IIII', seconds, micro, len(packet), len(packet)) + packet)
    return b''.join(made)


def item(field):
    """A field of the dissector as an item; none for the single bits of a word, which `bits_agree` judges."""
    name, label = field.get('name')[len('cp2179.'):], field.get('showname')
    if BITS.match(name):
        return None
    if name not in NUMBERED:
        return Item(name, int(field.get('show'), 0))
    found = re.search(NUMBERED[name], label)
    number = int(found.group(1), 0)
    if name == 'specialcalc':
        return Item(name, '%g' % float(field.get('show')), number, field.get('value'))
    if name in ('analogdata', 'accumulator'):
        return Item(name, int(found.group(2)), number, int(field.get('show')))
    return Item(name, int(field.get('show'), 0), number)


def bits_agree(field):
    """Whether the bits shown below a status word are the word's: changes are the low character, states the high one."""
    value, shown = int(field.get('show'), 0), 0
    for bit in field.iter('field'):
        found = BITS.match(bit.get('name')[len('cp2179.'):])
        if found:
            place = int(found.group(2)) + (8 if found.group(1) == 'twobitstatusbit' else 0)
            shown |= int(bit.get('show') in ('1', 'True')) << place
    return shown == value


def shown(packet):
    """The items of a packet, in the order shown."""
    items = []
    for proto in packet.findall('proto'):
        if proto.get('name') == '_ws.malformed':
            items.append(Item('malformed', True))
        if proto.get('name') != 'cp2179':
            continue
        for field in proto.iter('field'):
            if not field.get('name').startswith('cp2179.'):
                continue
            if field.get('name') in ('cp2179.simplestatusbit', 'cp2179.twobitstatus') and not bits_agree(field):
                items.append(Item('bits', field.get('show')))
            items += [made for made in [item(field)] if made]
    return items


def dissect(path, settings):
    """What tshark shows of each packet; `settings` is an empty folder, so that no one's own preferences matter."""
    os.makedirs(settings, exist_ok=True)
    done = subprocess.run(['tshark', '-r', path, '-d', DECODE_AS, '-T', 'pdml'], capture_output=True, timeout=30,
                          env={**os.environ, 'WIRESHARK_CONFIG_DIR': settings})
    if done.returncode != 0:
        raise SystemExit('capture: tshark: ' + done.stderr.decode(errors='replace'))
    return [shown(packet) for packet in ElementTree.fromstring(done.stdout).findall('packet')]
