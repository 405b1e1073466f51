"""The log is a run: its bench lines, given to the independent program, have the outcomes and replies that the live unit had."""
import os
import random
import subprocess

from frames import checked
from live import A, B, ROOT, UNIT, LiveTest, frame, ms_of, time_of, until

INDEPENDENT = os.path.join(ROOT, 'target', 'independent', 'release', 'independent-bench')


def stretches(chance):
    """Good frames of most functions, some of them damaged, cut, or for others."""
    good = [frame(m, u, f, c, d) for m in (A, B) for u in (UNIT, 77, 0x7FF) for f, c, d in (
        (0x00, 0x41, b''), (0x00, 0x02, b''), (0x03, 0x80, b''), (0x04, 0x40, b''), (0x0A, 0x41, b''), (0x10, 0x10, b'\5'), (0x20, 0x11, b'\x40'),
        (0x20, 0x00, b''), (0x20, 0x30, b'\0\0\3'), (0x20, 0x31, b'\0\2\x30\x40'), (0x20, 0x38, bytes([3, 0x66, 0x23, 0x59, 0x58, 3, 0xE7])),
        (0x28, 0x30, b'\0\0\3\x10'), (0x28, 0x31, b''))]
    for _ in range(120):
        chars = chance.choice(good)
        kind = chance.random()
        if kind < 0.1:
            chars = chars[:chance.randrange(1, len(chars))]
        elif kind < 0.2:
            at = chance.randrange(len(chars))
            chars = chars[:at] + bytes([chars[at] ^ 1 << chance.randrange(8)]) + chars[at + 1:]
        yield chars


def without_lags(log):
    """A log's bench lines, in which a Set Time has no lag: each sends the time that it was when the stretch was taken."""
    lines = []
    for kind, *rest in log:
        if kind == 'S' and lines[-1][2] in ('0', '4'):
            chars = bytes.fromhex(lines[-1][1])
            lines[-1][1] = checked(chars[:6] + time_of(ms_of(chars[6:13]) + int(rest[0]))).hex().upper()
        elif kind in 'RT':
            lines.append([kind, *rest])
    return lines


class Replay(LiveTest):
    def test_the_independent_program_says_the_same(self):
        unit = self.unit('--gap', '5', '--suspension', '20')
        wire = self.wire(unit.name)
        sent = list(stretches(random.Random(2179)))
        for many, chars in enumerate(sent):
            wire.send(chars)
            until(lambda: len(unit.log('R')) > many)
            wire.drain()
        self.assertEqual([line[1] for line in unit.log('R')], [chars.hex().upper() for chars in sent])
        log = without_lags(unit.log())
        lines = ''.join('\t'.join(line[:2]) + '\n' for line in log)
        said = subprocess.run([INDEPENDENT], input=lines, capture_output=True, text=True, check=True).stdout
        live = [line[2:] if line[0] == 'R' else ['0', '-'] for line in log]
        self.assertEqual([line.split('\t')[1:] for line in said.splitlines()], live)
