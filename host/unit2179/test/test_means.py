"""Demand means: sample events, and what masters read of the means."""
import signal
import struct

from live import A, UNIT, frame, until
from test_state import KeptTest, image_of, parts_of

LINES = f'unit {UNIT}\ninputs 30h 80h 81h\ncalculations 0-3\nmean 1 80h 4\nmean 2 81h 1\nmean 3 80h 2\nfile 0 1 oldest\n'


def mean_of(*samples):
    return struct.pack('<f', sum(samples) / len(samples))


class Means(KeptTest):
    def setUp(self):
        super().setUp()
        self.config = self.write('conf', LINES)

    def told(self, unit, *lines):
        """Tells events; answers their outcomes."""
        before = len(unit.log('E'))
        self.tell('events', *lines)
        return [int(line[-1]) for line in until(lambda: len(unit.log('E')) >= before + len(lines) and unit.log('E')[before:])]

    def sample(self, unit, number, *words):
        """Each word is the analog's, and sampled; answers what the log says of the means."""
        before = len(unit.log('M'))
        lines = [line for word in words for line in (f'word {0x81 if number == 2 else 0x80} {word & 0xFFFF}', f'sample {number}')]
        self.assertEqual(self.told(unit, *lines), [0] * len(lines))
        return until(lambda: len(unit.log('M')) >= before + len(words) and [line[1:] for line in unit.log('M')[before:]])

    def values(self, wire, *numbers):
        return wire.ask(frame(A, UNIT, 0x03, 0x00, bytes(numbers)))

    def test_a_mean_is_read_once_its_samples_are_in(self):
        unit, wire = self.begin('--fresh')
        self.assertEqual(self.sample(unit, 1, -3, 5, 7), [['3', '-'], ['2', '-'], ['1', '-']])
        refused = self.values(wire, 1, 0, 2, 1)
        self.assertEqual((refused.function, refused.data), (0x43, b'\1\2\1'), 'those that are not ready, in order and with repeats')
        self.assertEqual(wire.ask(frame(A, UNIT, 0x03, 0x80)).data, bytes(4), 'all that are equipped now')
        self.assertEqual(self.sample(unit, 1, -32768), [['0', '-8189.75']])
        self.assertEqual(self.values(wire, 1).data, b'\1' + mean_of(-3, 5, 7, -32768))
        self.assertEqual(self.sample(unit, 1, 1), [['0', '-8188.75']])
        self.assertEqual(wire.ask(frame(A, UNIT, 0x03, 0x80)).data, bytes(4) + mean_of(5, 7, -32768, 1))

    def test_a_sum_of_0_is_plus_zero(self):
        unit, wire = self.begin('--fresh')
        self.assertEqual(self.sample(unit, 3, -7, 7)[1], ['0', '0'])
        self.assertEqual(self.values(wire, 3).data, b'\3' + bytes(4))

    def test_refusals_are_named(self):
        unit, _ = self.begin('--fresh')
        self.assertEqual(self.told(unit, 'sample 0', 'sample 4', 'sample 80h', 'value 1 0', 'value 0 7'), [8, 8, 8, 8, 0])
        self.assertEqual(unit.errors().count('that number is no mean'), 3)
        self.assertEqual(unit.log('M'), [])
        self.tell('events', 'sample', 'sample 256', 'sample 1 1')
        until(lambda: unit.errors().count('sample takes a calculation that is a mean, 0 to FFh') == 3)

    def test_a_start_again_by_the_line_leaves_them(self):
        unit, wire = self.begin('--fresh')
        self.sample(unit, 2, 9)
        self.assertEqual(wire.ask(frame(A, UNIT, 0x20, 0x00)).function, 0x20)
        self.assertEqual(self.values(wire, 2).data, b'\2' + mean_of(9))

    def test_samples_outlast_a_power_cut(self):
        unit, wire = self.begin('--fresh')
        self.sample(unit, 1, 10, 20, 30)
        self.told(unit, 'record 0 9 7')
        unit.end(signal.SIGKILL)
        unit, wire = self.begin()
        self.assertEqual(self.sample(unit, 1, -40), [['0', '5']])
        self.assertEqual(self.values(wire, 1).data, b'\1' + mean_of(10, 20, 30, -40))
        self.assertEqual(wire.ask(frame(A, UNIT, 0x04, 0x40)).data[-2:], b'\7\0', 'the records before them too')

    def test_a_kept_file_that_no_unit_left_is_refused(self):
        unit, _ = self.begin('--fresh')
        self.sample(unit, 1, 10)
        unit.end()
        parts = parts_of(self.state())
        self.assertEqual(dict(parts)['taken'][:2], b'\1\0')
        for taken in (b'\5\0', b'\0\1', bytes(6) + b'\1\0'):
            changed = [(name, taken.ljust(32, b'\0') if name == 'taken' else chars) for name, chars in parts]
            self.refused_for(image_of(changed), 'no unit keeps')
        for name in ('config.means', 'config.sampled', 'config.windows'):
            self.refused_for(image_of([part for part in parts if part[0] != name]), 'another configuration')
