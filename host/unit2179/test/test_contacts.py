"""Contacts: two-bit status that local events make, and what a reply clears of it."""
import signal

from live import A, UNIT, frame, until
from test_state import KeptTest

STATES, KINDS, SIMPLE = (0x00, 0x04), (0x00, 0x45), (0x00, 0x01)


class Contacts(KeptTest):
    def setUp(self):
        super().setUp()
        self.config = self.write('conf', f'unit {UNIT}\ninputs 02h 1Fh 30h\n')

    def told(self, unit, *lines):
        """Tells events; answers their outcomes."""
        before = len(unit.log('E'))
        self.tell('events', *lines)
        return [int(line[-1]) for line in until(lambda: len(unit.log('E')) >= before + len(lines) and unit.log('E')[before:])]

    def test_a_bounce_is_marked_until_a_reply_told_it(self):
        unit, wire = self.begin('--fresh')
        self.assertEqual(self.told(unit, 'contact 21 1', 'contact 21 0', 'contact 255 1', 'contact 21 0'), [0] * 4)
        self.assertEqual(wire.ask(frame(A, UNIT, *SIMPLE)).data, b'\0\0', 'a scan of another kind tells nothing')
        self.assertEqual(wire.ask(frame(A, UNIT, 0x00, 0x04, b'\0')).function, 0x40, 'nor does a NOP')
        self.assertEqual(wire.ask(frame(A, UNIT, *STATES)).data, b'\0\x20\x80\0')
        self.assertEqual(wire.ask(frame(A, UNIT, *STATES)).data, b'\0\0\x80\0')

    def test_the_tally_starts_anew_for_contacts_without_a_mark(self):
        unit, wire = self.begin('--fresh')
        self.told(unit, 'contact 16 1')
        self.assertEqual(wire.ask(frame(A, UNIT, *KINDS)).data, b'\1\0\0\0\0\0')
        self.told(unit, 'contact 16 0')
        self.assertEqual(wire.ask(frame(A, UNIT, *KINDS)).data, bytes(6), 'one change since the last reply')

    def test_refusals_are_named(self):
        unit, _ = self.begin('--fresh')
        self.assertEqual(self.told(unit, 'contact 0 1', 'contact 16 2', 'word 02h 1', 'word 30h 1'), [8, 8, 8, 0])
        self.tell('events', 'contact 256 1', 'contact 16', 'contact 16 256', 'contact 16 1 1')
        until(lambda: unit.errors().count('contact takes a contact, 0 to 255, and its state, 0 or 1') == 4)

    def test_a_change_outlasts_a_power_cut(self):
        unit, wire = self.begin('--fresh')
        self.told(unit, 'contact 16 1')
        unit.end(signal.SIGKILL)
        unit, wire = self.begin()
        self.told(unit, 'contact 16 0')
        self.assertEqual(wire.ask(frame(A, UNIT, *STATES)).data, b'\0\1\0\0')
