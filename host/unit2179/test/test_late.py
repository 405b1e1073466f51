"""No reply is late: a master that has given up on a request never takes its answer for that of a later one."""
import random
import time

from live import A, SAMPLE, UNIT, LiveTest, frame, until
from master import Master

LOAD = 7  # a file of one value a record
SCAN, SET_TIME = frame(A, UNIT, 0x00, 0x01), frame(A, UNIT, 0x20, 0x38, bytes([3, 0x66, 0x23, 0, 0, 0, 0]))


class Late(LiveTest):
    def begin(self, *options):
        wire, name = self.pair()
        return self.slow_unit('--config', SAMPLE, '--state', 'state', '--events', 'events', '--serial', name, *options), wire

    def store(self, unit, values):
        before = len(unit.log('E'))
        self.tell('events', *(f'record {LOAD} 1 {value}' for value in values))
        until(lambda: len(unit.log('E')) == before + len(values), 30)

    def test_a_copy_of_a_late_reply_is_not_taken_for_a_later_answer(self):
        unit, wire = self.begin('--reply-within', '500')
        self.store(unit, range(101, 111))
        master = Master(wire, A, LOAD, timeout=1.0, pause=0.05)
        self.disk('sync 1200 600 0')
        until(lambda: master.poll() and master.empty, 60)
        self.assertEqual(sorted(set(master.received)), list(range(101, 111)))

    def test_a_busy_disk_loses_nothing(self):
        unit, wire = self.begin()
        master, chance = Master(wire, A, LOAD, timeout=0.2, pause=0.04), random.Random(2179)
        values, end = iter(range(1, 1000)), time.monotonic() + 15
        while time.monotonic() < end:
            self.disk()
            self.store(unit, [next(values) for _ in range(10)])
            self.disk('sync ' + ' '.join(str(chance.choice((0, 0, 120, 215, 230))) for _ in range(100)))
            until(lambda: master.poll() and master.empty, 60)
        self.assertEqual({line[-1] for line in unit.log('E')}, {'0'}, 'all were stored')
        stored = {int(line[4]) for line in unit.log('E')}
        self.assertEqual(sorted(stored - set(master.received)), [], 'none is lost')
        self.assertGreater(len(stored), 30)
        self.assertGreater(master.repeats, 5, 'the disk was slow')

    def test_a_reply_that_is_late_is_not_sent(self):
        unit, wire = self.begin('--reply-within', '1000')
        self.assertTrue(wire.ask(SET_TIME))
        self.disk('sync 1500')
        self.assertIsNone(wire.ask(SET_TIME, 3))
        self.assertIn('late', unit.errors())
        self.assertEqual(len(unit.log('L')), 1, 'the log tells that it was not sent')
        self.disk('sync 100')
        self.assertTrue(wire.ask(SET_TIME))

    def test_a_reply_is_not_sent_once_new_characters_have_come(self):
        self.unanswered(*self.begin('--reply-within', '10000'))

    def test_nor_on_a_pseudo_terminal_of_its_own_or_a_connection(self):
        for state, line in (('one', '--pty'), ('two', '--tcp=0')):
            unit = self.slow_unit('--config', SAMPLE, '--state', state, '--reply-within', '10000', *line.split('='), log=state + '-log')
            self.unanswered(unit, self.wire(unit.name))

    def unanswered(self, unit, wire):
        self.disk('sync 500')
        wire.send(SET_TIME)
        time.sleep(0.25)
        wire.send(SCAN)
        reply = wire.receive(5)
        self.assertEqual((reply.function, wire.receive(0.7)), (0x00, None), 'the scan alone is answered')
        self.assertEqual(len(unit.log('L')), 1)
