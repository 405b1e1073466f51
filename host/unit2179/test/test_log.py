"""The log: when each line was written, and where it goes on when its file was moved away."""
import datetime
import os
import signal

from live import A, UNIT, LiveTest, frame, until

SCAN = frame(A, UNIT, 0x00, 0x41)


class Log(LiveTest):
    def test_each_line_says_when_it_was_written(self):
        before = datetime.datetime.now(datetime.timezone.utc)
        unit = self.unit()
        wire = self.wire(unit.name)
        self.assertTrue(wire.ask(SCAN))
        with open(unit.log_path) as log:
            times = [line.rpartition('\t')[2] for line in log.read().splitlines()]
        after = datetime.datetime.now(datetime.timezone.utc)
        self.assertGreaterEqual(len(times), 2)
        for text in times:
            self.assertRegex(text, r'^\d{4}-\d\d-\d\dT\d\d:\d\d:\d\d\.\d{3}Z$')
            at = datetime.datetime.fromisoformat(text.replace('Z', '+00:00'))
            self.assertTrue(before - datetime.timedelta(milliseconds=2) <= at <= after)

    def test_it_is_opened_again_at_a_hangup_signal(self):
        unit = self.unit()
        wire = self.wire(unit.name)
        self.assertTrue(wire.ask(SCAN))
        os.rename(unit.log_path, self.path('log.1'))
        unit.process.send_signal(signal.SIGHUP)
        until(lambda: os.path.exists(unit.log_path))
        self.assertTrue(wire.ask(SCAN))
        self.assertEqual(len(unit.log('R')), 1)
        with open(self.path('log.1')) as log:
            self.assertEqual(sum(line.startswith('R') for line in log), 1)

    def test_a_hangup_that_finds_no_place_for_it_leaves_it_as_it_is(self):
        unit = self.unit()
        wire = self.wire(unit.name)
        os.rename(unit.log_path, self.path('log.1'))
        os.mkdir(unit.log_path)
        unit.process.send_signal(signal.SIGHUP)
        until(lambda: 'Is a directory' in unit.errors())
        self.assertTrue(wire.ask(SCAN))
        with open(self.path('log.1')) as log:
            self.assertEqual(sum(line.startswith('R') for line in log), 1)
        os.rmdir(unit.log_path)
