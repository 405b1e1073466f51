"""The clock after a restart: the unit asks for set-up, or has the host's time."""
import calendar
import signal
import time

from live import A, SAMPLE, UNIT, LiveTest, frame, ms_of, until

READ_TIME = frame(A, UNIT, 0x28, 0x31)
SET_TIME = frame(A, UNIT, 0x20, 0x38, bytes([0, 1, 0, 0, 0, 0, 0]))


class Restarted(LiveTest):
    def begin(self, *options):
        unit = self.unit('--config', SAMPLE, '--state', 'state', *options)
        return unit, self.wire(unit.name)

    def configured(self):
        """Leaves behind a unit that its master has set up."""
        unit, wire = self.begin()
        wire.send(frame(A, UNIT, 0x20, 0x30, b'\0\0\3'))
        until(lambda: unit.log('R'))
        self.assertEqual(wire.ask(frame(A, UNIT, 0x20, 0x31, b'\0')).status, 0x80)
        self.assertEqual(wire.ask(SET_TIME).status, 0)
        unit.end(signal.SIGKILL)

    def test_it_asks_for_set_up_since_its_clock_is_behind(self):
        self.configured()
        for options in ((), ('--clock', 'kept')):
            unit, wire = self.begin(*options)
            self.assertEqual(wire.ask(READ_TIME).status, 0x80)
            unit.end()

    def test_an_end_keeps_it_though_the_disk_is_slow(self):
        unit = self.slow_unit('--config', SAMPLE, '--state', 'state', '--reply-within', '10000')
        self.disk('sync 400')
        self.assertTrue(self.wire(unit.name).ask(SET_TIME))
        time.sleep(1.5)
        self.assertEqual(unit.end(), 0)
        unit, wire = self.begin()
        self.assertGreaterEqual(ms_of(wire.ask(READ_TIME).data), 1500)

    def test_it_has_the_hosts_time_if_that_is_asked_for(self):
        self.configured()
        for zone, hours in (('UTC', 0), ('XYZ-5', 5), ('ABC+3', -3)):
            unit, wire = self.begin('--clock', 'system', '--zone', zone)
            began = time.time()
            reply = wire.ask(READ_TIME)
            ended = time.time()
            self.assertEqual(reply.status, 0, 'nothing needs setting up')
            year = calendar.timegm((time.gmtime(began + 3600 * hours).tm_year, 1, 1, 0, 0, 0))
            now = ms_of(reply.data) / 1000 + year - 3600 * hours
            self.assertTrue(began - 0.1 <= now <= ended + 0.1, (began, now, ended))
            unit.end()

    def test_a_zone_that_is_none_is_refused(self):
        status, said = self.refused('--clock', 'system', '--zone', 'Nowhere')
        self.assertEqual((status, '--zone' in said), (2, True))
