"""The letter's story: a second master's poll must not release the trip that the first one never received whole."""
import signal

from live import A, B, SAMPLE, UNIT, LiveTest, frame, until

TRIPS = 2


def history(master, command, file=TRIPS):
    return frame(master, UNIT, 0x04, command | file)


class Story(LiveTest):
    def begin(self):
        wire, name = self.pair()
        self.serial = ['--config', SAMPLE, '--state', 'state', '--events', 'events', '--serial', name]
        return self.unit(*self.serial), wire

    def trips(self, unit, *values):
        before = len(unit.log('E'))
        self.tell('events', *(f'record {TRIPS} 17 {value} 0 0' for value in values))
        until(lambda: len(unit.log('E')) == before + len(values))

    def values(self, reply):
        """Whether more are held, and the first value of each record that a reply carries."""
        size = 6 + 2 * 3
        records = [reply.data[i:i + size] for i in range(1, len(reply.data), size)]
        self.assertEqual(reply.data[0] & 0x7F, len(records))
        return reply.data[0] >> 7, [int.from_bytes(r[6:8], 'little') for r in records]

    def test_the_trip_survives_the_second_master(self):
        unit, wire = self.begin()
        self.trips(unit, 100, 200)
        wire.ask(history(A, 0x40))  # and A does not receive the reply whole
        self.assertEqual(self.values(wire.ask(history(B, 0x40))), (1, [100]), 'the poll of B acknowledges nothing of A')
        self.assertEqual(wire.ask(history(A, 0x00)).function, 0x44, 'the latest reply is not A\'s, so there is nothing to repeat')
        self.assertEqual(self.values(wire.ask(history(A, 0x40))), (1, [100]), 'A has its trip')
        self.assertEqual(self.values(wire.ask(history(A, 0x40))), (0, [200]), 'and releases it by its own word')
        self.assertEqual(self.values(wire.ask(history(B, 0x40))), (0, [200]))
        self.assertEqual(self.values(wire.ask(history(B, 0x40))), (0, []))

    def test_and_a_kill_in_the_middle(self):
        unit, wire = self.begin()
        self.trips(unit, 100, 200)
        self.assertEqual(self.values(wire.ask(history(A, 0x40))), (1, [100]))
        unit.end(signal.SIGKILL)
        unit = self.unit(*self.serial)
        self.assertEqual(self.values(wire.ask(history(A, 0x00))), (1, [100]), 'A\'s repeat')
        unit.end(signal.SIGKILL)
        unit = self.unit(*self.serial)
        self.assertEqual(wire.ask(history(B, 0x00)).function, 0x44)
        self.assertEqual(self.values(wire.ask(history(B, 0x60))), (0, [100, 200]))
        unit.end(signal.SIGKILL)
        unit = self.unit(*self.serial)
        self.trips(unit, 300)
        self.assertEqual(self.values(wire.ask(history(B, 0x20))), (0, [100, 200]), 'the flag as it was')
        self.assertEqual(self.values(wire.ask(history(A, 0x60))), (0, [100, 200, 300]))
        self.assertEqual(self.values(wire.ask(history(A, 0x60))), (0, []))

    def test_noise_between_reply_and_repeat(self):
        unit, wire = self.begin()
        self.trips(unit, 100)
        self.assertEqual(self.values(wire.ask(history(A, 0x40))), (0, [100]))
        good = history(A, 0x40)
        for damaged in (good[:-1], good[:3] + bytes([good[3] ^ 0x40]) + good[4:]):
            before = len(unit.log('R'))
            wire.send(damaged)
            until(lambda: len(unit.log('R')) > before)
        self.assertEqual(self.values(wire.ask(history(A, 0x00))), (0, [100]), 'a damaged acknowledgement releases nothing')
