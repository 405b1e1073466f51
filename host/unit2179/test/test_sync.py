"""Set Time over real lines: the time sent is that of the sync point, whatever came before that and however slowly the rest."""
import os
import socket
import subprocess
import time

from live import A, B, ROOT, SAMPLE, UNIT, LiveTest, frame, ms_of, time_of, until

LINES = '--pty', '--tcp', '--serial'
EVERYONE = 0x7FF
SENT = ms_of(bytes([3, 0x66, 0x23, 0x59, 0x58, 3, 0xE7]))  # a millisecond before the year's last second but one ends
READ_TIME = frame(A, UNIT, 0x28, 0x31)
SUSPENSION, GAP, APART = 0.4, 0.3, 0.06  # seconds: behind the command, at an idle mark, between slow characters, which may come late
BOUND = 15  # milliseconds that a host may be late by where it is not kept busy
TRIES = 4  # of which one must find it so


def set_time(unit=UNIT):
    return frame(A, unit, 0x20, 0x38, time_of(SENT))


def since_sent(reply):
    """Milliseconds by which a unit's clock is ahead of the time sent."""
    return (ms_of(reply.data) - SENT) % (366 * 24 * 60 * 60 * 1000)


class Sync(LiveTest):
    def begin(self, line):
        """A unit on a kind of line, and a master's end of it. The device is a pseudo-terminal, whose speed must not count."""
        wire, name = self.pair() if line == '--serial' else (None, None)
        place = {'--pty': [], '--tcp': ['0'], '--serial': [name, '--baud', '300']}[line]
        unit = self.unit(line, *place, '--gap', str(round(1000 * GAP)), log='log' + line)
        return unit, wire or self.wire(unit.name)

    def set_slowly(self, unit, wire, chars):
        """Sends a Set Time character by character. Answers when the fifth of them was sent."""
        before = len(unit.log('R'))
        wire.send(chars[:4])
        time.sleep(SUSPENSION)
        sync = time.monotonic()
        for char in chars[4:]:
            wire.send(bytes([char]))
            time.sleep(APART)
        until(lambda: unit.log('R')[before:])
        return sync

    def error(self, wire, sync):
        """Milliseconds by which the clock is off: a reading is taken at the idle mark or later, and before its reply is here."""
        wire.drain()
        asked = time.monotonic()
        shown = since_sent(wire.ask(READ_TIME))
        ended = time.monotonic()
        least, most = 1000 * (asked + GAP - sync), 1000 * (ended - sync)
        return max(least - shown, shown - most, 0)

    def right(self, line, chars, outcome):
        unit, wire = self.begin(line)
        errors = []
        while not errors or min(errors) > BOUND and len(errors) < TRIES:
            errors.append(self.error(wire, self.set_slowly(unit, wire, chars)))
            self.assertEqual([line[2] for line in unit.log('R')][-2:], [outcome, '0'])
        self.assertLessEqual(min(errors), BOUND, errors)
        lags = [int(line[1]) for line in unit.log('S')]
        self.assertEqual(len(lags), len(errors))
        self.assertGreaterEqual(lags[errors.index(min(errors))], 1000 * (10 * APART + GAP) - BOUND, 'so late the clock would be')

    def test_the_clock_is_right_though_the_rest_came_slowly(self):
        for line in LINES:
            with self.subTest(line):
                self.right(line, set_time(), '0')

    def test_and_by_a_broadcast(self):
        for line in LINES:
            with self.subTest(line):
                self.right(line, set_time(EVERYONE), '4')

    def test_and_though_the_stretch_waited_for_the_disk(self):
        unit = self.slow_unit('--config', SAMPLE, '--state', 'state', '--events', 'events', '--gap', str(round(1000 * GAP)), '--reply-within', '10000')
        wire = self.wire(unit.name)
        self.disk('sync 1500 0')
        self.tell('events', 'pulse 40h 1')
        time.sleep(0.1)
        sync = time.monotonic()
        self.assertEqual(wire.ask(set_time()).function, 0x20)
        self.assertLessEqual(self.error(wire, sync), 2 * BOUND)
        self.assertGreater(int(unit.log('S')[0][1]), 1000)

    def test_more_than_ten_seconds_are_refused(self):
        unit = self.unit('--tcp', '0', '--gap', '10000')
        wires = [self.wire(unit.name) for _ in range(3)]
        for cut in (slice(0, 5), slice(5, None)):
            for wire, to in zip(wires, (UNIT, EVERYONE)):
                wire.send(set_time(to)[cut])
            time.sleep(0.2)
        self.assertEqual(wires[0].receive(15).function, 0x60, 'NOP')
        until(lambda: len(unit.log('S')) == 2)
        self.assertEqual([line[2] for line in unit.log('R')], ['8', '16'])
        self.assertTrue(all(int(line[1]) > 10000 for line in unit.log('S')))
        wires[2].send(frame(B, UNIT, 0x28, 0x31))
        wires[2].socket.shutdown(socket.SHUT_WR)  # which ends a stretch at once
        shown = ms_of(wires[2].receive(5).data)
        self.assertEqual(shown, sum(int(line[1]) for line in unit.log('T')), 'as on a unit that no one has set')


class Characters(LiveTest):
    """A line of known speed, of which there is none here: what is worked out of when characters were seen."""
    BIT = 3333333  # nanoseconds, at 300 baud

    def setUp(self):
        super().setUp()
        folder = os.path.join(ROOT, 'host', 'unit2179')
        subprocess.run(['gcc', '-std=c99', '-Wall', '-Wextra', '-Werror', '-fsanitize=undefined', '-fno-sanitize-recover', '-I' + os.path.join(ROOT, 'include'),
                        '-I' + folder, '-o', 'alone', os.path.join(folder, 'test', 'stretch_alone.c'), os.path.join(folder, 'stretch.c')], cwd=self.folder, check=True)

    def lag(self, until_ms, *seen, bit=BIT):
        """`seen` are pairs: when, in milliseconds, and how many characters of ten bits."""
        figures = [int(n) for when, many in seen for n in (when * 1e6, many)]
        words = [str(n) for n in (10 * bit, bit, int(until_ms * 1e6), *figures)]
        return int(subprocess.run([self.path('alone'), *words], capture_output=True, text=True, check=True).stdout)

    def test_a_start_bit_ends_before_its_character_has_come(self):
        self.assertEqual(self.lag(1000, (100, 4), (500, 1), (510, 10)), 500 + 30)
        self.assertEqual(self.lag(1000, (100, 4), (500, 1), (510, 10), bit=0), 500)

    def test_characters_seen_together_came_one_behind_the_other(self):
        for seen in [(100, 4), (500, 11)], [(100, 3), (500, 12)], [(500, 15)]:
            self.assertEqual(self.lag(1000, *seen), 500 + 363)
            self.assertEqual(self.lag(1000, *seen, bit=0), 500)

    def test_it_is_rounded_to_the_nearest(self):
        self.assertEqual([self.lag(500 + part, (100, 5), bit=0) for part in (0, 0.4, 0.5, 0.9)], [400, 400, 401, 401])

    def test_any_instant_is_taken(self):
        self.assertEqual(self.lag(500, (100, 4)), 0, 'it has not come to the sync point')
        self.assertEqual(self.lag(50, (100, 15), bit=0), 0)
        self.assertEqual(self.lag(1e12, (0, 15)), 2 ** 32 - 1)
        self.assertEqual(self.lag(500, (100, 4), (400, 1000), bit=0), 100)
