"""What a line brings, cut into stretches: noise, gaps, the Set Time suspension, connections."""
import os
import random
import socket
import time

from live import A, B, SAMPLE, UNIT, LiveTest, frame, ms_of, until

POLL = frame(A, UNIT, 0x00, 0x41)
SET_TIME = frame(A, UNIT, 0x20, 0x38, bytes([0x03, 0x66, 0x23, 0x59, 0x58, 0x03, 0xE7]))
OTHER_SET_TIME = frame(A, 77, 0x20, 0x38, bytes([0x03, 0x66, 0x23, 0x59, 0x58, 0x03, 0xE7]))
WRITE, EXECUTE = frame(A, UNIT, 0x20, 0x30, bytes([0, 0, 3])), frame(A, UNIT, 0x20, 0x31, b'ab')
READ = frame(A, UNIT, 0x28, 0x30, bytes([0, 0, 3, 2]))
FINE, DAMAGED = 0x54, 0x56


class Stretches(LiveTest):
    def begin(self, gap='50', *options):
        wire, name = self.pair()
        return self.unit('--serial', name, '--gap', gap, *options), wire

    def heard(self, unit, wire, chars):
        """Sends characters, waits until they were a stretch, and answers it with its outcome."""
        before = len(unit.log('R'))
        wire.send(chars)
        _, stretch, outcome, _ = until(lambda: unit.log('R')[before:])[0]
        return bytes.fromhex(stretch), int(outcome)

    def test_noise_is_not_answered_and_shows_once(self):
        unit, wire = self.begin()
        self.assertEqual(wire.ask(POLL).port, FINE)
        for noise in (b'\0', b'\xFF' * 7, random.Random(2179).randbytes(20), POLL[:-1], POLL[:3] + b'\x40' + POLL[4:], b'x' * 600, POLL + POLL):
            self.assertIn(self.heard(unit, wire, noise)[1], (1, 2))
            self.assertEqual([wire.ask(POLL).port for _ in range(2)], [DAMAGED, FINE])
        self.assertEqual(unit.end(), 0)

    def test_another_units_frame_is_not_answered_and_leaves_no_mark(self):
        unit, wire = self.begin()
        self.assertEqual(self.heard(unit, wire, frame(A, 1, 0x00, 0x41)), (frame(A, 1, 0x00, 0x41), 3))
        self.assertEqual(wire.ask(POLL).port, FINE)

    def test_a_frame_in_parts_within_the_gap_is_one_stretch(self):
        unit, wire = self.begin('800')
        for char in POLL:
            wire.send(bytes([char]))
            time.sleep(0.005)
        self.assertEqual(wire.receive(5).port, FINE)
        self.assertEqual([line[1] for line in unit.log('R')], [POLL.hex().upper()])

    def test_a_frame_in_parts_beyond_the_gap_is_two_stretches(self):
        unit, wire = self.begin()
        self.assertEqual(self.heard(unit, wire, POLL[:5]), (POLL[:5], 1))
        self.assertEqual(self.heard(unit, wire, POLL[5:]), (POLL[5:], 1))

    def test_lengths_to_the_limit(self):
        unit, wire = self.begin()
        longest = frame(A, UNIT, 0x20, 0x31, bytes(128))
        self.assertEqual(self.heard(unit, wire, longest), (longest, 14))
        self.assertEqual(wire.receive(2).function, 0xA0)
        self.assertEqual(self.heard(unit, wire, longest + b'\0'), (longest + b'\0', 1))
        self.assertEqual(self.heard(unit, wire, longest * 3), ((longest * 3)[:148], 1))

    def test_a_write_and_its_execute_with_no_gap_are_one_request(self):
        unit, wire = self.begin()
        reply = wire.ask(WRITE + EXECUTE)
        self.assertEqual((reply.function, reply.port), (0x20, FINE))
        self.assertEqual([line[1:3] for line in unit.log('R')], [[(WRITE + EXECUTE).hex().upper(), '0']])
        self.assertEqual(wire.ask(READ).data, b'ab')
        longest = WRITE + frame(A, UNIT, 0x20, 0x31, bytes(128))
        self.assertEqual(self.heard(unit, wire, longest), (longest, 0))
        self.assertEqual(wire.receive(2).function, 0x20)
        self.assertEqual(self.heard(unit, wire, longest + b'\0'), (longest + b'\0', 1))

    def test_a_pair_that_lost_characters_is_damage_but_at_its_seam(self):
        unit, wire = self.begin()
        for left in (10, 12, len(WRITE + EXECUTE) - 1):
            self.assertEqual(self.heard(unit, wire, (WRITE + EXECUTE)[:left])[1], 1)
            refused = wire.ask(EXECUTE)
            self.assertEqual((refused.function, refused.port), (0xA0, DAMAGED))
        self.assertEqual(self.heard(unit, wire, WRITE), (WRITE, 5))
        self.assertEqual(wire.ask(EXECUTE).function, 0x20)
        self.assertEqual(wire.ask(READ).data, b'ab')

    def test_a_set_time_may_suspend_behind_its_header(self):
        unit, wire = self.begin('30', '--suspension', '5000')
        for suspended, outcome in ((SET_TIME, '0'), (OTHER_SET_TIME, '3'), (frame(A, 0x7FF, 0x20, 0x38, SET_TIME[6:13]), '4')):
            before = len(unit.log('R'))
            wire.send(suspended[:4])
            time.sleep(0.2)
            wire.send(suspended[4:])
            self.assertEqual(until(lambda: unit.log('R')[before:])[0][1:3], [suspended.hex().upper(), outcome])
        wire.drain()
        time_read = wire.ask(frame(A, UNIT, 0x28, 0x31))
        self.assertEqual(time_read.port, FINE)
        self.assertIn(time_read.data[:4], (bytes([3, 0x66, 0x23, 0x59]), bytes([0, 1, 0, 0])))

    def test_the_suspension_is_bounded_and_only_there(self):
        unit, wire = self.begin('20', '--suspension', '150')
        began = time.monotonic()
        self.assertEqual(self.heard(unit, wire, SET_TIME[:4]), (SET_TIME[:4], 1))
        self.assertGreaterEqual(time.monotonic() - began, 0.15)
        for cut in (SET_TIME[:3], SET_TIME[:5], POLL[:4]):
            self.assertEqual(self.heard(unit, wire, cut), (cut, 1))

    def test_the_clock_moves_by_the_milliseconds_that_passed(self):
        unit, wire = self.begin('20')
        begins = time.monotonic()
        wire.ask(SET_TIME)
        began, before = time.monotonic(), len(unit.log('T'))
        for _ in range(20):
            wire.ask(frame(A, UNIT, 0x28, 0x31))
        time.sleep(1.1)
        ends = time.monotonic()
        day_1 = wire.ask(frame(A, UNIT, 0x28, 0x31)).data
        ended = time.monotonic()
        passed = sum(int(line[1]) for line in unit.log('T')[before:])
        [[_, lag]] = unit.log('S')
        self.assertEqual(day_1[:4], bytes([0, 1, 0, 0]), 'day 1 follows day 366')
        self.assertEqual(ms_of(day_1), int(lag) + passed - 1001, 'from 23:59:58.999, at the sync point')
        self.assertTrue(ends - began - 0.002 <= passed / 1000 <= ended - begins + 0.002)

    def test_a_line_that_ends_ends_the_unit(self):
        masters, units = os.openpty()
        unit = self.unit('--serial', os.ttyname(units))
        os.close(units)
        os.close(masters)
        self.assertEqual(unit.process.wait(10), 5)
        self.assertIn('the line has ended', unit.errors())


class Connections(LiveTest):
    def test_two_masters_on_a_port_get_their_own_replies(self):
        unit = self.unit('--tcp', '0', '--gap', '600', '--config', SAMPLE)
        self.assertRegex(unit.name, r'^127\.0\.0\.1:\d+$')
        first, second = self.wire(unit.name), self.wire(unit.name)
        first.send(frame(A, UNIT, 0x00, 0x41)[:5])
        second.send(frame(B, UNIT, 0x00, 0x01))
        first.send(frame(A, UNIT, 0x00, 0x41)[5:])
        self.assertEqual(first.receive(5).address >> 11, A)
        self.assertEqual(second.receive(5).address >> 11, B)

    def test_a_connection_that_stops_sending_still_gets_its_reply(self):
        unit = self.unit('--tcp', '127.0.0.1:0', '--gap', '5000')
        wire = self.wire(unit.name)
        wire.send(POLL)
        wire.socket.shutdown(socket.SHUT_WR)
        self.assertEqual(wire.receive(3).port, FINE)
        self.assertEqual(wire.socket.recv(1), b'')

    def test_the_room_of_one_that_has_gone_is_used_again(self):
        unit = self.unit('--tcp', '0')
        wires = [self.wire(unit.name) for _ in range(8)]
        for number, wire in enumerate(wires):
            self.assertTrue(wire.ask(frame(number, UNIT, 0x00, 0x41)))
        wires[0].socket.shutdown(socket.SHUT_WR)
        self.assertEqual(wires[0].socket.recv(1), b'')
        self.assertTrue(self.wire(unit.name).ask(frame(0, UNIT, 0x00, 0x41)))
        self.assertNotIn('connection', unit.errors())

    def test_addresses_and_names(self):
        self.assertTrue(self.wire(self.unit('--tcp', 'localhost:0').name).ask(POLL))
        if socket.has_ipv6 and os.path.exists('/proc/net/if_inet6'):
            unit = self.unit('--tcp', '[::1]:0')
            self.assertRegex(unit.name, r'^\[::1\]:\d+$')
            self.assertTrue(self.wire(unit.name).ask(POLL))
        for wrong in ('::1:0', ':0', '127.0.0.1:x', '[::1]0', '127.0.0.1:65536', '127.0.0.1:0x10'):
            self.assertEqual(self.refused('--tcp', wrong)[0], 2, wrong)
        self.assertEqual(self.refused('--tcp', 'no such name:0')[0], 5)

    def test_a_port_that_all_can_reach_is_told_as_such(self):
        words = 'whoever can reach this host'
        unit = self.unit('--tcp', '0.0.0.0:0')
        self.assertIn(words, unit.errors())
        os.remove(unit.errors_path)
        for options in (('0.0.0.0:0', '--peer', '127.0.0.1'), ('127.0.0.1:0',)):
            self.assertNotIn(words, self.unit('--tcp', *options).errors())

    def test_who_may_connect(self):
        for peers, may in ((['10.0.0.0/8'], False), (['10.0.0.0/8', '127.0.0.0/9'], True), (['127.0.0.1'], True), (['127.0.0.2/31'], False),
                           (['127.128.0.0/9'], False), (['::1'], False), (['::ffff:127.0.0.1'], True), (['0.0.0.0/0'], True)):
            unit = self.unit('--tcp', '0', *(word for peer in peers for word in ('--peer', peer)))
            wire = self.wire(unit.name)
            with self.subTest(peers):
                if may:
                    self.assertTrue(wire.ask(POLL))
                else:
                    wire.socket.settimeout(5)
                    self.assertEqual(wire.socket.recv(1), b'')
                    self.assertIn('not among those', unit.errors())
            unit.end()
        for wrong in ('x', '127.0.0.1/33', '::1/129', '127.0.0.1/', ''):
            self.assertEqual(self.refused('--tcp', '0', '--peer', wrong)[0], 2, wrong)

    def test_a_masters_number_belongs_to_one_connection(self):
        unit = self.unit('--tcp', '0', '--config', SAMPLE, '--events', 'events')
        self.tell('events', *(f'record 7 1 {value}' for value in (1, 2, 3)))
        until(lambda: len(unit.log('E')) == 3)
        request, damaged = frame(A, UNIT, 0x04, 0x47), frame(A, UNIT, 0x04, 0x46)[:-1] + b'\0'
        first, second = self.wire(unit.name), self.wire(unit.name)
        self.assertEqual(first.ask(request).data[7:], b'\1\0')
        second.send(damaged)
        until(lambda: len(unit.log('R')) == 2)
        self.assertTrue(second.ask(frame(B, UNIT, 0x00, 0x41)), 'damage that looks like the first one closes nothing')
        second.send(request)
        second.socket.settimeout(5)
        self.assertEqual(second.socket.recv(1), b'', 'it takes no acknowledgement of the first one')
        self.assertIn('a second connection sends as master 1', unit.errors())
        self.assertEqual([first.ask(request).data[7:] for _ in range(2)], [b'\2\0', b'\3\0'])
        first.socket.shutdown(socket.SHUT_WR)
        self.assertEqual(first.socket.recv(1), b'')
        self.assertEqual(self.wire(unit.name).ask(request).data, b'\0', 'the number is free once its connection is closed')

    def test_every_character_passes_both_ways(self):
        wire = self.wire(self.unit().name)
        for half in (range(0x00, 0x80), range(0x80, 0x100)):
            self.assertEqual(wire.ask(frame(A, UNIT, 0x03, 0x00, bytes(half))).data, bytes(half), 'numbers not equipped come back')
