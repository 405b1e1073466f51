"""Each command against a live unit: what it prints, word for word, and its exit status."""
import json
import os
import socket
import termios

from polled import NOP, RST, SLOW, PollTest
from live import SAMPLE, until

SET_UP = 'the unit asks for set-up\n'


class Commands(PollTest):
    def setUp(self):
        super().setUp()
        self.live = self.unit_as_is('--config', SAMPLE, '--events', 'events', '--tcp', '0', *SLOW)

    def told(self, *lines):
        before = len(self.live.log('E'))
        self.tell('events', *lines)
        until(lambda: len(self.live.log('E')) == before + len(lines))

    def ask(self, *words, **how):
        return self.poll(self.live.name, *SLOW, *words, **how)

    def shows(self, words, *lines, **how):
        """What a command prints, before the line that a fresh unit's status is told by."""
        self.assertEqual(self.ask(*words, **how), ''.join(line + '\n' for line in lines) + SET_UP)

    def answers(self, words, answer, **how):
        """What a command prints as JSON, but for the port's character."""
        made = json.loads(self.ask(*words, '--json', **how))
        self.assertEqual({k: v for k, v in made.items() if k != 'port'}, answer)

    def test_scans(self):
        self.told('word 80h 65535', 'word 30h 32769', 'pulse 40h 12')
        self.told(*(f'contact {n} 1' for n in (0, 1, 3, 4, 6, 7)), 'contact 0 0', 'contact 7 0')
        self.shows(['scan', 'analog'], 'analog 1: -1 (FFFFh)', *(f'analog {n}: 0 (0000h)' for n in range(2, 9)))
        self.shows(['scan', 'status'], 'status 1: 1000000000000001 (8001h)', 'status 2: 0000000000000000 (0000h)')
        self.shows(['scan', 'two-bit'], 'two-bit 1: states 01011010, changed 10000001 (815Ah)', 'two-bit 2: states 00000000, changed 00000000 (0000h)')
        self.shows(['scan', 'pulse'], 'pulse 1: 12 (000Ch)', *(f'pulse {n}: 0 (0000h)' for n in (2, 3, 4)))
        self.assertIn('word 5: 12, signed 12 (000Ch)\n', self.ask('scan', 'all'))
        self.assertIn('word 3: 65535, signed -1 (FFFFh)\n', self.ask('scan', 'analog', 'status'))
        self.answers(['scan', 'status'], {'answer': 'normal', 'status': 128, 'words': [32769, 0]})

    def test_tables(self):
        self.shows(['table', '5'], 'NOP: no such table, an input in it that is not equipped, or more than a reply holds', status=NOP)
        self.shows(['write', '03', '0', '0', '2', '80h', '40h', '0', '0'], '6 characters are written to ordinal 03h from 0 on')
        self.told('word 80h 7', 'pulse 40h 8')
        self.assertEqual(self.ask('table', '1'), 'word 1: 7, signed 7 (0007h)\nword 2: 8, signed 8 (0008h)\n')
        self.answers(['table', '2'], {'answer': 'nop', 'status': 0}, status=NOP)

    def test_values(self):
        self.told('value 2 1069547520', 'value 7 4290772992')
        self.shows(['values', '2', '7', '2'], 'value 02h: 1.5 (3FC00000h)', 'value 07h: -nan (FFC00000h)', 'value 02h: 1.5 (3FC00000h)')
        self.shows(['values'], *(f'value {n}: {v}' for n, v in enumerate(['0 (00000000h)'] * 2 + ['1.5 (3FC00000h)'] + ['0 (00000000h)'] * 4
                                                                         + ['-nan (FFC00000h)'], 1)))
        self.shows(['values', '9', '2', '0xFE'], 'NOP: no such values: 09h FEh', status=NOP)
        self.answers(['values', '7', '2'], {'answer': 'normal', 'status': 128, 'values': [
            {'number': 7, 'pattern': 4290772992, 'value': None}, {'number': 2, 'pattern': 1069547520, 'value': 1.5}]})
        self.answers(['values', '9'], {'answer': 'nop', 'status': 128, 'missing': [9]}, status=NOP)

    def test_control(self):
        self.shows(['operate'], 'RST: no select of this master waits', status=RST)
        self.shows(['select', '05h', 'close'], 'output 05h is selected to close: operate within 5 s')
        self.shows(['operate'], 'the selected output acts')
        self.shows(['select', '6', 'open'], 'output 06h is selected to open: operate within 5 s')
        self.shows(['cancel'], 'RST: no select of this master is held any more', status=RST)
        self.shows(['operate'], 'RST: no select of this master waits', status=RST)
        self.shows(['select', '12h', 'close'], 'NOP: no such output', status=NOP)
        self.answers(['select', '5', 'close'], {'answer': 'normal', 'status': 128, 'number': 5})
        self.shows(['time'], "RST: this master's select was broken off, and nothing else was done", status=RST)
        self.assertEqual([line[1:] for line in self.live.log('A')], [['5', 'close']])

    def test_blocks(self):
        self.shows(['write', '0Bh', '3', '11h', '22h'], '2 characters are written to ordinal 0Bh from 3 on')
        self.shows(['read', '0Bh', '2', '4'], '00112200')
        self.shows(['read', '03', '0', '16'], '00' * 16)
        self.answers(['read', '0Bh', '3', '2'], {'answer': 'normal', 'status': 128, 'characters': [17, 34]})
        self.shows(['read', '7', '0', '1'], 'NOP: no such part of a block', status=NOP)
        self.shows(['write', '0Bh', '255', '1', '2'], 'NOP: no such part of a block', status=NOP)

    def test_counts_and_start(self):
        self.told('pulse 41h 5')
        self.shows(['reset-count', '41h'], 'the count of 41h is 0')
        self.shows(['scan', 'pulse'], *(f'pulse {n}: 0 (0000h)' for n in (1, 2, 3, 4)))
        self.shows(['reset-count', '5Fh'], 'NOP: no such accumulator', status=NOP)
        self.told('pulse 41h 5')
        self.assertEqual(self.ask('reset-count', '41h', '--all'), 'sent to all units, which do not answer\n')
        until(lambda: self.live.log('R')[-1][2] == '4')
        self.assertEqual(self.ask('scan', 'pulse').splitlines()[1::4], ['pulse 2: 0 (0000h)', 'the unit has heard a broadcast'])
        self.shows(['init'], 'the unit starts anew')

    def test_history(self):
        self.told('record 7 17 1', 'record 7 18 2', 'record 2 255 1 65535 3')
        history = ['--state', 'master', 'history']
        self.assertEqual(self.ask(*history, '7'), 'file 7: event 17, day 1, 00:00:00, values 1\nfile 7: more are held\n' + SET_UP)
        self.assertEqual(self.ask(*history, '2', '--dump'), 'file 2: event 255, day 1, 00:00:00, values 1 65535 3\n' + SET_UP)
        self.answers([*history, '7'], {'answer': 'normal', 'status': 128, 'file': 7, 'dump': False, 'repeat': False, 'more': False, 'records': [
            {'file': 7, 'event': 18, 'day': 1, 'time': '00:00:00', 'values': [2]}]})
        self.shows([*history, '7'], 'file 7: no record is left')
        self.shows([*history, '8'], 'NOP: no such file', status=NOP)
        self.assertEqual(self.records(), [['7', '17', '1', '00:00:00', '1'], ['2', '255', '1', '00:00:00', '1', '65535', '3'], ['7', '18', '1', '00:00:00', '2']])

    def test_hex(self):
        self.assertRegex(self.ask('scan', 'status', '--hex'), r'^D20C00010000[0-9A-F]{4}\tD20C0080..0400000000[0-9A-F]{6}\n$')
        lines = self.ask('write', '0Bh', '0', '1', '--hex').splitlines()
        self.assertRegex(lines[0], r'^D20C2030030000000B[0-9A-F]{4}\t-$')
        self.assertRegex(lines[1], r'^D20C2031010001[0-9A-F]{4}\tD20C20')
        self.assertEqual(len(lines), 2)


class Lines(PollTest):
    def test_a_pseudo_terminal_names_and_addresses(self):
        units = [self.unit_as_is(*SLOW), self.unit_as_is('--tcp', 'localhost:0', *SLOW)]
        if socket.has_ipv6 and os.path.exists('/proc/net/if_inet6'):
            units.append(self.unit_as_is('--tcp', '[::1]:0', *SLOW))
        for unit in units:
            self.assertEqual(self.poll(unit.name, *SLOW, 'scan', 'pulse'), 'pulse 1: 0 (0000h)\n' + SET_UP, unit.name)
        self.assertEqual(self.poll(units[1].name.replace('127.0.0.1', 'localhost'), *SLOW, 'scan', 'pulse', '--master', '31'), 'pulse 1: 0 (0000h)\n' + SET_UP)

    def test_a_device_has_the_speed_and_the_parity_asked_for(self):
        for rate, parity, odd in (('300', 'odd', termios.PARODD), ('115200', 'even', 0), ('1200', 'none', 0)):
            wire, name = self.pair()
            self.poll(name, '--baud', rate, '--parity', parity, 'reset-count', '40h', '--all')
            _, _, control, local, into, out, _ = termios.tcgetattr(self.held[-1])
            speed = getattr(termios, 'B' + rate)
            # a pseudo-terminal has no parity, and keeps only which one it would be
            self.assertEqual((into, out, control & (termios.CSIZE | termios.PARODD), local), (speed, speed, termios.CS8 | odd, 0))
