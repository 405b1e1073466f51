"""Local events through a FIFO or standard input, and output actions."""
import subprocess
import time

from live import A, B, RUN, SAMPLE, UNIT, LiveTest, frame, until

NOT_EQUIPPED = 'that number is not equipped, or is of another kind'


class Events(LiveTest):
    def begin(self):
        unit = self.unit('--config', SAMPLE, '--events', 'events')
        return unit, self.wire(unit.name)

    def told(self, unit, *lines):
        """Tells events; answers the outcomes of those that were any."""
        before = len(unit.log('E'))
        self.tell('events', *lines)
        return lambda many: [int(line[-1]) for line in until(lambda: len(unit.log('E')) >= before + many and unit.log('E')[before:])]

    def test_a_master_reads_what_was_told(self):
        unit, wire = self.begin()
        outcomes = self.told(unit, 'word 30h 8001h', 'word 80h FFFEh', 'pulse 40h 12', 'pulse 40h 65530', 'value 05h 3F800000h',
                             'record 2 17 1234h 2 65535 # a trip')
        self.assertEqual(outcomes(6), [0] * 6)
        self.assertEqual(wire.ask(frame(A, UNIT, 0x00, 0x01)).data[:2], b'\x01\x80')
        self.assertEqual(wire.ask(frame(A, UNIT, 0x00, 0x08)).data[:2], b'\xFE\xFF')
        self.assertEqual(wire.ask(frame(A, UNIT, 0x00, 0x40)).data[:2], b'\x06\x00')
        self.assertEqual(wire.ask(frame(A, UNIT, 0x03, 0x00, b'\5')).data, b'\5\0\0\x80\x3F')
        record = wire.ask(frame(A, UNIT, 0x04, 0x42)).data
        self.assertEqual((record[:4], record[7:]), (bytes([1, 17, 0, 1]), b'\x34\x12\2\0\xFF\xFF'))
        self.assertEqual(unit.log('E')[5], ['E', 'record', '2', '17', '4660', '2', '65535', '0'])

    def test_wrong_lines_and_refusals_are_named(self):
        unit, wire = self.begin()
        outcomes = self.told(unit, 'word 30 1', 'pulse 30h 1', 'word 40h 1', 'value 08h 0', 'record 3 1 1', 'record 2 1 1', '', '# nothing',
                             'words 30h 1', 'word 30h', 'word 30h 10000h', 'record 2 1', 'record 7 1' + ' 1' * 17, 'x' * 600, 'record 32 1 1',
                             'word 30h 1')
        self.assertEqual(outcomes(7), [8, 8, 8, 8, 2, 3, 0])
        said = [line.partition('events:')[2] for line in unit.errors().splitlines()]
        self.assertEqual(said[:5], [f'{n}: {NOT_EQUIPPED}' for n in (1, 2, 3, 4)] + ['5: that file is not equipped'])
        self.assertEqual([s.partition(':')[0] for s in said[5:]], ['6', '9', '10', '11', '12', '13', '14', '15'])
        self.assertIn('longer than', said[11])
        self.assertEqual(wire.ask(frame(A, UNIT, 0x00, 0x01)).data, b'\1\0\0\0')

    def test_a_full_file_is_said(self):
        unit, wire = self.begin()
        self.assertEqual(self.told(unit, *['record 2 1 1 2 3'] * 33)(33), [0] * 32 + [1])
        until(lambda: '33: the file is full' in unit.errors())
        self.assertEqual(unit.log('D'), [])
        self.assertEqual(wire.ask(frame(A, UNIT, 0x04, 0x62)).status & 8, 8)

    def test_no_part_of_a_millisecond_is_lost(self):
        unit, _ = self.begin()
        with open(self.path('events'), 'w', buffering=1) as events:
            begins = time.monotonic()
            events.write('word 30h 0\n')
            until(lambda: unit.log('E'))
            began, before = time.monotonic(), len(unit.log('T'))
            for n in range(800):
                time.sleep(0.0013)
                ends = time.monotonic()
                events.write(f'word 30h {n}\n')
            until(lambda: len(unit.log('E')) == 801)
            ended = time.monotonic()
        passed = sum(int(line[1]) for line in unit.log('T')[before:]) / 1000
        self.assertTrue(ends - began - 0.002 <= passed <= ended - begins + 0.002)

    def test_standard_input_may_be_a_file(self):
        given = self.write('given', 'word 30h 7\npulse 40h 3')
        with open(given) as lines:
            process = subprocess.Popen([*RUN, '--events', '-', '--log', '-'], cwd=self.folder, stdin=lines, stdout=subprocess.PIPE, text=True)
        told = [process.stdout.readline()]
        while sum(line.startswith('E') for line in told) < 2:
            told.append(process.stdout.readline())
            self.assertTrue(told[-1])
        wire = self.wire(told[0].split()[-1])
        self.assertEqual(wire.ask(frame(A, UNIT, 0x00, 0x41)).data, b'\7\0\3\0')
        process.kill()
        process.wait(10)
        process.stdout.close()
        self.assertEqual([line.rpartition('\t')[0] for line in told if line.startswith('E')], ['E\tword\t48\t7\t0', 'E\tpulse\t64\t3\t0'])


class Outputs(LiveTest):
    def test_an_output_acts_once_and_is_told(self):
        unit = self.unit('--config', SAMPLE)
        wire = self.wire(unit.name)
        self.assertEqual(wire.ask(frame(A, UNIT, 0x10, 0x11, b'\5')).data, b'\5')
        self.assertEqual(wire.ask(frame(B, UNIT, 0x10, 0x20)).function, 0x90, 'another master cannot operate it')
        self.assertEqual(wire.ask(frame(A, UNIT, 0x10, 0x20)).function, 0x10)
        self.assertEqual(unit.line(), 'output 05h close')
        self.assertEqual(wire.ask(frame(A, UNIT, 0x10, 0x20)).function, 0x90, 'it is gone')
        self.assertEqual(wire.ask(frame(A, UNIT, 0x10, 0x10, b'\6')).data, b'\6')
        self.assertEqual(wire.ask(frame(A, UNIT, 0x10, 0x20)).function, 0x10)
        self.assertEqual(unit.line(), 'output 06h open')
        self.assertEqual(unit.log('A'), [['A', '5', 'close'], ['A', '6', 'open']])
