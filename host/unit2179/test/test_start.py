"""Command line, defaults and configuration."""
import os
import re
import subprocess

from live import A, ROOT, RUN, SAMPLE, LiveTest, Wire, frame

FRESH_POLL = bytes.fromhex('D20C004100005267')
FRESH_REPLY = bytes.fromhex('D20C0080540400000000007F65')


class Start(LiveTest):
    def test_help_names_every_option(self):
        done = subprocess.run([*RUN, '--help'], capture_output=True, text=True, timeout=10)
        self.assertEqual(done.returncode, 0)
        with open(os.path.join(ROOT, 'host', 'unit2179', 'options.c')) as source:
            options = set(re.findall(r'"(--[a-z0-9-]+)"', source.read()))
        self.assertEqual(len(options), 21)
        for option in options:
            self.assertIn(f'\n  {option} ', done.stdout)

    def test_its_version_is_told(self):
        done = subprocess.run([*RUN, '--version'], capture_output=True, text=True, timeout=10)
        self.assertEqual((done.returncode, done.stdout), (0, 'unit2179: interface 8 of the library, units of layout 6, state files of version 8\n'))

    def test_without_options_the_bench_unit_answers_on_a_pseudo_terminal(self):
        process = subprocess.Popen(RUN, cwd=self.folder, stdin=subprocess.DEVNULL, stdout=subprocess.PIPE, text=True)
        told = process.stdout.readline()
        self.assertRegex(told, r'^unit 1234 on /dev/\S+\n$')
        wire = Wire(told.split()[-1])
        self.assertEqual(wire.ask(FRESH_POLL).chars, FRESH_REPLY)
        wire.close()
        again = Wire(told.split()[-1])
        self.assertEqual(again.ask(FRESH_POLL).chars, FRESH_REPLY, 'a second master finds the line as it was')
        again.close()
        process.terminate()
        self.assertEqual(process.wait(10), 0)
        process.stdout.close()
        self.assertEqual(os.listdir(self.folder), [], 'nothing is kept unless it is asked for')

    def test_wrong_command_lines(self):
        for options in (['--wrong'], ['--baud'], ['--baud', '301'], ['--parity', 'mark'], ['--gap', '0'], ['--gap', '10001'], ['--tcp', 'x'],
                        ['--fresh'], ['--clock', 'now'], ['--zone', 'UTC'], ['--pty', '--tcp', '0'], ['1234']):
            with self.subTest(options):
                status, said = self.refused(*options)
                self.assertEqual(status, 2)
                self.assertIn(options[0], said)

    def test_what_cannot_be_opened(self):
        plain = self.write('plain', '')
        for status, *options in ((1, '--log', 'none/log'), (1, '--capture', 'none/capture'), (1, '--events', plain), (3, '--config', 'none'),
                                 (4, '--state', 'none/state'), (5, '--serial', 'none'), (5, '--serial', plain), (5, '--tcp', '1.2.3:0')):
            with self.subTest(options):
                found, said = self.refused(*options)
                self.assertEqual(found, status)
                self.assertIn(options[1].rpartition(':')[0] or options[1], said)


class Configuration(LiveTest):
    def complaints(self, text):
        """The lines that a configuration is refused for, with what is said."""
        status, said = self.refused('--config', self.write('conf', text))
        self.assertEqual(status, 3, said)
        return [line.partition('conf:')[2] for line in said.splitlines()]

    def test_every_wrong_line_is_named(self):
        wrong = ['unit 7FFh', 'inputs 20h', 'inputs 70h-71h', 'inputs', 'inputs 3Gh', 'inputs 100h', 'inputs 41h-40h', 'calculations 80h', 'file 32 1',
                 'file 0 0', 'file 0 17', 'file 0', 'file 0 oldest', 'file 0 1 both', 'file 0 1 oldest newest', 'block 513', 'outputs -', 'points 30h',
                 'inputs ' + '30h ' * 64]
        for line in wrong:
            with self.subTest(line):
                said = self.complaints(f'# a comment\n\nunit 5\n  inputs 30h # another\n{line}\n'.replace('unit 5', '' if 'unit' in line else 'unit 5'))
                self.assertTrue(said and all(re.match('5: .', s) for s in said), said)

    def test_all_of_them_at_once(self):
        said = self.complaints('unit x\ninputs 30h\nfile 1 1\nfile 1 2\nunit 6\nblock 1\nblock 2\nbad\n')
        self.assertEqual([s.partition(':')[0] for s in said], ['1', '4', '5', '7', '8'])

    def test_a_line_that_leaves_something_unsaid_is_named(self):
        unit = self.unit('--config', self.write('conf', 'unit 5\nfile 1 1\nfile 2 1 newest\n'))
        [said] = unit.errors().splitlines()
        self.assertRegex(said, 'conf:2: file 1 .*keeps the oldest')

    def test_a_unit_is_needed_and_text(self):
        self.assertEqual(self.complaints('inputs 30h\n'), [' there is no line with the unit\'s number'])
        self.assertIn('2: the line has a character that is no text', self.complaints('unit 1\ninputs\0 30h\n'))

    def test_the_sample_is_what_it_says(self):
        unit = self.unit('--config', SAMPLE)
        wire = self.wire(unit.name)
        self.assertEqual(len(wire.ask(frame(A, 1234, 0x00, 0x4D)).data), 2 * (2 + 2 + 4 + 8))
        self.assertEqual(len(wire.ask(frame(A, 1234, 0x03, 0x80)).data), 4 * 8)
        self.assertEqual(wire.ask(frame(A, 1234, 0x10, 0x10, b'\5')).data, b'\5')
        self.assertEqual(wire.ask(frame(A, 1234, 0x10, 0x21)).function, 0x90)
        for file in (2, 7):
            self.assertEqual(wire.ask(frame(A, 1234, 0x04, 0x40 | file)).data, b'\0')
        self.assertEqual(wire.ask(frame(A, 1234, 0x28, 0x30, bytes([0, 0, 6, 64]))).data, bytes(64))

    def test_numbers_as_they_are_written_elsewhere(self):
        unit = self.unit('--config', self.write('conf', 'unit 0x4d2\ninputs 30H 0X40-43h 0x80-0x81\n'))
        wire = self.wire(unit.name)
        self.assertEqual(unit.told.split()[1], '1234')
        self.assertEqual(len(wire.ask(frame(A, 1234, 0x00, 0x49)).data), 2 * (1 + 4 + 2))
        for line in ('unit 0x', 'unit 0x12h', 'unit h', 'unit 0xG', 'unit x12', 'unit 12hh'):
            self.assertTrue(self.complaints(line), line)

    def test_lines_may_end_as_elsewhere_and_ranges_join(self):
        unit = self.unit('--config', self.write('conf', 'unit 2046\r\ninputs 30h 30h-3Fh\r\ninputs 50'))
        self.assertEqual(unit.told.split()[1], '2046')
        self.assertEqual(self.wire(unit.name).ask(frame(31, 2046, 0x00, 0x01)).data, bytes(32))
