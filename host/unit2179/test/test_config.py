"""The reader of configurations as a library of its own, compiled for this machine: text in, a configuration or its faults out."""
import os
import random
import subprocess

from live import ROOT, SAMPLE, LiveTest

SOURCES = [os.path.join(ROOT, 'host', 'unit2179', name) for name in ('config.c', 'text.c')]
ALONE = os.path.join(ROOT, 'host', 'unit2179', 'test', 'config_alone.c')
OLDEST = 836  # where a configuration says which files keep the oldest, with the means behind it
PLAIN = {'memchr', 'memcpy', 'memset', 'strchr', 'strcmp', 'strlen', 'strcspn', 'strspn', 'vsnprintf', 'number_of', 'words_of'}


class Library(LiveTest):
    def setUp(self):
        super().setUp()
        flags = ['gcc', '-std=c99', '-Wall', '-Wextra', '-Wpedantic', '-Werror', '-I' + os.path.join(ROOT, 'include'), '-I' + os.path.dirname(SOURCES[0])]
        subprocess.run([*flags, '-c', *SOURCES], cwd=self.folder, check=True)
        subprocess.run([*flags, '-fsanitize=undefined', '-fno-sanitize-recover', '-o', 'alone', ALONE, *SOURCES], cwd=self.folder, check=True)

    def read(self, text):
        """How many faults a text has, those that were told, and the configuration if there are none."""
        done = subprocess.run([self.path('alone')], input=text, capture_output=True, check=True)
        many, *told = done.stdout.decode('latin-1').split('\n')
        return int(many), told[:-1], told[-1]

    def test_it_calls_nothing_that_reads_or_writes(self):
        called = set()
        for name in ('config.o', 'text.o'):
            lines = subprocess.run(['nm', '-u', name], cwd=self.folder, capture_output=True, text=True, check=True).stdout.splitlines()
            called |= {line.split()[-1] for line in lines}
        self.assertEqual({name for name in called if not name.startswith('__')} - PLAIN, set())

    def test_a_configuration_comes_out(self):
        with open(SAMPLE, 'rb') as sample:
            many, told, config = self.read(sample.read())
        self.assertEqual((many, told), (0, []))
        chars = bytes.fromhex(config)
        self.assertEqual((len(chars), chars[:4]), (932, b'\xD2\4\x40\0'))
        self.assertEqual([n for n in range(256) if chars[4 + n]], [0, 1, 0x30, 0x31, *range(0x40, 0x44), *range(0x80, 0x88)])

    def test_a_file_that_does_not_say_keeps_the_oldest_with_a_notice(self):
        many, told, config = self.read(b'unit 5\nfile 0 1\nfile 1 1 newest\nfile 2 1 oldest\nfile 3 1 # newest')
        self.assertEqual((many, bytes.fromhex(config)[OLDEST:OLDEST + 32]), (0, bytes([1, 0, 1, 1]) + bytes(28)))
        self.assertEqual([line.split()[:3] for line in told], [['2', 'file', '0'], ['5', 'file', '3']])
        self.assertIn('neither oldest nor newest', told[0])

    def test_means_come_out_in_the_order_of_their_lines(self):
        lines = b'unit 5\nmean 7 FFh 256\nmean 0 80h 1\ncalculations 0-7\ninputs 80h FFh\nmean 3 80h 16'
        many, told, config = self.read(lines)
        self.assertEqual((many, told), (0, []))
        means = bytes.fromhex(config)[OLDEST + 32:]
        self.assertEqual(means[:16], bytes([7, 0, 3]).ljust(16, b'\0'))
        self.assertEqual(means[16:32], bytes([0xFF, 0x80, 0x80]).ljust(16, b'\0'))
        self.assertEqual(means[32:], b'\0\1\1\0\x10\0'.ljust(32, b'\0'))

    def test_every_fault_of_a_mean_is_named(self):
        equipped = b'unit 5\ncalculations 0-20h\ninputs 30h 80h-8Fh\n'
        for samples in (b'0', b'3', b'512', b'255', b'x', b''):
            self.assertIn('over how many samples it is: 1, 2, 4', self.read(equipped + b'mean 0 80h ' + samples)[1][0])
        for line, why in ((b'mean 21h 80h 1', 'the mean 21h is no equipped calculation'), (b'mean 0 30h 1', 'the mean 00h: 30h is no analog'),
                          (b'mean 0 90h 1', 'the mean 00h: the analog 90h is not equipped'),
                          (b'mean 0 80h 2\nmean 0 81h 4', 'the mean 00h is given a second time')):
            many, told, config = self.read(equipped + line)
            self.assertEqual((many, config, told[0].split(' ', 1)), (1, '', [str(4 + line.count(b'\n')), why]))
        sixteen = b''.join(b'mean %d 80h 256\n' % n for n in range(16))
        self.assertEqual(self.read(equipped + sixteen)[0], 0)
        self.assertEqual(self.read(equipped + sixteen + b'mean 16 80h 1')[1], ['20 there are more than 16 means'])

    def test_or_its_faults_with_their_lines(self):
        many, told, config = self.read(b'unit 5\n\ninputs 20h\npoints\nfile 0 0\nblock 600\nunit 6\nunit x')
        self.assertEqual((many, config), (7, ''))
        self.assertEqual([line.split()[0] for line in told], ['3', '4', '5', '6'], 'as many as there is room for')
        self.assertEqual(self.read(b'')[1], ["0 there is no line with the unit's number"])
        self.assertEqual(self.read(b'unit 1\n' + b'x' * 5000)[1], ['2 the line is longer than 1023 characters'])

    def test_any_text_is_taken(self):
        chance = random.Random(2179)
        words = [b'unit', b'inputs', b'file', b'block', b'mean', b'calculations', b'oldest', b'newest', b'256', b' ', b'\n', b'\0', b'#', b'-', b'FFh',
                 b'9' * 40, b'\xFF', b'30h-40h']
        for _ in range(30):
            self.read(b''.join(chance.choice(words) for _ in range(400)))
