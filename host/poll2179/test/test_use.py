"""Bad use, no answer and no line: each has its exit status, and says what is wrong."""
import os
import select
import subprocess

from polled import FILES, LINE, POLL, QUICK, SILENT, USAGE, PollTest
from live import until

WRONG = [
    (['table', '0'], 'make no request'), (['table', '16'], 'no number that fits'), (['table'], 'lacks a number'), (['table', '1', '2'], 'a word too many'),
    (['history', '3'], '--state is missing'), (['history', '32', '--state', 's'], 'no number that fits'), (['scan'], 'lacks a kind'), (['scan', 'wind'], 'no kind'),
    (['set-time', '367', '00:00:00'], 'set-time takes'), (['set-time', '0', '00:00:00'], 'set-time takes'), (['set-time', '1', '24:00:00'], 'set-time takes'),
    (['set-time', '1', '00:00:00.5'], 'set-time takes'), (['set-time', '1', '00:00:00x'], 'set-time takes'), (['set-time', '1', '+1:00:00'], 'set-time takes'),
    (['set-time'], 'set-time takes'),
    (['values', '256'], 'no number that fits'), (['values', *['1'] * 129], 'at most 128'), (['write', '3', '0'], 'lacks the characters'),
    (['write', '3', '0', *['1'] * 129], 'at most 128'), (['write', '3', '65536', '1'], 'no number that fits'), (['read', '3', '0', '256'], 'no number that fits'),
    (['read', '3', '0'], 'lacks a number'), (['select', '5'], 'open or close'), (['select', '5', 'shut'], 'open or close'), (['operate', 'now'], 'a word too many'),
    (['sing'], 'is no command'), ([], 'lacks a command'), (['time', '--loud'], 'is no option'), (['time', '--baud', '1234'], '--baud is'),
    (['time', '--baud'], 'lacks what it takes'), (['time', '--parity', 'some'], '--parity is'), (['time', '--master', '32'], 'a number that fits'),
    (['time', '--unit', '2047'], 'a number that fits'), (['time', '--unit', '-1'], 'a number that fits'), (['time', '--hex', '--json'], 'exclude'),
    (['time', '--all'], '--all goes with'), (['time', '--dump'], 'go with history'), (['time', '--state', 's'], '--state goes with'),
    (['time', '--zone', 'UTC'], '--zone goes with'), (['set-time', 'now', '--zone', 'Nowhere'], '--zone takes'),
    (['time', '--timeout', '300'], '--timeout is more than 305 ms'), (['time', '--timeout', '2000', '--reply-within', '2000'], '--timeout is more than'),
]

NO_PLACES = ['/dev/ttyNone', '127.0.0.1:x', '127.0.0.1:65536', '127.0.0.1:0x1', ':5', '', 'x' * 300 + ':5']


class Use(PollTest):
    def test_bad_use(self):
        for words, said in WRONG:
            with self.subTest(words=words[:4]):
                self.assertIn(said, self.refused('/dev/null', *words, status=USAGE))
        for words, said in ((['--unit', '1', 'time'], '--line is missing'), (['--line', '/dev/null', 'time'], '--unit is missing')):
            done = subprocess.run([*POLL, *words], capture_output=True, text=True, timeout=10)
            self.assertEqual((done.returncode, done.stdout), (USAGE, ''))
            self.assertIn(said, done.stderr)
        self.assertEqual(os.listdir(self.folder), [], 'nothing is begun')

    def test_reset_count_of_no_accumulator(self):
        """Whatever a number is, the unit judges it; only figures that no request can have are refused here."""
        wire, name = self.pair()
        self.assertEqual(self.poll(name, 'reset-count', '30h', *QUICK, status=SILENT), 'no answer\n')

    def test_help_and_version(self):
        for word, said in (('--help', 'usage: poll2179'), ('--version', 'poll2179: interface')):
            done = subprocess.run([*POLL, word], capture_output=True, text=True, timeout=10)
            self.assertEqual((done.returncode, done.stderr), (0, ''))
            self.assertTrue(done.stdout.startswith(said))

    def test_no_line(self):
        for place, said in (('127.0.0.1:1', 'refused'), ('/dev/null', 'no serial device'), ('/etc/passwd', 'no serial device'), (self.folder, 'directory'),
                            ('[::1', ''), *((place, 'no device, and no ADDRESS:PORT') for place in NO_PLACES)):
            with self.subTest(place=place):
                self.assertIn(said, self.refused(place, 'time', status=LINE))

    def test_a_device_that_another_program_has(self):
        wire, name = self.pair()
        self.begin(name, 'time', '--timeout', '5000')
        until(lambda: select.select([wire.file], [], [], 0)[0])
        self.assertIn('another program has it', self.refused(name, 'time', status=LINE))

    def test_no_answer_is_asked_again_but_never_what_acts(self):
        wire, name = self.pair()
        for words, times in ((['time', '--retries', '2'], 3), (['operate', '--retries', '2'], 1), (['select', '5', 'open', '--retries', '2'], 1)):
            self.assertEqual(self.poll(name, *QUICK, *words, status=SILENT), 'no answer\n')
            chars = os.read(wire.file, 4096)
            self.assertEqual(len(chars), 8 * times + (times if words[0] == 'select' else 0))
        self.assertEqual(self.poll(name, *QUICK, 'time', '--json', status=SILENT), '{"answer":"none"}\n')
        self.assertRegex(self.poll(name, *QUICK, 'time', '--hex', '--retries', '1', status=SILENT), r'^(D20C28310000....\t-\n){2}$')

    def test_output_that_cannot_be_written(self):
        with open('/dev/full', 'w') as full:
            wire, name = self.pair()
            self.assertIn('standard output', self.run_poll(name, *QUICK, 'time', stdout=full).stderr)
            self.assertEqual(self.run_poll(name, *QUICK, 'time', stdout=full).returncode, FILES)
