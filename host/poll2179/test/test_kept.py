"""What the master keeps: nothing goes out before it is on the disk, nothing is lost by a full one, and a file that is not its own is refused."""
import os
import resource
import select
import subprocess

from polled import FILES, LINE, NOP, NORMAL, POLL_FAULTS, QUICK, SILENT, SLOW, PollTest
from frames import check
from live import SAMPLE, until

HISTORY = ['--state', 'master', 'history']
NEW = 'a new master begins: its first history request acknowledges'


class Kept(PollTest):
    """A master that keeps its state in a file, and a unit."""

    def setUp(self):
        super().setUp()
        self.live = self.unit_as_is('--config', SAMPLE, '--events', 'events', '--tcp', '0', *SLOW)

    def store(self, *values):
        before = len(self.live.log('E'))
        self.tell('events', *(f'record 7 17 {value}' for value in values))
        until(lambda: len(self.live.log('E')) == before + len(values))

    def ask(self, *words, **how):
        return self.run_poll(self.live.name, *SLOW, *words, **how)

    def values(self):
        return [record[4] for record in self.records()]

    def asked(self):
        """The commands of the history requests that the unit has heard."""
        return [line[1][6:8] for line in self.live.log('R')]

    def begun(self):
        """A master that has received one record of three."""
        self.store(1, 2, 3)
        self.assertIn(NEW, self.ask(*HISTORY, '7').stderr)
        self.assertEqual(self.values(), ['1'])

    def changed(self, place, chars, check_again=True):
        """The state with other characters at a place."""
        with open(self.path('master'), 'r+b') as file:
            state = bytearray(file.read())
            state[place:place + len(chars)] = chars
            state[-2:] = check(state[:-2]).to_bytes(2, 'little') if check_again else state[-2:]
            file.seek(0)
            file.write(state)

    def refused_before_it_asks(self, said, *words, status=FILES):
        before = len(self.live.log('R'))
        done = self.ask(*(words or (*HISTORY, '7')))
        self.assertEqual((done.returncode, done.stdout), (status, ''), done.stderr)
        self.assertIn(said, done.stderr)
        self.assertEqual(len(self.live.log('R')), before, 'nothing has gone out')


class State(Kept):
    def test_goes_on_without_a_word(self):
        self.begun()
        for value in '23':
            done = self.ask(*HISTORY, '7')
            self.assertEqual((done.returncode, done.stderr), (NORMAL, ''))
            self.assertIn(f'values {value}\n', done.stdout)
        self.assertEqual(self.asked(), ['47'] * 3)

    def test_the_state_of_another(self):
        self.begun()
        for words, said in ((['--master', '2'], 'is of master 1 and unit 1234'), (['--unit', '77'], 'is of master 1 and unit 1234')):
            self.refused_before_it_asks(said, *words, *HISTORY, '7')

    def test_damaged_and_foreign_files(self):
        self.begun()
        with open(self.path('master'), 'rb') as file:
            whole = file.read()
        for made, said in ((b'', 'is no state of poll2179'), (b'unit2179 state', 'is no state'), (whole[:-1], 'is damaged'), (whole + b'\0', 'is damaged'),
                           (whole[:5], 'is damaged'), (whole[:4] + b'\2' + whole[5:], 'is of version 2; this program knows version 1')):
            with open(self.path('master'), 'wb') as file:
                file.write(made)
            self.refused_before_it_asks(said)
        with open(self.path('master'), 'wb') as file:
            file.write(whole)
        self.assertEqual(self.ask(*HISTORY, '7').returncode, NORMAL)

    def test_characters_that_no_master_writes(self):
        self.begun()
        self.changed(8, b'\xFF' * 6)
        self.refused_before_it_asks('is damaged')

    def test_each_changed_bit_is_found(self):
        self.begun()
        with open(self.path('master'), 'rb') as file:
            whole = file.read()
        for place in range(0, len(whole), 23):
            with open(self.path('master'), 'wb') as file:
                file.write(whole[:place] + bytes([whole[place] ^ 0x10]) + whole[place + 1:])
            self.refused_before_it_asks('master: is ')

    def test_records_without_their_state_and_state_without_its_records(self):
        self.begun()
        os.rename(self.path('master'), self.path('away'))
        self.refused_before_it_asks('has records, but there is no state that goes with it')
        os.rename(self.path('away'), self.path('master'))
        os.truncate(self.path('master.records'), 3)
        self.refused_before_it_asks('is shorter than it was')

    def test_lines_that_do_not_count_yet_go(self):
        self.begun()
        with open(self.path('master.records'), 'a') as file:
            file.write('7\t17\t1\t00:')
        self.ask(*HISTORY, '7')
        self.assertEqual(self.values(), ['1', '2'])

    def test_two_programs_on_one_state(self):
        self.begun()
        wire, name = self.pair()
        first = self.begin(name, *HISTORY, '7', '--timeout', '5000')
        until(lambda: select.select([wire.file], [], [], 0)[0])
        self.refused_before_it_asks('another program has it')
        first.kill()

    def test_a_state_that_cannot_be_written(self):
        self.refused_before_it_asks('No such file', '--state', 'nowhere/master', 'history', '7')
        self.refused_before_it_asks('name too long', '--state', 'x' * 300, 'history', '7')
        os.mkdir(self.path('folder'))
        os.mkfifo(self.path('fifo'))
        os.mkfifo(self.path('beside.records'))
        os.symlink('nothing', self.path('link'))
        os.symlink('other', self.path('led.records'))
        for name, said in (('folder', 'is no plain file'), ('fifo', 'is no plain file'), ('beside', 'is no plain file'), ('link', 'No such file'),
                           ('led', 'Too many levels')):
            self.refused_before_it_asks(said, '--state', name, 'history', '7')

    def test_a_link_and_its_file_are_one_state(self):
        self.begun()
        os.symlink('master', self.path('link'))
        self.assertIn('values 2', self.ask('--state', 'link', 'history', '7').stdout)
        self.assertTrue(os.path.islink(self.path('link')))
        self.assertIn('values 3', self.ask(*HISTORY, '7').stdout)
        self.assertEqual(self.values(), ['1', '2', '3'])

    def test_closed_descriptors_take_no_file(self):
        self.store(1)
        done = self.ask(*HISTORY, '7', preexec_fn=lambda: (os.close(0), os.close(1), os.close(2)))
        self.assertEqual((done.returncode, self.values()), (FILES, ['1']))

    def test_a_full_disk_loses_nothing(self):
        self.begun()
        size = os.path.getsize(self.path('master.records'))

        def most(chars):
            return lambda: resource.setrlimit(resource.RLIMIT_FSIZE, (chars, chars))
        before = len(self.live.log('R'))
        self.assertEqual(self.ask(*HISTORY, '7', preexec_fn=most(100)).returncode, FILES)  # the state itself does not fit
        self.assertEqual(len(self.live.log('R')), before, 'nothing has gone out')
        with open(self.path('master.records'), 'a') as file:  # the records do not, the state does
            file.write(' ' * 700)
        self.changed(5 + 1 + 653, (size + 700).to_bytes(8, 'little'))
        done = self.ask(*HISTORY, '7', preexec_fn=most(size + 705))
        self.assertEqual((done.returncode, done.stdout), (FILES, ''))
        self.assertEqual(self.asked()[-1], '47', 'it went out, and the reply was not taken')
        self.assertIn('values 2', self.ask(*HISTORY, '7').stdout)
        self.assertEqual(self.asked()[-1], '07', 'so it is asked for again, and nothing acknowledged')
        self.ask(*HISTORY, '7')
        with open(self.path('master.records')) as file:
            self.assertEqual([line.split('\t')[-1] for line in file.read().replace(' ', '').splitlines()], ['1', '2', '3'])

    def test_output_that_is_full_keeps_the_records(self):
        self.store(1, 2)
        with open('/dev/full', 'w') as full:
            self.assertEqual(self.ask(*HISTORY, '7', stdout=full).returncode, FILES)
        self.assertEqual(self.values(), ['1'])


class Disk(Kept):
    """A disk that is full, at any character, or broken, at any call."""

    def over(self, *faults):
        """Asks for a record over such a disk."""
        self.disk(*faults)
        return self.run_poll(self.live.name, *SLOW, '--timeout', '850', *HISTORY, '7', run=POLL_FAULTS, env={**os.environ, 'FAULTS': self.path('faults')})

    def test_a_disk_that_is_full_at_any_character(self):
        self.store(*range(1, 20))
        ended = [self.over(f'short {room}').returncode for room in (0, 100, 670, 671, 690, 691, 1000, 1360, 1361, 1500)]
        self.assertEqual((ended[0], ended[-1]), (FILES, NORMAL))
        values = self.values()
        self.assertEqual(self.over().returncode, NORMAL)
        self.assertEqual(self.values()[:len(values)], values, 'what counted still does')
        self.assertEqual(self.values(), [str(n + 1) for n in range(len(self.values()))])

    def test_a_disk_that_is_broken(self):
        self.begun()
        for fault in ('fail sync 5', 'fail write 5', 'fail rename 5'):
            before = len(self.live.log('R'))
            done = self.over(fault)
            self.assertEqual((done.returncode, done.stdout, len(self.live.log('R'))), (FILES, '', before), fault)
            self.assertIn('Input/output error', done.stderr)
        self.assertIn('values 2', self.ask(*HISTORY, '7').stdout)
        self.assertEqual(self.values(), ['1', '2'])


class Repeats(Kept):
    """A request that was not answered stands before the next."""

    def lost(self, *words):
        """A history request that nobody hears."""
        wire, name = self.pair()
        self.poll(name, *QUICK, *HISTORY, *words, status=SILENT)

    def test_a_request_that_the_unit_never_heard_is_asked_anew(self):
        self.begun()
        self.lost('7')
        self.assertIn('values 2\n', self.ask(*HISTORY, '7').stdout)
        self.assertEqual(self.asked(), ['47', '07', '47'])
        self.assertEqual(self.values(), ['1', '2'])

    def test_the_file_asked_for_before_comes_first(self):
        self.begun()
        self.lost('2')
        self.assertEqual(self.ask(*HISTORY, '7', '--hex').stdout.count('\n'), 2, 'a NOP to the repeat, and then the wish')
        self.assertEqual(self.asked(), ['47', '02', '47'])
        self.assertEqual(self.values(), ['1', '2'])

    def test_a_file_that_there_is_not_ends_a_command_and_follow(self):
        self.lost('8')
        self.assertEqual(self.ask(*HISTORY, '8').returncode, NOP)
        self.assertEqual(self.ask(*HISTORY, '8', '--follow').returncode, NOP)

    def test_follow_tells_each_record_once_and_ends_by_a_signal(self):
        self.begun()
        follow = self.begin(self.live.name, *HISTORY, '7', '--follow', '--every', '20', stdout=subprocess.PIPE)
        self.store(4, 5)
        until(lambda: self.values() == ['1', '2', '3', '4', '5'])
        follow.terminate()
        told = follow.communicate(timeout=10)[0].decode()
        self.assertEqual((follow.returncode, [line.rsplit(' ')[-1] for line in told.splitlines() if line.startswith('file')]), (0, ['2', '3', '4', '5']))
        self.assertEqual(told.count('set-up'), 1, 'what stays is told once')

    def test_follow_ends_with_its_line(self):
        self.begun()
        follow = self.begin(self.live.name, *HISTORY, '7', '--follow', '--every', '20')
        until(lambda: len(self.values()) == 3)
        self.live.end()
        self.assertEqual(follow.wait(10), LINE)
