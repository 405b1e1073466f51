"""Setting the time: the suspension behind the command, and the time of the sync point."""
import os
import select
import time

from polled import QUICK, SILENT, SLOW, PollTest
from live import SAMPLE, ms_of, until
from frames import check

SUSPENSION, DAY = 0.025, 24 * 60 * 60 * 1000
TRIES = 3  # what is measured here is late where the machine has other work, and never early


def since_new_year():
    """The milliseconds of this year in UTC."""
    now = time.time()
    t = time.gmtime(now)
    return (((t.tm_yday - 1) * 24 + t.tm_hour) * 60 + t.tm_min) * 60000 + t.tm_sec * 1000 + int(now % 1 * 1000)


class SetTime(PollTest):
    def heard(self, *words):
        """The characters of a set-time, and when each stretch of them came: seconds of the clock that no one sets, and of the year."""
        wire, name = self.pair()
        process = self.begin(name, *QUICK, 'set-time', *words)
        chars, came = b'', []
        while len(chars) < 15 and select.select([wire.file], [], [], 10)[0]:
            chars += os.read(wire.file, 100)
            came.append((len(chars), time.monotonic(), since_new_year()))
        self.assertEqual(process.wait(10), 0 if '--all' in words else SILENT)
        self.assertEqual((len(chars), check(chars)), (15, 0))
        return chars, came

    def test_it_suspends_behind_the_command(self):
        for words in (['now', '--zone', 'UTC'], ['366', '23:59:59.999'], ['1', '00:00:00', '--all']):
            suspended = []
            for _ in range(TRIES):
                chars, came = self.heard(*words)
                self.assertEqual((chars[2:6], came[0][0] in (4, 15)), (bytes([0x20, 0x38, 7, 0]), True))
                suspended.append(came[-1][1] - came[0][1])
            self.assertGreaterEqual(max(suspended), SUSPENSION)

    def test_now_is_the_time_of_the_sync_point(self):
        late = []
        for _ in range(TRIES):
            chars, came = self.heard('now', '--zone', 'UTC')
            late.append((came[-1][2] - ms_of(chars[6:13])) % (366 * DAY))
        self.assertLess(min(late), 30, 'the header went out 40 ms before')

    def test_a_given_time_is_sent_as_it_is(self):
        self.assertEqual(self.heard('366', '23:59:58.999')[0][:13].hex().upper(), 'D20C203807000366235958' + '03E7')
        self.assertEqual(self.heard('1', '01:02:03', '--all')[0][:13].hex().upper(), 'FF0F203807000001010203' + '0000')

    def test_a_live_unit_has_it(self):
        wire, name = self.pair()
        unit = self.unit_as_is('--config', SAMPLE, '--tcp', '0', *SLOW)
        self.assertEqual(self.poll(unit.name, *SLOW, 'set-time', '366', '23:59:58.999').splitlines()[0], 'the time is set')
        self.assertRegex(self.poll(unit.name, *SLOW, 'time'), r'^day (366, 23:59:5|1, 00:00:0)\d\.\d\d\d\n')
        self.poll(unit.name, *SLOW, 'set-time', 'now', '--zone', 'UTC')
        told = self.poll(unit.name, *SLOW, 'time', '--hex').split('\t')[1]
        self.assertLess((since_new_year() - ms_of(bytes.fromhex(told)[7:14])) % (366 * DAY), 2000)
        until(lambda: [line[2] for line in unit.log('R')] == ['0'] * 4)
