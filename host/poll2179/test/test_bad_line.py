"""History over a line that loses, cuts and changes, with both ends killed at random: what is on the master's disk at the end is what was
stored, once and in order. SEED and SECONDS in the environment make another run, and a longer one."""
import os
import random
import signal
import time

from polled import PollTest
from proxy import Proxy
from live import SAMPLE, until

TRIPS = 2  # a file of three values a record that keeps the oldest
SEED, SECONDS = int(os.environ.get('SEED', 2179)), float(os.environ.get('SECONDS', 12))
DAMAGED, KILLED = 0.25, 0.04  # of the stretches, and of the moments behind a record


class BadLine(PollTest):
    def setUp(self):
        super().setUp()
        self.chance = random.Random(SEED)
        wire, name = self.pair()
        self.proxy = Proxy(wire.file, SEED, DAMAGED)
        self.addCleanup(self.proxy.end)
        self.unit_options = ['--config', SAMPLE, '--state', 'state', '--events', 'events', '--serial', name, '--gap', '5']
        self.poll_options = ['history', str(TRIPS), '--follow', '--every', '20', '--state', 'master']
        self.kills = {'master': 0, 'unit': 0}
        self.begin_unit()
        self.begin_master()

    def begin_unit(self):
        self.live = self.unit_as_is(*self.unit_options)

    def begin_master(self):
        dump = ['--dump'] if self.chance.random() < 0.7 else []
        self.master = self.begin(self.proxy.place, *self.poll_options, *dump)

    def kill_one(self):
        if self.chance.random() < 0.5:
            self.kills['master'] += 1
            self.master.kill()
            self.master.wait()
            self.begin_master()
        else:
            self.kills['unit'] += 1
            self.live.end(signal.SIGKILL)
            self.begin_unit()

    def stored(self):
        """The values that the unit has told as stored, in order."""
        return [fields[4] for fields in self.live.log('E') if fields[1:3] == ['record', str(TRIPS)] and fields[-1] == '0']

    def test_nothing_is_lost(self):
        end, value = time.monotonic() + SECONDS, 0
        while time.monotonic() < end:
            value += 1
            self.tell('events', f'record {TRIPS} 17 {value} 0 0')
            time.sleep(self.chance.random() * 0.1)
            if self.chance.random() < KILLED:
                self.kill_one()
        self.proxy.rate = 0
        until(lambda: len(self.records()) >= len(self.stored()), 30)
        time.sleep(0.2)
        self.master.terminate()
        self.assertEqual(self.master.wait(10), 0)
        stored = self.stored()
        self.assertEqual([record[4] for record in self.records()], stored)
        self.assertGreater(len(stored), 50)
        self.assertGreater(self.proxy.seen['damaged'], 10)
        self.assertGreater(min(self.kills.values()), 0)
        if 'SECONDS' in os.environ:
            print(f'{len(stored)} records, {self.proxy.seen}, killed {self.kills}')
