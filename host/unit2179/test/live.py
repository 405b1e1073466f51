"""A live unit in a process of its own, for tests."""
import fcntl
import os
import select
import shutil
import signal
import subprocess
import sys
import tempfile
import termios
import time
import tty
import unittest

HERE = os.path.dirname(os.path.abspath(__file__))
ROOT = os.path.dirname(os.path.dirname(os.path.dirname(HERE)))
SAMPLE = os.path.join(ROOT, 'samples', 'unit2179.conf')
RUN = os.environ['UNIT2179'].split()
SLOW = os.environ['UNIT2179_FAULTS'].split()  # the same with test/faults.c beside it
MEMORY = '/dev/shm'  # a kill loses nothing that was written, so no test need wait for a busy disk
UNIT, A, B = 1234, 1, 2

sys.path.insert(0, os.path.dirname(HERE))
from wire import Wire  # noqa: E402
from frames import frame  # noqa: E402, F401


DAY = 24 * 60 * 60 * 1000


def ms_of(data):
    """A time as requests and replies have it, in milliseconds since the year began."""
    bcd = [10 * (c >> 4) + c % 16 for c in data]
    return ((((100 * data[0] + bcd[1] - 1) * 24 + bcd[2]) * 60 + bcd[3]) * 60 + bcd[4]) * 1000 + 256 * data[5] + data[6]


def time_of(ms):
    """The seven characters of a time; day 1 follows day 366."""
    days, seconds = ms // DAY % 366 + 1, ms // 1000
    two = [days % 100, seconds // 3600 % 24, seconds // 60 % 60, seconds % 60]
    return bytes([days // 100, *(16 * (n // 10) + n % 10 for n in two), ms % 1000 // 256, ms % 1000 % 256])


def until(found, seconds=10):
    """Waits for what `found` answers, which must come within some seconds."""
    end = time.monotonic() + seconds
    while time.monotonic() < end:
        answer = found()
        if answer:
            return answer
        time.sleep(0.002)
    raise AssertionError('what was waited for did not come')


class Unit:
    """A unit that has begun to serve; its log is file `log` of the folder, or another."""

    def __init__(self, folder, *options, run=RUN, faults=None, log='log'):
        self.log_path = os.path.join(folder, log)
        self.errors_path = os.path.join(folder, 'errors')
        with open(self.errors_path, 'a') as errors:
            self.process = subprocess.Popen([*run, '--log', self.log_path, *options], cwd=folder, stdin=subprocess.DEVNULL,
                                            stdout=subprocess.PIPE, stderr=errors, env={**os.environ, 'FAULTS': faults or ''})
        self.told = self.line()
        self.name = self.told.rpartition(' ')[2]

    def line(self, seconds=10):
        """The next line of standard output."""
        if not select.select([self.process.stdout], [], [], seconds)[0]:
            raise AssertionError('the unit says nothing')
        return self.process.stdout.readline().decode().rstrip('\n')

    def log(self, kind=''):
        """The log's whole lines, each as its fields but for the time when it was written."""
        with open(self.log_path) as log:
            lines = log.read().split('\n')[:-1]
        return [line.split('\t')[:-1] for line in lines if line.startswith(kind)]

    def errors(self):
        with open(self.errors_path) as errors:
            return errors.read()

    def end(self, how=signal.SIGTERM):
        if self.process.poll() is None:
            self.process.send_signal(how)
        status = self.process.wait(10)
        self.process.stdout.close()
        return status


class LiveTest(unittest.TestCase):
    """A folder, and units and wires that end with the test."""

    def setUp(self):
        self.folder = tempfile.mkdtemp(prefix='unit2179-', dir=MEMORY if os.access(MEMORY, os.W_OK) else None)
        self.addCleanup(shutil.rmtree, self.folder)
        self.held = []  # devices that are open here

    def path(self, name):
        return os.path.join(self.folder, name)

    def write(self, name, text):
        with open(self.path(name), 'w') as file:
            file.write(text)
        return self.path(name)

    def unit(self, *options, **how):
        """A unit that may take its time: tests run on loaded machines and under an emulator."""
        if '--reply-within' not in options:
            options = (*options, '--reply-within', '10000')
        return self.unit_as_is(*options, **how)

    def unit_as_is(self, *options, **how):
        for device in self.held:  # a unit that was killed leaves its device to itself, since it stays open here
            fcntl.ioctl(device, termios.TIOCNXCL)
        unit = Unit(self.folder, *options, **how)
        self.addCleanup(unit.end, signal.SIGKILL)
        return unit

    def slow_unit(self, *options, **how):
        """A unit on a disk that `disk` makes slow, full or broken."""
        return self.unit_as_is(*options, run=SLOW, faults=self.path('faults'), **how)

    def disk(self, *faults):
        """What the disk is like from now on; test/faults.c has the words."""
        self.write('faults.next', ''.join(line + '\n' for line in faults))
        os.rename(self.path('faults.next'), self.path('faults'))

    def wire(self, place):
        wire = Wire(place)
        self.addCleanup(wire.close)
        return wire

    def pair(self):
        """A pseudo-terminal pair that outlives units: the masters' end, and the name of the unit's."""
        masters, units = os.openpty()
        tty.setraw(units)
        self.addCleanup(os.close, masters)
        self.addCleanup(os.close, units)
        self.held.append(units)
        return self.wire(masters), os.ttyname(units)

    def tell(self, fifo, *lines):
        with open(self.path(fifo), 'w') as file:
            file.write(''.join(line + '\n' for line in lines))

    def refused(self, *options):
        """Runs a unit that does not begin. Answers its exit status and what it said."""
        done = subprocess.run([*RUN, *options], cwd=self.folder, stdin=subprocess.DEVNULL, capture_output=True, text=True, timeout=10)
        return done.returncode, done.stderr
