"""poll2179 beside a live unit, or beside a peer that is none, for tests."""
import os
import socket
import subprocess
import sys
import threading

HERE = os.path.dirname(os.path.abspath(__file__))
sys.path.append(os.path.join(os.path.dirname(os.path.dirname(HERE)), 'unit2179', 'test'))
from live import UNIT, LiveTest  # noqa: E402
from frames import checked  # noqa: E402

POLL = os.environ['POLL2179'].split()
POLL_FAULTS = os.environ['POLL2179_FAULTS'].split()  # the same beside a disk that `disk` makes full or broken
NORMAL, FILES, USAGE, NOP, RST, SILENT, LINE = range(7)
SLOW = ['--reply-within', '600']  # unit and master on a loaded machine
QUICK = ['--reply-within', '20', '--gap', '20', '--baud', '115200', '--retries', '0']  # where no answer is to be expected
PATIENT = ['--reply-within', '3000', '--retries', '0']  # where one is, whatever else the machine does


def reply(request, data=b'', flags=0):
    """What a fresh unit answers to a request, with such data."""
    return checked(request[:2] + bytes([request[2] | flags, 0x80, 0x54]) + len(data).to_bytes(2, 'little') + data)


class PollTest(LiveTest):
    """Units and wires as there, and a master by hand."""

    def run_poll(self, place, *words, unit=UNIT, stdout=subprocess.PIPE, run=POLL, **how):
        return subprocess.run([*run, '--line', place, '--unit', str(unit), *words], cwd=self.folder, stdin=subprocess.DEVNULL, stdout=stdout,
                              stderr=subprocess.PIPE, text=True, timeout=60, **how)

    def poll(self, place, *words, status=NORMAL, **how):
        """What a command prints; its exit status must be this."""
        done = self.run_poll(place, *words, **how)
        self.assertEqual(done.returncode, status, f'{words}: {done.stdout}{done.stderr}')
        return done.stdout

    def refused(self, place, *words, status=FILES, **how):
        """What a command that does not go out says."""
        done = self.run_poll(place, *words, **how)
        self.assertEqual((done.returncode, done.stdout), (status, ''), f'{words}: {done.stderr}')
        return done.stderr

    def begin(self, place, *words, stdout=subprocess.DEVNULL):
        """A command that goes on."""
        process = subprocess.Popen([*POLL, '--line', place, '--unit', str(UNIT), *words], cwd=self.folder, stdin=subprocess.DEVNULL,
                                   stdout=stdout, stderr=subprocess.DEVNULL)
        self.addCleanup(process.wait)
        self.addCleanup(process.kill)
        return process

    def records(self, state='master'):
        """The records kept, each as the fields of its line."""
        with open(self.path(state + '.records')) as file:
            return [line.rstrip('\n').split('\t') for line in file]

    def peer(self, serve):
        """A port that answers a connection by `serve`, which is given it; where it listens."""
        listener = socket.create_server(('127.0.0.1', 0))

        def run():
            connection = listener.accept()[0]
            connection.setsockopt(socket.IPPROTO_TCP, socket.TCP_NODELAY, 1)
            with connection:
                try:
                    serve(connection)
                except OSError:
                    pass  # the master has gone
        thread = threading.Thread(target=run, daemon=True)
        thread.start()
        self.addCleanup(listener.close)
        self.addCleanup(thread.join, 10)
        return '127.0.0.1:%d' % listener.getsockname()[1]
