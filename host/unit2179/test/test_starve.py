"""Nobody starves: what one peer, a reader or the system does not do stops no one else, and not the end."""
import fcntl
import os
import resource
import signal
import socket
import subprocess
import threading
import time

from live import B, RUN, SAMPLE, UNIT, LiveTest, frame, until

SCAN = frame(B, UNIT, 0x00, 0x41)
DUMP, AGAIN = frame(9, UNIT, 0x04, 0x62), frame(9, UNIT, 0x04, 0x22)  # all records of file 2: 394 characters when it is full
SMALLEST = 4096  # characters that a pipe holds at least


def answered(wire, many, seconds=2.0):
    return sum(wire.ask(SCAN, seconds) is not None for _ in range(many))


def ends(test, unit):
    began = time.monotonic()
    unit.process.send_signal(signal.SIGTERM)
    test.assertEqual(unit.process.wait(20), 0)
    test.assertLess(time.monotonic() - began, 2.0, 'a second, and one more for a loaded machine')


class Peers(LiveTest):
    def deaf_client(self, name):
        """A connection that is never read, over which little goes at a time, so that it is soon full."""
        client = socket.socket()
        self.addCleanup(client.close)
        client.setsockopt(socket.SOL_SOCKET, socket.SO_RCVBUF, 1024)
        client.setsockopt(socket.IPPROTO_TCP, socket.TCP_MAXSEG, 88)
        address, _, port = name.rpartition(':')
        client.connect((address, int(port)))
        return client

    def flooded(self, unit):
        """Requests of a client that never reads, in a thread beside the test; answers once its connection is full."""
        self.tell('events', *['record 2 1 1 2 3'] * 32)
        until(lambda: len(unit.log('E')) == 32)
        client, done = self.deaf_client(unit.name), threading.Event()
        client.send(DUMP)
        # a unit that is held up would take the next request for the end of this one, and refuse both in a few characters
        until(lambda: unit.log('R'))

        def send():
            while not done.wait(0.02):
                try:
                    client.send(AGAIN, socket.MSG_DONTWAIT)
                except OSError:
                    pass

        sender = threading.Thread(target=send)
        sender.start()
        self.addCleanup(sender.join)
        self.addCleanup(done.set)
        sent = -1
        while sent != self.unread(unit.name):
            sent = self.unread(unit.name)
            time.sleep(1)

    def unread(self, name):
        """How many characters wait to be read at the other end of connections to a port."""
        port = f':{int(name.rpartition(":")[2]):04X}'
        with open('/proc/net/tcp') as table:
            rows = [line.split() for line in table]
        return sum(int(row[4][:8], 16) for row in rows if row[1].endswith(port) and row[3] != '0A')

    def begin_flooded(self):
        unit = self.unit('--tcp', '0', '--config', SAMPLE, '--gap', '5', '--events', 'events')
        other = self.wire(unit.name)
        self.flooded(unit)
        return unit, other

    def test_a_client_that_never_reads_hinders_nobody(self):
        unit, other = self.begin_flooded()
        self.assertEqual(answered(other, 32), 32)
        until(lambda: 'could not be sent' in unit.errors(), 15)
        self.assertEqual(answered(other, 3), 3)

    def test_nor_does_it_hinder_the_end(self):
        ends(self, self.begin_flooded()[0])

    def test_idle_connections_make_room(self):
        unit = self.unit('--tcp', '0')
        idle = [self.wire(unit.name) for _ in range(8)]
        time.sleep(1.2)
        self.assertEqual(answered(self.wire(unit.name), 2), 2)
        self.assertEqual(idle[0].socket.recv(1), b'', 'the oldest has gone')
        self.assertIn('made room', unit.errors())

    def test_a_connection_that_is_quiet_for_long_is_closed(self):
        unit = self.unit('--tcp', '0', '--idle', '1')
        idle, live = self.wire(unit.name), self.wire(unit.name)
        for _ in range(8):
            self.assertEqual(answered(live, 1), 1)
            time.sleep(0.2)
        idle.socket.settimeout(5)
        self.assertEqual(idle.socket.recv(1), b'')
        self.assertIn('was quiet for 1 s', unit.errors())

    def test_dead_peers_are_asked_after(self):
        unit = self.unit('--tcp', '0')
        self.wire(unit.name)
        port = f':{int(unit.name.rpartition(":")[2]):04X}'

        def timers():
            with open('/proc/net/tcp') as table:  # number, local address, remote address, state, queues, timer: 2 is the keepalive timer
                rows = [line.split() for line in table]
            return [row[5][:2] for row in rows if row[1].endswith(port) and row[3] == '01']

        until(lambda: timers() == ['02'])

    def test_a_process_at_its_limit_of_descriptors(self):
        unit = self.unit('--tcp', '0')
        first = self.wire(unit.name)
        self.assertEqual(answered(first, 1), 1)
        pid = unit.process.pid
        most = max(int(name) for name in os.listdir(f'/proc/{pid}/fd'))
        resource.prlimit(pid, resource.RLIMIT_NOFILE, (most + 1, most + 1))
        more = [socket.create_connection(unit.name.split(':')) for _ in range(3)]
        for connection in more:
            self.addCleanup(connection.close)
        before, end = self.worked(pid), time.monotonic() + 2.5
        while time.monotonic() < end:
            self.assertEqual(answered(first, 1), 1)
            time.sleep(0.1)
        self.assertLess(self.worked(pid) - before, 1.0, 'it does not spin')

    def worked(self, pid):
        """Seconds of processor time that a process has had."""
        with open(f'/proc/{pid}/stat') as file:
            fields = file.read().rpartition(')')[2].split()
        return (int(fields[11]) + int(fields[12])) / os.sysconf('SC_CLK_TCK')

    def test_a_newcomer_finds_room_at_the_limit_of_descriptors(self):
        unit = self.unit('--tcp', '0')
        idle = self.wire(unit.name)
        self.assertEqual(answered(idle, 1), 1)
        most = max(int(name) for name in os.listdir(f'/proc/{unit.process.pid}/fd'))
        resource.prlimit(unit.process.pid, resource.RLIMIT_NOFILE, (most + 1, most + 1))
        wire = self.wire(unit.name)
        wire.send(SCAN)
        self.assertTrue(wire.receive(6))


class Local(LiveTest):
    def test_a_flood_of_events_leaves_the_line_its_turns(self):
        unit = self.slow_unit('--config', SAMPLE, '--state', 'state', '--events', 'events', '--reply-within', '10000')
        self.disk('sync 20')
        wire, done = self.wire(unit.name), threading.Event()

        def flood():
            events = os.open(self.path('events'), os.O_WRONLY)
            while not done.is_set():
                try:
                    os.write(events, b'pulse 40h 1\n' * 20)
                except BrokenPipeError:
                    break
            os.close(events)

        writer = threading.Thread(target=flood)
        writer.start()
        self.addCleanup(writer.join)
        self.addCleanup(unit.end, signal.SIGKILL)
        self.addCleanup(done.set)
        until(lambda: unit.log('E'))
        self.assertEqual(answered(wire, 11, 1.0), 11)
        before = len(unit.log('E'))
        until(lambda: len(unit.log('E')) > before + 5)


class Readers(LiveTest):
    """Pipes that nobody reads."""

    def begin(self, *options, stderr=None, stdout=None, **how):
        process = subprocess.Popen([*RUN, '--reply-within', '10000', *options], cwd=self.folder, stdin=subprocess.DEVNULL,
                                   stdout=stdout, stderr=stderr, **how)
        self.addCleanup(process.wait)
        self.addCleanup(process.kill)
        return process

    def full(self):
        """The writing end of a pipe that is all but full."""
        reader, writer = os.pipe()
        self.addCleanup(os.close, reader)
        self.addCleanup(os.close, writer)
        fcntl.fcntl(writer, fcntl.F_SETPIPE_SZ, SMALLEST)
        return reader, writer

    def test_an_unread_log(self):
        reader, writer = self.full()
        wire, name = self.pair()
        with open(self.path('errors'), 'w') as errors:
            self.begin('--serial', name, '--log', '-', stdout=writer, stderr=errors)
        until(lambda: self.unread(reader) > 0)
        self.assertEqual(answered(wire, 150), 150)
        with open(self.path('errors')) as errors:
            self.assertEqual(errors.read().count('cannot be written'), 1)

    def unread(self, reader):
        many = bytearray(4)
        fcntl.ioctl(reader, 0x541B, many)  # FIONREAD
        return int.from_bytes(many, 'little')

    def test_an_unread_log_in_a_fifo_that_has_no_reader(self):
        os.mkfifo(self.path('fifo'))
        wire, name = self.pair()
        self.begin('--serial', name, '--log', 'fifo', stdout=subprocess.DEVNULL, stderr=subprocess.DEVNULL)
        until(lambda: wire.ask(SCAN, 1))
        self.assertEqual(answered(wire, 10), 10)

    def test_unread_complaints(self):
        reader, writer = self.full()
        wire, name = self.pair()
        self.begin('--serial', name, '--events', 'events', stdout=subprocess.DEVNULL, stderr=writer)
        until(lambda: os.path.exists(self.path('events')) and wire.ask(SCAN, 1))
        self.tell('events', *['wrong'] * 300)
        until(lambda: self.unread(reader) > 0)
        self.assertEqual(answered(wire, 30), 30)

    def test_a_log_that_cannot_be_written_is_told_once_and_goes_on_when_it_can(self):
        unit = self.slow_unit('--config', SAMPLE, '--reply-within', '10000')
        wire = self.wire(unit.name)
        self.assertEqual(answered(wire, 2), 2)
        self.disk('fail write 28')
        before = len(unit.log('R'))
        self.assertEqual(answered(wire, 5), 5)
        self.assertEqual(len(unit.log('R')), before)
        self.disk()
        self.assertEqual(answered(wire, 2), 2)
        self.assertEqual(len(unit.log('R')), before + 2)


class End(LiveTest):
    def test_a_slow_disk_does_not_hold_it(self):
        unit = self.slow_unit('--config', SAMPLE, '--state', 'state', '--events', 'events')
        self.disk('sync 10000')
        self.tell('events', 'pulse 40h 1')
        time.sleep(0.3)
        ends(self, unit)
