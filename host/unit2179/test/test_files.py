"""Files, devices and standard descriptors that are not as they should be: told, and nothing is written where it does not belong."""
import errno
import fcntl
import os
import resource
import signal
import subprocess
import termios
import time

from live import A, RUN, SAMPLE, UNIT, LiveTest, frame, until

SELECT, OPERATE, SCAN = frame(A, UNIT, 0x10, 0x11, b'\5'), frame(A, UNIT, 0x10, 0x20), frame(A, UNIT, 0x00, 0x01)
SET_TIME = frame(A, UNIT, 0x20, 0x38, bytes([3, 0x66, 0x23, 0, 0, 0, 0]))


class Standard(LiveTest):
    def begin(self, *options, **how):
        """A unit on a pair of ours, and its errors in a file."""
        wire, name = self.pair()
        with open(self.path('errors'), 'w') as errors:
            process = subprocess.Popen([*RUN, '--config', SAMPLE, '--serial', name, '--reply-within', '10000', *options], cwd=self.folder,
                                       **{'stdin': subprocess.DEVNULL, 'stderr': errors, **how})
        self.addCleanup(process.wait)
        self.addCleanup(process.kill)
        until(lambda: wire.ask(SCAN, 0.5), 20)
        return process, wire

    def unacted(self, process, wire):
        """An operate that is not answered, since nobody can be told of the action."""
        self.assertTrue(wire.ask(SELECT))
        self.assertIsNone(wire.ask(OPERATE, 2))
        self.assertEqual(process.wait(10), 6)

    def test_an_action_that_cannot_be_told_is_not_answered_as_done(self):
        reader, writer = os.pipe()
        process, wire = self.begin(stdout=writer)
        os.close(writer)
        os.close(reader)
        self.unacted(process, wire)
        with open(self.path('errors')) as errors:
            self.assertIn('an action of output 05h cannot be told', errors.read())

    def test_nor_where_standard_output_is_full(self):
        reader, writer = os.pipe()
        self.addCleanup(os.close, reader)
        fcntl.fcntl(writer, fcntl.F_SETPIPE_SZ, 4096)
        process, wire = self.begin(stdout=writer)
        os.set_blocking(writer, False)
        try:
            while True:
                os.write(writer, b'x')
        except BlockingIOError:
            os.set_blocking(writer, True)
            os.close(writer)
        self.unacted(process, wire)

    def test_closed_descriptors_put_no_text_on_the_line_or_into_a_file(self):
        def close():
            for file in (0, 1, 2):
                os.close(file)

        process, wire = self.begin('--state', 'state', '--events', 'events', '--log', 'log', preexec_fn=close, stdin=None, stderr=None)
        wire.drain()
        self.tell('events', *['wrong'] * 5)
        wire.send(b'damage')
        time.sleep(0.5)
        self.assertTrue(wire.ask(SCAN))
        self.assertEqual(os.path.getsize(self.path('state.lock')), 0)
        for name in os.listdir(self.folder):
            if name not in ('events', 'log'):
                with open(self.path(name), 'rb') as file:
                    self.assertNotIn(b'wrong', file.read(), name)
        self.unacted(process, wire)

    def test_a_limit_of_a_files_size_is_an_error_and_no_death(self):
        def limit():
            resource.setrlimit(resource.RLIMIT_FSIZE, (20000, 20000))

        done = subprocess.run([*RUN, '--state', 'state'], cwd=self.folder, stdin=subprocess.DEVNULL, capture_output=True, text=True, timeout=20,
                              preexec_fn=limit)
        self.assertEqual(done.returncode, 4, done.stderr)
        self.assertIn(os.strerror(errno.EFBIG), done.stderr)

    def test_nor_while_it_serves(self):
        process, wire = self.begin('--state', 'state', stdout=subprocess.DEVNULL)
        resource.prlimit(process.pid, resource.RLIMIT_FSIZE, (10, 10))
        self.assertIsNone(wire.ask(SET_TIME, 3))
        self.assertEqual(process.wait(10), 4)

    def test_a_log_that_has_reached_a_limit_stops_nothing(self):
        process, wire = self.begin('--log', 'log', stdout=subprocess.DEVNULL)
        resource.prlimit(process.pid, resource.RLIMIT_FSIZE, (10, 10))
        self.assertEqual([bool(wire.ask(SCAN)) for _ in range(5)], [True] * 5)


class Links(LiveTest):
    """Links in the place of a state and what lies beside it."""

    def setUp(self):
        super().setUp()
        os.mkdir(self.path('elsewhere'))
        self.precious = self.write('precious', 'precious')
        self.options = ('--config', SAMPLE, '--state', 'state')

    def test_a_link_to_a_state_is_followed_and_stays_one(self):
        os.symlink('elsewhere/state', self.path('state'))
        self.assertEqual(self.refused(*self.options)[0], 4, 'a link to nothing')
        unit = self.unit('--config', SAMPLE, '--state', 'elsewhere/state')
        unit.end()
        unit = self.unit(*self.options, '--events', 'events')
        self.tell('events', 'word 30h 7')
        until(lambda: unit.log('E'))
        self.assertIn('another process', self.refused('--config', SAMPLE, '--state', 'elsewhere/state')[1])
        unit.end()
        self.assertTrue(os.path.islink(self.path('state')))
        unit = self.unit('--config', SAMPLE, '--state', 'elsewhere/state')
        self.assertEqual(self.wire(unit.name).ask(SCAN).data, b'\7\0\0\0')

    def test_a_link_beside_it_is_not_followed(self):
        for ending in ('.new', '.lock', '.journal-a', '.journal-b'):
            state = 'for' + ending
            os.symlink('precious', self.path(state + ending))
            if ending == '.new':
                self.unit('--state', state).end()
            else:
                self.assertEqual(self.refused('--state', state)[0], 4, ending)
            with open(self.precious) as file:
                self.assertEqual(file.read(), 'precious', ending)

    def test_what_is_no_plain_file_is_refused(self):
        os.mkfifo(self.path('fifo'))
        for name in ('fifo', 'elsewhere', '/dev/null'):
            self.assertIn('no plain file', self.refused('--config', SAMPLE, '--state', name)[1])


class Devices(LiveTest):
    def test_a_serial_device_is_set_as_asked_for(self):
        for rate, parity, odd in (('300', 'none', 0), ('57600', 'even', 0), ('115200', 'odd', termios.PARODD)):
            wire, name = self.pair()
            unit = self.unit('--serial', name, '--baud', rate, '--parity', parity, '--gap', '20')
            _, _, control, _, into, out, _ = termios.tcgetattr(self.held[-1])
            speed = getattr(termios, 'B' + rate)
            # a pseudo-terminal has no parity, and keeps only which one it would be
            self.assertEqual((into, out, control & (termios.CSIZE | termios.PARODD)), (speed, speed, termios.CS8 | odd))
            self.assertTrue(wire.ask(SCAN))
            unit.end()

    def test_a_device_that_keys_no_sender_is_refused(self):
        wire, name = self.pair()
        status, said = self.refused('--serial', name, '--rs485')
        self.assertEqual((status, 'RS-485' in said), (5, True))

    def test_a_serial_device_is_taken_alone(self):
        wire, name = self.pair()
        unit = self.unit('--serial', name)
        status, said = self.refused('--serial', name)
        self.assertEqual(status, 5)
        self.assertIn('another program has it', said)
        self.assertTrue(wire.ask(SCAN))
        unit.end(signal.SIGKILL)
        self.assertTrue(self.unit('--serial', name))

    def test_others_cannot_open_it(self):
        wire, name = self.pair()
        self.unit('--serial', name)
        held = os.open(name, os.O_RDWR | os.O_NOCTTY) if os.geteuid() == 0 else None  # root may, all the same
        if held is None:
            self.assertRaises(OSError, os.open, name, os.O_RDWR | os.O_NOCTTY)
            return
        self.addCleanup(os.close, held)
        exclusive = bytearray(4)
        fcntl.ioctl(held, 0x80045440, exclusive)  # TIOCGEXCL
        fcntl.ioctl(held, termios.TIOCNXCL)
        self.assertEqual(int.from_bytes(exclusive, 'little'), 1)
