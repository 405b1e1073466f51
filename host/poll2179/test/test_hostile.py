"""Peers that are no unit, or a bad one: nothing is believed that should not be, every command ends, and in bounded time."""
import os
import random
import time

from polled import LINE, NOP, NORMAL, PATIENT, QUICK, RST, SILENT, PollTest, reply
from live import until

TIME = bytes([0x03, 0x66, 0x23, 0x59, 0x58, 0x03, 0xE7])
TOLD = 'day 366, 23:59:58.999\nthe unit asks for set-up\n'
RECORD = bytes([17, 0, 0x01, 0, 0, 0])


def each(answer):
    """Serves each request by what `answer` makes of it, a list of stretches with pauses between."""
    def serve(connection):
        while request := connection.recv(200):
            for part in answer(request):
                if isinstance(part, float):
                    time.sleep(part)
                else:
                    connection.sendall(part)
    return serve


class Hostile(PollTest):
    def ask(self, answer, *words, status=SILENT):
        """What a command prints that such a peer answers."""
        return self.poll(self.peer(each(answer)), *(QUICK if status == SILENT else PATIENT), *(words or ('time',)), status=status)

    def test_replies_that_cannot_be_believed(self):
        other = (1 << 11 | 77).to_bytes(2, 'little')
        for answer, doubt in ((lambda q: [b'?'], 'is not whole'), (lambda q: [reply(q, TIME)[:-1]], 'is not whole'), (lambda q: [q], 'is not whole'),
                              (lambda q: [reply(q, TIME)[:-1] + b'\0'], 'has wrong check characters'),
                              (lambda q: [reply(other + q[2:], TIME)], 'has another address'),
                              (lambda q: [reply(q[:2] + b'\0' + q[3:], TIME)], 'is to another function'),
                              (lambda q: [reply(q, TIME, 0xC0)], 'is to another function'),
                              (lambda q: [reply(q, TIME[:-1])], 'has data that no unit could send'),
                              (lambda q: [reply(q, b'\x03\x67' + TIME[2:])], 'has data that no unit could send'),
                              (lambda q: [reply(q, b'', 0x40)], 'has data that no unit could send')):
            with self.subTest(doubt=doubt):
                self.assertEqual(self.ask(answer), f'no answer that can be believed: what came {doubt}\n')
        self.assertEqual(self.ask(lambda q: [reply(q, TIME[:-1])], 'time', '--json'), '{"answer":"doubted","refusal":5}\n')

    def test_noise_before_a_reply_and_characters_one_by_one(self):
        chance = random.Random(2179)
        self.assertEqual(self.ask(lambda q: [chance.randbytes(5), 0.3, reply(q, TIME)], 'time', '--gap', '20', status=NORMAL), TOLD)
        parts = lambda q: [part for char in reply(q, TIME) for part in (bytes([char]), 0.002)]  # noqa: E731
        self.assertEqual(self.ask(parts, 'time', '--gap', '2000', status=NORMAL), TOLD)
        self.assertEqual(self.ask(lambda q: [reply(q, TIME) * 3], status=NORMAL), TOLD)

    def test_a_flood_ends(self):
        def flood(connection):
            while True:
                connection.sendall(b'U' * 4096)
        for words in (['time'], ['time', '--retries', '3']):
            began = time.monotonic()
            done = self.run_poll(self.peer(flood), *QUICK, *words)
            self.assertIn((done.returncode, done.stdout), ((LINE, ''), (SILENT, 'no answer that can be believed: what came is not whole\n')))
            self.assertLess(time.monotonic() - began, 10)

    def test_one_that_closes(self):
        self.assertIn('the line has ended', self.refused(self.peer(lambda c: None), *QUICK, 'time', status=LINE))

        def middle(connection):
            connection.sendall(reply(connection.recv(200), TIME)[:9])
        self.assertIn('the line has ended', self.refused(self.peer(middle), *QUICK, 'time', status=LINE))

    def test_one_that_answers_late_is_not_waited_for(self):
        self.assertEqual(self.ask(lambda q: [0.4, reply(q, TIME)]), 'no answer\n')

    def test_answers_by_their_exit_status(self):
        self.assertEqual(self.ask(lambda q: [reply(q, b'', 0x40)], 'table', '5', status=NOP).split(':')[0], 'NOP')
        self.assertEqual(self.ask(lambda q: [reply(q, b'', 0x80)], 'table', '5', status=RST).split(':')[0], 'RST')
        self.assertEqual(self.ask(lambda q: [reply(q, b'', 0x80)], 'write', '3', '0', '1', status=RST).split(':')[0], 'RST')
        self.assertEqual(self.ask(lambda q: [reply(q)], 'write', '3', '0', '1'), 'no answer that can be believed: what came has data that no unit could send\n')

    def test_the_longest_reply(self):
        data = bytes([13]) + b''.join(RECORD + bytes([n % 251 for n in range(32)]) for _ in range(13))
        told = self.ask(lambda q: [reply(q, data)], 'history', '31', '--dump', '--state', 'master', status=NORMAL)
        self.assertEqual((len(data), told.count('file 31: event 17, day 1, 00:00:00, values 256 770 ')), (495, 13))
        self.assertEqual(len(self.records()), 13)


class Late(PollTest):
    """A reply to a master that was killed comes to the one that takes its place, just when that has begun to ask."""

    def test_a_reply_from_before_is_not_taken_for_the_answer(self):
        wire, name = self.pair()
        self.poll(name, *QUICK, '--state', 'master', 'history', '7', status=SILENT)
        before = os.read(wire.file, 200)

        def serve(connection):
            value = 5
            time.sleep(0.03)
            connection.sendall(reply(before, b'\x01' + RECORD + bytes([value, 0])))
            while request := connection.recv(200):
                value += request[3] >> 6  # one more record for each that is acknowledged
                time.sleep(0.02)
                connection.sendall(reply(request, b'\x01' + RECORD + bytes([value % 256, 0])))
        follow = self.begin(self.peer(serve), *QUICK, '--state', 'master', 'history', '7', '--follow', '--timeout', '400')
        until(lambda: len(self.records()) >= 5)
        follow.terminate()
        self.assertEqual(follow.wait(10), 0)
        self.assertEqual([record[4] for record in self.records()[:5]], ['5', '6', '7', '8', '9'])
