"""Full files: one that keeps the newest drops the oldest record that its master was not just sent, one that keeps the oldest takes none."""
import signal

from live import A, B, UNIT, frame, until
from test_state import KeptTest, image_of, parts_of

WAVES, LOAD, TRIPS = 3, 5, 6  # files: of 16 values a record, of which a reply carries 13; of one, of which it carries all; one that is marked
VALUES = {WAVES: 16, LOAD: 1, TRIPS: 1}
CONFIG = f'unit {UNIT}\ninputs 30h\nfile {WAVES} 16 newest\nfile {LOAD} 1 newest\nfile {TRIPS} 1 oldest\n'
ONE, DUMP, AGAIN = 0x40, 0x60, 0x20


class NewestTest(KeptTest):
    def setUp(self):
        super().setUp()
        self.config = self.write('conf', CONFIG)

    def store(self, unit, file, values):
        """Stores records. Answers the outcomes, and the numbers dropped that the log has of them."""
        before = len(unit.log('E')), len(unit.log('D'))
        self.tell('events', *(f'record {file} 1' + f' {value}' * VALUES[file] for value in values))
        told = until(lambda: len(unit.log('E')) == before[0] + len(values) and unit.log('E')[before[0]:])
        drops = unit.log('D')[before[1]:]
        self.assertTrue(all(line[1] == str(file) for line in drops))
        return [int(line[-1]) for line in told], [int(line[2]) for line in drops]

    def history(self, wire, master, command, file):
        """Whether more are held, and the first value of each record that the reply carries; None for a NOP."""
        reply = wire.ask(frame(master, UNIT, 0x04, command | file))
        if reply.function & 0xC0:
            return None
        size = 6 + 2 * VALUES[file]
        records = [reply.data[at:at + size] for at in range(1, len(reply.data), size)]
        return reply.data[0] >> 7, [int.from_bytes(record[6:8], 'little') for record in records]


class Drops(NewestTest):
    def test_the_oldest_makes_room_and_is_logged(self):
        unit, wire = self.begin()
        self.assertEqual(self.store(unit, LOAD, range(1, 33)), ([0] * 32, []))
        self.assertEqual(wire.ask(frame(A, UNIT, 0x00, 0x41)).status & 8, 0)
        self.assertEqual(self.store(unit, LOAD, (33, 34, 35)), ([0, 0, 0], [1, 2, 3]))
        self.assertEqual(wire.ask(frame(A, UNIT, 0x00, 0x41)).status & 8, 8, 'the error bit tells it')
        self.assertEqual(self.history(wire, A, DUMP, LOAD), (0, list(range(4, 36))))
        self.assertNotIn('full', unit.errors())

    def test_a_marked_file_takes_none(self):
        unit, wire = self.begin()
        self.assertEqual(self.store(unit, TRIPS, range(1, 35)), ([0] * 32 + [1, 1], []))
        self.assertEqual(self.history(wire, A, DUMP, TRIPS), (0, list(range(1, 33))))

    def test_the_number_stays_at_the_most_that_it_can_be(self):
        unit, _ = self.begin()
        self.store(unit, LOAD, range(1, 33))
        unit.end()
        parts = dict(parts_of(self.state()))
        parts['dropped'] = (0xFFFE).to_bytes(2, 'little').rjust(2 * LOAD + 2, b'\0').ljust(64, b'\0')
        self.put_state(image_of(parts.items()))
        unit, _ = self.begin()
        self.assertEqual(self.store(unit, LOAD, (33, 34, 35)), ([0, 0, 0], [65534 + 1, 65535, 65535]), 'and a drop is logged all the same')
        unit.end()
        unit, wire = self.begin()
        self.assertIn(f'records that file {LOAD} has dropped: 65535 or more\n', unit.errors())
        self.assertEqual(self.history(wire, A, DUMP, LOAD), (0, list(range(4, 36))))

    def test_none_is_taken_while_all_are_in_the_latest_reply(self):
        unit, wire = self.begin()
        self.store(unit, LOAD, range(1, 33))
        self.assertEqual(self.history(wire, A, DUMP, LOAD), (0, list(range(1, 33))))
        self.assertEqual(self.store(unit, LOAD, (33,)), ([1], []))
        until(lambda: 'the file is full' in unit.errors())
        self.assertEqual(self.history(wire, B, ONE, LOAD), (1, [1]), 'another master\'s reply takes its place, of one record')
        self.assertEqual(self.store(unit, LOAD, (34,)), ([0], [1]))
        self.assertEqual(self.history(wire, B, ONE, TRIPS), (0, []), 'which it releases by its next; and one of another file protects none')
        self.assertEqual(self.store(unit, LOAD, (35, 36)), ([0, 0], [2]))
        self.assertEqual(self.history(wire, A, DUMP, LOAD), (0, [*range(4, 33), 34, 35, 36]), 'the second and third were dropped')


class Story(NewestTest):
    def test_a_master_that_is_cut_off_in_a_dump_misses_only_what_was_behind_it(self):
        unit, wire = self.begin()
        self.store(unit, WAVES, range(1, 33))
        wire.send(frame(A, UNIT, 0x04, DUMP | WAVES))
        until(lambda: unit.log('R'))
        wire.drain()  # the reply is lost, and nothing more comes from the master for a while
        self.assertEqual(self.store(unit, WAVES, range(33, 38)), ([0] * 5, [1, 2, 3, 4, 5]))
        unit.end(signal.SIGKILL)
        unit, wire = self.begin()
        self.assertIn('records that file 3 has dropped: 5\n', unit.errors())
        self.assertEqual(self.store(unit, WAVES, (38,)), ([0], [6]))
        got = [self.history(wire, A, AGAIN, WAVES)]
        self.assertEqual(got, [(1, list(range(1, 14)))], 'what it was sent is all there, and is sent once more')
        while got[-1][1]:
            got.append(self.history(wire, A, DUMP, WAVES))
        self.assertEqual([flag for flag, _ in got], [1, 1, 0, 0])
        received = [value for _, values in got for value in values]
        self.assertEqual(received, [*range(1, 14), *range(20, 39)], 'then the newest, in order')
        self.assertEqual(unit.end(), 0)
        unit, wire = self.begin()
        self.assertIn('records that file 3 has dropped: 6\n', unit.errors().rpartition('goes on')[2], 'as many as are missing')


class Marks(NewestTest):
    def test_what_a_file_keeps_may_change_and_nothing_kept_is_given_up(self):
        unit, wire = self.begin()
        self.store(unit, LOAD, range(1, 35))
        unit.end(signal.SIGKILL)
        self.write('conf', CONFIG.replace(f'{LOAD} 1 newest', f'{LOAD} 1 oldest'))
        unit, wire = self.begin()
        self.assertIn(f'file {LOAD} keeps the oldest from now on', unit.errors())
        self.assertEqual(self.store(unit, LOAD, (35,)), ([1], []))
        unit.end(signal.SIGKILL)
        self.write('conf', CONFIG)
        unit, wire = self.begin()
        self.assertIn(f'file {LOAD} keeps the newest from now on', unit.errors())
        self.assertEqual(self.store(unit, LOAD, (36,)), ([0], [3]), 'its number goes on')
        self.assertEqual(self.history(wire, A, DUMP, LOAD), (0, [*range(4, 35), 36]))

    def test_the_same_marks_are_not_told(self):
        self.begin()[0].end()
        self.assertNotIn('from now on', self.begin()[0].errors())

    def test_a_state_that_does_not_say_is_of_files_that_kept_the_oldest(self):
        self.begin()[0].end()
        self.put_state(image_of([part for part in parts_of(self.state()) if part[0] != 'config.oldest']))
        told = [line for line in self.begin()[0].errors().splitlines() if 'from now on' in line]
        self.assertEqual(told, [f'state: file {file} keeps the newest from now on' for file in (WAVES, LOAD)])
