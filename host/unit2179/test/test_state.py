"""The kept state: read back after any end, refused where it cannot be true."""
import gzip
import os
import random
import signal

from live import A, HERE, SAMPLE, UNIT, LiveTest, frame, until

SELECT, OPERATE = frame(A, UNIT, 0x10, 0x10, b'\5'), frame(A, UNIT, 0x10, 0x20)
WRITE, EXECUTE = frame(A, UNIT, 0x20, 0x30, b'\0\0\6'), frame(A, UNIT, 0x20, 0x31, b'block')
READ = frame(A, UNIT, 0x28, 0x30, bytes([0, 0, 6, 5]))
SCAN = frame(A, UNIT, 0x00, 0x01)


def fnv(chars, begun=0):
    check = 0xCBF29CE484222325 ^ begun
    for c in chars:
        check = (check ^ c) * 0x100000001B3 % 2**64
    return check.to_bytes(8, 'little')


TITLE, NAME, CHECK = 14, 24, 8


def parts_of(image):
    """The named parts of a state file, in their order."""
    found, at = [], TITLE
    while at < len(image) - CHECK:
        name, many = image[at:at + NAME].rstrip(b'\0').decode(), int.from_bytes(image[at + NAME:at + NAME + 4], 'little')
        at += NAME + 4 + many
        found.append((name, image[at - many:at]))
    return found


def image_of(parts, version=8):
    """A state file of parts, with the length and the check that it should have."""
    body = b''.join(name.encode().ljust(NAME, b'\0') + len(chars).to_bytes(4, 'little') + chars for name, chars in parts)
    image = b'unit2179' + version.to_bytes(2, 'little') + (TITLE + len(body) + CHECK).to_bytes(4, 'little') + body
    return image + fnv(image)


class KeptTest(LiveTest):
    config = SAMPLE

    def begin(self, *options):
        unit = self.unit('--config', self.config, '--state', 'state', '--events', 'events', *options)
        return unit, self.wire(unit.name)

    def state(self):
        with open(self.path('state'), 'rb') as file:
            return file.read()

    def put_state(self, chars):
        with open(self.path('state'), 'wb') as file:
            file.write(chars)

    def refused_for(self, wrong, why):
        self.put_state(wrong)
        status, said = self.refused('--config', self.config, '--state', 'state')
        self.assertEqual((status, said.startswith('state: ')), (4, True), said)
        self.assertIn(why, said)
        self.assertTrue(self.state() == wrong, 'it is left as it is')


class Kept(KeptTest):
    def test_all_of_it_comes_back_after_a_kill(self):
        unit, wire = self.begin()
        self.tell('events', 'word 30h 1234h', 'record 2 9 1 2 3')
        until(lambda: len(unit.log('E')) == 2)
        wire.send(WRITE)
        until(lambda: unit.log('R'))
        self.assertEqual(wire.ask(EXECUTE).function, 0x20)
        unit.end(signal.SIGKILL)
        unit, wire = self.begin()
        self.assertIn('the kept state goes on', unit.errors())
        self.assertEqual(wire.ask(SCAN).data[:2], b'\x34\x12')
        self.assertEqual(wire.ask(READ).data, b'block')
        self.assertEqual(wire.ask(frame(A, UNIT, 0x04, 0x42)).data[0], 1)

    def test_an_end_in_order_keeps_the_clock(self):
        unit, wire = self.begin()
        self.assertEqual(wire.ask(frame(A, UNIT, 0x20, 0x38, bytes([3, 0x66, 0x23, 0, 0, 0, 0]))).function, 0x20)
        self.assertEqual(unit.end(signal.SIGINT), 0)
        unit, wire = self.begin()
        self.assertEqual(wire.ask(frame(A, UNIT, 0x28, 0x31)).data[:4], bytes([3, 0x66, 0x23, 0]))

    def test_neither_a_select_nor_a_write_outlives_the_process(self):
        unit, wire = self.begin()
        self.assertEqual(wire.ask(SELECT).data, b'\5')
        unit.end(signal.SIGKILL)
        unit, wire = self.begin()
        self.assertEqual(wire.ask(OPERATE).function, 0x50, 'timed out')
        self.assertEqual(wire.ask(OPERATE).function, 0x90)
        before = len(unit.log('R'))
        wire.send(WRITE)
        until(lambda: len(unit.log('R')) > before)
        unit.end(signal.SIGKILL)
        unit, wire = self.begin()
        self.assertEqual(wire.ask(EXECUTE).function, 0xA0)
        self.assertEqual(unit.log('A'), [])

    def test_a_file_that_cannot_be_true_is_refused_unless_given_up(self):
        self.begin()[0].end()
        good = self.state()
        for wrong, why in ((good[:-1], 'not whole'), (good + b'\0', 'not whole'), (b'', 'not whole'), (good[:500] + b'\1' + good[501:], 'damaged'),
                           (b'U' + good[1:], 'no state file'), (image_of(parts_of(good), 9), 'version 9')):
            with self.subTest(why):
                self.refused_for(wrong, why)
        unit, wire = self.begin('--fresh')
        self.assertEqual(wire.ask(SCAN).data, bytes(4))
        self.assertEqual(len(self.state()), len(good))

    def test_another_configuration_is_refused(self):
        self.begin()[0].end()
        status, said = self.refused('--state', 'state')
        self.assertEqual(status, 4)
        self.assertIn('another configuration', said)

    def test_two_processes_do_not_share_a_state(self):
        unit, wire = self.begin()
        status, said = self.refused('--config', SAMPLE, '--state', 'state')
        self.assertEqual(status, 4)
        self.assertIn('another process', said)
        self.assertTrue(wire.ask(SCAN))

    def test_the_file_is_replaced_and_never_written_over(self):
        unit, wire = self.begin()
        before = self.state()
        with open(self.path('state'), 'rb') as old:
            self.assertTrue(wire.ask(SELECT))
            unit.end()
            self.assertEqual(old.read(), before)
        self.assertTrue(self.state() != before)
        self.assertFalse(os.path.exists(self.path('state.new')))

    def test_a_half_written_file_is_no_hindrance(self):
        unit, wire = self.begin()
        self.assertTrue(wire.ask(SCAN))
        unit.end(signal.SIGKILL)
        with open(self.path('state.new'), 'wb') as file:
            file.write(self.state()[:100])
        unit, wire = self.begin()
        self.assertTrue(wire.ask(SCAN))


class Parts(KeptTest):
    """The file has each part by its name."""

    def kept(self):
        unit, wire = self.begin()
        self.tell('events', 'word 30h 1234h', 'record 2 9 1 2 3')
        until(lambda: len(unit.log('E')) == 2)
        unit.end()
        return parts_of(self.state())

    def test_they_are_named_and_a_file_of_them_in_any_order_is_read(self):
        parts = self.kept()
        self.assertTrue(image_of(parts) == self.state())
        self.assertEqual({name for name, _ in parts if name.startswith('config.')},
                         {'config.' + name for name in ('number', 'length', 'inputs', 'outputs', 'calculations', 'files', 'values', 'oldest',
                                                        'means', 'sampled', 'windows')})
        regions = {'layout', 'numbers', 'words', 'results', 'fixed', 'counts', 'dropped', 'changed', 'taken', 'plans', 'block', 'records'}
        self.assertEqual({name for name, _ in parts if '.' not in name}, regions)
        self.put_state(image_of(reversed(parts)))
        unit, wire = self.begin()
        self.assertEqual(wire.ask(SCAN).data, b'\x34\x12\0\0')
        self.assertEqual(wire.ask(frame(A, UNIT, 0x04, 0x42)).data[0], 1)

    def test_a_missing_one_is_as_a_fresh_unit_has_it(self):
        parts = self.kept()
        self.put_state(image_of([part for part in parts if part[0] != 'words']))
        unit, wire = self.begin()
        self.assertEqual(wire.ask(SCAN).data, bytes(4))
        self.assertEqual(wire.ask(frame(A, UNIT, 0x04, 0x42)).data[0], 1, 'the others are there')
        unit.end()
        self.assertEqual([name for name, _ in parts_of(self.state())], [name for name, _ in parts], 'it is written with all of them')
        self.put_state(image_of([part for part in parts if part[0] != 'numbers']))
        unit, wire = self.begin()
        reply = wire.ask(frame(A, UNIT, 0x28, 0x31))
        self.assertEqual((reply.data[:3], reply.status), (bytes([0, 1, 0]), 0x80), 'day 1, to be configured')
        unit.end()
        for name in ('config.inputs', 'config.number', 'config.values'):
            self.refused_for(image_of([part for part in parts if part[0] != name]), 'another configuration')

    def test_what_no_unit_has_is_refused_by_its_name(self):
        parts = self.kept()
        self.refused_for(image_of([*parts, ('colour', b'\1')]), "'colour'")
        self.refused_for(image_of([*parts, parts[8]]), f"'{parts[8][0]}' twice")
        for place, (name, chars) in enumerate(parts):
            for other in (chars[:-1], chars + b'\0'):
                self.refused_for(image_of([*parts[:place], (name, other), *parts[place + 1:]]), f"'{name}' has not {len(chars)} ")
        cut = image_of(parts)[:-CHECK - 1]
        cut = cut[:10] + (len(cut) + CHECK).to_bytes(4, 'little') + cut[14:]
        self.refused_for(cut + fnv(cut), f"'{parts[-1][0]}' has not")
        self.refused_for(image_of([(name, b'\0\0' + chars[2:] if name == 'numbers' else chars) for name, chars in parts]), 'no unit keeps')
        self.refused_for(image_of([(name, b'\7\0' if name == 'layout' else chars) for name, chars in parts]), 'the layout 7')

    def test_every_flipped_bit_is_refused(self):
        self.kept()
        good, chance = self.state(), random.Random(2179)
        records = good.index(b'records\0') + NAME + 4
        places = [*range(TITLE), *range(len(good) - CHECK, len(good)), *(chance.randrange(records) for _ in range(60)),
                  *(chance.randrange(records, len(good)) for _ in range(20))]
        for place in places:
            wrong = bytearray(good)
            wrong[place] ^= 1 << chance.randrange(8)
            with self.subTest(place):
                self.refused_for(bytes(wrong), 'cannot be used')


class First(KeptTest):
    """A file of version 1, which a unit of the sample's configuration left behind."""

    def setUp(self):
        super().setUp()
        with gzip.open(os.path.join(HERE, 'state-1.gz')) as file:
            self.old = file.read()

    def test_it_is_read_and_kept_as_now(self):
        self.put_state(self.old)
        unit, wire = self.begin()
        self.assertIn('the kept state goes on', unit.errors())
        self.assertEqual(wire.ask(frame(A, UNIT, 0x04, 0x02)).data[:2], bytes([0x81, 9]), 'the latest history reply once more')
        self.assertEqual(wire.ask(frame(A, UNIT, 0x04, 0x62)).data[0], 1, 'the second of two records')
        self.assertEqual(wire.ask(frame(A, UNIT, 0x04, 0x67)).data[-2:], (100).to_bytes(2, 'little'))
        self.assertEqual(wire.ask(frame(A, UNIT, 0x28, 0x31)).data[:4], bytes([3, 0x66, 0x23, 0]))
        self.assertEqual(wire.ask(SCAN).data, b'\x34\x12\0\0')
        self.assertEqual(wire.ask(frame(A, UNIT, 0x00, 0x40)).data[6:], b'\xFF\xFF')
        self.assertEqual(wire.ask(frame(A, UNIT, 0x0A, 0x41)).data, b'\0\0\x34\x12')
        self.assertEqual(wire.ask(frame(A, UNIT, 0x03, 0x00, b'\7')).data, b'\7\x79\xE9\xF6\xC2')
        self.assertEqual(wire.ask(frame(A, UNIT, 0x28, 0x30, bytes([0, 0, 6, 64]))).data, b'block' + bytes(58) + b'!')
        self.assertEqual(wire.ask(frame(A, UNIT, 0x28, 0x30, bytes([0xF0, 0, 0x0B, 16]))).data, bytes(range(16)))
        unit.end()
        self.assertTrue(image_of(parts_of(self.state())) == self.state())

    def test_it_is_refused_where_it_cannot_be_true(self):
        self.refused_for(self.old[:700] + b'\1' + self.old[701:], 'damaged')
        self.refused_for(self.old[:-1], 'not whole')
        for version in (0, 2, 3, 4, 5, 6, 8):
            other = self.old[:8] + bytes([version]) + self.old[9:-CHECK]
            self.refused_for(other + fnv(other), 'cannot be used')
        for many in (len(self.old) - 40, len(self.old) + 40):
            other = (self.old[:10] + many.to_bytes(4, 'little') + self.old[14:-CHECK]).ljust(many - CHECK, b'\0')[:many - CHECK]
            self.refused_for(other + fnv(other), 'cannot be used')
