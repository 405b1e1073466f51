"""State files and journals of versions 2 to 7: there were no scan plans; before 7 there were no means; before 6 of no contact it was known
that it changed; before 5 no file was marked and none dropped a record, and before 4 each had 32 slots of 38 characters."""
import os
import signal

from live import A, SAMPLE, UNIT, frame, until
from test_state import CHECK, KeptTest, fnv, image_of, parts_of

SLOT, ROOM, RECORDS, HEAD, JOURNAL = 38, 32, 38912, 18, 131072
FILES = {0: 16, 1: 1, 7: 3, 8: 1, 31: 2}  # a file's number, and how many values its records have
NEWEST = (0, 7)  # files that the configuration now lets keep the newest
PACKED = sum(ROOM * (6 + 2 * values) for values in FILES.values())
MANY = {0: 32, 1: 32, 7: 0, 8: 5, 31: 31}  # how many records each holds
# the layout of a version, with how many characters of records it has
LAYOUTS = {3: (b'\1\0', RECORDS), 4: (b'\2\0', PACKED), 5: (b'\3\0', PACKED), 6: (b'\4\0', PACKED), 7: (b'\5\0', PACKED)}
# the parts that came with a version
ADDED = {5: ('config.oldest', 'dropped'), 6: ('changed',), 7: ('config.means', 'config.sampled', 'config.windows', 'taken'), 8: ('plans',)}


def size(file):
    return 6 + 2 * FILES[file]


def place(version, file, number):
    """Where a record lies in a file of some version."""
    return (file * ROOM + number) * SLOT if version < 4 else ROOM * sum(size(f) for f in FILES if f < file) + number * size(file)


def record(file, number):
    """A record that no other is like."""
    values = b''.join((256 * file + 100 * number + n).to_bytes(2, 'little') for n in range(FILES[file]))
    return bytes([1 + number, 0, 1, 2, 3, file]) + values


def entry(history, number, changes):
    """An entry of a journal, which stands there twice. A change: part, where in it, the characters."""
    body = b''.join(bytes([part]) + at.to_bytes(2, 'little') + len(chars).to_bytes(2, 'little') + chars for part, at, chars in changes)
    made = b'EN' + (14 + len(body) + CHECK).to_bytes(4, 'little') + number.to_bytes(8, 'little') + body
    return 2 * (made + fnv(made, int.from_bytes(history, 'little')))


class Older(KeptTest):
    version = 3
    wanted = {file: [record(file, i) for i in range(many)] for file, many in MANY.items()}

    def setUp(self):
        super().setUp()
        lines = (f'file {f} {values} {"newest" if f in NEWEST else "oldest"}\n' for f, values in FILES.items())
        self.config = self.write('conf', f'unit {UNIT}\ninputs 30h\n' + ''.join(lines))

    def older(self, **other):
        """The parts of a file of that version of this configuration, with records in it; some of them are others."""
        unit, _ = self.begin('--fresh')
        unit.end()
        layout, many = LAYOUTS[self.version]
        area, counts = bytearray(b'\xEE' * many), bytearray(32)
        for file, many in MANY.items():
            counts[file] = many
            for i in range(many):
                at = place(self.version, file, i)
                area[at:at + size(file)] = record(file, i)
        made = {**dict(parts_of(self.state())), 'layout': layout, 'records': bytes(area), 'counts': bytes(counts), **other}
        unknown = [name for version, names in ADDED.items() if version > self.version for name in names]
        return [(name, chars) for name, chars in made.items() if name not in unknown]

    def put_journals(self, chars):
        for name, held in (('a', chars), ('b', b'')):
            with open(self.path(f'state.journal-{name}'), 'wb') as file:
                file.write((b'unit2179 journal\1\0' + held).ljust(JOURNAL, b'\0'))

    def drained(self, wire, file):
        """All records of a file, oldest first: each dump acknowledges the one before."""
        found, more = [], True
        while more:
            data = wire.ask(frame(A, UNIT, 0x04, 0x60 + file)).data
            found += [data[at:at + size(file)] for at in range(1, len(data), size(file))]
            more = data[0] & 0x80
        return found

    def all_held(self):
        """What a unit comes back with."""
        unit, wire = self.begin()
        self.assertIn('the kept state goes on', unit.errors())
        found = {file: self.drained(wire, file) for file in FILES}
        unit.end(signal.SIGKILL)
        return found

    def kept_as_now(self):
        parts = dict(parts_of(self.state()))
        self.assertTrue(image_of(parts.items()) == self.state())
        self.assertEqual((parts['layout'], len(parts['records']), parts['dropped']), (b'\6\0', PACKED, bytes(64)))
        self.assertEqual((parts['changed'], parts['config.windows'], parts['taken']), (bytes(32), bytes(32), bytes(32)))
        self.assertEqual([f for f in FILES if not parts['config.oldest'][f]], list(NEWEST))


class Brought(Older):
    def test_every_record_comes_out_in_order(self):
        self.put_state(image_of(self.older(), self.version))
        self.assertEqual(self.all_held(), self.wanted)
        self.kept_as_now()

    def test_a_new_record_finds_its_place_behind_them(self):
        self.put_state(image_of(self.older(), self.version))
        unit, wire = self.begin()
        self.tell('events', 'record 8 9 1', 'record 7 9 1 2 3', 'record 1 9 1', 'record 0 9' + ' 5' * 16)
        until(lambda: len(unit.log('E')) == 4)
        unit.end(signal.SIGKILL)
        found = self.all_held()
        self.assertEqual([len(found[f]) for f in FILES], [32, 32, 1, 6, 31])
        self.assertEqual((found[7][0][6:], found[8][:5], found[1]), (b'\1\0\2\0\3\0', self.wanted[8], self.wanted[1]))
        self.assertEqual((found[0][:31], found[0][31][6:]), (self.wanted[0][1:], 16 * b'\5\0'), 'the full file that now keeps the newest')
        self.assertEqual(unit.log('D'), [['D', '0', '1']])

    def test_what_files_keep_from_now_on_is_told(self):
        self.put_state(image_of(self.older(), self.version))
        told = [line for line in self.begin()[0].errors().splitlines() if 'from now on' in line]
        self.assertEqual(told, [f'state: file {file} keeps the newest from now on' for file in NEWEST])

    def test_entries_behind_it_name_places_as_they_were(self):
        parts = self.older()
        names = [name for name, _ in parts]
        history, last = dict(parts)['journal.history'], int.from_bytes(dict(parts)['journal.entry'], 'little')
        counts = names.index('counts')
        changes = [(names.index('records'), place(self.version, 8, 5), record(8, 5)), (counts, 8, b'\6')]
        more = [(names.index('records'), place(self.version, 7, n), record(7, n)) for n in range(2)] + [(counts, 7, b'\2')]
        journal = entry(history, last + 1, changes) + entry(history, last + 2, more)
        self.put_state(image_of(parts, self.version))
        self.put_journals(journal)
        wanted = {**self.wanted, 8: [record(8, i) for i in range(6)], 7: [record(7, 0), record(7, 1)]}
        unit, _ = self.begin()
        unit.end(signal.SIGKILL)
        self.kept_as_now()
        self.put_journals(journal)  # as where the process ended before it emptied them: no entry is taken once more
        self.assertEqual(self.all_held(), wanted)

    def test_an_entry_that_changes_the_configuration_is_refused(self):
        parts = self.older()
        history, last = dict(parts)['journal.history'], int.from_bytes(dict(parts)['journal.entry'], 'little')
        self.put_journals(entry(history, last + 1, [([name for name, _ in parts].index('config.values'), 0, b'\1')]))
        self.refused_for(image_of(parts, self.version), 'a change that no unit has')

    def test_counts_that_no_unit_has_are_refused(self):
        for file, many in ((0, 33), (1, 255), (2, 1)):
            counts = bytearray(32)
            counts[file] = many
            self.refused_for(image_of(self.older(counts=bytes(counts)), self.version), 'no unit keeps')


class BroughtUnmarked(Brought):
    version = 4


class BroughtUntold(Brought):
    version = 5

    def test_what_files_keep_from_now_on_is_told(self):
        self.put_state(image_of(self.older(), self.version))
        self.assertNotIn('from now on', self.begin()[0].errors(), 'the file says it already')

    def test_a_word_set_ready_made_goes_on(self):
        self.config = self.write('conf', f'unit {UNIT}\ninputs 02h\n' + ''.join(f'file {f} {values} oldest\n' for f, values in FILES.items()))
        words = bytearray(512)
        words[4:6] = b'\x21\x80'  # contacts 0 and 5 of group 2 closed, and a mark at contact 7
        self.put_state(image_of(self.older(words=bytes(words)), self.version))
        unit, wire = self.begin()
        self.assertEqual(wire.ask(frame(A, UNIT, 0x00, 0x04)).data, b'\x21\x80')
        self.assertEqual(wire.ask(frame(A, UNIT, 0x00, 0x04)).data, b'\x21\0')
        unit.end(signal.SIGKILL)


class BroughtUnsampled(Brought):
    version = 6

    def test_what_files_keep_from_now_on_is_told(self):
        self.put_state(image_of(self.older(), self.version))
        self.assertNotIn('from now on', self.begin()[0].errors(), 'the file says it already')

    def test_a_changed_contact_stays_one(self):
        self.config = self.write('conf', f'unit {UNIT}\ninputs 02h\n' + ''.join(f'file {f} {values} oldest\n' for f, values in FILES.items()))
        changed, words = bytearray(32), bytearray(512)
        changed[2], words[4] = 1, 1
        self.put_state(image_of(self.older(changed=bytes(changed), words=bytes(words)), self.version))
        unit, wire = self.begin()
        self.tell('events', 'contact 16 0')
        until(lambda: unit.log('E'))
        self.assertEqual(wire.ask(frame(A, UNIT, 0x00, 0x04)).data, b'\0\1')

    def test_means_in_the_configuration_make_it_another(self):
        with open(self.config, 'a') as config:
            config.write('calculations 0\ninputs 80h\n')
        parts = self.older()
        with open(self.config, 'a') as config:
            config.write('mean 0 80h 1\n')
        self.refused_for(image_of(parts, self.version), 'another configuration')


class BroughtUnplanned(BroughtUnsampled):
    version = 7

    def test_a_table_is_scanned_by_the_plan_that_is_made_of_it(self):
        fixed = bytearray(528)
        fixed[16:19] = b'\0\1\x30'  # table 1 has the number 30h
        words = bytearray(512)
        words[0x60:0x62] = b'\x34\x12'
        self.put_state(image_of(self.older(fixed=bytes(fixed), words=bytes(words)), self.version))
        unit, wire = self.begin()
        self.assertEqual(wire.ask(frame(A, UNIT, 0x0A, 0x41)).data, b'\x34\x12')
        unit.end(signal.SIGKILL)


class Before(Older):
    def test_a_file_of_version_2_is_read(self):
        parts = [part for part in self.older() if not part[0].startswith('journal.')]
        for name in [name for name in os.listdir(self.folder) if name.startswith('state.')]:
            os.remove(self.path(name))
        self.put_state(image_of(parts, 2))
        self.assertEqual(self.all_held(), self.wanted)
        self.kept_as_now()


class Refused(Older):
    def test_it_is_never_misread(self):
        good = self.older()
        for version in (4, 5, 6, 7, 8):
            self.refused_for(image_of(good, version), 'the layout 1')
        self.refused_for(image_of(self.older(layout=b'\2\0'), 3), 'the layout 2')
        self.refused_for(image_of(self.older(records=bytes(PACKED)), 3), "'records' has not 38912 ")
        self.refused_for(image_of(self.older(layout=b'\2\0'), 4), f"'records' has not {PACKED} ")
        for version, layout in ((8, 5), (7, 4), (7, 6), (6, 3), (6, 5), (5, 2), (5, 4), (4, 3), (3, 3)):
            self.refused_for(image_of(self.older(layout=bytes([layout, 0])), version), f'the layout {layout}')
        self.config = SAMPLE
        self.refused_for(image_of(good, 3), 'another configuration')
