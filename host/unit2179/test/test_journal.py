"""Keeping what changed: how much is written, and what comes back when the disk fails, is full, or was cut off in the middle of a write."""
import os
import random
import signal
import time

from live import A, B, SAMPLE, UNIT, LiveTest, frame, until

SCAN = frame(A, UNIT, 0x00, 0x40)  # the accumulators
SET_TIME = frame(A, UNIT, 0x20, 0x38, bytes([3, 0x66, 0x23, 0, 0, 0, 0]))
FILES = ('state', 'state.journal-a', 'state.journal-b')
HEAD = 18


class JournalTest(LiveTest):
    options = ('--config', SAMPLE, '--state', 'state', '--events', 'events')

    def begin(self, slow=False):
        unit = self.slow_unit(*self.options, '--reply-within', '10000') if slow else self.unit(*self.options)
        return unit, self.wire(unit.name)

    def files(self):
        """What is in each file."""
        found = {}
        for name in FILES:
            with open(self.path(name), 'rb') as file:
                found[name] = file.read()
        return found

    def put(self, files):
        for name, chars in files.items():
            with open(self.path(name), 'wb') as file:
                file.write(chars)

    def pulses(self, unit, many):
        """Counts pulses, one an event, until all are told as kept."""
        before = len(unit.log('E'))
        self.tell('events', *['pulse 40h 1'] * many)
        until(lambda: len(unit.log('E')) == before + many, 60)

    def counted(self, wire):
        return int.from_bytes(wire.ask(SCAN).data[:2], 'little')


class Costs(JournalTest):
    def test_what_changes_nothing_that_must_last_is_not_written(self):
        unit, wire = self.begin()
        self.pulses(unit, 3)
        before = self.files()
        for request in (SCAN, frame(A, UNIT, 0x28, 0x31), frame(B, UNIT, 0x10, 0x20), frame(A, UNIT, 0x7F, 0), frame(A, UNIT, 0x28, 0x30, b'\0\0\6\5')):
            for _ in range(4):
                self.assertTrue(wire.ask(request))
        self.tell('events', 'word 30h 0', 'pulse 40h 0', 'pulse 30h 1')
        until(lambda: len(unit.log('E')) == 6)
        self.assertTrue(self.files() == before)

    def test_what_changed_is_written_and_no_more(self):
        unit, wire = self.begin()
        self.pulses(unit, 1)
        before = self.files()
        self.assertTrue(wire.ask(SET_TIME))
        after = self.files()
        self.assertTrue(after['state'] == before['state'])
        changed = [i for name in FILES for i in range(len(after[name])) if after[name][i:i + 1] != before[name][i:i + 1]]
        self.assertTrue(10 < len(changed) < 200, f'{len(changed)} characters were written')

    def test_the_state_file_is_made_anew_now_and_then(self):
        unit, wire = self.begin()
        before = self.files()['state']
        self.pulses(unit, 1800)
        until(lambda: self.files()['state'] != before)
        unit.end(signal.SIGKILL)
        unit, wire = self.begin()
        self.assertEqual(self.counted(wire), 1800)


class Faults(JournalTest):
    """A request that cannot be kept is not answered, and the unit ends; what was answered before is there when it comes back."""

    def back(self, unit, least, most):
        self.assertEqual(unit.process.wait(10), 4)
        self.assertIn('cannot be kept', unit.errors())
        self.disk()
        unit, wire = self.begin()
        self.assertIn(self.counted(wire), range(least, most + 1))
        self.assertTrue(wire.ask(SET_TIME))
        unit.end()

    def test_a_disk_that_fails(self):
        for fault in ('fail sync 5', 'fail write 5', 'short 0', 'short 20', 'short 70'):
            with self.subTest(fault):
                unit, wire = self.begin(slow=True)
                before = self.counted(wire)
                self.pulses(unit, 5)
                wire.drain()
                self.disk(fault)
                self.assertIsNone(wire.ask(SET_TIME, 3))
                self.back(unit, before + 5, before + 5)

    def test_an_event_that_cannot_be_kept_is_not_told_as_done(self):
        unit, wire = self.begin(slow=True)
        self.pulses(unit, 5)
        self.disk('fail sync 5')
        self.tell('events', 'pulse 40h 1')
        self.assertEqual(unit.process.wait(10), 4)
        self.assertEqual(len(unit.log('E')), 5)
        self.back(unit, 5, 6)

    def test_a_full_disk_is_no_hindrance_while_the_journal_has_room(self):
        unit, wire = self.begin(slow=True)
        before = self.files()['state']
        self.disk('fail rename 28')
        self.pulses(unit, 1200)  # over half of a journal, even where no millisecond passes between two
        until(lambda: unit.errors().count('cannot be made anew: No space left') == 1)
        self.assertTrue(self.files()['state'] == before)
        unit.end(signal.SIGKILL)
        self.disk()
        unit, wire = self.begin(slow=True)
        self.assertEqual(self.counted(wire), 1200)
        self.assertTrue(self.files()['state'] != before)


class Damage(JournalTest):
    def kept(self):
        """Files of a unit that was killed: entries stand in the journal, and the state file has none of them."""
        unit, wire = self.begin()
        self.pulses(unit, 3)
        self.tell('events', 'record 7 1 77')
        until(lambda: len(unit.log('E')) == 4)
        unit.end(signal.SIGKILL)
        return self.files()

    def found(self):
        """What a unit comes back with: its count, how many records it has, and the last one's value."""
        unit, wire = self.begin()
        records = wire.ask(frame(B, UNIT, 0x04, 0x67)).data
        found = (self.counted(wire), records[0], records[-2:] if records[0] else b'')
        unit.end(signal.SIGKILL)
        return found

    def ends(self, journal):
        """Where the entries of a journal end, each of which stands there twice."""
        at, ends = HEAD, []
        while journal[at:at + 2] == b'EN':
            at += 2 * int.from_bytes(journal[at + 2:at + 6], 'little')
            ends.append(at)
        return ends

    def test_a_write_that_was_cut_off_anywhere_never_happened_or_did(self):
        good = self.kept()
        journal = good['state.journal-a']
        *_, start, end = self.ends(journal)
        chance = random.Random(2179)
        cuts = [start, start + 1, (start + end) // 2 - 1, (start + end) // 2, end - 1, *(chance.randrange(start, end) for _ in range(6))]
        for cut in cuts:
            for rest in (bytes(end - cut), chance.randbytes(end - cut)):
                with self.subTest(cut=cut - start):
                    cut_off = journal[:cut] + rest + journal[end:]
                    self.put({**good, 'state.journal-a': cut_off})
                    whole = slice(start, (start + end) // 2)  # what stands behind a cut may by chance be what was cut off
                    once = cut_off[whole] == journal[whole]
                    self.assertEqual(self.found(), (3, 1, (77).to_bytes(2, 'little')) if once else (3, 0, b''))

    def test_a_hole_before_the_end_is_refused(self):
        good = self.kept()
        journal = good['state.journal-a']
        for first, end in zip([HEAD, *self.ends(journal)], self.ends(journal)[:-1]):
            self.put({**good, 'state.journal-a': journal[:first] + bytes(end - first) + journal[end:]})
            status, said = self.refused(*self.options)
            self.assertEqual(status, 4)
            self.assertIn('an entry is missing', said)

    def test_no_flipped_bit_loses_anything(self):
        good, chance = self.kept(), random.Random(2179)
        whole = self.ends(good['state.journal-a'])[-1]
        places = [('state.journal-a', chance.randrange(whole)) for _ in range(24)] + [('state.journal-a', i) for i in range(HEAD + 3)]
        places += [('state.journal-a', chance.randrange(whole, 131072)), ('state.journal-b', 0), ('state.journal-b', 5000)]
        for name, place in places:
            wrong = bytearray(good[name])
            wrong[place] ^= 1 << chance.randrange(8)
            self.put({**good, name: bytes(wrong)})
            with self.subTest(name=name, place=place):
                if place < HEAD:
                    self.assertIn('journal is not whole', self.refused(*self.options)[1])
                else:
                    self.assertEqual(self.found(), (3, 1, (77).to_bytes(2, 'little')))

    def test_a_journal_that_is_cut_or_gone_is_refused_unless_given_up(self):
        good = self.kept()
        for journal in (good['state.journal-a'][:-1], b'', good['state.journal-a'] + b'\0', None):
            self.put(good)
            if journal is None:
                os.remove(self.path('state.journal-a'))
            else:
                self.put({'state.journal-a': journal})
            status, said = self.refused(*self.options)
            self.assertEqual((status, 'its journal is' in said), (4, True), said)
        os.remove(self.path('state.journal-b'))
        unit = self.unit(*self.options, '--fresh')
        self.assertEqual(self.counted(self.wire(unit.name)), 0)

    def test_nobody_elses_file_is_written_over(self):
        self.write('state.journal-a', 'a diary')
        status, said = self.refused(*self.options)
        self.assertEqual(status, 4)
        self.assertIn('in the way', said)
        with open(self.path('state.journal-a')) as file:
            self.assertEqual(file.read(), 'a diary')

    def test_entries_of_another_history_are_not_taken(self):
        good = self.kept()
        unit = self.unit(*self.options, '--fresh')
        unit.end(signal.SIGKILL)
        self.put({name: good[name] for name in FILES[1:]})
        self.assertEqual(self.found(), (0, 0, b''))


class Kills(JournalTest):
    def test_kills_while_the_state_file_is_made(self):
        """Pulses are told in a flood, and the unit is killed while it takes them, at times just when a journal is half full."""
        chance, least, most = random.Random(2179), 0, 0
        for turn in range(6):
            unit, wire = self.begin()
            counted = self.counted(wire)
            self.assertIn(counted, range(least, most + 1))
            before = len(unit.log('E'))
            with open(self.path('events'), 'w') as events:
                events.write('pulse 40h 1\n' * 1500)
                events.flush()
                told = chance.randrange(600, 800)
                until(lambda: len(unit.log('E')) >= before + told, 60)
                time.sleep(chance.uniform(0, 0.02))
                unit.end(signal.SIGKILL)
            least = counted + len(unit.log('E')) - before
            most = least + 1
