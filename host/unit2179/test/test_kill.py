"""SIGKILL at any moment: each request and each event has wholly happened or not at all, and what was answered has happened.

The test keeps every state that the unit may be in. What was answered leaves only the states that give that answer; what was not
answered adds, to each state, the one behind it. No state left is a lost, forged, half-released or half-dropped record. The masters
acknowledge only what they have received: a request without a whole reply is repeated without its acknowledge bit.
"""
import collections
import random
import re
import signal
import time

from live import A, B, SAMPLE, UNIT, LiveTest, frame

LOAD = 7  # a file of one value a record that keeps the newest: 32 records are 257 characters and fit one reply
ROOM = 32
SIZE = 8
KILLS, SECONDS = 60, 15  # whichever is reached first

State = collections.namedtuple('State', 'held memory dropped')  # memory: master, dump, quantity, flag of the latest history reply


def answered(state, master, command):
    """The data of a reply to a history request, None for a NOP, and the state behind it."""
    acknowledges, dump = command & 0x40, bool(command & 0x20)
    held, memory, dropped = state
    if not acknowledges:
        if memory is None or memory[:2] != (master, dump):
            return None, state
        return (memory[3], held[:memory[2]]), state
    if memory and memory[0] == master:
        held = held[memory[2]:]
    quantity = len(held) if dump else min(1, len(held))
    flag = len(held) > quantity
    return (flag, held[:quantity]), State(held, (master, dump, quantity, flag), dropped)


def stored(state, *values):
    """The state behind records that are stored: a full file drops the oldest that the latest history reply does not have."""
    held, memory, dropped = state
    place = memory[2] if memory else 0
    for value in values:
        if len(held) == ROOM and place < ROOM:
            held, dropped = held[:place] + held[place + 1:], dropped + (held[place],)
        if len(held) < ROOM:
            held += (value,)
    return State(held, memory, dropped)


class Kill(LiveTest):
    def setUp(self):
        super().setUp()
        self.chance = random.Random(2179)
        self.line, name = self.pair()
        self.options = ['--config', SAMPLE, '--state', 'state', '--events', 'events', '--serial', name, '--gap', '5']
        self.states = {State((), None, ())}
        self.next_value = 1
        self.sure = set()  # values that were told as stored
        self.received = {A: [], B: []}
        self.open = {A: None, B: None}  # the latest request, where no whole reply came
        self.begin()

    def begin(self):
        """A unit that comes back tells how many records its file has dropped."""
        self.process = self.unit(*self.options)
        told = re.search(r'has dropped: (\d+)', self.process.errors().rpartition('goes on')[2])
        self.narrowed([(len(state.dropped), state) for state in self.states], int(told[1]) if told else 0)

    def data_of(self, reply):
        if reply.function & 0xC0:
            return None
        records = [reply.data[i:i + SIZE] for i in range(1, len(reply.data), SIZE)]
        self.assertEqual(reply.data[0] & 0x7F, len(records))
        return bool(reply.data[0] & 0x80), tuple(int.from_bytes(r[6:8], 'little') for r in records)

    def narrowed(self, pairs, seen):
        self.states = {state for answer, state in pairs if answer == seen}
        self.assertTrue(self.states, f'{seen} is no answer that any state gives')

    def ask(self, master, command, kill_after):
        """A history request, with a kill some seconds later unless that is None. A reply may still have gone out before it."""
        if self.open[master] is not None:
            command = self.open[master] & ~0x40
        pairs = [answered(state, master, command) for state in self.states]
        self.line.drain()
        self.line.send(frame(master, UNIT, 0x04, command | LOAD))
        reply = self.line.receive(10 if kill_after is None else kill_after)
        if kill_after is not None:
            self.process.end(signal.SIGKILL)
            reply = reply or self.line.receive(0.01)
        if reply:
            self.narrowed(pairs, self.data_of(reply))
            self.received[master] += (self.data_of(reply) or (0, ()))[1]
            self.open[master] = None
        else:
            self.open[master] = command
            self.assertIsNotNone(kill_after, 'a unit that lives answers')
            self.states |= {state for _, state in pairs}

    def store(self, many, kill_after):
        values = range(self.next_value, self.next_value + many)
        self.next_value += many
        before = len(self.process.log('E'))
        self.tell('events', *(f'record {LOAD} 1 {value}' for value in values))
        end = time.monotonic() + (10 if kill_after is None else kill_after)
        while len(self.process.log('E')) < before + many and time.monotonic() < end:
            time.sleep(0.001)
        if kill_after is not None:
            self.process.end(signal.SIGKILL)
        told = self.process.log('E')[before:]
        self.states = {stored(state, *values[:len(told)]) for state in self.states}
        self.sure |= {value for value, line in zip(values, told) if line[-1] == '0'}
        if len(told) < many:
            self.assertIsNotNone(kill_after, 'a unit that lives takes events')
            self.states |= {stored(state, values[len(told)]) for state in self.states}

    def test_nothing_is_lost_or_forged(self):
        kills, end = 0, time.monotonic() + SECONDS
        while kills < KILLS and time.monotonic() < end:
            kill_after = self.chance.uniform(0, 0.03) if self.chance.random() < 0.5 else None
            if self.chance.random() < 0.45:
                self.store(self.chance.choice((1, 1, 20)), kill_after)
            else:
                self.ask(self.chance.choice((A, A, A, B)), self.chance.choice((0x40, 0x40, 0x60, 0x00, 0x20)), kill_after)
            if kill_after is not None:
                kills += 1
                self.begin()
        self.drain_by(A)
        self.assertLess(len(self.states), 2, 'the line has told which state the unit is in')
        [state] = self.states
        lost = self.sure - set(self.received[A]) - set(self.received[B])
        self.assertEqual(lost - set(state.dropped), set(), 'every record told as stored was received, or has made room for another')
        self.assertGreater(len(self.sure), len(state.dropped))
        self.assertGreater(len(state.dropped), 0)

    def drain_by(self, master):
        for _ in range(4):
            self.ask(master, 0x60, None)
        self.assertEqual({state.held for state in self.states}, {()})
