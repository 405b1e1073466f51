"""A capture of what is heard and sent: read here block by block, and by Wireshark's own program where that is installed."""
import os
import shutil
import struct
import subprocess
import time
import unittest

from live import A, UNIT, LiveTest, frame, until

SCAN = frame(A, UNIT, 0x00, 0x41)
OTHER = frame(A, 77, 0x00, 0x41)


def blocks(chars):
    """The blocks of a capture, each as its type and what it has."""
    while chars:
        kind, many = struct.unpack_from('<II', chars)
        assert many % 4 == 0 and chars[many - 4:many] == struct.pack('<I', many)
        yield kind, chars[8:many - 4]
        chars = chars[many:]


class Capture(LiveTest):
    def captured(self):
        """A reply of a unit that captures, what it heard besides, and the file."""
        unit = self.unit('--capture', 'capture.pcapng')
        wire = self.wire(unit.name)
        reply = wire.ask(SCAN).chars
        wire.send(OTHER)
        until(lambda: len(unit.log('R')) == 2)
        unit.end()
        with open(self.path('capture.pcapng'), 'rb') as file:
            return reply, file.read()

    def test_it_has_every_stretch_and_reply_in_order(self):
        began = time.time()
        reply, chars = self.captured()
        ended = time.time()
        found = list(blocks(chars))
        self.assertEqual([kind for kind, _ in found], [0x0A0D0D0A, 1, 6, 6, 6])
        self.assertEqual(struct.unpack_from('<IHHq', found[0][1]), (0x1A2B3C4D, 1, 0, -1))
        self.assertEqual(struct.unpack_from('<HHI', found[1][1]), (250, 0, 0))
        for (_, packet), (sender, expected) in zip(found[2:], ((1, SCAN), (2, reply), (1, OTHER))):
            interface, high, low, many, was = struct.unpack_from('<IIIII', packet)
            self.assertEqual((interface, many, was), (0, 12 + len(expected), 12 + len(expected)))
            self.assertTrue(began - 0.01 <= (high << 32 | low) / 1e6 <= ended + 0.01)
            seconds, micro, who, signals, rest = struct.unpack_from('>IIBBH', packet, 20)
            self.assertEqual((seconds * 1000000 + micro, who, signals, rest), (high << 32 | low, sender, 0, 0))
            self.assertEqual(packet[32:20 + many], expected)

    def test_a_second_run_is_a_second_section(self):
        self.captured()
        _, chars = self.captured_again()
        self.assertEqual([kind for kind, _ in blocks(chars)], 2 * [0x0A0D0D0A, 1, 6, 6, 6])

    def captured_again(self):
        os.remove(self.path('log'))
        return self.captured()

    @unittest.skipUnless(shutil.which('tshark'), 'tshark is not installed')
    def test_wireshark_reads_it(self):
        reply, _ = self.captured()
        done = subprocess.run(['tshark', '-r', self.path('capture.pcapng'), '-d', 'rtacser.data,cp2179', '-T', 'fields', '-e', 'frame.protocols',
                               '-e', 'frame.len'], capture_output=True, text=True, check=True)
        lines = [line.split('\t') for line in done.stdout.splitlines()]
        self.assertEqual([int(many) for _, many in lines], [12 + len(SCAN), 12 + len(reply), 12 + len(OTHER)])
        self.assertTrue(all('rtacser' in protocols and 'cp2179' in protocols for protocols, _ in lines), lines)
