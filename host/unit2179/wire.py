"""A master's end of a line: frames sent to a device, a pseudo-terminal or a TCP port, and the replies that come."""
import collections
import os
import select
import socket
import time
import tty

from frames import check

Reply = collections.namedtuple('Reply', 'address function status port data chars')


class Wire:
    """An open line. `place` is a path, ADDRESS:PORT, or an open file that stays the caller's."""

    def __init__(self, place):
        self.socket = None
        if isinstance(place, int):
            self.file = os.dup(place)
        elif os.path.exists(place):
            self.file = os.open(place, os.O_RDWR | os.O_NOCTTY)
            tty.setraw(self.file)
        else:
            address, colon, port = place.rpartition(':')
            if not colon:
                raise ValueError('no such device, and no ADDRESS:PORT')
            self.socket = socket.create_connection((address.strip('[]'), int(port)), timeout=5)
            self.socket.setsockopt(socket.IPPROTO_TCP, socket.TCP_NODELAY, 1)
            self.file = self.socket.fileno()

    def close(self):
        if self.socket:
            self.socket.close()
        else:
            os.close(self.file)

    def send(self, chars):
        os.write(self.file, chars)

    def drain(self):
        """Reads away what nobody waits for any more."""
        while select.select([self.file], [], [], 0)[0] and os.read(self.file, 4096):
            pass

    def receive(self, seconds):
        """The whole and checked reply that comes within some seconds, or None."""
        chars, until = b'', time.monotonic() + seconds
        while select.select([self.file], [], [], max(0, until - time.monotonic()))[0]:
            more = os.read(self.file, 4096)
            chars += more
            if not more or len(chars) >= 7 and len(chars) >= 9 + int.from_bytes(chars[5:7], 'little'):
                break
        if len(chars) < 9 or len(chars) != 9 + int.from_bytes(chars[5:7], 'little') or check(chars):
            return None
        return Reply(int.from_bytes(chars[:2], 'little'), chars[2], chars[3], chars[4], chars[7:-2], chars)

    def ask(self, chars, seconds=10):
        self.drain()
        self.send(chars)
        return self.receive(seconds)
