"""A bad line on purpose, between a master's connection and a unit's device: each stretch arrives, is lost, cut or changed."""
import os
import random
import select
import socket
import threading

QUIET = 0.012  # seconds behind a character that end a stretch


def damaged(chars, chance):
    """As it came; nothing; without its last characters; or changed within sixteen neighbouring bits."""
    how = chance.choice(('lost', 'cut', 'burst'))
    if how == 'lost':
        return b''
    if how == 'cut':
        return chars[:chance.randrange(len(chars))]
    bits = int.from_bytes(chars, 'little')
    burst = chance.randrange(1, 1 << 16) << chance.randrange(8 * len(chars))
    return (bits ^ burst & (1 << 8 * len(chars)) - 1).to_bytes(len(chars), 'little')


class Proxy:
    """Listens on a port of its own; `device` is the masters' end of a line, an open file."""

    def __init__(self, device, seed, rate):
        self.device, self.chance, self.rate = device, random.Random(seed), rate
        self.listener = socket.create_server(('127.0.0.1', 0))
        self.place = '127.0.0.1:%d' % self.listener.getsockname()[1]
        self.seen = {'whole': 0, 'damaged': 0}
        self.ended = False
        self.thread = threading.Thread(target=self.run, daemon=True)
        self.thread.start()

    def stretch(self, file):
        """What comes until the line is quiet; empty where it has ended."""
        chars = b''
        while True:
            more = os.read(file, 4096)
            chars += more
            if not more or not select.select([file], [], [], QUIET)[0]:
                return chars

    def passed(self, chars):
        if self.chance.random() >= self.rate:
            self.seen['whole'] += 1
            return chars
        self.seen['damaged'] += 1
        return damaged(chars, self.chance)

    def serve(self, master):
        while not self.ended:
            ready = select.select([master, self.device], [], [], 0.05)[0]
            for file in ready:
                chars = self.stretch(file)
                if not chars:
                    return
                chars = self.passed(chars)
                if chars:
                    os.write(self.device if file == master else master, chars)

    def run(self):
        while not self.ended:
            if not select.select([self.listener], [], [], 0.05)[0]:
                continue
            master = self.listener.accept()[0]
            master.setsockopt(socket.IPPROTO_TCP, socket.TCP_NODELAY, 1)
            try:
                self.serve(master.fileno())
            except OSError:
                pass  # a master that was killed
            master.close()

    def end(self):
        self.ended = True
        self.thread.join()
        self.listener.close()
