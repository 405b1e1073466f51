"""A master that gathers a history file, record by record: it acknowledges only what it has received, and repeats what it has not."""
import time

from live import UNIT, frame


class Master:
    def __init__(self, wire, number, file, timeout, pause=0.0):
        self.wire, self.number, self.file, self.timeout, self.pause = wire, number, file, timeout, pause
        self.open = False  # no whole reply came to the latest request
        self.empty = False  # the latest reply carried no record
        self.received = []  # the first value of each record, as they came
        self.requests = self.repeats = 0
        self.waited = []  # seconds from request to reply

    def poll(self):
        """One request for a record. Answers whether a whole reply came in time."""
        time.sleep(self.pause)
        command = (0x00 if self.open else 0x40) | self.file
        self.requests += 1
        self.repeats += self.open
        began = time.monotonic()
        reply = self.wire.ask(frame(self.number, UNIT, 0x04, command), self.timeout)
        if not reply:
            self.open = True
            return False
        self.waited.append(time.monotonic() - began)
        self.empty = reply.data == b'\0'
        # a NOP to a repeat: the unit never heard the request, or has answered another master since
        if not reply.function & 0xC0 and reply.data[0] & 0x7F:
            value = int.from_bytes(reply.data[7:9], 'little')
            if not self.open or self.received[-1:] != [value]:
                self.received.append(value)
        self.open = False
        return True
