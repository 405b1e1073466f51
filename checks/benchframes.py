"""Lines for the bench program: what checks/bench-stdin and checks/bench-lines share."""
import os
import sys

sys.path.insert(0, os.path.join(os.path.dirname(os.path.dirname(os.path.abspath(__file__))), 'host', 'master'))
import frames  # noqa: E402

UNIT, ALL = 1234, 0x7FF


def frame(function, command, data=b'', master=1, unit=UNIT):
    return frames.frame(master, unit, function, command, data)


def heard(stretch):
    return b'R\t' + stretch.hex().upper().encode()


def passed(ms):
    return b'T\t%d' % ms


def asked(function, command, data=b'', master=1, unit=UNIT):
    return heard(frame(function, command, bytes(data), master, unit))


def place(bias, ordinal):
    """The data of a WRITE, and the front of those of a READ."""
    return bias.to_bytes(2, 'little') + bytes([ordinal])


def written(bias, ordinal, data, master=1):
    """A WRITE and its EXECUTE."""
    return [asked(0x20, 0x30, place(bias, ordinal), master), asked(0x20, 0x31, data, master)]


def both(bias, ordinal, data, master=1, unit=UNIT):
    """The characters of the two, with no idle mark between."""
    return frame(0x20, 0x30, place(bias, ordinal), master, unit) + frame(0x20, 0x31, data, master, unit)


def table(numbers, first=0, second=0):
    return bytes([first << 4 | second, len(numbers)]) + bytes(numbers)


def tables(area, master=1):
    """The table area is ordinal 03: 256 characters, in two halves."""
    area = area.ljust(256, b'\0')
    return written(0, 0x03, area[:128], master) + written(128, 0x03, area[128:], master)


def bcd(number):
    return number // 10 << 4 | number % 10


def time_of(day, hour, minute, second, ms):
    """Set Time's seven characters; milliseconds high character first (paper 6.5)."""
    return bytes([day // 100, bcd(day % 100), bcd(hour), bcd(minute), bcd(second)]) + ms.to_bytes(2, 'big')
