"""sizes.py LIBRARY: bytes of code and constants in a static library, then what it takes from elsewhere.

Of ELF objects the sections that are loaded count, but for tables for unwinding; of WebAssembly the sections of code and data.
"""
import struct
import sys

LOADED, SYMBOLS, UNWINDING = 2, 2, ('.eh_frame', '.ARM.exidx', '.ARM.extab')


def members(archive):
    at = 8
    while at < len(archive):
        size = int(archive[at + 48:at + 58])
        yield archive[at + 60:at + 60 + size]
        at += 60 + size + size % 2


def elf(chars):
    wide = chars[4] == 2
    start, each, many, named = struct.unpack_from('<40xQ10xHHH' if wide else '<32xI10xHHH', chars)
    sections = [struct.unpack_from('<IIQQQQIIQQ' if wide else '<IIIIIIIIII', chars, start + i * each) for i in range(many)]

    def text(table, at):
        return chars[sections[table][4] + at:].split(b'\0', 1)[0].decode()

    size = sum(s[5] for s in sections if s[2] & LOADED and not text(named, s[0]).startswith(UNWINDING))
    outside = set()
    for s in (s for s in sections if s[1] == SYMBOLS):
        for at in range(s[4], s[4] + s[5], s[9]):
            name, section = struct.unpack_from('<I2xH' if wide else '<I10xH', chars, at)
            if section == 0 and name:
                outside.add(text(s[6], name))
    return size, outside


def number(chars, at):
    value = shift = 0
    while True:
        value |= (chars[at] & 0x7F) << shift
        at, shift = at + 1, shift + 7
        if not chars[at - 1] & 0x80:
            return value, at


def wasm(chars):
    at, found, outside = 8, 0, set()
    while at < len(chars):
        kind = chars[at]
        size, at = number(chars, at + 1)
        found += size if kind in (10, 11) else 0
        if kind == 2:
            outside = {name for name in ('memset', 'memmove', 'memcpy') if name.encode() in chars[at:at + size]}
        at += size
    return found, outside


def main():
    with open(sys.argv[1], 'rb') as f:
        archive = f.read()
    total, outside = 0, set()
    for chars in members(archive):
        if chars[:4] in (b'\x7fELF', b'\0asm'):
            size, names = (elf if chars[:4] == b'\x7fELF' else wasm)(chars)
            total, outside = total + size, outside | names
    print(total, ', '.join(f'`{name}`' for name in sorted(outside)))


main()
