"""A master's frames and their check characters, worked apart from the library: what tools, checks and tests in Python share."""


def check(chars):
    """The check word by plain division, low bit of each character first."""
    word = 0
    for char in chars:
        word ^= char
        for _ in range(8):
            word = word >> 1 ^ (0xA001 if word & 1 else 0)
    return word


def checked(chars):
    """Characters with their check characters behind them."""
    return chars + check(chars).to_bytes(2, 'little')


def frame(master, unit, function, command, data=b''):
    address = (master << 11 | unit).to_bytes(2, 'little')
    return checked(address + bytes([function, command]) + len(data).to_bytes(2, 'little') + data)
